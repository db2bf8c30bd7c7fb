//! A picture of a run, in SVG: time runs downwards, a row for each frame. Stations are life lines,
//! carts are bands beside the station where they are, records are arrows from the row where they
//! were put on a line to the one where they were handled, receipts are marks.
//!
//! Colour says which cart and nothing else: records are told apart by how their lines are drawn, so
//! that a picture can be read in grey and by people who see few colours.

use std::fmt::Write;

use plain::Limits;

use crate::layout::Layout;
use crate::shapes::{cross, shapes};
use crate::story::Story;
use crate::walk::{BadFrame, Walk};
use crate::words::counted;

/// The style of pictures, of their own and in the page.
pub const STYLE: &str = include_str!("page/picture.css");
/// Above the first row: the title and the names of the stations.
const TOP: f64 = 72.0;
/// A row of the legend.
pub const LEGEND: f64 = 20.0;

/// The picture of a run.
pub fn picture(octets: &[u8], limits: Limits) -> Result<String, BadFrame> {
    let mut walk = Walk::new(octets, limits);
    let mut story = Story::new();
    while let Some(moment) = walk.step()? {
        story.add(&moment, walk.floor());
    }
    Ok(draw(&story, walk.floor().held()))
}

/// A picture on its own, with title and legend.
fn draw(story: &Story, held: usize) -> String {
    let layout = Layout::for_paper(story, TOP);
    let (legend, rows) = legend(layout.width());
    let (width, height) = (layout.width(), layout.bottom() + 22.0 + rows as f64 * LEGEND);
    let [size, came] = title(story, held);
    let dense = if layout.is_wordy() { "" } else { " dense" };
    let mut svg = format!(
        "<svg xmlns=\"http://www.w3.org/2000/svg\" class=\"run\" role=\"img\" \
         width=\"{width:.0}\" height=\"{height:.0}\" viewBox=\"0 0 {width:.0} {height:.0}\">\n\
         <title>{size}: {came}</title>\n<style>\n{STYLE}</style>\n\
         <rect class=\"paper\" width=\"100%\" height=\"100%\"/>\n\
         <text class=\"title\" x=\"12\" y=\"22\">{size}</text>\n\
         <text class=\"came\" x=\"12\" y=\"38\">{came}</text>\n{}<g class=\"rows{dense}\">\n{}",
        names(&layout, TOP - 10.0),
        life_lines(&layout)
    );
    for shape in shapes(story, &layout) {
        svg.push_str(&shape.svg);
        svg.push('\n');
    }
    let under = layout.bottom() + 22.0;
    let _ = write!(svg, "</g>\n<g transform=\"translate(0 {under:.0})\">\n{legend}</g>\n</svg>\n");
    svg
}

/// What a run was: its size, and what came of it.
pub fn title(story: &Story, held: usize) -> [String; 2] {
    let received = story.marks.iter().filter(|mark| mark.receiver.is_some()).count();
    let refused = story.rows.iter().filter(|row| row.refused).count();
    let size = format!(
        "{}, {}, {}",
        counted(story.rows.len() as u64, "frame"),
        counted(story.stations.into(), "station"),
        counted(story.carts.into(), "cart"),
    );
    let came = format!(
        "{} sent and {held} still held, {}, {} refused",
        counted((story.marks.len() - received) as u64, "correction"),
        counted(received as u64, "receipt"),
        counted(refused as u64, "frame"),
    );
    [size, came]
}

/// The names of the stations over their life lines.
pub fn names(layout: &Layout, y: f64) -> String {
    let narrow = layout.columns.first().is_some_and(|column| column.end - column.line < 50.0);
    let mut svg = String::new();
    for (station, column) in layout.columns.iter().enumerate() {
        let word = if narrow { "" } else { "station " };
        let x = column.line - 4.0;
        let _ =
            writeln!(svg, "<text class=\"name\" x=\"{x:.1}\" y=\"{y:.1}\">{word}{station}</text>");
    }
    if narrow {
        let _ = writeln!(svg, "<text class=\"i\" x=\"40\" y=\"{y:.1}\">station</text>");
    }
    svg
}

/// The life lines, from the first row to the last.
pub fn life_lines(layout: &Layout) -> String {
    let (top, bottom) = (layout.top, layout.bottom() + 8.0);
    layout.columns.iter().fold(String::new(), |mut svg, column| {
        let x = column.line;
        let _ = writeln!(svg, "<path class=\"life\" d=\"M{x:.1} {top:.1}V{bottom:.1}\"/>");
        svg
    })
}

/// What is drawn how.
fn samples() -> [(String, &'static str); 12] {
    let tip = "M26 0L19 -2.7L19 2.7Z";
    let line = |class: &str| format!("<path class=\"a {class}\" d=\"M0 0H22\"/>");
    let arrow = |class: &str| line(class) + &format!("<path class=\"a f {class}\" d=\"{tip}\"/>");
    let band = |class: &str| {
        format!("<rect class=\"{class}\" x=\"6\" y=\"-6\" width=\"13\" height=\"12\" rx=\"1.5\"/>")
    };
    [
        (arrow("m"), "correction"),
        (arrow("k"), "acknowledgement"),
        (arrow("d"), "delete"),
        (arrow("g q0"), "a cart has come"),
        (arrow("r q0"), "a cart is handed over"),
        (line("m o") + &format!("<path class=\"a m o\" d=\"{tip}\"/>"), "still on the line"),
        ("<path class=\"sent\" d=\"M8 0L13 -5L18 0L13 5Z\"/>".into(), "sent"),
        ("<circle class=\"got\" cx=\"13\" cy=\"0\" r=\"4.4\"/>".into(), "received"),
        (band("b q0"), "cart at a station"),
        (band("b l q0"), "leaving it"),
        (cross(13.0, 0.0), "refused"),
        (String::new(), "2:0 is correction 0 of station 2"),
    ]
}

/// What is drawn how, in rows that fit a width, and how many rows there are.
pub fn legend(width: f64) -> (String, usize) {
    let (mut svg, mut x, mut row) = (String::new(), 12.0, 0);
    for (drawn, word) in samples() {
        // Words stand right of what is drawn, if anything is.
        let at = if drawn.is_empty() { 0.0 } else { 32.0 };
        let wide = at + 16.0 + 5.8 * word.len() as f64;
        if x + wide > width && x > 12.0 {
            (x, row) = (12.0, row + 1);
        }
        let y = row as f64 * LEGEND + 8.0;
        let _ = writeln!(
            svg,
            "<g transform=\"translate({x:.0} {y:.0})\">{drawn}\
             <text class=\"w\" x=\"{at}\" y=\"3.4\">{word}</text></g>"
        );
        x += wide;
    }
    (svg, row + 1)
}
