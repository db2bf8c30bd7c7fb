//! The parts of a picture that belong to its rows: indices, bands, arrows, marks and words.

use std::collections::BTreeSet;
use std::fmt::Write;

use plain::view::Carried;
use plain::CartNo;

use crate::layout::Layout;
use crate::story::{Arrow, Mark, Stay, Story};
use crate::words::{brief, short};

/// Words beside a row have at most so many letters.
const LETTERS: usize = 42;
/// Carts have so many colours, in turn.
const COLOURS: u8 = 8;
/// A long band has its number again after so much of it.
const AGAIN: f64 = 420.0;

/// A part of a picture, and the rows that it reaches over.
pub struct Shape {
    pub first: usize,
    pub last: usize,
    pub svg: String,
}

/// Everything that belongs to rows, what lies behind first.
pub fn shapes(story: &Story, layout: &Layout) -> Vec<Shape> {
    let mut shapes: Vec<Shape> =
        (0..layout.rows).filter_map(|row| index(story, layout, row)).collect();
    let stays = || story.stays.iter().zip(&layout.lanes);
    shapes.extend(stays().map(|(stay, lane)| band(stay, *lane, layout)));
    shapes.extend(story.arrows.iter().map(|arrow| drawn_arrow(arrow, layout)));
    let room = NumberRoom::of(story, layout);
    let numbered = stays().enumerate();
    shapes.extend(numbered.flat_map(|(k, (stay, lane))| room.numbers(k, stay, *lane)));
    if layout.is_wordy() {
        shapes.extend((0..layout.rows).map(|row| words(story, layout, row)));
    } else {
        let heights = layout.heights(&story.marks);
        let marks = story.marks.iter().zip(heights);
        shapes.extend(marks.map(|(mark, height)| mark_words(story, layout, mark, height)));
    }
    shapes.extend(marks(story, layout));
    shapes
}

/// A row's index and hairline, and a cross if it is refused, where it has any of these.
fn index(story: &Story, layout: &Layout, row: usize) -> Option<Shape> {
    let (y, end) = (layout.y(row), layout.margin() - 8.0);
    let refused = story.rows[row].refused;
    let mut svg = String::new();
    if row.is_multiple_of(layout.indexed()) {
        let class = if refused { "i no" } else { "i" };
        let _ = write!(svg, "<text class=\"{class}\" x=\"24\" y=\"{:.1}\">{row}</text>", y + 3.2);
        if row.is_multiple_of((5 * layout.indexed()).min(10)) {
            let _ = write!(svg, "<path class=\"tick\" d=\"M34 {y:.1}H{end:.1}\"/>");
        }
    }
    if refused {
        svg += &cross(29.5, y);
    }
    (!svg.is_empty()).then_some(Shape { first: row, last: row, svg })
}

/// The mark of what was refused.
pub fn cross(x: f64, y: f64) -> String {
    let (left, over) = (x - 2.2, y - 2.2);
    format!("<path class=\"x\" d=\"M{left:.1} {over:.1}l4.4 4.4m0 -4.4l-4.4 4.4\"/>")
}

fn colour(cart: CartNo) -> u8 {
    cart.0 % COLOURS
}

/// A cart's time at a station: a band, hollow from when it is leaving, with its number on it.
fn band(stay: &Stay, lane: usize, layout: &Layout) -> Shape {
    let (hue, wide) = (colour(stay.cart), layout.pitch - 2.0);
    let (line, left) = (layout.x(stay.station), layout.lane(stay.station, lane));
    let (top, end) =
        (layout.y(stay.came), stay.left.map_or(layout.bottom() + 6.0, |row| layout.y(row)));
    let leaving = stay.greeted.map_or(end, |row| layout.y(row));
    let mut svg = format!("<g><title>cart {} at station {}", stay.cart.0, stay.station.0);
    let _ = write!(svg, "</title><path class=\"a e q{hue}\" d=\"M{line:.1} {top:.1}H{left:.1}\"/>");
    for (class, from, to) in [("b", top, leaving), ("b l", leaving, end)] {
        if to > from {
            let _ = write!(
                svg,
                "<rect class=\"{class} q{hue}\" x=\"{left:.1}\" y=\"{from:.1}\" width=\"{wide:.1}\" \
                 height=\"{:.1}\" rx=\"1.5\"/>",
                to - from
            );
        }
    }
    if stay.left.is_some() {
        let _ = write!(svg, "<path class=\"a e q{hue}\" d=\"M{line:.1} {end:.1}H{left:.1}\"/>");
    }
    svg.push_str("</g>");
    Shape { first: stay.came, last: stay.left.unwrap_or(layout.rows), svg }
}

/// Where the numbers of carts can stand on their bands, over everything that crosses these.
struct NumberRoom<'a> {
    layout: &'a Layout,
    /// Where bands begin: station and row.
    starts: BTreeSet<(u8, usize)>,
    /// For each stay the rows of its receipts, whose rings would lie over a number.
    receipts: Vec<Vec<usize>>,
    /// So many rows are as high as a number.
    high: usize,
}

impl<'a> NumberRoom<'a> {
    fn of(story: &Story, layout: &'a Layout) -> Self {
        let starts = story.stays.iter().map(|stay| (stay.station.0, stay.came)).collect();
        let mut receipts = vec![Vec::new(); story.stays.len()];
        for (mark, stay) in story.marks.iter().filter_map(|mark| Some((mark, mark.stay?))) {
            receipts[stay].push(mark.row);
        }
        NumberRoom { layout, starts, receipts, high: (10.0 / layout.row).ceil() as usize }
    }

    /// The numbers of the k-th stay: where it begins, and again and again on a long one.
    fn numbers(&self, k: usize, stay: &Stay, lane: usize) -> Vec<Shape> {
        let (layout, wide) = (self.layout, self.layout.pitch - 2.0);
        let x = layout.lane(stay.station, lane) + wide / 2.0;
        // On a narrow band the number stands over its edges.
        let class = match wide >= 9.0 {
            true => format!("c q{}", colour(stay.cart)),
            false => "c h".into(),
        };
        let number = |row: usize| {
            let (y, cart) = (layout.y(row) + 9.0, stay.cart.0);
            let svg = format!("<text class=\"{class}\" x=\"{x:.1}\" y=\"{y:.1}\">{cart}</text>");
            Shape { first: row, last: row + 2, svg }
        };
        self.rows(k, stay, lane).into_iter().map(number).collect()
    }

    /// The rows that have the number of the k-th stay.
    fn rows(&self, k: usize, stay: &Stay, lane: usize) -> Vec<usize> {
        let every = (AGAIN / self.layout.row) as usize;
        let end = stay.greeted.or(stay.left).unwrap_or(self.layout.rows).saturating_sub(self.high);
        let first = (stay.came..end).find(|row| !self.is_covered(k, *row)).unwrap_or(stay.came);
        // The numbers are wider than a narrow lane. So those of lanes beside each other are not in
        // the same row, and none is repeated beside the beginning of a band.
        let own = |row: &usize| row % every == lane % 3 * self.high;
        let begins = |row: usize| {
            let near = row.saturating_sub(self.high)..row + self.high;
            self.starts.range((stay.station.0, near.start)..(stay.station.0, near.end)).count() > 0
        };
        let again = (first + every / 2..end).filter(own);
        let again = again.filter(|row| !begins(*row) && !self.is_covered(k, *row));
        std::iter::once(first).chain(again).collect()
    }

    /// Whether a receipt of the k-th stay lies over a number at this row, which stands below the
    /// row's middle.
    fn is_covered(&self, k: usize, row: usize) -> bool {
        let middle = self.layout.y(row) + 5.5;
        self.receipts[k].iter().any(|receipt| (self.layout.y(*receipt) - middle).abs() < 8.5)
    }
}

/// How a record's line is drawn, and what it is called.
fn style(record: Carried) -> (String, String) {
    match record {
        Carried::Multicast(name) => ("m".into(), format!("correction {}", short(name))),
        Carried::AckList(name, _) => ("k".into(), format!("acknowledgement of {}", short(name))),
        Carried::Delete(name) => ("d".into(), format!("delete of {}", short(name))),
        Carried::Deregister(cart) => {
            (format!("g q{}", colour(cart)), format!("cart {} has come", cart.0))
        }
        Carried::Register(cart) => {
            (format!("r q{}", colour(cart)), format!("cart {} handed over", cart.0))
        }
    }
}

/// A record's way. The head is open where it is still on the line.
fn drawn_arrow(arrow: &Arrow, layout: &Layout) -> Shape {
    let (class, what) = style(arrow.record);
    let from = (layout.x(arrow.from), layout.y(arrow.put));
    let end = arrow.handled.map_or(layout.bottom() + 6.0, |row| layout.y(row));
    let to = (layout.x(arrow.to), end);
    // A filled head: handled. An open one: still on the line.
    let (fill, open) = if arrow.handled.is_some() { (" f", "") } else { ("", " o") };
    let size = if layout.is_wordy() { 7.0 } else { 4.5 };
    let (way, tip) = match arrow.from == arrow.to {
        true => (looped(from, to), tip((to.0 - 8.0, to.1), to, size)),
        false => {
            (format!("M{:.1} {:.1}L{:.1} {:.1}", from.0, from.1, to.0, to.1), tip(from, to, size))
        }
    };
    let handled = arrow.handled.map_or("-".into(), |row| row.to_string());
    let svg = format!(
        "<g data-p=\"{0}\" data-h=\"{handled}\"><title>{what}, from {1} to {2}, frames {0} to {handled}\
         </title><path class=\"a {class}{open}\" d=\"{way}\"/>\
         <path class=\"a {class}{fill}{open}\" d=\"{tip}\"/></g>",
        arrow.put, arrow.from.0, arrow.to.0,
    );
    Shape { first: arrow.put, last: arrow.handled.unwrap_or(layout.rows), svg }
}

/// The way of a record from a station to itself, at the left of its life line.
fn looped((x, from): (f64, f64), (_, to): (f64, f64)) -> String {
    let out = x - 11.0;
    let bend = ((to - from) / 2.0).min(9.0);
    format!(
        "M{x:.1} {from:.1}Q{out:.1} {from:.1} {out:.1} {:.1}V{:.1}Q{out:.1} {to:.1} {x:.1} {to:.1}",
        from + bend,
        to - bend
    )
}

/// The head of an arrow.
fn tip(from: (f64, f64), to: (f64, f64), size: f64) -> String {
    let (dx, dy) = (to.0 - from.0, to.1 - from.1);
    let length = dx.hypot(dy).max(0.1);
    let (ux, uy) = (dx / length * size, dy / length * size);
    let (bx, by) = (to.0 - ux, to.1 - uy);
    let (sx, sy) = (-uy * 0.38, ux * 0.38);
    format!("M{:.1} {:.1}L{:.1} {:.1}L{:.1} {:.1}Z", to.0, to.1, bx + sx, by + sy, bx - sx, by - sy)
}

/// The words beside a row.
fn words(story: &Story, layout: &Layout, row: usize) -> Shape {
    let (said, y) = (&story.rows[row], layout.y(row) + 3.4);
    let big = story.marks.binary_search_by_key(&row, |mark| mark.row).is_ok();
    let class = match (said.refused, big) {
        (true, _) => "w no",
        (_, true) => "w big",
        _ => "w",
    };
    let svg = format!(
        "<text class=\"{class}\" x=\"{:.1}\" y=\"{y:.1}\">{}</text>",
        layout.margin(),
        fitted(&said.short)
    );
    Shape { first: row, last: row, svg }
}

/// In rows that are too low for words: those of a mark, and a line that leads to them.
fn mark_words(story: &Story, layout: &Layout, mark: &Mark, height: f64) -> Shape {
    let (margin, y) = (layout.margin(), layout.y(mark.row));
    let (near, far) = (margin - 8.0, margin - 2.0);
    let class = if mark.receiver.is_some() { "w big" } else { "w" };
    let svg = format!(
        "<path class=\"guide\" d=\"M{:.1} {y:.1}H{near:.1}L{far:.1} {height:.1}\"/>\
         <text class=\"{class}\" x=\"{margin:.1}\" y=\"{:.1}\">{} {}</text>",
        layout.x(mark.station),
        height + 3.0,
        mark.row,
        fitted(&story.rows[mark.row].short)
    );
    // Words may stand a few rows from their own.
    let moved = ((height - y).abs() / layout.row).ceil() as usize;
    Shape { first: mark.row.saturating_sub(moved), last: mark.row + moved, svg }
}

/// Words of no more letters than there is room for, as SVG has them.
fn fitted(words: &str) -> String {
    if words.chars().count() <= LETTERS {
        return escaped(words);
    }
    let front: String = words.chars().take(LETTERS - 1).collect();
    escaped(&(front + "\u{2026}"))
}

/// Text as SVG and HTML have it.
pub fn escaped(words: &str) -> String {
    words.replace('&', "&amp;").replace('<', "&lt;").replace('>', "&gt;").replace('"', "&quot;")
}

/// The marks of what was sent and received, with number and text where there is room.
fn marks(story: &Story, layout: &Layout) -> Vec<Shape> {
    // Where the last words stand in each column.
    let mut last = vec![f64::MIN; layout.columns.len()];
    let drawn = story.marks.iter().map(|mark| {
        let title = format!("<title>{}</title>", escaped(&story.rows[mark.row].short));
        let mut svg = match mark.stay {
            Some(stay) => received_mark(mark, layout, layout.lanes[stay], &title),
            None => sent_mark(mark, layout, &title),
        };
        let (y, column) = (layout.y(mark.row), layout.column(mark.station));
        let words = receipt(mark, column.end - column.words);
        let before = &mut last[mark.station.0 as usize];
        if mark.stay.is_some() && !words.is_empty() && y - *before >= 8.5 {
            *before = y;
            let (x, y) = (column.words + 2.0, y + 3.0);
            let _ = write!(svg, "<text class=\"h\" x=\"{x:.1}\" y=\"{y:.1}\">{words}</text>");
        }
        Shape { first: mark.row, last: mark.row, svg }
    });
    drawn.collect()
}

/// A receipt: a ring on the cart's band.
fn received_mark(mark: &Mark, layout: &Layout, lane: usize, title: &str) -> String {
    let (x, y) = (layout.lane(mark.station, lane) + layout.pitch / 2.0 - 1.0, layout.y(mark.row));
    let r = (0.36 * layout.pitch).clamp(2.2, 4.6);
    format!("<circle class=\"got\" cx=\"{x:.1}\" cy=\"{y:.1}\" r=\"{r:.1}\">{title}</circle>")
}

/// A send: a rhomb on the station's life line.
fn sent_mark(mark: &Mark, layout: &Layout, title: &str) -> String {
    let (x, y) = (layout.x(mark.station), layout.y(mark.row));
    let r = if layout.is_wordy() { 5.0 } else { 3.4 };
    let (left, right, over, under) = (x - r, x + r, y - r, y + r);
    format!(
        "<path class=\"sent\" d=\"M{left:.1} {y:.1}L{x:.1} {over:.1}L{right:.1} {y:.1}L{x:.1} {under:.1}Z\">\
         {title}</path>"
    )
}

/// The number of a receipt and its text, as far as there is room.
fn receipt(mark: &Mark, room: f64) -> String {
    let number = short(mark.name);
    let whole = format!("{number} {}", brief(&mark.text));
    let fits = |words: &str| words.chars().count() as f64 * 5.2 + 2.0 <= room;
    match (fits(&whole), fits(&number)) {
        (true, _) => whole,
        (_, true) => number,
        _ => String::new(),
    }
}
