//! A run as one page for a browser: the picture, and beside it the floor at each step. The page
//! loads nothing from elsewhere.

use plain::frames::Event;
use plain::{CartNo, Limits};

use crate::cells::{cells, changes, Cells};
use crate::json;
use crate::layout::Layout;
use crate::picture::{legend, life_lines, names, title, LEGEND, STYLE};
use crate::shapes::{escaped, shapes};
use crate::story::Story;
use crate::walk::{BadFrame, Moment, Walk};
use crate::words::{digits, short};

const PAGE: &str = include_str!("page/page.html");
const PAGE_STYLE: &str = include_str!("page/page.css");
const SCRIPT: &str = include_str!("page/page.js");
/// Where the names of stations stand in their strip.
const NAMES: f64 = 16.0;
/// How wide the legend is.
const LEGEND_WIDTH: f64 = 330.0;

/// What the page knows of a run.
#[derive(Default)]
struct Run {
    story: Story,
    /// What each frame changed of the floor's cells, in JSON.
    changes: Vec<String>,
    /// When a cart entered.
    entries: Vec<(usize, CartNo)>,
    held: usize,
}

/// The page of a run. `told` hears now and then how many octets have been read.
pub fn page(
    octets: &[u8],
    limits: Limits,
    mut told: impl FnMut(usize),
) -> Result<String, BadFrame> {
    let mut walk = Walk::new(octets, limits);
    let (mut run, mut before) = (Run::default(), Cells::new());
    while let Some(moment) = walk.step()? {
        run.story.add(&moment, walk.floor());
        run.note_entry(&moment);
        // A refusal changes nothing.
        let after = if moment.answer.is_ok() { cells(walk.floor()) } else { before.clone() };
        run.changes.push(json::object(&changes(&before, &after)));
        before = after;
        told(walk.position());
    }
    run.held = walk.floor().held();
    Ok(run.page())
}

impl Run {
    fn note_entry(&mut self, moment: &Moment) {
        if let (Event::Enter { cart, .. }, Ok(_)) = (&moment.event, &moment.answer) {
            self.entries.push((moment.index, *cart));
        }
    }

    fn page(&self) -> String {
        let [size, came] = title(&self.story, self.held);
        let (legend, rows) = legend(LEGEND_WIDTH);
        let last = self.story.rows.len().saturating_sub(1).to_string();
        let height = (rows as f64 * LEGEND + 8.0).to_string();
        let parts = [
            ("size", &*escaped(&size)),
            ("came", &*escaped(&came)),
            ("last", &*last),
            ("legend.height", &*height),
            ("legend", &*legend),
            ("picture.css", STYLE),
            ("page.css", PAGE_STYLE),
            ("run", &*self.json()),
            ("page.js", SCRIPT),
        ];
        filled(PAGE, &parts)
    }

    /// What the page's script reads.
    fn json(&self) -> String {
        let story = &self.story;
        let frames = story.rows.iter().map(|row| {
            let (printed, sentence) = (json::text(&row.printed), json::text(&row.sentence));
            json::list([printed, sentence, (row.refused as u8).to_string()])
        });
        let receipts = story.marks.iter().filter_map(|mark| {
            let (row, cart) = (mark.row.to_string(), mark.receiver?.0.to_string());
            let (name, text) = (json::text(&short(mark.name)), json::text(&digits(&mark.text)));
            Some(json::list([row, cart, name, text]))
        });
        let entries = self
            .entries
            .iter()
            .map(|(row, cart)| json::list([row.to_string(), cart.0.to_string()]));
        format!(
            "{{\"stations\":{},\"carts\":{},\n\"frames\":{},\n\"changes\":{},\n\"receipts\":{},\n\
             \"entries\":{},\n\"picture\":{}}}",
            story.stations,
            story.carts,
            json::list(frames),
            json::list(self.changes.iter().cloned()),
            json::list(receipts),
            json::list(entries),
            self.picture()
        )
    }

    /// The picture, in parts with the rows that they reach over.
    fn picture(&self) -> String {
        let layout = Layout::for_screen(&self.story);
        let shapes = shapes(&self.story, &layout).into_iter().map(|shape| {
            json::list([shape.first.to_string(), shape.last.to_string(), json::text(&shape.svg)])
        });
        format!(
            "{{\"width\":{:.0},\"narrow\":{:.0},\"row\":{},\"names\":{},\"lines\":{},\n\"shapes\":{}}}",
            layout.width(),
            layout.margin(),
            layout.row,
            json::text(&names(&layout, NAMES)),
            json::text(&life_lines(&layout)),
            json::list(shapes)
        )
    }
}

/// A text with its places, `{{name}}`, filled. What is filled in is not looked at again.
fn filled(text: &str, parts: &[(&str, &str)]) -> String {
    let mut page = String::new();
    let mut rest = text;
    while let Some((before, after)) = rest.split_once("{{") {
        let (name, behind) = after.split_once("}}").expect("a place that ends");
        let part = parts.iter().find(|(part, _)| *part == name);
        page.push_str(before);
        page.push_str(part.unwrap_or_else(|| panic!("nothing fills {name}")).1);
        rest = behind;
    }
    page + rest
}

#[cfg(test)]
mod tests {
    use super::*;

    #[test]
    fn places_are_filled_once() {
        let parts = [("a", "{{b}}"), ("b", "1")];
        assert_eq!(filled("x{{a}}y{{b}}z", &parts), "x{{b}}y1z");
    }

    #[test]
    fn a_run_without_frames() {
        let page = page(&[], Limits::FLOOR, |_| ()).unwrap();
        assert!(page.contains("<h1>0 frames, 0 stations, 0 carts</h1>"));
    }
}
