//! Pictures of runs.

mod common;

use std::fs;

use common::{path, stored};
use frames::generate::{stream, Wishes};
use frames::layout::Layout;
use frames::picture::picture;
use frames::script::script;
use frames::story::Story;
use frames::walk::Walk;
use plain::frames::Event;
use plain::Limits;

/// How often a text has another in it.
fn count(text: &str, part: &str) -> usize {
    text.matches(part).count()
}

/// The attributes of this name, in order.
fn attributes<'a>(svg: &'a str, name: &str) -> Vec<&'a str> {
    let begin = format!("{name}=\"");
    svg.split(&begin).skip(1).map(|rest| rest.split('"').next().unwrap()).collect()
}

/// Every element that begins also ends, in order.
fn assert_well_formed(svg: &str) {
    let mut open = Vec::new();
    for part in svg.split('<').skip(1) {
        let tag = part.split('>').next().unwrap();
        assert!(part.contains('>'), "{part}");
        assert_eq!(count(tag, "\"") % 2, 0, "{tag}");
        if let Some(name) = tag.strip_prefix('/') {
            assert_eq!(open.pop(), Some(name));
        } else if !tag.ends_with('/') {
            open.push(tag.split(' ').next().unwrap());
        }
    }
    assert!(open.is_empty(), "{open:?}");
}

/// What a run puts on lines and handles, by frames: (put, handled) for each record; and how many
/// corrections are sent and received.
fn told(octets: &[u8], limits: Limits) -> (Vec<(usize, Option<usize>)>, usize, usize) {
    let mut walk = Walk::new(octets, limits);
    let mut lines = vec![std::collections::VecDeque::new(); 256];
    let (mut records, mut sent, mut received) = (Vec::new(), 0, 0);
    while let Some(moment) = walk.step().unwrap() {
        let Ok(_) = moment.answer else { continue };
        match moment.event {
            Event::Wire { from, to } => {
                let put = lines[from.0 as usize * 16 + to.0 as usize].pop_front().unwrap();
                records.push((put, Some(moment.index)));
            }
            Event::Radio { .. } => received += 1,
            Event::Send { .. } | Event::GroupSend { .. } | Event::LongSend { .. } => sent += 1,
            _ => (),
        }
        // Whatever has come to a line was put there by this frame.
        for (k, line) in lines.iter_mut().enumerate() {
            let (from, to) = (plain::StationNo(k as u8 / 16), plain::StationNo(k as u8 % 16));
            line.resize(walk.floor().on_line(from, to), moment.index);
        }
    }
    records.extend(lines.into_iter().flatten().map(|put| (put, None)));
    records.sort();
    (records, sent, received)
}

/// Frames of a run that are refused.
fn refusals(octets: &[u8], limits: Limits) -> usize {
    let mut walk = Walk::new(octets, limits);
    let moments = std::iter::from_fn(|| walk.step().unwrap());
    moments.filter(|moment| moment.answer.is_err()).count()
}

fn assert_drawn(name: &str, octets: &[u8], limits: Limits) {
    let svg = picture(octets, limits).unwrap();
    assert_well_formed(&svg);
    let (records, sent, received) = told(octets, limits);
    let handled = attributes(&svg, "data-h").into_iter().map(|row| row.parse().ok());
    let put = attributes(&svg, "data-p").into_iter().map(|row| row.parse().unwrap());
    let mut arrows: Vec<(usize, Option<usize>)> = put.zip(handled).collect();
    arrows.sort();
    assert_eq!(arrows, records, "{name}: the arrows are the records");
    // The legend has one more of each, and one open arrow.
    assert_eq!(count(&svg, "class=\"got\""), received + 1, "{name}");
    assert_eq!(count(&svg, "class=\"sent\""), sent + 1, "{name}");
    let refused = count(&svg, "class=\"x\"") - 1;
    assert_eq!(refused, refusals(octets, limits), "{name}: a cross for each refusal");
    let open = records.iter().filter(|(_, handled)| handled.is_none()).count();
    assert_eq!(count(&svg, " o\" d=\"M"), 2 * open + 2, "{name}: open arrows have two parts");
}

#[test]
fn every_record_has_its_arrow_and_every_receipt_its_mark() {
    let mut drawn = 0;
    for run in stored() {
        if picture(&run.octets, run.limits).is_ok() {
            assert_drawn(&run.name, &run.octets, run.limits);
            drawn += 1;
        }
    }
    assert!(drawn > 45, "{drawn} runs");
    let wishes = Wishes { groups: 20, long: 20, retire: 5, ..Wishes::default() };
    assert_drawn("random", &stream(5, 3_000, wishes).0, Limits::FLOOR);
}

#[test]
fn receipts_have_their_number_and_text() {
    let text = "start 2 2\nenter 0 1\nsend 1 1 A1B2\nwire 1 0\nradio 0 1\nradio 0 1\n";
    let svg = picture(&script(text).unwrap(), Limits::FLOOR).unwrap();
    assert!(svg.contains(">1:0 a1b2</text>"), "{svg}");
    assert!(svg.contains(">cart 1 receives 1:0: a1b2</text>"));
    assert!(svg.contains("class=\"w no\"") && svg.contains(">no 17: "));
    assert!(svg.contains("<title>6 frames, 2 stations, 2 carts: 1 correction sent and 1 still"));
}

fn story_of(octets: &[u8]) -> Story {
    let (mut walk, mut story) = (Walk::new(octets, Limits::FLOOR), Story::new());
    while let Some(moment) = walk.step().unwrap() {
        story.add(&moment, walk.floor());
    }
    story
}

#[test]
fn thirty_frames_fit_a_screen_and_three_hundred_a_page() {
    for (stations, carts) in [(2, 2), (4, 6), (16, 64)] {
        let wishes = Wishes { stations, carts, ..Wishes::default() };
        let story = story_of(&stream(1, 30, wishes).0);
        let layout = Layout::for_paper(&story, 72.0);
        assert!(layout.is_wordy() && layout.bottom() < 800.0, "{}", layout.bottom());
        let story = story_of(&stream(1, 300, wishes).0);
        let layout = Layout::for_paper(&story, 72.0);
        // On paper of 190 by 277 millimetres the words, 9 high, are 1.4 millimetres or more.
        let scale = (190.0 / layout.width()).min(277.0 / (layout.bottom() + 80.0));
        assert!(9.0 * scale > 1.4, "{stations} stations: {:.2} mm", 9.0 * scale);
    }
}

#[test]
fn no_words_stand_over_others() {
    let story = story_of(&stream(2, 300, Wishes { stations: 3, carts: 4, ..Wishes::default() }).0);
    let layout = Layout::for_paper(&story, 72.0);
    assert!(!layout.is_wordy());
    let heights = layout.heights(&story.marks);
    assert_eq!(heights.len(), story.marks.len());
    for pair in heights.windows(2) {
        assert!(pair[1] - pair[0] >= 9.49, "{pair:?}");
    }
    assert!(heights[0] >= layout.top && heights[heights.len() - 1] <= layout.bottom());
}

#[test]
fn no_two_carts_share_a_lane_at_a_time() {
    let story = story_of(&stream(3, 3_000, Wishes::default()).0);
    let layout = Layout::for_screen(&story);
    let stays: Vec<_> = story.stays.iter().zip(&layout.lanes).collect();
    for (k, (stay, lane)) in stays.iter().enumerate() {
        for (other, other_lane) in &stays[k + 1..] {
            let apart = stay.left.is_some_and(|left| left < other.came);
            assert!(apart || stay.station != other.station || lane != other_lane);
        }
    }
}

#[test]
fn a_cart_has_its_number_once_at_the_beginning_of_its_stay() {
    // The receipts of rows 5 to 8 lie over the beginning of the band, in the low rows of a long run.
    let mut text = "start 1 1\nenter 0 0\n".to_string();
    text += &"send 0 0 A1\n".repeat(3);
    text += &"wire 0 0\n".repeat(3);
    text += &"radio 0 0\n".repeat(3);
    text += &"wire 0 0\n".repeat(200);
    let svg = picture(&script(&text).unwrap(), Limits::FLOOR).unwrap();
    let of_class = |class: &str, name: &str| -> Vec<f64> {
        let parts = svg.split('<').filter(|part| part.contains(class));
        parts.filter_map(|part| attributes(part, name).first()?.parse().ok()).collect()
    };
    // The last one is the legend's.
    let (numbers, mut rings) = (of_class("class=\"c q0\"", "y"), of_class("class=\"got\"", "cy"));
    rings.pop();
    assert_eq!((numbers.len() > 1, rings.len()), (true, 3), "{numbers:?}");
    for number in &numbers {
        // The letters stand over their line.
        assert!(
            rings.iter().all(|ring| (ring - (number - 3.5)).abs() >= 8.4),
            "{numbers:?} {rings:?}"
        );
    }
    assert!(numbers.windows(2).all(|pair| pair[1] - pair[0] >= 200.0), "{numbers:?}");
}

/// `frames picture examples/hand-off.frames > docs/images/hand-off.svg` draws it anew.
#[test]
fn the_picture_in_the_readme_is_that_of_the_example() {
    let octets = fs::read(path("../../examples/hand-off.frames")).unwrap();
    let stored = fs::read_to_string(path("../../docs/images/hand-off.svg")).unwrap();
    assert!(picture(&octets, Limits::FLOOR).unwrap() == stored, "docs/images/hand-off.svg is old");
}

#[test]
fn runs_without_a_floor() {
    for text in ["", "enter 0 0\nsend 1 1 A1\n"] {
        assert_well_formed(&picture(&script(text).unwrap(), Limits::FLOOR).unwrap());
    }
}
