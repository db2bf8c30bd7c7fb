//! Where things stand in a picture: a row for each frame, a column for each station, in each column
//! the station's life line and beside it a lane for each cart that is there at the same time.

use plain::StationNo;

use crate::story::{Mark, Stay, Story};

/// Rows of a short run, in which every row has its words beside it: 30 of them fit a screen.
const ROOMY: f64 = 22.0;
/// Rows are no lower than this.
const LOWEST: f64 = 4.5;
/// Rows that are lower have words only where something is sent or received.
const WORDY: f64 = 11.0;
/// Rows of a longer run in the page, which can be scrolled.
const SCROLLED: f64 = 16.0;
/// Runs of no more frames are short.
const SHORT: usize = 32;
/// What lines of words need.
const WORDS: f64 = 9.5;
/// Height by width of a page of paper.
const PAPER: f64 = 1.414;

/// What a picture is as wide as, about: columns take what room there is.
const WIDTH: f64 = 900.0;
/// Where rows have their index.
const LEFT: f64 = 36.0;
/// Where rows have their words.
const RIGHT: f64 = 236.0;
/// Left of a life line: room for records that a station sends to itself.
const LOOPS: f64 = 16.0;
/// Between a life line and its lanes.
const GAP: f64 = 7.0;

/// A station's column.
pub struct Column {
    /// The life line.
    pub line: f64,
    /// Where its lanes end and the words of receipts begin.
    pub words: f64,
    pub end: f64,
}

/// Where things stand.
pub struct Layout {
    /// Height of a row.
    pub row: f64,
    pub rows: usize,
    /// Above the first row.
    pub top: f64,
    /// From lane to lane.
    pub pitch: f64,
    pub columns: Vec<Column>,
    /// The lane of each stay, in the story's order.
    pub lanes: Vec<usize>,
}

impl Layout {
    /// For a picture of its own: 30 frames fit a screen, 300 a page of paper.
    pub fn for_paper(story: &Story, top: f64) -> Layout {
        let mut layout = Layout::of(story, top);
        let frames = story.rows.len().max(1) as f64;
        let fitting = (PAPER * layout.width() - top) / frames;
        let worded = story.marks.len() as f64 * WORDS / frames;
        layout.row = fitting.max(worded).clamp(LOWEST, ROOMY);
        layout
    }

    /// For a picture that is scrolled: every row has its words.
    pub fn for_screen(story: &Story) -> Layout {
        let row = if story.rows.len() <= SHORT { ROOMY } else { SCROLLED };
        Layout { row, ..Layout::of(story, 0.0) }
    }

    fn of(story: &Story, top: f64) -> Layout {
        let (lanes, used) = lanes_of(story);
        let stations = story.stations as f64;
        let room = WIDTH - LEFT - RIGHT - stations * (LOOPS + GAP);
        let all: usize = used.iter().sum();
        let pitch = (0.5 * room / all.max(1) as f64).clamp(6.0, 15.0).floor();
        let words = ((room - pitch * all as f64) / stations.max(1.0)).clamp(6.0, 66.0);
        let mut end = LEFT;
        let columns = used.iter().map(|lanes| {
            let line = end + LOOPS;
            let after = line + GAP + pitch * *lanes as f64;
            end = after + words;
            Column { line, words: after, end }
        });
        let columns = columns.collect();
        Layout { row: ROOMY, rows: story.rows.len(), top, pitch, columns, lanes }
    }

    /// The middle of a row.
    pub fn y(&self, row: usize) -> f64 {
        self.top + (row as f64 + 0.5) * self.row
    }

    /// Below the last row.
    pub fn bottom(&self) -> f64 {
        self.top + self.rows as f64 * self.row
    }

    /// The life line of a station.
    pub fn x(&self, station: StationNo) -> f64 {
        self.column(station).line
    }

    pub fn column(&self, station: StationNo) -> &Column {
        &self.columns[station.0 as usize]
    }

    /// The left edge of a lane.
    pub fn lane(&self, station: StationNo, lane: usize) -> f64 {
        self.x(station) + GAP + self.pitch * lane as f64
    }

    /// Where the words beside the rows begin.
    pub fn margin(&self) -> f64 {
        self.columns.last().map_or(LEFT, |column| column.end) + 10.0
    }

    pub fn width(&self) -> f64 {
        self.margin() + RIGHT - 10.0
    }

    /// Whether every row has its words.
    pub fn is_wordy(&self) -> bool {
        self.row >= WORDY
    }

    /// Every so many rows have their index.
    pub fn indexed(&self) -> usize {
        match self.row {
            row if row >= WORDY => 1,
            row if row >= 6.0 => 5,
            _ => 10,
        }
    }

    /// How high the words of marks stand, none above another: each at its row or below it, but the
    /// last ones no lower than the last row.
    pub fn heights(&self, marks: &[Mark]) -> Vec<f64> {
        let mut heights: Vec<f64> = marks.iter().map(|mark| self.y(mark.row)).collect();
        for k in 1..heights.len() {
            heights[k] = heights[k].max(heights[k - 1] + WORDS);
        }
        let mut lowest = self.bottom() - 0.5 * self.row.min(WORDS);
        for height in heights.iter_mut().rev() {
            *height = height.min(lowest);
            lowest = *height - WORDS;
        }
        heights
    }
}

/// The lane of each stay, the lowest that is free when the cart comes; and how many lanes each
/// station has.
fn lanes_of(story: &Story) -> (Vec<usize>, Vec<usize>) {
    // For each station and lane, when its last stay ends.
    let mut ends: Vec<Vec<usize>> = vec![Vec::new(); story.stations as usize];
    let lane_of = |stay: &Stay| {
        let ends = &mut ends[stay.station.0 as usize];
        let end = stay.left.unwrap_or(usize::MAX);
        match ends.iter().position(|last| *last < stay.came) {
            Some(free) => {
                ends[free] = end;
                free
            }
            None => {
                ends.push(end);
                ends.len() - 1
            }
        }
    };
    let lanes = story.stays.iter().map(lane_of).collect();
    (lanes, ends.iter().map(Vec::len).collect())
}
