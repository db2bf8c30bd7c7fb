//! What carts received does not depend on the route.

use std::fs;
use std::path::{Path, PathBuf};
use std::process::Command;

use frames::generate::{give, stream, Wishes};
use frames::received::{received, Received};
use frames::script::script;
use plain::floor::carts_of;
use plain::frames::{put, Event, Reader, Taken};
use plain::{CartNo, Floor, Limits, Place, StationNo};

fn data(name: &str) -> PathBuf {
    Path::new(env!("CARGO_MANIFEST_DIR")).join("tests/data/received").join(name)
}

/// What the carts of a stored run received. Its frames are those of its script.
fn stored(name: &str) -> Received {
    let text = fs::read_to_string(data(name).with_extension("txt")).unwrap();
    let octets = fs::read(data(name).with_extension("frames")).unwrap();
    assert_eq!(script(&text).unwrap(), octets, "{name}");
    received(&octets, Limits::FLOOR).unwrap()
}

fn expected(name: &str) -> String {
    fs::read_to_string(data(name).with_extension("received")).unwrap()
}

/// The stations at which a cart received, in order.
fn places(name: &str, cart: CartNo) -> Vec<u8> {
    let octets = fs::read(data(name).with_extension("frames")).unwrap();
    let (mut floor, mut reader, mut places) =
        (Box::new(Floor::new()), Reader::new(&octets), vec![]);
    while let Taken::Event(event) = reader.take() {
        match (give(&mut floor, &event), event) {
            (Ok(_), Event::Radio { station, cart: by }) if by == cart => places.push(station.0),
            _ => (),
        }
    }
    places
}

#[test]
fn a_cart_that_wanders_receives_what_one_that_stands_still_does() {
    let (wanders, stands_still) = (stored("wanders"), stored("stands_still"));
    assert_eq!(places("wanders", CartNo(0)), [1, 2, 0, 1, 1]);
    assert_eq!(places("stands_still", CartNo(0)), [0; 5]);
    assert_eq!(wanders.to_string(), expected("route"));
    assert_eq!(stands_still.to_string(), expected("route"));
    assert_eq!((wanders.held, stands_still.held), (0, 0));
}

#[test]
fn the_order_between_stations_may_differ() {
    let runs = [stored("order_0_first"), stored("order_1_first")];
    let order = |run: &Received| -> Vec<(u8, u32)> {
        run.carts[0].iter().map(|receipt| (receipt.initiator.0, receipt.number)).collect()
    };
    assert_eq!(order(&runs[0]), [(0, 0), (0, 1), (1, 0), (1, 1)]);
    assert_eq!(order(&runs[1]), [(1, 0), (0, 0), (1, 1), (0, 1)]);
    // By station there is no difference, and that is what is printed.
    for run in &runs {
        assert_eq!((run.to_string(), run.held), (expected("order"), 0));
    }
}

/// "The sent and received lists of a cart begin at its latest entry", and not at its retirement.
#[test]
fn a_cart_that_returns_begins_anew() {
    let said = |text: &str| received(&script(text).unwrap(), Limits::FLOOR).unwrap().to_string();
    let sent = "start 1 1\nenter 0 0\nsend 0 0 A1\nwire 0 0\nradio 0 0\nwire 0 0\nwire 0 0\n";
    let first = "cart 0, station 0: 0 a1\nheld at the end: 0\n";
    assert_eq!(said(sent), first);
    let retired = format!("{sent}retire 0\n");
    assert_eq!(said(&retired), first);
    let back = format!("{retired}enter 0 0\n");
    assert_eq!(said(&back), "cart 0: nothing\nheld at the end: 0\n");
    let again = format!("{back}enter 0 0\nsend 0 0 A2\nwire 0 0\nradio 0 0\n");
    assert_eq!(said(&again), "cart 0, station 0: 1 a2\nheld at the end: 1\n");
}

/// Gives an event to the floor and keeps its frame; whether it is accepted.
fn keep(floor: &mut Floor, event: Event, octets: &mut Vec<u8>) -> bool {
    put(&event, octets);
    give(floor, &event).is_ok()
}

/// All carts steady, all lines emptied, all queues handed over.
fn finish(floor: &mut Floor, octets: &mut Vec<u8>) {
    for cart in carts_of(floor.unsteady()) {
        keep(floor, Event::Steady { cart, steady: true }, octets);
    }
    let stations = || (0..floor.stations()).map(StationNo);
    let lines: Vec<_> = stations().flat_map(|from| stations().map(move |to| (from, to))).collect();
    let stations: Vec<_> = stations().collect();
    loop {
        let line = lines.iter().find(|(from, to)| floor.on_line(*from, *to) > 0);
        let receiver = || {
            stations.iter().find_map(|&station| {
                let at_station = |cart: &CartNo| floor.place(*cart) == Place::At(station);
                Some((station, carts_of(floor.head(station)?).find(at_station)?))
            })
        };
        let event = match (line, receiver()) {
            (Some(&(from, to)), _) => Event::Wire { from, to },
            (None, Some((station, cart))) => Event::Radio { station, cart },
            (None, None) => return,
        };
        assert!(keep(floor, event, octets), "{event:?}");
    }
}

/// A run in which the same stations send the same, by set, to carts that never move.
fn standing_still(wandering: &[u8]) -> Vec<u8> {
    let (mut wanders, mut stands) = (Box::new(Floor::new()), Box::new(Floor::new()));
    let (mut reader, mut octets) = (Reader::new(wandering), Vec::new());
    while let Taken::Event(event) = reader.take() {
        let members = match event {
            Event::GroupSend { group, .. } => wanders.group(group),
            _ => 0,
        };
        if give(&mut wanders, &event).is_err() {
            continue;
        }
        match event {
            Event::Start { .. } | Event::Enter { .. } => {
                assert!(keep(&mut stands, event, &mut octets));
            }
            Event::Send { .. } => {
                finish(&mut stands, &mut octets);
                assert!(keep(&mut stands, event, &mut octets));
            }
            Event::GroupSend { station, text, .. } => {
                finish(&mut stands, &mut octets);
                let event = Event::Send { station, set: members, text };
                assert!(keep(&mut stands, event, &mut octets));
            }
            _ => (),
        }
    }
    finish(&mut stands, &mut octets);
    octets
}

#[test]
fn random_runs_and_the_same_sends_to_carts_that_stand_still() {
    for seed in 0..20 {
        let (stations, carts) = (1 + seed as u8 % 5, 1 + seed as u8 % 7);
        let wishes = Wishes { stations, carts, groups: 30, bad: 5, ..Wishes::default() };
        let mut octets = stream(seed, 2_000, wishes).0;
        let mut floor = Box::new(Floor::new());
        let mut reader = Reader::new(&octets);
        while let Taken::Event(event) = reader.take() {
            // Refused events change nothing.
            let _ = give(&mut floor, &event);
        }
        finish(&mut floor, &mut octets);
        let still = standing_still(&octets);
        let [a, b] = [&octets, &still].map(|run| received(run, Limits::FLOOR).unwrap());
        assert_eq!((a.held, b.held), (0, 0), "seed {seed}");
        assert_eq!(a.to_string(), b.to_string(), "seed {seed}");
        assert!(a.carts.iter().flatten().count() > 50, "seed {seed}");
    }
}

#[test]
fn the_command_names_a_bad_frame_and_a_missing_file() {
    let frames = |words: &[&str]| {
        let output = Command::new(env!("CARGO_BIN_EXE_frames")).args(words).output().unwrap();
        let text = |octets: Vec<u8>| String::from_utf8(octets).unwrap();
        (output.status.code(), text(output.stdout), text(output.stderr))
    };
    let file = |name: &str| data(name).to_str().unwrap().to_string();
    let wanders = file("wanders.frames");
    assert_eq!(frames(&["received", &wanders]), (Some(0), expected("route"), String::new()));

    let cut = Path::new(env!("CARGO_TARGET_TMPDIR")).join("cut.frames");
    let octets = fs::read(&wanders).unwrap();
    fs::write(&cut, &octets[..100]).unwrap();
    let (status, printed, said) = frames(&["received", cut.to_str().unwrap()]);
    assert_eq!((status, printed.as_str()), (Some(1), ""));
    assert!(said.contains("cut.frames: octet 97, frame 6: cut short, 3 of 16"), "{said}");

    let (status, printed, said) = frames(&["received", &file("nowhere.frames")]);
    assert_eq!((status, printed.as_str()), (Some(1), ""));
    assert!(said.contains("nowhere.frames: No such file"), "{said}");

    // A start of five stations is more than the kit has: nobody is on that floor.
    let octets = script("start 5 1\nenter 0 0\n").unwrap();
    assert_eq!(received(&octets, Limits::KIT).unwrap().to_string(), "held at the end: 0\n");
}
