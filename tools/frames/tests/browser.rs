//! The page of a run in a real browser: a script drives it and reads it (browser/drive_page.py).

mod common;

use std::fs;
use std::io::{self, Write};
use std::path::{Path, PathBuf};
use std::process::Command;

use common::{path, text};
use frames::cells::cells;
use frames::generate::{stream, Wishes};
use frames::json;
use frames::page::page;
use frames::script::script;
use frames::tell::tell;
use frames::walk::Walk;
use plain::Limits;

/// What the script ends with where there is no browser.
const SKIPPED: i32 = 77;

fn kept(name: &str, words: &str) -> PathBuf {
    let file = Path::new(env!("CARGO_TARGET_TMPDIR")).join(name);
    fs::write(&file, words).unwrap();
    file
}

/// The floors that some frames of a run left: a line for each, with the frame and the cells.
fn floors(octets: &[u8]) -> String {
    let mut walk = Walk::new(octets, Limits::FLOOR);
    let mut lines = String::new();
    while let Some(moment) = walk.step().unwrap() {
        // Those around the floors that the page keeps, and others.
        if [0, 1, 2, 7, 99].contains(&(moment.index % 100)) && moment.index % 9 < 3 {
            lines += &format!("{} {}\n", moment.index, json::object(&cells(walk.floor())));
        }
    }
    lines
}

/// Says why nothing was tested, past the harness, which keeps to itself what a passed test prints.
fn skip(why: &str) {
    let _ = writeln!(io::stderr(), "the page in a browser: {}", why.trim_end());
}

/// A cart that receives, goes back to the factory, and comes back and receives again.
const RETURNS: &str =
    "start 1 1\nenter 0 0\nsend 0 0 A1\nwire 0 0\nradio 0 0\nwire 0 0\nwire 0 0\n\
    retire 0\nenter 0 0\nsend 0 0 A2\nwire 0 0\nradio 0 0\n";

#[test]
fn a_browser_shows_the_floor_at_each_step() {
    let octets = fs::read(path("../../examples/hand-off.frames")).unwrap();
    let of = |octets: &[u8]| page(octets, Limits::FLOOR, |_| ()).unwrap();
    let short = kept("hand-off.html", &of(&octets));
    let told = kept("hand-off.tell", &tell(&octets, Limits::FLOOR).unwrap().to_string());
    let octets = stream(9, 3_000, Wishes { groups: 20, retire: 5, ..Wishes::default() }).0;
    let (long, floors) = (kept("long.html", &of(&octets)), kept("long.floors", &floors(&octets)));
    let drive = path("tests/browser/drive_page.py");
    let returns = kept("returns.html", &of(&script(RETURNS).unwrap()));
    let files = [short, told, long, floors, returns];
    let driven = Command::new("python3").arg("-B").arg(drive).args(files).output();
    let Ok(driven) = driven else { return skip("skipped, no python3 to drive it") };
    let (said, wrong) = (text(&driven.stdout), text(&driven.stderr));
    match driven.status.code() {
        Some(SKIPPED) => skip(said),
        status => assert_eq!(status, Some(0), "{said}{wrong}"),
    }
}
