//! The stored runs by frames: they print what the program `floor` prints.

mod common;

use mekhturia::{Controller, Floor, Product, Refusal, SmallKit, Stopped, WholeFloor, LINE};
use std::fs;

fn by_frames<P: Product>(octets: &[u8]) -> String {
    let mut printed = vec![];
    Controller::<P>::new().run(octets, &mut printed).unwrap();
    String::from_utf8(printed).unwrap()
}

#[test]
fn floor_by_frames() {
    common::all("runs", by_frames::<WholeFloor>);
}

#[test]
fn kit_by_frames() {
    common::all("demos", by_frames::<SmallKit>);
}

/// An input that hands on an octet at a time.
struct Slow<'a>(&'a [u8]);

impl std::io::Read for Slow<'_> {
    fn read(&mut self, room: &mut [u8]) -> std::io::Result<usize> {
        let size = self.0.len().min(room.len()).min(1);
        room[..size].copy_from_slice(&self.0[..size]);
        self.0 = &self.0[size..];
        Ok(size)
    }
}

#[test]
fn octet_by_octet() {
    let octets = fs::read(common::path("crates/runs/data/k1.frames")).unwrap();
    let mut printed = vec![];
    let ran = Floor::new().run(Slow(&octets), &mut printed).unwrap();
    assert_eq!(String::from_utf8(printed).unwrap(), by_frames::<WholeFloor>(&octets));
    assert_eq!((ran.octets, ran.ended), (octets.len() as u64, None));
}

#[test]
fn cut_anywhere() {
    let whole = fs::read(common::path("crates/runs/data/k1.frames")).unwrap();
    let printed = by_frames::<WholeFloor>(&whole);
    let mut cuts = 0;
    for size in 0..whole.len() {
        let mut lines = vec![];
        let ran = Floor::new().run(&whole[..size], &mut lines).unwrap();
        let lines = String::from_utf8(lines).unwrap();
        let good = lines.lines().zip(printed.lines()).take_while(|(a, b)| a == b).count();
        assert_eq!(lines.lines().count() as u64, ran.frames);
        if ran.ended.is_some() {
            assert_eq!(ran.ended, Some(Refusal::Cut));
            assert!(
                ran.octets < size as u64 && lines.ends_with(&format!("{good} no 1\n")),
                "cut after {size} octets"
            );
            cuts += 1;
        } else {
            assert!(
                ran.octets == size as u64 && good == lines.lines().count(),
                "cut after {size} octets"
            );
        }
    }
    assert!(cuts > whole.len() / 2);
}

#[test]
fn output_without_room() {
    let start = [0x01, 0, 0, 0, 0, 0, 0, 0, 0, 0, 0, 0, 0, 0, 0, 0];
    let (mut floor, mut output) = (Floor::new(), [0; LINE]);
    let none = floor.frames(&start, &mut output[1..], 0, true).unwrap();
    assert_eq!((none.read, none.written, none.frames, none.stopped), (0, 0, 0, Stopped::Full));
    let one = floor.frames(&start, &mut output, 0, true).unwrap();
    assert_eq!((one.read, one.written, one.frames, one.stopped), (16, 14, 1, Stopped::Full));
}

#[test]
fn too_far() {
    assert!(Floor::new().frames(&[], &mut [], 1 << 63, true).is_err());
    assert!(Floor::new().frames(&[], &mut [], (1 << 63) - 1, true).is_ok());
}
