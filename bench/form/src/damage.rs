//! Damage to the words of a floor: a word or two replaced, which rooms count, a group's members, a record doubled, a length changed.

use plain::words::{
    Words, COPIES, ENTRIES, LINES, MESSAGE_ROW, RECORDS, REGISTERS, ROOM_WORDS, ROWS, STATION_ROW,
};
use shared::numbers::Numbers;
use shared::places::{group_word, travelling_cart, used_row};

/// Another value for a word: any, a small one, one beside it, one bit of it, or another word's.
fn other_value(numbers: &mut Numbers, words: &[u64], at: usize) -> u64 {
    let old = words[at];
    match numbers.below(6) {
        0 => numbers.next(),
        1 => numbers.below(70),
        2 => old.wrapping_add(1),
        3 => old.wrapping_sub(1),
        4 => old ^ 1 << numbers.below(64),
        _ => words[numbers.below(words.len() as u64) as usize],
    }
}

fn replace(numbers: &mut Numbers, words: &mut [u64], at: usize) {
    words[at] = other_value(numbers, words, at);
}

/// The record after another on its line becomes the same.
fn double(numbers: &mut Numbers, lines: &mut [u64]) {
    let Some(row) = used_row(numbers, lines) else { return };
    let (from, to) = (RECORDS + 3 * row, RECORDS + 3 * (lines[RECORDS + 3 * row] as usize % ROWS));
    lines.copy_within(from + 1..from + 3, to + 1);
}

/// At some station the copy and ack list, or the queue's entry, of a room count that did not, or the other way round; half the time one is another, too.
fn recount(numbers: &mut Numbers, stations: &mut [u64]) {
    let rows = stations.len() / STATION_ROW;
    let row = STATION_ROW * (1 + numbers.below(rows as u64 - 1) as usize);
    let (room, entry) = (numbers.below(32) as usize, numbers.below(3) as usize);
    stations[row + [COPIES, COPIES, ENTRIES][entry]] ^= 1 << room;
    if numbers.below(2) == 0 {
        replace(numbers, stations, row + ROOM_WORDS + 3 * room + entry);
    }
}

/// Some group has a cart more, or any members.
fn regroup(numbers: &mut Numbers, stations: &mut [u64]) {
    let at = group_word(numbers);
    match numbers.below(2) {
        0 => stations[at] |= 1 << numbers.below(64),
        _ => replace(numbers, stations, at),
    }
}

/// A word of the row that the register of some travelling cart carries; a word of the free rows where no cart travels.
fn register_word(numbers: &mut Numbers, carts: &[u64]) -> usize {
    match travelling_cart(numbers, carts) {
        None => 0,
        Some(cart) => REGISTERS + 16 * cart + numbers.below(16) as usize,
    }
}

/// More often than not, a word of the lines that means something.
fn line_word(numbers: &mut Numbers, lines: &[u64], carts: &[u64]) -> usize {
    match numbers.below(5) {
        0 => numbers.below(LINES as u64) as usize,
        1 => LINES + numbers.below((REGISTERS - LINES) as u64) as usize,
        2 => match used_row(numbers, lines) {
            Some(row) => RECORDS + 3 * row + numbers.below(3) as usize,
            None => 0,
        },
        3 => register_word(numbers, carts),
        _ => numbers.below(lines.len() as u64) as usize,
    }
}

fn one(numbers: &mut Numbers, w: &mut Words) {
    if w.lines.len() != RECORDS + 3 * ROWS {
        return;
    }
    match numbers.below(50) {
        0 => drop(w.stations.pop()),
        1 => w.carts.push(0),
        2 => drop(w.messages.pop()),
        3 => w.lines.push(0),
        4 => drop(w.texts.pop()),
        5..=8 => double(numbers, &mut w.lines),
        9 => {
            let room = numbers.below((w.messages.len() / MESSAGE_ROW) as u64) as usize;
            w.messages[MESSAGE_ROW * room + 4] ^= 1 << numbers.below(16);
        }
        10..=13 => recount(numbers, &mut w.stations),
        14..=15 => regroup(numbers, &mut w.stations),
        16 => drop(w.store.pop()),
        17..=18 => {
            let room = numbers.below((w.messages.len() / MESSAGE_ROW) as u64) as usize;
            let at = MESSAGE_ROW * room + 5 + numbers.below(2) as usize;
            w.messages[at] = w.messages[at].wrapping_add(numbers.below(600)).wrapping_sub(300);
        }
        part => {
            let in_lines = line_word(numbers, &w.lines, &w.carts);
            let words = [&mut w.stations, &mut w.carts, &mut w.messages, &mut w.lines];
            let words = words.into_iter().nth(part as usize % 4).expect("there are four");
            let at = match part % 4 {
                3 => in_lines,
                _ => numbers.below(words.len() as u64) as usize,
            };
            replace(numbers, words, at);
        }
    }
}

/// Damages a floor in one place, now and then in two.
pub fn damage(numbers: &mut Numbers, w: &mut Words) {
    one(numbers, w);
    if numbers.below(8) == 0 {
        one(numbers, w);
    }
}
