//! Damage to a lent floor: one word or octet of any part, or a length; and floors that no run reaches soon, but that pass the form rule.

use plain::floor::GROUPS;
use plain::words::{
    Words, COPIES, ENTRIES, GROUP_WORDS, LINES, MESSAGE_ROW, RECORDS, REGISTERS, ROOM_WORDS, ROWS,
    STATION_ROW, UNSTEADY,
};
use shared::numbers::Numbers;
use shared::places::{group_word, travelling_cart, used_row};
use shared::rule;

/// Another value: any, a small one, one beside it, the neighbour's, or one bit of it changed.
fn other(numbers: &mut Numbers, words: &[u64], at: usize) -> u64 {
    let old = words[at];
    match numbers.below(8) {
        0 => numbers.next(),
        1 => numbers.below(70),
        2 => old.wrapping_add(1),
        3 => old.wrapping_sub(1),
        4 => words[if at == 0 { words.len() - 1 } else { at - 1 }],
        5 => words[(at + 1) % words.len()],
        _ => old ^ 1 << numbers.below(64),
    }
}

/// A word of the lines, more often than not one that means something.
fn line_word(numbers: &mut Numbers, lines: &[u64], carts: &[u64]) -> usize {
    let (row, cart) = (used_row(numbers, lines), travelling_cart(numbers, carts));
    match (numbers.below(5), row, cart) {
        (0, _, _) => numbers.below(LINES as u64) as usize,
        (1, _, _) => LINES + numbers.below((REGISTERS - LINES) as u64) as usize,
        (2, Some(row), _) => RECORDS + 3 * row + numbers.below(3) as usize,
        (3, _, Some(cart)) => REGISTERS + 16 * cart + numbers.below(16) as usize,
        _ => numbers.below(lines.len() as u64) as usize,
    }
}

/// Two records change places: neighbours on a line, or any two.
fn swap(numbers: &mut Numbers, lines: &mut [u64]) {
    let (Some(a), Some(any)) = (used_row(numbers, lines), used_row(numbers, lines)) else { return };
    let next = lines[RECORDS + 3 * a] as usize % ROWS;
    let b = if numbers.below(2) == 0 { next } else { any };
    lines.swap(RECORDS + 3 * a + 1, RECORDS + 3 * b + 1);
    lines.swap(RECORDS + 3 * a + 2, RECORDS + 3 * b + 2);
}

/// A room that has a message, if any has.
fn held_room(numbers: &mut Numbers, messages: &[u64]) -> usize {
    let held: Vec<usize> = (0..32).filter(|m| messages[MESSAGE_ROW * m + 4] != 0).collect();
    match held.len() {
        0 => 0,
        some => held[numbers.below(some as u64) as usize],
    }
}

/// At some station the copy and ack list, or the queue's entry, of a room count that did not, or the other way round.
fn recount(numbers: &mut Numbers, w: &mut Words) {
    let room = held_room(numbers, &w.messages);
    let row = STATION_ROW * (1 + numbers.below(w.stations[1]) as usize);
    w.stations[row + COPIES + numbers.below(2) as usize] ^= 1 << room;
}

/// Some group has other members: any, a cart more, or carts of the floor, entered or not.
fn regroup(numbers: &mut Numbers, w: &mut Words) {
    let (at, all) = (group_word(numbers), u64::MAX >> (64 - w.stations[2]));
    w.stations[at] = match numbers.below(4) {
        0 => w.stations[at] | 1 << numbers.below(64),
        1 => w.stations[at] | 1 << numbers.below(w.stations[2]),
        2 => all & numbers.next() & numbers.next(),
        _ => other(numbers, &w.stations, at),
    };
}

/// The text of some held message is said to have another length, or to lie elsewhere in the store: around where it may, or where another does.
fn relay(numbers: &mut Numbers, messages: &mut [u64]) {
    let (room, beside) = (held_room(numbers, messages), held_room(numbers, messages));
    let (own, other) = (MESSAGE_ROW * room, MESSAGE_ROW * beside);
    let (length, offset) = (messages[own + 5], messages[own + 6]);
    let (at, to) = match numbers.below(6) {
        0 => (5, [0, 31, 32, 33, 511, 512, 513][numbers.below(7) as usize]),
        1 => (5, length.wrapping_add(1)),
        2 => (6, 4_096u64.wrapping_sub(length).wrapping_add(numbers.below(3)).wrapping_sub(1)),
        3 => (6, messages[other + 6].wrapping_add(numbers.below(3)).wrapping_sub(1)),
        4 => (
            6,
            messages[other + 6].wrapping_add(messages[other + 5]).wrapping_sub(numbers.below(2)),
        ),
        _ => (6, offset.wrapping_add(1)),
    };
    messages[own + at] = to;
}

fn word(numbers: &mut Numbers, w: &mut Words) {
    match numbers.below(13) {
        0 => {
            let octets = if numbers.below(2) == 0 { &mut w.texts } else { &mut w.store };
            let at = numbers.below(octets.len() as u64) as usize;
            octets[at] ^= 1 << numbers.below(8);
        }
        1..=3 => replace(numbers, &mut w.stations),
        4 => replace(numbers, &mut w.carts),
        5..=6 => replace(numbers, &mut w.messages),
        7 => recount(numbers, w),
        8 => regroup(numbers, w),
        9..=10 => relay(numbers, &mut w.messages),
        _ => {
            let at = line_word(numbers, &w.lines, &w.carts);
            w.lines[at] = other(numbers, &w.lines, at);
        }
    }
}

fn replace(numbers: &mut Numbers, words: &mut [u64]) {
    let at = numbers.below(words.len() as u64) as usize;
    words[at] = other(numbers, words, at);
}

/// One part is shorter, longer or empty.
fn length(numbers: &mut Numbers, w: &mut Words) {
    let part = numbers.below(6);
    let to = |old: usize, numbers: &mut Numbers| match numbers.below(5) {
        0 => 0,
        1 => old - 1,
        2 => old + 1,
        3 => numbers.below(old as u64) as usize,
        _ => old + numbers.below(200) as usize,
    };
    if part >= 4 {
        let octets = if part == 4 { &mut w.texts } else { &mut w.store };
        let size = to(octets.len(), numbers);
        return octets.resize(size, 0);
    }
    let words = [&mut w.stations, &mut w.carts, &mut w.messages, &mut w.lines];
    let words = words.into_iter().nth(part as usize).expect("there are four");
    let size = to(words.len(), numbers);
    words.resize(size, 0);
}

/// A station has used many numbers: it has sent so many, and every station has heard of all of them. Only where none is on the way.
fn many_numbers(numbers: &mut Numbers, w: &mut Words) {
    let n = w.stations[1] as usize;
    let s = numbers.below(n as u64) as usize;
    let row = |t: usize| STATION_ROW * (1 + t);
    if (0..n).any(|t| w.stations[row(t) + 1 + s] != w.stations[row(s)]) {
        return;
    }
    // Around the floor's last number, and the kit's, which is none for the floor.
    let most = [4_294_967_295, 4_294_967_294, 4_294_967_293, 65_535, 40_000];
    let sent = most[numbers.below(5) as usize];
    w.stations[row(s)] = sent;
    (0..n).for_each(|t| w.stations[row(t) + 1 + s] = sent);
}

/// Where a room has no copy and no ack list at a station, or no entry in its queue: empty words that count, or any words that do not. Bits of no room
/// are any.
fn uncounted(numbers: &mut Numbers, stations: &mut [u64]) {
    for row in stations.chunks_exact_mut(STATION_ROW).skip(1) {
        for (among, first, size) in [(COPIES, ROOM_WORDS, 2), (ENTRIES, ROOM_WORDS + 2, 1)] {
            for m in 0..32 {
                let at = first + 3 * m..first + 3 * m + size;
                if row[among] >> m & 1 == 1 && row[at.clone()].iter().any(|&word| word != 0) {
                    continue;
                }
                let counts = numbers.below(2);
                row[among] = row[among] & !(1 << m) | counts << m;
                row[at].fill_with(|| if counts == 1 { 0 } else { numbers.next() });
            }
            row[among] ^= numbers.next() << 32;
        }
    }
}

/// What no step looks at: the words behind the groups, of free rooms, of rooms that do not count, of free rows, of registers that are on no line
/// and behind a text.
fn leftovers(numbers: &mut Numbers, w: &mut Words) {
    let all = u64::MAX >> (64 - w.stations[2]);
    w.stations[GROUP_WORDS + GROUPS..STATION_ROW].fill_with(|| numbers.next());
    for m in 0..32 {
        if w.messages[MESSAGE_ROW * m + 4] != 0 {
            continue;
        }
        w.messages[MESSAGE_ROW * m] = numbers.next();
        w.messages[MESSAGE_ROW * m + 1] = numbers.next();
        w.messages[MESSAGE_ROW * m + 2] = numbers.next() & all;
        w.messages[MESSAGE_ROW * m + 3] = numbers.next() & all;
        w.messages[MESSAGE_ROW * m + 5] = numbers.next();
        w.messages[MESSAGE_ROW * m + 6] = numbers.next();
        for row in w.stations.chunks_exact_mut(STATION_ROW).skip(1) {
            row[ROOM_WORDS + 3 * m] = numbers.next() & all;
            row[ROOM_WORDS + 3 * m + 1] = numbers.next() & all;
            row[COPIES] ^= numbers.below(2) << m;
        }
    }
    uncounted(numbers, &mut w.stations);
    for r in 0..ROWS {
        if w.lines[r / 64] >> (r % 64) & 1 == 1 {
            w.lines[RECORDS + 3 * r + numbers.below(3) as usize] = numbers.next();
        }
    }
    for (cart, row) in w.carts.chunks_exact(19).zip(w.lines[REGISTERS..].chunks_exact_mut(16)) {
        if cart[0] % UNSTEADY != 3 {
            row[numbers.below(16) as usize] = numbers.next();
        }
    }
}

/// A word that says something of a cart, a held message, a group, or what a station of the floor keeps: its part, and where it stands.
fn meaningful(numbers: &mut Numbers, w: &Words) -> (usize, usize) {
    let (n, k) = (w.stations[1], w.stations[2]);
    let room = held_room(numbers, &w.messages);
    let (t, c) = (numbers.below(n) as usize, numbers.below(k) as usize);
    let row = STATION_ROW * (1 + t);
    match numbers.below(8) {
        0 => (1, 19 * c + 3 + t),
        1 => (2, MESSAGE_ROW * room + 2 + numbers.below(5) as usize),
        2 => (0, row),
        3 => (0, row + 1 + numbers.below(n) as usize),
        4 => (0, row + COPIES + numbers.below(2) as usize),
        5 => (0, group_word(numbers)),
        _ => (0, row + ROOM_WORDS + 3 * room + numbers.below(3) as usize),
    }
}

/// One word after another takes another value, or a few carts more or less, where the floor then still passes the form rule.
fn wander(numbers: &mut Numbers, w: &mut Words) {
    for _ in 0..40 {
        let (part, at) = meaningful(numbers, w);
        let few = numbers.next() & numbers.next() & numbers.next();
        let words = [&mut w.stations, &mut w.carts, &mut w.messages];
        let words = words.into_iter().nth(part).expect("there are three");
        let old = words[at];
        words[at] = match numbers.below(4) {
            0 => old & !few,
            1 => old | few & words[if at == 0 { 0 } else { at - 1 }],
            _ => other(numbers, words, at),
        };
        if !rule::passes(&w.stations, &w.carts, &w.messages, &w.lines, &w.texts, &w.store) {
            let words = [&mut w.stations, &mut w.carts, &mut w.messages];
            words.into_iter().nth(part).expect("there are three")[at] = old;
        }
    }
}

/// Damages a floor that passes the form rule. What was done, for the table of trials.
pub fn damage(numbers: &mut Numbers, w: &mut Words) -> &'static str {
    match numbers.below(20) {
        0..=1 => "no damage",
        2 => {
            swap(numbers, &mut w.lines);
            "records change places"
        }
        3..=4 => {
            wander(numbers, w);
            "words that may change"
        }
        5..=6 => {
            length(numbers, w);
            "a length"
        }
        7 => {
            w.stations[0] = [0, 0, 2, u64::MAX][numbers.below(4) as usize];
            "the mark"
        }
        8 => {
            many_numbers(numbers, w);
            "many numbers"
        }
        9 => {
            leftovers(numbers, w);
            "leftovers"
        }
        10 => {
            leftovers(numbers, w);
            word(numbers, w);
            "leftovers and a word"
        }
        _ => {
            word(numbers, w);
            "a word"
        }
    }
}
