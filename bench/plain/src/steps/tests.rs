use super::*;

fn floor(stations: u8, carts: u8) -> Floor {
    let mut floor = Floor::new();
    floor.start(stations, carts).unwrap();
    floor
}

/// A text of one octet, where the text does not matter.
const ONE: &[u8] = &[0x0A];

/// a, b, p and w of an accepted event.
fn answer(step: Result<Step, Refusal>) -> (u16, u32, u64, u8) {
    let Step { a, b, p, w, .. } = step.unwrap();
    (a, b, p, w)
}

/// q of an accepted event.
fn place(step: Result<Step, Refusal>) -> u8 {
    step.unwrap().q
}

fn refusal<T: std::fmt::Debug>(answer: Result<T, Refusal>) -> u8 {
    answer.unwrap_err().number()
}

fn s(station: u8) -> StationNo {
    StationNo(station)
}

fn c(cart: u8) -> CartNo {
    CartNo(cart)
}

impl Floor {
    /// A radio step whose text does not matter.
    fn hand(&mut self, station: u8, cart: u8) -> Result<Step, Refusal> {
        self.radio(s(station), c(cart), &mut [0; LONG]).map(|(step, _)| step)
    }
}

#[test]
fn k1_a_cart_moves_before_it_has_the_message() {
    let mut f = Floor::new();
    let mut text = [0xEE; TEXT];
    assert_eq!(answer(f.start(2, 1)), (2, 1, 0, 0));
    assert_eq!(answer(f.enter(s(0), c(0))), (0, 0, 0, 0));
    assert_eq!(answer(f.send(s(1), 1, &[0xA1])), (1, 0, 0, 2));
    assert_eq!(answer(f.wire(s(1), s(1))), (1, 0, 0, 0));
    assert_eq!(answer(f.move_cart(c(0), s(1))), (0, 1, 0, 1));
    assert_eq!(answer(f.wire(s(1), s(0))), (1, 0, 0, 0));
    assert_eq!(f.radio(s(0), c(0), &mut text), Err(Refusal::NotAtStation));
    assert_eq!(answer(f.wire(s(1), s(0))), (4, 0, 0, 1));
    assert_eq!(answer(f.wire(s(0), s(1))), (5, 0, 0, 0));
    let received = f.radio(s(1), c(0), &mut text);
    assert_eq!(received, Ok((Step { a: 1, b: 0, p: 0, w: 1, q: 0 }, 1)));
    assert_eq!((text[0], text[1]), (0xA1, 0xEE));
    assert_eq!(answer(f.wire(s(1), s(1))), (2, 0, 0, 2));
    assert_eq!(f.held(), 1);
    assert_eq!(answer(f.wire(s(1), s(0))), (3, 0, 0, 0));
    assert_eq!(answer(f.wire(s(1), s(1))), (3, 0, 0, 0));
    assert_eq!(f.held(), 0);
}

#[test]
fn k1_lines_5_and_8_give_a_place() {
    let mut f = floor(2, 1);
    assert_eq!(place(f.enter(s(0), c(0))), 0);
    assert_eq!(place(f.send(s(1), 1, &[0xA1])), 0);
    assert_eq!(place(f.wire(s(1), s(1))), 0);
    assert_eq!(place(f.move_cart(c(0), s(1))), 0);
    assert_eq!(place(f.wire(s(1), s(0))), 1);
    assert_eq!(place(f.wire(s(1), s(0))), 0);
    assert_eq!(place(f.wire(s(0), s(1))), 1);
    assert_eq!(place(f.hand(1, 0)), 0);
    for (from, to) in [(1, 1), (1, 0), (1, 1)] {
        assert_eq!(place(f.wire(s(from), s(to))), 0);
    }
}

#[test]
fn k2_a_late_cart_passes_over_what_does_not_name_it() {
    let mut f = floor(1, 2);
    f.enter(s(0), c(0)).unwrap();
    for _ in 0..3 {
        f.send(s(0), 0b01, ONE).unwrap();
    }
    for _ in 0..3 {
        f.wire(s(0), s(0)).unwrap();
    }
    assert_eq!(answer(f.enter(s(0), c(1))), (0, 1, 3, 0));
}

#[test]
fn k3_a_local_cart_that_is_not_named_passes_over() {
    let mut f = floor(1, 2);
    f.enter(s(0), c(0)).unwrap();
    f.enter(s(0), c(1)).unwrap();
    f.send(s(0), 0b01, ONE).unwrap();
    assert_eq!(answer(f.wire(s(0), s(0))), (1, 0, 1, 0));
}

#[test]
fn k4_between_equal_numbers_the_higher_initiator_is_head() {
    for order in [[0, 1], [1, 0]] {
        let mut f = floor(2, 1);
        f.enter(s(0), c(0)).unwrap();
        f.send(s(0), 1, ONE).unwrap();
        f.send(s(1), 1, ONE).unwrap();
        for initiator in order {
            f.wire(s(initiator), s(0)).unwrap();
        }
        assert_eq!(answer(f.hand(0, 0)), (1, 0, 0, 1));
        assert_eq!(answer(f.hand(0, 0)), (0, 0, 0, 1));
    }
}

#[test]
fn a_smaller_number_takes_the_heads_place() {
    let mut f = floor(2, 2);
    f.enter(s(0), c(0)).unwrap();
    f.enter(s(0), c(1)).unwrap();
    f.send(s(1), 0b01, ONE).unwrap();
    f.send(s(1), 0b10, ONE).unwrap();
    f.wire(s(1), s(0)).unwrap();
    f.wire(s(1), s(0)).unwrap();
    assert_eq!(refusal(f.hand(0, 1)), 17);
    assert_eq!(answer(f.hand(0, 0)), (1, 0, 1, 1));
    f.send(s(0), 0b10, ONE).unwrap();
    f.wire(s(0), s(0)).unwrap();
    assert_eq!(answer(f.hand(0, 1)), (0, 0, 0, 1));
    assert_eq!(answer(f.hand(0, 1)), (1, 1, 0, 1));
}

#[test]
fn k5_the_longest_text() {
    let mut f = floor(1, 1);
    f.enter(s(0), c(0)).unwrap();
    assert_eq!(refusal(f.send(s(0), 1, &[7; 33])), 4);
    assert_eq!(answer(f.send(s(0), 1, &[7; 32])), (0, 0, 0, 1));
    f.wire(s(0), s(0)).unwrap();
    // A buffer shorter than the text is refused and not touched; an exact one serves.
    let mut text = [0; 32];
    assert_eq!(refusal(f.radio(s(0), c(0), &mut text[..31])), 21);
    assert_eq!(text, [0; 32]);
    assert_eq!(f.radio(s(0), c(0), &mut text).unwrap().1, 32);
    assert_eq!(text, [7; 32]);
}

/// As if so many messages of station 1 had come and gone, on a floor of two stations and one cart.
fn after_numbers(mut f: Floor, numbers: u32) -> Floor {
    f.start(2, 1).unwrap();
    f.enter(s(0), c(0)).unwrap();
    f.station[1].sent = numbers;
    f.station[0].expected[1] = numbers;
    f.station[1].expected[1] = numbers;
    f.cart[0].next[1] = numbers;
    f
}

/// K6, by the last number of a product.
fn the_last_number(mut f: Floor, last: u32) {
    assert_eq!(answer(f.send(s(1), 1, ONE)), (1, last, 0, 2));
    assert_eq!(refusal(f.send(s(1), 1, ONE)), 13);
    assert_eq!(answer(f.wire(s(1), s(0))), (1, last, 0, 0));
    assert_eq!(answer(f.hand(0, 0)), (1, last, 0, 1));
    assert_eq!(f.next(c(0), s(1)), last + 1);
    assert_eq!(answer(f.wire(s(1), s(1))), (1, last, 0, 0));
    assert_eq!(answer(f.wire(s(0), s(1))), (2, last, 0, 2));
    assert_eq!(refusal(f.send(s(1), 1, ONE)), 13);
    assert_eq!(refusal(f.send(s(1), 0, &[])), 11);
}

#[test]
fn k6_the_last_number() {
    the_last_number(after_numbers(Floor::kit(), 65_534), 65_534);
}

#[test]
fn the_twin_of_k6() {
    the_last_number(after_numbers(Floor::new(), 4_294_967_294), 4_294_967_294);
    // What is the kit's last number is none for the floor.
    let mut f = after_numbers(Floor::new(), 65_534);
    for number in [65_534, 65_535, 65_536] {
        assert_eq!(answer(f.send(s(1), 1, ONE)), (1, number, 0, 2));
        assert_eq!(answer(f.wire(s(1), s(0))), (1, number, 0, 0));
        assert_eq!(answer(f.hand(0, 0)), (1, number, 0, 1));
    }
}

#[test]
fn numbers_of_32_bits_stand_in_their_order() {
    let mut f = after_numbers(Floor::new(), 4_294_967_290);
    f.send(s(1), 1, ONE).unwrap();
    f.send(s(0), 1, ONE).unwrap();
    assert_eq!(place(f.wire(s(1), s(0))), 1);
    // Station 0's number 0 goes before it.
    assert_eq!(place(f.wire(s(0), s(0))), 1);
    assert_eq!(answer(f.hand(0, 0)), (0, 0, 0, 1));
    assert_eq!(answer(f.hand(0, 0)), (1, 4_294_967_290, 0, 1));
}

#[test]
fn the_most_that_one_step_passes_over() {
    let mut f = floor(16, 1);
    for station in &mut f.station {
        station.sent = u32::MAX;
        station.expected = [u32::MAX; STATIONS];
    }
    assert_eq!(answer(f.enter(s(7), c(0))), (7, 0, 68_719_476_720, 0));
}

#[test]
fn an_empty_text_is_turned_away() {
    let mut f = floor(1, 2);
    f.enter(s(0), c(0)).unwrap();
    assert_eq!(refusal(f.send(s(0), 0b01, &[])), 24);
    assert_eq!(refusal(f.send(s(0), 0b10, &[])), 12);
    assert_eq!(refusal(f.send(s(0), 0, &[])), 11);
    // It uses up no number, and goes before the checks of numbers and rooms.
    for number in 0..32 {
        assert_eq!(answer(f.send(s(0), 0b01, ONE)), (0, number, 0, 1));
        assert_eq!(refusal(f.send(s(0), 0b01, &[])), 24);
    }
    f.station[0].sent = f.limits.last_number + 1;
    assert_eq!(refusal(f.send(s(0), 0b01, &[])), 24);
    assert_eq!(refusal(f.send(s(0), 0b01, ONE)), 13);
}

#[test]
fn an_empty_message_that_is_held_is_handed_out_acknowledged_and_deleted() {
    let mut f = floor(1, 1);
    f.enter(s(0), c(0)).unwrap();
    f.send(s(0), 1, ONE).unwrap();
    // No run from a start holds an empty message; a floor set up by hand may.
    f.held[0].length = 0;
    assert_eq!(answer(f.wire(s(0), s(0))), (1, 0, 0, 0));
    // No buffer is shorter than an empty text, and no octet of one is written.
    let mut text = [0xEE; TEXT];
    let received = f.radio(s(0), c(0), &mut text[..0]);
    assert_eq!(received, Ok((Step { a: 0, b: 0, p: 0, w: 1, q: 0 }, 0)));
    assert_eq!(text, [0xEE; TEXT]);
    assert_eq!(answer(f.wire(s(0), s(0))), (2, 0, 0, 1));
    assert_eq!(answer(f.wire(s(0), s(0))), (3, 0, 0, 0));
    assert_eq!(f.held(), 0);
}

#[test]
fn k7_and_k8_thirty_two_held() {
    let mut f = floor(2, 1);
    f.enter(s(0), c(0)).unwrap();
    for number in 0..32 {
        assert_eq!(answer(f.send(s(0), 1, ONE)), (0, number, 0, 2));
    }
    assert_eq!(refusal(f.send(s(0), 1, ONE)), 14);
    assert_eq!(refusal(f.send(s(1), 1, ONE)), 14);
    assert_eq!(refusal(f.send(s(0), 0, &[])), 11);
    f.wire(s(0), s(0)).unwrap();
    f.hand(0, 0).unwrap();
    // Behind the multicasts, an ack list and then the deletes.
    for _ in 1..32 {
        assert_eq!(f.wire(s(0), s(0)).unwrap().a, 1);
    }
    assert_eq!(answer(f.wire(s(0), s(0))), (2, 0, 0, 2));
    assert_eq!(answer(f.wire(s(0), s(0))), (3, 0, 0, 0));
    assert_eq!(refusal(f.send(s(0), 1, ONE)), 14);
    for _ in 0..32 {
        assert_eq!(f.wire(s(0), s(1)).unwrap().a, 1);
    }
    assert_eq!(answer(f.wire(s(0), s(1))), (3, 0, 0, 0));
    assert_eq!(answer(f.send(s(1), 1, ONE)), (1, 0, 0, 2));
}

#[test]
fn k9_moves_that_are_refused() {
    let mut f = floor(3, 1);
    assert_eq!(refusal(f.move_cart(c(0), s(0))), 18);
    f.enter(s(0), c(0)).unwrap();
    assert_eq!(refusal(f.move_cart(c(0), s(0))), 20);
    f.move_cart(c(0), s(1)).unwrap();
    for to in 0..3 {
        assert_eq!(refusal(f.move_cart(c(0), s(to))), 19);
    }
    f.wire(s(1), s(0)).unwrap();
    assert_eq!(refusal(f.move_cart(c(0), s(1))), 19);
    f.wire(s(0), s(1)).unwrap();
    assert_eq!(refusal(f.move_cart(c(0), s(1))), 20);
    assert_eq!(answer(f.move_cart(c(0), s(2))), (0, 2, 0, 1));
}

#[test]
fn k10_sizes_of_a_floor() {
    let mut f = Floor::new();
    for (stations, carts) in [(0, 1), (17, 1), (1, 0), (1, 65), (255, 255)] {
        assert_eq!(refusal(f.start(stations, carts)), 7);
        assert_eq!(refusal(f.wire(s(0), s(0))), 5);
    }
    f.start(16, 64).unwrap();
    assert_eq!(refusal(f.start(16, 64)), 6);
    assert_eq!(refusal(f.start(0, 0)), 6);
}

#[test]
fn the_kit_has_limits_of_its_own() {
    let mut f = Floor::kit();
    for (stations, carts) in [(5, 8), (4, 9), (0, 8), (4, 0), (16, 64)] {
        assert_eq!(refusal(f.start(stations, carts)), 7);
        assert_eq!(refusal(f.enter(s(0), c(0))), 5);
    }
    assert_eq!(answer(f.start(4, 8)), (4, 8, 0, 0));
    assert_eq!(refusal(f.start(5, 9)), 6);
    assert_eq!(refusal(f.enter(s(4), c(0))), 8);
    assert_eq!(refusal(f.enter(s(3), c(8))), 9);
    f.enter(s(3), c(7)).unwrap();
    assert_eq!(refusal(f.send(s(0), 1 << 8, ONE)), 9);
    for number in 0..8 {
        assert_eq!(answer(f.send(s(0), 1 << 7, ONE)), (0, number, 0, 4));
    }
    for station in 0..4 {
        assert_eq!(refusal(f.send(s(station), 1 << 7, ONE)), 14);
    }
    // Behind the last delete the room is free again.
    f.quiet(&mut [0; LONG]).unwrap();
    assert_eq!(answer(f.send(s(0), 1 << 7, ONE)), (0, 8, 0, 4));
}

#[test]
fn nothing_before_a_start() {
    let mut f = Floor::new();
    assert_eq!(refusal(f.send(s(99), 0, &[0; 33])), 4);
    assert_eq!(refusal(f.send(s(99), 0, &[])), 5);
    assert_eq!(refusal(f.enter(s(99), c(99))), 5);
    assert_eq!(refusal(f.wire(s(99), s(99))), 5);
    assert_eq!(refusal(f.radio(s(99), c(99), &mut [])), 5);
    assert_eq!(refusal(f.move_cart(c(99), s(99))), 5);
    assert_eq!(refusal(f.set_steady(c(99), true)), 5);
    assert_eq!(refusal(f.set_group(GroupNo(99), u64::MAX)), 5);
    assert_eq!(refusal(f.send_to_group(s(99), GroupNo(99), &[0; 33])), 4);
    assert_eq!(refusal(f.send_to_group(s(99), GroupNo(99), &[])), 5);
    assert_eq!(refusal(f.send_long(s(99), 0, &[0; 32])), 4);
    assert_eq!(refusal(f.send_long(s(99), 0, &[0; 513])), 4);
    assert_eq!(refusal(f.send_long(s(99), 0, &[0; 33])), 5);
    assert_eq!(f.read_refusal(s(99), MessageNo(0)), 5);
    assert_eq!(refusal(f.retire(c(99))), 5);
}

#[test]
fn stations_are_looked_at_before_carts() {
    let mut f = floor(2, 3);
    assert_eq!(refusal(f.enter(s(2), c(3))), 8);
    assert_eq!(refusal(f.enter(s(1), c(3))), 9);
    assert_eq!(refusal(f.send(s(2), 0b1000, &[])), 8);
    assert_eq!(refusal(f.send(s(1), 0b1000, &[])), 9);
    assert_eq!(refusal(f.send(s(1), 0b0100, &[])), 12);
    assert_eq!(refusal(f.send(s(1), 0, &[])), 11);
    assert_eq!(refusal(f.wire(s(0), s(2))), 8);
    assert_eq!(refusal(f.wire(s(2), s(0))), 8);
    assert_eq!(refusal(f.wire(s(1), s(0))), 15);
    assert_eq!(refusal(f.radio(s(2), c(3), &mut [])), 8);
    assert_eq!(refusal(f.radio(s(1), c(3), &mut [])), 9);
    assert_eq!(refusal(f.radio(s(1), c(2), &mut [])), 16);
    assert_eq!(refusal(f.move_cart(c(3), s(2))), 8);
    assert_eq!(refusal(f.move_cart(c(3), s(1))), 9);
    assert_eq!(refusal(f.move_cart(c(2), s(1))), 18);
    f.enter(s(1), c(2)).unwrap();
    assert_eq!(refusal(f.enter(s(0), c(2))), 10);
    assert_eq!(refusal(f.radio(s(0), c(2), &mut [])), 16);
    assert_eq!(refusal(f.radio(s(1), c(2), &mut [])), 17);
}

#[test]
fn a_full_floor_of_64_carts() {
    let mut f = floor(16, 64);
    for cart in 0..64 {
        f.enter(s(cart % 16), c(cart)).unwrap();
    }
    assert_eq!(answer(f.send(s(15), u64::MAX, ONE)), (15, 0, 0, 16));
    for to in 0..16 {
        assert_eq!(answer(f.wire(s(15), s(to))), (1, 0, 0, 0));
    }
    for cart in 0..64 {
        // The last of the four carts of a station sends the list off.
        assert_eq!(answer(f.hand(cart % 16, cart)), (15, 0, 0, (cart >= 48) as u8));
    }
    for from in 0..15 {
        assert_eq!(answer(f.wire(s(from), s(15))), (2, 0, 0, 0));
    }
    assert_eq!(answer(f.wire(s(15), s(15))), (2, 0, 0, 16));
    for to in 0..16 {
        assert_eq!(f.held(), 1);
        assert_eq!(answer(f.wire(s(15), s(to))), (3, 0, 0, 0));
    }
    assert_eq!(f.held(), 0);
}

#[test]
fn a_list_waits_for_no_cart_that_rolled_away() {
    let mut f = floor(2, 2);
    f.enter(s(0), c(0)).unwrap();
    f.enter(s(0), c(1)).unwrap();
    f.send(s(1), 0b11, ONE).unwrap();
    f.wire(s(1), s(0)).unwrap();
    assert_eq!(answer(f.hand(0, 0)), (1, 0, 0, 0));
    f.move_cart(c(1), s(1)).unwrap();
    // The list that waited for cart 1 goes, and before the register.
    assert_eq!(answer(f.wire(s(1), s(0))), (4, 1, 0, 2));
    assert_eq!(answer(f.wire(s(0), s(1))), (2, 0, 0, 0));
    assert_eq!(answer(f.wire(s(0), s(1))), (5, 1, 0, 0));
    f.wire(s(1), s(1)).unwrap();
    assert_eq!(answer(f.hand(1, 1)), (1, 0, 0, 1));
    assert_eq!(answer(f.wire(s(1), s(1))), (2, 0, 0, 2));
}

#[test]
fn a_list_waits_for_a_cart_that_is_leaving() {
    let mut f = floor(2, 3);
    for cart in 0..3 {
        f.enter(s(0), c(cart)).unwrap();
    }
    f.send(s(1), 0b111, ONE).unwrap();
    f.wire(s(1), s(0)).unwrap();
    f.hand(0, 0).unwrap();
    // Cart 0 leaves too, and its receipt stays in the list.
    for cart in 0..3 {
        f.move_cart(c(cart), s(1)).unwrap();
    }
    assert_eq!(answer(f.wire(s(1), s(0))), (4, 0, 0, 1));
    assert_eq!(answer(f.wire(s(1), s(0))), (4, 1, 0, 1));
    assert_eq!(answer(f.wire(s(1), s(0))), (4, 2, 0, 2));
    assert_eq!(f.lines[line(s(0), s(1))][2], Record::AckList(Room(0), 0b001));
}

#[test]
fn lists_go_in_queue_order() {
    let mut f = floor(2, 3);
    for (cart, station) in [(0, 0), (1, 0), (2, 1)] {
        f.enter(s(station), c(cart)).unwrap();
    }
    // Number 0 comes and goes, so that number 2 lies in its room, before number 1's.
    f.send(s(1), 0b100, ONE).unwrap();
    f.send(s(1), 0b011, ONE).unwrap();
    f.wire(s(1), s(1)).unwrap();
    f.hand(1, 2).unwrap();
    for kind in [1, 2, 3] {
        assert_eq!(f.wire(s(1), s(1)).unwrap().a, kind);
    }
    for kind in [1, 1, 3] {
        assert_eq!(f.wire(s(1), s(0)).unwrap().a, kind);
    }
    f.send(s(1), 0b011, ONE).unwrap();
    f.wire(s(1), s(0)).unwrap();
    assert_eq!((f.held[0].number, f.held[1].number), (2, 1));
    // As if cart 0 had received both: the lists wait for cart 1, which leaves.
    f.cart[0].next[1] = 3;
    f.station[0].buffered[0].ack_list = 0b001;
    f.station[0].buffered[1].ack_list = 0b001;
    f.station[0].acked = 0b11;
    f.station[0].buffered[1].queued = 0b010;
    f.move_cart(c(1), s(1)).unwrap();
    assert_eq!(answer(f.wire(s(1), s(0))), (4, 1, 0, 3));
    let list = |room| Record::AckList(Room(room), 0b001);
    assert_eq!(f.lines[line(s(0), s(1))], [list(1), list(0), Record::Register(c(1))]);
}

#[test]
fn a_cart_that_is_not_steady_receives_nothing() {
    let mut f = floor(2, 2);
    assert_eq!(refusal(f.set_steady(c(2), true)), 9);
    assert_eq!(refusal(f.set_steady(c(0), true)), 18);
    f.enter(s(0), c(0)).unwrap();
    // It counts as steady from its entry. The same flag twice is nothing special.
    assert_eq!(refusal(f.hand(0, 0)), 17);
    assert_eq!(answer(f.set_steady(c(0), false)), (0, 0, 0, 0));
    assert_eq!(answer(f.set_steady(c(0), false)), (0, 0, 0, 0));
    assert_eq!(refusal(f.hand(0, 0)), 25);
    assert_eq!(refusal(f.hand(1, 0)), 16);
    // It is queued all the same.
    f.send(s(0), 0b01, ONE).unwrap();
    f.wire(s(0), s(0)).unwrap();
    assert_eq!(refusal(f.hand(0, 0)), 25);
    assert_eq!(answer(f.set_steady(c(0), true)), (0, 1, 0, 0));
    assert_eq!(answer(f.hand(0, 0)), (0, 0, 0, 1));
}

#[test]
fn groups_are_defined_and_undefined() {
    let mut f = floor(1, 3);
    f.enter(s(0), c(0)).unwrap();
    f.enter(s(0), c(2)).unwrap();
    for group in 0..16 {
        assert_eq!(f.group(GroupNo(group)), 0);
    }
    assert_eq!(refusal(f.set_group(GroupNo(16), 0b1010)), 9);
    assert_eq!(refusal(f.set_group(GroupNo(16), 0b0010)), 12);
    assert_eq!(refusal(f.set_group(GroupNo(16), 0b0101)), 26);
    assert_eq!(answer(f.set_group(GroupNo(15), 0b0101)), (15, 2, 0, 0));
    // What is refused leaves the group as it was, and an empty set is no refusal.
    assert_eq!(refusal(f.set_group(GroupNo(15), 0b0111)), 12);
    assert_eq!(f.group(GroupNo(15)), 0b0101);
    assert_eq!(answer(f.set_group(GroupNo(15), 0)), (15, 0, 0, 0));
    assert_eq!(answer(f.set_group(GroupNo(15), 0)), (15, 0, 0, 0));
    assert_eq!(refusal(f.send_to_group(s(0), GroupNo(15), ONE)), 26);
}

#[test]
fn a_send_to_a_group_takes_the_members_as_they_are() {
    let mut f = floor(1, 2);
    f.enter(s(0), c(0)).unwrap();
    f.enter(s(0), c(1)).unwrap();
    f.set_group(GroupNo(3), 0b01).unwrap();
    assert_eq!(answer(f.send(s(0), 0b10, ONE)), (0, 0, 0, 1));
    assert_eq!(answer(f.send_to_group(s(0), GroupNo(3), ONE)), (0, 1, 0, 1));
    // A later change touches no message already sent.
    f.set_group(GroupNo(3), 0b10).unwrap();
    f.wire(s(0), s(0)).unwrap();
    f.wire(s(0), s(0)).unwrap();
    assert_eq!(answer(f.hand(0, 1)), (0, 0, 1, 1));
    assert_eq!(answer(f.hand(0, 0)), (0, 1, 0, 1));
}

#[test]
fn the_checks_of_a_send_to_a_group() {
    let mut f = floor(1, 1);
    f.enter(s(0), c(0)).unwrap();
    assert_eq!(refusal(f.send_to_group(s(1), GroupNo(99), &[])), 8);
    assert_eq!(refusal(f.send_to_group(s(0), GroupNo(16), &[])), 26);
    assert_eq!(refusal(f.send_to_group(s(0), GroupNo(2), &[])), 26);
    f.set_group(GroupNo(2), 1).unwrap();
    assert_eq!(refusal(f.send_to_group(s(0), GroupNo(2), &[0; 33])), 4);
    for number in 0..32 {
        assert_eq!(answer(f.send_to_group(s(0), GroupNo(2), &[7; 32])), (0, number, 0, 1));
    }
    assert_eq!(refusal(f.send_to_group(s(0), GroupNo(2), &[])), 24);
    assert_eq!(refusal(f.send_to_group(s(0), GroupNo(2), ONE)), 14);
    f.station[0].sent = f.limits.last_number + 1;
    assert_eq!(refusal(f.send_to_group(s(0), GroupNo(2), &[])), 24);
    assert_eq!(refusal(f.send_to_group(s(0), GroupNo(2), ONE)), 13);
}

#[test]
fn a_long_text_is_handed_out_and_its_octets_are_free_again() {
    let mut f = floor(2, 1);
    f.enter(s(0), c(0)).unwrap();
    let text: Vec<u8> = (0..512).map(|at| at as u8).collect();
    for number in 0..8 {
        assert_eq!(answer(f.send_long(s(0), 1, &text)), (0, number, 0, 2));
    }
    assert_eq!(refusal(f.send_long(s(0), 1, &text[..33])), 27);
    // A short text needs none of the store.
    assert_eq!(answer(f.send(s(0), 1, ONE)), (0, 8, 0, 2));
    f.wire(s(0), s(0)).unwrap();
    let mut buffer = [0xEE; 513];
    assert_eq!(refusal(f.radio(s(0), c(0), &mut buffer[..511])), 21);
    assert_eq!(buffer, [0xEE; 513]);
    assert_eq!(f.radio(s(0), c(0), &mut buffer[..512]).unwrap().1, 512);
    assert_eq!((&buffer[..512], buffer[512]), (&text[..], 0xEE));
    // Free only behind the last station's delete.
    while f.wire(s(0), s(0)).is_ok() {}
    assert_eq!(refusal(f.send_long(s(0), 1, &text[..33])), 27);
    for _ in 0..10 {
        f.wire(s(0), s(1)).unwrap();
    }
    assert_eq!(answer(f.send_long(s(0), 1, &text)), (0, 9, 0, 2));
}

#[test]
fn the_checks_of_a_long_send() {
    let mut f = floor(1, 2);
    f.enter(s(0), c(0)).unwrap();
    let text = [7; 512];
    assert_eq!(refusal(f.send_long(s(0), 1, &[7; 32])), 4);
    assert_eq!(refusal(f.send_long(s(0), 1, &[7; 513])), 4);
    assert_eq!(refusal(f.send(s(0), 1, &[7; 33])), 4);
    assert_eq!(refusal(f.send_long(s(1), 4, &text)), 8);
    assert_eq!(refusal(f.send_long(s(0), 4, &text)), 9);
    assert_eq!(refusal(f.send_long(s(0), 0, &text)), 11);
    assert_eq!(refusal(f.send_long(s(0), 2, &text)), 12);
    for _ in 0..8 {
        f.send_long(s(0), 1, &text).unwrap();
    }
    assert_eq!(refusal(f.send_long(s(0), 1, &text)), 27);
    for _ in 8..32 {
        f.send(s(0), 1, ONE).unwrap();
    }
    assert_eq!(refusal(f.send_long(s(0), 1, &text)), 14);
    f.station[0].sent = f.limits.last_number + 1;
    assert_eq!(refusal(f.send_long(s(0), 1, &text)), 13);
}

#[test]
fn texts_are_read_by_initiator_and_number() {
    let mut f = floor(2, 1);
    f.enter(s(0), c(0)).unwrap();
    f.send(s(1), 1, &[0xA1]).unwrap();
    f.send_long(s(1), 1, &[0xB2; 33]).unwrap();
    f.send(s(0), 1, &[0xC3]).unwrap();
    // An empty text that is held is the empty part too, but not refused.
    f.held[2].length = 0;
    let read = |f: &Floor, station, number| {
        let number = MessageNo(number);
        (f.read_refusal(s(station), number), f.read(s(station), number).to_vec())
    };
    assert_eq!(read(&f, 1, 0), (0, vec![0xA1]));
    assert_eq!(read(&f, 1, 1), (0, vec![0xB2; 33]));
    assert_eq!(read(&f, 0, 0), (0, vec![]));
    assert_eq!(read(&f, 0, 1), (28, vec![]));
    assert_eq!(read(&f, 2, 0), (8, vec![]));
    f.quiet(&mut [0; LONG]).unwrap();
    assert_eq!(read(&f, 1, 1), (28, vec![]));
}

#[test]
fn a_cart_retires_and_enters_again() {
    let mut f = floor(1, 2);
    f.enter(s(0), c(0)).unwrap();
    f.enter(s(0), c(1)).unwrap();
    f.send(s(0), 0b10, ONE).unwrap();
    assert_eq!(answer(f.wire(s(0), s(0))), (1, 0, 1, 0));
    f.set_steady(c(0), false).unwrap();
    f.set_group(GroupNo(0), 0b11).unwrap();
    f.set_group(GroupNo(1), 0b01).unwrap();
    assert_eq!(answer(f.retire(c(0))), (0, 0, 0, 0));
    // It is outside: in no group, not local, and without next numbers. Its flag, which nobody asks for while it is outside, stays until it enters.
    assert_eq!((f.group(GroupNo(0)), f.group(GroupNo(1))), (0b10, 0));
    assert_eq!(refusal(f.send_to_group(s(0), GroupNo(1), ONE)), 26);
    assert_eq!((f.local(s(0)), f.entered(), f.unsteady(), f.unsteady), (0b10, 0b10, 0, 0b01));
    assert_eq!((f.place(c(0)), f.next(c(0), s(0))), (Place::Outside, 0));
    for refused in [f.retire(c(0)), f.move_cart(c(0), s(0)), f.set_steady(c(0), true)] {
        assert_eq!(refusal(refused), 18);
    }
    assert_eq!(refusal(f.send(s(0), 0b01, ONE)), 12);
    assert_eq!(refusal(f.set_group(GroupNo(2), 0b01)), 12);
    assert_eq!(refusal(f.hand(0, 0)), 16);
    // It passes over everything again, and is steady and in no group.
    assert_eq!(answer(f.enter(s(0), c(0))), (0, 0, 1, 0));
    assert_eq!(f.unsteady, 0);
    assert_eq!(refusal(f.enter(s(0), c(0))), 10);
    assert_eq!(refusal(f.hand(0, 0)), 17);
    assert_eq!((f.group(GroupNo(0)), f.group(GroupNo(1))), (0b10, 0));
}

#[test]
fn the_checks_of_a_retirement() {
    let mut f = floor(2, 2);
    assert_eq!(refusal(f.retire(c(2))), 9);
    assert_eq!(refusal(f.retire(c(0))), 18);
    f.enter(s(0), c(0)).unwrap();
    f.enter(s(1), c(1)).unwrap();
    f.send(s(0), 0b01, ONE).unwrap();
    assert_eq!(refusal(f.retire(c(0))), 29);
    f.move_cart(c(0), s(1)).unwrap();
    assert_eq!(refusal(f.retire(c(0))), 19);
    f.wire(s(0), s(0)).unwrap();
    f.wire(s(1), s(0)).unwrap();
    assert_eq!(refusal(f.retire(c(0))), 19);
    f.wire(s(0), s(1)).unwrap();
    f.wire(s(0), s(1)).unwrap();
    f.hand(1, 0).unwrap();
    // By the set as sent, until the last station has handled its delete.
    for (from, to) in [(1, 0), (0, 0), (0, 1)] {
        assert_eq!(refusal(f.retire(c(0))), 29);
        f.wire(s(from), s(to)).unwrap();
    }
    assert_eq!(answer(f.retire(c(0))), (0, 0, 0, 0));
    assert_eq!(answer(f.retire(c(1))), (1, 0, 0, 0));
    assert_eq!(f.entered(), 0);
}

#[test]
fn an_unsteady_cart_at_the_head_holds_back_the_entries_behind_it() {
    let mut f = floor(2, 3);
    for cart in 0..3 {
        f.enter(s(0), c(cart)).unwrap();
    }
    f.set_steady(c(0), false).unwrap();
    f.send(s(0), 0b011, ONE).unwrap();
    f.send(s(0), 0b010, ONE).unwrap();
    f.wire(s(0), s(0)).unwrap();
    f.wire(s(0), s(0)).unwrap();
    // A steady companion in the same entry receives; the ack list waits for cart 0.
    assert_eq!(answer(f.hand(0, 1)), (0, 0, 0, 0));
    assert_eq!(refusal(f.hand(0, 1)), 17);
    // An entry with a smaller key still becomes the head.
    f.send(s(1), 0b100, ONE).unwrap();
    f.wire(s(1), s(0)).unwrap();
    assert_eq!(answer(f.hand(0, 2)), (1, 0, 0, 1));
    assert_eq!(refusal(f.hand(0, 1)), 17);
    f.set_steady(c(0), true).unwrap();
    assert_eq!(answer(f.hand(0, 0)), (0, 0, 1, 1));
    assert_eq!(answer(f.hand(0, 1)), (0, 1, 0, 1));
}

#[test]
fn the_flag_travels_with_the_cart() {
    let mut f = floor(2, 2);
    f.enter(s(0), c(0)).unwrap();
    f.enter(s(0), c(1)).unwrap();
    f.set_steady(c(0), false).unwrap();
    f.move_cart(c(0), s(1)).unwrap();
    f.move_cart(c(1), s(1)).unwrap();
    // Cart 1 is told while it is leaving, and again while it is travelling: the newest flag holds.
    assert_eq!(answer(f.set_steady(c(1), false)), (1, 0, 0, 0));
    assert_eq!(refusal(f.hand(0, 1)), 16);
    f.wire(s(1), s(0)).unwrap();
    f.wire(s(1), s(0)).unwrap();
    assert_eq!(answer(f.set_steady(c(1), true)), (1, 1, 0, 0));
    f.wire(s(0), s(1)).unwrap();
    f.wire(s(0), s(1)).unwrap();
    assert_eq!(refusal(f.hand(1, 0)), 25);
    assert_eq!(refusal(f.hand(1, 1)), 17);
}

#[test]
fn places_are_those_right_after_the_putting() {
    let mut f = floor(2, 2);
    f.enter(s(0), c(0)).unwrap();
    f.enter(s(0), c(1)).unwrap();
    // Number 0 of station 0, behind it its number 1, which cart 0 is not put in yet.
    f.send(s(0), 0b01, ONE).unwrap();
    f.send(s(0), 0b11, ONE).unwrap();
    assert_eq!(place(f.wire(s(0), s(0))), 1);
    assert_eq!(place(f.wire(s(0), s(0))), 2);
    // Number 0 of station 1 goes before both.
    f.send(s(1), 0b01, ONE).unwrap();
    assert_eq!(place(f.wire(s(1), s(0))), 1);
    assert_eq!(place(f.hand(0, 0)), 0);
    // The served entry has gone before cart 0 is put in the next, which stood there already.
    assert_eq!(place(f.hand(0, 0)), 1);
}

#[test]
fn the_largest_place_of_a_register_initiators_rising() {
    // Cart 0 brings nothing along. Two messages wait for it at station 1, of stations 0 and 1.
    for (companions, largest) in [(0, 1), (0b110, 2)] {
        let mut f = floor(2, 3);
        for (cart, station) in [(0, 0), (1, 1), (2, 1)] {
            f.enter(s(station), c(cart)).unwrap();
        }
        f.move_cart(c(0), s(1)).unwrap();
        f.send(s(0), 0b001 | companions, ONE).unwrap();
        f.send(s(1), 0b001 | companions, ONE).unwrap();
        assert_eq!(answer(f.wire(s(1), s(0))), (4, 0, 0, 1));
        assert_eq!(answer(f.wire(s(0), s(1))).0, 1);
        assert_eq!(answer(f.wire(s(1), s(1))).0, 1);
        // Alone, each is put at the head, station 0's first; where both stand already, it is the
        // largest that counts and not the last.
        let registered = f.wire(s(0), s(1));
        assert_eq!(answer(registered), (5, 0, 0, 0));
        assert_eq!(place(registered), largest);
    }
}

#[test]
fn the_deepest_place_is_32() {
    let mut f = floor(1, 33);
    for cart in 0..33 {
        f.enter(s(0), c(cart)).unwrap();
    }
    // Every message has a cart of its own, and the last waits for the first's too.
    for cart in 0..31 {
        f.send(s(0), c(cart).alone(), ONE).unwrap();
    }
    f.send(s(0), c(31).alone() | c(0).alone(), ONE).unwrap();
    for number in 0..32 {
        assert_eq!(place(f.wire(s(0), s(0))), number + 1);
    }
    // The head goes first, so the last is then the 31st.
    assert_eq!(place(f.hand(0, 0)), 31);
    for cart in 1..31 {
        assert_eq!(place(f.hand(0, cart)), 0);
    }
    assert_eq!(f.head(s(0)), Some(c(31).alone() | c(0).alone()));
}

#[test]
fn a_multicast_goes_by_its_row_alone() {
    let mut f = floor(2, 5);
    for (cart, station) in [(0, 0), (1, 0), (2, 1), (4, 1)] {
        f.enter(s(station), c(cart)).unwrap();
    }
    // Cart 4 is travelling, and its record says that it has the message.
    f.move_cart(c(4), s(0)).unwrap();
    f.wire(s(0), s(1)).unwrap();
    f.cart[4].next[0] = 1;
    f.send(s(0), 0b1_0111, ONE).unwrap();
    // The row leaves out cart 0, which is local, and has all others, of which cart 1 alone is.
    let (local, places) = (f.station[0].local, f.cart.map(|cart| cart.place));
    assert_eq!(f.multicast_by(0b1_1110, s(0), Room(0)), (1, 1));
    let buffered = f.station[0].buffered[0];
    assert_eq!(buffered.queued, 0b0_0110);
    assert_eq!(buffered.copy, 0b0_0111);
    assert_eq!([0, 1, 2, 3, 4].map(|cart| f.next(c(cart), s(0))), [0, 0, 0, 1, 1]);
    assert_eq!((f.station[0].local, f.cart.map(|cart| cart.place)), (local, places));
}

/// The steps again as document 01 words them, one number at a time and with no mask, no cached
/// head and no closed form, to compare with on random events.
mod as_worded {
    #[derive(Clone, Copy, PartialEq)]
    struct Message {
        initiator: u8,
        number: u32,
    }

    #[derive(Clone)]
    enum Travelling {
        Multicast(Message, Vec<u8>),
        AckList(Message, Vec<u8>),
        Delete(Message),
        Deregister(u8),
        Register(u8, [u32; 16]),
    }

    #[derive(Clone, Default)]
    struct Post {
        local: Vec<u8>,
        expected: [u32; 16],
        sent: u32,
        buffer: Vec<(Message, Vec<u8>, Vec<u8>)>,
        queue: Vec<(Message, Vec<u8>)>,
    }

    pub struct Worded {
        posts: Vec<Post>,
        rows: Vec<Option<[u32; 16]>>,
        /// 0 outside, 1 at, 2 leaving, 3 travelling
        places: Vec<(u8, u8)>,
        steady: Vec<bool>,
        groups: Vec<Option<u64>>,
        long: Vec<(Message, usize)>,
        held: Vec<(Message, Vec<u8>, Vec<u8>, usize)>,
        lines: Vec<Vec<Travelling>>,
        pub sum: u64,
        /// The next numbers that retired carts took with them.
        pub retired: u64,
    }

    impl Worded {
        pub fn new(stations: u8, carts: u8) -> Self {
            Worded {
                posts: vec![Post::default(); stations as usize],
                rows: vec![None; carts as usize],
                places: vec![(0, 0); carts as usize],
                steady: vec![true; carts as usize],
                groups: vec![None; 16],
                long: Vec::new(),
                held: Vec::new(),
                lines: vec![Vec::new(); 256],
                sum: 0,
                retired: 0,
            }
        }

        fn put(&mut self, from: u8, to: u8, record: Travelling) {
            self.lines[from as usize * 16 + to as usize].push(record);
        }

        fn all(&mut self, from: u8, record: Travelling) -> u8 {
            for to in 0..self.posts.len() as u8 {
                self.put(from, to, record.clone());
            }
            self.posts.len() as u8
        }

        /// Puts a cart in the entry of a message; the entry's place right after that.
        fn queue(&mut self, station: u8, message: Message, cart: u8) -> u32 {
            let queue = &mut self.posts[station as usize].queue;
            match queue.iter_mut().find(|(m, _)| *m == message) {
                Some((_, carts)) => carts.push(cart),
                None => queue.push((message, vec![cart])),
            }
            queue.sort_by_key(|(m, _)| (m.number, 16 - m.initiator));
            1 + queue.iter().position(|(m, _)| *m == message).unwrap() as u32
        }

        /// p, and the place if the cart was queued.
        fn catch_up(
            &mut self,
            station: u8,
            cart: u8,
            initiator: u8,
            row: &mut [u32; 16],
        ) -> (u32, u32) {
            let (mut p, mut q) = (0, 0);
            let next = &mut row[initiator as usize];
            while *next < self.posts[station as usize].expected[initiator as usize] {
                let message = Message { initiator, number: *next };
                let buffer = &self.posts[station as usize].buffer;
                if buffer.iter().any(|(m, copy, _)| *m == message && copy.contains(&cart)) {
                    q = self.queue(station, message, cart);
                    break;
                }
                *next += 1;
                p += 1;
            }
            (p, q)
        }

        fn register(&mut self, station: u8, cart: u8, mut row: [u32; 16]) -> (u32, u32) {
            for (message, copy, _) in &mut self.posts[station as usize].buffer {
                if message.number < row[message.initiator as usize] {
                    copy.retain(|c| *c != cart);
                }
            }
            let (mut p, mut q) = (0, 0);
            for initiator in 0..self.posts.len() as u8 {
                let (passed, place) = self.catch_up(station, cart, initiator, &mut row);
                p += passed;
                q = q.max(place);
            }
            self.rows[cart as usize] = Some(row);
            self.places[cart as usize] = (1, station);
            self.posts[station as usize].local.push(cart);
            (p, q)
        }

        fn station(&self, station: u8) -> Result<(), u8> {
            if (station as usize) < self.posts.len() {
                Ok(())
            } else {
                Err(8)
            }
        }

        fn cart(&self, cart: u8) -> Result<(), u8> {
            if (cart as usize) < self.rows.len() {
                Ok(())
            } else {
                Err(9)
            }
        }

        pub fn enter(&mut self, station: u8, cart: u8) -> Result<[u32; 5], u8> {
            self.station(station)?;
            self.cart(cart)?;
            if self.places[cart as usize].0 != 0 {
                return Err(10);
            }
            let (p, q) = self.register(station, cart, [0; 16]);
            Ok([station as u32, cart as u32, p, 0, q])
        }

        pub fn send(&mut self, station: u8, set: u64, text: &[u8]) -> Result<[u32; 5], u8> {
            self.station(station)?;
            let carts: Vec<u8> = (0..64).filter(|c| set >> c & 1 == 1).collect();
            carts.iter().try_for_each(|c| self.cart(*c))?;
            if carts.is_empty() {
                return Err(11);
            }
            if carts.iter().any(|c| self.places[*c as usize].0 == 0) {
                return Err(12);
            }
            if text.is_empty() {
                return Err(24);
            }
            if self.held.len() == 32 {
                return Err(14);
            }
            let message = Message { initiator: station, number: self.posts[station as usize].sent };
            self.posts[station as usize].sent += 1;
            self.held.push((message, carts.clone(), Vec::new(), self.posts.len()));
            let w = self.all(station, Travelling::Multicast(message, carts));
            Ok([station as u32, message.number, 0, w as u32, 0])
        }

        pub fn send_long(&mut self, station: u8, set: u64, text: &[u8]) -> Result<[u32; 5], u8> {
            let used: usize = self.long.iter().map(|(_, length)| length).sum();
            let (messages, held) = (self.posts.clone(), self.held.clone());
            let lines = self.lines.clone();
            let answer = self.send(station, set, text)?;
            if used + text.len() > 4_096 {
                (self.posts, self.held, self.lines) = (messages, held, lines);
                return Err(27);
            }
            self.long.push((Message { initiator: station, number: answer[1] }, text.len()));
            Ok(answer)
        }

        pub fn group(&mut self, group: u8, set: u64) -> Result<[u32; 5], u8> {
            let carts: Vec<u8> = (0..64).filter(|c| set >> c & 1 == 1).collect();
            carts.iter().try_for_each(|c| self.cart(*c))?;
            if carts.iter().any(|c| self.places[*c as usize].0 == 0) {
                return Err(12);
            }
            *self.groups.get_mut(group as usize).ok_or(26)? = (set != 0).then_some(set);
            Ok([group as u32, carts.len() as u32, 0, 0, 0])
        }

        pub fn send_to_group(
            &mut self,
            station: u8,
            group: u8,
            text: &[u8],
        ) -> Result<[u32; 5], u8> {
            self.station(station)?;
            let set = self.groups.get(group as usize).copied().flatten().ok_or(26)?;
            self.send(station, set, text)
        }

        pub fn wire(&mut self, from: u8, to: u8) -> Result<[u32; 5], u8> {
            self.station(from)?;
            self.station(to)?;
            let line = &mut self.lines[from as usize * 16 + to as usize];
            if line.is_empty() {
                return Err(15);
            }
            match line.remove(0) {
                Travelling::Multicast(message, mut copy) => {
                    let (mut p, mut q) = (0, 0);
                    let i = message.initiator as usize;
                    self.posts[to as usize].expected[i] += 1;
                    let named = copy.clone();
                    for cart in self.posts[to as usize].local.clone() {
                        let next = &mut self.rows[cart as usize].as_mut().unwrap()[i];
                        if *next == message.number && named.contains(&cart) {
                            q = q.max(self.queue(to, message, cart));
                        } else if *next == message.number {
                            *next += 1;
                            p += 1;
                        } else if *next > message.number && named.contains(&cart) {
                            copy.retain(|c| *c != cart);
                        }
                    }
                    self.posts[to as usize].buffer.push((message, copy, Vec::new()));
                    Ok([1, message.number, p, 0, q])
                }
                Travelling::AckList(message, carts) => {
                    let at = self.held.iter().position(|h| h.0 == message).unwrap();
                    let held = &mut self.held[at];
                    held.2.extend(carts);
                    let whole = held.1.iter().all(|c| held.2.contains(c));
                    let w = if whole { self.all(to, Travelling::Delete(message)) } else { 0 };
                    Ok([2, message.number, 0, w as u32, 0])
                }
                Travelling::Delete(message) => {
                    self.posts[to as usize].buffer.retain(|(m, _, _)| *m != message);
                    let at = self.held.iter().position(|h| h.0 == message).unwrap();
                    self.held[at].3 -= 1;
                    if self.held[at].3 == 0 {
                        self.held.remove(at);
                        self.long.retain(|(m, _)| *m != message);
                    }
                    Ok([3, message.number, 0, 0, 0])
                }
                Travelling::Deregister(cart) => {
                    let here = &mut self.posts[to as usize];
                    here.queue.iter_mut().for_each(|(_, carts)| carts.retain(|c| *c != cart));
                    here.queue.retain(|(_, carts)| !carts.is_empty());
                    here.local.retain(|c| *c != cart);
                    let w = self.complete_lists(to);
                    self.places[cart as usize] = (3, 0);
                    let row = self.rows[cart as usize].take().unwrap();
                    self.put(to, from, Travelling::Register(cart, row));
                    Ok([4, cart as u32, 0, w + 1, 0])
                }
                Travelling::Register(cart, row) => {
                    let (p, q) = self.register(to, cart, row);
                    Ok([5, cart as u32, p, 0, q])
                }
            }
        }

        fn complete_lists(&mut self, station: u8) -> u32 {
            let here = &self.posts[station as usize];
            let mut buffered: Vec<Message> = here.buffer.iter().map(|(m, _, _)| *m).collect();
            buffered.sort_by_key(|m| (m.number, 16 - m.initiator));
            buffered.into_iter().map(|m| self.test_list(station, m)).sum()
        }

        /// Sends the ack list of a message if it holds every local cart in the copy; how many went.
        fn test_list(&mut self, station: u8, message: Message) -> u32 {
            let here = &mut self.posts[station as usize];
            let (_, copy, list) = here.buffer.iter_mut().find(|(m, _, _)| *m == message).unwrap();
            if list.is_empty() || copy.iter().any(|c| here.local.contains(c) && !list.contains(c)) {
                return 0;
            }
            let list = std::mem::take(list);
            copy.retain(|c| !list.contains(c));
            self.put(station, message.initiator, Travelling::AckList(message, list));
            1
        }

        pub fn radio(&mut self, station: u8, cart: u8) -> Result<[u32; 5], u8> {
            self.station(station)?;
            self.cart(cart)?;
            if self.places[cart as usize] != (1, station) {
                return Err(16);
            }
            if !self.steady[cart as usize] {
                return Err(25);
            }
            let here = &mut self.posts[station as usize];
            let Some((message, carts)) = here.queue.first_mut() else { return Err(17) };
            let (message, i) = (*message, message.initiator as usize);
            if !carts.contains(&cart) {
                return Err(17);
            }
            carts.retain(|c| *c != cart);
            here.queue.retain(|(_, carts)| !carts.is_empty());
            let (_, _, list) = here.buffer.iter_mut().find(|(m, _, _)| *m == message).unwrap();
            list.push(cart);
            let mut row = self.rows[cart as usize].unwrap();
            assert_eq!(row[i], message.number);
            row[i] += 1;
            let w = self.test_list(station, message);
            let (p, q) = self.catch_up(station, cart, message.initiator, &mut row);
            self.rows[cart as usize] = Some(row);
            self.sum += 1;
            Ok([i as u32, message.number, p, w, q])
        }

        pub fn set_steady(&mut self, cart: u8, steady: bool) -> Result<[u32; 5], u8> {
            self.cart(cart)?;
            if self.places[cart as usize].0 == 0 {
                return Err(18);
            }
            self.steady[cart as usize] = steady;
            Ok([cart as u32, steady as u32, 0, 0, 0])
        }

        pub fn retire(&mut self, cart: u8) -> Result<[u32; 5], u8> {
            self.cart(cart)?;
            let station = match self.places[cart as usize] {
                (0, _) => return Err(18),
                (2 | 3, _) => return Err(19),
                (_, station) => station,
            };
            if self.held.iter().any(|(_, set, _, _)| set.contains(&cart)) {
                return Err(29);
            }
            self.places[cart as usize] = (0, 0);
            self.steady[cart as usize] = true;
            let row = self.rows[cart as usize].take().unwrap();
            self.retired += row.iter().map(|next| *next as u64).sum::<u64>();
            self.posts[station as usize].local.retain(|c| *c != cart);
            for group in &mut self.groups {
                *group = group.map(|set| set & !(1 << cart)).filter(|set| *set != 0);
            }
            Ok([cart as u32, 0, 0, 0, 0])
        }

        pub fn move_cart(&mut self, cart: u8, to: u8) -> Result<[u32; 5], u8> {
            self.station(to)?;
            self.cart(cart)?;
            match self.places[cart as usize] {
                (0, _) => Err(18),
                (2 | 3, _) => Err(19),
                (_, old) if old == to => Err(20),
                (_, old) => {
                    self.places[cart as usize] = (2, old);
                    self.put(to, old, Travelling::Deregister(cart));
                    Ok([cart as u32, to as u32, 0, 1, 0])
                }
            }
        }
    }
}

#[test]
fn the_same_as_the_worded_steps() {
    let mut state = 0x9E37_79B9_7F4A_7C15_u64;
    let mut below = move |n: u64| {
        state ^= state << 13;
        state ^= state >> 7;
        state ^= state << 17;
        (state >> 11) % n
    };
    for (stations, carts) in [(1, 1), (1, 5), (2, 2), (2, 3), (3, 6), (5, 20), (16, 64)] {
        for _ in 0..20 {
            let mut floor = floor(stations, carts);
            let mut worded = as_worded::Worded::new(stations, carts);
            for _ in 0..3_000 {
                // One beyond the floor now and then, so that 8 and 9 are met too.
                let beyond = (below(40) == 0) as u64;
                let station = below(stations as u64 + beyond) as u8;
                let other = below(stations as u64 + beyond) as u8;
                let cart = below(carts as u64 + beyond) as u8;
                let (ours, theirs) = match below(25) {
                    0 => (floor.enter(s(station), c(cart)), worded.enter(station, cart)),
                    1 | 2 => {
                        let mut half = || below(1 << 32);
                        let random = (half() << 32 | half()) & (half() << 32 | half());
                        let one = if half() % 50 == 0 { 0 } else { 1 << (cart % 64) };
                        let set = (random & floor.entered) | one;
                        let text = if half() % 30 == 0 { &[] } else { ONE };
                        (floor.send(s(station), set, text), worded.send(station, set, text))
                    }
                    3 => (floor.move_cart(c(cart), s(other)), worded.move_cart(cart, other)),
                    4..=9 => {
                        // The head's carts are hard to meet by chance.
                        let carts = floor.head(s(station)).unwrap_or(0);
                        let cart = carts_of(carts).next().map_or(cart, |cart| cart.0);
                        (floor.hand(station, cart), worded.radio(station, cart))
                    }
                    10 => {
                        let steady = below(3) > 0;
                        (floor.set_steady(c(cart), steady), worded.set_steady(cart, steady))
                    }
                    11 => {
                        // One number beyond the groups.
                        let group = below(17) as u8;
                        let set = if below(3) == 0 { 0 } else { floor.entered & below(1 << 40) };
                        let set = set | (below(20) == 0) as u64;
                        (floor.set_group(GroupNo(group), set), worded.group(group, set))
                    }
                    12 => {
                        let group = below(17) as u8;
                        let text = if below(30) == 0 { &[] } else { ONE };
                        let ours = floor.send_to_group(s(station), GroupNo(group), text);
                        (ours, worded.send_to_group(station, group, text))
                    }
                    13 => {
                        let set = floor.entered & below(1 << 40);
                        let text = vec![9; 33 + below(480) as usize];
                        let ours = floor.send_long(s(station), set, &text);
                        (ours, worded.send_long(station, set, &text))
                    }
                    14 => (floor.retire(c(cart)), worded.retire(cart)),
                    _ => (floor.wire(s(station), s(other)), worded.wire(station, other)),
                };
                let ours = ours.map_err(Refusal::number);
                let ours = ours.map(|t| [t.a as u32, t.b, t.p as u32, t.w as u32, t.q as u32]);
                assert_eq!(ours, theirs);
                if let Ok([_, _, p, _, _]) = ours {
                    worded.sum += p as u64;
                }
            }
            // The sum rule: next numbers, with those of retired carts, are receipts and numbers
            // passed over.
            let next = floor.cart.iter().flat_map(|cart| cart.next).map(u64::from);
            assert_eq!(next.sum::<u64>() + worded.retired, worded.sum);
        }
    }
}
