//! Random streams that keep a floor busy.
//!
//! The generator runs a floor of its own beside the stream and chooses, most of the time, events
//! that this floor accepts. No message is held for ever: an ack list that is not empty waits for a
//! local cart, and goes when that cart has received the message or has left. So carts roll away
//! whatever waits for them, and once in a while lists go in a deregister step.

use plain::floor::{carts_of, GROUPS, LONG, TEXT};
use plain::frames::{put, Event};
use plain::run;
use plain::{CartNo, Floor, GroupNo, Limits, Place, Refusal, StationNo, Step};

use crate::random::Random;

/// Of so many choices between a flag and a radio step one is a flag. In the mixed stream of the
/// benchmark one frame in a hundred is then a flag, kind 6.
const FLAGS: usize = 20;

/// What a stream should be like.
#[derive(Clone, Copy, Debug)]
pub struct Wishes {
    pub stations: u8,
    pub carts: u8,
    /// Messages held, about.
    pub held: usize,
    /// Records on the lines, about.
    pub lines: usize,
    /// Percent of random and refused events.
    pub bad: usize,
    /// Percent of sends that are sends to groups, or that define one. At 0 a stream has no frame
    /// of kinds 7 and 8.
    pub groups: usize,
    /// Percent of sends whose text is long, as far as the store has room.
    pub long: usize,
    /// Percent of choices behind a send where a cart retires, as far as one is free to.
    pub retire: usize,
    /// Whether the floor is the demonstration kit's, with its limits.
    pub kit: bool,
}

impl Wishes {
    /// A full floor of the kit.
    pub fn of_kit() -> Self {
        let Limits { stations, carts, .. } = Limits::KIT;
        Wishes { stations, carts, held: 4, lines: 10, kit: true, ..Wishes::default() }
    }
}

impl Default for Wishes {
    fn default() -> Self {
        Wishes {
            stations: 16,
            carts: 64,
            held: 8,
            lines: 40,
            bad: 2,
            groups: 0,
            long: 0,
            retire: 0,
            kit: false,
        }
    }
}

/// What has been generated.
#[derive(Clone, Copy, Debug, Default)]
pub struct Counts {
    pub frames: u64,
    pub accepted: u64,
    pub sends: u64,
    pub receipts: u64,
    /// Sums over all frames, for the means.
    pub held: u64,
    pub on_lines: u64,
}

/// Makes a stream, frame by frame.
pub struct Generator {
    random: Random,
    floor: Box<Floor>,
    wishes: Wishes,
    started: bool,
    on_lines: usize,
    counts: Counts,
}

impl Generator {
    pub fn new(seed: u64, wishes: Wishes) -> Self {
        Generator {
            random: Random::new(seed),
            floor: Box::new(if wishes.kit { Floor::kit() } else { Floor::new() }),
            wishes,
            started: false,
            on_lines: 0,
            counts: Counts::default(),
        }
    }

    pub fn counts(&self) -> Counts {
        self.counts
    }

    /// Chooses the next event, gives it to the floor beside, and writes its frame.
    pub fn frame(&mut self, out: &mut Vec<u8>) {
        let mut text = [0; LONG];
        let event = self.choose(&mut text);
        put(&event, out);
        self.counts.frames += 1;
        if let Ok(step) = give(&mut self.floor, &event) {
            self.started = true;
            self.counts.accepted += 1;
            self.on_lines += step.w as usize;
            match event {
                Event::Wire { .. } => self.on_lines -= 1,
                Event::Send { .. } | Event::GroupSend { .. } | Event::LongSend { .. } => {
                    self.counts.sends += 1;
                }
                Event::Radio { .. } => self.counts.receipts += 1,
                _ => (),
            }
        }
        self.counts.held += self.floor.held() as u64;
        self.counts.on_lines += self.on_lines as u64;
    }

    fn choose<'t>(&mut self, text: &'t mut [u8; LONG]) -> Event<'t> {
        if !self.started {
            return Event::Start { stations: self.wishes.stations, carts: self.wishes.carts };
        }
        if self.random.percent(self.wishes.bad) {
            return self.bad(text);
        }
        // Four in five events of a full floor are wire steps; the square holds the number of
        // records near the wish, whatever the floor's own share is.
        let (lines, wish) = (self.on_lines, self.wishes.lines.max(1));
        let pull = 4 * lines * lines;
        if self.random.below(pull + wish * wish) < pull {
            if let Some(event) = self.wire() {
                return event;
            }
        }
        if let Some(event) = self.arrival() {
            return event;
        }
        let sender = self.sender();
        if let (Some(station), true) = (sender, self.random.once_in(2)) {
            return self.send(station, text);
        }
        if let Some(event) = self.departure() {
            return event;
        }
        if self.random.once_in(FLAGS) {
            return self.flag();
        }
        if let Some(event) = self.radio() {
            return event;
        }
        match sender {
            Some(station) => self.send(station, text),
            None => self.last(),
        }
    }

    /// What is left where nothing can be sent or received. With one station and its numbers used
    /// up that is nothing but to be refused.
    fn last(&mut self) -> Event<'static> {
        let idle = Event::Start { stations: self.floor.stations(), carts: self.floor.carts() };
        let event = self.wire().or_else(|| self.steady_again());
        event.or_else(|| self.move_cart()).unwrap_or(idle)
    }

    fn station(&mut self) -> StationNo {
        StationNo(self.random.below(self.floor.stations() as usize) as u8)
    }

    /// A cart that enters. Most come at the beginning, the others late.
    fn arrival(&mut self) -> Option<Event<'static>> {
        let outside = self.floor.carts() as usize - self.floor.entered().count_ones() as usize;
        if outside == 0 {
            return None;
        }
        let early = 4 * outside > self.floor.carts() as usize;
        // Those that retire come back before long.
        let rarely = match (early, self.wishes.retire) {
            (true, _) => 2,
            (false, 0) => 400,
            (false, _) => 20,
        };
        let now = self.floor.entered() == 0 || self.random.once_in(rarely);
        now.then(|| self.enter())
    }

    fn enter(&mut self) -> Event<'static> {
        let station = self.station();
        let outside = !self.floor.entered() & (u64::MAX >> (64 - self.floor.carts() as u32));
        let cart = CartNo(self.random.bit_of(outside));
        Event::Enter { station, cart }
    }

    /// A record of some line that is not empty.
    fn wire(&mut self) -> Option<Event<'static>> {
        if self.on_lines == 0 {
            return None;
        }
        let stations = self.floor.stations() as usize;
        let first = self.random.below(stations * stations);
        (first..stations * stations)
            .chain(0..first)
            .map(|line| (StationNo((line / stations) as u8), StationNo((line % stations) as u8)))
            .find(|(from, to)| self.floor.on_line(*from, *to) > 0)
            .map(|(from, to)| Event::Wire { from, to })
    }

    /// A station that can send, where a message more is wanted.
    fn sender(&mut self) -> Option<StationNo> {
        // The wish, more or less: a floor that always holds the same number would be a tame one.
        let wanted = self.wishes.held / 4 + self.random.below(self.wishes.held + 1);
        let station = self.station();
        let room = self.floor.held() < wanted.clamp(1, self.floor.limits().held as usize);
        (room && self.floor.sent(station) <= self.floor.limits().last_number).then_some(station)
    }

    fn send<'t>(&mut self, station: StationNo, text: &'t mut [u8; LONG]) -> Event<'t> {
        if self.wishes.groups > 0 && self.random.percent(self.wishes.groups) {
            return self.group_event(station, text);
        }
        if self.wishes.long > 0 && self.random.percent(self.wishes.long) {
            if let Some(length) = self.long_length() {
                let set = self.some_set();
                return Event::LongSend { station, set, text: self.fill(&mut text[..length]) };
            }
        }
        Event::Send { station, set: self.some_set(), text: self.text(text) }
    }

    /// The length of a long text that the store has room for.
    fn long_length(&mut self) -> Option<usize> {
        let most = self.floor.free_octets().min(LONG);
        (most > TEXT).then(|| TEXT + 1 + self.random.below(most - TEXT))
    }

    /// Carts that are entered.
    fn some_set(&mut self) -> u64 {
        let entered = self.floor.entered();
        match self.random.below(16) {
            0 => entered,
            1 => entered & self.random.octets() | 1 << self.random.bit_of(entered),
            _ => (0..1 + self.random.below(5)).fold(0, |s, _| s | 1 << self.random.bit_of(entered)),
        }
    }

    /// A send to a group that is defined. Once in four times, and where it is not, its members are
    /// set, seldom to none.
    fn group_event<'t>(&mut self, station: StationNo, text: &'t mut [u8; LONG]) -> Event<'t> {
        let group = self.some_group();
        match self.random.below(64) {
            0 => Event::Group { group, set: 0 },
            1..=16 => Event::Group { group, set: self.some_set() },
            _ if self.floor.group(group) == 0 => Event::Group { group, set: self.some_set() },
            _ => Event::GroupSend { station, group, text: self.text(text) },
        }
    }

    fn some_group(&mut self) -> GroupNo {
        GroupNo(self.random.below(GROUPS) as u8)
    }

    /// A text that a send may have.
    fn text<'t>(&mut self, text: &'t mut [u8; LONG]) -> &'t [u8] {
        let length = 1 + self.random.below(TEXT);
        self.fill(&mut text[..length])
    }

    /// A text that may be empty too.
    fn any_text<'t>(&mut self, text: &'t mut [u8; LONG]) -> &'t [u8] {
        let length = self.random.below(TEXT + 1);
        self.fill(&mut text[..length])
    }

    fn fill<'t>(&mut self, text: &'t mut [u8]) -> &'t [u8] {
        text.fill_with(|| self.random.octets() as u8);
        text
    }

    /// A cart of some queue's head.
    fn radio(&mut self) -> Option<Event<'static>> {
        let stations = self.floor.stations();
        let first = self.station().0;
        for station in (first..stations).chain(0..first).map(StationNo) {
            let Some(queued) = self.floor.head(station) else { continue };
            let ready = carts_of(queued & !self.floor.unsteady())
                .filter(|cart| self.floor.place(*cart) == Place::At(station))
                .fold(0, |set, cart| set | cart.alone());
            if ready != 0 {
                return Some(Event::Radio { station, cart: CartNo(self.random.bit_of(ready)) });
            }
        }
        None
    }

    /// A flag. An unsteady cart holds up its station's queue, so three flags of four, while there
    /// is such a cart, say that one is steady again.
    fn flag(&mut self) -> Event<'static> {
        if !self.random.once_in(4) {
            if let Some(event) = self.steady_again() {
                return event;
            }
        }
        let cart = CartNo(self.random.bit_of(self.floor.entered()));
        Event::Steady { cart, steady: self.random.once_in(8) }
    }

    fn steady_again(&mut self) -> Option<Event<'static>> {
        match self.floor.unsteady() {
            0 => None,
            unsteady => {
                Some(Event::Steady { cart: CartNo(self.random.bit_of(unsteady)), steady: true })
            }
        }
    }

    /// Now and then a cart that retires or rolls away.
    fn departure(&mut self) -> Option<Event<'static>> {
        if self.wishes.retire > 0 && self.random.percent(self.wishes.retire) {
            if let Some(event) = self.retire() {
                return Some(event);
            }
        }
        if self.random.once_in(8) {
            return self.move_cart();
        }
        None
    }

    /// A cart at a station that no held message names.
    fn retire(&mut self) -> Option<Event<'static>> {
        let free = carts_of(self.floor.entered() & !self.floor.named())
            .filter(|cart| matches!(self.floor.place(*cart), Place::At(_)))
            .fold(0, |set, cart| set | cart.alone());
        (free != 0).then(|| Event::Retire { cart: CartNo(self.random.bit_of(free)) })
    }

    /// A cart that is at a station and leaves it.
    fn move_cart(&mut self) -> Option<Event<'static>> {
        let (entered, stations) = (self.floor.entered(), self.floor.stations() as usize);
        if stations == 1 {
            return None;
        }
        for _ in 0..8 {
            let cart = CartNo(self.random.bit_of(entered));
            let Place::At(old) = self.floor.place(cart) else { continue };
            let to = (old.0 as usize + 1 + self.random.below(stations - 1)) % stations;
            return Some(Event::Move { cart, to: StationNo(to as u8) });
        }
        None
    }

    /// An event that is likely to be refused by the floor, never by the frame.
    fn bad<'t>(&mut self, text: &'t mut [u8; LONG]) -> Event<'t> {
        if self.wishes.groups > 0 && self.random.once_in(8) {
            return self.bad_group(text);
        }
        if self.wishes.long > 0 && self.random.once_in(8) {
            return self.any_long(text);
        }
        if self.wishes.retire > 0 && self.random.once_in(8) {
            let carts = (self.floor.carts() as usize + 1).min(64);
            return Event::Retire { cart: CartNo(self.random.below(carts) as u8) };
        }
        self.bad_of_kinds_to_6(text)
    }

    fn bad_of_kinds_to_6<'t>(&mut self, text: &'t mut [u8; LONG]) -> Event<'t> {
        let (stations, carts) = (self.floor.stations(), self.floor.carts());
        let (station, entered) = (self.station(), self.floor.entered());
        let some = match entered {
            0 => CartNo(0),
            _ => CartNo(self.random.bit_of(entered)),
        };
        match self.random.below(16) {
            0 => Event::Start { stations, carts },
            1 if stations < 16 => Event::Wire { from: station, to: StationNo(stations) },
            2 if stations < 16 => Event::Enter { station: StationNo(stations), cart: some },
            3 if carts < 64 => Event::Move { cart: CartNo(carts), to: station },
            4 if carts < 64 => {
                Event::Send { station, set: entered | 1 << carts, text: self.any_text(text) }
            }
            5 => Event::Enter { station, cart: some },
            6 => Event::Send { station, set: 0, text: self.any_text(text) },
            7 if entered.count_ones() < carts as u32 => {
                let Event::Enter { cart, .. } = self.enter() else { unreachable!() };
                Event::Send { station, set: cart.alone() | entered, text: self.any_text(text) }
            }
            8 if self.floor.place(some) != Place::At(station) => {
                Event::Radio { station, cart: some }
            }
            9 => match self.floor.place(some) {
                Place::At(here) => Event::Move { cart: some, to: here },
                _ => Event::Move { cart: some, to: station },
            },
            // With two percent of bad events, one frame in 800 is a send without a text.
            10 if entered != 0 => Event::Send { station, set: some.alone(), text: &[] },
            11 if entered.count_ones() < carts as u32 => {
                let Event::Enter { cart, .. } = self.enter() else { unreachable!() };
                Event::Steady { cart, steady: false }
            }
            12 if entered != 0 => self.radio_unsteady().unwrap_or_else(|| self.flag()),
            _ => self.wild(text),
        }
    }

    /// A long text from any station, to carts that are entered or any others, whether the store has
    /// room or not.
    fn any_long<'t>(&mut self, text: &'t mut [u8; LONG]) -> Event<'t> {
        let set = match self.random.below(4) {
            0 => self.random.octets() & self.random.octets(),
            1 => 0,
            _ => self.floor.entered(),
        };
        let length = TEXT + 1 + self.random.below(LONG - TEXT);
        let station = self.near_station();
        Event::LongSend { station, set, text: self.fill(&mut text[..length]) }
    }

    /// A group with any carts or none, or a send to any group from any station.
    fn bad_group<'t>(&mut self, text: &'t mut [u8; LONG]) -> Event<'t> {
        let group = self.some_group();
        match self.random.below(5) {
            0 => Event::Group { group, set: 0 },
            1 => Event::Group { group, set: self.random.octets() & self.random.octets() },
            2 => {
                let cart = CartNo(self.random.below(self.floor.carts() as usize) as u8);
                Event::Group { group, set: cart.alone() }
            }
            3 => Event::GroupSend { station: self.near_station(), group, text: &[] },
            _ => {
                let station = self.near_station();
                Event::GroupSend { station, group, text: self.any_text(text) }
            }
        }
    }

    /// A radio step of a cart that is at a station but not steady.
    fn radio_unsteady(&self) -> Option<Event<'static>> {
        carts_of(self.floor.unsteady()).find_map(|cart| match self.floor.place(cart) {
            Place::At(station) => Some(Event::Radio { station, cart }),
            _ => None,
        })
    }

    /// An event with random fields, refused or not.
    fn wild<'t>(&mut self, text: &'t mut [u8; LONG]) -> Event<'t> {
        let (station, to) = (self.near_station(), self.near_station());
        let cart = CartNo(self.random.below((self.floor.carts() as usize + 1).min(64)) as u8);
        match self.random.below(17) {
            0 => Event::Start { stations: station.0 + 1, carts: cart.0 + 1 },
            1 => Event::Enter { station, cart },
            2 | 3 => {
                let set = self.random.octets() & self.random.octets() & self.random.octets();
                let set = if self.random.once_in(4) { set } else { set & self.floor.entered() };
                Event::Send { station, set, text: self.any_text(text) }
            }
            4..=8 => Event::Wire { from: station, to },
            9..=12 => Event::Radio { station, cart },
            13 => Event::Steady { cart, steady: !self.random.once_in(3) },
            _ => Event::Move { cart, to },
        }
    }

    /// A station of the floor or the one behind the last.
    fn near_station(&mut self) -> StationNo {
        StationNo(self.random.below((self.floor.stations() as usize + 1).min(16)) as u8)
    }
}

/// Gives an event to a floor.
pub fn give(floor: &mut Floor, event: &Event) -> Result<Step, Refusal> {
    run::give(floor, event, &mut [0; LONG]).map(|(step, _)| step)
}

/// A whole stream.
pub fn stream(seed: u64, count: usize, wishes: Wishes) -> (Vec<u8>, Counts) {
    let mut generator = Generator::new(seed, wishes);
    let mut octets = Vec::new();
    for _ in 0..count {
        generator.frame(&mut octets);
    }
    (octets, generator.counts())
}
