//! Why nothing was done.

use std::fmt;

macro_rules! refusals {
    ($($number:literal $name:ident $says:literal;)*) => {
        /// Why nothing was done: the first reason that applies. A refusal changes nothing.
        ///
        /// ```
        /// use mekhturia::{Floor, Refusal};
        /// let refusal = Floor::new().start(17, 1).unwrap_err();
        /// assert_eq!(refusal, Refusal::Limits);
        /// assert_eq!(refusal.number(), 7);
        /// assert_eq!(refusal.to_string(), "no 7: a start with more stations or carts than there may be, or with none");
        /// ```
        #[derive(Clone, Copy, Debug, PartialEq, Eq, Hash)]
        #[non_exhaustive]
        pub enum Refusal {
            $(#[doc = concat!($says, ".")] $name = $number,)*
        }

        impl Refusal {
            /// All of them, by their numbers.
            pub const ALL: &'static [Refusal] = &[$(Refusal::$name),*];

            /// What it says, for a person to read.
            pub fn says(self) -> &'static str {
                match self {
                    $(Refusal::$name => $says,)*
                }
            }
        }
    };
}

refusals! {
    1 Cut "a frame is cut short";
    2 Kind "a frame has a kind that is not there";
    3 Field "a field that the frame's kind does not list is not zero, or a flag is above 1";
    4 Text "a text is longer than 32 octets, or that of a long send has not 33 to 512";
    5 Floor "the floor is not started, a lent part has the wrong length, or its words are not those of a floor";
    6 Started "the floor is started already";
    7 Limits "a start with more stations or carts than there may be, or with none";
    8 Station "the floor has no such station";
    9 Cart "the floor has no such cart";
    10 Entered "the cart is on the floor already";
    11 NoCarts "the set of carts is empty";
    12 NamedOutside "a cart of the set is not on the floor now";
    13 Numbers "the station has used its last number";
    14 Held "as many messages are held as there may be";
    15 Line "the line is empty";
    16 Elsewhere "the cart is not at this station";
    17 NotItsTurn "the head of the queue is not for this cart";
    18 Outside "the cart is not on the floor now";
    19 OnItsWay "the cart is leaving or travelling";
    20 There "the cart is at this station already";
    21 Buffer "the lent buffer is shorter than the text, or, to run until quiet, than 512 octets";
    24 NoText "the text is empty";
    25 Unsteady "the cart is not steady";
    26 Group "the group is not defined, or above 15";
    27 Store "fewer octets of the store are free than the text has";
    28 NotHeld "the message is not held";
    29 Named "a held message names the cart";
}

impl Refusal {
    /// Its number.
    pub fn number(self) -> u64 {
        self as u64
    }

    /// The refusal of a number; none has 0.
    pub fn of(number: u64) -> Option<Refusal> {
        Refusal::ALL.iter().copied().find(|refusal| refusal.number() == number)
    }
}

impl fmt::Display for Refusal {
    fn fmt(&self, f: &mut fmt::Formatter) -> fmt::Result {
        write!(f, "no {}: {}", self.number(), self.says())
    }
}

impl std::error::Error for Refusal {}
