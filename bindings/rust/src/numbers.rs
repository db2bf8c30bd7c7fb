//! Stations and carts are counted apart.

/// A station's number, from 0.
#[derive(Clone, Copy, Debug, PartialEq, Eq, PartialOrd, Ord, Hash)]
pub struct Station(pub u64);

/// A cart's number, from 0.
#[derive(Clone, Copy, Debug, PartialEq, Eq, PartialOrd, Ord, Hash)]
pub struct Cart(pub u64);

/// A set of carts: cart c has weight 2^c.
///
/// ```
/// use mekhturia::{Cart, Carts};
/// assert_eq!(Carts::from([Cart(0), Cart(3)]), Carts(9));
/// assert_eq!((0..3).map(Cart).collect::<Carts>(), Carts(7));
/// ```
#[derive(Clone, Copy, Debug, Default, PartialEq, Eq, Hash)]
pub struct Carts(pub u64);

impl FromIterator<Cart> for Carts {
    /// # Panics
    /// If a cart's number is above 63, which no set can say.
    fn from_iter<I: IntoIterator<Item = Cart>>(carts: I) -> Carts {
        Carts(carts.into_iter().fold(0, |set, cart| {
            assert!(cart.0 < 64, "a set has carts 0 to 63, and not {}", cart.0);
            set | 1 << cart.0
        }))
    }
}

impl<const N: usize> From<[Cart; N]> for Carts {
    fn from(carts: [Cart; N]) -> Carts {
        carts.into_iter().collect()
    }
}
