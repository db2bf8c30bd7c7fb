//! The proved totals beside totals in plain Rust, on random lists and numbers.

use totals::proved::{join, ratio, sum, CartResult, Fraction, Refused, Tally};

/// A stream of numbers from a seed (xorshift).
struct Random(u64);

impl Random {
    fn next(&mut self) -> u64 {
        self.0 ^= self.0 << 13;
        self.0 ^= self.0 >> 7;
        self.0 ^= self.0 << 17;
        self.0
    }

    /// A number of any length in bits, so that small and large ones are both met.
    fn number(&mut self) -> u64 {
        let bits = self.next() % 65;
        self.next().checked_shr(64 - bits as u32).unwrap_or(0)
    }
}

fn plain_sum(results: &[CartResult]) -> Result<Tally, Refused> {
    if results.len() > 4096 {
        return Err(Refused(22));
    }
    Ok(Tally {
        received: results.iter().map(|result| u64::from(result.received)).sum(),
        passed: results.iter().map(|result| u64::from(result.passed)).sum(),
    })
}

fn plain_join(a: Tally, b: Tally) -> Result<Tally, Refused> {
    let joined = a.received.checked_add(b.received).zip(a.passed.checked_add(b.passed));
    joined.map(|(received, passed)| Tally { received, passed }).ok_or(Refused(23))
}

/// By Stein's algorithm: halves and differences, no remainder.
fn plain_ratio(totals: Tally) -> Option<Fraction> {
    let (mut a, mut b) = (totals.passed, totals.received);
    if b == 0 {
        return None;
    }
    let twos = (a | b).trailing_zeros();
    b >>= b.trailing_zeros();
    while a != 0 {
        a >>= a.trailing_zeros();
        (a, b) = (a.abs_diff(b), a.min(b));
    }
    let divisor = b << twos;
    Some(Fraction { passed: totals.passed / divisor, received: totals.received / divisor })
}

#[test]
fn sums_agree() {
    let mut random = Random(1);
    for _ in 0..300 {
        let count = (random.next() % 4200) as usize;
        let mut list = Vec::new();
        for _ in 0..count {
            let cart = random.number() as u32;
            let received = random.number() as u32;
            let passed = random.number() as u32;
            list.push(CartResult { cart, received, passed });
        }
        assert_eq!(sum(&list), plain_sum(&list));
    }
}

#[test]
fn joins_and_ratios_agree() {
    let mut random = Random(2);
    for _ in 0..300_000 {
        let factor = random.number() % 1000 + 1;
        let a = Tally { received: random.number(), passed: random.number() };
        let b = Tally { received: random.number() / factor, passed: random.number() / factor };
        let larger = Tally { received: b.received * factor, passed: b.passed * factor };
        assert_eq!(join(a, b), plain_join(a, b));
        assert_eq!(ratio(a), plain_ratio(a));
        assert_eq!(ratio(larger), plain_ratio(b));
    }
}
