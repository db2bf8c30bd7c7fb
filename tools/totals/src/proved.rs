//! The proved totals, by their C names: `crates/exported_totals/src/lib.rt`. None asks anything of its caller.

/// What one cart received and passed over in a finished run. Laid out as the library has it.
#[repr(C)]
#[derive(Clone, Copy, Debug, PartialEq, Eq)]
pub struct CartResult {
    pub cart: u32,
    pub received: u32,
    pub passed: u32,
}

#[derive(Clone, Copy, Debug, Default, PartialEq, Eq)]
pub struct Tally {
    pub received: u64,
    pub passed: u64,
}

/// The number of a refusal: 22, a list of more than 4,096 results; 23, a join whose total exceeds 64 bits.
#[derive(Clone, Copy, Debug, PartialEq, Eq)]
pub struct Refused(pub u64);

/// Passed over received, in lowest terms.
#[derive(Clone, Copy, Debug, PartialEq, Eq)]
pub struct Fraction {
    pub passed: u64,
    pub received: u64,
}

#[repr(C)]
struct Summed {
    refusal: u64,
    received: u64,
    passed: u64,
}

#[repr(C)]
struct Terms {
    passed: u64,
    received: u64,
}

extern "C" {
    fn mekhturia_totals_sum(results: *const CartResult, count: usize) -> Summed;
    fn mekhturia_totals_join(received1: u64, passed1: u64, received2: u64, passed2: u64) -> Summed;
    fn mekhturia_totals_ratio(received: u64, passed: u64) -> Terms;
}

impl Summed {
    fn answer(self) -> Result<Tally, Refused> {
        match self.refusal {
            0 => Ok(Tally { received: self.received, passed: self.passed }),
            number => Err(Refused(number)),
        }
    }
}

pub fn sum(results: &[CartResult]) -> Result<Tally, Refused> {
    unsafe { mekhturia_totals_sum(results.as_ptr(), results.len()) }.answer()
}

pub fn join(a: Tally, b: Tally) -> Result<Tally, Refused> {
    unsafe { mekhturia_totals_join(a.received, a.passed, b.received, b.passed) }.answer()
}

pub fn ratio(totals: Tally) -> Option<Fraction> {
    let terms = unsafe { mekhturia_totals_ratio(totals.received, totals.passed) };
    (terms.received != 0).then_some(Fraction { passed: terms.passed, received: terms.received })
}
