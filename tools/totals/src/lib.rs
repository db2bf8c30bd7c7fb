//! Passed over per receipt: the proved totals (`proved`), and the command that reads the results of sites (`sites`).

pub mod proved;
pub mod sites;
