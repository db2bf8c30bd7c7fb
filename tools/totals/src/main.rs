//! Prints what carts received and passed over, over all sites, and the ratio of both.

use std::process::ExitCode;

use totals::sites::{report, totals};

const USAGE: &str = "\
totals FILE..
    prints the totals of all files, one for each site, and passed over received in lowest
    terms, or none. A file has a result on each line: cart received passed";

fn main() -> ExitCode {
    let names: Vec<String> = std::env::args().skip(1).collect();
    let said = if names.is_empty() { Err(USAGE.to_string()) } else { totals(&names) };
    match said {
        Ok(all) => {
            print!("{}", report(all));
            ExitCode::SUCCESS
        }
        Err(what) => {
            eprintln!("{what}");
            ExitCode::FAILURE
        }
    }
}
