//! Results as text, one on a line: `cart received passed`. What follows a `#` is a comment. A site's results are one file.

use std::fs;

use crate::proved::{join, ratio, sum, CartResult, Refused, Tally};

/// The results of a site, or what is wrong with its text, under the file's name.
pub fn results(name: &str, text: &str) -> Result<Vec<CartResult>, String> {
    let mut list = Vec::new();
    for (index, line) in text.lines().enumerate() {
        let said = line.split('#').next().unwrap_or_default();
        let words: Vec<&str> = said.split_whitespace().collect();
        if words.is_empty() {
            continue;
        }
        list.push(result(&words).map_err(|mistake| format!("{name}:{}: {mistake}", index + 1))?);
    }
    Ok(list)
}

fn result(words: &[&str]) -> Result<CartResult, String> {
    let &[cart, received, passed] = words else {
        return Err(format!("three numbers are wanted, cart received passed: {}", words.join(" ")));
    };
    Ok(CartResult { cart: number(cart)?, received: number(received)?, passed: number(passed)? })
}

fn number(word: &str) -> Result<u32, String> {
    if word.is_empty() || !word.bytes().all(|octet| octet.is_ascii_digit()) {
        return Err(format!("not a number: {word}"));
    }
    word.parse().map_err(|_| format!("more than {}: {word}", u32::MAX))
}

/// The totals of all sites, one file each, joined in the order that the files are named in.
pub fn totals(names: &[String]) -> Result<Tally, String> {
    let mut all = Tally::default();
    for name in names {
        let octets = fs::read(name).map_err(|error| format!("{name}: {error}"))?;
        let text = String::from_utf8(octets).map_err(|_| format!("{name}: not text"))?;
        let site = sum(&results(name, &text)?).map_err(|refused| refusal(name, refused))?;
        all = join(all, site).map_err(|refused| refusal(name, refused))?;
    }
    Ok(all)
}

fn refusal(name: &str, Refused(number): Refused) -> String {
    let why = match number {
        22 => "more than 4,096 results: split the file",
        23 => "with this site a total exceeds 64 bits",
        _ => "refused",
    };
    format!("{name}: refusal {number}: {why}")
}

/// The lines that are printed for totals.
pub fn report(totals: Tally) -> String {
    let Tally { received, passed } = totals;
    let ratio = ratio(totals)
        .map_or("none".to_string(), |terms| format!("{}/{}", terms.passed, terms.received));
    format!("received {received}\npassed {passed}\nratio {ratio}\n")
}
