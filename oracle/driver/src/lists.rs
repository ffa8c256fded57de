//! The broker's lists, by ascending symbol: the Rust's maps walk in another order.

use rotala::exchange::uist_v1::UistQuote;
use rotala_client::broker::PortfolioHoldings;

use crate::text::put_whole;

pub fn number(name: &str) -> u32 {
    name.parse().expect("every name here is a number")
}

pub fn sorted_names(mut names: Vec<String>) -> Vec<String> {
    names.sort_unstable_by_key(|name| number(name));
    names
}

pub fn sorted_holdings(map: PortfolioHoldings) -> Vec<(String, f64)> {
    let mut rows: Vec<(String, f64)> = map.into_iter().collect();
    rows.sort_unstable_by_key(|(name, _)| number(name));
    rows
}

/// No row where the Rust answers `None`.
pub fn sorted_quotes(quotes: Option<Vec<UistQuote>>) -> Vec<UistQuote> {
    let mut quotes = quotes.unwrap_or_default();
    quotes.sort_unstable_by_key(|quote| number(&quote.symbol));
    quotes
}

/// Writes each row after a space.
pub fn put_rows<T>(out: &mut Vec<u8>, rows: &[T], put_row: fn(&mut Vec<u8>, &T)) {
    for row in rows {
        out.push(b' ');
        put_row(out, row);
    }
}

/// Writes how many rows there are, and each.
pub fn put_list<T>(out: &mut Vec<u8>, rows: &[T], put_row: fn(&mut Vec<u8>, &T)) {
    put_whole(out, rows.len() as u64);
    put_rows(out, rows, put_row);
}
