//! Corrected quotes (document 02, request 5). The Rust repository has nothing like them: the rule here is the driver's
//! own, written from the paper, so that a third reading stands beside the engine's and the model's.

use std::collections::BTreeMap;

use rotala::exchange::uist_v1::UistQuote;

use crate::text::name;

/// The rows that a lent table must have.
const LEAST_ROOM: u64 = 256;
/// The rows of the vendor that are taken.
const MOST_GIVEN: usize = 1_024;

/// A row of the vendor: a quote with a revision.
pub struct VendorQuote {
    pub symbol: u32,
    pub bid: f64,
    pub ask: f64,
    pub date: i64,
    pub revision: u8,
}

impl VendorQuote {
    fn quote(&self) -> UistQuote {
        UistQuote { symbol: name(self.symbol), bid: self.bid, ask: self.ask, date: self.date }
    }

    /// The number that the row draws by itself.
    fn fault(&self) -> Option<u64> {
        let is_price = |value: f64| value.is_finite() && value > 0.0;
        if self.symbol > 255 {
            Some(1)
        } else if !is_price(self.bid) || !is_price(self.ask) {
            Some(2)
        } else {
            None
        }
    }
}

/// The rows that nothing supersedes, by ascending symbol; `Err` holds the number that is drawn.
pub fn corrected(room: u64, rows: &[VendorQuote]) -> Result<Vec<UistQuote>, u64> {
    if room < LEAST_ROOM {
        return Err(15);
    }
    if rows.len() > MOST_GIVEN {
        return Err(22);
    }
    if let Some(fault) = rows.iter().find_map(VendorQuote::fault) {
        return Err(fault);
    }
    let mut ascending = BTreeMap::new();
    for row in rows {
        if ascending.insert((row.symbol, row.date, row.revision), row).is_some() {
            return Err(21);
        }
    }
    // Of a symbol's rows the last put in stays: the one of the latest date, and then of the highest revision.
    let last: BTreeMap<u32, &VendorQuote> = ascending.values().map(|row| (row.symbol, *row)).collect();
    Ok(last.values().map(|row| row.quote()).collect())
}
