//! Stands in for the reader of Binance's files, which `Penelope::from_binance` names; it is not called here.

pub struct Record {
    pub open: f64,
    pub close: f64,
    pub open_date: i64,
    pub close_date: i64,
}

pub fn get_binance_1m_klines() -> Vec<Record> {
    unreachable!("no files of Binance are read here")
}
