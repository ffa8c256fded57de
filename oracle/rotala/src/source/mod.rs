//! Holds the stand-in for `rotala::source::binance`.

pub mod binance;
