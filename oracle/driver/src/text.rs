//! The words of a scenario: how each is read, and how each is written.

use rotala::exchange::uist_v1::{Order, OrderType, Trade, TradeType, UistQuote};
use rotala::input::penelope::PenelopeQuote;
use rotala_client::broker::BrokerCost;

use crate::corrections::VendorQuote;

pub fn float(word: &[u8]) -> Option<f64> {
    let digit = |byte: &u8| matches!(byte, b'0'..=b'9' | b'a'..=b'f');
    if word.len() != 16 || !word.iter().all(digit) {
        return None;
    }
    let bits = u64::from_str_radix(std::str::from_utf8(word).ok()?, 16).ok()?;
    Some(f64::from_bits(bits))
}

pub fn whole(word: &[u8]) -> Option<u64> {
    if word.is_empty() || word.len() > 20 || !word.iter().all(u8::is_ascii_digit) {
        return None;
    }
    std::str::from_utf8(word).ok()?.parse().ok()
}

/// A symbol's name in the Rust has three digits, so that names ascend as the numbers do.
pub fn name(symbol: u32) -> String {
    format!("{symbol:03}")
}

fn symbol_number(word: &[u8]) -> Option<u32> {
    u32::try_from(whole(word)?).ok()
}

pub fn symbol(word: &[u8]) -> Option<String> {
    symbol_number(word).map(name)
}

pub fn revision(word: &[u8]) -> Option<u8> {
    u8::try_from(whole(word)?).ok()
}

pub fn date(word: &[u8]) -> Option<i64> {
    let (sign, digits) = match word.strip_prefix(b"-") {
        Some(digits) => (-1, digits),
        None => (1, word),
    };
    i64::try_from(sign * i128::from(whole(digits)?)).ok()
}

pub fn kind(word: &[u8]) -> Option<OrderType> {
    Some(match word {
        b"mb" => OrderType::MarketBuy,
        b"ms" => OrderType::MarketSell,
        b"lb" => OrderType::LimitBuy,
        b"ls" => OrderType::LimitSell,
        b"sb" => OrderType::StopBuy,
        b"ss" => OrderType::StopSell,
        _ => return None,
    })
}

pub fn parts<const N: usize>(word: &[u8]) -> Option<[&[u8]; N]> {
    let parts: Vec<&[u8]> = word.split(|byte| *byte == b':').collect();
    parts.try_into().ok()
}

pub fn order(word: &[u8]) -> Option<Order> {
    let [order_type, name, shares, price] = parts(word)?;
    let price = match price {
        b"-" => None,
        price => Some(float(price)?),
    };
    Some(Order {
        order_id: None,
        order_type: kind(order_type)?,
        symbol: symbol(name)?,
        shares: float(shares)?,
        price,
    })
}

pub fn quote(word: &[u8]) -> Option<(String, PenelopeQuote)> {
    let [name, bid, ask, day] = parts(word)?;
    let name = symbol(name)?;
    let quote = PenelopeQuote {
        bid: float(bid)?,
        ask: float(ask)?,
        symbol: name.clone(),
        date: date(day)?,
    };
    Some((name, quote))
}

pub fn vendor_quote(word: &[u8]) -> Option<VendorQuote> {
    let [name, bid, ask, day, version] = parts(word)?;
    Some(VendorQuote {
        symbol: symbol_number(name)?,
        bid: float(bid)?,
        ask: float(ask)?,
        date: date(day)?,
        revision: revision(version)?,
    })
}

pub fn weight(word: &[u8]) -> Option<(String, f64)> {
    let [name, weight] = parts(word)?;
    Some((symbol(name)?, float(weight)?))
}

pub fn cost(word: &[u8]) -> Option<BrokerCost> {
    let [case, amount] = parts(word)?;
    cost_of(case, float(amount)?)
}

/// The cost of this name.
pub fn cost_of(case: &[u8], amount: f64) -> Option<BrokerCost> {
    Some(match case {
        b"per_share" => BrokerCost::per_share(amount),
        b"pct_of_value" => BrokerCost::pct_of_value(amount),
        b"flat" => BrokerCost::flat(amount),
        _ => return None,
    })
}

pub fn lot(word: &[u8]) -> Option<u32> {
    match parts(word)? {
        [b"lot", number] => u32::try_from(whole(number)?).ok(),
        _ => None,
    }
}

pub fn put(out: &mut Vec<u8>, text: &str) {
    out.extend_from_slice(text.as_bytes());
}

pub fn put_whole(out: &mut Vec<u8>, number: u64) {
    put(out, &number.to_string());
}

pub fn put_float(out: &mut Vec<u8>, value: f64) {
    let bits = if value.is_nan() { 0x7ff8000000000000 } else { value.to_bits() };
    let digit = |at: u32| b"0123456789abcdef"[(bits >> (60 - 4 * at)) as usize & 15];
    out.extend((0..16).map(digit));
}

pub fn put_optional(out: &mut Vec<u8>, value: Option<f64>) {
    match value {
        Some(value) => put_float(out, value),
        None => put(out, "none"),
    }
}

/// Writes a name as its number, without leading zeros.
pub fn put_symbol(out: &mut Vec<u8>, name: &str) {
    let digits = name.trim_start_matches('0');
    put(out, if digits.is_empty() { "0" } else { digits });
}

pub fn put_holding(out: &mut Vec<u8>, (name, quantity): &(String, f64)) {
    put_symbol(out, name);
    out.push(b':');
    put_float(out, *quantity);
}

pub fn put_cost(out: &mut Vec<u8>, cost: &BrokerCost) {
    let (case, amount) = match cost {
        BrokerCost::PerShare(amount) => ("per_share:", amount),
        BrokerCost::PctOfValue(amount) => ("pct_of_value:", amount),
        BrokerCost::Flat(amount) => ("flat:", amount),
    };
    put(out, case);
    put_float(out, *amount);
}

pub fn put_order(out: &mut Vec<u8>, order: &Order) {
    put(out, match order.order_type {
        OrderType::MarketBuy => "mb:",
        OrderType::MarketSell => "ms:",
        OrderType::LimitBuy => "lb:",
        OrderType::LimitSell => "ls:",
        OrderType::StopBuy => "sb:",
        OrderType::StopSell => "ss:",
    });
    put_symbol(out, &order.symbol);
    out.push(b':');
    put_float(out, order.shares);
    out.push(b':');
    match order.price {
        Some(price) => put_float(out, price),
        None => put(out, "-"),
    }
}

pub fn put_quote(out: &mut Vec<u8>, quote: &UistQuote) {
    put_symbol(out, &quote.symbol);
    out.push(b':');
    put_float(out, quote.bid);
    out.push(b':');
    put_float(out, quote.ask);
    out.push(b':');
    put(out, &quote.date.to_string());
}

pub fn put_trade(out: &mut Vec<u8>, trade: &Trade) {
    put(out, if trade.typ == TradeType::Buy { "buy:" } else { "sell:" });
    put_symbol(out, &trade.symbol);
    out.push(b':');
    put_float(out, trade.quantity);
    out.push(b':');
    put_float(out, trade.value);
    out.push(b':');
    put(out, &trade.date.to_string());
}
