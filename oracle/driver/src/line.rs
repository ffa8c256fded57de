//! A scenario's line as a call; `None` where it is of no form of docs/SCENARIOS.md.

use rotala::exchange::uist_v1::Order;
use rotala::input::penelope::PenelopeQuoteByDate;
use rotala_client::broker::{
    BrokerCashEvent, BrokerCost, BrokerOperations, CashOperations, Portfolio, PortfolioHoldings,
    PortfolioValues,
};

use crate::corrections::VendorQuote;
use crate::shared::Broker;
use crate::state::turnover;
use crate::text::{cost, float, lot, order, quote, symbol, vendor_quote, weight, whole};

pub const MOST_BYTES: usize = 65_535;
pub const MOST_ROWS: usize = 512;
pub const MOST_ORDERS: usize = 1_024;
pub const MOST_COSTS: usize = 32;
pub const MOST_VENDOR_ROWS: usize = 1_100;
const MOST_ROOM: u64 = 1_024;

pub enum Call {
    New(Vec<BrokerCost>, PenelopeQuoteByDate),
    Lend,
    Cash(fn(&mut Broker, &f64) -> BrokerCashEvent, f64),
    Send(Order),
    Insert(Order),
    SendList(Vec<Order>),
    Delete(u64),
    Check(PenelopeQuoteByDate, PenelopeQuoteByDate),
    Walk(PortfolioValues),
    Update(PenelopeQuoteByDate, PenelopeQuoteByDate, PortfolioValues),
    Quote(String),
    Quotes,
    Positions,
    Holdings(fn(&Broker) -> PortfolioHoldings),
    TradeCosts,
    Position(fn(&Broker, &str) -> Option<f64>, String),
    Figure(fn(&Broker) -> f64),
    BrokerState,
    TradeCount,
    Impact(f64, f64, bool),
    Costs(f64, f64),
    Round(fn(f64) -> f64, f64),
    Correct(u64, Vec<VendorQuote>),
    State,
    Quiet(bool),
    Clock,
}

type Words<'a> = &'a [&'a [u8]];

/// Reads the line of these words, of which there is at least one where the line is not too long.
pub fn call(line: &[u8], words: Words) -> Option<Call> {
    if line.len() > MOST_BYTES {
        return None;
    }
    let (verb, rest) = words.split_first()?;
    act(verb, rest).or_else(|| read(verb, rest))
}

fn rows<T, C: FromIterator<T>>(words: Words, most: usize, row: fn(&[u8]) -> Option<T>) -> Option<C> {
    if words.len() > most {
        return None;
    }
    words.iter().map(|word| row(word)).collect()
}

fn table(words: Words) -> Option<PenelopeQuoteByDate> {
    rows(words, MOST_ROWS, quote)
}

fn weights(words: Words) -> Option<PortfolioValues> {
    rows(words, MOST_ROWS, weight)
}

pub fn room(word: &[u8]) -> Option<u64> {
    whole(word).filter(|room| *room <= MOST_ROOM)
}

/// The lists between the words `/`, where there are exactly N.
fn lists<'a, const N: usize>(words: Words<'a>) -> Option<[Words<'a>; N]> {
    let lists: Vec<Words> = words.split(|word| *word == b"/").collect();
    lists.try_into().ok()
}

/// The words behind a log's length and its lot, which may be left out. The Rust has no lots: the word has no effect.
fn behind_lot(rest: Words) -> Words {
    match rest {
        [word, behind @ ..] if lot(word).is_some() => behind,
        _ => rest,
    }
}

fn new(rest: Words) -> Option<Call> {
    let [costs, first] = lists(behind_lot(rest))?;
    Some(Call::New(rows(costs, MOST_COSTS, cost)?, table(first)?))
}

fn check(rest: Words) -> Option<Call> {
    let [tradable, fetched] = lists(rest)?;
    Some(Call::Check(table(tradable)?, table(fetched)?))
}

fn update(rest: Words) -> Option<Call> {
    let [tradable, fetched, target] = lists(rest)?;
    Some(Call::Update(table(tradable)?, table(fetched)?, weights(target)?))
}

fn correct(space: &[u8], rest: Words) -> Option<Call> {
    Some(Call::Correct(room(space)?, rows(rest, MOST_VENDOR_ROWS, vendor_quote)?))
}

fn act(verb: &[u8], rest: Words) -> Option<Call> {
    match (verb, rest) {
        (b"new", [log, rest @ ..]) => whole(log).and_then(|_| new(rest)),
        (b"lend", [log]) => whole(log).map(|_| Call::Lend),
        (b"deposit", [amount]) => Some(Call::Cash(Broker::deposit_cash, float(amount)?)),
        (b"withdraw", [amount]) => Some(Call::Cash(Broker::withdraw_cash, float(amount)?)),
        (b"liquidate", [amount]) => {
            Some(Call::Cash(Broker::withdraw_cash_with_liquidation, float(amount)?))
        }
        (b"send", [one]) => order(one).map(Call::Send),
        (b"insert", [one]) => order(one).map(Call::Insert),
        (b"send_list", [space, orders @ ..]) => {
            room(space).and_then(|_| rows(orders, MOST_ORDERS, order)).map(Call::SendList)
        }
        (b"delete", [number]) => whole(number).map(Call::Delete),
        (b"check", rest) => check(rest),
        (b"walk", [space, rest @ ..]) => room(space).and_then(|_| weights(rest)).map(Call::Walk),
        (b"update", [space, rest @ ..]) => room(space).and_then(|_| update(rest)),
        (b"state", []) => Some(Call::State),
        (b"quiet", []) => Some(Call::Quiet(true)),
        (b"full", []) => Some(Call::Quiet(false)),
        (b"clock", []) => Some(Call::Clock),
        _ => None,
    }
}

fn pending(broker: &Broker, symbol: &str) -> Option<f64> {
    broker.get_pending_orders().get(symbol).copied()
}

fn read(verb: &[u8], rest: Words) -> Option<Call> {
    let position = |get, name: &[u8]| Some(Call::Position(get, symbol(name)?));
    match (verb, rest) {
        (b"get_quote", [name]) => symbol(name).map(Call::Quote),
        (b"get_quotes", [space]) => room(space).map(|_| Call::Quotes),
        (b"get_positions", [space]) => room(space).map(|_| Call::Positions),
        (b"get_holdings", [space]) => room(space).map(|_| Call::Holdings(Broker::get_holdings)),
        (b"get_pending_orders", [space]) => {
            room(space).map(|_| Call::Holdings(Broker::get_pending_orders))
        }
        (b"get_trade_costs", [space]) => room(space).map(|_| Call::TradeCosts),
        (b"get_position_qty", [name]) => position(Broker::get_position_qty, name),
        (b"get_pending_order", [name]) => position(pending, name),
        (b"get_position_value", [name]) => position(Broker::get_position_value, name),
        (b"get_position_liquidation_value", [name]) => {
            position(Broker::get_position_liquidation_value, name)
        }
        (b"cost_basis", [name]) => position(Broker::cost_basis, name),
        (b"get_total_value", []) => Some(Call::Figure(Broker::get_total_value)),
        (b"get_liquidation_value", []) => Some(Call::Figure(Broker::get_liquidation_value)),
        (b"get_cash_balance", []) => Some(Call::Figure(Broker::get_cash_balance)),
        (b"turnover", []) => Some(Call::Figure(turnover)),
        (b"get_broker_state", []) => Some(Call::BrokerState),
        (b"executed_trade_count", []) => Some(Call::TradeCount),
        (b"trade_impact_total", [budget, price, b"buy"]) => {
            Some(Call::Impact(float(budget)?, float(price)?, true))
        }
        (b"trade_impact_total", [budget, price, b"sell"]) => {
            Some(Call::Impact(float(budget)?, float(price)?, false))
        }
        (b"calculate_trade_costs", [quantity, value]) => {
            Some(Call::Costs(float(quantity)?, float(value)?))
        }
        (b"floor", [value]) => Some(Call::Round(f64::floor, float(value)?)),
        (b"ceil", [value]) => Some(Call::Round(f64::ceil, float(value)?)),
        (b"correct", [space, rest @ ..]) => correct(space, rest),
        _ => None,
    }
}
