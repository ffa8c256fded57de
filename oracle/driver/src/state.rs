//! Writes what the broker and its exchange hold, as the eight lines of docs/SCENARIOS.md.

use rotala::exchange::uist_v1::{resting, waiting, Trade, TradeType, UistV1};
use rotala_client::broker::{BrokerState, BrokerStates, Portfolio, Quote};

use crate::lists::{number, put_rows, sorted_holdings, sorted_quotes};
use crate::shared::Broker;
use crate::text::{
    put, put_float, put_holding, put_optional, put_order, put_quote, put_symbol, put_trade, put_whole,
};

fn trades(broker: &Broker) -> Vec<Trade> {
    broker.trades_between(&i64::MIN, &i64::MAX)
}

/// Turnover by document 02, request 4: the bought sum where it is below the sold one, else the sold one.
fn turnover_of(trades: &[Trade]) -> f64 {
    let (mut bought, mut sold) = (0.0, 0.0);
    for trade in trades {
        match trade.typ {
            TradeType::Buy => bought += trade.value,
            TradeType::Sell => sold += trade.value,
        }
    }
    if bought < sold {
        bought
    } else {
        sold
    }
}

pub fn turnover(broker: &Broker) -> f64 {
    turnover_of(&trades(broker))
}

pub fn state_word(broker: &Broker) -> &'static str {
    match broker.get_broker_state() {
        BrokerState::Ready => "Ready",
        BrokerState::Failed => "Failed",
    }
}

/// What is worked out from the log, kept until the log has grown.
#[derive(Default)]
pub struct Logged {
    trades: Vec<Trade>,
    turnover: f64,
    bases: Vec<(String, Option<f64>)>,
    shown: usize,
}

impl Logged {
    fn refresh(&mut self, broker: &Broker, count: usize) {
        if count == self.trades.len() {
            return;
        }
        self.trades = trades(broker);
        self.turnover = turnover_of(&self.trades);
        let mut names: Vec<&str> = self.trades.iter().map(|trade| &trade.symbol[..]).collect();
        names.sort_unstable_by_key(|name| number(name));
        names.dedup();
        let basis = |name: &str| (name.to_string(), broker.cost_basis(name));
        self.bases = names.into_iter().map(basis).collect();
    }

    /// Writes the eight lines.
    pub fn put_state(&mut self, out: &mut Vec<u8>, broker: &Broker, exchange: &UistV1) {
        self.refresh(broker, exchange.executed_trade_count());
        put_figures(out, broker, self.turnover);
        put(out, "\n held");
        put_rows(out, &sorted_holdings(broker.get_holdings()), put_holding);
        put(out, "\n pending");
        put_rows(out, &sorted_holdings(broker.get_pending_orders()), put_holding);
        put(out, "\n latest");
        put_rows(out, &sorted_quotes(broker.get_quotes()), put_quote);
        put(out, "\n basis");
        for (name, basis) in &self.bases {
            out.push(b' ');
            put_symbol(out, name);
            out.push(b':');
            put_optional(out, *basis);
        }
        put(out, "\n trades ");
        put_whole(out, self.trades.len() as u64);
        put_rows(out, &self.trades[self.shown..], put_trade);
        self.shown = self.trades.len();
        put_orders(out, exchange);
    }
}

fn put_figures(out: &mut Vec<u8>, broker: &Broker, turnover: f64) {
    put(out, " cash ");
    put_float(out, broker.get_cash_balance());
    put(out, " state ");
    put(out, state_word(broker));
    put(out, " total ");
    put_float(out, broker.get_total_value());
    put(out, " liquidation ");
    put_float(out, broker.get_liquidation_value());
    put(out, " turnover ");
    put_float(out, turnover);
}

fn put_orders(out: &mut Vec<u8>, exchange: &UistV1) {
    put(out, "\n waiting");
    for order in waiting(exchange) {
        out.push(b' ');
        put_order(out, order);
    }
    put(out, "\n resting");
    for order in resting(exchange) {
        out.push(b' ');
        put_whole(out, order.order_id.expect("a booked order has its number"));
        out.push(b':');
        put_order(out, order);
    }
    out.push(b'\n');
}
