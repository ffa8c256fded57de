//! Makes each call on the Rust and writes its answer.

use std::cell::RefCell;
use std::rc::Rc;

use futures::executor::block_on;
use rotala::exchange::uist_v1::{waiting, Order, OrderType, Trade, TradeType, UistQuote};
use rotala::input::penelope::PenelopeQuoteByDate;
use rotala_client::broker::uist::UistBrokerBuilder;
use rotala_client::broker::{
    BrokerCashEvent, BrokerCost, BrokerEvent, BrokerOperations, BrokerState, BrokerStates,
    Portfolio, PortfolioValues, Quote, SendOrder, Update,
};
use rotala_client::strategy::staticweight::StaticWeightStrategyBuilder;
use rotala_http::http::uist_v1::{Fetched, LocalClient, Market};

use crate::clock::Clock;
use crate::corrections::{corrected, VendorQuote};
use crate::line::{call, Call, MOST_BYTES};
use crate::lists::{put_list, sorted_holdings, sorted_names, sorted_quotes};
use crate::reason::reason;
use crate::shared::{Broker, Event, SharedBroker};
use crate::state::{state_word, Logged};
use crate::text::{
    put, put_cost, put_float, put_holding, put_optional, put_order, put_quote, put_symbol, put_whole,
};

/// `Err` holds the message of the Rust's panic.
type Answered = Result<(), String>;

pub struct Driver {
    pub out: Vec<u8>,
    market: Rc<RefCell<Market>>,
    broker: Rc<RefCell<Broker>>,
    clock: Clock,
    logged: Logged,
    quiet: bool,
    stopped: bool,
}

fn fresh_market(first: PenelopeQuoteByDate) -> Rc<RefCell<Market>> {
    let fetched = Fetched(Rc::new(first));
    Rc::new(RefCell::new(Market { fetched, ..Market::default() }))
}

fn build(costs: Vec<BrokerCost>, market: Rc<RefCell<Market>>) -> Broker {
    let mut builder = UistBrokerBuilder::new();
    builder.with_client(LocalClient(market), 0).with_trade_costs(costs);
    block_on(builder.build())
}

/// The number of the first of the Rust's own tests that an invalid order fails, in the Rust's order. Nothing that
/// they read changes while a list is sent, so they can be asked afterwards.
fn refusal(broker: &Broker, order: &Order) -> u64 {
    if let BrokerState::Failed = broker.get_broker_state() {
        return 4;
    }
    let quote = broker.get_quote(order.get_symbol()).expect("without a quote the Rust panics");
    let price = match order.get_order_type() {
        OrderType::MarketBuy | OrderType::LimitBuy | OrderType::StopBuy => quote.ask,
        OrderType::MarketSell | OrderType::LimitSell | OrderType::StopSell => quote.bid,
    };
    if broker.client_has_sufficient_cash::<OrderType>(order, &price).is_err() {
        7
    } else if broker.client_has_sufficient_holdings_for_sale::<OrderType>(order).is_err() {
        8
    } else if broker.client_is_issuing_nonsense_order(order).is_err() {
        9
    } else {
        unreachable!("the Rust refused an order that passes its tests")
    }
}

fn put_event(out: &mut Vec<u8>, broker: &Broker, event: &Event) {
    match event {
        BrokerEvent::OrderSentToExchange(order) => {
            put(out, " taken:");
            put_order(out, order);
        }
        BrokerEvent::OrderInvalid(order) => {
            out.push(b' ');
            put_whole(out, refusal(broker, order));
            out.push(b':');
            put_order(out, order);
        }
        _ => unreachable!("the Rust has no such event for a send"),
    }
}

fn put_events(out: &mut Vec<u8>, broker: &Broker, events: &[Event]) {
    out.push(b' ');
    put_whole(out, events.len() as u64);
    for event in events {
        put_event(out, broker, event);
    }
}

fn put_cash(out: &mut Vec<u8>, event: &BrokerCashEvent) {
    let (word, amount) = match event {
        BrokerCashEvent::DepositSuccess(amount) => (" done ", amount),
        BrokerCashEvent::WithdrawSuccess(amount) => (" done ", amount),
        BrokerCashEvent::OperationFailure(amount) => (" refused 4 ", amount),
        BrokerCashEvent::WithdrawFailure(amount) => (" refused 12 ", amount),
    };
    put(out, word);
    put_float(out, *amount);
}

fn put_malformed(out: &mut Vec<u8>, (word, reason): (usize, &str)) {
    put(out, "malformed ");
    put_whole(out, word as u64);
    out.push(b' ');
    put(out, reason);
    out.push(b'\n');
}

/// Whether the broker's holdings are written after this call, where they are written after each.
fn shows_state(call: &Call) -> bool {
    !matches!(call, Call::Lend | Call::Round(..) | Call::Correct(..) | Call::Quiet(_) | Call::Clock)
}

impl Driver {
    pub fn new() -> Driver {
        let market = fresh_market(PenelopeQuoteByDate::new());
        Driver {
            out: Vec::new(),
            broker: Rc::new(RefCell::new(build(Vec::new(), market.clone()))),
            market,
            clock: Clock::default(),
            logged: Logged::default(),
            quiet: false,
            stopped: false,
        }
    }

    /// Answers one line of the scenario, if it is one to be answered.
    pub fn line(&mut self, number: u64, line: &[u8]) {
        let words: Vec<&[u8]> = line.split(|b| *b == b' ').filter(|w| !w.is_empty()).collect();
        let passed_over = words.is_empty() || line[0] == b'#';
        // A comment or blank line that is too long is malformed like any other.
        if passed_over && line.len() <= MOST_BYTES {
            return;
        }
        put_whole(&mut self.out, number);
        self.out.push(b' ');
        match call(line, &words) {
            Some(call) => {
                self.out.extend_from_slice(words[0]);
                self.known(call);
            }
            None => put_malformed(&mut self.out, reason(line, &words)),
        }
    }

    fn known(&mut self, call: Call) {
        match call {
            Call::New(..) => self.stopped = false,
            // Nothing of the Rust is asked.
            Call::Quiet(_) | Call::Clock | Call::Correct(..) => (),
            _ if self.stopped => return put(&mut self.out, " stopped\n"),
            _ => (),
        }
        let asked = matches!(call, Call::State);
        let shown = shows_state(&call) && (asked || !self.quiet);
        let answer_start = self.out.len();
        if let Err(message) = self.answer(call) {
            self.stopped = true;
            self.out.truncate(answer_start);
            put(&mut self.out, " panic ");
            put(&mut self.out, &message);
        }
        self.out.push(b'\n');
        if shown && !self.stopped {
            let market = self.market.borrow();
            self.logged.put_state(&mut self.out, &self.broker.borrow(), &market.exchange);
        }
    }

    fn answer(&mut self, call: Call) -> Answered {
        match call {
            Call::New(costs, first) => self.new_broker(costs, first)?,
            Call::Cash(move_cash, amount) => {
                let broker = &mut *self.broker.borrow_mut();
                put_cash(&mut self.out, &self.clock.call(|| move_cash(broker, &amount))?);
            }
            Call::Send(order) => self.send(order)?,
            Call::Insert(order) => self.insert(order)?,
            Call::SendList(orders) => self.send_list(&orders)?,
            Call::Delete(number) => {
                let exchange = &mut self.market.borrow_mut().exchange;
                self.clock.call(|| exchange.delete_order(number))?;
                put(&mut self.out, " done");
            }
            Call::Check(tradable, fetched) => self.check(tradable, fetched)?,
            Call::Walk(weights) => self.walk(&weights)?,
            Call::Update(tradable, fetched, weights) => self.update(tradable, fetched, weights)?,
            Call::Lend => put(&mut self.out, " lent"),
            Call::State => put(&mut self.out, " shown"),
            Call::Quiet(quiet) => {
                self.quiet = quiet;
                put(&mut self.out, if quiet { " quiet" } else { " full" });
            }
            Call::Clock => self.tell_clock(),
            Call::Correct(room, rows) => self.correct(room, &rows)?,
            read => self.read(read)?,
        }
        Ok(())
    }

    fn new_broker(&mut self, costs: Vec<BrokerCost>, first: PenelopeQuoteByDate) -> Answered {
        self.market = fresh_market(first);
        let market = self.market.clone();
        let broker = self.clock.call(|| build(costs, market))?;
        self.broker = Rc::new(RefCell::new(broker));
        self.logged = Logged::default();
        put(&mut self.out, " built");
        Ok(())
    }

    fn send(&mut self, order: Order) -> Answered {
        let broker = &mut *self.broker.borrow_mut();
        let event = self.clock.call(|| broker.send_order(order))?;
        put_event(&mut self.out, broker, &event);
        Ok(())
    }

    fn insert(&mut self, order: Order) -> Answered {
        let exchange = &mut self.market.borrow_mut().exchange;
        let copy = order.clone();
        self.clock.call(|| exchange.insert_order(order))?;
        put(&mut self.out, " taken:");
        put_order(&mut self.out, &copy);
        Ok(())
    }

    fn send_list(&mut self, orders: &[Order]) -> Answered {
        let broker = &mut *self.broker.borrow_mut();
        let events = self.clock.call(|| broker.send_orders(orders))?;
        put_events(&mut self.out, broker, &events);
        Ok(())
    }

    fn put_tables(&mut self, tradable: PenelopeQuoteByDate, fetched: PenelopeQuoteByDate) {
        let mut market = self.market.borrow_mut();
        market.tradable = tradable;
        market.fetched = Fetched(Rc::new(fetched));
    }

    fn check(&mut self, tradable: PenelopeQuoteByDate, fetched: PenelopeQuoteByDate) -> Answered {
        self.put_tables(tradable, fetched);
        let logged_before = self.market.borrow().exchange.executed_trade_count();
        let broker = &mut *self.broker.borrow_mut();
        self.clock.call(|| block_on(broker.check()))?;
        let exchange = &self.market.borrow().exchange;
        put(&mut self.out, " traded ");
        put_whole(&mut self.out, (exchange.executed_trade_count() - logged_before) as u64);
        put(&mut self.out, " queued ");
        put_whole(&mut self.out, waiting(exchange).len() as u64);
        Ok(())
    }

    fn walk(&mut self, weights: &PortfolioValues) -> Answered {
        let broker = &mut *self.broker.borrow_mut();
        let orders = self.clock.call(|| broker.diff_brkr_against_target_weights(weights))?;
        self.out.push(b' ');
        put_list(&mut self.out, &orders, put_order);
        Ok(())
    }

    fn update(
        &mut self,
        tradable: PenelopeQuoteByDate,
        fetched: PenelopeQuoteByDate,
        weights: PortfolioValues,
    ) -> Answered {
        self.put_tables(tradable, fetched);
        let events = Rc::new(RefCell::new(Vec::new()));
        let shared = SharedBroker { broker: self.broker.clone(), events: events.clone() };
        let mut builder = StaticWeightStrategyBuilder::<UistQuote, Order, SharedBroker>::new();
        let mut strategy = builder.with_brkr(shared).with_weights(weights).default();
        self.clock.call(|| block_on(strategy.update()))?;
        put(&mut self.out, " total ");
        put_float(&mut self.out, strategy.get_history()[0].portfolio_value);
        put_events(&mut self.out, &self.broker.borrow(), &events.borrow());
        Ok(())
    }

    fn correct(&mut self, room: u64, rows: &[VendorQuote]) -> Answered {
        match self.clock.call(|| corrected(room, rows))? {
            Ok(table) => {
                self.out.push(b' ');
                put_list(&mut self.out, &table, put_quote);
            }
            Err(number) => {
                put(&mut self.out, " refused ");
                put_whole(&mut self.out, number);
            }
        }
        Ok(())
    }

    fn tell_clock(&mut self) {
        let Clock { calls, spent } = std::mem::take(&mut self.clock);
        self.out.push(b' ');
        put_whole(&mut self.out, calls);
        self.out.push(b' ');
        put_whole(&mut self.out, spent.as_micros() as u64);
    }

    fn read(&mut self, read: Call) -> Answered {
        let broker = &*self.broker.borrow();
        let (out, clock) = (&mut self.out, &mut self.clock);
        out.push(b' ');
        match read {
            Call::Quote(name) => match clock.call(|| broker.get_quote(&name))? {
                Some(quote) => put_quote(out, &quote),
                None => put(out, "none"),
            },
            Call::Quotes => {
                let quotes = clock.call(|| broker.get_quotes())?;
                put_list(out, &sorted_quotes(quotes), put_quote);
            }
            Call::Positions => {
                let names = clock.call(|| broker.get_positions())?;
                put_list(out, &sorted_names(names), |out, name| put_symbol(out, name));
            }
            Call::Holdings(get) => {
                put_list(out, &sorted_holdings(clock.call(|| get(broker))?), put_holding)
            }
            Call::TradeCosts => put_list(out, &clock.call(|| broker.get_trade_costs())?, put_cost),
            Call::Position(get, name) => put_optional(out, clock.call(|| get(broker, &name))?),
            Call::Figure(get) => put_float(out, clock.call(|| get(broker))?),
            Call::BrokerState => put(out, clock.call(|| state_word(broker))?),
            Call::TradeCount => {
                let exchange = &self.market.borrow().exchange;
                put_whole(out, clock.call(|| exchange.executed_trade_count())? as u64);
            }
            Call::Impact(budget, price, is_buy) => {
                let impact = clock.call(|| broker.calc_trade_impact(&budget, &price, is_buy))?;
                put_float(out, impact.0);
                out.push(b' ');
                put_float(out, impact.1);
            }
            Call::Costs(quantity, value) => {
                let trade = Trade::new("000", value, quantity, 0, TradeType::Buy);
                put_float(out, clock.call(|| broker.calculate_trade_costs(trade))?);
            }
            Call::Round(round, value) => put_float(out, clock.call(|| round(value))?),
            _ => unreachable!("answer has the other calls"),
        }
        Ok(())
    }
}
