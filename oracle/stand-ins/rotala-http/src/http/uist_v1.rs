//! Stands in for the `Client` of rotala-http: `Client` as the published broker calls it, and `LocalClient`.
//! An insertion acts in the call itself, for the broker does not await it; tick and fetch always succeed.

use std::cell::RefCell;
use std::convert::Infallible;
use std::future::{ready, Future};
use std::rc::Rc;

use rotala::exchange::uist_v1::{Order, Trade, UistV1};
use rotala::input::penelope::PenelopeQuoteByDate;

pub type BacktestId = u64;
pub type Result<T> = std::result::Result<T, Infallible>;

pub struct TickResponse {
    pub executed_trades: Vec<Trade>,
}

/// A fetched table that is walked by reference. It is shared with the market, so that neither making nor freeing
/// it is part of a check.
#[derive(Clone, Debug, Default)]
pub struct Fetched(pub Rc<PenelopeQuoteByDate>);

impl<'a> IntoIterator for &'a Fetched {
    type Item = <&'a PenelopeQuoteByDate as IntoIterator>::Item;
    type IntoIter = <&'a PenelopeQuoteByDate as IntoIterator>::IntoIter;

    fn into_iter(self) -> Self::IntoIter {
        self.0.iter()
    }
}

pub struct FetchQuotesResponse {
    pub quotes: Fetched,
}

pub struct NowResponse {
    pub now: i64,
    pub has_next: bool,
}

pub trait Client {
    fn tick(&mut self, id: BacktestId) -> impl Future<Output = Result<TickResponse>>;
    fn insert_order(&mut self, order: Order, id: BacktestId) -> impl Future<Output = Result<()>>;
    fn fetch_quotes(&mut self, id: BacktestId) -> impl Future<Output = Result<FetchQuotesResponse>>;
    fn now(&mut self, id: BacktestId) -> impl Future<Output = Result<NowResponse>>;
}

/// The exchange and the two tables of the next check, which the driver puts here before it.
#[derive(Debug, Default)]
pub struct Market {
    pub exchange: UistV1,
    pub tradable: PenelopeQuoteByDate,
    pub fetched: Fetched,
}

#[derive(Debug)]
pub struct LocalClient(pub Rc<RefCell<Market>>);

impl Client for LocalClient {
    fn tick(&mut self, _id: BacktestId) -> impl Future<Output = Result<TickResponse>> {
        let market = &mut *self.0.borrow_mut();
        let (executed_trades, _booked) = market.exchange.tick(&market.tradable);
        ready(Ok(TickResponse { executed_trades }))
    }

    fn insert_order(&mut self, order: Order, _id: BacktestId) -> impl Future<Output = Result<()>> {
        self.0.borrow_mut().exchange.insert_order(order);
        ready(Ok(()))
    }

    fn fetch_quotes(&mut self, _id: BacktestId) -> impl Future<Output = Result<FetchQuotesResponse>> {
        let quotes = self.0.borrow().fetched.clone();
        ready(Ok(FetchQuotesResponse { quotes }))
    }

    fn now(&mut self, _id: BacktestId) -> impl Future<Output = Result<NowResponse>> {
        ready(Ok(NowResponse { now: 0, has_next: false }))
    }
}
