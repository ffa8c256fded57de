//! The broker that the driver and the published strategy share. The strategy owns its broker, so it is given this
//! one, which hands every call on and keeps the events of the orders that were sent.

use std::cell::RefCell;
use std::rc::Rc;

use rotala::exchange::uist_v1::{Order, UistQuote};
use rotala_client::broker::uist::UistBroker;
use rotala_client::broker::{
    BrokerCost, BrokerEvent, BrokerOperations, BrokerState, BrokerStates, CashOperations, Clock,
    Portfolio, PortfolioHoldings, PortfolioValues, Quote, SendOrder, Update,
};
use rotala_client::strategy::staticweight::StaticWeightBroker;
use rotala_http::http::uist_v1::LocalClient;

pub type Broker = UistBroker<LocalClient>;
pub type Event = BrokerEvent<Order>;

pub struct SharedBroker {
    pub broker: Rc<RefCell<Broker>>,
    pub events: Rc<RefCell<Vec<Event>>>,
}

impl Quote<UistQuote> for SharedBroker {
    fn get_quote(&self, symbol: &str) -> Option<UistQuote> {
        self.broker.borrow().get_quote(symbol)
    }

    fn get_quotes(&self) -> Option<Vec<UistQuote>> {
        self.broker.borrow().get_quotes()
    }
}

impl Portfolio<UistQuote> for SharedBroker {
    // Not required, but the strategy calls it: so the broker's own way to its holdings is used.
    fn get_total_value(&self) -> f64 {
        self.broker.borrow().get_total_value()
    }

    fn get_cash_balance(&self) -> f64 {
        self.broker.borrow().get_cash_balance()
    }

    fn update_cash_balance(&mut self, cash: f64) {
        self.broker.borrow_mut().update_cash_balance(cash)
    }

    fn get_holdings(&self) -> PortfolioHoldings {
        self.broker.borrow().get_holdings()
    }

    fn update_holdings(&mut self, symbol: &str, change: f64) {
        self.broker.borrow_mut().update_holdings(symbol, change)
    }

    fn get_position_cost(&self, symbol: &str) -> Option<f64> {
        self.broker.borrow().get_position_cost(symbol)
    }

    fn get_pending_orders(&self) -> PortfolioHoldings {
        self.broker.borrow().get_pending_orders()
    }

    fn get_trade_costs(&self) -> Vec<BrokerCost> {
        self.broker.borrow().get_trade_costs()
    }
}

impl BrokerStates for SharedBroker {
    fn get_broker_state(&self) -> BrokerState {
        self.broker.borrow().get_broker_state()
    }

    fn update_broker_state(&mut self, state: BrokerState) {
        self.broker.borrow_mut().update_broker_state(state)
    }
}

impl CashOperations<UistQuote> for SharedBroker {}

impl BrokerOperations<Order, UistQuote> for SharedBroker {
    // Not required, but the strategy calls it: see get_total_value.
    fn diff_brkr_against_target_weights(&mut self, target_weights: &PortfolioValues) -> Vec<Order> {
        self.broker.borrow_mut().diff_brkr_against_target_weights(target_weights)
    }
}

impl SendOrder<Order> for SharedBroker {
    fn send_order(&mut self, order: Order) -> Event {
        self.broker.borrow_mut().send_order(order)
    }

    /// The events are kept and not answered: the strategy drops the answer unread.
    fn send_orders(&mut self, orders: &[Order]) -> Vec<Event> {
        *self.events.borrow_mut() = self.broker.borrow_mut().send_orders(orders);
        Vec::new()
    }
}

impl Update for SharedBroker {
    async fn check(&mut self) {
        self.broker.borrow_mut().check().await
    }
}

impl Clock for SharedBroker {
    fn now(&mut self) -> i64 {
        self.broker.borrow_mut().now()
    }

    fn has_next(&mut self) -> bool {
        self.broker.borrow_mut().has_next()
    }
}

impl StaticWeightBroker<UistQuote, Order> for SharedBroker {}
