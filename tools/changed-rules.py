"""Tries the recorded answers (docs/RECORDED.md): changes the code behind one rule after the other in a copy of the
tree, runs the changed program with no proof (`rt try`), and says where it first writes something else than was
recorded. The rules of the engine are shown by `rehearse` on crates/rehearse/stdin, those of quote lines by `quotes`, on
crates/quotes/stdin or on a text of compare/quote-lines.txt. As many are tried at a time as there are processors. Prints
a table for each program. Exit status 1 where a change passes, or where a text to be changed is not there exactly once.
With words, only the changes whose rule or text has one of them."""

import concurrent.futures
import os
import shutil
import subprocess
import sys
import tempfile

ROOT = os.path.dirname(os.path.dirname(os.path.abspath(__file__)))
ANSWERS = os.path.join(ROOT, "crates", "rehearse", "stdout")
# Nothing is written beside the sources; compare/ has the recorded texts of quote lines.
sys.dont_write_bytecode = True
sys.path.insert(0, os.path.join(ROOT, "compare"))

import line_texts

# The rule's definition, by its file of specs/; the change in words; the case of crates/cases that refuses the same
# change of the definition; the file below crates/; then old and new text, by turns.
CHANGES = [
    ("rules/Weights: plan_of", "weights multiply the total value", "501, 502", "portfolio/src/weigh.rt",
     "let total = self.get_liquidation_value();", "let total = self.get_total_value();"),
    ("rules/Liquidation: sales_for", "exactly the liquidation value fails", "451", "portfolio/src/liquidate.rt",
     "if amount > p.get_liquidation_value() {", "if amount >= p.get_liquidation_value() {"),

    ("rules/Weights: plan_of", "13 for a value below zero only", "514", "portfolio/src/weigh.rt",
     "if total == 0.0 {", "if total < 0.0 {"),
    ("rules/Weights: plan_of", "buys listed first", "509", "portfolio/src/weigh.rt",
     "side_onto(list, true, OrderList::none())", "side_onto(list, false, OrderList::none())",
     "side_onto(list, false, sales)", "side_onto(list, true, sales)"),
    ("rules/Weights: shares_for", "a sale at the ask", "504", "portfolio/src/weigh.rt",
     "-difference, q.bid, false", "-difference, q.ask, false"),
    ("rules/Weights: shares_for", "a buy at the bid", "501", "portfolio/src/weigh.rt",
     "difference, q.ask, true", "difference, q.bid, true"),
    ("rules/Weights: shares_for", "costs of a buy for a sale", "504", "portfolio/src/weigh.rt",
     "-difference, q.bid, false", "-difference, q.bid, true"),
    ("rules/Weights: shares_for", "the negative rounded down", "504, 1008", "portfolio/src/weigh.rt",
     "let shares = lot::floor_to_lot(net.budget / net.price, self.lot)?;\n            Some(-shares)",
     "lot::floor_to_lot(-(net.budget / net.price), self.lot)"),
    ("rules/Weights: shares_at", "a buy's budget before costs", "501", "portfolio/src/weigh.rt",
     "            lot::floor_to_lot(net.budget / net.price, self.lot)",
     "            lot::floor_to_lot(difference / net.price, self.lot)"),
    ("rules/Weights: shares_at", "a buy's price before costs", "503", "portfolio/src/weigh.rt",
     "            lot::floor_to_lot(net.budget / net.price, self.lot)",
     "            lot::floor_to_lot(net.budget / q.ask, self.lot)"),
    ("rules/Weights: shares_at", "rounded up", "501", "portfolio/src/weigh.rt",
     "            lot::floor_to_lot(net.budget / net.price, self.lot)",
     "            Some(floats::ceil(net.budget / net.price))"),
    ("rules/Weights: shares_at", "a buy in whole shares at every lot", "1007", "portfolio/src/weigh.rt",
     "            lot::floor_to_lot(net.budget / net.price, self.lot)",
     "            lot::floor_to_lot(net.budget / net.price, 1)"),
    ("rules/Weights: shares_at", "a sale in whole shares at every lot", "1007", "portfolio/src/weigh.rt",
     "let shares = lot::floor_to_lot(net.budget / net.price, self.lot)?;",
     "let shares = lot::floor_to_lot(net.budget / net.price, 1)?;"),
    ("rules/Weights: order_for", "NaN is a buy", "513", "portfolio/src/weigh.rt",
     "if shares > 0.0 {", "if !(shares < 0.0) {"),
    ("rules/Weights: order_for", "no shares are listed", "509", "portfolio/src/weigh.rt",
     "if shares == 0.0 {", "if shares == 0.5 {"),
    ("rules/Weights: difference", "the position value is not taken off", "502", "portfolio/src/weigh.rt",
     "total * w.weight - value;", "total * w.weight;"),
    ("rules/Weights: wanted", "a zero difference is passed over", "510", "portfolio/src/weigh.rt",
     "if difference == 0.0 {\n                break;", "if difference == 0.0 {\n                continue;"),
    ("rules/Weights: wanted", "an unquoted symbol ends the walk", "509", "portfolio/src/weigh.rt",
     "            let Some(q) = self.latest.row(w.symbol) else {\n                continue;",
     "            let Some(q) = self.latest.row(w.symbol) else {\n                break;"),
    ("rules/Weights: wanted", "a row that draws 18 is passed over", "1009", "portfolio/src/weigh.rt",
     "let shares = self.shares_for(difference, q)?;",
     "let Some(shares) = self.shares_for(difference, q) else {\n                continue;\n            };"),
    ("rules/Weights: wanted", "a row that would draw 18 ends the walk", "1009", "portfolio/src/weigh.rt",
     "let shares = self.shares_for(difference, q)?;",
     "let Some(shares) = self.shares_for(difference, q) else {\n                break;\n            };"),
    ("rules/Weights: plan_as", "the orders before 18 stay listed", "1009", "broker/src/update.rt",
     "            Err(fault) => (OrderList::none(), 0.0, Some(fault)),\n",
     "            Err(fault) => {\n                let rows = weights.rows();\n"
     "                let mut list = OrderList::none();\n                for n in 0..rows.len() {\n"
     "                    let before = Weights::of(&rows[..n]);\n"
     "                    list = portfolio.diff_against_target_weights(&before).unwrap_or(list);\n"
     "                }\n                (list, 0.0, Some(fault))\n            }\n"),
    ("rules/Weights: plan_tests", "18 before 13", "1011", "portfolio/src/weigh.rt",
     "        if total == 0.0 {\n            return Err(Fault::NothingToWeigh);\n        }\n", "",
     ".ok_or(Fault::BeyondLot)?;\n",
     ".ok_or(Fault::BeyondLot)?;\n        if total == 0.0 {\n            return Err(Fault::NothingToWeigh);\n"
     "        }\n"),

    ("rules/Amounts: size", "a sale of negative shares", "502", "portfolio/src/weigh.rt",
     "shares.abs()", "shares"),
    ("ledger/Ledger: weigh_answer", "an update answers the liquidation value", "515", "broker/src/update.rt",
     "(list, portfolio.get_total_value(), None)", "(list, portfolio.get_liquidation_value(), None)"),

    ("rules/Values: value_at", "the ask for the bid", "441", "portfolio/src/value.rt",
     "q.bid * unless_zero(holding)?", "q.ask * unless_zero(holding)?"),
    ("rules/Values: value_at", "0 without a quote", "441", "portfolio/src/value.rt",
     "let q = row?;", "let Some(q) = row else {\n        return Some(0.0);\n    };"),
    ("rules/Values: total_value", "by descending symbol", "446", "portfolio/src/value.rt",
     "        self.cash_with(|x| x)",
     "        let mut sum = self.funds.cash;\n        for symbol in (0..256).rev() {\n"
     "            if let Some(x) = self.value_of(symbol) {\n                sum += x;\n            }\n        }\n"
     "        sum"),
    ("rules/Values: total_value", "the values first, then cash", "446", "portfolio/src/value.rt",
     "        self.cash_with(|x| x)",
     "        let mut sum = 0.0;\n        for symbol in 0..256 {\n            if let Some(x) = self.value_of(symbol) {\n"
     "                sum += x;\n            }\n        }\n        self.funds.cash + sum"),
    ("rules/Values: symbols", "255 is left out of the total", "442", "portfolio/src/value.rt",
     "        self.cash_with(|x| x)",
     "        let mut sum = self.funds.cash;\n        for symbol in 0..255 {\n"
     "            if let Some(x) = self.value_of(symbol) {\n                sum += x;\n            }\n        }\n"
     "        sum"),
    ("rules/Values: add_value", "costs act on the total", "442", "portfolio/src/value.rt",
     "self.cash_with(|x| x)", "self.cash_with(|x| costs::net_of_costs(self.costs, x, x, false).budget)"),
    ("rules/Values: liquidation_value", "by descending symbol", "447, 448", "portfolio/src/value.rt",
     "        self.cash_with(|x| costs::net_of_costs(self.costs, x, x, false).budget)",
     "        let mut sum = self.funds.cash;\n        for symbol in (0..256).rev() {\n"
     "            if let Some(x) = self.value_of(symbol) {\n"
     "                sum += costs::net_of_costs(self.costs, x, x, false).budget;\n            }\n        }\n        sum"),
    ("rules/Values: symbols", "255 is left out of the liquidation value", "443", "portfolio/src/value.rt",
     "        self.cash_with(|x| costs::net_of_costs(self.costs, x, x, false).budget)",
     "        let mut sum = self.funds.cash;\n        for symbol in 0..255 {\n"
     "            if let Some(x) = self.value_of(symbol) {\n"
     "                sum += costs::net_of_costs(self.costs, x, x, false).budget;\n            }\n        }\n        sum"),
    ("rules/Values: add_sale", "costs are left out", "443", "portfolio/src/value.rt",
     "self.cash_with(|x| costs::net_of_costs(self.costs, x, x, false).budget)", "self.cash_with(|x| x)"),
    ("rules/Values: add_sale", "the price for the budget", "443", "portfolio/src/value.rt",
     "costs::net_of_costs(self.costs, x, x, false).budget", "costs::net_of_costs(self.costs, x, x, false).price"),

    ("rules/Liquidation: sales_from", "a value at the rest is not sold whole", "451, 454", "portfolio/src/liquidate.rt",
     "if !(value <= rest) {", "if !(value < rest) {"),
    ("rules/Liquidation: sales_from", "the rest stays as it is", "451", "portfolio/src/liquidate.rt",
     "rest -= value;", "rest -= 0.0;"),
    ("rules/Liquidation: sales_from", "255 is left out", "450", "portfolio/src/liquidate.rt",
     "if symbol > 255 {", "if symbol > 254 {"),
    ("rules/Liquidation: sales_from", "0 is left out", "450", "portfolio/src/liquidate.rt",
     "let mut symbol: u32 = 0;", "let mut symbol: u32 = 1;"),
    ("rules/Liquidation: selling", "the rest is sold, not the holding", "450", "portfolio/src/liquidate.rt",
     "Order::market_sell(symbol, holding)", "Order::market_sell(symbol, rest)"),
    ("rules/Liquidation: last_sale", "the bid itself", "453", "portfolio/src/liquidate.rt",
     "rest / floats::ceil(q.bid)", "rest / q.bid"),
    ("rules/Liquidation: last_sale", "the bid rounded down", "453", "portfolio/src/liquidate.rt",
     "rest / floats::ceil(q.bid)", "rest / floats::floor(q.bid)"),
    ("rules/Liquidation: last_sale", "the ask rounded up", "453", "portfolio/src/liquidate.rt",
     "rest / floats::ceil(q.bid)", "rest / floats::ceil(q.ask)"),
    ("rules/Liquidation: last_sale", "the rest is kept", "453", "portfolio/src/liquidate.rt",
     "rest: 0.0,", "rest: rest,"),
    ("rules/Liquidation: last_sale", "a position without a quote spends the rest", "459", "portfolio/src/liquidate.rt",
     "None => Part { order: None, rest },", "None => Part { order: None, rest: 0.0 },"),
    ("rules/Liquidation: if_spent", "a rest below zero passes", "459", "portfolio/src/liquidate.rt",
     "sold.rest == 0.0", "sold.rest <= 0.0"),
    ("rules/Liquidation: sales_for", "above the total value for the liquidation value", "460",
     "portfolio/src/liquidate.rt",
     "if amount > p.get_liquidation_value() {", "if amount > p.get_total_value() {"),
    ("rules/Liquidation: sales_for", "held cash is taken off the amount first", "456", "portfolio/src/liquidate.rt",
     "let sold = sell_positions(p, amount);", "let sold = sell_positions(p, amount - p.funds.cash);"),
    ("rules/Liquidation: debited_by", "failing debits nothing", "461, 463", "broker/src/liquidate.rt",
     "account::debited(self.portfolio.funds.cash, amount)", "account::debited(self.portfolio.funds.cash, 0.0)"),
    ("rules/Liquidation: debited_by", "failing debits more than cash", "461, 464", "broker/src/liquidate.rt",
     "account::debited(self.portfolio.funds.cash, amount)", "account::force_debited(self.portfolio.funds.cash, amount)"),
    ("rules/Liquidation: buffer", "100.0 for 1,000.0", "470", "broker/src/state.rt",
     "BUFFER: f64 = 1000.0", "BUFFER: f64 = 100.0"),
    ("ledger/Ledger: shortfall", "the shortfall without the 1,000.0", "470", "broker/src/check.rt",
     "self.liquidate(-cash + UistBroker::BUFFER)", "self.liquidate(-cash)"),
    ("ledger/Ledger: rescuing", "cash 0 is a shortfall", "469", "broker/src/check.rt",
     "if !(cash < 0.0) {", "if !(cash <= 0.0) {"),

    ("rules/Money: settled", "a buy takes its shares from the holding", "421", "portfolio/src/booking.rt",
     "holding: holding + t.quantity", "holding: holding - t.quantity"),
    ("rules/Money: settled", "a sale adds its shares to the holding", "425", "portfolio/src/booking.rt",
     "holding: holding - t.quantity", "holding: holding + t.quantity"),
    ("rules/Money: taking", "a buy adds its shares to pending", "421", "portfolio/src/booking.rt",
     "unless_zero(pending - t.quantity)", "unless_zero(pending + t.quantity)"),
    ("rules/Money: taking", "a sale takes its shares off pending", "425", "portfolio/src/booking.rt",
     "unless_zero(pending + t.quantity)", "unless_zero(pending - t.quantity)"),
    ("rules/Money: unless_zero", "pending stays at zero after a buy", "421", "portfolio/src/booking.rt",
     "unless_zero(pending - t.quantity)", "Some(pending - t.quantity)"),
    ("rules/Money: unless_zero", "pending stays at zero after a sale", "425", "portfolio/src/booking.rt",
     "unless_zero(pending + t.quantity)", "Some(pending + t.quantity)"),
    ("rules/Money: paid", "a buy adds its value to cash", "421", "portfolio/src/booking.rt",
     "account::force_debited(x.cash, t.value)", "account::credited(x.cash, t.value)"),
    ("rules/Money: paid", "a sale takes its value from cash", "425", "portfolio/src/booking.rt",
     "account::credited(x.cash, t.value)", "account::force_debited(x.cash, t.value)"),
    ("rules/Money: paid", "a buy above cash takes nothing", "423", "portfolio/src/booking.rt",
     "account::force_debited(x.cash, t.value)", "account::debited(x.cash, t.value)"),
    ("rules/Money: effect", "a sale raises pending", "413", "sender/src/lib.rt",
     "Some(sum) => sum + effect,", "Some(sum) => sum + o.shares,"),
    ("rules/Money: effect", "a first sale raises pending", "413", "sender/src/lib.rt",
     "None => effect,", "None => o.shares,"),
    ("rules/Money: effect", "a buy lowers pending", "412", "sender/src/lib.rt",
     "Some(sum) => sum + effect,", "Some(sum) => sum - o.shares,"),
    ("rules/Money: expected", "a sum of zero is removed by a send", "415, 416", "broker/src/send.rt",
     "pending[at] = Some(pending);", "pending[at] = if pending == 0.0 { None } else { Some(pending) };"),
    ("rules/Money: fetched", "the latest quotes of other symbols are dropped", "429", "portfolio/src/booking.rt",
     "fetched.rows[s].or(latest[s])", "fetched.rows[s]"),
    ("rules/Money: fetched", "a row of 255 is left out", "429", "portfolio/src/booking.rt",
     "fetched.rows[s].or(latest[s])", "if s < 255 { fetched.rows[s].or(latest[s]) } else { latest[s] }"),
    ("rules/Money: fetched", "the tradable rows become latest", "467", "broker/src/check.rt",
     "fetched.as_table()", "tradable.as_table()"),
    ("ledger/Ledger: booking", "trades at the fetched rows", "467", "broker/src/check.rt",
     "self.exchange.tick_in_place(tradable)", "self.exchange.tick_in_place(fetched)"),
    ("rules/Money: failed_if", "Ready after a failed liquidation", "410, 471", "broker/src/check.rt",
     "funds.failed = true;", "funds.failed = false;"),
    ("ledger/Ledger: call_tests", "a Failed broker takes deposits", "472", "broker/src/cash.rt",
     "        let event = self.move_cash(cash, account::credited);\n",
     "        let failed = self.portfolio.funds.failed;\n        self.portfolio.funds.failed = false;\n"
     "        let event = self.move_cash(cash, account::credited);\n        self.portfolio.funds.failed = failed;\n"),
    ("ledger/Ledger: call_tests", "a Failed broker pays withdrawals", "472", "broker/src/cash.rt",
     "        let event = self.move_cash(cash, account::debited);\n",
     "        let failed = self.portfolio.funds.failed;\n        self.portfolio.funds.failed = false;\n"
     "        let event = self.move_cash(cash, account::debited);\n        self.portfolio.funds.failed = failed;\n"),
    ("ledger/Ledger: call_tests", "a Failed broker refuses liquidations", "472", "broker/src/liquidate.rt",
     "            Some(refusal) => refusal,\n",
     "            Some(refusal) => refusal,\n"
     "            None if self.portfolio.funds.failed => BrokerCashEvent::OperationFailure(cash),\n"),
    ("ledger/Ledger: call_tests", "a withdrawal of all of cash fails", "474", "account/src/lib.rt",
     "if value > self.cash {", "if value >= self.cash {"),
    ("ledger/Ledger: acting", "a deposit less cash", "476", "account/src/lib.rt",
     "self.cash = value + self.cash;", "self.cash = value - self.cash;"),

    ("rules/Sends: exceeds_cash", "the bid for the ask", "401", "sender/src/lib.rt",
     "!(cash > o.shares * q.ask)", "!(cash > o.shares * q.bid)"),
    ("rules/Sends: exceeds_cash", "cash that is just enough passes", "401", "sender/src/lib.rt",
     "!(cash > o.shares * q.ask)", "!(cash >= o.shares * q.ask)"),
    ("rules/Sends: exceeds_holding", "a sale of all that is held fails", "403", "sender/src/lib.rt",
     "!(holding >= o.shares)", "!(holding > o.shares)"),
    ("rules/Sends: exceeds_holding", "a sale of an unheld symbol fails", "404", "sender/src/lib.rt",
     "if holding == 0.0 {\n        return false;", "if holding == 0.0 {\n        return true;"),
    ("rules/Sends: send_tests_at", "limit and stop orders are sent", "407", "sender/src/lib.rt",
     "    if !o.is_market() {\n        return event(o, Some(Fault::NotMarket));\n    }\n", ""),
    ("rules/Sends: send_tests_at", "a Failed broker takes sends", "408", "sender/src/lib.rt",
     "    if failed {\n        return event(o, Some(Fault::BrokerFailed));\n    }\n", ""),
    ("rules/Sends: send_tests_at", "5 comes before 4", "408", "sender/src/lib.rt",
     "    if failed {\n        return event(o, Some(Fault::BrokerFailed));\n    }\n    let Some(q) = x.quote else {\n"
     "        return event(o, Some(Fault::Unquoted));\n"
     "    };\n",
     "    let Some(q) = x.quote else {\n        return event(o, Some(Fault::Unquoted));\n    };\n    if failed {\n"
     "        return event(o, Some(Fault::BrokerFailed));\n    }\n"),
    ("rules/Sends: send_tests_at", "6 comes before 5", "406", "sender/src/lib.rt",
     "    let Some(q) = x.quote else {\n        return event(o, Some(Fault::Unquoted));\n    };\n    if !o.is_market() {\n"
     "        return event(o, Some(Fault::NotMarket));\n    }\n",
     "    if !o.is_market() {\n        return event(o, Some(Fault::NotMarket));\n    }\n    let Some(q) = x.quote else {\n"
     "        return event(o, Some(Fault::Unquoted));\n    };\n"),
    ("rules/Sends: send_tests_at", "7 comes before 6", "407", "sender/src/lib.rt",
     "    if !o.is_market() {\n        return event(o, Some(Fault::NotMarket));\n    }\n    if exceeds_cash(o, cash, q) {\n"
     "        return event(o, Some(Fault::ExceedsCash));\n    }\n",
     "    if exceeds_cash(o, cash, q) {\n        return event(o, Some(Fault::ExceedsCash));\n    }\n    if !o.is_market() {\n"
     "        return event(o, Some(Fault::NotMarket));\n    }\n"),
    ("rules/Sends: send_tests_at", "9 comes before 7", "402", "sender/src/lib.rt",
     "    if exceeds_cash(o, cash, q) {\n        return event(o, Some(Fault::ExceedsCash));\n    }\n",
     "    if o.shares == 0.0 {\n        return event(o, Some(Fault::ZeroShares));\n    }\n    if exceeds_cash(o, cash, q) {\n"
     "        return event(o, Some(Fault::ExceedsCash));\n    }\n"),
    ("rules/Sends: send_tests_at", "9 comes before 8", "405", "sender/src/lib.rt",
     "    if exceeds_holding(o, x.holding) {\n        return event(o, Some(Fault::ExceedsHolding));\n    }\n",
     "    if o.shares == 0.0 {\n        return event(o, Some(Fault::ZeroShares));\n    }\n"
     "    if exceeds_holding(o, x.holding) {\n"
     "        return event(o, Some(Fault::ExceedsHolding));\n    }\n"),
    ("rules/Sends: send_tests_at", "zero shares are taken", "402, 404", "sender/src/lib.rt",
     "    if o.shares == 0.0 {\n        return event(o, Some(Fault::ZeroShares));\n    }\n", ""),
    ("rules/Sends: send_tests", "10 and 11 come before 9", "409", "sender/src/lib.rt",
     "    if o.shares == 0.0 {\n        return event(o, Some(Fault::ZeroShares));\n    }\n",
     "    if let Some(fault) = counts.room_fault() {\n        return Some(fault);\n    }\n"
     "    if o.shares == 0.0 {\n        return event(o, Some(Fault::ZeroShares));\n    }\n"),
    ("rules/Sends: send_tests", "4 comes before 2", "408", "sender/src/lib.rt",
     "    if let Some(fault) = o.fault() {",
     "    if failed {\n        return event(o, Some(Fault::BrokerFailed));\n    }\n    if let Some(fault) = o.fault() {"),
    ("orders/Orders: room_tests", "11 comes before 10", "419", "exchange/src/insert.rt",
     "        if self.taken == self.room {\n            return Some(Fault::LogFull);\n        }\n",
     "        if self.resting + self.waits == Counts::WIDTH {\n            return Some(Fault::BookFull);\n        }\n"
     "        if self.taken == self.room {\n            return Some(Fault::LogFull);\n        }\n"),

    ("exchange/Delete: delete_of", "places from 255 on are not looked at", "", "exchange/src/delete.rt",
     "if resting[at].id == order_id {", "if i < 255 && resting[at].id == order_id {"),
    ("exchange/Delete: delete_of", "the order behind the one of that number leaves", "", "exchange/src/delete.rt",
     "return Some(at);", "return Some(at + 1);",
     "    book.copy_within(at + 1..until, at);\n",
     "    if at < until {\n        book.copy_within(at + 1..until, at);\n    }\n"),
    ("exchange/Delete: delete_of", "a waiting order leaves", "", "exchange/src/delete.rt",
     "&self.book[..self.counts.resting]", "&self.book[..self.counts.resting + self.counts.waits]"),
    ("exchange/Delete: has_number", "numbers are compared in sixteen bits", "", "exchange/src/delete.rt",
     "if resting[at].id == order_id {", "if resting[at].id % 65536 == order_id % 65536 {"),
    ("exchange/Delete: has_number", "numbers are compared in 32 bits", "", "exchange/src/delete.rt",
     "if resting[at].id == order_id {", "if resting[at].id % 4294967296 == order_id % 4294967296 {"),

    ("rules/Basis: cleared", "quantity zero keeps the value", "482", "portfolio/src/basis.rt",
     "value: if quantity == 0.0 { 0.0 } else { value },", "value,"),
    ("rules/Basis: basis_step", "a sale adds its value", "481", "portfolio/src/basis.rt",
     "b.value - t.value", "b.value + t.value"),
    ("rules/Basis: basis_step", "a sale adds its quantity", "481", "portfolio/src/basis.rt",
     "b.quantity - t.quantity", "b.quantity + t.quantity"),
    ("rules/Basis: basis_step", "every symbol's trades count", "481", "portfolio/src/basis.rt",
     "if t.symbol != symbol {", "if t.symbol > 255 {"),
    ("rules/Basis: basis_of", "the value for the quotient", "481", "lent/src/uist.rt",
     "basis.value / basis.quantity", "basis.value"),
    ("rules/Basis: basis_of", "a basis at quantity zero", "482", "lent/src/uist.rt",
     "return Ok(None);", "return Ok(Some(0.0));"),
    ("turnover/Turnover: lesser", "the greater of the two sums", "4001, 4002", "turnover/src/lib.rt",
     "if self.bought < self.sold {", "if self.sold < self.bought {"),
    ("turnover/Turnover: lesser", "both sums added, as in document 01", "4001, 4002", "turnover/src/lib.rt",
     "        if self.bought < self.sold {\n            self.bought\n        } else {\n            self.sold\n        }\n",
     "        self.bought + self.sold\n"),
    ("turnover/Turnover: lesser", "the bought sum", "4001", "turnover/src/lib.rt",
     "if self.bought < self.sold {", "if true {"),
    ("turnover/Turnover: lesser", "the sold sum", "4001, 4002", "turnover/src/lib.rt",
     "if self.bought < self.sold {", "if false {"),
    ("turnover/Turnover: lesser", "a bought sum of NaN is answered", "4007", "turnover/src/lib.rt",
     "if self.bought < self.sold {", "if !(self.sold <= self.bought) {"),
    ("turnover/Turnover: lesser", "a sold sum of NaN is passed over", "4007", "turnover/src/lib.rt",
     "if self.bought < self.sold {", "if self.bought < self.sold || self.sold != self.sold {"),
    ("turnover/Turnover: add_to", "quantities for values", "4002", "turnover/src/lib.rt",
     "self.bought += t.value", "self.bought += t.quantity",
     "self.sold += t.value", "self.sold += t.quantity"),
    ("turnover/Turnover: add_to", "a sale joins the bought sum", "4002", "turnover/src/lib.rt",
     "TradeType::Sell => self.sold += t.value,", "TradeType::Sell => self.bought += t.value,"),
    ("turnover/Turnover: add_to", "the side by the value's sign", "4006, 4007", "turnover/src/lib.rt",
     "        match t.typ {\n",
     "        let typ = if t.value < 0.0 { TradeType::Sell } else { t.typ };\n        match typ {\n"),
    ("turnover/Turnover: add_to", "a sale is taken off the bought sum too", "4002, 4005", "turnover/src/lib.rt",
     "            TradeType::Sell => self.sold += t.value,\n",
     "            TradeType::Sell => {\n                self.bought -= t.value;\n                self.sold += t.value;\n            }\n"),
    ("turnover/Turnover: turnover_sums", "from the newest row back", "4004", "turnover/src/lib.rt",
     "for t in log {", "for t in log.iter().rev() {"),
    ("turnover/Turnover: turnover_sums", "the newest row is not read", "4002", "turnover/src/lib.rt",
     "for t in log {", "for t in &log[..log.len().saturating_sub(1)] {"),
    ("turnover/Turnover: no_sums", "the bought sum starts from one", "4001, 4002", "turnover/src/lib.rt",
     "Sums::default()", "Sums { bought: 1.0, sold: 0.0 }"),
    ("lent/Logs: logged_in", "turnover reads the old rows too", "", "lent/src/uist.rt",
     "Sums::of(trades)", "Sums::of(log)"),

    ("corrections/Corrections: newer", "an earlier date wins", "5001, 5002", "corrections/src/order.rt",
     "(a.date, a.revision) > (b.date, b.revision)", "(b.date, a.revision) > (a.date, b.revision)"),
    ("corrections/Corrections: newer", "the revision before the date", "5001, 5005, 5006", "corrections/src/order.rt",
     "(a.date, a.revision) > (b.date, b.revision)", "(a.revision, a.date) > (b.revision, b.date)"),
    ("corrections/Corrections: newer", "at the same date the lower revision", "5003, 5005", "corrections/src/order.rt",
     "(a.date, a.revision) > (b.date, b.revision)", "(a.date, b.revision) > (b.date, a.revision)"),
    ("corrections/Corrections: newer", "at the same date the row given last", "5003, 5005, 5006",
     "corrections/src/order.rt",
     "(a.date, a.revision) > (b.date, b.revision)", "a.date >= b.date"),
    ("corrections/Corrections: newer", "at the same date the row given first", "5003, 5005, 5006",
     "corrections/src/order.rt",
     "(a.date, a.revision) > (b.date, b.revision)", "a.date > b.date"),
    ("corrections/Corrections: newer", "revisions as signed bytes", "5003", "corrections/src/order.rt",
     "(a.date, a.revision) > (b.date, b.revision)", "(a.date, a.revision ^ 128) > (b.date, b.revision ^ 128)"),
    ("corrections/Corrections: winner_step", "the row given first wins", "5001, 5002", "corrections/src/newest.rt",
     "order::newer(row, old)", "false"),
    ("corrections/Corrections: winner_step", "the row given last wins", "5001, 5002", "corrections/src/newest.rt",
     "order::newer(row, old)", "true"),
    ("corrections/Corrections: corrected_of", "symbol 255 is not shown", "5004", "corrections/src/newest.rt",
     "for (n, row) in kept.iter()", "for (n, row) in kept[..255].iter()",
     "let count = kept.iter()", "let count = kept[..255].iter()"),
    ("corrections/Corrections: corrected_of", "symbols descend", "5004", "corrections/src/newest.rt",
     "for (n, row) in kept.iter()", "for (n, row) in kept.iter().rev()"),
    ("market/VendorQuotes: quote_of", "the ask for the bid", "5001", "market/src/vendor_quote.rt",
     "bid: self.bid,", "bid: self.ask,"),
    ("market/VendorQuotes: vendor_row_tests", "3 for symbol 0", "5007", "market/src/vendor_quote.rt",
     "self.quote().fault(0)", "self.quote().fault(1)"),
    ("corrections/Corrections: alike", "alike in symbol and date", "5009", "corrections/src/order.rt",
     "(a.symbol, a.date, a.revision) == (b.symbol, b.date, b.revision)", "(a.symbol, a.date) == (b.symbol, b.date)"),
    ("corrections/Corrections: alike", "alike in symbol and revision", "5009", "corrections/src/order.rt",
     "(a.symbol, a.date, a.revision) == (b.symbol, b.date, b.revision)",
     "(a.symbol, a.revision) == (b.symbol, b.revision)"),
    ("corrections/Corrections: alike", "alike in date and revision", "5009", "corrections/src/order.rt",
     "(a.symbol, a.date, a.revision) == (b.symbol, b.date, b.revision)", "(a.date, a.revision) == (b.date, b.revision)"),
    ("corrections/Corrections: alike", "alike in symbol, date, revision and bid", "5008", "corrections/src/order.rt",
     "(a.symbol, a.date, a.revision) == (b.symbol, b.date, b.revision)",
     "(a.symbol, a.date, a.revision) == (b.symbol, b.date, b.revision) && a.bid == b.bid"),
    ("corrections/Corrections: some_alike", "only neighbours are compared", "5008", "corrections/src/faults.rt",
     "&rows[i + 1..]", "&rows[i + 1..(i + 2).min(rows.len())]"),
    ("corrections/Corrections: some_alike", "no neighbours are compared", "5008", "corrections/src/faults.rt",
     "&rows[i + 1..]", "&rows[(i + 2).min(rows.len())..]"),
    ("corrections/Corrections: some_alike", "the last row is not compared", "5008", "corrections/src/faults.rt",
     "&rows[i + 1..]", "&rows[i + 1..(rows.len() - 1).max(i + 1)]"),
    ("corrections/Corrections: some_alike", "no 21", "5008", "corrections/src/faults.rt",
     "some_alike(rows).then_some(", "(some_alike(rows) && false).then_some("),
    ("corrections/Corrections: vendor_tests", "21 before 1 and 2", "5010", "corrections/src/faults.rt",
     "    if let Some(fault) = rows_fault(rows) {",
     "    if some_alike(rows) {\n        return Some(Fault::AlikeRows);\n    }\n"
     "    if let Some(fault) = rows_fault(rows) {"),
    ("corrections/Corrections: vendor_tests", "the last row is not tested by 1 and 2", "5007", "corrections/src/faults.rt",
     "rows.iter().find_map(", "rows[..rows.len().saturating_sub(1)].iter().find_map("),
    ("corrections/Corrections: correct_tests", "15 for a table of 256 rows", "5011", "corrections/src/faults.rt",
     "if room < 256 {", "if room <= 256 {"),
    ("corrections/Corrections: correct_tests", "15 only where the rows do not fit", "5011", "corrections/src/faults.rt",
     "if room < 256 {", "if room < rows.len() {"),
    ("vendor/Corrects: AnswersCorrect", "the first row is stored in each place", "", "vendor/src/store.rt",
     "slices::store(table, 0, &x.rows[..x.count]);", "slices::store(table, 0, &[x.rows[0]; 257][..x.count]);"),

    ("market/Trades: meets_kind", "limit sell and stop buy at their price rest", "306, 308", "market/src/trade.rt",
     "price <= at", "price < at"),
    ("market/Trades: meets_kind", "limit buy and stop sell at their price rest", "304, 311", "market/src/trade.rt",
     "price >= at", "price > at"),
    ("market/Trades: meets_kind", "limit sell and stop buy rest without a price", "314", "market/src/trade.rt",
     "None => waits_for_rise,", "None => false,"),
    ("market/Trades: meets_kind", "limit buy and stop sell trade without a price", "314", "market/src/trade.rt",
     "None => waits_for_rise,", "None => true,"),
    ("market/Trades: meets_kind", "the other side's price", "305, 307, 308, 311", "market/src/trade.rt",
     "let at = price_at(o, q);", "let at = if o.is_sell() { q.ask } else { q.bid };"),
    ("market/Trades: meets_kind", "a limit sell waits for a fall", "307, 314", "market/src/trade.rt",
     "matches!(k, OrderType::LimitSell | OrderType::StopBuy)", "matches!(k, OrderType::StopBuy)"),
    ("market/Trades: meets_kind", "a stop buy waits for a fall", "309, 310", "market/src/trade.rt",
     "matches!(k, OrderType::LimitSell | OrderType::StopBuy)", "matches!(k, OrderType::LimitSell)"),
    ("market/Trades: meets_kind", "a market order waits for its price", "303", "market/src/trade.rt",
     "    if o.is_market() {\n        return true;\n    }\n", ""),
    ("market/Trades: trade_of", "a sell trades at the ask", "302", "market/src/trade.rt",
     "value: price_at(o, q) * o.shares", "value: q.ask * o.shares"),
    ("market/Trades: trade_of", "a buy trades at the bid", "301", "market/src/trade.rt",
     "value: price_at(o, q) * o.shares", "value: q.bid * o.shares"),
    ("market/Trades: trade_of", "no date", "301", "market/src/trade.rt", "date: q.date,", "date: 0,"),
    ("market/Trades: trade_on", "an order without a row trades", "315", "market/src/trade.rt",
     "let q = row?;", "let q = row.unwrap_or(Quote::blank());"),

    ("market/Quotes: is_price", "zero is a price", "203", "market/src/quote.rt", "x > 0.0", "x >= 0.0"),
    ("market/Quotes: is_price", "an infinity is a price", "203", "market/src/quote.rt",
     "floats::finite(x) && x > 0.0", "x > 0.0"),
    ("market/Quotes: row_tests", "the ask is not tested", "203", "market/src/quote.rt",
     "is_price(self.bid) && is_price(self.ask)", "is_price(self.bid)"),
    ("market/Quotes: row_tests", "3 comes before 2", "205", "market/src/row.rt",
     "        if !self.is_sound() {",
     "        if self.symbol() < least {\n            return Some(Fault::NotAscending);\n        }\n"
     "        if !self.is_sound() {"),
    ("market/Quotes: row_tests", "2 comes before 1", "205", "market/src/row.rt",
     "        if self.symbol() > 255 {",
     "        if !self.is_sound() {\n            return Some(Fault::BadValue);\n        }\n"
     "        if self.symbol() > 255 {"),
    ("market/Quotes: table_tests", "a symbol may come twice", "204", "market/src/quote.rt",
     "    fn is_sound(&self) -> bool {\n",
     "    fn fault(&self, least: u32) -> Option<crate::fault::Fault> {\n        if self.symbol > 255 {\n"
     "            return Some(crate::fault::Fault::UnknownSymbol);\n        }\n        if !self.is_sound() {\n"
     "            return Some(crate::fault::Fault::BadValue);\n        }\n"
     "        (self.symbol + 1 < least).then_some(crate::fault::Fault::NotAscending)\n    }\n\n"
     "    fn is_sound(&self) -> bool {\n"),
    ("ledger/Ledger: check_tests", "the fetched table's number first", "475", "broker/src/check.rt",
     "            .or(tradable.fault())\n            .or(fetched.fault())\n",
     "            .or(fetched.fault())\n            .or(tradable.fault())\n"),

    ("market/Weights: weight_tests", "a NaN weight passes", "209", "market/src/weight.rt",
     "        floats::finite(self.weight)\n", "        true\n"),
    ("market/Weights: weight_rows", "a symbol may come twice", "209", "market/src/weight.rt",
     "    fn is_sound(&self) -> bool {\n",
     "    fn fault(&self, least: u32) -> Option<crate::fault::Fault> {\n        if self.symbol > 255 {\n"
     "            return Some(crate::fault::Fault::UnknownSymbol);\n        }\n        if !self.is_sound() {\n"
     "            return Some(crate::fault::Fault::BadValue);\n        }\n"
     "        (self.symbol + 1 < least).then_some(crate::fault::Fault::NotAscending)\n    }\n\n"
     "    fn is_sound(&self) -> bool {\n"),
    ("market/Orders: order_tests", "the price is not tested", "210", "market/src/order.rt",
     "            Some(price) if !floats::finite(price) => Some(Fault::BadValue),\n", ""),

    ("costs/Costs: trade_impact", "per share lowers a buy price", "103", "costs/src/lib.rt",
     "net.price += val,", "net.price -= val,"),
    ("costs/Costs: trade_impact", "per share raises a sale price", "104", "costs/src/lib.rt",
     "net.price -= val,", "net.price += val,"),
    ("costs/Costs: trade_impact", "a part p leaves p", "105", "costs/src/lib.rt",
     "net.budget *= 1.0 - pct", "net.budget *= pct"),
    ("costs/Costs: trade_impact", "flat raises the budget", "107", "costs/src/lib.rt",
     "net.budget -= val,", "net.budget += val,"),
    ("costs/Costs: trade_impact_total", "in reverse", "108, 109", "costs/src/lib.rt",
     "for cost in costs {\n        net =", "for cost in costs.iter().rev() {\n        net ="),
    ("costs/Costs: calc", "per share times value", "112", "costs/src/lib.rt", "cost * quantity,", "cost * value,"),
    ("costs/Costs: calc", "a part of the quantity", "112", "costs/src/lib.rt", "value * pct,", "quantity * pct,"),
    ("costs/Costs: calc", "flat times quantity", "112", "costs/src/lib.rt",
     "BrokerCost::Flat(val) => val,", "BrokerCost::Flat(val) => val * quantity,"),
    ("costs/Costs: trade_costs", "in reverse", "113", "costs/src/lib.rt",
     "for cost in costs.costs() {\n        sum +=", "for cost in costs.costs().iter().rev() {\n        sum +="),
    ("costs/Costs: is_finite", "a flat cost is not tested", "115", "broker/src/build.rt",
     " | BrokerCost::Flat(x) => {\n            floats::finite(x)\n        }",
     " => floats::finite(x),\n        BrokerCost::Flat(_) => true,"),
    ("costs/Kept: with_cost", "the newest cost stands first", "114", "costs/src/lib.rt",
     "self.list[self.count] = cost;", "self.list[0] = cost;"),

    ("costs/Kept: costs_of", "the sixteenth cost is left out", "116", "costs/src/lib.rt",
     "self.count.min(16)", "self.count.min(15)"),
    ("broker/Build: builder_tests", "16 costs draw 14", "117", "broker/src/build.rt",
     "if costs.count > 16 {", "if costs.count >= 16 {"),
    ("broker/Build: builder_tests", "17 before 14", "1006", "broker/src/build.rt",
     "    if costs.count > 16 {\n        return Some(Fault::TooManyCosts);\n    }\n    if !lot::is_lot(lot) {\n"
     "        return Some(Fault::LotOutOfRange);\n    }\n",
     "    if !lot::is_lot(lot) {\n        return Some(Fault::LotOutOfRange);\n    }\n    if costs.count > 16 {\n"
     "        return Some(Fault::TooManyCosts);\n    }\n"),
    ("broker/Build: builder_tests", "17 after 2", "1006", "broker/src/build.rt",
     "    if !lot::is_lot(lot) {\n        return Some(Fault::LotOutOfRange);\n    }\n", "",
     "        return Some(Fault::BadValue);\n    }\n    None\n",
     "        return Some(Fault::BadValue);\n    }\n"
     "    (!lot::is_lot(lot)).then_some(Fault::LotOutOfRange)\n"),

    ("floats/Whole: floor_of", "towards zero below zero", "101", "floats/src/lib.rt",
     "return -(whole_over(-x) as f64);", "return -(whole_under(-x) as f64);",
     "    -floor(-x)\n",
     "    if x > 0.0 && x < 4503599627370496.0 {\n        return whole_over(x) as f64;\n    }\n    -floor(-x)\n"),
    ("floats/Whole: ceil_of", "away from zero below zero", "102", "floats/src/lib.rt",
     "    -floor(-x)\n", "    if x < 0.0 {\n        return floor(x);\n    }\n    -floor(-x)\n"),
    ("floats/Whole: ceil_of", "a whole number moves up", "102", "floats/src/lib.rt",
     "return -(whole_over(-x) as f64);", "return -((whole_under(-x) + 1) as f64);"),
    ("floats/Lots: lot_of", "towards zero below zero", "1002", "floats/src/lot.rt",
     "return -(self.multiple_over(whole_over(-x)) as f64);", "return -(self.multiple_under(whole_under(-x)) as f64);"),
    ("floats/Lots: lot_of", "one lot more at an exact multiple below zero", "1002", "floats/src/lot.rt",
     "if low < n {", "if low <= n {"),
    ("floats/Lots: lot_of", "the next multiple above", "1002", "floats/src/lot.rt",
     "n - n % self.size as u64", "n + self.size as u64 - n % self.size as u64"),
    ("floats/Lots: beyond", "2 to the 52nd is rounded", "1003", "floats/src/lot.rt",
     "x < 4503599627370496.0", "x <= 4503599627370496.0"),
    ("floats/Lots: beyond", "its negative is rounded", "1003", "floats/src/lot.rt",
     "x > -4503599627370496.0", "x >= -4503599627370496.0"),
    ("floats/Lots: lot_shares", "18 at lot 1", "1005", "floats/src/lot.rt", "if lot <= 1 {", "if lot < 1 {"),
    ("floats/Lots: is_lot", "1,000,001 is a lot", "1001", "floats/src/lot.rt", "lot <= 1000000", "lot <= 1000001"),
    ("floats/Lots: is_lot", "1,000,000 is none", "1001", "floats/src/lot.rt", "lot <= 1000000", "lot <= 999999"),
    ("floats/Lots: is_lot", "0 is a lot", "1001", "floats/src/lot.rt", "lot >= 1 &&", "lot >= 0 &&"),
    ("floats/Whole: floor_of", "to the nearest", "101", "floats/src/lib.rt",
     "return whole_under(x) as f64;", "return whole_under(x + 0.5) as f64;"),
]

# The line of compare/quote-lines.txt that shows the change, or 0 where the program's recorded run does; then as above.
# The cases are those of lines and numerals, and those of crates/cases.
LINE_CHANGES = [
    (30, "numerals/Numerals: no_spare", "a leading zero is taken", "2002", "numerals/src/decimal.rt",
     "[first, ..] => *first != b'0',", "[_, ..] => true,"),
    (16, "numerals/Numerals: no_spare", "no digits are 0", "2002", "numerals/src/decimal.rt",
     "[] => false,", "[] => true,"),
    (35, "numerals/Numerals: decimal_in", "a to f are decimal digits", "2002", "numerals/src/decimal.rt",
     "number::decimal_digit(*b)?", "number::digit(*b)?"),
    (39, "numerals/Numerals: decimal_in", "the symbol wraps at 2 to the 64th", "2002", "numerals/src/decimal.rt",
     "    n.saturating_mul(10)\n        .saturating_add(d)\n        .min(9223372036854775809)\n",
     "    n.wrapping_mul(10).wrapping_add(d)\n"),
    (49, "numerals/Numerals: decimal_in", "digits past the nineteenth are passed over", "2002", "numerals/src/decimal.rt",
     "    n.saturating_mul(10)\n        .saturating_add(d)\n        .min(9223372036854775809)\n",
     "    if n > 922337203685477580 {\n        return n;\n    }\n    n * 10 + d\n"),
    (45, "numerals/Numerals: date_in", "2 to the 63rd is a date", "2003", "numerals/src/decimal.rt",
     "_ => number::positive(decimal(s)),",
     "_ => match decimal(s) {\n            Some(9223372036854775808) => Some(-9223372036854775808),\n"
     "            x => number::positive(x),\n        },"),
    (53, "numerals/Numerals: date_in", "a plus is taken", "2003", "numerals/src/decimal.rt",
     "        [b'-', rest @ ..] =>",
     "        [b'+', rest @ ..] => number::positive(decimal(rest)),\n        [b'-', rest @ ..] =>"),
    (50, "numerals/Numerals: negative_of", "minus zero is taken", "2003", "numerals/src/decimal.rt",
     "    if x? == 0 {\n        return None;\n    }\n", ""),
    (46, "numerals/Numerals: negative_of", "a date below the least is the least", "2003", "numerals/src/decimal.rt",
     "    number::negated(x)",
     "    if x? > 9223372036854775808 {\n        return Some(-9223372036854775808);\n    }\n    number::negated(x)"),
    (0, "numerals/Numerals: negative_of", "the least date is refused", "2003", "words/src/number.rt",
     "    0i64.checked_sub_unsigned(x?)",
     "    if x? > 9223372036854775807 {\n        return None;\n    }\n    0i64.checked_sub_unsigned(x?)"),
    (61, "numerals/Numerals: bits_in", "upper-case digits are taken", "2004", "words/src/number.rt",
     "        b'a'..=b'f' =>", "        b'A'..=b'F' => Some((byte - b'A' + 10) as u64),\n        b'a'..=b'f' =>"),
    (65, "numerals/Numerals: bits_in", "g is a digit", "2004", "words/src/number.rt",
     "b'a'..=b'f' => Some((byte - b'a' + 10) as u64),", "b'a'..=b'g' => Some((byte - b'a' + 10) as u64 % 16),"),
    (63, "numerals/Numerals: bits_in", "fewer than 16 digits are taken", "2004", "words/src/number.rt",
     "if s.len() != 16 {", "if s.len() > 16 {"),
    (64, "numerals/Numerals: bits_in", "17 digits are taken", "2004", "words/src/number.rt",
     "if s.len() != 16 {", "if s.len() != 16 && s.len() != 17 {"),

    (0, "numerals/Numerals: places", "9 has a spare zero", "2001", "numerals/src/spelled.rt",
     "    n.max(1).ilog10() as usize + 1\n",
     "    let mut k: usize = 1;\n    let mut rest = n;\n    while rest > 8 {\n        rest = rest / 10;\n        k += 1;\n"
     "    }\n    k\n"),
    (0, "numerals/Numerals: places", "10 has one digit", "2001", "numerals/src/spelled.rt",
     "    n.max(1).ilog10() as usize + 1\n",
     "    let mut k: usize = 1;\n    let mut rest = n;\n    while rest > 10 {\n        rest = rest / 10;\n"
     "        k += 1;\n    }\n    k\n"),
    (0, "numerals/Numerals: date_text", "-1 without its minus", "2001", "numerals/src/spelled.rt",
     "if date >= 0 {", "if date >= -1 {"),
    (0, "numerals/Numerals: glyph", "upper-case digits are written", "2001", "numerals/src/spelled.rt",
     "87 + d as u8", "55 + d as u8"),
    (0, "numerals/Numerals: last_digits", "the last digit first", "2001", "numerals/src/spelled.rt",
     "text[at + i] = glyph(rest % base);", "text[at + k - 1 - i] = glyph(rest % base);"),

    (38, "lines/Lines: capped_quote", "the symbol wraps at 2 to the 32nd", "2016", "lines/src/line.rt",
     "n.min(256) as u32", "(n % 4294967296).min(256) as u32"),
    (36, "lines/Lines: capped_quote", "a symbol above 255 is 255", "2016", "lines/src/line.rt",
     "n.min(256)", "n.min(255)"),
    (12, "lines/Lines: line_in", "what stands behind the ask is passed over", "2012", "lines/src/line.rt",
     "let (bid, ask) = field(rest);", "let (bid, rest) = field(rest);\n    let (ask, _) = field(rest);"),
    (0, "lines/Lines: quote_of", "the ask is read before the bid", "2011", "lines/src/line.rt",
     "        bid,\n        ask,\n", "        bid: ask,\n        ask: bid,\n"),
    (0, "lines/Lines: line_text", "the ask is written before the bid", "2011", "lines/src/write.rt",
     "spelled::float_text(q.bid), b','", "spelled::float_text(q.ask), b','",
     "spelled::float_text(q.ask), b'\\n'", "spelled::float_text(q.bid), b'\\n'"),
    (0, "lines/Lines: line_of", "a carriage return is written", "2011", "lines/src/write.rt",
     "b'\\n'", "b'\\r'"),
    (0, "lines/Lines: text_of", "by descending symbol", "2017", "lines/src/write.rt",
     "    for (symbol, row) in t.rows.iter().enumerate() {\n        at = put_row(out, at, symbol as u64, *row);",
     "    for symbol in (0..t.rows.len()).rev() {\n        at = put_row(out, at, symbol as u64, t.rows[symbol]);"),
    (0, "lines/Lines: text_of", "255 is left out", "2017", "lines/src/write.rt",
     "t.rows.iter().enumerate()", "t.rows[..255].iter().enumerate()"),
    (7, "lines/Reading: unfinished", "a last line without newline is taken", "2012", "lines/src/read.rt",
     "part.strip_suffix(b\"\\n\").ok_or(Fault::MalformedLine)?", "part.strip_suffix(b\"\\n\").unwrap_or(part)"),
    (8, "lines/Reading: lines_of", "empty lines are passed over", "2012", "lines/src/read.rt",
     "        let q = line::line(text)",
     "        if text.is_empty() {\n            continue;\n        }\n        let q = line::line(text)"),
    (11, "lines/Reading: lines_of", "a carriage return is passed over", "2012", "lines/src/read.rt",
     "        let q = line::line(text)",
     "        let text = text.strip_suffix(b\"\\r\").unwrap_or(text);\n        let q = line::line(text)"),
    (86, "lines/Reading: line_tests", "1 comes before 19", "2013", "lines/src/line.rt",
     "    let date = decimal::date(date)?;",
     "    if symbol > 255 {\n        return Some(Quote {\n            symbol: 256,\n            ..Quote::blank()\n"
     "        });\n    }\n    let date = decimal::date(date)?;"),
    (88, "lines/Reading: line_tests", "2 comes before 19", "2013", "lines/src/line.rt",
     "    let ask = number::float(ask)?;",
     "    if bid == 0.0 {\n        return Some(Quote {\n            symbol: capped(symbol),\n            bid,\n"
     "            ask: bid,\n            date,\n        });\n    }\n    let ask = number::float(ask)?;"),
    (93, "lines/Reading: read_tests", "a later line's 19 comes first", "2013", "lines/src/read.rt",
     "    let mut least: u32 = 0;", "    let mut least: u32 = 0;\n    let mut kept: Option<Fault> = None;",
     "            return Err(fault);", "            kept = Some(fault);\n            continue;",
     "        least = q.symbol + 1;\n    }\n",
     "        least = q.symbol + 1;\n    }\n    if let Some(fault) = kept {\n        return Err(fault);\n    }\n"),
    (96, "lines/Reading: read_tests", "20 at 65,536 bytes", "2015", "lines/src/read.rt",
     "if input.len() > 65536 {", "if input.len() >= 65536 {"),
    (97, "lines/Reading: read_tests", "no 20 at 65,537 bytes", "2015", "lines/src/read.rt",
     "if input.len() > 65536 {", "if input.len() > 65537 {"),
    (100, "lines/Reading: read_tests", "20 comes behind the lines' numbers", "2015", "lines/src/read.rt",
     "    if input.len() > 65536 {\n        return Err(Fault::TextTooLong);\n    }\n    lines_read(input)\n",
     "    let x = lines_read(input)?;\n    if input.len() > 65536 {\n        return Err(Fault::TextTooLong);\n    }\n    Ok(x)\n"),

    (81, "market/Rows: rows_tests", "a symbol may come twice", "204", "lines/src/read.rt",
     "least = q.symbol + 1;", "least = q.symbol;"),
    (84, "market/Rows: rows_tests", "a row is above the first, not the one before it", "204", "lines/src/read.rt",
     "        least = q.symbol + 1;", "        if n == 1 {\n            least = q.symbol + 1;\n        }"),
    (0, "market/Quotes: row_tests", "255 draws 1", "2017", "market/src/row.rt",
     "if self.symbol() > 255 {", "if self.symbol() > 254 {"),
    (90, "market/Quotes: row_tests", "2 comes before 1", "205", "market/src/row.rt",
     "        if self.symbol() > 255 {",
     "        if !self.is_sound() {\n            return Some(Fault::BadValue);\n        }\n        if self.symbol() > 255 {"),
    (91, "market/Quotes: row_tests", "3 comes before 2", "205", "market/src/row.rt",
     "        if !self.is_sound() {",
     "        if self.symbol() < least {\n            return Some(Fault::NotAscending);\n        }\n        if !self.is_sound() {"),
    (68, "market/Quotes: row_tests", "the ask is not tested", "203", "market/src/quote.rt",
     "is_price(self.bid) && is_price(self.ask)", "is_price(self.bid)"),
    (67, "market/Quotes: is_price", "zero is a price", "203", "market/src/quote.rt", "x > 0.0", "x >= 0.0"),
    (72, "market/Quotes: is_price", "an infinity is a price", "203", "market/src/quote.rt",
     "floats::finite(x) && x > 0.0", "x > 0.0"),
    (75, "market/Quotes: is_price", "NaN is a price", "203", "market/src/quote.rt",
     "floats::finite(x) && x > 0.0", "x != x || floats::finite(x) && x > 0.0"),
    (0, "vendor/Answers: AnswersRead", "the last row is not stored", "", "vendor/src/store.rt",
     "&x.rows[..x.count]", "&x.rows[..x.count.max(1) - 1]"),
]


def edited(crates, change):
    """Makes a change in a copy; false where its old text is not there exactly once."""
    path = os.path.join(crates, change[3])
    with open(path, encoding="utf-8") as source:
        text = source.read()
    for old, new in zip(change[4::2], change[5::2]):
        if text.count(old) != 1:
            return False
        text = text.replace(old, new)
    with open(path, "w", encoding="utf-8") as source:
        source.write(text)
    return True


def outcome(folder):
    """Where the program of this folder first writes something else than was recorded, or what is wrong with it. The interpreter,
    which tells no more of a program that runs, gets one step."""
    with open(os.path.join(folder, "stdin"), "rb") as source, open(os.path.join(folder, "stdout"), "rb") as recorded:
        run = subprocess.run(["rt", "try", "--steps", "1"], cwd=folder, stdin=source, capture_output=True)
        due = recorded.read()
    if run.returncode:
        said = run.stderr.decode(errors="replace").strip().split("\n")
        return None, "DOES NOT RUN: " + next((line for line in said if "error" in line or "fault" in line), said[0])
    at = len(os.path.commonprefix([run.stdout, due]))
    return (None, "PASSES") if run.stdout == due else (at, None)


def line_of_answers(at):
    """The line of the recorded answers that has this byte, and the line of stdin it answers."""
    with open(ANSWERS, "rb") as answers:
        lines = answers.read()[:at + 1].split(b"\n")
    own = [line.split()[0].decode() for line in lines if line[:1].isdigit()]
    return "%d (stdin %s)" % (len(lines), own[-1] if own else "1")


def line_of_table(at):
    """The line of the recorded table that has this byte."""
    with open(os.path.join(ROOT, "crates", "quotes", "stdout"), "rb") as table:
        return "stdout, line %d" % (table.read()[:at].count(b"\n") + 1)


def given(crates, line):
    """Puts a recorded text of quote lines, by its line, in the place of the program's recorded run."""
    text, number = {at: case for at, *case in line_texts.recorded()}[line]
    for name, data in (("stdin", text), ("stdout", b"%d\n" % number if number else text)):
        with open(os.path.join(crates, "quotes", name), "wb") as file:
            file.write(data)


def tried(change, program, line):
    """What becomes of a change: the byte at which it shows, or what is wrong with it. With a line, on that recorded text."""
    with tempfile.TemporaryDirectory() as copy:
        crates = os.path.join(copy, "crates")
        shutil.copytree(os.path.join(ROOT, "crates"), crates, ignore=shutil.ignore_patterns("out"))
        shutil.copy(os.path.join(ROOT, "crates.txt"), copy)
        if not edited(crates, change):
            return None, "THE OLD TEXT IS NOT THERE ONCE"
        if line:
            given(crates, line)
        return outcome(os.path.join(crates, program))


def shown(change, program, line):
    """Where a change shows, and true; or what is wrong with it, and false."""
    at, wrong = tried(change, program, line)
    if wrong is not None:
        return wrong, False
    if line:
        return "quote-lines.txt, line %d" % line, True
    return (line_of_answers if program == "rehearse" else line_of_table)(at), True


def table(title, program, changes, words):
    """Tries the changes of a program, each with its line, and prints their table; how many did not show."""
    asked = [(line, change) for line, change in changes
             if not words or any(word in change[0] + " " + change[1] for word in words)]
    if asked:
        print("| rule | change of the code | %s | case |\n|---|---|---|---|" % title)
    bad = 0
    with concurrent.futures.ThreadPoolExecutor(os.cpu_count()) as pool:
        found = pool.map(lambda one: shown(one[1], program, one[0]), asked)
        for (_line, change), (place, shows) in zip(asked, found):
            bad += not shows
            file, rule = change[0].split(": ")
            print("| `%s` (%s) | %s | %s | %s |" % (rule, file, change[1], place, change[2]), flush=True)
    if asked:
        print()
    return bad


def main():
    words = sys.argv[1:]
    bad = table("first line of stdout that differs", "rehearse", [(0, change) for change in CHANGES], words)
    bad += table("what differs", "quotes", [(line, change) for line, *change in LINE_CHANGES], words)
    print("%d changes did not show" % bad if bad else "every change shows")
    sys.exit(1 if bad else 0)


if __name__ == "__main__":
    main()
