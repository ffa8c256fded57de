//! Why a line is malformed: which of its words is the first that the form of its call does not want there, and the
//! reason (docs/SCENARIOS.md, "A line"). It is asked only of lines that line.rs reads as no call.

use crate::line::{room, MOST_BYTES, MOST_COSTS, MOST_ORDERS, MOST_ROWS, MOST_VENDOR_ROWS};
use crate::text::{cost_of, date, float, kind, parts, revision, symbol, whole};

/// What is wrong with a word, if anything is.
type Fault = Option<&'static str>;
/// What a form wants at a place, as the test of the word there.
type Test = fn(&[u8]) -> Fault;
/// What each row of a list must be, and how many rows there may be.
type List = (Test, usize);
/// Names of calls, the words after each name, and the lists after these, which a `/` parts.
type Form = (&'static [&'static str], &'static [Test], &'static [List]);

const COSTS: List = (not_cost, MOST_COSTS);
const ORDERS: List = (not_order, MOST_ORDERS);
const QUOTES: List = (not_quote, MOST_ROWS);
const WEIGHTS: List = (not_weight, MOST_ROWS);
const VENDOR_QUOTES: List = (not_vendor_quote, MOST_VENDOR_ROWS);

/// The log has no rows of its own here, so that any WHOLE is a LOG. A LOT may stand before the lists of `new`.
const FORMS: &[Form] = &[
    (&["new"], &[not_whole], &[COSTS, QUOTES]),
    (&["lend", "delete"], &[not_whole], &[]),
    (&["deposit", "withdraw", "liquidate", "floor", "ceil"], &[not_float], &[]),
    (&["send", "insert"], &[not_order], &[]),
    (&["send_list"], &[not_room], &[ORDERS]),
    (&["check"], &[], &[QUOTES, QUOTES]),
    (&["walk"], &[not_room], &[WEIGHTS]),
    (&["update"], &[not_room], &[QUOTES, QUOTES, WEIGHTS]),
    (&["get_quote", "get_position_qty", "get_pending_order"], &[not_symbol], &[]),
    (&["get_position_value", "get_position_liquidation_value"], &[not_symbol], &[]),
    (&["cost_basis"], &[not_symbol], &[]),
    (&["get_positions", "get_holdings", "get_pending_orders"], &[not_room], &[]),
    (&["get_quotes", "get_trade_costs"], &[not_room], &[]),
    (&["get_total_value", "get_liquidation_value", "get_cash_balance", "turnover"], &[], &[]),
    (&["get_broker_state", "executed_trade_count"], &[], &[]),
    (&["trade_impact_total"], &[not_float, not_float, not_side], &[]),
    (&["calculate_trade_costs"], &[not_float, not_float], &[]),
    (&["correct"], &[not_room], &[VENDOR_QUOTES]),
    (&["state", "quiet", "full", "clock"], &[], &[]),
];

/// Which word of a malformed line is named, 0 for the line as a whole, and the reason.
pub fn reason(line: &[u8], words: &[&[u8]]) -> (usize, &'static str) {
    if line.len() > MOST_BYTES {
        return (0, "line too long");
    }
    let (at, fault) = first_fault(words).expect("a line of its call's form is a call");
    let fault = words.get(at).and_then(|word| other_space(word)).unwrap_or(fault);
    (at + 1, fault)
}

/// The index of the first word that its form does not want, one past the last where the line ends too early.
fn first_fault(words: &[&[u8]]) -> Option<(usize, &'static str)> {
    let is_named = |form: &&Form| form.0.iter().any(|name| name.as_bytes() == words[0]);
    let Some((_, fixed, lists)) = FORMS.iter().find(is_named) else {
        return Some((0, "unknown call"));
    };
    for (at, test) in (1..).zip(*fixed) {
        let fault = words.get(at).map_or(Some("too few words"), |word| test(word));
        if let Some(fault) = fault {
            return Some((at, fault));
        }
    }
    let start = 1 + fixed.len();
    match lot_number(words, start).map(not_symbol) {
        None => fault_in_lists(words, start, lists),
        Some(None) => fault_in_lists(words, start + 1, lists),
        Some(Some(fault)) => Some((start, fault)),
    }
}

/// The number of the LOT at this place, where `new` has a word there that is taken for one.
fn lot_number<'a>(words: &[&'a [u8]], at: usize) -> Option<&'a [u8]> {
    match parts(words.get(at)?)? {
        [b"lot", number] if words[0] == b"new" => Some(number),
        _ => None,
    }
}

/// The same from a word on, where the first of these lists starts.
fn fault_in_lists(words: &[&[u8]], start: usize, lists: &[List]) -> Option<(usize, &'static str)> {
    let Some(((test, most), further)) = lists.split_first() else {
        return (start < words.len()).then_some((start, "too many words"));
    };
    for (at, word) in words.iter().enumerate().skip(start) {
        if *word == b"/" && !further.is_empty() {
            return fault_in_lists(words, at + 1, further);
        }
        let fault = if at - start == *most { Some("too many rows") } else { test(word) };
        if let Some(fault) = fault {
            return Some((at, fault));
        }
    }
    (!further.is_empty()).then_some((words.len(), "too few words"))
}

/// Words are separated by spaces alone, so that other white space stands in a word, where none is wanted.
fn other_space(word: &[u8]) -> Fault {
    if word.contains(&b'\t') {
        Some("tab")
    } else if word.contains(&b'\r') {
        Some("carriage return")
    } else {
        None
    }
}

fn not_float(word: &[u8]) -> Fault {
    float(word).is_none().then_some("not a float")
}

/// Digits are a number; where they are read as none, it is too large.
fn not_number<T>(digits: &[u8], read: Option<T>) -> Fault {
    if digits.is_empty() || !digits.iter().all(u8::is_ascii_digit) {
        return Some("not a whole number");
    }
    read.is_none().then_some("too large")
}

fn not_whole(word: &[u8]) -> Fault {
    not_number(word, whole(word))
}

fn not_room(word: &[u8]) -> Fault {
    not_number(word, room(word))
}

fn not_symbol(word: &[u8]) -> Fault {
    not_number(word, symbol(word))
}

fn not_date(word: &[u8]) -> Fault {
    not_number(word.strip_prefix(b"-").unwrap_or(word), date(word))
}

fn not_revision(word: &[u8]) -> Fault {
    not_number(word, revision(word))
}

fn not_side(word: &[u8]) -> Fault {
    (word != b"buy" && word != b"sell").then_some("not a side")
}

fn not_price(word: &[u8]) -> Fault {
    if word == b"-" {
        None
    } else {
        not_float(word)
    }
}

fn not_order(word: &[u8]) -> Fault {
    match parts(word) {
        Some([case, name, shares, price]) if kind(case).is_some() => {
            not_symbol(name).or_else(|| not_float(shares)).or_else(|| not_price(price))
        }
        _ => Some("not an order"),
    }
}

fn not_row(name: &[u8], bid: &[u8], ask: &[u8], day: &[u8]) -> Fault {
    not_symbol(name).or_else(|| not_float(bid)).or_else(|| not_float(ask)).or_else(|| not_date(day))
}

fn not_quote(word: &[u8]) -> Fault {
    let Some([name, bid, ask, day]) = parts(word) else {
        return Some("not a quote");
    };
    not_row(name, bid, ask, day)
}

fn not_vendor_quote(word: &[u8]) -> Fault {
    let Some([name, bid, ask, day, version]) = parts(word) else {
        return Some("not a vendor quote");
    };
    not_row(name, bid, ask, day).or_else(|| not_revision(version))
}

fn not_weight(word: &[u8]) -> Fault {
    let Some([name, share]) = parts(word) else {
        return Some("not a weight");
    };
    not_symbol(name).or_else(|| not_float(share))
}

fn not_cost(word: &[u8]) -> Fault {
    match parts(word) {
        Some([case, amount]) if cost_of(case, 0.0).is_some() => not_float(amount),
        _ => Some("not a cost"),
    }
}
