"""Reads the lines of a scenario back into a Play, so that a shortened or written-down scenario is
judged like a generated one."""

from play import Play
from player import LIST_READS, SYMBOL_READS
from scenario.floats import number
from scenario.words import is_lot, read_cost, read_lot, read_order, read_quote, read_vendor_quote, read_weight


def lists(words, *readers):
    """The lists between slashes, each read by its own reader."""
    parts = [[]]
    for word in words:
        if word == "/":
            parts.append([])
        else:
            parts[-1].append(word)
    return [[read(word) for word in part] for read, part in zip(readers, parts)]


def new(play, log, words):
    """A builder, whose lot may be left out."""
    lot = read_lot(words[0]) if is_lot(words[0]) else None
    play.new(log, *lists(words[lot is not None:], read_cost, read_quote), lot)


def call(play, verb, words):
    if verb == "new":
        new(play, int(words[0]), words[1:])
    elif verb == "lend":
        play.lend(int(words[0]))
    elif verb in ("deposit", "withdraw", "liquidate"):
        play.amount(verb, number(words[0]))
    elif verb in ("send", "insert"):
        play.order(verb, read_order(words[0]))
    elif verb == "send_list":
        play.send_list(int(words[0]), [read_order(word) for word in words[1:]])
    elif verb == "delete":
        play.delete(int(words[0]))
    elif verb == "check":
        play.check(*lists(words, read_quote, read_quote))
    elif verb == "walk":
        play.walk(int(words[0]), [read_weight(word) for word in words[1:]])
    elif verb == "update":
        play.update(int(words[0]), *lists(words[1:], read_quote, read_quote, read_weight))
    else:
        read(play, verb, words)


def read(play, verb, words):
    if verb in ("quiet", "full", "state"):
        play.word(verb)
    elif verb == "trade_impact_total":
        play.impact(number(words[0]), number(words[1]), words[2])
    elif verb == "calculate_trade_costs":
        play.charges(number(words[0]), number(words[1]))
    elif verb in ("floor", "ceil"):
        play.rounding(verb, number(words[0]))
    elif verb == "correct":
        play.correct(int(words[0]), [read_vendor_quote(word) for word in words[1:]])
    elif verb in SYMBOL_READS:
        play.symbol_read(verb, int(words[0]))
    elif verb in LIST_READS:
        play.list_read(verb, int(words[0]))
    elif verb == "clock":
        raise ValueError("a scenario with `clock` is not compared: its time differs from run to run")
    else:
        play.read(verb)


def reread(lines):
    play = Play()
    for line in lines:
        words = line.split()
        call(play, words[0], words[1:])
    return play
