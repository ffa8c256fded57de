"""Deletions from a full book, the same in every run. Places are counted in sixteen bits (document 02, request 3), while a
number has 64: so orders leave at the first and the last places and on both sides of what 8 and 9 bits count, and
numbers are asked for that agree in their low bits with one that is there."""

from boundaries import row
from model import BOOK
from play import Play

SOLD, OTHER = 3, 4
TABLE = [row(SOLD, 10.0), row(OTHER, 12.0)]
PLACES = [0, 254, 255, 256, 257, 258, 511, 512, 1022, 1023]
# Added to a number of the book they leave its low 16, 32 or 63 bits as they are.
ABOVE = [1 << 16, 1 << 32, 1 << 63]
# No order has one of these: the next to be given, and the greatest of 16, 32 and 64 bits.
NOWHERE = [BOOK, (1 << 16) - 1, (1 << 32) - 1, (1 << 64) - 1]


def begun():
    play = Play()
    play.new(4096, [], TABLE)
    play.word("quiet")
    return play


def ended(play):
    """What is left in the book trades, in its order."""
    play.check(TABLE, [])
    play.word("state")
    return play


def sale(i, symbol=SOLD):
    return "ms", symbol, float(i + 1), None


def at_once(play, count):
    """So many sales of what is not held, sent by one list."""
    play.send_list(count, [sale(i) for i in range(count)])


def one_by_one(play, count):
    """A check books each order, so that one waits at most."""
    for i in range(count):
        play.order("insert", sale(i))
        play.check([], [])


def number_at(play, place):
    return play.model.resting[place][0]


def at_places(play):
    """At each place an order leaves, its number is asked for once more, and another order comes in at the book's end."""
    for place in PLACES:
        number = number_at(play, place)
        play.delete(number)
        play.word("state")
        play.delete(number)
        play.order("insert", sale(number))
        play.check([], [])
        play.word("state")


def not_there(play):
    """Nothing leaves."""
    for place in PLACES:
        for above in ABOVE:
            play.delete(number_at(play, place) + above)
    for number in NOWHERE:
        play.delete(number)
    play.word("state")


def first_out(place):
    """A book in which places and numbers are the same, and one deletion."""
    play = begun()
    at_once(play, BOOK)
    play.check([], [])
    play.delete(number_at(play, place))
    play.word("state")
    return ended(play)


def filled(fill):
    """A book in which places and numbers differ from the first deletion on."""
    play = begun()
    fill(play, BOOK)
    play.check([], [])
    not_there(play)
    at_places(play)
    return ended(play)


def after_trades():
    """Every second order has traded, and as many others were booked behind the rest."""
    play = begun()
    play.send_list(BOOK, [sale(i, SOLD if i % 2 else OTHER) for i in range(BOOK)])
    play.check([], [])
    play.check(TABLE[1:], [])
    at_once(play, BOOK // 2)
    play.check([], [])
    at_places(play)
    return ended(play)


def while_waiting(resting):
    """So many orders rest and the others wait: a number that is gone and those yet to be given reach none of them."""
    play = begun()
    at_once(play, resting)
    play.check([], [])
    play.delete(0)
    at_once(play, BOOK - resting + 1)
    for number in (0, resting, resting + 1, BOOK - 1, BOOK):
        play.delete(number)
    play.word("state")
    play.check([], [])
    at_places(play)
    return ended(play)


def scenarios():
    """A name and a Play for each."""
    plays = [first_out(place) for place in PLACES]
    plays += [filled(at_once), filled(one_by_one), after_trades(), while_waiting(256), while_waiting(600)]
    return (("deletions", play) for play in plays)


def single_scenarios():
    """That of them in which one order waits at most, for the unchanged Rust."""
    yield "deletions", filled(one_by_one)
