"""Every scenario of up to four calls over a small set of calls, after the same start."""

import itertools

from play import Play

LOW, HIGH = (7, 10.0, 10.0, 1), (7, 32.0, 36.0, 2)
CALLS = [
    lambda play: play.amount("deposit", 1500.0),
    lambda play: play.amount("withdraw", 900.0),
    lambda play: play.amount("liquidate", 40.0),
    lambda play: play.order("send", ("mb", 7, 90.0, None)),
    lambda play: play.order("send", ("ms", 7, 90.0, None)),
    lambda play: play.order("insert", ("ls", 7, 5.0, 32.0)),
    lambda play: play.order("insert", ("sb", 7, 5.0, 10.0)),
    lambda play: play.check([LOW], [LOW]),
    lambda play: play.check([HIGH], [HIGH]),
    lambda play: play.update(1, [LOW], [LOW], [(7, 0.5)]),
    lambda play: play.delete(0),
]
LONGEST = 4


def scenarios():
    """A name and a Play for each, the short ones first."""
    for length in range(1, LONGEST + 1):
        for calls in itertools.product(CALLS, repeat=length):
            play = Play()
            play.new(3, [], [LOW])
            play.amount("deposit", 1000.0)
            for call in calls:
                call(play)
            yield "exhaustive", play
