"""Random amounts for scenarios: ordinary ones, and floats of every size and sort."""

from scenario import floats
from scenario.floats import LARGEST, LEAST, LEAST_NORMAL

EDGES = [0.0, -0.0, 1.0, -1.0, 0.5, 0.1, 2.0, 10.0, 100.0, 1000.0, LEAST, -LEAST, LEAST_NORMAL,
         -LEAST_NORMAL, LARGEST, -LARGEST, floats.down(1.0), floats.up(1.0), 4503599627370495.5,
         4503599627370496.0, 9007199254740991.0, 9007199254740993.0, 1e-300, 1e300, 1e154, 1e-154]


def any_float(rng):
    """A float of any bits, infinities and NaNs too."""
    choice = rng.random()
    if choice < 0.1:
        return rng.choice([floats.INF, -floats.INF, floats.NAN])
    if choice < 0.4:
        return wild(rng)
    if choice < 0.7:
        return floats.of_bits(rng.getrandbits(64))
    near = float(rng.randint(-20, 20))
    return rng.choice([near, floats.up(near), floats.down(near), near + rng.random()])


def wild(rng):
    """A finite float of any size and sign."""
    choice = rng.random()
    if choice < 0.35:
        return rng.choice(EDGES)
    if choice < 0.65:
        return rng.choice([1.0, -1.0]) * 10.0 ** rng.uniform(-323.0, 308.0)
    if choice < 0.85:
        return rng.choice([1.0, -1.0]) * 10.0 ** rng.uniform(-6.0, 12.0)
    x = floats.of_bits(rng.getrandbits(64))
    return x if floats.finite(x) else LARGEST


def positive(rng):
    """A finite float above zero, of any size."""
    x = abs(wild(rng))
    return x if x > 0.0 else LEAST


def neat(rng, x):
    """An amount near x, often with few digits, so that sums and products are exact at times."""
    choice = rng.random()
    if not 0.1 <= abs(x) <= 1e15 or choice >= 0.7:
        return x
    if choice < 0.3:
        return float(round(x)) or x
    return round(x * 4.0) / 4.0 or x if choice < 0.5 else round(x, 2)


def cost(rng, extreme):
    """A cost of any kind, now and then zero or negative; `extreme` for any size."""
    name = rng.choice(["per_share", "pct_of_value", "flat"])
    if extreme and rng.random() < 0.4:
        return name, wild(rng)
    size = {"per_share": 0.5, "pct_of_value": 0.02, "flat": 20.0}[name]
    amount = neat(rng, rng.uniform(0.0, size)) if rng.random() < 0.85 else 0.0
    return name, (-amount if rng.random() < 0.15 else amount)


def costs(rng, extreme=False):
    choice = rng.random()
    if choice < 0.45:
        return []
    count = rng.randint(1, 3) if choice < 0.85 else rng.randint(4, 16)
    return [cost(rng, extreme) for _ in range(count)]
