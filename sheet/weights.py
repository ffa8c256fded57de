"""A mix from a CSV: security and weight. What a user may not have meant is told as a warning."""
import amounts
import table
from faults import at, of_file, refuse

COLUMNS = ["security", "weight"]
ROOM = 256


def row_fault(path, line, cells, seen):
    """What is wrong with a row, or None."""
    if cells is None:
        return at(path, line, "has fewer than two cells", "give security, weight")
    security, word = cells
    weight = amounts.decimal(word)
    if weight is None:
        return at(path, line, f"the weight '{word}' is not a decimal number", "write a part of the account, as 0.25")
    if weight < 0.0:
        return at(path, line, f"the weight {word} of '{security}' is below zero", "write 0 or more")
    if security in seen:
        return at(path, line, f"'{security}' has a weight already, on line {seen[security]}", "take one of the two out")
    return None


def read(path):
    """The weights of a file by security, in the order of the file, with their lines."""
    faults, lines, found = [], {}, {}
    for line, cells in table.rows(path, COLUMNS):
        fault = row_fault(path, line, cells, lines)
        if fault:
            faults.append(fault)
        else:
            lines[cells[0]], found[cells[0]] = line, amounts.decimal(cells[1])
    refuse(faults)
    return found, lines


def check(path, weights, lines, quoted):
    """Refuses weights that the quotes can't serve."""
    faults = [at(path, lines[security], f"'{security}' has no quote in any line of the quotes", "correct the name, or add its quotes")
              for security in weights if security not in quoted]
    if len(weights) > ROOM:
        faults.append(of_file(path, f"names {len(weights)} securities", f"the engine has room for {ROOM}: take some out"))
    if not any(weights.values()):
        faults.append(of_file(path, "has no weight above zero", "give at least one"))
    refuse(faults)


def warnings(path, weights):
    """What the sum says."""
    total = sum(weights.values())
    if 50.0 <= total <= 150.0:
        yield of_file(path, f"the weights add up to {total:g}", "weights are parts of the account: write 0.25 for 25 %")
    elif total > 1.0 + 1e-9:
        yield of_file(path, f"the weights add up to {total:g}, more than the account",
                      "orders beyond its cash are refused, or cash falls below zero and positions are sold")
    elif total > 1.0 - 1e-9:
        yield of_file(path, "the weights add up to 1",
                      "no cash is kept for prices that move between an order and its trade; 0.95 in all keeps 5 %")
    elif total < 0.5:
        yield of_file(path, f"the weights add up to {total:g}", f"{1 - total:.0%} of the account stays in cash")
    for security in [security for security, weight in weights.items() if weight == 0.0]:
        yield of_file(path, f"'{security}' has the weight 0",
                      "it is left out: nothing of it is ever held, and the walk over weights would end there")
