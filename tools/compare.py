#!/usr/bin/env python3
"""Prints what crates/compare must print, worked out from docs/RULES.md alone: python3 tools/compare.py > crates/compare/stdout

The shapes, logs and states come from the same fixed sequence of numbers as in the program. Conditions are sets of values,
a rule is the product of its sets, and a rule dominates another when it contains it, feature by feature.
"""
from itertools import product

CASES = 60
SEED = 20
MOST_BODIES = 6561
MOST_ROWS = 40


class Random:
    def __init__(self, seed):
        self.last = seed

    def below(self, bound):
        self.last = (self.last * 1103515245 + 12345) % 2**32
        return (self.last >> 16) % bound if bound else 0


def exact(size):
    """The conditions of a size in the order of their codes: any value, then equality with each."""
    return [frozenset(range(size))] + [frozenset([v]) for v in range(size)]


def band(size):
    """The ranges from a to b, in the order of the codes that the formula gives them."""
    coded = {}
    for a in range(size):
        for b in range(a, size):
            k = size - (b - a + 1)
            coded[k * (k + 1) // 2 + a] = frozenset(range(a, b + 1))
    return [coded[code] for code in range(len(coded))]


def random_shape(conditions, random):
    spread = 1 + random.below(7)
    drawn = [2 + random.below(spread) for _ in range(8)]
    wanted = 1 + random.below(8)
    sizes, bodies = [], 1
    for size in drawn[:wanted]:
        bodies *= len(conditions(size))
        if bodies > MOST_BODIES:
            break
        sizes.append(size)
    outcomes = [2 + random.below(3) for _ in range(8)]
    return sizes, outcomes[: 1 + random.below(2)]


def random_values(sizes, places, random):
    """A value for each size; the sequence is asked for each of the places that there may be."""
    values = [random.below(size) for size in sizes + [0] * (places - len(sizes))]
    return tuple(values[: len(sizes)])


def random_log(sizes, targets, random):
    log = []
    for i in range(MOST_ROWS):
        earlier = random.below(i)
        again = random.below(4) == 0 and i > 0
        state = log[earlier][0] if again else random_values(sizes, 8, random)
        log.append((state, random_values(targets, 4, random)))
    return log[: random.below(MOST_ROWS + 1)]


def bits(sets):
    """A list of sets of values as one number, eight bits to a set, so that Python is quick enough."""
    return sum(1 << (8 * i + v) for i, values in enumerate(sets) for v in values)


def matches(rule, point):
    return rule & point == point


def optimal(rules, against):
    """The consistent rules that no other consistent rule contains."""
    consistent = [r for r in rules if not any(matches(r, p) for p in against)]
    return [r for r in consistent if not any(o != r and o | r == o for o in consistent)]


def best(rules, own, point):
    return max((sum(matches(r, p) for p in own) for r in rules if matches(r, point)), default=0)


def compare(conditions, random):
    """The number of heads, the can rules, the cannot rules and the percentages of all cases of a kind."""
    heads = can_rules = cannot_rules = percents = 0
    for _ in range(CASES):
        sizes, targets = random_shape(conditions, random)
        log = random_log(sizes, targets, random)
        rules = [bits(sets) for sets in product(*map(conditions, sizes))]
        for target, size in enumerate(targets):
            for value in range(size):
                point = bits([v] for v in random_values(sizes, 8, random))
                shown = {state for state, _ in log}
                told = {state for state, outcome in log if outcome[target] == value}
                told_points = [bits([v] for v in state) for state in told]
                other_points = [bits([v] for v in state) for state in shown - told]
                can = optimal(rules, other_points)
                cannot = optimal(rules, told_points)
                pro = best(can, told_points, point)
                contra = best(cannot, other_points, point)
                heads += 1
                can_rules += len(can)
                cannot_rules += len(cannot)
                percents += 100 * pro // (pro + contra) if pro + contra else 50
    return heads, can_rules, cannot_rules, percents


def main():
    random = Random(SEED)
    exact_heads, exact_can, exact_cannot, exact_percents = compare(exact, random)
    band_heads, band_can, band_cannot, band_percents = compare(band, random)
    lines = [
        ("exact can", exact_heads, exact_can, "rules"),
        ("exact cannot", exact_heads, exact_cannot, "rules"),
        ("band can", band_heads, band_can, "rules"),
        ("band cannot", band_heads, band_cannot, "rules"),
        (
            "listings in all",
            2 * (exact_heads + band_heads),
            exact_can + exact_cannot + band_can + band_cannot,
            "rules",
        ),
        ("exact forecasts", exact_heads, exact_percents, "percent added up"),
        ("band forecasts", band_heads, band_percents, "percent added up"),
    ]
    for what, asked, total, found in lines:
        print(f"{what}: {asked} asked, {asked} agree, {total} {found}")


main()
