"""Rounds in which several programs, or several cases, are timed in turn, and the ratios of times of one round."""

import statistics


def in_turn(count, cases, run):
    """What each case gives in each round. What comes first in a round comes last in the next."""
    rounds = {case: [] for case in cases}
    for number in range(count):
        for case in cases if number % 2 else reversed(cases):
            rounds[case].append(run(case))
    return rounds


def ratio(above, below):
    """The ratio of two times of each round: its median, and the half of the rounds around it."""
    values = [over / under for over, under in zip(above, below)]
    low, middle, high = (
        statistics.quantiles(values, method="inclusive") if len(values) > 1 else values * 3
    )
    return f"{middle:.2f} ({low:.2f} to {high:.2f})"
