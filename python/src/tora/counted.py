"""Statistics of values that are counted, not listed: a mapping from each value to its count."""
from __future__ import annotations

import itertools
import statistics
from collections.abc import Mapping

QUANTILE_RULE = "inverted_cdf"  # of `numpy.quantile`: the least value that at least so large a share does not exceed


def value_at(counts: Mapping[float, int], place: int) -> float:
    """The value at a place, from 0, among all values in ascending order."""
    values = sorted(counts)
    for value, end in zip(values, itertools.accumulate(counts[value] for value in values)):
        if place < end:
            return value
    raise IndexError("there is no value at this place")


def median_of(counts: Mapping[float, int]) -> float:
    """The median, as `statistics.median` has it: of an even number the mean of the two in the middle."""
    total = sum(counts.values())
    high = value_at(counts, total // 2)
    return high if total % 2 else (value_at(counts, total // 2 - 1) + high) / 2


def share_95_of(counts: Mapping[float, int]) -> float:
    """The value that 95 in 100 do not exceed: `numpy.quantile` of 0.95 by the method `inverted_cdf`."""
    total = sum(counts.values())
    return value_at(counts, -(-total * 95 // 100) - 1)


def mean_of(counts: Mapping[float, int]) -> float:
    """The mean, as `statistics.fmean` has it with the counts as weights."""
    return statistics.fmean(counts, list(counts.values()))
