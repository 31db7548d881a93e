"""Intervals, tests and corrections, by tables in print, by hand, and by an independent computation."""
from __future__ import annotations

import itertools
import math
import random
import statistics

import numpy as np
import pytest

from tora import stats
from tora.columns import Measure
from tora.errors import UsageError

# Degrees of freedom and the quantile of Student's t for 95 %, as every table of it has them.
STUDENT = {1: 12.706, 2: 4.303, 3: 3.182, 4: 2.776, 9: 2.262, 10: 2.228, 19: 2.093, 30: 2.042, 120: 1.980}
# Numbers of runs and the places of the interval of a median (Le Boudec 2010, table A.1).
PLACES = {5: None, 6: (1, 6), 8: (1, 8), 9: (2, 8), 10: (2, 9), 20: (6, 15), 30: (10, 21), 70: (27, 44)}
SKEWED = [0.3, 0.9, 0.2, 4.1, 0.5, 0.1, 1.7, 0.4, 0.8, 7.5, 0.6, 0.2]


def bca_by_hand(values: list[float], draws: int) -> tuple[float, float]:
    """Efron's BCa interval of a mean, with the standard library alone."""
    normal, source = statistics.NormalDist(), random.Random(7)
    mean, count = statistics.fmean(values), len(values)
    means = sorted(statistics.fmean(source.choices(values, k=count)) for _ in range(draws))
    below = sum(it < mean for it in means) + sum(it == mean for it in means) / 2
    bias = normal.inv_cdf(below / draws)
    without = [(mean * count - value) / (count - 1) for value in values]
    middle = statistics.fmean(without)
    acceleration = sum((middle - it) ** 3 for it in without) / (6 * sum((middle - it) ** 2 for it in without) ** 1.5)
    ends = []
    for share in (0.025, 0.975):
        z = bias + normal.inv_cdf(share)
        ends.append(means[round(normal.cdf(bias + z / (1 - acceleration * z)) * draws) - 1])
    return ends[0], ends[1]


def test_bca_is_that_of_an_independent_computation() -> None:
    """The ends are those of a computation of its own, within the noise of the draws."""
    found, (low, high) = stats.bca_interval(np.array(SKEWED)), bca_by_hand(SKEWED, 40_000)
    assert found.value == pytest.approx(statistics.fmean(SKEWED))
    assert found.low == pytest.approx(low, abs=0.03)
    assert found.high == pytest.approx(high, abs=0.12)


def test_bca_stays_within_what_is_possible() -> None:
    """Of deliveries near 1 and of a skewed delay, where Student's interval passes 1 and 0."""
    delivery, delay = np.array([1, 1, 1, 0.99, 0.7]), np.array([1.2, 1.0, 1.1, 0.9, 396.0])
    assert stats.student_interval(delivery).high > 1 and stats.student_interval(delay).low < 0
    assert delivery.min() <= stats.bca_interval(delivery).low < stats.bca_interval(delivery).high <= 1
    assert 0.9 <= stats.bca_interval(delay).low < stats.bca_interval(delay).high <= 396


def test_no_interval() -> None:
    """Fewer than five runs, or runs that are all equal, have none."""
    for values in ([1.0, 2, 3, 4], [0.7] * 10, [0.1 + 0.2, 0.3, 0.3, 0.3, 0.3]):
        assert not stats.bca_interval(np.array(values)).is_there
    assert math.isnan(stats.interval_of(np.array([]), "mean", "bca").value)


def test_student_by_tables() -> None:
    """The half of the interval by the standard error is the quantile in print."""
    for degrees, wanted in STUDENT.items():
        values = np.arange(degrees + 1, dtype=float)
        error = statistics.stdev(values) / math.sqrt(degrees + 1)
        mean, low, high = stats.student_interval(values)
        assert (high - mean) / error == pytest.approx(wanted, abs=0.0006)
        assert mean - low == pytest.approx(high - mean)
    assert stats.student_interval(np.array([1.0, 2, 3])).high == pytest.approx(2 + 2.4841, abs=1e-3)
    assert not stats.student_interval(np.array([7.0])).is_there


def test_order_statistics_by_tables() -> None:
    """The places of a median's interval, and of ten values from the second to the ninth."""
    assert {count: stats.places_of_quantile(count, 0.5) for count in PLACES} == PLACES
    assert stats.order_interval(np.array([9.0, 1, 8, 2, 7, 3, 6, 4, 5, 10])) == (5.5, 2, 9)
    assert not stats.order_interval(np.array([3.0, 1, 2])).is_there


def test_order_statistics_cover() -> None:
    """Between the places the quantile is with 95 % or more, by the sum of the binomial distribution."""
    for count, share in ((20, 0.5), (100, 0.95), (80, 0.1)):
        places = stats.places_of_quantile(count, share)
        assert places is not None
        inside = sum(math.comb(count, k) * share**k * (1 - share) ** (count - k) for k in range(places[0], places[1]))
        assert inside >= 0.95
    assert stats.places_of_quantile(20, 0.95) is None


def test_quantile_rule() -> None:
    """By the rule `linear` the point p of n values is at 1 + p (n - 1): 19.05 of 20, and 95.05 of 100."""
    assert stats.quantile(list(range(1, 21)), 0.95) == pytest.approx(19.05)
    assert stats.quantile(list(range(1, 101)), 0.95) == pytest.approx(95.05)
    assert stats.QUANTILE_RULE == "linear"


def test_holm() -> None:
    """The example of R's `p.adjust`: by four, three, two and one, and never falling; NaN does not count."""
    assert stats.holm([0.01, 0.04, 0.03, 0.005]) == pytest.approx([0.03, 0.06, 0.06, 0.02])
    found = stats.holm([0.5, math.nan, 0.9])
    assert found[0] == pytest.approx(1.0) and math.isnan(found[1]) and found[2] == pytest.approx(1.0)
    assert stats.holm([]) == []


@pytest.mark.parametrize("values", [[1.0, 2, 3, 4, 5], [-1.0, 2, 3], [1.0, 2, -3], [0.5, 0.5, 0.25, -0.125, 2, 0]])
def test_sign_flip_by_hand(values: list[float]) -> None:
    """All signs of the differences are gone through; a side is doubled."""
    sums = [sum(sign * value for sign, value in zip(signs, values)) for signs in itertools.product((1, -1), repeat=len(values))]
    tail = min(sum(it >= sum(values) for it in sums), sum(it <= sum(values) for it in sums)) / len(sums)
    assert stats.sign_flip(np.array(values)) == pytest.approx(min(1, 2 * tail))


def test_sign_flip_of_nothing() -> None:
    """Equal runs don't differ, and one pair tells nothing."""
    assert stats.sign_flip(np.zeros(6)) == 1
    assert math.isnan(stats.sign_flip(np.array([3.0])))


def test_student_is_refused() -> None:
    """Where an end is impossible, where values are equal, and where they are far from normal; near normal ones are taken."""
    share = Measure("delivery", "", 0, 1)
    normal = np.array([0.41, 0.52, 0.47, 0.55, 0.5, 0.49, 0.45, 0.53, 0.51, 0.57])
    stats.refuse_student([("speed=5", normal)], share)
    for values, cause in (([1, 1, 1, 0.9], "beyond what is possible"), ([0.5] * 4, "are equal"), ([0.5] * 18 + [0.2, 0.1], "not near a normal")):
        with pytest.raises(UsageError, match=cause):
            stats.refuse_student([("speed=5", normal), ("speed=10", np.array(values))], share)


def test_methods() -> None:
    """What intervals a statistic has."""
    assert [stats.method_of(it, None) for it in ("mean", "median", "q0.95")] == ["bca", "order", "order"]
    for statistic, method in (("mean", "order"), ("median", "student"), ("q0.9", "bca"), ("q1", None), ("mode", None), ("qx", None)):
        with pytest.raises(UsageError):
            stats.method_of(statistic, method)


def test_power_law() -> None:
    """Points of a power law; and logarithms 0, 1, 3 over 0, 1, 2: slope 3/2, squares of the rest 1/6, t of one degree."""
    for factor, exponent in ((3, 1.5), (0.01, -2), (7, 0)):
        x = np.array([50.0, 100, 100, 200, 400])
        assert stats.power_law(x, factor * x**exponent) == pytest.approx((factor, exponent, exponent, exponent), abs=1e-9)
    fit = stats.power_law(np.array([1, math.e, math.e**2]), np.array([1, math.e, math.e**3]))
    assert fit is not None
    assert fit.exponent == pytest.approx(1.5) and fit.factor == pytest.approx(math.exp(-1 / 6))
    assert fit.high - 1.5 == pytest.approx(12.706 * math.sqrt(1 / 12), abs=1e-3)
    assert 1.5 - fit.low == pytest.approx(fit.high - 1.5)
    assert stats.power_law(np.array([1.0, 2]), np.array([1.0, 2])) is None
    assert stats.power_law(np.array([5.0, 5, 5]), np.array([1.0, 2, 3])) is None
