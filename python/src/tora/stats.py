"""Summaries of tables of runs: means and medians with intervals, comparisons in pairs, and corrections for many of them.

Every interval is one of 95 % over runs that are drawn independently. The methods are scipy's:

``bca``
    Bootstrap, bias-corrected and accelerated (`scipy.stats.bootstrap`; Efron, "Better Bootstrap Confidence Intervals", 1987). It takes no
    distribution and stays within what is possible. It takes five runs at least; with fewer than ten or so it is somewhat too narrow.
``order``
    Of a quantile, from one order statistic to another, by the binomial distribution (`scipy.stats.binom`; David and Nagaraja, "Order
    Statistics", 2003). It takes no distribution; of a median it takes six runs.
``student``
    Of a mean, by Student's t (`scipy.stats.t`). It is refused where a group's values are far from a normal distribution or where an end is
    impossible.

Quantiles are `numpy.quantile`'s by its rule ``linear``.
"""
from __future__ import annotations

import math
import warnings
from collections.abc import Sequence
from typing import Any, Final, NamedTuple

import numpy as np
import numpy.typing as npt
import scipy.stats

from tora.columns import Measure
from tora.errors import UsageError

CONFIDENCE = 0.95
TAIL = (1 - CONFIDENCE) / 2
QUANTILE_RULE: Final = "linear"
FEWEST = 5  # runs of a bootstrap
FEW = 10  # runs below which a bootstrap's interval is somewhat too narrow
RESAMPLES = 9999
SEED = 1  # of the bootstrap's and the test's random numbers
ALMOST = 1e-12  # differences that are rounding, as parts of the values

Floats = npt.NDArray[np.float64]


class Interval(NamedTuple):
    """A statistic and the ends of its interval, NaN where there is none."""

    value: float
    low: float
    high: float

    @property
    def is_there(self) -> bool:
        """Whether it has ends."""
        return math.isfinite(self.low)


def quantile(values: Floats | Sequence[float], share: float) -> float:
    """The quantile of some values by numpy's rule ``linear``: of 1 to 20 the 95 % point is 19.05."""
    with np.errstate(invalid="ignore"):
        found = float(np.quantile(np.asarray(values, dtype=float), share, method=QUANTILE_RULE))
    return math.inf if math.isnan(found) and not np.isnan(values).any() else found  # between two infinite values


def is_constant(values: Floats) -> bool:
    """Whether all values are equal up to rounding."""
    return bool(np.ptp(values) <= ALMOST * max(1.0, float(np.max(np.abs(values)))))


def bca_interval(values: Floats, statistic: str = "mean") -> Interval:
    """The mean or the median and its BCa interval.

    Parameters
    ----------
    values : array of float, shape (runs,)
    statistic : str
        ``mean`` or ``median``.

    Returns
    -------
    Interval
        Without ends for fewer than `FEWEST` values, or where all are equal.
    """
    rule: Any = np.mean if statistic == "mean" else np.median
    value = float(rule(values))
    if len(values) < FEWEST or is_constant(values):
        return Interval(value, math.nan, math.nan)
    with warnings.catch_warnings():
        warnings.simplefilter("ignore")  # a degenerate bootstrap answers nan
        found = scipy.stats.bootstrap(
            (values,), rule, confidence_level=CONFIDENCE, n_resamples=RESAMPLES, method="BCa", vectorized=True,
            random_state=np.random.default_rng(SEED),
        ).confidence_interval
    return Interval(value, float(found.low), float(found.high)) if math.isfinite(found.low + found.high) else Interval(value, math.nan, math.nan)


def places_of_quantile(count: int, share: float) -> tuple[int, int] | None:
    """The places, from 1, of the order statistics between which the quantile is with 95 % at least; None where there are none."""
    low = int(scipy.stats.binom.ppf(TAIL, count, share))
    high = int(scipy.stats.binom.ppf(1 - TAIL, count, share)) + 1
    return (low, high) if 1 <= low and high <= count else None


def order_interval(values: Floats, share: float = 0.5) -> Interval:
    """A quantile and its interval by order statistics; without ends where there are too few values."""
    places, ascending = places_of_quantile(len(values), share), np.sort(values)
    ends = (math.nan, math.nan) if places is None else (float(ascending[places[0] - 1]), float(ascending[places[1] - 1]))
    return Interval(quantile(values, share), *ends)


def student_interval(values: Floats) -> Interval:
    """The mean and its interval by Student's t; without ends for one value."""
    mean = float(np.mean(values))
    if len(values) < 2:
        return Interval(mean, math.nan, math.nan)
    half = float(scipy.stats.t.ppf(1 - TAIL, len(values) - 1) * scipy.stats.sem(values))
    return Interval(mean, mean - half, mean + half)


def interval_of(values: Floats, statistic: str, method: str) -> Interval:
    """A statistic (``mean``, ``median`` or ``q`` and a share, as ``q0.95``) and its interval by a method."""
    if len(values) == 0:
        return Interval(math.nan, math.nan, math.nan)
    if method == "student":
        return student_interval(values)
    if method == "bca":
        return bca_interval(values, statistic)
    return order_interval(values, share_of(statistic))


def share_of(statistic: str) -> float:
    """The share of a quantile: 0.5 of ``median``, 0.95 of ``q0.95``."""
    return 0.5 if statistic == "median" else float(statistic[1:])


def method_of(statistic: str, method: str | None) -> str:
    """The method of an interval, the usual one of the statistic by default; refuses one that the statistic does not have.

    Of a mean ``bca`` (usual) and ``student``, of a median ``order`` (usual) and ``bca``, of another quantile ``order``.
    """
    able = {"mean": ["bca", "student"], "median": ["order", "bca"]}.get(statistic, ["order"])
    if statistic not in ("mean", "median"):
        try:
            is_share = statistic.startswith("q") and 0 < float(statistic[1:]) < 1
        except ValueError:
            is_share = False
        if not is_share:
            raise UsageError(f"--statistic: `{statistic}` is not mean, median or a quantile as q0.95")
    if method is None:
        return able[0]
    if method not in able:
        raise UsageError(f"--interval: of a {statistic} the intervals are {' and '.join(able)}, not {method}")
    return method


def refuse_student(groups: Sequence[tuple[str, Floats]], measure: Measure) -> None:
    """Refuses Student's intervals of groups that are far from normal, or that have an end that is impossible.

    Parameters
    ----------
    groups : sequence of (str, array)
        What each group is, and its values.
    measure : Measure
        Its bounds are those that no end may pass.

    Notes
    -----
    Far from normal is a group by Shapiro and Wilk's test (`scipy.stats.shapiro`) at 5 %, corrected by Holm over the groups.
    """
    tested = [(name, values) for name, values in groups if len(values) >= 3]
    for name, values in tested:
        if is_constant(values):
            raise UsageError(f"--interval student: all values of {measure.name} are equal with {name}; use bca")
        _, low, high = student_interval(values)
        if low < measure.low or high > measure.high:
            raise UsageError(f"--interval student: an end of {measure.name} is beyond what is possible with {name}; use bca")
    for (name, _), p in zip(tested, holm([float(scipy.stats.shapiro(values).pvalue) for _, values in tested])):
        if p < 1 - CONFIDENCE:
            raise UsageError(f"--interval student: {measure.name} is not near a normal distribution with {name}; use bca")


def sign_flip(differences: Floats) -> float:
    """The p-value of differences in pairs against a mean of 0, for both sides.

    By `scipy.stats.permutation_test` of the pairs: it is exact where the signs of all differences can be gone through (13 pairs), else by
    9,999 draws. NaN for fewer than two pairs; 1 where all differences are 0.
    """
    if len(differences) < 2:
        return math.nan
    if is_constant(differences) and abs(float(differences[0])) <= ALMOST:
        return 1.0
    found = scipy.stats.permutation_test(
        (differences, np.zeros(len(differences))), _mean_of_pairs, permutation_type="samples", vectorized=True, n_resamples=RESAMPLES,
        alternative="two-sided", random_state=np.random.default_rng(SEED),
    )
    return min(1.0, float(found.pvalue))


def _mean_of_pairs(one: Floats, other: Floats, axis: int) -> Floats:
    """The mean difference of pairs, rounded so that orders of sums do not matter."""
    return np.asarray(np.round(np.mean(one - other, axis=axis), 12), dtype=float)


def holm(values: Sequence[float]) -> list[float]:
    """p-values corrected for their number (Holm, "A Simple Sequentially Rejective Multiple Test Procedure", 1979); NaN stays and does not count."""
    ascending = sorted((value, at) for at, value in enumerate(values) if not math.isnan(value))
    found, most = [math.nan] * len(values), 0.0
    for place, (value, at) in enumerate(ascending):
        most = max(most, min(1.0, (len(ascending) - place) * value))
        found[at] = most
    return found


class PowerLaw(NamedTuple):
    """y = factor * x^exponent, and the ends of the interval of the exponent."""

    factor: float
    exponent: float
    low: float
    high: float


def power_law(x: Floats, y: Floats) -> PowerLaw | None:
    """The power law that fits points above 0: the line of least squares through their logarithms (`scipy.stats.linregress`).

    The interval is that of the slope by Student's t with two degrees of freedom less than points. It takes logarithms that lie around the
    line by one normal distribution. None for fewer than three points, or for points over one x.
    """
    if len(x) < 3 or len(set(x)) < 2:
        return None
    found = scipy.stats.linregress(np.log(x), np.log(y))
    half = float(scipy.stats.t.ppf(1 - TAIL, len(x) - 2) * found.stderr)
    if abs(found.intercept) > 700:  # the factor is no number
        return None
    return PowerLaw(math.exp(found.intercept), float(found.slope), float(found.slope) - half, float(found.slope) + half)
