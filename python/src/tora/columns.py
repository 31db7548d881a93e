"""The columns of tables of runs: which make up the design of a study, and what the measures are.

A table has a row for each run. The columns of its *design* say what was set, `seed` distinguishes repetitions, and all
others are *measures*. Two kinds of tables are known: a study's, and the ns-3 comparison's. Of any other table the design has to be
named.
"""
from __future__ import annotations

import dataclasses
import math
from collections.abc import Iterable

SEED = "seed"

STUDY_DESIGN = (
    "nodes rounds hello_ticks silence_ticks retry_ticks tries destinations flows model speed_least speed_most pause width height range "
    "degree limit sample need_rounds settle alpha mean_speed speed_deviation direction_deviation interval blocks acceleration "
    "safety_distance edge_loss version erasure loss delay_least delay_most repeat channel_seed notice until packets_a_second hop_ticks ttl"
).split()
COMPARISON_DESIGN = "protocol nodes speed flows".split()
REST_DESIGN = "erasure nodes delay_most".split()

#: The units of columns of a design, for the axis of a plot.
UNITS = {
    **dict.fromkeys("speed speed_least speed_most mean_speed speed_deviation".split(), "m/s"),
    **dict.fromkeys("width height range safety_distance".split(), "m"),
    **dict.fromkeys("pause settle interval".split(), "s"),
    **dict.fromkeys("hello_ticks silence_ticks retry_ticks hop_ticks".split(), "ticks of 100 ms"),
    **dict.fromkeys("delay_least delay_most".split(), "rounds of 100 ms"),
    "acceleration": "m/s²",
}

#: Columns that say which file a run had: neither design nor measure.
IDENTITIES = ("channel_file",)


@dataclasses.dataclass(frozen=True)
class Measure:
    """What a column of measures is.

    Attributes
    ----------
    name : str
    label : str
        For the axis of a plot, with the unit.
    low, high : float
        The least and the greatest value that is possible; infinite where there is none.
    """

    name: str
    label: str
    low: float = 0.0
    high: float = math.inf


def _shares(names: str, label: str) -> list[Measure]:
    """Measures from 0 to 1."""
    return [Measure(name, label.format(name), 0.0, 1.0) for name in names.split()]


def _counts(names: str, label: str) -> list[Measure]:
    """Measures of 0 or more."""
    return [Measure(name, label.format(name.replace("_", " "))) for name in names.split()]


MEASURES = {
    measure.name: measure
    for measure in [
        *_shares("contact_kept", "share of contact time kept"),
        *_shares("connected", "share of rounds and flows with a path"),
        *_shares("available", "share of rounds with a path: route works"),
        *_shares("stale no_hop looping", "share of rounds with a path: {}"),
        *_shares("unavailable", "share in which the route does not work"),
        *_shares("delivery_ratio delivery", "data packets delivered / sent"),
        *_shares("delivery_reachable", "packets delivered, of those with a path as sent"),
        *_shares("at_rest", "share of runs that are known to be at rest at their end"),
        Measure("stretch_mean", "hops / shortest, mean", 1.0),
        Measure("stretch_95", "hops / shortest, 95 in 100", 1.0),
        Measure("stretch_most", "hops / shortest, most", 1.0),
        Measure("stretch", "hops / shortest as sent"),
        Measure("hops_mean", "hops of a route that works, mean"),
        Measure("hops", "hops of packets that arrived, mean"),
        Measure("delivered_hops_mean", "hops of packets delivered, mean"),
        Measure("degree_mean", "links not parted of a node, mean"),
        Measure("restore_median", "break to route: rounds (100 ms), median"),
        Measure("restore_95", "break to route: rounds (100 ms), 95 in 100"),
        Measure("restore_most", "break to route: rounds (100 ms), most"),
        Measure("heal_median", "path to route: rounds (100 ms), median"),
        Measure("heal_95", "path to route: rounds (100 ms), 95 in 100"),
        Measure("delay_median", "half of the delays are below"),
        Measure("delay_95", "95 % of the delays are below"),
        Measure("control", "QRY, UPD and CLR broadcast in a run"),
        Measure("control_per_node", "QRY, UPD and CLR broadcast by a node"),
        Measure("control_per_delivered", "QRY, UPD and CLR by packets delivered"),
        Measure("control_copies_per_delivered", "copies of QRY, UPD and CLR by packets delivered"),
        Measure("rounds_lost_by_outage", "rounds without a route, by an outage"),
        Measure("datagrams", "datagrams that link ends send in a run"),
        Measure("query", "QRY broadcast in a run"),
        Measure("update", "UPD broadcast in a run"),
        Measure("clear", "CLR broadcast in a run"),
        Measure("control_rate", "control, KB/s of all nodes"),
        Measure("control_bytes", "control bytes of a run"),
        Measure("control_most", "most control bytes in any second"),
        Measure("control_packets", "control packets of a run"),
        Measure("bytes_per_packet", "control bytes / packet delivered"),
        Measure("packets_per_packet", "control packets / packet delivered"),
        Measure("rest_ticks", "time to rest, ticks (100 ms)"),
        *_counts(
            "links_met links_declared most_met left_out breaks outages outages_by_break restored healed open_outages loops "
            "loops_without_height loop_rounds loop_longest loop_nodes query_copies update_copies clear_copies hello data acknowledgement "
            "undelivered links_up links_down sent delivered lost_no_hop lost_parted lost_loop lost_ttl under_way "
            "control_after_change query_after_change update_after_change clear_after_change loops_at_rest dead_ends_at_rest",
            "{} of a run",
        ),
        *_counts(
            "reachable received came_back late ack lost_radio lost_arp lost_no_route lost_came_back lost_late lost_other", "{} of a run"
        ),
    ]
}


def measure_of(name: str) -> Measure:
    """What a column is; one that is not known has no bounds, and its name for a label."""
    return MEASURES.get(name, Measure(name, name, -math.inf))


def design_of(names: Iterable[str]) -> list[str] | None:
    """The columns of the design of a table that is known, in the order of the table, else None.

    A table of a study has `nodes`, `rounds` and `silence_ticks`; one of the ns-3 comparison has `protocol`, `speed` and `control_rate`; one
    of times to rest has `erasure` and `rest_ticks`. A known table may have no column that is neither of the design nor a known measure.
    """
    held = list(names)
    kinds = (
        ({"nodes", "rounds", "silence_ticks"}, STUDY_DESIGN),
        ({"protocol", "speed", "control_rate"}, COMPARISON_DESIGN),
        ({"erasure", "rest_ticks"}, REST_DESIGN),
    )
    for marks, design in kinds:
        if marks.issubset(held):
            known = {*design, SEED, *IDENTITIES, *MEASURES}
            return [name for name in held if name in design] if known.issuperset(held) else None
    return None


def strangers(names: Iterable[str]) -> list[str]:
    """The columns that no known table has."""
    known = {*STUDY_DESIGN, *COMPARISON_DESIGN, *REST_DESIGN, SEED, *IDENTITIES, *MEASURES}
    return [name for name in names if name not in known]
