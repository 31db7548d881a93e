"""A run: a scenario, and the trace of its simulation."""
from __future__ import annotations

import shutil
import weakref
from typing import TYPE_CHECKING

import pandas as pd

from tora import metrics
from tora.files import Path
from tora.metrics import Load, Measures
from tora.trace import Trace

if TYPE_CHECKING:
    from tora.scenario import Scenario


class Run:
    """A scenario and its trace.

    Attributes
    ----------
    scenario : Scenario
        Up to the last round of the run.
    trace : Trace
    version : str
        The version that the program reports; empty if it is not known.
    output : str
        The text that the program printed.
    """

    def __init__(
        self, scenario: Scenario, trace: Trace, *, version: str = "", output: str = "",
        folder: str | None = None,
    ) -> None:
        """A run of a scenario and a trace of it; another trace is refused, as by `Trace.check`.

        A `folder` is deleted together with the run.
        """
        self.scenario, self.trace, self.version, self.output = trace.check(scenario), trace, version, output
        if folder is not None:
            weakref.finalize(self, shutil.rmtree, folder, ignore_errors=True)

    @classmethod
    def read(cls, scenario: Path, trace: Path, *, version: str = "") -> Run:
        """The run of two files, ``PREFIX.json`` and a trace.

        Raises
        ------
        StudyError
            If one of the files is at fault, with the line or the key, or if the trace belongs to another scenario.
        """
        from tora.scenario import Scenario

        return cls(Scenario.read(scenario), Trace.read(trace), version=version)

    def routes(self) -> pd.DataFrame:
        """Changes of next hops; see `tora.Trace.routes`."""
        return self.trace.routes()

    def heights(self) -> pd.DataFrame:
        """Changes of heights; see `tora.Trace.heights`."""
        return self.trace.heights()

    def links(self) -> pd.DataFrame:
        """What happened to links; see `tora.Trace.links`."""
        return self.trace.links()

    def packets(self) -> pd.DataFrame:
        """Control packets that were broadcast; see `tora.Trace.packets`."""
        return self.trace.packets()

    def measure(
        self, traffic: float | str | None = None, *, hop: int | None = None, ttl: int | None = None
    ) -> Measures:
        """Measures of the run; see `tora.metrics`.

        Parameters
        ----------
        traffic : float or str, optional
            Data packets that each flow sends a second.
        hop, ttl : int, optional
            Of data packets: ticks of a hop (1), and the greatest number of hops (32).
        """
        return metrics.measure(self.scenario, self.trace, Load.asked(traffic, hop, ttl), self.version)

    def time_to_rest(self) -> pd.DataFrame:
        """When the control packets of each destination ended; see `tora.metrics.time_to_rest`."""
        return metrics.time_to_rest(self.scenario, self.trace)
