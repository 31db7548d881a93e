"""Steps of a small world as a simulation file, by which each core takes the same inputs in the same order."""
from __future__ import annotations

from small_world import NOW, World


class SimulationFile:
    """The lines of a file, for `tora sim --notice`.

    A packet waits in the queue out of its sender's core until it is to arrive, and is acknowledged at once. So a frame
    has one packet, and no other frame is under way.
    """

    def __init__(self, first: World, links: list[tuple[int, int]]) -> None:
        """Writes a world whose links are down, at the tick of all inputs."""
        self.world, self.frames = first, 0
        self.lines = [f"dests {first.destination}", *(f"link {a} {b}" for a, b in links)]
        self.lines += [f"erasure {n} {first.erasure.name.lower()}" for n in sorted({n for pair in links for n in pair})]
        self.lines += ["tick"] * NOW

    def _frame(self, a: str, b: str) -> None:
        """Node a sends the frame that is due to b, and it arrives."""
        self.frames += 1
        self.lines += [f"transmit {a} {b}", f"deliver {self.frames}"]

    def _inputs(self, *links: tuple[str, str]) -> None:
        """The core of each node n takes what its link to k tells."""
        self.lines += [line for n, k in links for line in (f"pump {n} {k}", f"turn {n}")]

    def follow(self, step: str) -> None:
        """Writes a step from the last state on."""
        match step.split():
            case ["need", n]:
                self.lines += [f"need {n} {self.world.destination}", f"turn {n}"]
            case ["deliver", a, b, *_]:
                self.lines.append(f"pull {a} {b}")
                self._frame(a, b)
                self._frame(b, a)  # the acknowledgement
                self._inputs((b, a))
            case ["cut", a, b]:
                for n, k in (a, b), (b, a):  # what waits goes to the link, which loses it
                    self.lines += [f"pull {n} {k}"] * len(self.world.queues.get((int(n), int(k)), ()))
                self.lines.append(f"part {a} {b}")
                self._inputs((a, b), (b, a))
            case ["mend", a, b]:
                self.lines += [f"mend {a} {b}", f"open {a} {b}", f"open {b} {a}"]
                for n, k in (a, b), (b, a), (a, b):  # three HELLOs open a link
                    self._frame(n, k)
                self._inputs((a, b), (b, a))
        self.world = self.world.after(step)
