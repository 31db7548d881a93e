"""Places for the nodes of a run without motion: by force, or by hand from a file."""
from __future__ import annotations

from collections.abc import Sequence

import numpy as np
import numpy.typing as npt

from tora.errors import StudyError, shown
from tora.files import Path, reading

Pair = tuple[int, int]
Places = npt.NDArray[np.float64]

TURNS = 300
LEAST = 100.0  # metres that linked nodes are apart, about
MOST = 1e6  # metres of a place by hand


def places_by_force(nodes: Sequence[int], links: Sequence[Pair]) -> Places:
    """Places of nodes (Fruchterman and Reingold 1991): all push each other, linked ones pull.

    Returns
    -------
    array of float, shape (nodes, 2)
        Metres. The same links give the same places.
    """
    count = len(nodes)
    at = {node: place for place, node in enumerate(nodes)}
    ends = np.array([(at[a], at[b]) for a, b in links], dtype=np.int64).reshape(-1, 2)
    turn = 2 * np.pi * np.arange(count) / count
    places: Places = LEAST * max(count, 3) / (2 * np.pi) * np.column_stack([np.cos(turn), 0.9 * np.sin(turn)])
    for step in range(TURNS):
        forces = _forces(places, ends)
        length = np.maximum(np.hypot(forces[:, 0], forces[:, 1]), 1e-9)
        places = places + forces * np.minimum(LEAST * (1 - step / TURNS) * 0.5 / length, 0.2)[:, None]
    return places


def _forces(places: Places, ends: npt.NDArray[np.int64]) -> Places:
    """The forces on nodes: apart, the stronger the nearer they are; linked ones together, the stronger the farther; all to the middle."""
    away = places[:, None, :] - places[None, :, :]
    square = np.maximum((away**2).sum(axis=2), 0.01)
    np.fill_diagonal(square, np.inf)
    forces: Places = (away * (LEAST**2 / square)[:, :, None]).sum(axis=1) - 0.05 * places
    along = places[ends[:, 0]] - places[ends[:, 1]]
    pull = along * (np.hypot(along[:, 0], along[:, 1]) / LEAST)[:, None]
    np.add.at(forces, ends[:, 0], -pull)
    np.add.at(forces, ends[:, 1], pull)
    return forces


def places_by_hand(path: Path, nodes: Sequence[int]) -> Places:
    """Places of nodes from a file: a line ``NODE X Y`` for each, ``#`` before a comment, metres, Y growing upwards.

    Raises
    ------
    StudyError
        Where a line is none, a node is not of the run, has a place already or has none; with the line.
    """
    found: dict[int, list[float]] = {}
    with reading(path, "utf-8-sig") as source:
        for number, line in enumerate(source, 1):
            words = line.split("#")[0].split()
            if words:
                node, place = _place(path, number, words, nodes)
                if node in found:
                    raise StudyError(f"node {node} has a place already", file=path, line=number)
                found[node] = place
    missing = [node for node in nodes if node not in found]
    if missing:
        raise StudyError(f"there is no place of node {missing[0]}", file=path)
    return np.array([found[node] for node in nodes])


def _place(path: Path, number: int, words: list[str], nodes: Sequence[int]) -> tuple[int, list[float]]:
    """The node and the place of a line."""
    if len(words) != 3:
        raise StudyError(f"{len(words)} words, not NODE X Y", file=path, line=number)
    if not (words[0].isascii() and words[0].isdecimal() and len(words[0]) <= 10 and int(words[0]) in nodes):
        raise StudyError(f"`{shown(words[0])}` is no node of the run", file=path, line=number)
    try:
        place = [float(word) for word in words[1:]]
    except ValueError:
        raise StudyError("X or Y is no number", file=path, line=number) from None
    if not all(abs(it) <= MOST for it in place):
        raise StudyError(f"a place is not -{MOST:g} to {MOST:g} metres", file=path, line=number)
    return int(words[0]), place
