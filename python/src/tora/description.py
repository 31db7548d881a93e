"""The description of a scenario, the file ``PREFIX.json``: how it is written and read.

`scenario.schema.json` has its form.
"""
from __future__ import annotations

import functools
import importlib.resources
import itertools
import json
from collections.abc import Iterable, Iterator, Sequence
from typing import TYPE_CHECKING, Any

import numpy as np

from tora import bounds
from tora.errors import StudyError, shown
from tora.files import reading
from tora.parameters import TEXTS
from tora.reading import without_collection

if TYPE_CHECKING:
    from tora.scenario import Scenario

MOST_CAUSE = 120  # characters of what a validator says
ORDER = (
    "seed", "nodes", "range", "rounds", "sample", "limit", "times", "destinations", "flows", "links", "contact_kept",
    "links_met", "most_met",
    "most_at_once", "breaks", "left_out", "positions", "parameters",
)
Fault = tuple[str, str]  # a path in the file, and what is wrong there


def description_text(scenario: Scenario) -> str:
    """The text of the description of a scenario."""
    told = {name: getattr(scenario, name) for name in ORDER} | {"positions": scenario.positions.tolist()}
    told |= {"large": True} if scenario.large else {}
    told |= {} if scenario.digest is None else {"digest": scenario.digest}
    parts = [f" {json.dumps(name)}: {json.dumps(value, separators=(',', ':'))}" for name, value in told.items()]
    return "{\n" + ",\n".join(parts) + "\n}\n"


def read_description(path: str) -> dict[str, Any]:
    """The fields of the scenario of a file, by name.

    Raises
    ------
    StudyError
        With the line where the file is no JSON, and else with the path of the first fault, as ``links[3][1]``.
    """
    with without_collection():
        told = _read_json(path)
    for where, cause in faults_of(told):
        raise StudyError(f"no scenario: {cause}", file=path, key=where or None)
    found = {name: told[name] for name in ORDER[:-1]} | {"parameters": told.get("parameters", {})}
    for name in ("times", "destinations", "left_out"):
        found[name] = tuple(told[name])
    for name in ("flows", "links"):
        found[name] = tuple((a, b) for a, b in told[name])
    positions = np.array(told["positions"], np.float64)
    return found | {"positions": positions, "large": told.get("large", False), "digest": told.get("digest")}


def faults_of(told: Any) -> Iterator[Fault]:
    """Yields the faults of a description that was read: those by the schema, and then those between its parts."""
    positions = told.get("positions") if isinstance(told, dict) else None
    has_positions = isinstance(positions, list) and bool(positions)
    # a validator takes a minute for the positions of an hour
    short = told | {"positions": [[]]} if has_positions else told
    errors = sorted(validator().iter_errors(short), key=lambda error: [str(part) for part in error.absolute_path])
    yield from map(_fault_of, errors)
    if isinstance(positions, list):
        yield from _position_faults(positions)
    if errors:
        return
    for check in (_link_faults, _name_faults, _size_faults):
        yield from check(told)


@functools.cache
def schema() -> dict[str, Any]:
    """The schema of a description."""
    found: dict[str, Any] = json.loads(
        importlib.resources.files("tora").joinpath("scenario.schema.json").read_text("utf-8")
    )
    return found


@functools.cache
def validator() -> Any:
    """A validator of the schema, to which 1.0 is no whole number."""
    import jsonschema  # only what reads a description needs it

    base = jsonschema.Draft202012Validator
    checker = base.TYPE_CHECKER.redefine(
        "integer", lambda _, value: isinstance(value, int) and not isinstance(value, bool)
    )
    return jsonschema.validators.extend(base, type_checker=checker)(schema())


def path_text(parts: Iterable[str | int]) -> str:
    """A path in a file, as ``links[3][1]``."""
    return "".join([f"[{part}]" if isinstance(part, int) else f".{part}" for part in parts]).lstrip(".")


def _read_json(path: str) -> Any:
    """The value of a file of JSON."""
    def once(pairs: Sequence[tuple[str, Any]]) -> dict[str, Any]:
        """An object none of whose keys is repeated."""
        found = dict(pairs)
        if len(found) < len(pairs):
            twice = next(name for at, (name, _) in enumerate(pairs) if name in dict(pairs[:at]))
            raise StudyError("no scenario: the key is repeated", file=path, key=shown(twice))
        return found

    def constant(text: str) -> Any:
        """A word that is a number only in JavaScript."""
        raise StudyError(f"no scenario: {text} is no number of JSON", file=path)

    try:
        with reading(path, "utf-8-sig", "strict") as source:
            return json.load(source, object_pairs_hook=once, parse_constant=constant)
    except json.JSONDecodeError as cause:
        raise StudyError(cause.msg, file=path, line=cause.lineno) from None
    except UnicodeDecodeError:
        raise StudyError("no text", file=path) from None
    except RecursionError:
        raise StudyError("no scenario: it is nested too deeply", file=path) from None
    except ValueError:
        raise StudyError("no scenario: a number has too many digits", file=path) from None


def _fault_of(error: Any) -> Fault:
    """A fault that the validator reports."""
    path = list(error.absolute_path)
    if error.validator == "uniqueItems":
        texts = [json.dumps(item) for item in error.instance]
        twice = next(at for at, text in enumerate(texts) if text in texts[:at])
        return path_text([*path, twice]), f"{shown(texts[twice])} is repeated"
    told = str(error.message)
    return path_text(path), told if len(told) <= MOST_CAUSE else f"it is not as the schema has it ({error.validator})"


def _position_faults(positions: list[Any]) -> Iterator[Fault]:
    """Yields the first fault of positions by the schema."""
    if _are_places(positions):
        return
    places = validator().evolve(schema=schema()["properties"]["positions"]["items"])
    for at, sample in enumerate(positions):
        for error in places.iter_errors(sample):
            where, cause = _fault_of(error)
            yield f"positions[{at}]{where}", cause
            return


def _are_places(positions: list[Any]) -> bool:
    """Whether positions are lists of lists of two numbers within bounds.

    It says the same as the schema, and takes a hundredth of the time.
    """
    if not set(map(type, positions)) <= {list}:
        return False
    places = list(itertools.chain.from_iterable(positions))
    if not (set(map(type, places)) <= {list} and set(map(len, places)) <= {2}):
        return False
    numbers = list(itertools.chain.from_iterable(places))
    is_number = set(map(type, numbers)) <= {int, float}
    most = bounds.MOST_METRES
    return is_number and max(numbers, default=0) <= most and min(numbers, default=0) >= -most


def _link_faults(told: dict[str, Any]) -> Iterator[Fault]:
    """Yields faults of links: pairs of nodes, the lower one first, and no more of a node than the limit."""
    degree: dict[int, int] = {}
    for at, (a, b) in enumerate(told["links"]):
        if max(a, b) > told["nodes"]:
            yield f"links[{at}]", f"{max(a, b)} is no node; there are {told['nodes']}"
        elif a >= b:
            yield f"links[{at}]", f"the lower node of [{a}, {b}] is not first"
        for node in (a, b):
            degree[node] = degree.get(node, 0) + 1
            if degree[node] == told["limit"] + 1:
                yield f"links[{at}]", f"node {node} has more links than the limit, {told['limit']}"


def _name_faults(told: dict[str, Any]) -> Iterator[Fault]:
    """Yields faults of destinations, flows, nodes without a link, and parameters."""
    linked, destinations = {node for link in told["links"] for node in link}, set(told["destinations"])
    for at, node in enumerate(told["destinations"]):
        if node not in linked:
            yield f"destinations[{at}]", f"{node} is no node with a link"
    for at, (source, destination) in enumerate(told["flows"]):
        if source not in linked:
            yield f"flows[{at}][0]", f"{source} is no node with a link"
        elif destination not in destinations:
            yield f"flows[{at}][1]", f"{destination} is no destination"
        elif source == destination:
            yield f"flows[{at}]", "the source is the destination"
    for at, node in enumerate(told["left_out"]):
        if node > told["nodes"] or node in linked:
            yield f"left_out[{at}]", f"{node} is no node without a link"
    for name, value in told.get("parameters", {}).items():
        if isinstance(value, str) and value and name not in TEXTS:
            yield f"parameters.{name}", f"`{shown(value)}` is no number"


def _size_faults(told: dict[str, Any]) -> Iterator[Fault]:
    """Yields faults of sizes: positions of all nodes in all samples, and what a world has that is not large."""
    if len(told["positions"]) * told["sample"] < told["rounds"]:
        yield "positions", f"{len(told['positions'])} samples are too few for {told['rounds']} rounds"
    for at, places in enumerate(told["positions"]):
        if len(places) != told["nodes"]:
            yield f"positions[{at}]", f"{len(places)} places, and there are {told['nodes']} nodes"
            break
    for name, most in (("nodes", bounds.MOST_NODES), ("limit", bounds.MOST_NEIGHBOURS)):
        if told[name] > most and not told.get("large", False):
            yield name, f"{told[name]} is above {most}, and the scenario is not large"


