"""Which routes the kernel should have, and what has to be done so that it has them."""
from __future__ import annotations

import dataclasses
from collections.abc import Iterable, Mapping

from tora.routes.configuration import LAST_METRIC, Address, Configuration, Network


@dataclasses.dataclass(frozen=True)
class Route:
    """A route: where to, at which interface, by which address, from which address, and how it is preferred (a lower
    metric first)."""

    prefix: Network
    interface: str
    metric: int
    via: Address | None = None
    source: Address | None = None

    @property
    def place(self) -> Place:
        """What only one route of a table has."""
        return (self.prefix, self.metric)

    def __str__(self) -> str:
        """The route as `ip route` prints it."""
        via = f" via {self.via}" if self.via else ""
        source = f" src {self.source}" if self.source else ""
        return f"{self.prefix}{via} dev {self.interface}{source} metric {self.metric}"


Place = tuple[Network, int]
Routes = dict[Place, Route]


def found_routes(held: Configuration, hops: Mapping[int, int | None], usable: Iterable[str]) -> Routes:
    """The routes by the next hops of the node.

    Parameters
    ----------
    held : Configuration
    hops : mapping
        By the destination the next hop, None for none.
    usable : names
        The interfaces that are up and have a carrier: a route by another one leads nowhere.
    """
    able = set(usable)
    found: Routes = {}
    for destination, prefixes in held.prefixes.items():
        hop = hops.get(destination)
        neighbour = None if hop is None else held.neighbours.get(hop)
        if neighbour is None or neighbour.interface not in able:
            continue
        for prefix in prefixes:
            via = neighbour.via_of(prefix.version)
            if via is not None:
                route = Route(prefix, neighbour.interface, held.metric, via, held.source_of(prefix.version))
                found[route.place] = route
    return found


def last_routes(held: Configuration) -> Routes:
    """The routes into the TUN device, which a packet takes where there is no other."""
    routes = [
        Route(prefix, held.device, LAST_METRIC, None, held.source_of(prefix.version))
        for prefixes in held.prefixes.values()
        for prefix in prefixes
    ]
    return {it.place: it for it in routes}


def changes(before: Mapping[Place, Route], after: Mapping[Place, Route]) -> tuple[list[Route], list[Route]]:
    """What leads from one state to the other: the routes to set, each in place of one that may be there, and those to
    take away."""
    to_set = [route for place, route in after.items() if before.get(place) != route]
    return to_set, [route for place, route in before.items() if place not in after]
