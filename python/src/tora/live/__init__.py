"""A comparison of `tora-routes` with other routing daemons on one machine, in network namespaces: `examples/live/run`.

`topologies` makes networks, `measures` works figures out of what was sent and received, `report` makes tables and
plots; none of these
touches the system. `hosts` (namespaces, cables, counters), `protocols` (the daemons), `traffic` (numbered packets) and
`experiment` do.
"""
