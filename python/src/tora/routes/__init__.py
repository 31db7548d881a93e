"""The routes of a host by a node of TORA: the command `tora-routes`.

`configuration` reads a file of TOML, `lines` what a node prints, `table` says which routes the kernel should have,
`requests` when a route is asked for, `held` keeps packets until their route stands, and `packets` and `events` read
what the kernel tells. None of these touches the system. `kernel` (pyroute2, and `netlink` for what has to be quick),
`tunnel` (a TUN device), `guard` (a process that takes the routes away) and `daemon` do.
"""
