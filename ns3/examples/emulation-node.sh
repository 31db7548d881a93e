#!/usr/bin/env bash
# SPDX-FileCopyrightText: 2026 the Ginavoru authors
# SPDX-License-Identifier: GPL-2.0-only
# Three nodes on a line, each in a network namespace: the ends are simulated, one program each, and the middle is a
# program `tora node`, whose kernel forwards. The first sends 40 packets to the last; what `tora node` says is printed.
# `tora node` asks for a key on a link that leaves the loopback, and the module has no keys. So the node's links end on
# the loopback, and a relay carries their datagrams between there and the wires.
# usage: examples/emulation-node.sh PROGRAM TORA
#        PROGRAM is tora-emulation, TORA the program tora; it needs root, python3, and the packages iproute2 and ethtool
set -eu
usage='usage: emulation-node.sh PROGRAM TORA'
program=$(realpath "${1:?$usage}") tora=$(realpath "${2:?$usage}")
for it in ip ethtool python3; do
  command -v $it >/dev/null || { echo "emulation-node: $it is missing" >&2; exit 2; }
done
first=tora-em-$$-1 last=tora-em-$$-2 middle=tora-em-$$-3
work=$(mktemp -d)
relay='' node=''
end() {
  exec 3>&- || true
  [ -z "$relay" ] || kill "$relay" 2>/dev/null || true
  [ -z "$node" ] || wait "$node" 2>/dev/null || true
  for name in $first $last $middle; do ip netns delete "$name" 2>/dev/null || true; done
  rm -rf "$work"
}
trap end EXIT
# The numbers of the nodes are their addresses: 10.9.9.1, 10.9.9.2 and, in the middle, 10.9.9.3.
one=168364289 two=168364290 three=168364291

for name in $first $last $middle; do
  ip netns add $name
  ip -n $name link set lo up
done
for side in "$first wire1 10.9.9.1" "$last wire2 10.9.9.2"; do
  read -r name wire address <<<"$side"
  ip link add wire netns "$name" type veth peer name "$wire" netns $middle
  ip -n "$name" link set wire up
  ip -n $middle address add 10.9.9.3/32 dev "$wire"
  ip -n $middle link set "$wire" up
  ip -n $middle route add "$address/32" dev "$wire" src 10.9.9.3
  # Without this the kernel leaves the checksums of what it sends to a device that the wire does not have.
  ip netns exec $middle ethtool -K "$wire" tx off >/dev/null
done
ip netns exec $middle sh -c 'echo 1 >/proc/sys/net/ipv4/ip_forward'

cat >"$work/relay.py" <<'END'
"""Carries datagrams between port 5047 of 10.9.9.3 and ports 7001, 7002 of the loopback, where the node's links end."""
import selectors
import socket


def bound(address):
    it = socket.socket(socket.AF_INET, socket.SOCK_DGRAM)
    it.bind(address)
    return it


wires = bound(("10.9.9.3", 5047))
links = {f"10.9.9.{n}": bound(("127.0.0.1", 7100 + n)) for n in (1, 2)}
ready = selectors.DefaultSelector()
for it in wires, *links.values():
    ready.register(it, selectors.EVENT_READ)
while True:
    for key, _ in ready.select():
        try:
            datagram, (sender, _) = key.fileobj.recvfrom(2048)
            if key.fileobj is not wires:
                wires.sendto(datagram, (next(at for at, it in links.items() if it is key.fileobj), 5047))
            elif sender in links:
                links[sender].sendto(datagram, ("127.0.0.1", 7000 + int(sender[-1])))
        except ConnectionRefusedError:
            pass  # the node is not up
END
cat >"$work/node.toml" <<END
node = $three
dests = [$one, $two, $three]
life_dir = "life"
erasure = "remembered"

[[link]]
peer = $one
local = 7001
remote = 7101

[[link]]
peer = $two
local = 7002
remote = 7102
END
cd "$work"
mkfifo commands
ip netns exec $middle python3 relay.py &
relay=$!
ip netns exec $middle "$tora" node --log warn node.toml <commands >node.out 2>node.log &
node=$!
exec 3>commands
echo watch >&3
run() {
  ip netns exec "$1" "$program" --device=wire --address="$2" --others="$3,10.9.9.3" --programs=10.9.9.3 "${@:4}"
}
run $last 10.9.9.2 10.9.9.1 --seconds=22 >two &
run $first 10.9.9.1 10.9.9.2 --to=10.9.9.2 >one
wait $!
echo quit >&3
wait $node
node=''
cat one two node.out node.log
grep -qx 'received 40' two
grep -q "^10.9.9.2  *10.9.9.3  *1" one
