#!/usr/bin/env bash
# SPDX-FileCopyrightText: 2026 the Ginavoru authors
# SPDX-License-Identifier: GPL-2.0-only
# Two programs with one simulated node each, in network namespaces with a wire between them: the first sends 40 packets to the second.
# usage: examples/emulation.sh PROGRAM       (PROGRAM is tora-emulation; it needs root and the package iproute2)
set -eu
program=$(realpath "${1:?usage: emulation.sh PROGRAM}")
one=tora-em-$$-1 two=tora-em-$$-2
work=$(mktemp -d)
trap 'ip netns delete $one; ip netns delete $two; rm -rf "$work"' EXIT
ip netns add $one
ip netns add $two
ip link add wire netns $one type veth peer name wire netns $two
for name in $one $two; do
  ip -n $name link set wire up
done
ip netns exec $two "$program" --device=wire --address=10.9.9.2 --others=10.9.9.1 --seconds=22 >"$work/two" &
ip netns exec $one "$program" --device=wire --address=10.9.9.1 --others=10.9.9.2 --to=10.9.9.2 >"$work/one"
wait $!
cat "$work/one" "$work/two"
grep -qx 'received 40' "$work/two"
