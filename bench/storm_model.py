#!/usr/bin/env python3
"""A model of the rules without links of its own: how often networks do not come to rest after a partition, and what three sets of rules leave.

storm_model.py [RUNS]    RUNS networks a case (60), 32 cases for each set of rules

A network is a ring of 3 to 12 nodes, half of them with chords. Some nodes ask for the destination, which is then cut off; needs and links that
come and go follow. Then nothing changes any more. Packets take 1 to J ticks, and each link keeps their order. A run is not at rest if packets
are still in flight after 20,000 packets or 2,000 ticks. In a second draw of the same networks the destination comes back at the end. In a third
it is never cut off, and each node asks three more times at the end. `loops` are next hops that form a circle, `in loops` are nodes whose
next hops lead into one, and `no route` are nodes with a path to the destination whose next hops end elsewhere.

Rules `plain` are those of docs/explanation/tora.md. With `unreflected` a route is built only from heights whose reference level is not reflected
(r = 0), as the draft of TORA says. With `remembered` a clear withdraws its sender, and an update of the level that was erased last is ignored.

This is a sketch of the rules for experiments, separate from the product: nothing of it is proved, and its links lose nothing.
"""
import heapq
import random
import sys

D = 99
RULES = ("plain", "unreflected", "remembered")
MOST_PACKETS, MOST_TICKS = 20000, 2000


class View:
    """What a node knows of the destination, and what it does."""

    def __init__(self, me, rules):
        self.me, self.unreflected, self.keeps, self.gone = me, rules == "unreflected", rules == "remembered", None
        self.height, self.flag, self.entries, self.told, self.last = (self.zero() if me == D else None), False, {}, set(), 0

    @staticmethod
    def zero():
        return (0, 0, 0, 0, D)

    def known(self):
        return [it for it in self.entries.values() if it]

    def routes(self):
        """Heights that a route may be built from."""
        return [it for it in self.known() if not self.unreflected or it[2] == 0]

    def lower(self):
        return [it for it in self.known() if self.height is None or it < self.height]

    def hop(self):
        """The next hop: the neighbour with the least entry below the own height; NULL is above all heights."""
        below = [(it, k) for k, it in self.entries.items() if it and (self.height is None or it < self.height)]
        return min(below)[1] if below else None

    def tell(self):
        self.told = set(self.entries)
        return ("U", self.height)

    def join(self):
        tau, oid, r, delta, _ = min(self.routes())
        self.height, self.flag = (tau, oid, r, delta + 1, self.me), False
        return self.tell()

    def ask(self):
        self.flag = True
        return ("Q",)

    def withdraw(self, k):
        self.entries[k] = self.zero() if k == D else None

    def erase(self, tau, oid):
        self.height, self.gone = None, (tau, oid, 1)
        for k in self.entries:
            if k != D:
                self.entries[k] = None
        return ("C", tau, oid)

    def new_level(self, now):
        tau = max([now, 1, self.last + 1] + [1 + it[0] for it in self.known() + [self.height]])
        self.height, self.last = (tau, self.me, 0, 0, self.me), tau
        return self.tell()

    def lost(self, now):
        """The last downstream link may be lost, by a link."""
        if self.height is None or self.lower():
            return None
        if not self.known():
            self.height = None
            return None
        return self.new_level(now)

    def lost_by_update(self, now):
        levels = {it[:3] for it in self.known()}
        top = max(levels)
        if len(levels) > 1:
            self.height = top + (min(it[3] for it in self.known() if it[:3] == top) - 1, self.me)
        elif top[2] == 0:
            self.height = (top[0], top[1], 1, 0, self.me)
        elif top[1] == self.me:
            return self.erase(top[0], top[1])
        else:
            return self.new_level(now)
        return self.tell()

    def need(self):
        wanted = self.height is None if self.unreflected else True
        return self.ask() if wanted and not self.routes() and not self.flag else None

    def up(self, k):
        self.told.discard(k)
        self.withdraw(k)
        if self.me == D or not self.flag:
            return None
        return self.join() if k == D else ("Q",)

    def down(self, k, now):
        del self.entries[k]
        self.told.discard(k)
        return None if self.me == D else self.lost(now)

    def packet(self, k, packet, now):
        """Takes a packet of a neighbour; answers what is broadcast."""
        if self.me == D:
            return None
        if packet[0] == "Q":
            return self.query(k)
        if packet[0] == "U":
            return self.update(k, packet[1], now)
        return self.clear(k, packet[1], packet[2], now)

    def query(self, k):
        if self.height is not None:
            return self.tell() if k not in self.told else None
        if self.routes():
            return self.join()
        return None if self.flag else self.ask()

    def update(self, k, height, now):
        if self.keeps and height[:3] == self.gone:
            self.withdraw(k)
            return self.lost(now)
        self.entries[k] = height
        if self.flag:
            return self.join() if self.routes() else None
        return self.lost_by_update(now) if self.height is not None and not self.lower() else None

    def clear(self, k, tau, oid, now):
        level = (tau, oid, 1)
        if self.keeps:
            self.gone = level
            self.told.discard(k)
            self.withdraw(k)
        if self.height is not None and self.height[:3] == level:
            return self.erase(tau, oid)
        for other, it in self.entries.items():
            if it and it[:3] == level:
                self.withdraw(other)
        return self.lost(now)


class Net:
    """Nodes, links, and what is under way on them."""

    def __init__(self, draw, nodes, most, chords, rules):
        self.draw, self.most, self.now, self.count, self.sequence = draw, most, 0, 0, 0
        self.links = [(i, i % nodes + 1) for i in range(1, nodes + 1)]
        for _ in range(chords):
            a, b = draw.randint(1, nodes), draw.randint(1, nodes)
            if a != b and (a, b) not in self.links and (b, a) not in self.links:
                self.links.append((a, b))
        self.views = {i: View(i, rules) for i in [*range(1, nodes + 1), D]}
        self.live, self.queue, self.latest, self.life = set(), [], {}, {}

    def send(self, i, packet):
        for k in self.views[i].entries if packet else ():
            at = max(self.now + self.draw.randint(1, self.most), self.latest.get((i, k), 0))
            self.latest[i, k], self.sequence = at, self.sequence + 1
            heapq.heappush(self.queue, (at, self.sequence, i, k, packet, self.life.get(frozenset((i, k)), 0)))

    def up(self, a, b):
        self.live.add(frozenset((a, b)))
        self.send(a, self.views[a].up(b))
        self.send(b, self.views[b].up(a))

    def down(self, a, b):
        self.live.discard(frozenset((a, b)))
        self.life[frozenset((a, b))] = self.life.get(frozenset((a, b)), 0) + 1
        self.send(a, self.views[a].down(b, self.now))
        self.send(b, self.views[b].down(a, self.now))

    def need(self, i):
        self.send(i, self.views[i].need())

    def run(self, until):
        while self.queue and self.queue[0][0] <= until:
            self.now, _, i, k, packet, life = heapq.heappop(self.queue)
            link = frozenset((i, k))
            if link in self.live and self.life.get(link, 0) == life:
                self.count += 1
                self.send(k, self.views[k].packet(i, packet, self.now))
        self.now = until

    def settle(self):
        """Lets it go on; answers whether it comes to rest."""
        begin, first = self.now, self.count
        while self.queue and self.count - first < MOST_PACKETS and self.now < begin + MOST_TICKS:
            self.run(self.now + 1)
        return not self.queue

    def walk(self, i):
        """Where the next hops of a node lead: to the destination, to a node without one, or into a circle."""
        met = [i]
        while met[-1] != D:
            hop = self.views[met[-1]].hop()
            if hop is None:
                return "end", ()
            if hop in met:
                return "loop", frozenset(met[met.index(hop):])
            met.append(hop)
        return "route", ()


def driven(seed, nodes, most, chords, rules, is_cut=True):
    """A network whose destination was cut off, or was not, behind its last event."""
    draw = random.Random(seed)
    net = Net(draw, nodes, most, chords, rules)
    for a, b in net.links + [(1, D)]:
        net.up(a, b)
    for _ in range(draw.randint(1, 3)):
        net.need(draw.randint(1, nodes))
    net.run(net.now + draw.randint(0, 4 * nodes))
    if is_cut:
        net.down(1, D)
    for _ in range(6):
        net.run(net.now + draw.randint(0, 2 * nodes))
        if draw.random() < 0.5:
            net.need(draw.randint(1, nodes))
        else:
            a, b = draw.choice(net.links)
            (net.down if frozenset((a, b)) in net.live else net.up)(a, b)
    for a, b in net.links:
        if frozenset((a, b)) not in net.live:
            net.up(a, b)
    net.count = 0
    return net


def left(net, is_at_rest):
    """Of a network at rest its loops, the nodes that are led into one, and those whose next hops end at a node without one."""
    walks = [net.walk(i) for i in net.views if i != D] if is_at_rest else []
    rings = [ring for status, ring in walks if status == "loop"]
    return len(set(rings)), len(rings), sum(status == "end" for status, _ in walks)


def cut_off(*case):
    """Whether a network comes to rest that stays cut off, its packets, and what is left."""
    net = driven(*case)
    is_at_rest = net.settle()
    loops, in_loops, _ = left(net, is_at_rest)
    return is_at_rest, net.count, loops, in_loops, 0


def asked_again(net):
    """The same of a network whose destination is there, each node asking three times more."""
    is_at_rest = True
    for _ in range(3):
        for i in sorted(net.views):
            if i != D:
                net.need(i)
        is_at_rest = net.settle() and is_at_rest
    return is_at_rest, net.count, *left(net, is_at_rest)


def come_back(*case):
    """The same of one whose destination comes back."""
    net = driven(*case)
    net.up(1, D)
    return asked_again(net)


def stay(*case):
    """The same of one whose destination was never cut off."""
    return asked_again(driven(*case, is_cut=False))


def main():
    """Prints a line for each draw, set of rules and J."""
    words = sys.argv[1:]
    if words and (len(words) > 1 or not words[0].isdecimal()):
        print(__doc__.strip())
        return 0 if words in (["-h"], ["--help"]) else 2
    runs = int(words[0]) if words else 60
    print(f"{'destination':13}{'rules':13}{'J':3}{'runs':>6}{'not at rest':>13}{'most packets at rest':>22}{'loops':>7}{'in loops':>10}{'no route':>10}")
    for what, run in (("cut off", cut_off), ("comes back", come_back), ("stays", stay)):
        for rules in RULES:
            for most in (1, 2, 4, 8):
                cases = [
                    (s * 7919 + n * 31 + most + chords, n, most, chords, rules)
                    for n in (3, 5, 8, 12) for chords in (0, n // 2) for s in range(runs)
                ]
                found = [run(*case) for case in cases]
                endless, packets = sum(not it[0] for it in found), max((it[1] for it in found if it[0]), default=0)
                loops, in_loops, no_route = (sum(it[at] for it in found) for at in (2, 3, 4))
                print(f"{what:13}{rules:13}{most:<3}{len(found):6}{endless:13}{packets:22}{loops:7}{in_loops:10}{no_route:10}", flush=True)
    return 0


if __name__ == "__main__":
    sys.exit(main())
