#!/usr/bin/python3
"""Checks the pages of stored runs in a headless Chromium; check-page.sh makes the pages and calls this script.

  check_page.py --browser PATH --driver PATH [--picture FILE] [--shot PAGE] [--figures PAGE] DIR
"""
import argparse
import collections
import pathlib
import sys

sys.path.insert(0, str(pathlib.Path(__file__).resolve().parents[1] / "python" / "src"))

from page_browser import Browser, figures  # noqa: E402
from tora.heights import breaks, ordered, stale_hops  # noqa: E402
from tora.route_measures import WORKS, follow, live_loops  # noqa: E402
from tora.run import Run  # noqa: E402
from tora.scenario import Scenario  # noqa: E402
from tora.trace import Trace  # noqa: E402
from tora.world import moments  # noqa: E402

STORED = pathlib.Path(__file__).resolve().parents[1] / "python" / "tests" / "stored"
NULL = (None, None)


class Fold:
    """Heights and next hops at any moment: the `route` records of a trace, taken one after the other."""

    def __init__(self, trace):
        """Before the first record."""
        self.routes = [record for record in trace.records() if record.kind == "route"]
        self.now, self.at = {}, 0

    def until(self, clock):
        """Takes the records up to a clock."""
        while self.at < len(self.routes) and self.routes[self.at].clock <= clock:
            record = self.routes[self.at]
            self.now[record.words[0], record.words[1]] = record.words[2:]
            self.at += 1
        return self

    def of(self, node, destination):
        """Height and next hop of a node for a destination."""
        return self.now.get((node, destination), ((0, 0, 0, 0, destination), None) if node == destination else NULL)


class Checks:
    """Counts what is as it has to be, and tells what is not."""

    def __init__(self):
        """None yet."""
        self.passed = self.failed = 0

    def same(self, what, found, wanted):
        """What is found has to be what is wanted."""
        if found == wanted:
            self.passed += 1
        else:
            self.failed += 1
            print(f"check-page: {what}: {found}, not {wanted}", file=sys.stderr)

    def holds(self, what, found):
        """Something has to hold."""
        self.same(what, bool(found), True)


def check_hops(checks, page, trace, nodes, destinations, rounds):
    """The next hops that are drawn, and the table of heights, are those of the fold of the trace at these rounds."""
    page.js("document.getElementById('table-part').open = true")
    for destination in destinations:
        page.choose("destination", str(destination))
        fold = Fold(trace)
        for clock in rounds:
            fold.until(clock)
            page.go(clock)
            wanted = {node: fold.of(node, destination) for node in nodes}
            drawn = page.js("return tora.stage.drawn.hops")
            checks.same(f"{trace.path} next hops to {destination} drawn in round {clock}",
                        sorted((a, b) for a, b, _ in drawn), sorted((node, hop) for node, (_, hop) in wanted.items() if hop))
            told = page.js("return [...document.querySelectorAll('#table tr')].slice(1).map((row) => [...row.cells].map((cell) => cell.textContent))")
            text = {str(node): "-" if height is None else str(height).replace(" ", "") for node, (height, _) in wanted.items()}
            checks.same(f"{trace.path} heights for {destination} told in round {clock}", {row[0]: row[1] for row in told}, text)
    page.js("document.getElementById('table-part').open = false")


def told_rounds(scenario, trace, destination):
    """Yields for each round how each link is at its end, and how many copies of packets each node broadcast in it."""
    up, parted, sent, now = set(), set(), collections.Counter(), 1

    def picture():
        kinds = []
        for a, b in scenario.links:
            ends = ((a, b) in up) + ((b, a) in up)
            kinds.append([a, b, ("parted, held up" if ends else "parted") if (a, b) in parted else ("none", "one", "both")[ends]])
        copies = sorted([*key, count] for key, count in sent.items() if count)
        sent.clear()
        return kinds, copies

    for record, of in zip(trace.records(), trace.rounds().tolist(), strict=True):
        while now < of:
            yield picture()
            now += 1
        kind, words = record.kind, record.words
        if kind in ("up", "down"):
            (up.add if kind == "up" else up.discard)(words[:2])
        elif kind in ("part", "mend"):
            (parted.add if kind == "part" else parted.discard)(ordered(*words))
        elif kind in ("qry", "upd", "clr") and words[1] == destination:
            sent[kind, words[0]] += words[2]
    while now <= scenario.rounds:
        yield picture()
        now += 1


def check_links(checks, page, scenario, trace):
    """Links and packets that are drawn are those that the trace tells, in every round."""
    page.click("all-links")
    for destination in scenario.destinations:
        page.choose("destination", str(destination))
        found = page.js("""const found = [];
            for (let round = 1; round <= tora.film.last; round++) {
              tora.time.go(round); tora.draw();
              const sent = new Map(), {links, packets} = tora.stage.drawn;
              for (const [kind, node] of packets) sent.set(`${kind} ${node}`, (sent.get(`${kind} ${node}`) ?? 0) + 1);
              found.push([links, [...sent].map(([key, count]) => [key.split(" ")[0], Number(key.split(" ")[1]), count])]);
            }
            return found""")
        wanted = list(told_rounds(scenario, trace, destination))
        checks.same(f"{trace.path} links drawn", [links for links, _ in found], [links for links, _ in wanted])
        checks.same(f"{trace.path} packets for {destination} drawn", [sorted(sent) for _, sent in found], [sent for _, sent in wanted])
    page.click("all-links")


def check_every_round(checks, page, scenario, trace):
    """Stale hops, loops, shares and breaks of every round are those of the package."""
    for destination in scenario.destinations:
        page.choose("destination", str(destination))
        flows, shares, kinds, loops = [flow for flow in scenario.flows if flow[1] == destination], [], [], []
        for clock, world in moments(scenario, trace):
            hops = world.hops[destination]
            shares.append(sum(follow(hops, world.near, *flow)[0] == WORKS for flow in flows) / len(flows))
            looping = {node for ring in live_loops(hops, world.near, hops) for node in ring}
            loops += [clock] if looping else []
            stale = {node for node, _ in stale_hops(world, destination)}
            kinds.append(sorted([node, "stale" if node in stale else "loop" if node in looping else "works"] for node, hop in hops.items() if hop))
        found = page.js("""const found = [];
            for (let round = 1; round <= tora.film.last; round++) {
              tora.time.go(round); tora.draw(); found.push(tora.stage.drawn.hops.map(([node, , kind]) => [node, kind]));
            }
            return found""")
        checks.same(f"{trace.path} kinds of next hops to {destination}", [sorted(each) for each in found], kinds)
        told = page.js("const {works} = tora.summary; return [...works].slice(1).map((sum, at) => sum - works[at])")
        checks.holds(f"{trace.path} shares of routes to {destination}", all(abs(a - b) < 1e-9 for a, b in zip(told, shares, strict=True)))
        checks.same(f"{trace.path} rounds with a loop, to {destination}", page.js("return tora.summary.loops"), loops)
        checks.same(f"{trace.path} breaks of routes to {destination}", page.js("return tora.summary.breaks"),
                    [found.round for found in breaks(Run(scenario, trace), destination)])
    checks.same(f"{trace.path} entries that make another next hop", page.js("""let others = 0; const {run, film, world, ask} = tora;
        for (let d = 0; d < run.destinations.length; d++) for (let node = 0; node < run.count; node++)
          for (let round = 0; round <= film.last; round++) { film.seek(world, film.ends[round]); if (!ask.agrees(node, d, world)) others++; }
        return others"""), 0)


def check_steps(checks, page):
    """Buttons and keys that go through time."""
    ends = page.js("return tora.film.ends")
    found = page.js("return tora.summary.breaks")
    for what, before, act, wanted in (
        ("+ round", 10, lambda: page.click("on"), 11), ("- round", 10, lambda: page.click("back"), 9),
        ("right arrow", 10, lambda: page.key("RIGHT"), 11), ("left arrow", 10, lambda: page.key("LEFT"), 9),
        ("Home", 10, lambda: page.key("HOME"), 0), ("End", 10, lambda: page.key("END"), len(ends) - 1),
        ("first", 10, lambda: page.click("first"), 0), ("end", 10, lambda: page.click("end"), len(ends) - 1),
        ("]", 10, lambda: page.key("]"), found[0]), ("[", found[2], lambda: page.key("["), found[1]),
        ("next break", found[0], lambda: page.click("next-break"), found[1]),
        ("last break", found[1], lambda: page.click("last-break"), found[0]),
    ):
        page.go(before)
        act()
        checks.same(what, page.js("return tora.time.now"), wanted)
        checks.same(f"{what}: the slider", page.js("tora.draw(); return Number(document.getElementById('slider').value)"), wanted)
    for what, act, by in (
        ("+ event", lambda: page.click("event-on"), 1), ("- event", lambda: page.click("event-back"), -1),
        ("shift and right arrow", lambda: page.key("RIGHT", shift=True), 1), ("shift and left arrow", lambda: page.key("LEFT", shift=True), -1),
    ):
        page.go(found[0])
        page.js("tora.time.event(-1)")
        # records that count datagrams are passed over; they are the last kind
        wanted = page.js("""const {kind} = tora.film.records, by = arguments[0];
            let at = tora.time.count - 1 + by; while (kind[at] === 9) at += by; return at + 1""".replace("arguments[0]", str(by)))
        act()
        checks.same(what, page.js("return tora.time.count"), wanted)
        checks.holds(f"{what}: what is told", page.js("tora.draw(); return tora.ask.tell(tora.time.record)") in page.text("told"))
    page.js("const slider = document.getElementById('slider'); slider.value = 42; slider.dispatchEvent(new Event('input'))")
    checks.same("slider", page.js("return tora.time.now"), 42)
    page.click_at("chart", *page.js(f"return [tora.strip.xOf({found[1]}) + 2, tora.strip.floor + 4 + tora.strip.lane / 2]"))
    checks.same("a click at a break in the chart", page.js("return tora.time.now"), found[1])
    page.click_at("chart", *page.js("return [tora.strip.xOf(200) - 0.5, 20]"))
    checks.same("a click in the chart", page.js("return tora.time.now"), 200)


def check_play(checks, page):
    """Play, pause and speed."""
    for what, act in (("the button", lambda: page.click("play")), ("space", lambda: page.key(" "))):
        page.go(5)
        page.choose("speed", "20")
        act()
        page.wait(1)
        checks.holds(f"{what} plays", page.js("return tora.time.isPlaying && tora.time.now > 8"))
        checks.same(f"{what}: the word", page.js("return document.getElementById('play').textContent"), "pause")
        act()
        now = page.js("return tora.time.now")
        page.wait(0.3)
        checks.same(f"{what} pauses", page.js("return [tora.time.isPlaying, tora.time.now]"), [False, now])
    page.click("on")
    page.key(" ", is_anywhere=True)
    checks.same("space plays where a button has the focus", page.js("return tora.time.isPlaying"), True)
    page.js("tora.time.pause()")
    advances = []
    for speed in ("2", "50"):
        page.go(5)
        page.choose("speed", speed)
        page.js("tora.time.play()")
        page.wait(1)
        page.js("tora.time.pause()")
        advances.append(page.js("return tora.time.now - 5"))
    checks.holds(f"speed: {advances}", advances[0] < 4 and advances[1] > 15)
    page.go(page.js("return tora.film.last - 2"))
    page.js("tora.time.play()")
    page.wait(0.8)
    checks.same("it stops at the end", page.js("return [tora.time.isPlaying, tora.time.now]"), [False, page.js("return tora.film.last")])


def check_asking(checks, page):
    """Clicks on nodes and links, lists that jump, flows."""
    page.choose("destination", "1")
    page.go(121)
    page.click_at("picture", *page.js("return tora.stage.points[tora.run.nodeAt.get(7)]"))
    text = page.text("answer")
    checks.holds(f"a click on node 7: {text[:60]}", text.startswith("Node 7, round 121") and "Entries for 1" in text)
    record = page.js("const button = document.querySelectorAll('#answer .list button')[5]; button.click(); return Number(button.dataset.record)")
    checks.same("a record of the list", page.js("return [tora.time.count, tora.time.record]"), [record + 1, record])
    page.go(121)
    page.click_at("picture", *page.js("""const [a, b] = [4, 7].map((id) => tora.stage.points[tora.run.nodeAt.get(id)]);
        return [0.6 * a[0] + 0.4 * b[0], 0.6 * a[1] + 0.4 * b[1]]"""))
    text = page.text("answer")
    checks.holds(f"a click on link 4-7: {text[:60]}", text.startswith("Link 4-7: not parted, up at 4, up at 7") and "{1, 1}" in text)
    page.choose("node", "3")
    checks.holds("the choice of a node", page.text("answer").startswith("Node 3"))
    page.choose("link", "1-2")
    checks.holds("the choice of a link", page.text("answer").startswith("Link 1-2: parted"))
    page.choose("flow", "7 to 1")
    text = page.text("walk")
    checks.holds(f"a stale flow: {text}", "7 to 1: 7 > 4 > 3" in text and "is stale: the link 3-4 is parted, and node 4 has not noticed" in text)
    page.go(161)
    checks.holds("a flow that loops", "loops: it comes back to node" in page.text("walk"))
    page.choose("flow", "2 to 6")
    checks.same("a flow chooses its destination", page.js("return tora.run.destinations[tora.destination]"), 6)
    page.js("location.hash = 'round=60&destination=1&node=4'")
    page.wait(0.3)
    checks.same("the address", page.js("return [tora.time.now, tora.destination, tora.run.nodes[tora.node]]"), [60, 0, 4])


def check_looks(checks, page):
    """What is shown, colours, size of the text, and narrow windows."""
    page.choose("destination", "1")
    page.go(1)
    for box, what in (("all-packets", "packets"), ("all-links", "links")):
        before = page.js(f"return tora.stage.drawn.{what}.length")
        page.click(box)
        checks.holds(f"{box} draws more", page.js(f"tora.draw(); return tora.stage.drawn.{what}.length") > before)
        page.click(box)
    for text, wanted in (("whole", "(0,0,0,0,1)"), ("delta", "0"), ("none", None)):
        page.choose("labels", text)
        labels = page.js("tora.draw(); return tora.stage.drawn.labels")
        checks.holds(f"heights {text}: {labels}", wanted in labels if wanted else not labels)
    grounds = []
    for _ in range(3):
        page.click("theme")
        grounds.append(page.js("return getComputedStyle(document.body).backgroundColor"))
    checks.holds(f"colours: {grounds}", grounds[0] != grounds[1] == grounds[2])
    sizes = [page.js("return parseFloat(getComputedStyle(document.documentElement).fontSize)")]
    for name in ("larger", "larger", "smaller", "smaller"):
        page.click(name)
        sizes.append(page.js("return parseFloat(getComputedStyle(document.documentElement).fontSize)"))
    checks.holds(f"size of the text: {sizes}", sizes[0] < sizes[1] < sizes[2] > sizes[3] and abs(sizes[4] - sizes[0]) < 0.1)
    for width, height in ((1280, 720), (420, 800)):
        page.size(width, height)
        page.wait(0.3)
        checks.holds(f"{width} x {height}: nothing stands beside the window", page.js("return document.documentElement.scrollWidth <= innerWidth"))
        checks.holds(f"{width} x {height}: the picture has room", page.js("return tora.stage.canvas.clientHeight") >= 250)
    page.size(1280, 720)
    page.wait(0.3)
    bottom = page.js("return document.getElementById('controls').getBoundingClientRect().bottom")
    checks.holds("the controls stand in the window", bottom <= 720)


def check_all(options):
    """Every check; answers how many failed."""
    checks = Checks()
    with Browser(options.browser, options.driver) as page:
        for name in ("8-2", "7-9"):
            page.open(f"{options.folder}/{name}.html")
            scenario, trace = Scenario.read(STORED / f"{name}.json"), Trace.read(STORED / f"{name}.trace")
            rounds = [0, 1, 2, *range(10, scenario.rounds, 30), scenario.rounds]
            check_hops(checks, page, trace, range(1, scenario.nodes + 1), scenario.destinations, rounds)
            check_every_round(checks, page, scenario, trace)
            check_links(checks, page, scenario, trace)
        page.choose("destination", "1")
        check_steps(checks, page)
        check_play(checks, page)
        check_asking(checks, page)
        check_looks(checks, page)
        if options.picture:
            page.open(f"{options.folder}/7-9.html#round=121&destination=1&flow=7-1&node=4")
            page.picture(options.picture)
        page.open(f"{options.folder}/6-1.html")
        check_hops(checks, page, Trace.read(STORED / "6-1.trace"), range(1, 7), [3, 6], [0, 1, 100, 291])
        checks.same("the console", page.complaints, [])
    print(f"{checks.passed} passed, {checks.failed} failed")
    return checks.failed


def main():
    """Runs the checks, keeps a picture, or takes figures."""
    parser = argparse.ArgumentParser(description=__doc__, formatter_class=argparse.RawDescriptionHelpFormatter)
    parser.add_argument("--browser", required=True, help="the program chromium")
    parser.add_argument("--driver", required=True, help="the program chromedriver")
    parser.add_argument("--picture", metavar="FILE", help="keep a picture of a page")
    parser.add_argument("--shot", metavar="PAGE", help="keep a picture of this page in place of the checks")
    parser.add_argument("--figures", metavar="PAGE", help="take the figures of this page in place of the checks")
    parser.add_argument("folder", metavar="DIR", help="where the pages are")
    options = parser.parse_args()
    if options.shot:
        if not options.picture:
            parser.error("--shot needs --picture")
        with Browser(options.browser, options.driver) as page:
            page.size(1000, 620)
            page.open(options.shot)
            page.picture(options.picture)
        return 0
    if options.figures:
        figures(options.browser, options.driver, options.figures)
        return 0
    return int(bool(check_all(options)))


if __name__ == "__main__":
    sys.exit(main())
