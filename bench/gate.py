#!/usr/bin/env python3
"""Runs the merge gate, `rt ci`, on a clean clone, and reports its time and memory by crate.

Only committed files are run. The table, in Markdown, is also printed if the gate fails or is interrupted by Ctrl-C or SIGTERM.

Every half second the processes below `rt ci` are read from /proc. Processor time is user and system time, to the end of each
process. A process belongs to the crate that its command line names, and to one of

  proof   the check or the build of the crate from nothing, its layout, and a program's compilers and linker
  tests   the check of the crate together with its tests, and their compiler and linker
  edits   the must-fail edits, with the check that the crate is proved over the folder in which they share their work
  run     the runs of the program and of the tests

The rest of the time of the whole run is `rt` itself, and processes that began and ended between two readings. The time of a task
runs from the start of its first process to the end of its last one. Memory is resident size, in which pages that
two processes share count twice.
"""
import argparse
import os
import re
import resource
import shutil
import signal
import subprocess
import sys
import tempfile
import threading
import time

PARTS = ("proof", "tests", "edits", "run")
STEP = 0.5
TICK = os.sysconf("SC_CLK_TCK")
PAGE = os.sysconf("SC_PAGE_SIZE")


def read(path):
    """The bytes of a file in /proc, or none where the process is gone."""
    try:
        with open(path, "rb") as it:
            return it.read()
    except OSError:
        return b""


class Process:
    """A process as /proc has it: parent, start (seconds since the machine's), processor seconds of its own and of what it waited for."""

    def __init__(self, number, stat):
        fields = stat[stat.rindex(b")") + 2 :].split()
        self.number, self.parent = number, int(fields[1])
        self.used = sum(int(it) for it in fields[11:15]) / TICK
        self.waited = sum(int(it) for it in fields[13:15]) / TICK
        self.start = int(fields[19]) / TICK
        self.resident = int(fields[21]) * PAGE


def processes():
    """Every process of the machine by its number."""
    found = {}
    for name in os.listdir("/proc"):
        if name.isdigit():
            stat = read(f"/proc/{name}/stat")
            if stat:
                found[int(name)] = Process(int(name), stat)
    return found


def below(found, top):
    """The numbers of each child of a process, each with all that stand below it."""
    children = {}
    for it in found.values():
        children.setdefault(it.parent, []).append(it.number)
    trees = {}
    for child in children.get(top, []):
        tree, rest = [], [child]
        while rest:
            at = rest.pop()
            tree.append(at)
            rest += children.get(at, [])
        trees[child] = tree
    return trees


def pair_of(number, crates):
    """The crate and the part that a child of `rt ci` works for, by its command line, or None."""
    words = read(f"/proc/{number}/cmdline").decode(errors="replace").split("\0")[:-1]
    try:
        folder = os.readlink(f"/proc/{number}/cwd")
    except OSError:
        folder = ""
    if "--crate-name" in words[:-1]:
        crate = words[words.index("--crate-name") + 1]
        if os.path.basename(folder).startswith("rt-edit-"):
            return crate, "edits"
        return crate, "tests" if "--test" in words else "proof"
    if os.path.basename(os.path.dirname(folder)).startswith("rt-run-") or any("/rt-run-" in it for it in words):
        name = os.path.basename(next((it for it in words if "/rt-run-" in it), ""))
        crate = name.removesuffix("_tests")
        return (crate, "run") if crate in crates else None
    # the linker, the list of what a program calls, the layout
    places = [folder, *words]
    crate = next((it[1] for it in (re.search(r"/crates/(\w+)(/|$)", place) for place in places) if it and it[1] in crates), None)
    made = any(re.search(r"out/\w+_tests(\.|$)", it) for it in words)
    return (crate, "tests" if made else "proof") if crate else None


class Tally:
    """What was seen of the run so far."""

    def __init__(self, top, crates):
        self.top, self.crates = top, crates
        self.used, self.begin, self.end, self.largest = {}, {}, {}, {}
        self.living, self.waited, self.peak = {}, 0.0, 0

    def look(self):
        """Reads the processes once."""
        found = processes()
        if self.top not in found:
            return
        now = time.clock_gettime(time.CLOCK_BOOTTIME)
        trees = below(found, self.top)
        living = {}
        for child, tree in trees.items():
            known = self.living.get(child)
            pair = pair_of(child, self.crates) or (known[0] if known else None)
            if pair is None:
                continue
            used = sum(found[it].used for it in tree)
            living[child] = pair, used
            self.begin[pair] = min(self.begin.get(pair, now), found[child].start)
            self.end[pair] = now
            for it in tree:
                most = re.search(rb"VmHWM:\s+(\d+)", read(f"/proc/{it}/status"))
                if most:
                    self.largest[pair] = max(self.largest.get(pair, 0), 1024 * int(most[1]))
        resident = found[self.top].resident + sum(found[it].resident for tree in trees.values() for it in tree)
        self.peak = max(self.peak, resident)
        # what the ended ones used since they were seen last is what the top waited for beyond what was seen of them
        ended = [it for child, it in self.living.items() if child not in living]
        if ended:
            more = found[self.top].waited - self.waited - sum(used for _, used in ended)
            for pair, used in ended:
                self.used[pair] = self.used.get(pair, 0.0) + used + max(more, 0.0) / len(ended)
        self.living, self.waited = living, found[self.top].waited

    def close(self):
        """Counts those that were still there at the end."""
        for pair, used in self.living.values():
            self.used[pair] = self.used.get(pair, 0.0) + used
        self.living = {}


def crates_of(folder):
    """The names in crates.txt, in its order."""
    with open(f"{folder}/crates.txt", encoding="utf-8") as it:
        return [line.split(":")[0].split()[0] for line in it if ":" in line and not line.lstrip().startswith("#")]


def memory_of_machine():
    return 1024 * int(re.search(rb"MemTotal:\s+(\d+)", read("/proc/meminfo"))[1])


def gigabytes(number):
    return f"{number / 1e9:.1f} GB"


def minutes(seconds):
    return f"{seconds / 60:.2f}"


def table(tally, crates, edits, whole):
    """The lines of the table: processor minutes of each part, the time that each took, and the largest process."""
    rows = [["crate", "proof", "tests", "edits", "number", "run", "all", "proof takes", "tests take", "edits take", "largest process"]]
    rows.append(["---"] + ["---:"] * (len(rows[0]) - 1))
    used = lambda crate, part: tally.used.get((crate, part))
    told = lambda seconds: "-" if seconds is None else minutes(seconds)
    for crate in crates:
        if not any((crate, part) in tally.begin for part in PARTS):
            continue
        row = [f"`{crate}`", *(told(used(crate, part)) for part in PARTS)]
        row.insert(4, str(edits.get(crate, 0)))
        row.append(minutes(sum(used(crate, part) or 0.0 for part in PARTS)))
        for part in PARTS[:3]:
            pair = crate, part
            row.append(told(tally.end[pair] - tally.begin[pair] if pair in tally.begin else None))
        row.append(gigabytes(max(tally.largest.get((crate, part), 0) for part in PARTS)))
        rows.append(row)
    sums = {part: sum(used(crate, part) or 0.0 for crate in crates) for part in PARTS}
    row = ["all crates", *(minutes(sums[part]) for part in PARTS), minutes(sum(sums.values())), "", "", "", ""]
    row.insert(4, str(sum(edits.values())))
    rows.append(row)
    rest = max(whole - sum(sums.values()), 0.0)
    rows.append(["what is left", *[""] * 5, minutes(rest), "", "", "", ""])
    return ["| " + " | ".join(row) + " |" for row in rows]


def edits_in(folder, crates):
    """How many must-fail edits each crate has."""
    found = {}
    for crate in crates:
        at = f"{folder}/crates/{crate}/must-fail"
        if os.path.isdir(at):
            found[crate] = sum(it.endswith(".edit") for it in os.listdir(at))
    return found


def run(folder, room, cores, at_once, anew, log, edits):
    """Runs the gate in the folder and prints what was seen of it. Returns its status."""
    os.mkdir(f"{room}/tmp")
    # programs are run as nobody
    os.chmod(room, 0o711)
    os.chmod(f"{room}/tmp", 0o711)
    crates = crates_of(folder)
    before = resource.getrusage(resource.RUSAGE_CHILDREN)
    start = time.monotonic()
    gate = subprocess.Popen(
        ["rt", "ci", *(["--anew"] if anew else [])],
        cwd=folder,
        env={**os.environ, "TMPDIR": f"{room}/tmp", **({"RT_JOBS": str(at_once)} if at_once else {})},
        stdin=subprocess.DEVNULL,
        stdout=subprocess.PIPE,
        stderr=subprocess.STDOUT,
        text=True,
        errors="replace",
        start_new_session=True,
        preexec_fn=(lambda: os.sched_setaffinity(0, cores)) if cores else None,
    )
    last = [""]

    def copy():
        for line in gate.stdout:
            log.write(f"{time.strftime('%Y-%m-%d %H:%M:%S')} {line.rstrip()}\n")
            log.flush()
            last[0] = line.strip() or last[0]

    reader = threading.Thread(target=copy)
    reader.start()
    tally, broken_off = Tally(gate.pid, crates), False
    while True:
        try:
            tally.look()
            gate.wait(STEP)
            break
        except subprocess.TimeoutExpired:
            pass
        except KeyboardInterrupt:
            # what rt started ends with it
            signal.signal(signal.SIGINT, signal.SIG_IGN)
            broken_off = True
            gate.terminate()
            gate.wait()
            break
    seconds = time.monotonic() - start
    reader.join()
    tally.close()
    after = resource.getrusage(resource.RUSAGE_CHILDREN)
    whole = after.ru_utime + after.ru_stime - before.ru_utime - before.ru_stime
    seen = sum(tally.used.values())
    whole = max(whole, seen)
    print("\n".join(table(tally, crates, edits, whole)))
    largest = max(tally.largest.items(), key=lambda it: it[1], default=(("-", "-"), 0))
    used_cores = sorted(cores or os.sched_getaffinity(0))
    print()
    print(f"- {'broken off after' if broken_off else 'takes'} {minutes(seconds)} minutes, {minutes(whole)} processor minutes")
    print(f"- cores: {len(used_cores)} ({','.join(map(str, used_cores))}) of {os.cpu_count()}; memory of the machine: {gigabytes(memory_of_machine())}")
    print(f"- checks at once: {at_once or os.environ.get('RT_JOBS') or 'as rt plans them, up to four processors each'}")
    print(f"- memory at its most: {gigabytes(tally.peak)}; the largest process: {gigabytes(largest[1])} ({' '.join(largest[0])})")
    print(f"- the gate's last line: {last[0] or 'none'}; its status: {'none, broken off' if broken_off else gate.returncode}")
    return 130 if broken_off else gate.returncode


def cores_in(text):
    """The cores of a list such as 0,2-3."""
    found = set()
    for word in text.split(","):
        first, _, end = word.partition("-")
        if not first.isdigit() or end and not end.isdigit() or _ and not end:
            raise argparse.ArgumentTypeError(f"'{text}' is no list of cores such as 0,1 or 0-3")
        found |= {*range(int(first), int(end or first) + 1)}
    lacking = found - os.sched_getaffinity(0)
    if lacking or not found:
        raise argparse.ArgumentTypeError(f"there is no core {', '.join(map(str, sorted(lacking)))} to run on")
    return found


def count_in(text):
    """A number of checks, at least 1."""
    if not text.isdecimal() or int(text) < 1:
        raise argparse.ArgumentTypeError(f"'{text}' is no number of checks")
    return int(text)


def stop(*_):
    raise KeyboardInterrupt


def main():
    told = argparse.ArgumentParser(description=__doc__, formatter_class=argparse.RawDescriptionHelpFormatter)
    told.add_argument("folder", nargs="?", metavar="FOLDER", default=os.path.dirname(os.path.dirname(os.path.realpath(__file__))), help="the repository whose last commit is cloned; without it the one that this script stands in")
    told.add_argument("--cores", type=cores_in, metavar="LIST", help="the cores to run on, as 0,1 or 0-3; all without it")
    told.add_argument("--at-once", type=count_in, metavar="N", help="N checks at once with one processor each, by the variable RT_JOBS, which plans no memory; without it as rt plans them")
    told.add_argument("--anew", action="store_true", help="does everything once more, also what an earlier run on this machine passed and rt keeps")
    told.add_argument("--log", metavar="FILE", help="where the gate's output goes, a time before each line; without it to standard error")
    told.add_argument("--keep", action="store_true", help="leaves the clone, and tells where it stands")
    given = told.parse_args()
    if shutil.which("rt") is None:
        print("gate: there is no command rt", file=sys.stderr)
        return 2
    # before the clone is made, so that it goes however this ends
    for it in (signal.SIGTERM, signal.SIGHUP):
        signal.signal(it, stop)
    room = os.path.realpath(tempfile.mkdtemp(prefix="gate-"))
    try:
        folder = f"{room}/clone"
        made = subprocess.run(["git", "clone", "--quiet", given.folder, folder], stdin=subprocess.DEVNULL)
        if made.returncode or not os.path.isfile(f"{folder}/crates.txt"):
            print(f"gate: {given.folder} is no repository with a file crates.txt", file=sys.stderr)
            return 2
        commit = subprocess.run(["git", "-C", folder, "log", "-1", "--format=%h %s"], capture_output=True, text=True).stdout.strip()
        print(f"The gate at {commit}\n", flush=True)
        edits = edits_in(folder, crates_of(folder))
        with open(given.log, "w", encoding="utf-8") if given.log else os.fdopen(os.dup(2), "w") as log:
            return run(folder, room, given.cores, given.at_once, given.anew, log, edits)
    except KeyboardInterrupt:
        return 130
    finally:
        if given.keep:
            print(f"the clone is in {room}", file=sys.stderr)
        else:
            shutil.rmtree(room, ignore_errors=True)


if __name__ == "__main__":
    sys.exit(main())
