#!/usr/bin/env python3
"""Proves and builds the program `tora`, and first each crate that it depends on.

usage: ./tora build [--lib] [--jobs N] [CRATE ..]

  --lib       builds the library for C instead of the program: out/libtora.a and out/libtora.so.0
  --jobs N    uses at most N processors, from 1 to 1024, instead of all
  CRATE ..    proves these crates and those below them, instead of `tora`

Crates that do not depend on each other are proved side by side, as many as memory allows. Crates with the longest chain of crates
above them come first, and idle processors go to crates that are being proved. Each crate is reported when it ends, with its
seconds and the time that is left by the times of the last build. An interrupted build continues where it stopped: what is
proved stays in crates/*/out, even of crates that had not ended. If a crate is not proved, its whole output is printed, and
the exit status is 2; otherwise the status is 0, or that of the signal that interrupted the build.

This replaces `rt lib` in each crate and `rt run` in `tora`. It calls the same Python as they do, rtlib.py beside `rt`, because
two calls of `rt lib` wait for each other if their crates share one below.
"""
import argparse
import importlib.machinery
import importlib.util
import os
import re
import shutil
import signal
import sys
import tempfile
import threading
import time
from concurrent.futures import FIRST_COMPLETED, ThreadPoolExecutor, wait

import library

TOP = os.path.dirname(os.path.dirname(os.path.realpath(__file__)))
PROGRAM = "tora"
MOST_JOBS = 1024
NUMBER = re.compile("[1-9][0-9]{0,8}")
# The times of the last build: a line `CRATE SECONDS JOBS` for each crate, and `whole SECONDS` for a build from nothing.
TIMES = f"{TOP}/out/build-times"
# What each further processor of a check adds to the memory that is planned for it: with four, none was seen to take more than half of the plan.
MORE = 0.2


def stop(why, status=2):
    """Ends at once, and with it all that runs: what `rt` starts ends with the process that started it."""
    sys.stdout.flush()
    os.write(2, f"tora: {why}\n".encode())
    os._exit(status)


def say(text):
    print(f"tora: {text}", flush=True)


def toolchain():
    """The Python of the command `rt`, with a crate whose stamp is counted once a call, however many stand on it."""
    rt = shutil.which("rt")
    path = f"{os.path.dirname(os.path.realpath(rt))}/rtlib.py" if rt else ""
    if not os.path.isfile(path):
        stop("the toolchain's command rt is not on the path, or has no rtlib.py beside it")
    sys.dont_write_bytecode = True
    spec = importlib.util.spec_from_loader("rtlib", importlib.machinery.SourceFileLoader("rtlib", path))
    rtlib = importlib.util.module_from_spec(spec)
    sys.modules["rtlib"] = rtlib
    spec.loader.exec_module(rtlib)
    counted = threading.local()

    class Crate(rtlib.Crate):
        def stamp(self):
            if getattr(counted, "stamps", None) is None:
                counted.stamps = {}
                try:
                    return self.stamp()
                finally:
                    counted.stamps = None
            if self.name not in counted.stamps:
                counted.stamps[self.name] = super().stamp()
            return counted.stamps[self.name]

    rtlib.Crate = Crate
    return rtlib


def lines_of(rtlib, crate, ending):
    return sum(rtlib.text_of(it).count("\n") for it in rtlib.files_of(crate.folder) if it.endswith(ending))


def need(rtlib, crate):
    """The most memory that a check of a crate from nothing is likely to take, in bytes, as `rt ci` plans it."""
    below = sum(it.count(rb"\n") for it in crate.below())
    named = {name for it in [crate, *crate.below()] for name in it.of_kit} - {*rtlib.SEALED, "io", "libc", "os"}
    files = [f"{rtlib.KIT}/rlibs/{it}.rlib/toolchain/checked.a" for it in named]
    loaded = sum(os.path.getsize(it) for it in files if os.path.isfile(it))
    own = 1_000_000 * crate.count(rb"\n") + 200_000 * lines_of(rtlib, crate, ".antt")
    return 1_000_000_000 + own + 80_000 * below + min(5 * loaded, 2_500_000_000)


def free(rtlib):
    """The free memory in bytes, under the limit of the control group, too."""
    found = [1024 * rtlib.number_in("/proc/meminfo", r"MemAvailable:\s+(\d+)")]
    for limit, held in rtlib.GROUPS:
        limit, held = rtlib.number_in(limit, r"(\d+)"), rtlib.number_in(*held)
        if limit and held is not None:
            found.append(limit - held)
    return min(found)


def processors(rtlib):
    """How many processors the build may use, by the quota of its control group, too."""
    found = len(os.sched_getaffinity(0))
    for file, period in rtlib.QUOTAS:
        quota, period = rtlib.number_in(file, r"^(\d+)"), rtlib.number_in(*period)
        if quota and period:
            found = min(found, max(quota // period, 1))
    return found


def longest_behind(crates, weights):
    """By name, the weight of a crate and of the heaviest chain of crates above it."""
    behind = {it.name: weights[it.name] for it in crates}
    for crate in sorted(crates, key=lambda it: -len(it.below())):
        for low in crate.below():
            if low.name in behind:
                behind[low.name] = max(behind[low.name], weights[low.name] + behind[crate.name])
    return behind


class Times:
    """What crates took: processor seconds by name, from the last build and from this one."""

    def __init__(self, weights):
        self.rows, self.weights, self.whole = {}, weights, None
        try:
            with open(TIMES) as text:
                rows = [it.split() for it in text]
        except (OSError, UnicodeDecodeError):
            rows = []
        for row in rows:  # what is none, as where the file is cut, is passed over
            numbers = [int(it) for it in row[1:] if NUMBER.fullmatch(it)]
            if row and len(numbers) == len(row) - 1 == (1 if row[0] == "whole" else 2):
                if row[0] == "whole":
                    self.whole = numbers[0]
                else:
                    self.rows[row[0]] = tuple(numbers)

    def add(self, name, seconds, jobs, is_from_nothing):
        """Keeps a crate's time; of a crate that had kept work only where it took longer than was known."""
        old, of = self.rows.get(name, (0, 0))
        if is_from_nothing or seconds * jobs > old * of:
            self.rows[name] = (max(round(seconds), 1), jobs)

    def write(self):
        os.makedirs(os.path.dirname(TIMES), exist_ok=True)
        with open(f"{TIMES}.new", "w") as out:
            for name, (seconds, jobs) in self.rows.items():
                out.write(f"{name} {seconds} {jobs}\n")
            if self.whole is not None:
                out.write(f"whole {self.whole}\n")
        os.replace(f"{TIMES}.new", TIMES)

    def left(self, crates, spent, lanes):
        """Words for how long the crates take that have not ended, or none where no time is known. Crates with no time of their
        own take what the others took, by their weight. `spent` has the processor seconds of those that run."""
        known = [it for it in self.rows if it in self.weights]
        if not known or not crates:
            return ""
        rate = sum(self.rows[it][0] * self.rows[it][1] for it in known) / sum(self.weights[it] for it in known)
        each = {}
        for it in crates:
            seconds, jobs = self.rows.get(it.name, (rate * self.weights[it.name], 1))
            each[it.name] = max(seconds * jobs - spent.get(it.name, 0), 1)
        chain = max(longest_behind(crates, each).values())
        seconds = max(sum(each.values()) / lanes, chain / min(lanes, 2))
        return f"; some {round(seconds / 60)} min left" if seconds > 90 else f"; some {round(seconds)} s left"


def build(crate, jobs):
    """Proves and builds a crate; answers its status and what was said."""
    with tempfile.TemporaryFile("w+", errors="replace") as crate.out:
        os.makedirs(f"{crate.folder}/out", exist_ok=True)
        flags = ["--jobs", str(jobs)]
        try:
            if crate.is_program:
                status = crate.run(flags, ["--version"])
            elif crate.is_static:
                status = crate.build_static(flags)
            else:
                status = crate.build_rlib(flags, anew=False)
        except SystemExit as ended:
            status = ended.code
        crate.out.seek(0)
        return status, crate.out.read()


def busy(jobs):
    """How many processors a check keeps busy on the whole that may use so many: most of it is done by one."""
    return 1 + 0.25 * (jobs - 1)


def build_all(rtlib, crates, lanes, times):
    """Builds crates side by side, and tells each as it ends."""
    behind = longest_behind(crates, times.weights)
    built = {it.name for it in crates if it.makes_rlib() and it.is_built()}
    left = sorted((it for it in crates if it.name not in built), key=lambda it: -behind[it.name])
    is_anew = crates[-1].name == PROGRAM and not built and not any(it.has_kept() for it in crates)
    start, memory, running = time.time(), 0.85 * free(rtlib), {}
    if built:
        say(f"{len(built)} of {len(crates)} crates are proved already")
    say(f"{len(left)} to go, on {lanes} processors{times.left(left, {}, lanes)}")
    with ThreadPoolExecutor(lanes) as pool:
        while left or running:
            ready = [it for it in left if built >= {low.name for low in it.below()}]
            for at, crate in enumerate(ready):
                idle = lanes - sum(busy(it[2]) for it in running.values())
                room = memory - sum(it[1] for it in running.values())
                needs = need(rtlib, crate)
                # what the whole build waits for starts though all processors are busy, and shares them
                is_waited_for = all(behind[crate.name] >= behind[it.name] for it in [*left, *(of[0] for of in running.values())])
                if idle < 1 and not is_waited_for or running and needs > room:
                    continue
                # the longest chain comes first, and gets what the crates behind it can't share evenly
                share = min(4, lanes) if is_waited_for else min(4, -(-int(idle) // (len(ready) - at)))
                jobs = max(1, min(share, 1 + int((room / needs - 1) / MORE)))
                left.remove(crate)
                has_kept = crate.has_kept()
                needs *= 1 + MORE * (jobs - 1)
                running[pool.submit(build, crate, jobs)] = crate, needs, jobs, time.time(), has_kept
            for it in wait(running, return_when=FIRST_COMPLETED).done:
                crate, _, jobs, began, had_kept = running.pop(it)
                status, said = it.result()
                seconds = time.time() - began
                if status:
                    sys.stdout.flush()
                    sys.stderr.write(said)
                    sys.stderr.flush()
                    stop(f"{crate.name} is not {'proved' if status in (1, 3) else f'built: rt ended with status {status}'}")
                built.add(crate.name)
                times.add(crate.name, seconds, jobs, not had_kept)
                times.write()
                now = time.time()
                spent = {of.name: (now - since) * jobs for of, _, jobs, since, _ in running.values()}
                rest = [*left, *(of for of, *_ in running.values())]
                told = times.left(rest, spent, lanes)
                say(f"{len(built)} of {len(crates)}: {crate.name} is proved ({round(seconds)} s){told}")
    if is_anew:
        times.whole = round(time.time() - start)
        times.write()


def main():
    text = __doc__.partition("\n\nIt takes the place")[0]
    if {"-h", "--help"} & {*sys.argv[1:]}:
        print(text)
        return 0
    words = argparse.ArgumentParser(prog="./tora build", usage="./tora build [--lib] [--jobs N] [CRATE ..]", add_help=False)
    words.add_argument("--lib", action="store_true")
    words.add_argument("--jobs")
    words.add_argument("crates", nargs="*")
    asked = words.parse_args()
    if asked.jobs is not None and not (NUMBER.fullmatch(asked.jobs) and int(asked.jobs) <= MOST_JOBS):
        stop(f"--jobs takes a number from 1 to {MOST_JOBS}")
    start = time.time()
    rtlib = toolchain()
    # the process that ends all others starts before any thread does
    rtlib.guarded()
    for it in (signal.SIGINT, signal.SIGTERM, signal.SIGHUP):
        signal.signal(it, lambda number, _: stop("broken off; ./tora build goes on from here", 128 + number))
    found = {it.name: it for it in rtlib.crates_below(f"{TOP}/crates")}
    wanted = []
    for name in [*asked.crates, *[library.CRATE] * asked.lib] or [PROGRAM]:
        if name not in found or found[name].is_program and name != PROGRAM:
            stop(f"no library {name} in crates.txt" if name not in found else f"{name} is a program of its own: run `rt run` in its folder")
        wanted += [it for it in [*found[name].below(), found[name]] if it not in wanted]
    held = rtlib.lock(wanted)
    for it in wanted:
        rtlib.stop_on_links(it.folder)
        it.held = []
    weights = {it.name: lines_of(rtlib, it, ".rt") + lines_of(rtlib, it, ".antt") / 8 for it in wanted}
    build_all(rtlib, wanted, int(asked.jobs or processors(rtlib)), Times(weights))
    if found[PROGRAM] in wanted:
        # an edit made since the start is newer than the program
        os.utime(f"{found[PROGRAM].folder}/out/{PROGRAM}", (start, start))
    if asked.lib:
        try:
            library.build()
        except OSError as error:
            stop(error)
    say(f"{wanted[-1].name} is proved and built ({round(time.time() - start)} s)")
    for it in held:
        os.close(it)
    return 0


if __name__ == "__main__":
    sys.exit(main())
