"""Sees in the calls of `tora node` that a number is on the disk before a frame has it: `draw.sh` says more."""
import os
import re
import subprocess
import sys
import tempfile

CALLS = "openat,flock,pwrite64,fsync,sendto,close"
SECONDS = 3
CALL = re.compile(r"(\w+)\((.*)\) += (-?\d+)")
RESUMED = re.compile(r"<\.\.\. \w+ resumed>(.*)")
BYTES = re.compile(r'"((?:\\x[0-9a-f]{2})*)"')
UNFINISHED = "<unfinished ...>"
HELLO_BYTES = 28
OPENED = ["open", "lock", "sync", "sync of the folder"]


def stop(cause):
    sys.exit(f"draw: {cause}")


def bytes_in(words):
    found = BYTES.search(words)
    return bytes.fromhex(found.group(1).replace("\\x", "")) if found else b""


# Runs a node for some seconds, lets it quit, and writes its calls to a file.
def trace_node(top, config, folder, trace):
    line = ["strace", "-f", "-xx", "-s", "256", "-e", f"trace={CALLS}", "-e", "signal=none", "-o", trace]
    line += [os.path.join(top, "tora"), "node", config]
    none = subprocess.DEVNULL
    node = subprocess.Popen(line, cwd=folder, stdin=subprocess.PIPE, stdout=none, stderr=none)
    try:
        node.wait(timeout=SECONDS)
        stop(f"the node has ended with {node.returncode}")
    except subprocess.TimeoutExpired:
        node.communicate(b"quit\n", timeout=30)


# The calls in a file of strace, each as its name, its words and its answer: a `sendto` where it begins, and any other
# call where it has ended.
def calls_in(trace):
    begun = {}
    with open(trace) as lines:
        for line in lines:
            thread, rest = line.rstrip("\n").split(None, 1)
            if rest.startswith("sendto("):
                yield "sendto", rest[len("sendto("):], 0
                continue
            if rest.endswith(UNFINISHED):
                begun[thread] = rest[: -len(UNFINISHED)].rstrip()
                continue
            resumed = RESUMED.match(rest)
            if resumed:
                rest = begun.pop(thread, "") + resumed.group(1)
            call = CALL.match(rest)
            if call:
                yield call.group(1), call.group(2), int(call.group(3))


# What the calls of one start say: how many frames were sent, the greatest number in them, and the bound on the disk.
def look(calls):
    life = folder = None
    done = []
    written = synced = greatest = frames = 0
    for name, words, answer in calls:
        first = words.split(",")[0]
        if name == "openat" and answer >= 0:
            path = bytes_in(words).decode()
            if path.endswith("/life-4"):
                life, done = str(answer), ["open"]
            elif life and path.endswith("/n3"):
                folder = str(answer)
        elif name == "close" and first == folder:
            folder = None
        elif name == "flock" and first == life and answer == 0:
            done.append("lock")
        elif name == "pwrite64" and first == life:
            slot = bytes_in(words)
            if len(slot) == answer == 16:
                written = int.from_bytes(slot[:8], "big")
        elif name == "fsync" and answer == 0 and first == life:
            synced = written
            done.append("sync")
        elif name == "fsync" and answer == 0 and first == folder:
            done.append("sync of the folder")
        elif name == "sendto":
            frame = bytes_in(words)
            if len(frame) < HELLO_BYTES:
                stop(f"a frame of {len(frame)} bytes was sent")
            number = int.from_bytes(frame[12:20], "big")
            if done[: len(OPENED)] != OPENED:
                stop(f"a frame was sent after no more than {done}")
            if number > synced:
                stop(f"life {number} was sent where {synced} was on the disk, and {written} was written")
            frames, greatest = frames + 1, max(greatest, number)
    if not frames:
        stop("no frame was sent")
    return frames, greatest, synced


def main(top):
    config = os.path.join(top, "examples", "two-nodes", "n3.toml")
    with tempfile.TemporaryDirectory() as folder:
        before = 0
        trace = os.path.join(folder, "trace")
        for start in (1, 2):
            trace_node(top, config, folder, trace)
            frames, number, bound = look(calls_in(trace))
            if number <= before:
                stop(f"life {number} was sent again")
            print(f"start {start}: {frames} frames, life {number}, written and synced before: up to {bound}")
            before = number


main(sys.argv[1])
