#!/usr/bin/env python3
"""Raises the limits of the baseline in a copy of its sources, for large worlds.

raised.py FOLDER NODES NEIGHBOURS     FOLDER is src of the copy; NEIGHBOURS is 8, as in the baseline, or 32

The baseline has 64 nodes, each with up to 8 neighbours. It stores a set of nodes and a set of neighbours as the bits of one number
each. In the copy a set of nodes has many numbers, like a set of link ends, and a set of neighbours has 32 bits. The script
rejects sources in which a text to be replaced does not occur as often as expected, so no baseline is measured with only some limits raised.
"""
import os
import re
import sys


def changes(nodes, neighbours):
    """By file: what is looked for, what stands in its place, and how often it is there."""
    mask = f"u{neighbours}"
    return {
        "sim/node.rs": [
            (r"const NODES: usize = \d+", f"const NODES: usize = {nodes}", 1),
            (r"const NEIGHBOURS: usize = \d+", f"const NEIGHBOURS: usize = {neighbours}", 1),
            (r"\bis_(current|pending): u8\b", rf"is_\1: {mask}", 2),
            (r"(fn send\(.*\) -> )u8\b", rf"\1{mask}", 1),
            (r"1u8 << \(x\.seat & 7\)", f"1{mask} << (x.seat & {neighbours - 1})", 1),
        ],
        "sim/bits.rs": [
            (r", Default\)\](\s*pub\(super\) struct Bits\(pub\(super\) \[u64; )(.*?)\]\);",
             r")]\1\2]);\nimpl Default for Bits {\n    fn default() -> Bits {\n        Bits([0; \2])\n    }\n}", 1),
        ],
        "sim.rs": [
            (r"\bturns: u64\b", "turns: Bits", 1),
            (r"\bturns: 0\b", "turns: Bits::default()", 1),
            (r"self\.turns \|= 1 << i;", "self.turns.add(i);", 1),
            (r"self\.turns &= !\(1 << i\);", "self.turns.drop(i);", 2),
            (r"let mut turns = self\.turns;\s*while turns != 0 \{\s*let i = [^;]*;\s*turns &= [^;]*;(\s*while .*?\n {12}\})\n {8}\}",
             r"each!(self.turns, i, {\1\n        });", 1),
        ],
        "rules.rs": [
            (r"\[(Entry|None); 8\]", rf"[\1; {neighbours}]", 3),
            (r"\b(told|up): u8\b", rf"\1: {mask}", 7),
            (r"nb\.len\(\) > 8\b", f"nb.len() > {neighbours}", 1),
            (r"\b1u8 << k\b", f"1{mask} << k", 3),
        ],
    }


def main():
    """Writes the files anew."""
    folder, nodes, neighbours = sys.argv[1], int(sys.argv[2]), int(sys.argv[3])
    if neighbours not in (8, 32) or not 64 <= nodes <= 1024:
        sys.exit("raised: 64 to 1024 nodes, and 8 or 32 neighbours")
    for name, wanted in changes(nodes, neighbours).items():
        path = os.path.join(folder, name)
        with open(path, encoding="ascii") as source:
            text = source.read()
        for pattern, put, times in wanted:
            text, found = re.subn(pattern, put, text, flags=re.DOTALL if r"\s*" in pattern else 0)
            if found != times:
                sys.exit(f"raised: {path}: `{pattern}` stands there {found} times, not {times}")
        with open(path, "w", encoding="ascii") as sink:
            sink.write(text)


main()
