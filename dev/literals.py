#!/usr/bin/env python3
"""Lists numbers above 9 that more than one file of the crates' sources and definitions writes as a literal.

usage: dev/literals.py           prints numbers with neither a reason nor an entry in OPEN; status 1 if there are any
       dev/literals.py --open    prints also OPEN: literals in place of which a constant can be named
       dev/literals.py --all     prints also the literals that have a reason, by reason

A limit has one name, and its other uses cite that name, also in definitions (`declared.TheConstants`).
Comments, texts in quotes, proofs, tests and benches do not count, nor does the declaration of a constant.
A number that has to be written in several files gets a line in REASONS.
"""

import collections
import pathlib
import re
import sys

TOP = pathlib.Path(__file__).resolve().parent.parent
NUMBER = re.compile(r"(?<![\w.'])(2 \^ \d+|1 << \d+|0x[0-9A-Fa-f_]+|\d[\d_]*)(?:[ui](?:8|16|32|64|size))?(?![\w.])")
DECLARED = re.compile(r"\s*(pub(\(\w+\))? )?const \w+: [^=]+ = ")

# Why a number may be in several files: the reason, the numbers, a pattern of crate/folder/file, one of the line.
WORDS = {2**n + d for n in (16, 32, 63, 64, 68) for d in (-1, 0)}
REASONS = [
    ("the range of a machine word", WORDS, r"", r""),
    ("the value of a limit, in the law that fixes it", None, r"/src/limit_values", r""),
    ("a value of an example", None, r"/specs/Worked", r""),
    ("a value of an example", {10, 17, 50}, r"^(arq/src/facts|world/src/laws)", r"worked|STANDARD|second_life|binding"),
    ("the code of a character: LF, blank, comma, minus, dot, the digit 0", {10, 32, 44, 45, 46, 48},
     r"^(commands|core/specs/ShowText|drive|keyed/specs/KeyFile|lines|node|script)", r""),
    ("the base of decimal numbers, and places after the point", {10, 100, 1000, 10000, 100000, 256},
     r"^(script/(src/channel/parts|specs/Parts)|commands/src/progress|lines)", r""),
    ("an offset or a length in a format of bytes, which its definition writes as numbers", None,
     r"^(frame/(src/(decoding|encoding|packets)|specs/FrameGrammar)|packet/(src/decoding|specs/PacketGrammar))"
     r"|^life/(src/tags|specs/Tags)", r""),
    ("the number of an error, as texts print it", {10, 11},
     r"^(frame/(src/lib|specs/FrameGrammar)|neighbour/(src|specs)/[tT]ally)", r""),
    ("the place of a part in a list", {10, 11}, r"^world/specs/Frames", r"part_number"),
    ("the strength of an infix operator", {10}, r"", r"^infix"),
    ("the length of an array in its type", None, r"", r"\[u?\w+; \d+\]"),
    ("bytes that a crash tears, in a pattern of 16", {16},
     r"^(drive/specs/Scripts|life/(src/tearing|specs/TornBytes))", r""),
    ("numbers of RFC 2104 and FIPS 198-1", {0x36, 0x5C, 64}, r"^key(ed)?/", r""),
    ("the network 127.0.0.0/8", {127}, r"^commands/(src/configuration|specs/Config)", r""),
    ("help texts", None, r"^commands/src/command_line", r""),
    ("the layout of a stored world", {12, 16, 64, 1024, 16384, 65536},
     r"^(sim/(src|specs)|script/(src/pair_bits|specs/PairBits))", r""),
    ("the layout of random numbers", {16, 32, 1024}, r"^script/(src/channel/channel|specs/Channel)", r""),
    ("the standard times", {10, 50}, r"^arq/src/times", r""),
    ("the places of a table by six bits", {64}, r"^core/src/place_hints", r""),
    ("the digits of 16 or 32 bytes", {32}, r"^(script/src/parse|keyed/src/key_file|commands/src/key_command)", r""),
]

# Literals in place of which a constant can be named: the number, the constant, a pattern of crate/folder/file.
OPEN = [
    (2**62, "GREATEST_TAU of tora_height", r"^(core|height|packet)/"),
    (2**30, "GREATEST_DELTA of tora_height", r"^(core|height)/"),
]


def value(word):
    """The number that a literal writes."""
    word = word.replace("_", "")
    if " " in word:
        base, _, power = word.split(" ")
        return int(base) ** int(power) if "^" in word else 1 << int(power)
    return int(word, 16) if word.startswith("0x") else int(word)


def literals():
    """Each number above 9, with its place and its line."""
    for path in sorted([*TOP.glob("crates/*/src/**/*.rt"), *TOP.glob("crates/*/specs/**/*.antt")]):
        name = path.relative_to(TOP / "crates").as_posix().removeprefix("tora_")
        if name.startswith(("tests", "bench")):
            continue
        open_text = False  # a text in quotes goes on over a backslash at the end of a line
        for number, line in enumerate(path.read_text(encoding="utf-8").splitlines(), 1):
            begun, open_text = open_text, line.endswith("\\")
            if begun:
                line = '"' + line
            if open_text:
                line = line[:-1] + '"'
            if re.match(r"\s*(//|--)", line) or DECLARED.match(line):
                continue
            code = re.sub(r'"(?:[^"\\]|\\.)*"', '""', re.sub(r"\s(//|--) .*$", "", line))
            for it in NUMBER.finditer(code):
                if value(it[1]) > 9:
                    yield value(it[1]), name, number, line


def reason_of(number, name, line):
    for reason, numbers, file, text in REASONS:
        if (numbers is None or number in numbers) and re.search(file, name) and re.search(text, line):
            return reason
    return None


def shown(number):
    if number < 10**7:
        return str(number)
    return f"2^{number.bit_length() - 1}" if number & (number - 1) == 0 else hex(number)


def main(options):
    if any(it not in ("--open", "--all") for it in options):
        print(f"literals: no option {options[0]}", file=sys.stderr)
        return 2
    found, explained = collections.defaultdict(list), collections.Counter()
    for number, name, at, line in literals():
        reason = reason_of(number, name, line)
        if reason:
            explained[reason] += 1
        else:
            found[number].append((name, at))
    waiting, new = collections.defaultdict(set), []
    for number, places in sorted(found.items()):
        if len({name for name, _ in places}) < 2:
            continue
        for name, at in places:
            known = [it for it in OPEN if it[0] == number and re.search(it[2], name)]
            if known:
                waiting[known[0]].add(name)
            else:
                new.append(f"crates/tora_{name}:{at}: {shown(number)}, which other files write, too")
    if options:
        for (number, constant, _), names in waiting.items():
            print(f"{shown(number)}: {constant}: {', '.join(sorted(names))}")
    if "--all" in options:
        for reason, count in explained.most_common():
            print(f"{count} times: {reason}")
        for it in OPEN:
            if it not in waiting:
                print(f"{shown(it[0])}: {it[1]}: in one file at most, so its line in OPEN can go")
    for it in new:
        print(it)
    return 1 if new else 0


if __name__ == "__main__":
    sys.exit(main(sys.argv[1:]))
