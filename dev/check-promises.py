#!/usr/bin/python3
"""Compares the names in the documents with the sources of the crates.

usage: dev/check-promises.py [PAGE ..]

Without a PAGE it reads docs/reference/promises.md, docs/explanation/*.md, docs/developers/*.md and CONTRIBUTING.md. In each page:

- A table with the heading `promise`, `function`, `clause`, `crate` names functions. Each function must be in `src/` of a crate of its
  row, and each clause must be one that a function of the row ensures. `TYPE::NAME` is a function in an `impl` of TYPE, or in the
  trait TYPE, and `MODULE::NAME` is one in the file MODULE.rt. A clause cell `one clause` means that the functions ensure one clause
  without a name.
- Each other name in backquotes must be a word of the sources or definitions of the crates, a word of the scripts, or a path.
- A table whose last heading is `constants` has numbers of the sources: the numbers of a row are those of its constants, in order.

In docs/explanation/architecture.md the tables with the heading `crate`, `content` must name each crate of crates.txt once, after
all crates that it depends on, and in the order of crates.txt.

Each name that does not exist is printed with its page and line. Exit status: 0 if there is none, 1 if there is one.
"""

import re
import sys
from pathlib import Path

TOP = Path(__file__).resolve().parent.parent
CRATES = TOP / "crates"
FUNCTION = re.compile(r'^(\s*)(?:pub(?:\([a-z]+\))? )?(?:const |extern "C" )?fn (\w+)')
BLOCK = re.compile(r"^(?:pub(?:\([a-z]+\))? )?(impl|trait)\b(.*)$")
CLAUSE = re.compile(r"\bensures (\w+ )?\{")
NAME = re.compile(r"^[A-Za-z_]\w*(?:::[A-Za-z_]\w*)*$")
PATH = re.compile(r"^[\w.*{}-]+(?:/[\w.*{}-]+)+/?$|^[\w-]+\.(?:md|py|sh|rt|antt|txt|toml|sim)$")


class Function:
    def __init__(self, place, owners, name):
        self.place, self.owners, self.name, self.clauses, self.unnamed = place, owners, name, set(), 0


def owners_of(head):
    """The names of the types and the trait that the head of an `impl` or a `trait` names."""
    return set(re.findall(r"\b[A-Z]\w*", head.split("where")[0]))


def functions_in(path):
    found, owners = [], set()
    for line in path.read_text(encoding="utf-8").splitlines():
        block = BLOCK.match(line)
        if block:
            owners = owners_of(block.group(2))
        elif line.startswith("}"):
            owners = set()
        function = FUNCTION.match(line)
        if function:
            found.append(Function(path, owners if function.group(1) else set(), function.group(2)))
        elif found and not line.lstrip().startswith("//"):
            for clause in CLAUSE.finditer(line):
                if clause.group(1):
                    found[-1].clauses.add(clause.group(1).strip())
                else:
                    found[-1].unnamed += 1
    return found


def read_crates():
    functions, words = {}, set()
    for crate in sorted(CRATES.iterdir()):
        functions[crate.name] = [f for path in sorted(crate.glob("src/**/*.rt")) for f in functions_in(path)]
        words.add(crate.name)
        for part in ("src", "specs", "proofs", "must-fail", "edits"):
            for path in sorted((crate / part).rglob("*")):
                if path.is_file():
                    words.update(path.stem.split("."))
                    words.add(path.name)
                    text = path.read_text(encoding="utf-8", errors="replace")
                    words.update(re.findall(r"[A-Za-z_]\w*", text))
                    words.update(re.findall(r"[A-Za-z_][\w-]*\w", text))
    return functions, words


def other_words():
    words = set()
    for folder in ("tools", "bench", "python", "dev", "examples", "ns3", "docs/man"):
        for path in sorted((TOP / folder).rglob("*")):
            if path.is_file() and path.suffix in (".py", ".sh", ".toml", ".1", ".5", ".h", ".cc", ""):
                words.update(re.findall(r"[A-Za-z_]\w*", path.read_text(encoding="utf-8", errors="replace")))
    words.update(re.findall(r"[A-Za-z_]\w*", (TOP / "crates.txt").read_text(encoding="utf-8")))
    return words


def quoted(cell):
    return re.findall(r"`([^`]+)`", cell)


def named(functions, crates, name):
    owner, _, last = name.rpartition("::")
    return [
        f
        for crate in crates
        for f in functions.get(crate, [])
        if f.name == last and (not owner or owner in f.owners or owner == f.place.stem)
    ]


def row_faults(functions, cells):
    names, clauses, crates = quoted(cells[1]), quoted(cells[2]), quoted(cells[3])
    found = []
    for crate in crates:
        if crate not in functions:
            yield f"there is no crate {crate}"
    for name in names:
        here = named(functions, crates, name)
        if not here:
            yield f"{' or '.join(crates)} has no function {name}"
        found += here
    ensured = set().union(*(f.clauses for f in found)) if found else set()
    for clause in clauses:
        if found and clause not in ensured:
            yield f"{', '.join(names)} ensures no clause {clause}"
    for name in names:
        here = named(functions, crates, name)
        if here and clauses and not any(f.clauses & set(clauses) for f in here):
            yield f"{name} ensures none of the clauses {', '.join(clauses)}"
        if here and "one clause" in cells[2] and not any(f.unnamed for f in here):
            yield f"{name} has no clause without a name"
    if not names or not (clauses or "one clause" in cells[2]):
        yield "a row names a function and a clause"


def constants():
    """The public constants of the crates whose value is a number or another constant."""
    found = {}
    for path in sorted(CRATES.glob("*/src/**/*.rt")):
        for name, value in re.findall(r"pub const ([A-Z_]+): \w+ = ([^;]+);", path.read_text(encoding="utf-8")):
            found.setdefault(name, value.strip())
    for _ in range(3):
        found.update({name: found[value] for name, value in found.items() if value in found})
    return {name: int(value, 0) for name, value in found.items() if re.fullmatch(r"0x[0-9a-f_]+|[0-9][0-9_]*", value)}


def number_faults(page):
    """The rows of tables of constants whose numbers are others than the sources'."""
    values = constants()
    table = False
    for number, line in enumerate(page.read_text(encoding="utf-8").splitlines(), 1):
        cells = [cell.strip() for cell in line.strip().strip("|").split(" | ")] if line.startswith("|") else []
        table = bool(cells) and (table or cells[-1].lower() == "constants")
        if table and quoted(cells[-1]):
            told = [int(it.replace(",", "")) for it in re.findall(r"\b\d[\d,]*", " ".join(cells[1:-1]))]
            wanted = [values.get(name) for name in quoted(cells[-1])]
            if told != wanted:
                yield number, f"the numbers are {told}, those of the constants {wanted}"


def is_path(name):
    return any(TOP.glob(name.rstrip("/"))) or any(CRATES.glob(f"*/{name}")) or any(CRATES.glob(f"*/*/{name}"))


def page_faults(page, functions, words):
    table = fenced = False
    for number, line in enumerate(page.read_text(encoding="utf-8").splitlines(), 1):
        if line.startswith("```"):
            fenced = not fenced
        if fenced:
            continue
        cells = [cell.strip() for cell in line.strip().strip("|").split(" | ")] if line.startswith("|") else []
        if [cell.lower() for cell in cells] == ["promise", "function", "clause", "crate"]:
            table = True
        elif not cells:
            table = False
        elif table and len(cells) == 4 and not set(line) <= set("|-: "):
            for fault in row_faults(functions, cells):
                yield number, fault
        elif table and not set(line) <= set("|-: "):
            yield number, f"a row of this table has four cells, this one {len(cells)}"
        for name in quoted(line):
            if PATH.match(name):
                if not is_path(name):
                    yield number, f"there is no path {name}"
            elif NAME.match(name) and not set(name.split("::")) <= words:
                yield number, f"no source has the word {name}"


def crate_faults(page):
    """What the list of crates of a page lacks, and which crate stands in it before one that it needs."""
    needs = {}
    for line in (TOP / "crates.txt").read_text(encoding="utf-8").splitlines():
        if ":" in line and not line.startswith("#"):
            name, _, below = line.partition(":")
            needs[name.split()[0]] = below.split()
    listed = []
    table = False
    for number, line in enumerate(page.read_text(encoding="utf-8").splitlines(), 1):
        cells = [cell.strip() for cell in line.strip().strip("|").split(" | ")] if line.startswith("|") else []
        table = bool(cells) and (table or [cell.lower() for cell in cells] == ["crate", "content"])
        name = quoted(cells[0])[0] if table and quoted(cells[0]) else ""
        if not name:
            continue
        if name not in needs:
            yield number, f"crates.txt has no crate {name}"
        if name in listed:
            yield number, f"{name} stands twice in the list of crates"
        listed.append(name)
        for below in needs.get(name, []):
            if below in needs and below not in listed:
                yield number, f"{name} stands before {below}, which it needs"
    for name in needs:
        if name not in listed:
            yield 1, f"the list of crates lacks {name}"
    for name, other in zip(needs, listed):
        if name != other:
            yield 1, f"crates.txt has {name} where the list of crates has {other}"
            break


def main():
    pages = [Path(word).resolve() for word in sys.argv[1:]] or [
        TOP / "docs/reference/promises.md",
        *sorted((TOP / "docs/explanation").glob("*.md")),
        *sorted((TOP / "docs/developers").glob("*.md")),
        TOP / "CONTRIBUTING.md",
    ]
    functions, words = read_crates()
    words |= other_words()
    count = 0
    for page in pages:
        faults = [*page_faults(page, functions, words), *number_faults(page)]
        if page.name == "architecture.md":
            faults += crate_faults(page)
        for number, fault in faults:
            count += 1
            print(f"{page.relative_to(TOP)}:{number}: {fault}")
    print(f"{len(pages)} pages, {count} faults")
    return 1 if count else 0


if __name__ == "__main__":
    sys.exit(main())
