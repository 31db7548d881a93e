"""Links the library for C from the archive of the crate tora_c: out/libtora.a, out/libtora.so.0 and out/libtora.so.

Both have position-independent code, and export only the symbols `tora_*`. The archive has one object: the code of the proved
crate, and the few lines of the toolchain that call `malloc`, `realloc` and `free`.
"""
import os
import shutil
import subprocess
import tempfile

TOP = os.path.dirname(os.path.dirname(os.path.realpath(__file__)))
CRATE = "tora_c"
NAME = "libtora.so.0"
SYMBOLS = "{ global: tora_*; local: *; };\n"


def kit():
    """The folder of the toolchain."""
    return os.path.dirname(os.path.dirname(os.path.realpath(shutil.which("rt") or "/rt")))


def run(*words):
    """Runs a command; where it fails, the error has what it said."""
    try:
        ran = subprocess.run(words, capture_output=True, text=True, errors="replace")
    except FileNotFoundError:
        raise OSError(f"the command {words[0]} is missing (packages gcc and binutils)") from None
    if ran.returncode:
        raise OSError(f"{words[0]}: {ran.stderr.strip()[-1000:]}")


def link(archive, folder):
    """Makes the libraries of an archive in a folder, each in place at once."""
    compiler, heap = os.environ.get("CC", "cc"), f"{kit()}/c/liblibc_c.a"
    os.makedirs(folder, exist_ok=True)
    with tempfile.TemporaryDirectory(dir=folder) as work:
        whole, names, shared, static = f"{work}/tora.o", f"{work}/symbols", f"{work}/{NAME}", f"{work}/libtora.a"
        run("ld", "-r", "-o", whole, "--whole-archive", archive, heap)
        run("objcopy", "--wildcard", "--keep-global-symbol=tora_*", whole)
        run("ar", "rcs", static, whole)
        with open(names, "w") as out:
            out.write(SYMBOLS)
        flags = [f"-Wl,-soname,{NAME}", f"-Wl,--version-script,{names}", "-Wl,-z,text,-z,defs,-z,now"]
        run(compiler, "-shared", "-o", shared, whole, *flags)
        for it in static, shared:
            os.replace(it, f"{folder}/{os.path.basename(it)}")
    link_name = f"{folder}/libtora.so"
    if os.path.lexists(link_name):
        os.remove(link_name)
    os.symlink(NAME, link_name)


def is_current():
    """Whether the library is there and no older than each source of the crates that it is made of."""
    shared = f"{TOP}/out/{NAME}"
    if not os.path.exists(shared):
        return False
    with open(f"{TOP}/crates.txt", encoding="utf-8") as text:
        below = next(it.partition(":")[2].split() for it in text if it.startswith(f"{CRATE} "))
    built = os.stat(shared).st_mtime
    parts = [f"{TOP}/crates/{it}/{part}" for it in [*below, CRATE] for part in ("src", "specs", "proofs")]
    files = [f"{folder}/{it}" for part in parts for folder, _, names in os.walk(part) for it in names]
    return all(os.stat(it).st_mtime <= built for it in files if it.endswith((".rt", ".antt")))


def build():
    """The libraries of the crate that is built, in the folder `out`."""
    link(f"{TOP}/crates/{CRATE}/out/lib{CRATE}.a", f"{TOP}/out")
