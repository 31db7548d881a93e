#!/usr/bin/env python3
"""Installs the program `tora` that is built, with its manual pages, completion and dissector, or removes these files.

usage: ./tora install [PREFIX]       copies them to PREFIX; the default is /usr/local
       ./tora uninstall [PREFIX]     removes exactly these files, if they are there

  PREFIX/bin/tora                                  a script that runs the program, as ./tora does once it is built
  PREFIX/libexec/tora                              the program; it needs nothing of the repository
  PREFIX/share/man/man1, man5                      the manual pages
  PREFIX/share/bash-completion/completions/tora    completion for bash
  PREFIX/share/zsh/site-functions/_tora            completion for zsh
  PREFIX/share/tora/tora.lua                       the dissector for Wireshark

and, if `./tora build --lib` has built the library for C:

  PREFIX/lib/libtora.a, libtora.so.0, libtora.so   the library
  PREFIX/include/tora.h                            its header
  PREFIX/lib/pkgconfig/tora.pc                     how to compile with it: pkg-config --cflags --libs tora

If the variable DESTDIR is set, it is put in front of each of these paths, for a package. Missing folders are made. `uninstall`
keeps folders, except share/tora. Each file is replaced as a whole. Exit status: 1 if a file cannot be copied or removed; 2 for
wrong usage, if the program is not built, or if it or the library is older than its sources.
"""
import os
import shutil
import sys

import library

TOP = os.path.dirname(os.path.dirname(os.path.realpath(__file__)))
PAGES = ["tora.1", "tora-drive.1", "tora-node.1", "tora-replay.1", "tora-sim.1", "tora.5"]
# What is installed: the file in the repository, the place under PREFIX, and its permissions.
FILES = [
    ("crates/tora/out/tora", "libexec/tora", 0o755),
    ("dev/installed.sh", "bin/tora", 0o755),
    *((f"docs/man/{it}", f"share/man/man{it[-1]}/{it}", 0o644) for it in PAGES),
    ("dev/completion/tora.bash", "share/bash-completion/completions/tora", 0o644),
    ("dev/completion/_tora", "share/zsh/site-functions/_tora", 0o644),
    ("dev/tora.lua", "share/tora/tora.lua", 0o644),
]
# The library for C: the same, where it is built. The name of the last one is a link, and tora.pc is made with the PREFIX in it.
LIBRARY = [
    ("out/libtora.so.0", "lib/libtora.so.0", 0o644),
    ("out/libtora.a", "lib/libtora.a", 0o644),
    ("include/tora.h", "include/tora.h", 0o644),
]
LINK, LINKED = "lib/libtora.so", "libtora.so.0"
PACKAGE, PACKAGE_SOURCE = "lib/pkgconfig/tora.pc", "include/tora.pc.in"
# The folder that is the program's alone.
OWN = "share/tora"


def copy(source, target, mode):
    """Puts a copy in place at once, so that a program that runs is not written to."""
    os.makedirs(os.path.dirname(target), exist_ok=True)
    part = f"{target}.part-{os.getpid()}"
    try:
        shutil.copyfile(source, part)
        os.chmod(part, mode)
        os.replace(part, target)
    finally:
        if os.path.lexists(part):
            os.remove(part)


def write(text, target, mode):
    """Puts a file of this text in place at once."""
    os.makedirs(os.path.dirname(target), exist_ok=True)
    with open(f"{target}.part-{os.getpid()}", "w") as out:
        out.write(text)
    os.chmod(out.name, mode)
    os.replace(out.name, target)


def install_library(root, prefix):
    """Puts the library for C in place; `tora.pc` names the prefix that the files have in the end."""
    for source, place, mode in LIBRARY:
        copy(f"{TOP}/{source}", f"{root}/{place}", mode)
        print(f"{root}/{place}")
    part = f"{root}/{LINK}.part-{os.getpid()}"
    os.symlink(LINKED, part)
    os.replace(part, f"{root}/{LINK}")
    print(f"{root}/{LINK}")
    with open(f"{TOP}/{PACKAGE_SOURCE}") as text, open(f"{TOP}/VERSION") as version:
        told = text.read().replace("@PREFIX@", prefix).replace("@VERSION@", version.read().strip())
    write(told, f"{root}/{PACKAGE}", 0o644)
    print(f"{root}/{PACKAGE}")


def install(root, prefix):
    for source, place, mode in FILES:
        copy(f"{TOP}/{source}", f"{root}/{place}", mode)
        print(f"{root}/{place}")
    if os.path.exists(f"{TOP}/{LIBRARY[0][0]}"):
        install_library(root, prefix)


def uninstall(root, _prefix):
    for place in [*(it for _, it, _ in [*FILES, *LIBRARY]), LINK, PACKAGE]:
        try:
            os.remove(f"{root}/{place}")
            print(f"{root}/{place} is removed")
        except FileNotFoundError:
            pass
    try:
        os.rmdir(f"{root}/{OWN}")
    except OSError:
        pass  # there is none, or it has other files


def main():
    words = sys.argv[2:]
    if {"-h", "--help"} & {*sys.argv[1:]}:
        print(__doc__, end="")
        return 0
    if sys.argv[1:2] not in (["install"], ["uninstall"]):
        print(__doc__, end="", file=sys.stderr)
        return 2
    if len(words) > 1 or words and not os.path.isabs(words[0]):
        print(f"tora: {sys.argv[1]} takes one PREFIX, a path from the root on (--help)", file=sys.stderr)
        return 2
    if sys.argv[1] == "install" and os.path.exists(f"{TOP}/{LIBRARY[0][0]}") and not library.is_current():
        print("tora: the library is older than its sources (./tora build --lib)", file=sys.stderr)
        return 2
    prefix = words[0] if words else "/usr/local"
    root = (os.environ.get("DESTDIR", "") + prefix).rstrip("/")
    try:
        (install if sys.argv[1] == "install" else uninstall)(root, prefix)
        sys.stdout.flush()
    except OSError as error:
        print(f"tora: {error.filename or 'standard output'}: {error.strerror}", file=sys.stderr)
        return 1
    return 0


if __name__ == "__main__":
    sys.exit(main())
