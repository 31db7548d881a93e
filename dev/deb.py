#!/usr/bin/env python3
"""Makes Debian packages of the program that is built, and of what comes with it.

usage: ./tora deb [--unproved] [--twice] [--out DIR]

  --unproved   packs out/tora_unproved, which ./tora makes for a first answer and which is not proved, instead of the program;
               the version of the packages then has `unproved`
  --twice      makes each package twice, in two folders, and compares the bytes
  --out DIR    where the packages go; the default is out/deb

  tora           the program, its manual pages, completion, units for systemd, dissector, examples and documents
  ns3-tora       the module for ns-3 as sources and, if ns-3 (package libns3-dev) and the library for C are there, as a library
  python3-tora   the Python package tora with tora-study and tora-routes, if the repository has the folder python
  libtora0       the library for C, if `./tora build --lib` has built it
  libtora-dev    its header, archive, file for pkg-config, guide and examples, likewise

Only the module is compiled; the library is the proved one in each case. The version is that of the file VERSION. If it ends in
`-dev`, the time and name of the commit follow, and `changed` if files differ from the commit. All files have the time of the
commit (SOURCE_DATE_EPOCH), so the same text, program, library and system give the same bytes. What `lintian` reports is printed, and
its errors count as errors here. This needs `dpkg-dev` and `debhelper`; the module needs `cmake`, `g++` and `libns3-dev`;
python3-tora needs `dh-python` and `pybuild-plugin-pyproject`. Exit status: 1 if a package cannot be made, differs when it is made
again, or has an error of lintian; 2 for wrong usage, if a command is missing, if there is no program, or if the library is older
than its sources.
"""
import argparse
import hashlib
import os
import re
import shutil
import subprocess
import sys
import tempfile
import time

import library

TOP = os.path.dirname(os.path.dirname(os.path.realpath(__file__)))
PROGRAM, UNPROVED = f"{TOP}/crates/tora/out/tora", f"{TOP}/out/tora_unproved"
PARTS = "CHANGELOG.md CITATION.cff README.md SECURITY.md VERSION docs examples include ns3 python dev".split()
GUIDES = "/usr/share/doc/tora/docs/how-to"
AUTHOR = "the Ginavoru authors <maintainers@users.noreply.ginavoru.example>"


def stop(why, status=2):
    print(f"tora: {why}", file=sys.stderr)
    sys.exit(status)


def git(*words):
    found = subprocess.run(["git", "-C", TOP, *words], capture_output=True, text=True)
    if found.returncode:
        stop(f"git {words[0]}: {found.stderr.strip()}")
    return found.stdout


def need(command, package):
    if not shutil.which(command):
        stop(f"{command} is missing (package {package})")


class State:
    """What the packages are made of: program, commit, version, and which packages there are."""

    def __init__(self, is_unproved):
        self.program = UNPROVED if is_unproved else PROGRAM
        if not os.access(self.program, os.X_OK):
            stop("there is no out/tora_unproved (./tora sim FILE makes it)" if is_unproved else "the program is not built (./tora build)")
        self.time = int(git("log", "-1", "--format=%ct"))
        self.version = self.full_version(is_unproved)
        self.has_python = os.path.exists(f"{TOP}/python/pyproject.toml")
        self.has_library = os.path.exists(f"{TOP}/out/{library.NAME}")
        has_ns3 = bool(shutil.which("cmake")) and os.path.exists("/usr/include/ns3/wifi-module.h")
        self.has_ns3 = has_ns3 and self.has_library
        if self.has_library and not library.is_current():
            stop("the library is older than its sources (./tora build --lib)")

    def full_version(self, is_unproved):
        version = read("VERSION").strip()
        marks = []
        if version.endswith("-dev"):
            version = version.replace("-", "~") + time.strftime("%Y%m%d%H%M%S", time.gmtime(self.time))
            marks.append(git("log", "-1", "--format=%h", "--abbrev=8").strip())
        if git("status", "--porcelain").strip():
            marks.append("changed")
        if is_unproved:
            marks.append("unproved")
        return version + ("+" + ".".join(marks) if marks else "") + "-1"

    def controls(self):
        """Whose parts of debian/control there are beside that of tora."""
        return ["ns3-tora", *(["python3-tora"] if self.has_python else []), *(["libtora"] if self.has_library else [])]


def write(path, text, mode=0o644):
    os.makedirs(os.path.dirname(path), exist_ok=True)
    with open(path, "w") as out:
        out.write(text)
    os.chmod(path, mode)


def read(path):
    with open(f"{TOP}/{path}") as text:
        return text.read()


def copy(source, target):
    """A copy with the permissions that a package has."""
    os.makedirs(os.path.dirname(target), exist_ok=True)
    shutil.copyfile(source, target)
    os.chmod(target, 0o755 if os.access(source, os.X_OK) else 0o644)


def copy_sources(tree):
    """The files of the repository that the packages have, as git lists them."""
    for path in git("ls-files", "-z", "--cached", "--others", "--exclude-standard", "--", *PARTS).split("\0"):
        if path and os.path.isfile(f"{TOP}/{path}"):
            copy(f"{TOP}/{path}", f"{tree}/{path}")
    os.rename(f"{tree}/dev/debian", f"{tree}/debian")
    os.rename(f"{tree}/docs/man", f"{tree}/man")


def stage(state, tree):
    """What is made for the packages out of files of the repository."""
    copy(state.program, f"{tree}/staged/libexec/tora")
    copy(f"{TOP}/dev/installed.sh", f"{tree}/staged/bin/tora")
    os.chmod(f"{tree}/staged/bin/tora", 0o755)
    copy(f"{TOP}/dev/completion/tora.bash", f"{tree}/staged/completions/tora")
    os.makedirs(f"{tree}/staged", exist_ok=True)
    os.rename(f"{tree}/debian/tora.README", f"{tree}/staged/README")
    for unit in "tora@.service", "tora@.socket":
        text = read(f"examples/systemd/{unit}").replace("/usr/local/bin/tora", "/usr/bin/tora")
        text = text.replace(" Copy both files to /etc/systemd/system; `./tora install` puts the program in /usr/local/bin.", "")
        if "/usr/local" in text or "./tora" in text:
            stop(f"examples/systemd/{unit} names a place that no package has", 1)
        write(f"{tree}/debian/{unit}", text)
    text = read("examples/systemd/tora-routes@.service")
    text = text.replace(" Copy it to /etc/systemd/system, and rt_protos.d/tora.conf to /etc/iproute2/rt_protos.d, by which `ip\n# route` names these routes.", "")
    if "Copy it" in text:
        stop("examples/systemd/tora-routes@.service says something else of its place", 1)
    os.makedirs(f"{tree}/staged/units", exist_ok=True)
    write(f"{tree}/staged/units/tora-routes@.service", text)
    copy(f"{TOP}/examples/systemd/rt_protos.d/tora.conf", f"{tree}/staged/rt_protos.d/tora.conf")
    shutil.rmtree(f"{tree}/examples/systemd")


def stage_library(tree):
    """What is made for the packages of the library: tora.pc names Debian's folder, and the guide the documents of the package tora."""
    for name in library.NAME, "libtora.a":
        copy(f"{TOP}/out/{name}", f"{tree}/staged/lib/{name}")
    told = subprocess.run(["dpkg-architecture", "-qDEB_HOST_MULTIARCH"], capture_output=True, text=True, check=True)
    package = read("include/tora.pc.in").replace("@PREFIX@", "/usr").replace("@VERSION@", read("VERSION").strip())
    package = package.replace("libdir=${prefix}/lib\n", f"libdir=${{prefix}}/lib/{told.stdout.strip()}\n")
    if told.stdout.strip() not in package:
        stop("include/tora.pc.in has no line libdir=${prefix}/lib", 1)
    write(f"{tree}/staged/lib/tora.pc", package)
    for name in "embed.md", "embed-a-world.md":
        guide = re.sub(r"\]\((?!/|#|\w+:)([^)]+)", lambda it: f"]({os.path.normpath(f'{GUIDES}/{it[1]}')}", read(f"docs/how-to/{name}"))
        write(f"{tree}/staged/{name}", guide)


def write_control(state, tree):
    """The list of packages, what is needed to make them, and the changelog of the packaging."""
    control = read("dev/debian/control")
    needs = []
    for name in state.controls():
        control += read(f"dev/debian/control.{name}")
    if state.has_ns3:
        needs += ["cmake", "g++", "libns3-dev"]
    if state.has_python:
        needs += ["dh-python", "pybuild-plugin-pyproject", "python3-all", "python3-setuptools"]
    control = control.replace("debhelper-compat (= 13)\n", ", ".join(["debhelper-compat (= 13)", *needs]) + "\n")
    write(f"{tree}/debian/control", control)
    date = time.strftime("%a, %d %b %Y %H:%M:%S +0000", time.gmtime(state.time))
    write(
        f"{tree}/debian/changelog",
        f"ginavoru ({state.version}) unstable; urgency=medium\n\n  * What changed stands in the changelog of the sources.\n\n"
        f" -- {AUTHOR}  {date}\n",
    )


def make(state, work):
    """Makes the packages in a folder, and answers their paths."""
    tree = f"{work}/ginavoru"
    copy_sources(tree)
    stage(state, tree)
    if state.has_library:
        stage_library(tree)
    write_control(state, tree)
    words = {"SOURCE_DATE_EPOCH": str(state.time), "DEB_BUILD_OPTIONS": "noautodbgsym nocheck", "LC_ALL": "C.UTF-8", "TZ": "UTC"}
    words["PATH"] = "/usr/sbin:/usr/bin:/sbin:/bin"  # the compilers and the Python of Debian
    words.update({"BUILDS_NS3": "1"} if state.has_ns3 else {})
    words.update({"BUILDS_PYTHON": "1"} if state.has_python else {})
    with open(f"{work}/log", "w") as log:
        ran = subprocess.run(
            ["dpkg-buildpackage", "--build=binary", "--no-sign"],
            cwd=tree, env={**os.environ, **words}, stdin=subprocess.DEVNULL, stdout=log, stderr=subprocess.STDOUT,
        )
    if ran.returncode:
        with open(f"{work}/log", errors="replace") as log:
            print("".join(log.readlines()[-25:]), end="", file=sys.stderr)
        stop("dpkg-buildpackage makes no packages of this", 1)
    return [f"{work}/{it}" for it in sorted(os.listdir(work)) if it.endswith(".deb")]


def digest(path):
    with open(path, "rb") as found:
        return hashlib.sha256(found.read()).hexdigest()


def inspect(paths):
    """Tells what lintian says; answers whether it names no error."""
    if not shutil.which("lintian"):
        print("tora: no lintian (package lintian); the packages are not inspected")
        return True
    ran = subprocess.run(["lintian", "--allow-root", "--fail-on", "error", *paths], capture_output=True, text=True)
    print(ran.stdout + ran.stderr, end="")
    return not ran.returncode


def main():
    parser = argparse.ArgumentParser(prog="tora deb", description=__doc__, formatter_class=argparse.RawDescriptionHelpFormatter)
    parser.add_argument("--unproved", action="store_true", help="takes out/tora_unproved")
    parser.add_argument("--twice", action="store_true", help="makes each package twice, and compares")
    parser.add_argument("--out", default=f"{TOP}/out/deb", metavar="DIR", help="where the packages go")
    words = parser.parse_args()
    need("dpkg-buildpackage", "dpkg-dev")
    need("dh", "debhelper")
    os.umask(0o022)
    state = State(words.unproved)
    if not state.has_ns3:
        print("tora: no ns-3 (packages libns3-dev and cmake), or no library; ns3-tora has the sources alone")
    if not state.has_library:
        print("tora: the library is not built (./tora build --lib); libtora0 and libtora-dev are left out")
    os.makedirs(words.out, exist_ok=True)
    for old in os.listdir(words.out):
        if old.endswith(".deb"):
            os.remove(f"{words.out}/{old}")
    with tempfile.TemporaryDirectory(prefix="tora-deb-") as work:
        found = make(state, f"{work}/1")
        again = make(state, f"{work}/2-again") if words.twice else []
        differ = [os.path.basename(it) for it, other in zip(found, again) if digest(it) != digest(other)]
        if differ:
            stop(f"made twice, these differ: {', '.join(differ)}", 1)
        for it in found:
            shutil.copy(it, words.out)
    made = [f"{words.out}/{os.path.basename(it)}" for it in found]
    for it in made:
        print(f"{digest(it)}  {it}")
    if words.twice:
        print("tora: made twice, each package has the same bytes")
    return 0 if inspect(made) else 1


if __name__ == "__main__":
    sys.exit(main())
