#!/usr/bin/env python3
"""Checks one crate over the libraries that a run of the gate built in another checkout.

  tools/check_over.py BUILT check NAME [FLAG..]   checks crates/NAME, and keeps its work for the next time
  tools/check_over.py BUILT build NAME [FLAG..]   builds its library, for the crates above it

BUILT is a checkout in which `rt ci` has proved the crates below NAME. Only NAME is checked, where `rt check` in a fresh
checkout proves all crates below it again. A crate below that differs from BUILT's, or stands on one that does, has to
be built first. The flags are those of the compiler; without any, two processes share a check (`--jobs 2`). The
work is kept among the temporary files. No verdict rests on it: that is the gate's.
"""
import filecmp
import os
import shutil
import subprocess
import sys
import tempfile

KIT = os.path.dirname(os.path.dirname(os.path.realpath(shutil.which("rt") or sys.exit("rt is not on the path"))))
TOP = os.path.dirname(os.path.dirname(os.path.realpath(__file__)))
KEPT = f"{tempfile.gettempdir()}/check-over{TOP.replace('/', '-')}"


def crates():
    """Returns what each crate of this checkout stands on."""
    with open(f"{TOP}/crates.txt", encoding="utf-8") as lines:
        return {name.strip(): below.split() for name, _, below in (it.partition(":") for it in lines if ":" in it)}


def is_same(one, other):
    """Returns whether two folders hold the same files, or neither is there."""
    if not (os.path.isdir(one) and os.path.isdir(other)):
        return os.path.isdir(one) == os.path.isdir(other)
    found = filecmp.dircmp(one, other)
    _, differ, unread = filecmp.cmpfiles(one, other, found.common_files, shallow=False)
    return not (found.left_only or found.right_only or differ or unread) and all(
        is_same(f"{one}/{it}", f"{other}/{it}") for it in found.common_dirs
    )


class Libraries:
    """The libraries below a crate: BUILT's, or this checkout's own where they differ."""

    def __init__(self, built):
        self.built, self.stands_on, self.own = os.path.realpath(built), crates(), {}

    def is_own(self, name):
        if name not in self.own:
            parts = ("src", "specs", "proofs")
            here, there = f"{TOP}/crates/{name}", f"{self.built}/crates/{name}"
            self.own[name] = not all(is_same(f"{here}/{it}", f"{there}/{it}") for it in parts) or any(
                self.is_own(it) for it in self.stands_on[name] if it in self.stands_on
            )
        return self.own[name]

    def path(self, name):
        if not self.is_own(name):
            return f"{self.built}/crates/{name}/out/rlib/{name}.rlib"
        found = f"{KEPT}/{name}/{name}.rlib"
        return found if os.path.isdir(found) else sys.exit(f"{name} differs from that of {self.built}: build it first")

    def below(self, name):
        """Returns all crates below this one, lowest first."""
        found = []
        for it in self.stands_on[name]:
            if it in self.stands_on:
                found += [low for low in [*self.below(it), it] if low not in found]
        return found


def command(built, what, name, flags):
    """Returns the compiler's words."""
    libraries = Libraries(built)
    direct = libraries.stands_on.get(name) or sys.exit(f"crates.txt names no crate {name} that stands on anything")
    of_kit = ["std", *(it for it in direct if it not in libraries.stands_on)]
    is_program = os.path.isfile(f"{TOP}/crates/{name}/src/main.rt")
    words = [f"{KIT}/bin/rattle", what, "--crate-name", name, f"src/{'main' if is_program else 'lib'}.rt"]
    for it in of_kit:
        words += ["--extern", f"{it}={KIT}/rlibs/{it}.rlib"]
    for it in direct:
        words += ["--extern", f"{it}={libraries.path(it)}"] if it in libraries.stands_on else []
    for it in [f"{KIT}/rlibs", *(os.path.dirname(libraries.path(low)) for low in libraries.below(name))]:
        words += ["-L", f"dependency={it}"]
    words += ["--antt-project", f"{KIT}/rattle/logic/antt-project.json", "--logic-built", f"{KIT}/logic_built"]
    words += ["--links", f"{name}="]
    os.makedirs(f"{KEPT}/{name}", exist_ok=True)
    if what == "build":
        return [*words, "--statements", "-o", f"{KEPT}/{name}/{name}.rlib", *(flags or ["--jobs", "2"])]
    return [*words, "--incremental", f"{KEPT}/work-{name}", *(flags or ["--jobs", "2"])]


def main():
    if len(sys.argv) < 4 or sys.argv[2] not in ("check", "build"):
        sys.exit(__doc__)
    built, what, name, *flags = sys.argv[1:]
    return subprocess.call(command(built, what, name, flags), cwd=f"{TOP}/crates/{name}")


sys.exit(main())
