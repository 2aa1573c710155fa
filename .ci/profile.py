#!/usr/bin/env python3
"""Checks one crate from nothing with one job, and tells where the time went: by the kinds of modules that the check makes, and the modules that took most.

    python3 .ci/profile.py CRATE [N]

N is how many modules are listed, 25 where it is not given. The crates below have to be proved where this checkout is (`rt all check`, or `rt ci CRATE`): their
libraries are taken from crates/*/out. Times are those that passed, so have nothing else run. A module is written when its check ends; with one job the time since the one before
is its own. What the kinds are is told in docs/CONTRIBUTING.md, What the gate costs.
"""
import collections
import re
import subprocess
import sys
import tempfile
from pathlib import Path

TOP = Path(__file__).resolve().parent.parent


def kit():
    """The folder of the kit."""
    return Path(subprocess.run(["rt", "doc"], capture_output=True, text=True, check=True).stdout.strip()).parent


def below(crate):
    """The libraries that a crate names in crates.txt."""
    for line in (TOP / "crates.txt").read_text().splitlines():
        name, found, libraries = line.partition(":")
        if found and name == crate:
            return libraries.split()
    sys.exit(f"crates.txt has no {crate}")


def words_of(crate, room):
    """The words of the check."""
    top, built = kit(), lambda name: TOP / f"crates/{name}/out/rlib/{name}.rlib"
    libraries = [f"--extern={it}={built(it) if built(it).is_dir() else top / f'rlibs/{it}.rlib'}" for it in ["std", *below(crate)]]
    folders = [f"-Ldependency={it.parent}" for it in sorted(TOP.glob("crates/*/out/rlib/*.rlib"))]
    root = "src/main.rt" if (TOP / f"crates/{crate}/src/main.rt").exists() else "src/lib.rt"
    return [
        *[top / "bin/rattle", "check", "--crate-name", crate, root, *libraries, *folders, f"-Ldependency={top / 'rlibs'}"],
        *["--antt-project", top / "rattle/logic/antt-project.json", "--logic-built", top / "logic_built"],
        *["--links", f"{crate}=", "--jobs", "1", "--incremental", room],
    ]


def kind_of(name):
    """The kind of a module, by its name."""
    return re.sub(r"^Lts-.*", "Lts", re.sub(r"(\.decls)?\.oantt$", "", name).split(".")[-1])


def main():
    crate, most = sys.argv[1], int(sys.argv[2]) if len(sys.argv) > 2 else 25
    with tempfile.TemporaryDirectory() as room:
        run = subprocess.run([str(it) for it in words_of(crate, room)], cwd=TOP / "crates" / crate, stdout=subprocess.PIPE, stderr=subprocess.STDOUT, text=True)
        print("\n".join(it for it in run.stdout.splitlines() if "error" in it or it.startswith(("logic=", "rattle: no verdict"))))
        made = sorted((it.stat().st_mtime, it.stat().st_size, it.name) for it in Path(room).rglob("*.oantt"))
    steps = [(now[0] - before[0], now[1], now[2]) for before, now in zip(made, made[1:])]
    kinds = collections.Counter()
    for seconds, _, name in steps:
        kinds[kind_of(name)] += seconds
    print(f"{sum(kinds.values()):8.1f} s in {len(steps)} modules")
    for kind, seconds in kinds.most_common(12):
        print(f"{seconds:8.1f} s {kind}")
    for seconds, size, name in sorted(steps, reverse=True)[:most]:
        print(f"{seconds:8.2f} s {size / 1e6:6.2f} MB {name}")
    return run.returncode


if len(sys.argv) not in (2, 3):
    sys.exit(__doc__)
sys.exit(main())
