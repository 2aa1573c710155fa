#!/usr/bin/env python3
"""Runs a command, .ci/run where none is given, and tells what each crate took of it, in processor minutes: its proof, its tests with their proof, the
copy that its wrong bodies are tried over (`seed`), and these (`edits`).

    python3 .ci/costs.py [COMMAND ..]

It looks once a second at the checks that run on this machine, those of other commands too, so have it alone there. A check that is shorter is missed.
"""
import os
import re
import subprocess
import sys
import time
from pathlib import Path

TOP = Path(__file__).resolve().parent.parent
TICKS = os.sysconf("SC_CLK_TCK")
PARTS = ("proof", "tests", "seed", "edits")


def part_of(words, place):
    """What a check is for, by its words and the folder that it runs in."""
    if "/rt-edit-" in place:
        return "edits"
    if "/rt-edits-" in " ".join(words):
        return "seed" if any(it.endswith("/seed") for it in words) else "edits"
    return "tests" if "--test" in words else "proof"


def look(seen):
    """Notes how much each check that runs has taken so far."""
    for folder in Path("/proc").iterdir():
        if not folder.name.isdigit():
            continue
        try:
            words = (folder / "cmdline").read_bytes().decode(errors="replace").split("\0")
            if not words[0].endswith("/rattle") or "--crate-name" not in words:
                continue
            place, numbers = os.readlink(folder / "cwd"), (folder / "stat").read_text().rsplit(")", 1)[1].split()
        except OSError:
            continue
        crate = words[words.index("--crate-name") + 1]
        seen[folder.name, numbers[19]] = crate, part_of(words, place), (int(numbers[11]) + int(numbers[12])) / TICKS


def told(seen):
    """The lines that tell of the crates, the dearest first."""
    sums = {}
    for crate, part, seconds in seen.values():
        sums.setdefault(crate, dict.fromkeys(PARTS, 0.0))[part] += seconds / 60
    total = {part: sum(it[part] for it in sums.values()) for part in PARTS}
    for crate, of in [*sorted(sums.items(), key=lambda it: -sum(it[1].values())), ("all", total)]:
        yield f"{crate:20}{sum(of.values()):8.1f}  " + "  ".join(f"{part} {of[part]:.1f}" for part in PARTS if of[part] >= 0.05)


def main():
    command = sys.argv[1:] or ["bash", str(TOP / ".ci/run")]
    seen, run = {}, subprocess.Popen(command)
    while run.poll() is None:
        look(seen)
        time.sleep(1)
    print("\n".join(told(seen)))
    return run.returncode


if __name__ == "__main__":
    sys.exit(main())
