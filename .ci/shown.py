#!/usr/bin/env python3
"""shown.py [PROGRAM]: runs a built mofront on what README.md, docs/ and examples/README.md show, and compares status and bytes.

PROGRAM is crates/mofront/out/mofront unless another one is named. It prints nothing and ends with 0 where all of this holds:

- a command in a block of its own, behind which a page says `It ends with status N and writes:`, or that stands in a line as
  `mofront ..` writes, with status N:, ends so and writes the next block;
- a text that a page says to stand in `m.mo`, perhaps with `--emit WORD`, where it `ends with status N and writes`, does so for class M;
- each row of docs/RULES.md is refused by its rule, with its text, at its place. The rows whose example is too long to stand in a
  row are made by the functions below.
"""
import re
import subprocess
import sys
import tempfile
from pathlib import Path

TOP = Path(__file__).resolve().parent.parent
SECONDS = 600
COMMAND = re.compile(r"```\n(mofront [^\n]*)\n```\n\nIt ends with status (\d) and writes:\n\n```\n(.*?)^```$", re.M | re.S)
LINE = re.compile(r"`(mofront [^`\n]*)`\s+writes, with status (\d):\n\n(?:<!-- \S+ -->\n)?```\n(.*?)^```$", re.M | re.S)
TEXT = re.compile(r"`([^`\n]*)`\s+in `m\.mo`(?:\s+with `--emit (\w+)`)?,?\s+ends\s+with\s+status (\d) and writes\s*:?\n\n```\n(.*?)^```$", re.M | re.S)
RULE = re.compile(r"^\| (\d+) \| ([^|]*) \| .* \| ([^|]*) \| ([^|]*) \|$", re.M)
EXAMPLE = re.compile(r"`([^`]*)`(?:, class ([\w.]+))?(?: with `--emit (\w+)`)?")


LONG = {
    1: (b"/" * 4194305, []),
    2: (b"model M // caf\xe9", []),
    8: (b"model M Real x; equation x = " + b"(" * 129, []),
}


def run(program, words, folder):
    ran = subprocess.run([program, *words], cwd=folder, stdout=subprocess.PIPE, stderr=subprocess.DEVNULL, timeout=SECONDS)
    return ran.returncode, ran.stdout.decode(errors="replace")


def run_text(program, text, words):
    """A run for which `m.mo` is a file of this text."""
    with tempfile.TemporaryDirectory() as folder:
        (Path(folder) / "m.mo").write_bytes(text)
        return run(program, [*words, "m.mo"], folder)


def shown(program):
    """What the pages show: where, what they say, and what comes."""
    for page in (TOP / "README.md", *sorted(TOP.glob("docs/*.md")), TOP / "examples" / "README.md"):
        text = page.read_text()
        for command, status, block in COMMAND.findall(text) + LINE.findall(text):
            yield f"{page.name}: {command}", (int(status), block), run(program, command.split()[1:], TOP)
        for source, emit, status, block in TEXT.findall(text):
            words = ["--class", "M"] + (["--emit", emit] if emit else [])
            yield f"{page.name}: {source}", (int(status), block), run_text(program, source.encode(), words)


def rules(program):
    for number, text, example, place in RULE.findall((TOP / "docs" / "RULES.md").read_text()):
        short = EXAMPLE.fullmatch(example)
        path, emit = (short[2], short[3]) if short else (None, None)
        source, words = LONG.get(int(number)) or (short[1].encode(), ["--emit", emit] if emit else [])
        line = f"{'command line' if place == 'command line' else 'm.mo:' + place}: rule {number}: {text}\n"
        yield f"RULES.md: rule {number}", (1, line), run_text(program, source, ["--class", path or "M", *words])


def main():
    program = Path(sys.argv[1] if len(sys.argv) > 1 else TOP / "crates/mofront/out/mofront").resolve()
    faults = 0
    for where, said, came in (*shown(program), *rules(program)):
        if said != came:
            faults += 1
            print(f"{where}: {came!r} in place of {said!r}", file=sys.stderr)
    return 1 if faults else 0


sys.exit(main())
