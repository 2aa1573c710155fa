#!/usr/bin/env python3
"""Compares README.md and docs/*.md with the sources. It prints nothing and ends with 0 where all of this holds:

- each clause that is cited as `call: clause` or `call: clause, clause` is an `ensures` of that name of a public function
  of that name in some crates/*/src. A clause without a name is cited as `call: ensures`;
- each path below crates/, docs/, examples/ or bench/ that is cited in backticks, or as a link, is there, apart from those
  with NAME and those that a build makes;
- each block of text behind a line `<!-- examples/NAME -->` is that file, and the stored run of mofront is README.md's example;
- the numbers and texts of the rules in docs/RULES.md are those of the definition, and of the names of rules, all of them, in order;
- the definitions that the program's contract stands on are those that the table of docs/PROVED.md lists;
- README.md's map names each crate of crates.txt, and docs/ARCHITECTURE.md has a row and a paragraph of each, in the order of crates.txt;
- the gate runs each file of cases, and docs/ARCHITECTURE.md has a row of each, in the order of the runs.

With --reading it prints these definitions instead, each behind those that it cites.
"""
import re
import sys
from pathlib import Path

TOP = Path(__file__).resolve().parent.parent
FUNCTION = re.compile(r"\s*(pub(?:\([^)]*\))? +)?(?:const +)?fn +(\w+)")
CLAUSE = re.compile(r"\s*ensures\b\s*(\w*)\s*\{")
CITED = re.compile(r"`([a-z][a-z_0-9]*): ([a-z][a-z_0-9]*(?:, [a-z][a-z_0-9]*)*)`")
PATH = re.compile(r"`((?:crates|docs|examples|bench)/[\w./-]*)`|\]\(([\w./-]+\.\w+)\)")
USE = re.compile(r"^use Rattle\.(\w+)\.specs\.(\w+)", re.M)
LISTED = re.compile(r"^\| \d+ \| `crates/(\w+)/specs` \|(.*)\|$", re.M)
ROOTS = (("mo_ports", "Counts"), ("mo_front", "Run"))
FENCE = re.compile(r"^```.*?^```$", re.M | re.S)
EXAMPLE = re.compile(r"^<!-- (examples/\S+) -->\n```\w*\n(.*?)^```$", re.M | re.S)


def clauses():
    """The names of the clauses of each public function; functions of one name are taken together."""
    found = {}
    for source in sorted(TOP.glob("crates/*/src/**/*.rt")):
        call = None
        for line in source.read_text().splitlines():
            function, clause = FUNCTION.match(line), CLAUSE.match(line)
            if function:
                call = function[2] if (function[1] or "").strip() == "pub" else None
            elif clause and call:
                found.setdefault(call, set()).add(clause[1] or "ensures")
    return found


def faults_of(page, known):
    whole = page.read_text()
    text = FENCE.sub("", whole)
    for call, cited in CITED.findall(text):
        for clause in cited.split(", "):
            if clause not in known.get(call, ()):
                yield f"no public call has the clause `{call}: {clause}`"
    for inline, link in PATH.findall(text):
        path = TOP / inline if inline else page.parent / link
        if not path.exists() and not re.search(r"NAME|/out\b", inline or link):
            yield f"there is no {inline or link}"
    for name, block in EXAMPLE.findall(whole):
        if not (TOP / name).is_file() or (TOP / name).read_text() != block:
            yield f"the block is not {name}"


def faults_of_run():
    """The stored run is compared with what the program writes by the gate, so README.md's example is too."""
    stored = TOP / "crates/mofront"
    for here, there in ("args", None), ("data/lift.mo", "examples/lift.mo"), ("stdout", "examples/lift.report"):
        text = (stored / here).read_text() if (stored / here).is_file() else None
        wanted = (TOP / there).read_text() if there else "--class\nLift\n--emit\nreport\nlift.mo\n"
        if text != wanted:
            yield f"crates/mofront/{here}: this is not the example of README.md"


def faults_of_rules():
    definition = (TOP / "crates/mo_front/specs/Refusal.antt").read_text()
    texts = re.findall(r'codes "([^"]*)"', re.search(r"^rule_texts =\n(.*?)\[\]", definition, re.M | re.S)[1])
    rows = re.findall(r"^\| (\d+) \| ([^|]*) \|", (TOP / "docs/RULES.md").read_text(), re.M)
    if rows != [(str(k), text) for k, text in enumerate(texts, 1)]:
        yield "docs/RULES.md: the rules are not those of crates/mo_front/specs/Refusal.antt"
    named = re.findall(r"^/// (.*)\.\npub const \w+: u8 = (\d+);", (TOP / "crates/mo_syntax/src/rules.rt").read_text(), re.M)
    if [(number, text.lower()) for text, number in named] != [(number, text.lower()) for number, text in rows]:
        yield "crates/mo_syntax/src/rules.rt: the rules are not those of docs/RULES.md"


def definitions(roots, seen):
    """The definitions that these stand on, and these, each behind those that it cites."""
    for crate, name in roots:
        path = TOP / "crates" / crate / "specs" / (name + ".antt")
        if (crate, name) not in seen and path.is_file():
            seen.add((crate, name))
            yield from definitions(USE.findall(path.read_text()), seen)
            yield crate, name


def faults_of_reading():
    rows = LISTED.findall((TOP / "docs/PROVED.md").read_text())
    listed = {(crate, name) for crate, files in rows for name in re.findall(r"\b[A-Z]\w*", files)}
    cited = set(definitions(ROOTS, set()))
    for said, some in ("does not list", cited - listed), ("lists", listed - cited):
        for crate, name in sorted(some):
            yield f"docs/PROVED.md {said} crates/{crate}/specs/{name}.antt"


def faults_of_crates():
    crates = re.findall(r"^(\w+):", (TOP / "crates.txt").read_text(), re.M)
    mapped = re.findall(r"`(\w+)`", (TOP / "README.md").read_text().split("## The crates, by phase")[-1])
    for name in crates:
        if name not in mapped:
            yield f"README.md: the map has no {name}"
    text = (TOP / "docs/ARCHITECTURE.md").read_text()
    table = re.findall(r"^\| (mo\w+) \|", text.split("## Where to begin")[-1].split("## What cuts across")[0], re.M)
    for some in table, re.findall(r"^## (mo\w+)$", text, re.M):
        if some != crates:
            yield f"docs/ARCHITECTURE.md: {' '.join(some)} in place of {' '.join(crates)}"


def faults_of_cases():
    cases = TOP / "crates/mo_cases"
    run = re.findall(r"^(\w+)\.cases$", (cases / "args").read_text(), re.M)
    files = [path.stem for path in sorted(cases.glob("data/*"))]
    rows = re.findall(r"^\| (\w+) \|", (TOP / "docs/ARCHITECTURE.md").read_text().split("## Tests and cases")[-1], re.M)
    for where, some, order in ("crates/mo_cases/args", sorted(run), files), ("docs/ARCHITECTURE.md", rows[1:], run):
        if some != order:
            yield f"{where}: {' '.join(some)} in place of {' '.join(order)}"


def main():
    if sys.argv[1:] == ["--reading"]:
        for crate, name in definitions(ROOTS, set()):
            print(f"crates/{crate}/specs/{name}.antt")
        return 0
    known = clauses()
    pages = [TOP / "README.md", *(page for part in ("docs", "bench", "examples") for page in sorted(TOP.glob(part + "/*.md")))]
    faults = [f"{page.relative_to(TOP)}: {fault}" for page in pages for fault in faults_of(page, known)]
    faults += [*faults_of_run(), *faults_of_rules(), *faults_of_reading(), *faults_of_crates(), *faults_of_cases()]
    for fault in faults:
        print(fault, file=sys.stderr)
    return 1 if faults else 0


sys.exit(main())
