#!/usr/bin/env python3
"""measure.py [PROGRAM [SERIES..]]: makes inputs of three sizes, a factor of three apart, runs a built mofront on them, and prints a table.

PROGRAM is crates/mofront/out/mofront unless another one is named; it is built by `rt run` in crates/mofront. The inputs stay in
bench/out. Each input is run three times; the least time counts, in seconds of processor time, and the greatest memory, which is never
told as less than what python3 itself takes. The last column is the factor by which the time grew: about 3 is linear, about 9 quadratic.
It is no part of the gate.
"""
import datetime
import os
import platform
import subprocess
import sys
import time
from pathlib import Path

TOP = Path(__file__).resolve().parent.parent
OUT = TOP / "bench" / "out"
RUNS, SECONDS = 3, 600


def model(declared, equations):
    return "model M\n" + "".join(f"  {d};\n" for d in declared) + "equation\n" + "".join(f"  {e};\n" for e in equations) + "end M;\n"


def annotation(n):
    """Tokens and trees that leave no trace: an array of n numbers in an annotation."""
    return "model M\n  annotation(a = {" + ",\n".join(f"{k}.5" for k in range(n)) + "});\nend M;\n"


def classes(n):
    """The class tree: n classes at the top, each with an element."""
    return "".join(f"model C{k} Real x; end C{k};\n" for k in range(n)) + "model M\nend M;\n"


def library(n):
    """A library of n classes of some 400 bytes each, of which one is asked for."""
    elements = "".join(f"  Real x{j}(start = {j}.0, unit = \"m\");\n" for j in range(5))
    equations = "".join(f"  der(x{j}) = {j}.0*time - x{j};\n" for j in range(5))
    return "".join(f"model C{k} \"number {k} of a library that is read whole\"\n{elements}equation\n{equations}end C{k};\n" for k in range(n)) + "model M\n  C7 c;\nend M;\n"


def parameters(n):
    """Names and flat text: n parameters."""
    return model([f"parameter Real p{k} = {k}.0" for k in range(n)], [])


def typed(n):
    """Names of bases: n components of a type that is declared beside them, in a class that has a base."""
    return "model Icon end Icon;\n" + model(["extends Icon", "type T = Real(unit = \"m\")"] + [f"T x{k} = {k}.0" for k in range(n)], [])


def icons(n):
    """Names of bases behind dots: n components of a library whose packages and classes all have bases."""
    library = """package L
  extends L.Icons.Package;
  package Icons
    package Package end Package;
    partial model Part end Part;
  end Icons;
  package Units
    extends L.Icons.Package;
    type Length = Real(unit = "m");
    type Height = Length(min = 0);
  end Units;
  package Parts
    extends L.Icons.Package;
    model Bar
      extends L.Icons.Part;
      parameter L.Units.Height h = 1;
      Units.Length l = 2*h;
    end Bar;
  end Parts;
end L;
"""
    return library + model(["extends L.Icons.Part"] + [f"L.Parts.Bar b{k}(h = {k}.0)" for k in range(n)], [])


LIBRARY = """package L
  partial package Icon end Icon;
  package Units
    extends L.Icon;
    type ElectricPotential = Real(final quantity = "ElectricPotential", final unit = "V");
    type Voltage = ElectricPotential;
    type Current = Real(final quantity = "ElectricCurrent", final unit = "A");
    type Resistance = Real(final quantity = "Resistance", final unit = "Ohm");
    type Capacitance = Real(final quantity = "Capacitance", final unit = "F", min = 0);
  end Units;
  package Interfaces
    extends L.Icon;
    connector Pin L.Units.ElectricPotential v; flow L.Units.Current i; end Pin;
    connector PositivePin extends Pin; end PositivePin;
    connector NegativePin extends Pin; end NegativePin;
    partial model TwoPin L.Units.Voltage v; PositivePin p; NegativePin n; equation v = p.v - n.v; end TwoPin;
    partial model OnePort extends TwoPin; L.Units.Current i; equation 0 = p.i + n.i; i = p.i; end OnePort;
  end Interfaces;
  package Basic
    extends L.Icon;
    model Ground Interfaces.Pin p; equation p.v = 0; end Ground;
    model Resistor parameter L.Units.Resistance R = 1; extends Interfaces.OnePort; equation v = R*i; end Resistor;
    model Capacitor extends L.Interfaces.OnePort; parameter L.Units.Capacitance C = 1; equation i = C*der(v); end Capacitor;
  end Basic;
end L;
"""


def table(n):
    """The binding of an array: a matrix of n rows with ten numbers each, and one that is computed of it."""
    rows = ",\n".join("{" + ", ".join(f"{10*k + j}.5" for j in range(10)) + "}" for k in range(n))
    return model([f"parameter Real a[{n}, 10] = {{{rows}}}", f"parameter Real b[{n}, 10] = 2*a"], [])


def bank(n):
    """An array of n components whose modifiers are arrays."""
    head = "model R parameter Real R = 1; parameter Real T = 2; end R;\n"
    return head + model([f"parameter Real Rs[{n}] = fill(3, {n})", f"R r[{n}](R = Rs, T = 2*Rs)"], [])


def indices(n):
    """An array of n Integers, each of which is read for its value, and a loop over it."""
    listed = ", ".join(str(k) for k in range(1, n + 1))
    return model([f"parameter Integer k[{n}] = {{{listed}}}", f"Real x[{n}]"], ["for i in k loop x[i] = i; end for"])


def parts(n):
    """Components of a library: n resistors, each with a capacitor to the ground, as the standard library declares them."""
    declared = [f"Resistor r{k}(R = {k + 1}.0)" for k in range(n)] + [f"L.Basic.Capacitor c{k}(C = {k + 1}.0)" for k in range(n)]
    equations = [f"connect(r{k}.n, c{k}.p); connect(c{k}.n, ground.p)" for k in range(n)]
    equations += [f"connect(r{k}.n, r{k + 1}.p)" for k in range(n - 1)] + ["r0.p.v = time"]
    return LIBRARY + model(["extends L.Icon", "import L.Basic.*", "Ground ground"] + declared, equations)


def apart(n):
    """n equations that have nothing to do with one another."""
    return model([f"Real x{k}" for k in range(n)], [f"der(x{k}) = time - x{k}" for k in range(n)])


def circuit(n):
    """A ladder of n resistors and capacitors, as it is when it is flat."""
    equations = ["v0 = sin(time)", f"j{n} = 0"]
    for k in range(1, n + 1):
        equations += [f"v{k - 1} - v{k} = 2.0*j{k - 1}", f"0.1*der(v{k}) = j{k - 1} - j{k}"]
    return model([f"Real v{k}, j{k}" for k in range(n + 1)], equations)


def dense(n):
    """Entries of an incidence: about n of them, in a square matrix."""
    side = int(n**0.5)
    row = " + ".join(f"x{k}" for k in range(side))
    return model([f"Real x{k}" for k in range(side)], [f"{row} = {k}.0" for k in range(side)])


def lifts(n):
    """Offsets, dummies and derivatives: n masses that are moved along given paths."""
    equations = []
    for k in range(n):
        equations += [f"der(x{k}) = v{k}", f"2.0*der(v{k}) = f{k}", f"x{k} = sin(time)*exp(time)", f"der(w{k}) = f{k} - w{k}"]
    return model([f"Real x{k}, v{k}, f{k}, w{k}" for k in range(n)], equations)


def chain(n):
    """High offsets: the sum of d grows with the square of n, and so does the report at least."""
    return model([f"Real x{k}" for k in range(n)], ["x0 = time"] + [f"x{k} = der(x{k - 1})" for k in range(1, n)])


def rungs(n):
    """The ladder of n rungs that the program makes, as a text: its report is written, and then verified."""
    parts = (
        "connector Pin Real v; flow Real i; end Pin;\n"
        "partial model TwoPin Pin p; Pin n; Real v; Real i; equation v = p.v - n.v; 0 = p.i + n.i; i = p.i; end TwoPin;\n"
        "model Resistor extends TwoPin; parameter Real R = 1.0; equation v = R*i; end Resistor;\n"
        "model Capacitor extends TwoPin; parameter Real C = 1.0; equation i = C*der(v); end Capacitor;\n"
        "model Source extends TwoPin; parameter Real V = 1.0; equation v = V; end Source;\n"
        "model Ground Pin p; equation p.v = 0; end Ground;\n"
    )
    declared = ["Source s", "Ground g"] + [f"{part} {part[0].lower()}{k}" for k in range(1, n + 1) for part in ("Resistor", "Capacitor")]
    joined = ["connect(s.n, g.p)", "connect(s.p, r1.p)"]
    joined += [c for k in range(1, n + 1) for c in (f"connect(r{k}.n, c{k}.p)", f"connect(c{k}.n, g.p)")]
    joined += [f"connect(r{k}.n, r{k + 1}.p)" for k in range(1, n)]
    return parts + model(declared, joined)


def line(n):
    """A printed report that is one line of n bytes, on a model without equations."""
    return "x" * n


# Each series has what makes its inputs, what is asked for, and three sizes; a ladder is made by the program itself, and so is the report that is verified.
SERIES = {
    "ladder": (None, None, (100, 300, 1000)),
    "library": (library, "flat", (1000, 3000, 10000)),
    "annotation": (annotation, "flat", (20000, 60000, 180000)),
    "classes": (classes, "flat", (5000, 15000, 45000)),
    "parameters": (parameters, "flat", (5000, 15000, 45000)),
    "typed": (typed, "flat", (2500, 7500, 22500)),
    "icons": (icons, "flat", (500, 1500, 4500)),
    "parts": (parts, "flat", (100, 300, 900)),
    "table": (table, "flat", (100, 300, 900)),
    "bank": (bank, "flat", (300, 900, 2700)),
    "indices": (indices, "flat", (900, 2700, 8100)),
    "apart": (apart, "report", (5000, 15000, 45000)),
    "circuit": (circuit, "report", (2500, 7500, 22500)),
    "dense": (dense, "report", (25000, 75000, 225000)),
    "lifts": (lifts, "all", (1300, 3900, 11700)),
    "chain": (chain, "report", (30, 90, 270)),
    "verified": (rungs, "verify", (100, 300, 1000)),
    "line": (line, "verify", (7000000, 21000000, 63000000)),
}

# what a series ends with, where that is not 0
WANTED = {"line": 7}


def words_of(program, name, size):
    """The words of a row, and how many bytes its file has: the model, or the report where one is verified."""
    make, asked, _ = SERIES[name]
    if make is None:
        return ["--make", str(size)], ""
    path, report = OUT / f"{name}-{size}.mo", OUT / f"{name}-{size}.txt"
    if name == "line":
        path.write_text(model([], []))
        report.write_text(make(size))
    else:
        path.write_text(make(size))
    if asked != "verify":
        return ["--class", "M", "--emit", asked, path.name], path.stat().st_size
    if name != "line":
        with open(report, "wb") as written:
            subprocess.run([program, "--class", "M", "--emit", "report", path.name], cwd=OUT, stdout=written, check=True)
    return ["--class", "M", "--verify", report.name, path.name], report.stat().st_size


def run(program, words, wanted):
    """The status, seconds of processor time and megabytes of the best of some runs, as long as they end with the status that is wanted."""
    best = None
    for _ in range(RUNS):
        started = time.monotonic()
        with open(os.devnull, "wb") as nothing:
            process = subprocess.Popen([program, *words], cwd=OUT, stdout=nothing, stderr=nothing)
            while (ended := os.wait4(process.pid, os.WNOHANG))[0] == 0:
                if time.monotonic() - started > SECONDS:
                    process.kill()
                time.sleep(0.001)
        process.returncode = status = os.waitstatus_to_exitcode(ended[1])
        row = (status, ended[2].ru_utime + ended[2].ru_stime, ended[2].ru_maxrss / 1024)
        if status != wanted:
            return row
        best = row if best is None else (status, min(best[1], row[1]), max(best[2], row[2]))
    return best


def main():
    program = os.path.abspath(sys.argv[1]) if len(sys.argv) > 1 else str(TOP / "crates" / "mofront" / "out" / "mofront")
    chosen = sys.argv[2:] or list(SERIES)
    if not os.access(program, os.X_OK):
        sys.exit(f"there is no program {program}: build it by `rt run` in crates/mofront")
    OUT.mkdir(parents=True, exist_ok=True)
    print(f"{datetime.date.today()}, {platform.machine()}, {os.cpu_count()} processors, {platform.system()} {platform.release()}\n")
    print("| series | size | bytes | seconds | MB | times |\n|---|---|---|---|---|---|")
    failed = 0
    for name in chosen:
        wanted = WANTED.get(name, 0)
        before = None
        for size in SERIES[name][2]:
            words, length = words_of(program, name, size)
            status, seconds, megabytes = run(program, words, wanted)
            growth = f"{seconds / before:.1f}" if before and status == wanted else ""
            said = f"{seconds:.3f}" if status == wanted else f"status {status}"
            print(f"| {name} | {size} | {length} | {said} | {megabytes:.0f} | {growth} |", flush=True)
            failed += status != wanted
            before = seconds if status == wanted else None
    sys.exit(1 if failed else 0)


main()
