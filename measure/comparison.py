"""What the comparisons of compiled operations share (ranges.py, duals.py): the operations by their numbers, the library that has them, the slips, the run."""
import contextlib
import io
import os
import subprocess
import sys
import time
import types
from pathlib import Path

HERE = Path(__file__).resolve().parent
TARGET = HERE.parent / "target"

# The operations in the order of their numbers (crates/measured/specs/Applied.antt), with the rule of each among the rules r.
OPERATIONS = {
    "neg": lambda r, k, t, a, b: r.neg(a),
    "add": lambda r, k, t, a, b: r.add(a, b),
    "sub": lambda r, k, t, a, b: r.sub(a, b),
    "mul": lambda r, k, t, a, b: r.mul(a, b),
    "div": lambda r, k, t, a, b: r.div(a, b),
    "powi": lambda r, k, t, a, b: r.powi(a, k),
    "sqrt": lambda r, k, t, a, b: r.sqrt(a),
    "ln": lambda r, k, t, a, b: r.ln(a),
    "ln_1p": lambda r, k, t, a, b: r.ln_1p(a),
    "exp": lambda r, k, t, a, b: r.exp(a),
    "powf": lambda r, k, t, a, b: r.powf(a, b),
    "tanh": lambda r, k, t, a, b: r.tanh(a),
    "if_below": lambda r, k, t, a, b: r.if_below(a, t, a, b),
}


def build():
    """The shared object."""
    archive, shared = TARGET / "staticlib/libmeasured.a", TARGET / "measure/libmeasured.so"
    if subprocess.run([HERE.parent / "tools/archive", "measured"]).returncode != 0:
        sys.exit(1)
    shared.parent.mkdir(parents=True, exist_ok=True)
    whole = ["-Wl,--whole-archive", str(archive), "-Wl,--no-whole-archive"]
    subprocess.run([os.environ.get("CC", "cc"), "-shared", "-o", str(shared), *whole], check=True)
    return shared


def see_slips(name, differences):
    """Makes the slips of NAME_slips.txt in NAME_rules.py, one at a time; the quick comparison with these rules must see each."""
    text = (HERE / f"{name}_rules.py").read_text()
    for slip in (HERE / f"{name}_slips.txt").read_text().splitlines():
        old, new = slip.split(" => ")
        if text.count(old) != 1:
            sys.exit(f"does not apply: {slip}")
        rules = types.ModuleType("slip")
        exec(text.replace(old, new), rules.__dict__)
        with contextlib.redirect_stdout(io.StringIO()):
            try:
                seen = any(differences(rules, True))
            except AssertionError:
                seen = True
        if not seen:
            sys.exit(f"not seen: {slip}")
        print(f"seen: {slip}", flush=True)


def run(name, rules, differences):
    """What the command line asks for; `differences(rules, quick)` has a number for each operation."""
    if sys.argv[1:] == ["--slips"]:
        return see_slips(name, differences)
    started = time.monotonic()
    differ = sum(differences(rules, sys.argv[1:] == ["--quick"]))
    print(f"{name}s: {differ} differ; {time.monotonic() - started:.0f} seconds")
    sys.exit(differ > 0)
