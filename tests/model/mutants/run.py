#!/usr/bin/env python3
"""run.py DIRECTORY [NAME...]

Runs the cases of a directory and its folders against the model and against each mutant.
NAME.txt is a text and NAME.out the output expected for it; NAME.script is a
script and NAME.sout the answers expected to it; NAME.records is a list of records
and NAME.page its tally; NAME.watch is a pair of two runs, as the program `pairs`
writes it, for the check of tests/pairs.py.

A mutant is a file NAME.patch beside this program with three lines: `file: PATH`,
`old: LINE` and `new: LINE`. The one line of the file that equals LINE, spaces at
its ends aside, is replaced. A mutant is caught when a case comes out differently.

The last line says how many are caught. The stored cases catch every mutant, pairs
those that leak. The exit is 1 if a mutant survives, if a patch does not fit, or if
the model itself fails a case.
"""
import os
import shutil
import subprocess
import sys
import tempfile

HERE = os.path.dirname(os.path.abspath(__file__))
PACKAGE = os.path.dirname(HERE)
sys.path.insert(0, os.path.dirname(PACKAGE))
import pairs

SECONDS = 20
# Modules that make or check input and hold no rule; left out for a quicker build.
LEFT_OUT = ("pub mod generate;", "pub mod tworuns;")
# By the ending of a case: the program that it is for, and the ending of what is expected.
CASES = {".records": ("tally", ".page"), ".script": ("script", ".sout"), ".txt": ("model", ".out")}


def read_patch(path):
    parts = {}
    with open(path) as patch:
        for line in patch:
            key, _, value = line.rstrip("\n").partition(": ")
            parts[key] = value
    return parts["file"], parts["old"].strip(), parts["new"].strip()


def apply(root, path, old, new):
    """Replaces the line; false if it is not there exactly once."""
    target = os.path.join(root, path)
    with open(target) as source:
        lines = source.read().split("\n")
    at = [n for n, line in enumerate(lines) if line.strip() == old]
    if len(at) != 1:
        return False
    lines[at[0]] = new
    with open(target, "w") as source:
        source.write("\n".join(lines))
    return True


def build(root):
    """Builds the library and the programs that cases are for; the error if it fails."""
    common = ["rustc", "--edition", "2021", "-C", "opt-level=0", "-C", "debuginfo=0", "-A", "warnings"]
    steps = [["--crate-type", "rlib", "--crate-name", "hub", "src/lib.rs", "-o", "libhub.rlib"]]
    for program, _ in CASES.values():
        steps.append(["--extern", "hub=libhub.rlib", f"src/bin/{program}.rs", "-o", program])
    for step in steps:
        done = subprocess.run(common + step, cwd=root, capture_output=True, text=True)
        if done.returncode != 0:
            return done.stderr
    return None


def read(path):
    with open(path, "rb") as file:
        return file.read()


def fails(root, stem, kind):
    """Whether a case comes out otherwise than expected."""
    if kind == ".watch":
        return pairs.fault(stem, pairs.played(os.path.join(root, "script"), stem)) is not None
    program, expected = CASES[kind]
    try:
        done = subprocess.run([os.path.join(root, program)], input=read(stem + kind), timeout=SECONDS,
                              stdout=subprocess.PIPE, stderr=subprocess.DEVNULL)
    except subprocess.TimeoutExpired:
        return True
    return done.returncode != 0 or done.stdout != read(stem + expected)


def read_cases(directory):
    """Pairs if there are any, else lists of records, scripts and texts in this order: the few that catch much come first."""
    names = sorted(os.path.join(folder, name) for folder, _, files in os.walk(directory) for name in files)
    paths = [os.path.splitext(name) for name in names]
    pairs = [path for path in paths if path[1] == ".watch"]
    order = list(CASES)
    return pairs or sorted((path for path in paths if path[1] in CASES), key=lambda path: order.index(path[1]))


def differing(root, cases):
    """The name of the first case that comes out differently, or None."""
    for stem, kind in cases:
        if fails(root, stem, kind):
            return os.path.basename(stem) + kind
    return None


def main():
    if len(sys.argv) < 2:
        sys.exit(__doc__)
    cases = read_cases(sys.argv[1])
    chosen = sys.argv[2:]
    names = sorted(name[:-6] for name in os.listdir(HERE) if name.endswith(".patch"))
    if chosen:
        names = [name for name in names if name in chosen]
    caught = 0
    with tempfile.TemporaryDirectory() as work:
        root = os.path.join(work, "model")

        def fresh():
            shutil.rmtree(root, ignore_errors=True)
            os.makedirs(root)
            shutil.copytree(os.path.join(PACKAGE, "src"), os.path.join(root, "src"))
            for module in LEFT_OUT:
                apply(root, "src/lib.rs", module, "")

        fresh()
        error = build(root)
        if error:
            sys.exit("the model does not build\n" + error)
        name = differing(root, cases)
        if name:
            sys.exit(f"the model itself fails {name}")
        print(f"the model passes {len(cases)} cases", flush=True)
        for mutant in names:
            fresh()
            if not apply(root, *read_patch(os.path.join(HERE, mutant + ".patch"))):
                print(f"{mutant}: the patch does not fit", flush=True)
                continue
            error = build(root)
            if error:
                print(f"{mutant}: does not build\n{error}", flush=True)
                continue
            name = differing(root, cases)
            print(f"{mutant}: " + (f"caught by {name}" if name else "SURVIVES"), flush=True)
            caught += name is not None
    print(f"{caught} of {len(names)} caught")
    sys.exit(0 if caught == len(names) else 1)


main()
