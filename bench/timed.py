"""A small program over copies of some of the crates, built in a folder of its own, for bench/hashing, bench/decoding and
bench/map."""
import os
import shutil
import subprocess
import sys

TOP = os.path.dirname(os.path.dirname(os.path.abspath(__file__)))


def build(folder, name, crates, uses, program, proofs={}):
    """The path of the program NAME, built over the CRATES, which it uses as USES says, with its PROOFS by their paths."""
    libraries = {}
    for line in open(os.path.join(TOP, "crates.txt")):
        crate, _, used = line.partition(":")
        libraries[crate] = used.strip()
    with open(os.path.join(folder, "crates.txt"), "w") as out:
        for crate in crates:
            out.write(f"{crate}: {libraries[crate]}\n")
            shutil.copytree(os.path.join(TOP, "crates", crate), os.path.join(folder, "crates", crate),
                            ignore=shutil.ignore_patterns("must-fail", "out"))
        out.write(f"{name}: {uses}\n")
    home = os.path.join(folder, "crates", name)
    for path, text in {"src/main.rt": program, **proofs}.items():
        os.makedirs(os.path.dirname(os.path.join(home, path)), exist_ok=True)
        with open(os.path.join(home, path), "w") as out:
            out.write(text)
    made = subprocess.run(["rt", "run", name], cwd=home, capture_output=True, text=True)
    built = os.path.join(home, "out", name)
    if not os.path.exists(built):
        sys.exit(made.stdout + made.stderr)
    return built


def lines_of(program, runs):
    """The numbers of each line that so many runs of the program print."""
    found = []
    for _ in range(runs):
        run = subprocess.run([program], capture_output=True, text=True, check=True)
        found += [tuple(map(int, line.split())) for line in run.stdout.splitlines()]
    return found
