"""Times two sides in turn within one run, and says how they compare. The scripts beside it use this.

Machines are shared and noisy, so a number means something only beside the other side's of the same
run: each side runs in turn, the best of the rounds counts, and processor time moves less than wall time.
"""
import os
import subprocess
import sys
import time
from pathlib import Path

TOP = Path(__file__).resolve().parent.parent
# Where the channels' makers and the peers lie.
PEERS = TOP / "bench" / "peers"
ROUNDS = 5


def stop(why):
    """Says why a bench can't run, and ends with status 2."""
    print(f"can't run: {why}", file=sys.stderr)
    sys.exit(2)


def needs_peers(*names):
    for name in names:
        if not (PEERS / name).is_file():
            stop(f"there is no {name} in {PEERS}")


def needs_program(crate):
    """The built program of a crate."""
    program = TOP / "crates" / crate / "out" / crate
    if not program.is_file():
        stop(f"there is no {program.relative_to(TOP)}: run `rt run` in crates/{crate} first")
    return program


def python_with(*modules):
    """A Python that has these modules: the one that runs this, or the system's."""
    for python in (sys.executable, "/usr/bin/python3"):
        if subprocess.run([python, "-c", f"import {', '.join(modules)}"], stderr=subprocess.DEVNULL).returncode == 0:
            return python
    packages = " ".join(f"python3-{module}" for module in modules)
    stop(f"no Python here has {' and '.join(modules)}: `apt install {packages}`, and where another Python is the "
         "default, its folder on PYTHONPATH")


def made(folder, python, size="medium"):
    """The repodata.json of a channel in this folder, of the size that make_channel.py knows."""
    source = folder / "repodata.json"
    subprocess.run([python, PEERS / "make_channel.py", "--size", size, "--output", source],
                   check=True, stdout=subprocess.DEVNULL)
    return source


def run(command, source=None):
    """Runs a command once: its seconds of wall and of processor time, and its output."""
    with open(source or os.devnull, "rb") as given:
        begin = time.perf_counter()
        process = subprocess.Popen(command, stdin=given, stdout=subprocess.PIPE)
        output = process.stdout.read()
        _, status, usage = os.wait4(process.pid, 0)
        wall = time.perf_counter() - begin
    process.stdout.close()
    process.returncode = os.waitstatus_to_exitcode(status) if hasattr(os, "waitstatus_to_exitcode") else status
    if process.returncode != 0:
        sys.exit(f"{command[0]} ended with status {process.returncode}")
    return wall, usage.ru_utime + usage.ru_stime, output


def in_turn(*sides, rounds=ROUNDS):
    """The best (wall, processor) seconds of each side, a function that runs it once and gives these two."""
    best = [(float("inf"), float("inf"))] * len(sides)
    for _ in range(rounds):
        for at, side in enumerate(sides):
            best[at] = tuple(map(min, best[at], side()[:2]))
    return best


def report(names, best, unit=1e3, what="ms"):
    """Prints a line a side, and the ratio of the first to the second."""
    for name, (wall, processor) in zip(names, best):
        print(f"{name:<34} wall {wall * unit:9.2f} {what}   processor {processor * unit:9.2f} {what}")
    wall, processor = (best[0][at] / best[1][at] for at in (0, 1))
    print(f"{'ratio of the times':<34} wall {wall:9.2f}      processor {processor:9.2f}")
