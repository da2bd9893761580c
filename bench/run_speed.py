#!/usr/bin/env python3
"""How many steps of a module `cross run` makes in a second.

    bench/run_speed.py [--times N] [--steps N]

One invocation runs a loop that does not end, of 23 instructions with a call, an access chain and a load of workgroup memory in each
round, until its steps are used up. The module is that of prefix sums among the examples, with a workgroup of one invocation, a condition
that compares the counter of the loop with itself, and an index that stays. A second run makes one step, and the difference of the least
times of both is that of the steps. It skips, with status 0, where the built program (`CROSS`) is missing.
"""
import argparse
import os
import struct
import subprocess
import sys
import time

sys.dont_write_bytecode = True
from spirv_words import Op, instructions

TOP = os.path.dirname(os.path.dirname(os.path.abspath(__file__)))
CROSS = os.environ.get("CROSS", os.path.join(TOP, "crates", "cross", "out", "cross"))
MODULE = os.path.join(TOP, "crates", "cross_examples", "data", "modules", "prefix_sums.spv")
MOST_STEPS = 100000
# ids of the module: the number of the invocation, the element that a round of the loop reads
OWN_NUMBER, ELEMENT = 51, 70


def endless(data):
    """The module with one invocation in a workgroup, and a loop that does not end."""
    changed = list(struct.unpack("<5I", data[:20]))
    for op, words in instructions(data):
        words = list(words)
        if op == Op.ExecutionMode:
            words[3] = 1
        elif op == Op.ULessThanEqual:
            words[4] = words[3]
        elif op == Op.AccessChain and words[2] == ELEMENT:
            words[4] = OWN_NUMBER
        changed += words
    return struct.pack(f"<{len(changed)}I", *changed)


def least_time(module, steps, times):
    """The least time of a run of so many steps, in seconds."""
    case = f"groups=1,1,1;buffer=0.0:5,0;steps={steps}"
    least = None
    for _ in range(times):
        begun = time.perf_counter()
        done = subprocess.run([CROSS, "run", case], input=module, capture_output=True)
        spent = time.perf_counter() - begun
        if done.returncode != 0 or not done.stdout.endswith(b"\ncut 0\n"):
            sys.exit(f"the run ended otherwise: {done.returncode} {done.stdout[-80:]} {done.stderr}")
        least = spent if least is None else min(least, spent)
    return least


def main():
    parser = argparse.ArgumentParser(description=__doc__.split("\n")[0])
    parser.add_argument("--times", type=int, default=20, help="how often each run is made")
    parser.add_argument("--steps", type=int, default=MOST_STEPS, help="how many steps the long run makes")
    options = parser.parse_args()
    if not os.access(CROSS, os.X_OK):
        print(f"skipped: there is no {CROSS}")
        return
    with open(MODULE, "rb") as file:
        module = endless(file.read())
    long = least_time(module, options.steps, options.times)
    short = least_time(module, 1, options.times)
    rate = (options.steps - 1) / max(long - short, 1e-9)
    print(f"{options.steps} steps {long * 1000:.1f} ms, one step {short * 1000:.1f} ms: {rate / 1e6:.2f} million steps a second")


main()
