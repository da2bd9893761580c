#!/usr/bin/env python3
"""Wall time and peak memory of `cross glsl` beside spirv-cross, or of `cross check` beside spirv-val, on the same modules, side by
side in one run.

    bench/compare.py glsl|check [--runs N] [--every N] MODULE.spv|FOLDER ..

Each module is measured with both, in turn, N times (5); the least time and the least memory count. A folder stands for
all modules below it, or every N-th of them, of which the sums over those that both take are told. Where a module
`NAME-10.spv` stands beside `NAME.spv` the ratio of their times is printed too: ten times the input is to cost at most
thirteen times the time.

A command that takes more than 5 seconds in all is not run again, and one that takes 20 seconds is ended, which its status
tells. Peak memory is told by GNU time where it is installed; without it, memory below that of this script itself, some
10 MB, is not told apart. The script skips, with status 0, where the peer (Debian's spirv-cross or spirv-tools) or the built program
is missing.
"""
import argparse
import os
import shutil
import signal
import statistics
import time

TOP = os.path.dirname(os.path.dirname(os.path.abspath(__file__)))
CROSS = os.environ.get("CROSS", os.path.join(TOP, "crates", "cross", "out", "cross"))
# The commands of the peers; the module's path is their last word.
PEERS = {"glsl": ["spirv-cross", "--version", "460", "--vulkan-semantics"], "check": ["spirv-val", "--target-env", "vulkan1.3"]}
GNU_TIME = "/usr/bin/time"
MOST_SECONDS = 20
ENOUGH_SECONDS = 5


class Cost:
    """The least seconds and peak kilobytes of the runs so far, the seconds of all, and the status of the last."""

    def __init__(self):
        self.seconds, self.kilobytes, self.all_seconds, self.status = float("inf"), float("inf"), 0.0, 0

    def add(self, seconds, kilobytes, status):
        self.seconds, self.kilobytes = min(self.seconds, seconds), min(self.kilobytes, kilobytes)
        self.all_seconds, self.status = self.all_seconds + seconds, status


def started(command, module, err):
    """The process of a command with the module as its input. It is spawned and not forked, so that this script's own size counts little."""
    source, sink = os.open(module, os.O_RDONLY), os.open("/dev/null", os.O_WRONLY)
    streams = ((source, 0), (sink, 1), (sink if err is None else err, 2))
    actions = [(os.POSIX_SPAWN_DUP2, old, new) for old, new in streams]
    try:
        return os.posix_spawnp(command[0], command, os.environ, file_actions=actions)
    finally:
        os.close(source)
        os.close(sink)


def ended(pid):
    """Status and usage of a process, which is ended where it takes too long."""
    signal.signal(signal.SIGALRM, lambda *_: os.kill(pid, signal.SIGKILL))
    signal.alarm(MOST_SECONDS)
    _, status, usage = os.wait4(pid, 0)
    signal.alarm(0)
    return os.waitstatus_to_exitcode(status), usage


def timed(command, module):
    """Seconds, peak kilobytes and status of one run, as the system tells them."""
    start = time.monotonic()
    status, usage = ended(started(command, module, None))
    return time.monotonic() - start, usage.ru_maxrss, status


def peak(command, module):
    """Peak kilobytes of one run, as GNU time tells them from a process that is small itself."""
    read, write = os.pipe()
    pid = started([GNU_TIME, "-q", "-f", "%M", *command], module, write)
    os.close(write)
    with os.fdopen(read) as told:
        lines = told.read().split("\n")
    ended(pid)
    numbers = [line for line in lines if line.isdigit()]
    return int(numbers[-1]) if numbers else float("inf")


def measured(action, module, runs):
    """The costs of `cross` and of the peer, run in turn."""
    commands = [[CROSS, action], [*PEERS[action], module]]
    costs = [Cost() for _ in commands]
    for _ in range(runs):
        for command, cost in zip(commands, costs):
            if cost.all_seconds < ENOUGH_SECONDS:
                cost.add(*timed(command, module))
    if os.access(GNU_TIME, os.X_OK):
        for command, cost in zip(commands, costs):
            if cost.seconds < ENOUGH_SECONDS:
                cost.kilobytes = peak(command, module)
    return costs


def told(action, name, cross, peer):
    """A line on the costs of one module."""
    return (
        f"{name}: cross {cross.seconds * 1000:.1f} ms {cross.kilobytes} kB status {cross.status},"
        f" {PEERS[action][0]} {peer.seconds * 1000:.1f} ms {peer.kilobytes} kB status {peer.status},"
        f" time x{cross.seconds / peer.seconds:.2f}, memory x{cross.kilobytes / peer.kilobytes:.2f}"
    )


def modules_below(folder, every):
    """The modules below a folder, in order of their names, or every n-th of them."""
    paths = [os.path.join(top, name) for top, _, names in os.walk(folder) for name in names if name.endswith(".spv")]
    return sorted(paths)[::every]


def sums(action, folder, every, runs):
    """Prints the sums over the modules below a folder that both take."""
    modules = modules_below(folder, every)
    costs = [measured(action, module, runs) for module in modules]
    both = [pair for pair in costs if pair[0].status == 0 and pair[1].status == 0]
    refused = sum(pair[0].status == 2 for pair in costs)
    size = sum(os.path.getsize(module) for module in modules)
    print(f"{folder}: {len(modules)} modules, {size} bytes, {len(both)} taken by both, {refused} refused by cross")
    if not both:
        return
    other = PEERS[action][0]
    seconds = [sum(pair[side].seconds for pair in both) for side in (0, 1)]
    for name, whole in (("median", statistics.median), ("largest", max)):
        memory = [whole(pair[side].kilobytes for pair in both) for side in (0, 1)]
        print(f"  {name} memory: cross {memory[0]:.0f} kB, {other} {memory[1]:.0f} kB, x{memory[0] / memory[1]:.2f}")
    print(f"  least times summed: cross {seconds[0]:.3f} s, {other} {seconds[1]:.3f} s, x{seconds[0] / seconds[1]:.2f}")
    worst = sorted(zip(costs, modules), key=lambda row: row[0][1].seconds / row[0][0].seconds)[:3]
    for pair, module in worst:
        print("  slowest beside it: " + told(action, os.path.relpath(module, folder), *pair))


def main():
    words = argparse.ArgumentParser(description="cross glsl beside spirv-cross, cross check beside spirv-val")
    words.add_argument("action", choices=list(PEERS))
    words.add_argument("paths", nargs="+", metavar="MODULE.spv|FOLDER")
    words.add_argument("--runs", type=int, default=5)
    words.add_argument("--every", type=int, default=1)
    given = words.parse_args()
    peer = PEERS[given.action][0]
    if not os.access(CROSS, os.X_OK) or shutil.which(peer) is None:
        print(f"skipped: the built program or {peer} is missing")
        return
    times = {}
    for path in given.paths:
        if os.path.isdir(path):
            sums(given.action, path, given.every, given.runs)
            continue
        ours, theirs = measured(given.action, path, given.runs)
        times[path] = (ours.seconds, theirs.seconds)
        print(f"{os.path.getsize(path):8} bytes  " + told(given.action, os.path.basename(path), ours, theirs), flush=True)
    for path, (ours, theirs) in times.items():
        longer = path[: -len(".spv")] + "-10.spv"
        if longer in times:
            ratios = f"cross x{times[longer][0] / ours:.1f}, {peer} x{times[longer][1] / theirs:.1f}"
            print(f"{os.path.basename(path)}: ten times the input costs {ratios}")


main()
