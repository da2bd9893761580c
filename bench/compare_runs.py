#!/usr/bin/env python3
"""What `cross run` leaves in memory beside two others that run the same module: a plain interpreter of SPIR-V, and a device.

    bench/compare_runs.py --lab FOLDER [--corpus FOLDER] [--only GLOB] [--variant GLOB] [--sample N]
    bench/compare_runs.py --lab FOLDER --random N [--seed S]

FOLDER is a laboratory of shaders: `shaders/NAME.json` beside each shader (its sidecar: groups, buffers with their first words, push
constants, specializations), `lab.py` that reads these, `spvi.c` (the interpreter), `vkrun.c` (the device, by Vulkan). The modules are
those of the corpus that its `build.py` made. With `--random` they are those of `random_modules.py`.

A module and a specialization of its sidecar are a case. Where a case has more invocations than `run` takes, or more events, it gets
fewer workgroups, for all three. Every third case has a list `first` made by the seed, so that the invocations move in another order;
every twentieth random case may make a few steps only. The last words of all buffers are compared with the interpreter's, and in every
N-th case (`--device N`, 0 for none) with the device's.

The interpreter runs one workgroup after another, and in it one invocation after another up to the next barrier. Where the words differ
and there is more than one invocation, the case is run once more with one invocation after another, by its list `first`: each number is
repeated as often as there are events, since an item that may not move on changes nothing. (Behind a barrier the order differs again, as
the last to reach it goes on at once.) What is the same then depends on the order and is counted apart. The device has an order of its
own and is not asked where the order matters. Of random modules it is known whether the order matters; where it does not, a run in
another order has the same words and as many events.

A run of ours that is undefined, waits or is cut ends early, so its words are not compared; that it ends so is: the interpreter notes a
division without value, an index or bit field outside, Unreachable, and a barrier that not all reach, and it counts steps. Where it notes
one and ours goes on to the end, that is a difference too.

A case in which ours and the interpreter agree and the device does not is the device's fault and listed, with what is known of it: Mesa's
OpSMod is an OpSRem. It is not asked where the interpreter notes anything. Status 1 where ours and the interpreter differ. The script
skips, with status 0, where the built program (`CROSS`), a C compiler, the laboratory or its corpus is missing.
"""
import argparse
import collections
import concurrent.futures
import fnmatch
import importlib
import json
import math
import os
import random
import re
import shutil
import subprocess
import sys
import tempfile
import time
from dataclasses import dataclass, field, replace

sys.dont_write_bytecode = True  # neither here nor in the laboratory
import random_modules
from spirv_words import BuiltIn, Mark, Op, instructions

TOP = os.path.dirname(os.path.dirname(os.path.abspath(__file__)))
CROSS = os.environ.get("CROSS", os.path.join(TOP, "crates", "cross", "out", "cross"))
MOST_INVOCATIONS = 1024
MOST_STEPS = 100000
# The longest word of a command line that Linux takes is 32 pages with the zero behind it.
MOST_WORD = 32 * os.sysconf("SC_PAGE_SIZE") - 1
# What the interpreter notes of a run that has no meaning, and what it notes of one that has.
MEANINGLESS = {
    "division by zero": "division by zero",
    "signed division without a value": "signed division without a value",
    "an index outside": "index outside",
    "a vector index outside": "index outside",
    "a bit field outside": "bit field outside",
    "Unreachable reached": "Unreachable reached",
}
# Places outside of a buffer are read as zero by both; ours keeps what is written there, the interpreter does not.
OUTSIDE = {"a load outside", "a store outside", "an atomic outside", "an index outside"}
UNEVEN = "a barrier that not all reach"
LOCAL_SIZE, LOCAL_SIZE_ID = 17, 38


@dataclass
class Case:
    """What a module is run on."""

    groups: list
    buffers: list  # as (set, binding, kind, words), sorted
    push: list
    special: dict
    entries: list = field(default_factory=lambda: ["main"])  # the names of entry points, of which the first is run
    first: list = field(default_factory=list)
    steps: int = MOST_STEPS

    def word(self):
        """The CASE of the command line."""
        parts = ["groups=" + numbers(self.groups)]
        parts += [f"buffer={place}.{binding}:{numbers(words)}" for place, binding, _, words in self.buffers if words]
        parts += ["push=" + numbers(self.push)] if self.push else []
        parts += ["first=" + numbers(self.first)] if self.first else []
        return ";".join([*parts, f"steps={self.steps}"])

    def overrides(self):
        """The specialization as words: what has its top bit set in hexadecimal, which stands for integers of either sign."""
        return [f"{number}={word}" if word < 1 << 31 else f"{number}=0x{word:x}" for number, word in sorted(self.special.items())]

    def sidecar(self):
        """The same as a sidecar of the laboratory."""
        keys = ("set", "binding", "kind", "words", "init")
        buffers = [dict(zip(keys, (*buffer[:3], len(buffer[3]), [{"data": buffer[3]}]))) for buffer in self.buffers]
        return {"groups": self.groups, "buffers": buffers, **({"push": self.push} if self.push else {})}


@dataclass
class Answer:
    """What a side says: the words of each buffer by set and binding, and how it ended."""

    words: dict
    end: str = "ended"
    events: int = 0
    notes: list = field(default_factory=list)


def numbers(words):
    return ",".join(str(word) for word in words)


# Modules, as far as a case needs them.


def local_size(data, special):
    """How many invocations a workgroup has, under a specialization."""
    special_ids, values, composites, size, ids, whole = {}, {}, {}, (1, 1, 1), None, None
    for op, words in instructions(data):
        if op == Op.ExecutionMode and words[2] == LOCAL_SIZE:
            size = words[3:6]
        elif op == Op.ExecutionModeId and words[2] == LOCAL_SIZE_ID:
            ids = words[3:6]
        elif op == Op.Decorate and words[2] == Mark.SpecId:
            special_ids[words[1]] = words[3]
        elif op == Op.Decorate and words[2:4] == (Mark.BuiltIn, BuiltIn.WorkgroupSize):
            whole = words[1]
        elif op in (Op.Constant, Op.SpecConstant):
            values[words[2]] = special.get(special_ids.get(words[2]), words[3])
        elif op in (Op.ConstantComposite, Op.SpecConstantComposite):
            composites[words[2]] = words[3:]
        elif op == Op.Function:
            break
    ids = composites[whole] if whole else ids
    return math.prod(values[part] for part in ids) if ids else math.prod(size)


def fewer(groups):
    """Half the workgroups along the longest side."""
    longest = groups.index(max(groups))
    return [side // 2 if axis == longest else side for axis, side in enumerate(groups)]


def fitted(case, local):
    """The case with at most as many invocations as `run` takes, or none."""
    while math.prod(case.groups) * local > MOST_INVOCATIONS:
        if max(case.groups) == 1:
            return None
        case = replace(case, groups=fewer(case.groups))
    return case if len(case.word()) <= MOST_WORD else None


# The three sides.


class Sides:
    """The program under test, the interpreter and the device, and how many seconds each may take."""

    def __init__(self, lab, folder, seconds):
        self.lab, self.folder, self.seconds = lab, folder, seconds
        self.interpreter = self.built("spvi", [])
        self.device = self.built("vkrun", ["-lvulkan"])

    def built(self, name, libraries):
        """The path of a program of the laboratory, or none where it cannot be compiled."""
        path = os.path.join(self.folder, name)
        command = ["gcc", "-O2", "-std=gnu11", "-o", path, os.path.join(self.lab.HERE, name + ".c"), *libraries]
        return path if subprocess.run(command, capture_output=True).returncode == 0 else None

    def ours(self, case, module):
        """The answer of `cross run`, or (status, line) where it gives none."""
        entry = ["--entry", case.entries[0]] if len(case.entries) > 1 else []
        command = [CROSS, "run", *entry, case.word(), *case.overrides()]
        with open(module, "rb") as source:
            try:
                done = subprocess.run(command, stdin=source, capture_output=True, timeout=self.seconds)
            except subprocess.TimeoutExpired:
                return "timeout", f"over {self.seconds} s"
        if done.returncode != 0:
            said = done.stderr.decode(errors="replace").strip()
            return done.returncode, "output beside a status" if done.stdout else said
        return read_answer(case, done.stdout.decode(errors="replace"), done.stderr)

    def other(self, run, program, case, module):
        """The answer of the interpreter or of the device, or (status, line)."""
        with tempfile.NamedTemporaryFile("w", suffix=".job", dir=self.folder) as job:
            job.write(self.lab.job_text(case.sidecar(), [case.special], case.entries[0]))
            job.flush()
            status, runs, *notes = run(program, module, job.name)
        if status != 0:
            return status, runs
        return Answer(self.lab.parse_run(runs[0]), notes=notes[0] if notes else [])

    def interpreted(self, case, module):
        return self.other(self.lab.spvi, self.interpreter, case, module)

    def on_device(self, case, module):
        return self.other(self.lab.vkrun, self.device, case, module)

    def ends_within(self, case, module, steps):
        """Whether all invocations together end within so many steps of the interpreter."""
        return isinstance(self.other(lambda *words: self.lab.spvi(*words, steps=steps), self.interpreter, case, module), Answer)


def read_answer(case, text, notes):
    """The answer that a text gives, which has to have the lines of `run` and no others."""
    lines = text.split("\n")
    places = [(place, binding) for place, binding, _, words in case.buffers if words]
    if notes or len(lines) != len(places) + 3 or lines[-1]:
        return "form", "other lines than a run has"
    words = {}
    for (place, binding), line in zip(places, lines):
        if not re.fullmatch(rf"{place}\.{binding}:( (0|[1-9][0-9]*))+", line):
            return "form", "no line of a buffer: " + line[:60]
        words[place, binding] = [int(word) for word in line.split(" ")[1:]]
    events, end = lines[-3:-1]
    if not re.fullmatch(r"events (0|[1-9][0-9]*)", events) or not re.fullmatch(r"ended|waiting|(undefined|cut) (0|[1-9][0-9]*)", end):
        return "form", "no end of a run: " + events[:30] + " " + end[:30]
    return Answer(words, end, int(events.split(" ")[1]))


def difference(case, ours, other):
    """The first word that differs, or none. A uniform block has its first words on our side, and no words on the other."""
    for place, binding, kind, first in case.buffers:
        mine = ours.words.get((place, binding), [])
        theirs = first if kind == "uniform" else other.words[place, binding]
        for at, (a, b) in enumerate(zip(mine, theirs)):
            if a != b:
                return f"buffer {place}.{binding} word {at}: {a} against {b}"
        if len(mine) != len(theirs):
            return f"buffer {place}.{binding}: {len(mine)} words against {len(theirs)}"
    return None


# Verdicts.

SAME, ORDERED, REFUSED, UNFIT, DIFFERENT = "same", "same in the interpreter's order", "refused", "does not fit", "DIFFERENT"


@dataclass
class Verdict:
    kind: str
    why: str = ""
    events: int = 0
    device: str = ""


def serial(case, invocations, events):
    """The case with one invocation after another, up to the barrier that it may not pass yet. Each stands in the list as often as there
    are events, or as the word has room for."""
    room = (MOST_WORD - len(case.word())) // (len(str(invocations)) + 1)
    often = min(events, room // invocations)
    return replace(case, first=[number for number in range(invocations) for _ in range(often)])


def judged_early(sides, case, module, ours, told):
    """The verdict on a run of ours that did not come to all ends."""
    if ours.end.startswith("undefined"):
        reasons = sorted({MEANINGLESS[note] for note in told.notes if note in MEANINGLESS})
        return Verdict("undefined: " + reasons[0]) if reasons else Verdict(DIFFERENT, ours.end + ", where the interpreter notes nothing")
    if ours.end == "waiting":
        return Verdict("waiting: " + UNEVEN) if UNEVEN in told.notes else Verdict(DIFFERENT, "waiting, where all reach each barrier")
    if sides.ends_within(case, module, case.steps):
        return Verdict(DIFFERENT, f"{ours.end}, where all invocations end within {case.steps} steps together")
    return Verdict("cut: more steps than a case may have")


def judged_ended(sides, task, case, local, ours, told):
    """The verdict on a run of ours in which every invocation ended."""
    early = [note for note in told.notes if note == UNEVEN or note in MEANINGLESS and (task.fixed or note not in OUTSIDE)]
    if early:
        return Verdict(DIFFERENT, "ended, where the interpreter notes: " + early[0])
    differs = difference(case, ours, told)
    if not differs:
        return Verdict(SAME, events=ours.events)
    if OUTSIDE.intersection(told.notes) and not task.order:
        return Verdict("not comparable: places outside of a buffer are written and read", differs)
    invocations = math.prod(case.groups) * local
    if invocations > 1:
        again = sides.ours(serial(case, invocations, ours.events), task.module)
        if isinstance(again, Answer) and again.end == "ended" and not difference(case, again, told):
            return Verdict(ORDERED, events=again.events)
    return Verdict(DIFFERENT, differs)


def judged(sides, task):
    """The verdict on a task, with fewer workgroups where it has too many invocations or events."""
    module, data = task.module, read(task.module)
    local = local_size(data, task.case.special)
    case = fitted(task.case, local)
    while case:
        ours = sides.ours(case, module)
        if isinstance(ours, Answer) or ours[1] != "limit events 1048576" or max(case.groups) == 1:
            break
        case = replace(case, groups=fewer(case.groups), first=[])
    if not case:
        return Verdict(UNFIT)
    if not isinstance(ours, Answer):
        return judged_status(*ours)
    told = sides.interpreted(case, module)
    if not isinstance(told, Answer):
        return by_device(sides, case, module, ours, told)
    if ours.end != "ended":
        return judged_early(sides, case, module, ours, told)
    verdict = judged_ended(sides, task, case, local, ours, told)
    if task.order in ("any", "rounds") and verdict.kind in (SAME, ORDERED):
        verdict = judged_any_order(sides, case, module, ours, verdict)
    if task.with_device and sides.device and verdict.kind == SAME and not told.notes:
        verdict.device = device_says(sides, case, module, data, told)
    return verdict


def judged_any_order(sides, case, module, ours, verdict):
    """The verdict where the order is known not to matter: rounds alone have the same words, and the same number of events."""
    if verdict.kind == ORDERED:
        return Verdict(DIFFERENT, "one order is the interpreter's and another is not, where the order is not to matter")
    if case.first and sides.ours(replace(case, first=[]), module) != ours:
        return Verdict(DIFFERENT, "rounds alone end otherwise, where the order is not to matter")
    return verdict


def judged_status(status, line):
    """The verdict where ours gives no answer: a rule of the profile, a limit, or what is no answer at all."""
    if status == 2:
        return Verdict(REFUSED + line.removeprefix("refused").split(" at ")[0])
    if status == 3:
        return Verdict(UNFIT + ": " + line)
    return Verdict(DIFFERENT, f"status {status}: {line}")


def by_device(sides, case, module, ours, told):
    """The verdict where the interpreter has no answer: the device's alone."""
    if ours.end.startswith("cut") and told[0] == 3:
        return Verdict("cut: more steps than a case may have")
    said = sides.on_device(case, module) if sides.device and ours.end == "ended" else told
    if not isinstance(said, Answer):
        return Verdict("not compared", f"the interpreter ends with {told[0]}, {told[1]}")
    differs = difference(case, ours, said)
    if differs:
        return Verdict(DIFFERENT, "from the device: " + differs)
    return Verdict("same as the device, where the interpreter has no answer")


def device_says(sides, case, module, data, told):
    """`same`, or what the device does otherwise than the interpreter, and whether that is known of it."""
    said = sides.on_device(case, module)
    if not isinstance(said, Answer):
        return f"no answer: {said[1]}"
    differs = difference(case, Answer({**told.words, **uniform_words(case)}), said)
    if not differs:
        return SAME
    return differs + (" (known: its OpSMod is OpSRem)" if any(op == Op.SMod for op, _ in instructions(data)) else " (not known)")


def uniform_words(case):
    return {(place, binding): words for place, binding, kind, words in case.buffers if kind == "uniform"}


# The cases of a laboratory.


def cases_of(lab, sidecar, data, seed):
    """The cases of a module: one for each specialization of its sidecar that it takes."""
    buffers = sorted((b["set"], b["binding"], b.get("kind", "storage"), lab.words_of(b)) for b in sidecar["buffers"])
    known, cases = lab.spec_ids(data), []
    for special in lab.spec_sets(sidecar):
        special = {number: word for number, word in special.items() if number in known}
        push = [word & 0xFFFFFFFF for word in sidecar.get("push", [])]
        case = Case(list(sidecar["groups"]), buffers, push, special, lab.entry_names(data))
        if case not in cases:
            cases.append(case)
    for number, case in enumerate(cases):
        case.first = order_by(f"{seed} {number}", math.prod(case.groups) * local_size(data, case.special))
    return cases


def order_by(seed, invocations):
    """In every third case a list of invocations, some of which are none; else no list."""
    chance = random.Random(seed)
    if chance.random() > 1 / 3:
        return []
    length = chance.randrange(1, 300)
    return [chance.randrange(invocations) if chance.random() < 0.9 else invocations + chance.randrange(3) for _ in range(length)]


@dataclass
class Task:
    """A module's name and path, its case, and whether the device is asked too. Of a random module is known how its results depend on the
    order, as `random_modules` says, and that it writes nothing outside of buffers."""

    name: str
    module: str
    case: Case
    with_device: bool
    order: str = ""
    fixed: bool = False  # whether an index that is outside is always one into an array of a fixed length


def corpus_tasks(lab, given):
    """The cases of the modules of a corpus that were asked for."""
    with open(os.path.join(given.corpus, "manifest.json")) as file:
        modules = json.load(file)["modules"]
    sidecars = lab.load_sidecars()
    wanted = [m for m in modules if fnmatch.fnmatch(m["shader"], given.only)]
    wanted = [m for m in wanted if any(fnmatch.fnmatch(v, given.variant) for v in [m["variant"], *m["aliases"]])]
    tasks = []
    for module in wanted[:: given.sample]:
        if sidecars[module["shader"]].get("norun"):
            continue
        path = os.path.join(given.corpus, module["file"])
        data = read(path)
        for case in cases_of(lab, sidecars[module["shader"]], data, f"{given.seed} {module['file']}"):
            asked = given.device and len(tasks) % given.device == 0
            tasks.append(Task(" ".join([module["shader"], module["variant"], *case.overrides()]), path, case, bool(asked)))
    return tasks


def random_tasks(lab, given, folder):
    """The cases of random modules, whose seeds are numbered from the seed on."""
    tasks = []
    for number in range(given.seed, given.seed + given.random):
        shader = random_modules.Shader(str(number))
        path = os.path.join(folder, f"{number}.spv")
        with open(path, "wb") as file:
            file.write(shader.data)
        if not valid(path, shader.minor):
            print(f"random {number}: spirv-val refuses it")
            continue
        (case,) = cases_of(lab, shader.sidecar, shader.data, number)
        if shader.order == "rounds":
            case.first = []
        if number % 20 == 0:
            case.steps = random.Random(number).randrange(1, 500)
        asked = shader.careful and given.device and number % given.device == 0
        tasks.append(Task(f"random {number}", path, case, bool(asked), shader.order, shader.careless))
    return tasks


def valid(path, minor):
    """Whether spirv-val takes a module; true where there is none."""
    if shutil.which("spirv-val") is None:
        return True
    environment = ["vulkan1.0", "vulkan1.1", "vulkan1.1", "vulkan1.1", "vulkan1.1spv1.4", "vulkan1.2", "vulkan1.3"][minor]
    return subprocess.run(["spirv-val", "--target-env", environment, path], capture_output=True).returncode == 0


def read(path):
    with open(path, "rb") as file:
        return file.read()


# What is told.


def tell(tasks, verdicts, seconds):
    """Prints the counts and whatever differs; whether nothing does."""
    kinds = collections.Counter(verdict.kind for verdict in verdicts)
    modules, events = len({task.module for task in tasks}), sum(verdict.events for verdict in verdicts)
    print(f"{len(tasks)} cases of {modules} modules in {seconds:.0f} s, {events} events")
    for kind, count in sorted(kinds.items(), key=lambda row: -row[1]):
        print(f"  {count:6}  {kind}")
    asked = [(task, verdict.device) for task, verdict in zip(tasks, verdicts) if verdict.device]
    print(f"on the device: {len(asked)} cases, {sum(device == SAME for _, device in asked)} the same")
    for task, device in asked:
        if device != SAME:
            print(f"  {task.name}: {device}")
    for kind in kinds:
        names = [task.name for task, verdict in zip(tasks, verdicts) if verdict.kind == kind and not task.order]
        if names and kind not in (SAME, DIFFERENT):
            print(f"{kind}: " + ", ".join(names[:12]) + (f", and {len(names) - 12} more" if len(names) > 12 else ""))
    for task, verdict in zip(tasks, verdicts):
        if verdict.kind == DIFFERENT:
            print(f"DIFFERENT {task.name}: {verdict.why}")
    return kinds[DIFFERENT] == 0


def keep(folder, tasks, verdicts):
    """Copies the modules that differ, each with the words of its command line."""
    os.makedirs(folder, exist_ok=True)
    for task, verdict in zip(tasks, verdicts):
        if verdict.kind == DIFFERENT:
            stem = os.path.join(folder, task.name.replace(" ", "_"))
            shutil.copy(task.module, stem + ".spv")
            with open(stem + ".words", "w") as file:
                file.write(" ".join(["run", task.case.word(), *task.case.overrides()]) + "\n")


def coverage(tasks):
    """How many opcodes and extended instructions the modules have."""
    found = set()
    for task in tasks:
        for op, words in instructions(read(task.module)):
            found.add((op, words[4] if op == random_modules.Op.ExtInst else 0))
    return len(found)


def laboratory(folder):
    """The module `lab` of a laboratory, or none."""
    if not folder or not os.path.exists(os.path.join(folder, "lab.py")):
        return None
    sys.path.insert(0, folder)
    return importlib.import_module("lab")


def missing(given, lab):
    """What the comparison needs and does not find, or nothing."""
    if not os.access(CROSS, os.X_OK):
        return "the built program"
    if subprocess.run([CROSS, "run", "groups=1,1,1;steps=1"], stdin=subprocess.DEVNULL, capture_output=True).returncode == 1:
        return "the command run of the built program"
    if shutil.which("gcc") is None:
        return "gcc"
    if lab is None:
        return "the laboratory"
    if not given.random and not os.path.exists(os.path.join(given.corpus, "manifest.json")):
        return f"the corpus {given.corpus}, which the laboratory's build.py makes,"
    return None


def words_given():
    words = argparse.ArgumentParser(description="cross run beside an interpreter and a device")
    words.add_argument("--lab", help="the folder of the laboratory")
    words.add_argument("--corpus", default="/tmp/lab-corpus", help="the folder of its modules")
    words.add_argument("--only", default="*", help="shaders, as a pattern")
    words.add_argument("--variant", default="*", help="variants, as a pattern")
    words.add_argument("--sample", type=int, default=1, help="every N-th module")
    words.add_argument("--random", type=int, default=0, help="so many random modules in place of the corpus")
    words.add_argument("--seed", type=int, default=1, help="the first seed of random modules; the seed of orders")
    words.add_argument("--device", type=int, default=10, help="the device in every N-th case, 0 for none")
    words.add_argument("--jobs", type=int, default=1, help="so many cases at once")
    words.add_argument("--seconds", type=int, default=60, help="the time that a run may take")
    words.add_argument("--keep", help="a folder for modules that differ")
    return words.parse_args()


def main():
    given = words_given()
    lab = laboratory(given.lab)
    lacks = missing(given, lab)
    if lacks:
        print(f"skipped: {lacks} is missing")
        return 0
    with tempfile.TemporaryDirectory() as folder:
        sides = Sides(lab, folder, given.seconds)
        if not sides.interpreter:
            print("skipped: the interpreter cannot be compiled")
            return 0
        if given.device and not sides.device:
            print("the device is left out: vkrun cannot be compiled")
        tasks = random_tasks(lab, given, folder) if given.random else corpus_tasks(lab, given)
        start = time.monotonic()
        with concurrent.futures.ThreadPoolExecutor(given.jobs) as pool:
            verdicts = list(pool.map(lambda task: judged(sides, task), tasks))
        fine = tell(tasks, verdicts, time.monotonic() - start)
        if given.random:
            print(f"{coverage(tasks)} opcodes and extended instructions")
        if given.keep:
            keep(given.keep, tasks, verdicts)
    return 0 if fine else 1


if __name__ == "__main__":
    sys.exit(main())
