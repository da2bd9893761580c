"""Random modules of the profile, each with what it may be run on. `compare_runs.py` uses it.

A `Shader` has the bytes of a valid module (`data`), the buffers, push constants and specialization on which it may be run (`sidecar`), and
what is known of its runs. A module has all that the profile has: every operation on integers and bools, vectors, arrays, structs, phis,
selections, loops of a bounded number of turns, switches with falls, calls with values and pointers, atomics, barriers, variables of every
class, blocks with both layouts, specialization constants.

A module's `order` is one of three. In `any` no result depends on the order in which invocations move: an invocation writes to its own
elements, atomics that meet at a place commute and their answers are dropped, and workgroup memory is read behind a barrier. In `rounds`
each invocation draws a ticket before all else, so that results are the same in every order that begins as rounds do. In `one` anything
is read and written by anyone, so a run is compared in one order only. Some modules are `careful`: they read nothing
that the standard leaves undefined, so that a device may run them. Some are `careless`: they may divide by zero, index past an array, or
return before a barrier that others reach.
"""
import math
import random
import struct
from dataclasses import dataclass, field

from spirv_words import BOOL, INT, INTS, MOST_WORD, UINT, Array, BuiltIn, Class, Extended, Mark, Op, Record, Runtime, Scalar, Vector, Words
from spirv_words import extent, laid, octets, offsets, parts_of, sized, stride


ARITHMETIC = [Op.IAdd, Op.ISub, Op.IMul]
BITWISE = [Op.BitwiseOr, Op.BitwiseXor, Op.BitwiseAnd]
SHIFTS = [Op.ShiftRightLogical, Op.ShiftRightArithmetic, Op.ShiftLeftLogical]
EQUALITIES = [Op.IEqual, Op.INotEqual]
COMPARISONS = EQUALITIES + [
    Op.UGreaterThan, Op.SGreaterThan, Op.UGreaterThanEqual, Op.SGreaterThanEqual,
    Op.ULessThan, Op.SLessThan, Op.ULessThanEqual, Op.SLessThanEqual,
]  # fmt: skip
LOGICAL = [Op.LogicalEqual, Op.LogicalNotEqual, Op.LogicalOr, Op.LogicalAnd]
# Atomics that meet at one place in any order leave the same word there, if all are of one of these lists.
ADDING = [Op.AtomicIAdd, Op.AtomicISub, Op.AtomicIIncrement, Op.AtomicIDecrement]
COMMUTING = [ADDING, [Op.AtomicAnd], [Op.AtomicOr], [Op.AtomicXor]]
EDGES = [0, 1, 2, 3, 5, 31, 32, 33, 255, 0x7FFFFFFF, 0x80000000, 0x80000001, 0xFFFFFFFE, MOST_WORD]
RELAXED, ACQUIRE_RELEASE, BUFFER_MEMORY, SHARED_MEMORY = 0, 0x8, 0x40, 0x100
DEVICE, GROUP = 1, 2
# How many words of the written buffer belong to an invocation.
OWN_WORDS = 8


@dataclass
class Root:
    """A variable, and what may be done with it."""

    id: int
    shape: object
    storage: int
    writes: bool = True
    own: bool = False  # only the elements of the invocation itself


@dataclass
class Buffer:
    """What a block variable may be run on."""

    set: int
    binding: int
    kind: str
    fixed: int  # the words before its runtime array
    step: int = 0  # the words of an element of its runtime array
    written: bool = False


@dataclass
class Spec:
    """A specialization constant: its SpecId, shape and least and greatest word."""

    id: int
    shape: Scalar
    words: tuple


@dataclass
class Scope:
    """What may be mentioned at a place of a function: values and pointers, the latest last."""

    values: dict = field(default_factory=dict)
    chains: list = field(default_factory=list)

    def add(self, shape, value):
        self.values.setdefault(shape, []).append(value)

    def of(self, shape):
        return self.values.get(shape, [])

    def copy(self):
        return Scope({shape: list(values) for shape, values in self.values.items()}, list(self.chains))


class Chooser(Words):
    """Words with a source of chance."""

    def __init__(self, seed):
        super().__init__()
        self.random = random.Random(seed)

    def chance(self, part):
        return self.random.random() < part

    def pick(self, choices):
        return self.random.choice(choices)

    def below(self, number):
        return self.random.randrange(number)

    def word(self):
        """A word near an edge, a small one, or any."""
        return self.pick([self.pick(EDGES), self.below(16), self.random.getrandbits(32)])

    def scalar(self, shape):
        return self.below(2) if shape == BOOL else self.word()


class Globals(Chooser):
    """The variables, constants and specialization of a module."""

    def __init__(self, seed):
        super().__init__(seed)
        self.minor = self.pick([0, 1, 2, 3, 3, 3, 4, 5, 6])
        self.order = self.random.choices(["any", "rounds", "one"], [55, 10, 35])[0]
        self.any_order = self.order != "one"  # but for the ticket
        self.careful = self.order == "any" and self.chance(0.6)
        self.careless = not self.careful and self.chance(0.25)
        self.has_smod, self.has_barriers = self.chance(0.3), self.chance(0.5)
        self.buffers, self.push_words, self.specs = [], 0, []
        # Constants by their shapes, read-only roots, roots that are written, roots of each invocation alone, roots for atomics.
        self.named, self.inputs, self.outputs, self.privates, self.tallies = [], [], [], [], []
        self.mine, self.board, self.built_ins, self.variables = None, None, {}, []

    def make_globals(self):
        self.plain = Record((UINT, Vector(INT, 2)))
        self.large = Record((self.plain, Vector(BOOL, 2), Array(INT, 3)))
        self.row = Array(self.plain, 4)
        self.make_specs()
        self.make_size()
        self.make_inputs()
        self.make_outputs()
        self.make_shared()
        self.make_privates()

    # Constants.

    def specialized(self, shape, words):
        """A specialization constant whose word may be any of these, as (least, greatest), or any word at all."""
        default = self.random.randint(*words) if words else self.scalar(shape)
        op = Op.SpecConstant
        if shape == BOOL:
            op = Op.SpecConstantTrue if default else Op.SpecConstantFalse
        result = self.typed(op, shape, *([] if shape == BOOL else [default]))
        number = 3 * len(self.specs) + self.below(3)
        self.put(self.marks, Op.Decorate, result, Mark.SpecId, number)
        self.specs.append(Spec(number, shape, words))
        return result, default

    def make_specs(self):
        for _ in range(self.below(4)):
            shape = self.pick([UINT, INT, BOOL])
            self.named.append((shape, self.specialized(shape, None)[0]))
        for _ in range(self.below(4)):
            shape = sized(self.pick([UINT, INT, BOOL]), 2 + self.below(3))
            self.named.append((shape, self.composite_constant(shape)))
        for _ in range(self.below(5)):
            self.make_calculated()

    def make_calculated(self):
        """A constant that is calculated of others."""
        kind = self.pick([self.calculated_word, self.calculated_word, self.calculated_truth, self.calculated_parts])
        made = kind()
        if made:
            shape, op, *operands = made
            self.named.append((shape, self.typed(Op.SpecConstantOp, shape, op, *operands)))

    def named_one(self, fits):
        """A named constant of a shape that fits, or none."""
        known = [(shape, value) for shape, value in self.named if fits(shape)]
        return self.pick(known) if known else None

    def calculated_word(self):
        known = self.named_one(lambda shape: shape in INTS)
        if not known:
            return None
        shape, value = known
        other = self.constant(shape, self.pick([1, 2, 3, 31]))
        if self.chance(0.25):
            return shape, self.pick([Op.SNegate, Op.Not]), value
        if self.chance(0.2):
            return shape, Op.Select, self.constant(BOOL, self.below(2)), value, other
        divisions = [Op.UDiv, Op.UMod] if shape == UINT else [Op.SDiv, Op.SRem, Op.SMod]
        return shape, self.pick(ARITHMETIC + BITWISE + SHIFTS + divisions), value, other

    def calculated_truth(self):
        known = self.named_one(lambda shape: shape in INTS)
        if known and self.chance(0.6):
            return BOOL, self.pick(COMPARISONS), known[1], self.constant(known[0], self.word())
        known = self.named_one(lambda shape: shape == BOOL)
        if not known:
            return None
        if self.chance(0.3):
            return BOOL, Op.LogicalNot, known[1]
        return BOOL, self.pick(LOGICAL), known[1], self.constant(BOOL, self.below(2))

    def calculated_parts(self):
        """A part of a vector, or some."""
        known = self.named_one(lambda shape: isinstance(shape, Vector))
        if not known:
            return None
        shape, value = known
        if self.chance(0.5):
            return shape.of, Op.CompositeExtract, value, self.below(shape.size)
        return Vector(shape.of, 3), Op.VectorShuffle, value, value, *[self.below(2 * shape.size) for _ in range(3)]

    def composite_constant(self, shape):
        kind = self.below(8)
        if kind == 0:
            return self.typed(Op.ConstantNull, shape)
        if kind == 1 and not self.careful:
            return self.typed(Op.Undef, shape)
        scalars = [value for other, value in self.named if other == shape.of]
        if kind < 5 and scalars:
            parts = [self.pick(scalars)] + [self.constant(shape.of, self.scalar(shape.of)) for _ in range(shape.size - 1)]
            return self.typed(Op.SpecConstantComposite, shape, *parts)
        return self.typed(Op.ConstantComposite, shape, *[self.constant(shape.of, self.scalar(shape.of)) for _ in range(shape.size)])

    # The size of workgroups.

    def make_size(self):
        """Three sizes, as words or specialization constants, and the id of their product."""
        # Behind a barrier no list of invocations says for sure in which order they move, so there is one where the order matters.
        most = [4, 3, 2] if self.any_order else [1, 1, 1] if self.has_barriers else [2, 2, 1]
        self.local = [1 + self.below(side) for side in most]
        self.local_specs = [None] * 3
        parts = [self.constant(UINT, side) for side in self.local]
        self.size_kind = self.pick(["literal", "literal", "composite", "ids"] if self.minor == 6 else ["literal", "literal", "composite"])
        if self.size_kind != "literal":
            for axis, side in enumerate(most):
                if self.chance(0.5):
                    parts[axis], self.local[axis] = self.specialized(UINT, (1, side))
                    self.local_specs[axis] = self.specs[-1].id
        self.size_ids = parts
        if self.size_kind == "composite":
            made = Op.SpecConstantComposite if any(number is not None for number in self.local_specs) else Op.ConstantComposite
            composite = self.typed(made, Vector(UINT, 3), *parts)
            self.put(self.marks, Op.Decorate, composite, Mark.BuiltIn, BuiltIn.WorkgroupSize)
            self.named.append((Vector(UINT, 3), composite))

    # Variables.

    def variable(self, storage, shape, *initial):
        result = self.new()
        self.put(self.globals, Op.Variable, self.pointer(storage, shape), result, storage, *initial)
        self.variables.append(result)
        return result

    def built_in(self, which):
        """The variable of a built-in."""
        if which not in self.built_ins:
            shape = UINT if which == BuiltIn.LocalInvocationIndex else Vector(UINT, 3)
            self.built_ins[which] = self.variable(Class.Input, shape)
            self.put(self.marks, Op.Decorate, self.built_ins[which], Mark.BuiltIn, which)
        return self.built_ins[which]

    def buffer(self, parts, kind, **known):
        """A block variable with these members, at the next binding."""
        rule = "std140" if kind == "uniform" else "std430"
        old = kind == "storage" and self.minor < 4 and self.chance(0.7 if self.minor < 3 else 0.2)
        members = tuple(Runtime(laid(part.of, rule), rule) if isinstance(part, Runtime) else laid(part, rule) for part in parts)
        shape = Record(members, rule, Mark.BufferBlock if old else Mark.Block)
        storage = Class.Uniform if old or kind == "uniform" else Class.StorageBuffer
        root = Root(self.variable(storage, shape), shape, storage, **known)
        last = members[-1]
        step = stride(last, rule) // 4 if isinstance(last, Runtime) else 0
        number = len(self.buffers)
        made = Buffer(number // 2, number % 2 * 3, kind, extent(shape, rule) // 4, step, root.writes)
        if step:
            made.fixed = offsets(shape)[-1] // 4
        self.put(self.marks, Op.Decorate, root.id, Mark.DescriptorSet, made.set)
        self.put(self.marks, Op.Decorate, root.id, Mark.Binding, made.binding)
        if not root.writes and kind == "storage" and self.chance(0.5):
            self.put(self.marks, Op.Decorate, root.id, Mark.NonWritable)
        if kind == "storage" and self.chance(0.3):
            self.put(self.marks, Op.Decorate, root.id, self.pick([Mark.Restrict, Mark.Aliased, Mark.Coherent]))
        self.buffers.append(made)
        return root

    def element(self):
        """What a runtime array has."""
        return self.pick([UINT, INT, Vector(UINT, 2), Vector(INT, 4), self.plain, Array(UINT, 2)])

    def make_inputs(self):
        self.inputs.append(self.buffer((Runtime(self.element(), ""),), "storage", writes=False))
        if self.chance(0.5):
            wide = Array(Record((Vector(UINT, 4), INT)), 2)
            self.inputs.append(self.buffer((INT, Vector(INT, 3), self.plain, Array(UINT, 3), wide), "uniform", writes=False))
        if self.chance(0.4):
            self.inputs.append(self.buffer((Vector(UINT, 4), Array(self.plain, 2), Runtime(self.element(), "")), "storage", writes=False))
        if self.chance(0.5):
            shape = Record(tuple(laid(part, "std430") for part in (UINT, INT, Vector(UINT, 2), Array(INT, 2))), "std430", Mark.Block)
            self.inputs.append(Root(self.variable(Class.PushConstant, shape), shape, Class.PushConstant, writes=False))
            self.push_words = extent(shape, "std430") // 4

    def make_outputs(self):
        element = self.pick([UINT, INT, UINT, INT, self.plain])
        self.mine = self.buffer((Runtime(element, ""),), "storage", own=self.any_order)
        self.outputs.append(self.mine)
        if self.order == "rounds" or self.chance(0.7):
            tally = self.buffer((Array(UINT, 8), Array(INT, 4), UINT), "storage")
            self.tallies.append(tally)
            if not self.any_order:
                self.outputs.append(tally)
        self.families = {}

    def make_shared(self):
        if self.has_barriers:
            self.board = Root(self.variable(Class.Workgroup, Array(UINT, 32)), Array(UINT, 32), Class.Workgroup)
        if self.any_order:
            return
        for shape in (UINT, Vector(INT, 3), self.large, Array(UINT, 8)):
            if self.chance(0.3):
                self.outputs.append(Root(self.variable(Class.Workgroup, shape), shape, Class.Workgroup))
        if self.chance(0.3):
            by, length = self.specialized(UINT, (1, 9))
            shape = Array(INT, length, "", by)
            self.outputs.append(Root(self.variable(Class.Workgroup, shape), shape, Class.Workgroup))
        self.tallies += [root for root in self.outputs if root not in self.tallies]

    def make_privates(self):
        self.trace = self.variable(Class.Private, UINT, self.constant(UINT, 0))
        for shape in (UINT, Array(UINT, 8), Vector(INT, 4), self.large):
            if self.chance(0.4):
                initial = self.initial(shape)
                self.privates.append(Root(self.variable(Class.Private, shape, *initial), shape, Class.Private))

    def initial(self, shape):
        """An initializer or none; always one where nothing undefined may be read."""
        if not self.careful and self.chance(0.4):
            return []
        if isinstance(shape, (Scalar, Vector)):
            return [self.constant(shape, self.scalar(parts_of(shape)[0]))]
        return [self.null(shape)]

    def null(self, shape):
        if ("null", shape) not in self.made:
            self.made["null", shape] = self.typed(Op.ConstantNull, shape)
        return self.made["null", shape]


class Values(Globals):
    """What a block calculates: one instruction after another, on values in scope."""

    def op(self, shape, op, *words):
        result = self.new()
        self.put(self.functions, op, self.type(shape), result, *words)
        return result

    def value(self, shape):
        """A value of a shape, most often one that was calculated here."""
        known = self.scope.of(shape)
        if known and self.chance(0.75):
            return self.pick(known[-8:])
        named = [value for other, value in self.named if other == shape]
        if named and self.chance(0.4):
            return self.pick(named)
        if isinstance(shape, Scalar):
            return self.constant(shape, self.scalar(shape))
        return self.composed(shape)

    def composed(self, shape):
        """A composite of values."""
        if isinstance(shape, Record):
            return self.op(shape, Op.CompositeConstruct, *[self.value(part) for part in shape.parts])
        if isinstance(shape, Array):
            return self.op(shape, Op.CompositeConstruct, *[self.value(shape.of) for _ in range(shape.length)])
        if shape.size > 2 and self.chance(0.3):
            singles = [self.value(shape.of) for _ in range(shape.size - 2)]
            pair = self.value(Vector(shape.of, 2))
            return self.op(shape, Op.CompositeConstruct, *self.pick([[pair, *singles], [*singles, pair]]))
        return self.op(shape, Op.CompositeConstruct, *[self.value(shape.of) for _ in range(shape.size)])

    def ints(self):
        """A shape of integers."""
        return sized(self.pick(INTS), self.pick([1, 1, 1, 2, 3, 4]))

    def free(self, shape):
        """A value of as many integers as the shape has, with either sign."""
        return self.value(sized(self.pick(INTS), parts_of(shape)[1]))

    def both(self, op, shape, value, word):
        """An operation on a value and the same word in each part."""
        return self.op(shape, op, value, self.constant(shape, word))

    def careless_here(self):
        return self.careless and self.chance(0.2)

    # Each kind of instruction gives the shape and the id of its result.

    def sums(self):
        shape = self.ints()
        return shape, self.op(shape, self.pick(ARITHMETIC + BITWISE), self.free(shape), self.free(shape))

    def single(self):
        shape = self.ints()
        if self.chance(0.25):
            return shape, self.op(shape, Op.BitReverse, self.value(shape))
        return shape, self.op(shape, self.pick([Op.SNegate, Op.Not, Op.BitCount]), self.free(shape))

    def unsigned_division(self):
        shape = sized(UINT, parts_of(self.ints())[1])
        divisor = self.value(shape)
        if not self.careless_here():
            divisor = self.both(Op.BitwiseOr, shape, divisor, self.pick([1, 1, 6, 0x80000000]))
        return shape, self.op(shape, self.pick([Op.UDiv, Op.UMod]), self.value(shape), divisor)

    def signed_division(self):
        """A quotient or remainder. The divisor is not zero, and positive or the dividend not the smallest."""
        shape = sized(INT, parts_of(self.ints())[1])
        dividend, divisor = self.value(shape), self.value(shape)
        if not self.careless_here():
            divisor = self.both(Op.BitwiseOr, shape, divisor, 1)
            if self.chance(0.5):
                divisor = self.both(Op.BitwiseAnd, shape, divisor, 0x7FFFFFFF)
            else:
                dividend = self.both(Op.ShiftRightArithmetic, shape, dividend, 1)
        ops = [Op.SDiv, Op.SRem] + [Op.SMod] * (2 * self.has_smod)
        shape = sized(self.pick(INTS), parts_of(shape)[1])
        return shape, self.op(shape, self.pick(ops), dividend, divisor)

    def shifts(self):
        shape = self.ints()
        amount_shape = sized(self.pick(INTS), parts_of(shape)[1])
        if self.chance(0.5):
            amount = self.constant(amount_shape, self.below(32 if self.careful else 40))
        else:
            amount = self.value(amount_shape)
            if self.careful:
                amount = self.both(Op.BitwiseAnd, amount_shape, amount, 31)
        return shape, self.op(shape, self.pick(SHIFTS), self.free(shape), amount)

    def comparison(self):
        shape = self.ints()
        result = sized(BOOL, parts_of(shape)[1])
        return result, self.op(result, self.pick(COMPARISONS), self.free(shape), self.free(shape))

    def logical(self):
        shape = sized(BOOL, self.pick([1, 1, 2, 3, 4]))
        if self.chance(0.25):
            return shape, self.op(shape, Op.LogicalNot, self.value(shape))
        return shape, self.op(shape, self.pick(LOGICAL), self.value(shape), self.value(shape))

    def quantified(self):
        return BOOL, self.op(BOOL, self.pick([Op.Any, Op.All]), self.value(sized(BOOL, 2 + self.below(3))))

    def select(self):
        shape = self.pick([self.ints(), self.ints(), sized(BOOL, 1 + self.below(4)), self.plain])
        size = parts_of(shape)[1]
        wide = isinstance(shape, Record) or size > 1 and self.chance(0.5)
        if wide and self.minor < 4:
            shape, size = (UINT, 1) if isinstance(shape, Record) else (shape, size)
            wide = False
        condition = self.value(BOOL if wide else sized(BOOL, size))
        return shape, self.op(shape, Op.Select, condition, self.value(shape), self.value(shape))

    def field_place(self):
        """Offset and count of a bit field."""
        if self.careless_here():
            return self.free(UINT), self.free(UINT)
        if self.chance(0.5):
            offset = self.pick([0, 1, 7, 16, 31, 32])
            count = self.pick([0, 1, 5, 32 - offset, self.below(33 - offset)])
            count = min(count, 32 - offset)
            return self.constant(self.pick(INTS), offset), self.constant(self.pick(INTS), count)
        shapes = [self.pick(INTS), self.pick(INTS)]
        return tuple(self.both(Op.BitwiseAnd, shape, self.value(shape), 15) for shape in shapes)

    def bit_field(self):
        shape = self.ints()
        offset, count = self.field_place()
        if self.chance(0.4):
            return shape, self.op(shape, Op.BitFieldInsert, self.value(shape), self.value(shape), offset, count)
        return shape, self.op(shape, self.pick([Op.BitFieldSExtract, Op.BitFieldUExtract]), self.value(shape), offset, count)

    def extended(self):
        shape, which = self.ints(), self.pick(list(Extended))
        operands = [self.free(shape)]
        if which in (Extended.UMin, Extended.SMin, Extended.UMax, Extended.SMax):
            operands.append(self.free(shape))
        if which in (Extended.UClamp, Extended.SClamp):
            operands += self.clamp_ends(shape)
        return shape, self.op(shape, Op.ExtInst, self.extension, which, *operands)

    def clamp_ends(self, shape):
        """The ends of a clamp: in order wherever the standard asks for it."""
        if not self.careful:
            return [self.free(shape), self.free(shape)]
        return [self.constant(shape, end) for end in sorted([self.below(1 << 20), self.below(1 << 20)])]

    def cast(self):
        shape = self.ints()
        scalar, size = parts_of(shape)
        return shape, self.op(shape, Op.Bitcast, self.value(sized(UINT if scalar == INT else INT, size)))

    def copied(self):
        shape = self.pick([self.ints(), BOOL, self.plain, self.row])
        return shape, self.op(shape, Op.CopyObject, self.value(shape))

    def undefined(self):
        """An undefined value, which is read as zeros; not where a device is asked too."""
        shape = self.pick([UINT, INT, BOOL, Vector(UINT, 3), self.plain])
        if self.careful:
            return self.sums()
        return shape, self.op(shape, Op.Undef)

    def index(self, length, by=0):
        """An index below a length, most often one that is calculated."""
        if by:
            return self.op(UINT, Op.UMod, self.value(UINT), by)
        if self.chance(0.3):
            return self.constant(self.pick(INTS), self.below(length))
        if self.careless_here():
            return self.value(UINT)
        calculated = self.op(UINT, Op.UMod, self.value(UINT), self.constant(UINT, length))
        return self.op(INT, Op.Bitcast, calculated) if self.chance(0.3) else calculated

    def of_vector(self):
        """An instruction on the parts of vectors."""
        size = 2 + self.below(3)
        scalar = self.pick([UINT, INT, BOOL])
        shape, kind = Vector(scalar, size), self.below(5)
        if kind == 0:
            return scalar, self.op(scalar, Op.CompositeExtract, self.value(shape), self.below(size))
        if kind == 1:
            return scalar, self.op(scalar, Op.VectorExtractDynamic, self.value(shape), self.index(size))
        if kind == 2:
            return shape, self.op(shape, Op.CompositeInsert, self.value(scalar), self.value(shape), self.below(size))
        if kind == 3:
            return shape, self.op(shape, Op.VectorInsertDynamic, self.value(shape), self.value(scalar), self.index(size))
        return self.shuffle(scalar, size)

    def shuffle(self, scalar, size):
        others, made = 2 + self.below(3), 2 + self.below(3)
        choices = list(range(size + others)) + ([] if self.careful else [MOST_WORD])
        components = [self.pick(choices) for _ in range(made)]
        pair = [self.value(Vector(scalar, size)), self.value(Vector(scalar, others))]
        return Vector(scalar, made), self.op(Vector(scalar, made), Op.VectorShuffle, *pair, *components)

    def path(self, shape):
        """Literals that lead into a composite, and the shape there."""
        steps = []
        while not isinstance(shape, Scalar) and (not steps or self.chance(0.6)):
            if isinstance(shape, Record):
                steps.append(self.below(len(shape.parts)))
                shape = shape.parts[steps[-1]]
            else:
                steps.append(self.below(shape.size if isinstance(shape, Vector) else shape.length))
                shape = shape.of
        return steps, shape

    def of_composite(self):
        shape = self.pick([self.plain, self.large, self.row])
        steps, inner = self.path(shape)
        if self.chance(0.5):
            return inner, self.op(inner, Op.CompositeExtract, self.value(shape), *steps)
        return shape, self.op(shape, Op.CompositeInsert, self.value(inner), self.value(shape), *steps)

    def composite(self):
        shape = self.pick([self.plain, self.large, self.row, Vector(UINT, 4), Vector(BOOL, 3)])
        return shape, self.composed(shape)

    def copied_logically(self):
        """A value of the same parts and another type; there are such copies from version 1.4 on."""
        shape = self.pick([self.plain, self.row])
        if self.minor < 4:
            return self.copied()
        other = laid(shape, "std430")
        here, there = self.pick([(shape, other), (other, shape)])
        return here, self.op(here, Op.CopyLogical, self.value(there))

    KINDS = {
        "sums": 8, "single": 3, "unsigned_division": 2, "signed_division": 3, "shifts": 4, "comparison": 6, "logical": 3, "quantified": 1,
        "select": 3, "bit_field": 3, "extended": 4, "cast": 2, "copied": 1, "undefined": 1, "of_vector": 5, "of_composite": 3,
        "composite": 2, "copied_logically": 1,
    }  # fmt: skip

    def calculate(self):
        """One value more."""
        kind = self.random.choices(list(self.KINDS), list(self.KINDS.values()))[0]
        self.scope.add(*getattr(self, kind)())


class Accesses(Values):
    """Loads, stores, atomics and calls."""

    def next_step(self, root, shape):
        """An index and the shape to which it leads, from a shape of a variable."""
        if isinstance(shape, Record):
            member = self.below(len(shape.parts))
            return self.constant(self.pick(INTS), member), shape.parts[member]
        if isinstance(shape, Runtime):
            return self.runtime_index(root), shape.of
        if isinstance(shape, Vector):
            return self.index(shape.size), shape.of
        return self.index(shape.length, shape.by), shape.of

    def runtime_index(self, root):
        """An index into a runtime array: of the invocation's own elements, or any that stands in every buffer that is written."""
        if not root.own:
            return self.op(UINT, Op.UMod, self.value(UINT), self.constant(UINT, 16))
        return self.op(UINT, Op.IAdd, self.base, self.constant(UINT, self.below(OWN_WORDS)))

    def reach(self, roots):
        """A pointer to a value, its shape and its variable; often by a chain that stands already, or based on one."""
        known = [chain for chain in self.scope.chains if chain[2] in roots]
        if known and self.chance(0.3):
            pointer, shape, root = self.pick(known)
        else:
            root = self.pick(roots)
            pointer, shape = root.id, root.shape
        while not isinstance(shape, Scalar) and (not is_value(shape) or self.chance(0.6)):
            pointer, shape = self.chained(root, pointer, shape)
        return pointer, shape, root

    def chained(self, root, pointer, shape):
        """A chain of one index, or of two."""
        steps = []
        while not steps or (not isinstance(shape, Scalar) and self.chance(0.3)):
            step, shape = self.next_step(root, shape)
            steps.append(step)
        result = self.new()
        op = self.pick([Op.AccessChain, Op.InBoundsAccessChain])
        self.put(self.functions, op, self.pointer(root.storage, shape), result, pointer, *steps)
        if self.chance(0.6):
            self.scope.chains.append((result, shape, root))
        return result, shape

    def local_roots(self):
        return self.locals + self.privates

    def written_roots(self):
        """What may be stored to here: nothing of other invocations where their order is not to matter."""
        if self.any_order:
            return self.local_roots() + ([self.mine] if self.is_main else [])
        return self.local_roots() + self.outputs

    def load(self):
        pointer, shape, _ = self.reach(self.written_roots() + self.inputs)
        self.scope.add(shape, self.op(shape, Op.Load, pointer))

    def store(self):
        pointer, shape, _ = self.reach(self.written_roots())
        self.put(self.functions, Op.Store, pointer, self.value(shape))

    def mix(self):
        """Lets what the invocation tells in the end depend on a part of a late value."""
        shapes = [shape for shape, values in self.scope.values.items() if values]
        if not shapes:
            return
        shape = self.pick(shapes)
        value, (steps, scalar) = self.pick(self.scope.of(shape)[-3:]), self.path(shape)
        while not isinstance(scalar, Scalar):
            more, scalar = self.path(scalar)
            steps += more
        if steps:
            value = self.op(scalar, Op.CompositeExtract, value, *steps)
        if scalar == BOOL:
            value = self.op(UINT, Op.Select, value, self.constant(UINT, 1), self.constant(UINT, 0))
        old = self.op(UINT, Op.IMul, self.op(UINT, Op.Load, self.trace), self.constant(UINT, 31))
        self.put(self.functions, Op.Store, self.trace, self.op(UINT, Op.BitwiseXor, old, value))

    def length(self):
        """The length of a runtime array."""
        roots = [root for root in self.inputs + [self.mine] if isinstance(root.shape, Record) and isinstance(root.shape.parts[-1], Runtime)]
        root = self.pick(roots)
        self.scope.add(UINT, self.op(UINT, Op.ArrayLength, root.id, len(root.shape.parts) - 1))

    def memory_barrier(self):
        memory = self.pick([BUFFER_MEMORY, SHARED_MEMORY, BUFFER_MEMORY | SHARED_MEMORY])
        order = self.pick([0x2, 0x4, ACQUIRE_RELEASE])
        scope = self.constant(UINT, self.pick([DEVICE, GROUP]))
        self.put(self.functions, Op.MemoryBarrier, scope, self.constant(UINT, memory | order))

    # Atomics.

    def scalar_pointer(self, roots):
        """A pointer to an integer and its shape, or none."""
        for _ in range(8):
            pointer, shape, root = self.reach(roots)
            while not isinstance(shape, Scalar):
                pointer, shape = self.chained(root, pointer, shape)
            if shape != BOOL:
                return pointer, shape
        return None

    def atomic(self):
        """An atomic whose answer may be read: on any integer, or on the invocation's own where the order is not to matter."""
        if self.any_order and not self.is_main:
            return
        found = self.scalar_pointer([self.mine] if self.any_order else self.tallies)
        if found:
            pointer, shape = found
            bounds = [Op.AtomicUMin, Op.AtomicUMax] if shape == UINT else [Op.AtomicSMin, Op.AtomicSMax]
            plain = [Op.AtomicLoad, Op.AtomicStore, Op.AtomicExchange, Op.AtomicCompareExchange, Op.AtomicAnd, Op.AtomicOr, Op.AtomicXor]
            result = self.atomic_at(self.pick(plain + ADDING + bounds), pointer, shape)
            if result:
                self.scope.add(shape, result)

    def atomic_at(self, op, pointer, shape):
        """The atomic, and its answer where it has one."""
        how = [self.constant(UINT, self.pick([DEVICE, GROUP])), self.constant(UINT, RELAXED)]
        if op in (Op.AtomicLoad, Op.AtomicIIncrement, Op.AtomicIDecrement):
            return self.op(shape, op, pointer, *how)
        if op == Op.AtomicStore:
            self.put(self.functions, op, pointer, *how, self.value(shape))
            return None
        if op == Op.AtomicCompareExchange:
            return self.op(shape, op, pointer, *how, how[1], self.value(shape), self.value(shape))
        return self.op(shape, op, pointer, *how, self.value(shape))

    def count(self):
        """An atomic on a place that others meet too, by one family of operations per place; its answer is dropped."""
        if not (self.any_order and self.tallies):
            return self.atomic()
        root = self.pick(self.tallies)
        member = self.below(2 if self.order == "rounds" else 3)
        shape = INT if member == 1 else UINT
        steps = [member] + ([] if member == 2 else [self.below([8, 4][member])])
        bounds = [[Op.AtomicUMin], [Op.AtomicUMax]] if shape == UINT else [[Op.AtomicSMin], [Op.AtomicSMax]]
        family = self.families.setdefault(tuple(steps), self.pick(COMMUTING + bounds))
        pointer = self.new()
        indexes = [self.constant(UINT, step) for step in steps]
        self.put(self.functions, Op.AccessChain, self.pointer(root.storage, shape), pointer, root.id, *indexes)
        self.atomic_at(self.pick(family), pointer, shape)

    # Calls.

    def call(self):
        if not self.helpers:
            return self.calculate()
        function, result_shape, parameters = self.pick(self.helpers)
        arguments = []
        for shape, by_pointer in parameters:
            if by_pointer:
                pointers = [root.id for root in self.locals if root.shape == shape and root.id not in arguments]
                if not pointers:
                    return self.calculate()
                arguments.append(self.pick(pointers))
            else:
                arguments.append(self.value(shape))
        result = self.new()
        self.put(self.functions, Op.FunctionCall, self.type_of_result(result_shape), result, function, *arguments)
        if result_shape:
            self.scope.add(result_shape, result)

    def type_of_result(self, shape):
        return self.type(shape) if shape else self.once(("void",), Op.TypeVoid)

    def debug(self):
        """An instruction that means nothing."""
        kind = self.below(3)
        if kind == 0:
            self.put(self.functions, Op.Line, self.file, self.below(100), 0)
        else:
            self.put(self.functions, [Op.Nop, Op.NoLine][kind - 1])

    STATEMENTS = {
        "calculate": 46, "load": 13, "store": 13, "mix": 8, "atomic": 4, "count": 4, "call": 4, "length": 2, "memory_barrier": 1,
        "debug": 2,
    }  # fmt: skip

    def statement(self):
        self.budget -= 1
        kind = self.random.choices(list(self.STATEMENTS), list(self.STATEMENTS.values()))[0]
        getattr(self, kind)()


def is_value(shape):
    """Whether a shape may be loaded whole: it has no array whose length is open or specialized, and is no block."""
    if isinstance(shape, Record):
        return not shape.block and all(is_value(part) for part in shape.parts)
    return not isinstance(shape, Runtime) and not (isinstance(shape, Array) and shape.by)


class Flow(Accesses):
    """Blocks and the constructs that they make. A block that has ended has no label in `block`."""

    def label(self, label):
        self.put(self.functions, Op.Label, label)
        self.block = label

    def leads(self, label):
        """Notes an edge from this block, with what may be mentioned at its end."""
        self.edges.setdefault(label, []).append((self.block, self.scope.copy()))

    def branch(self, label):
        self.leads(label)
        self.put(self.functions, Op.Branch, label)
        self.block = None

    def phis(self, label):
        """Some phis at the head of a block to which all edges are known."""
        made = []
        for _ in range(self.below(3)):
            shape = self.pick([UINT, INT, BOOL, Vector(UINT, 2), self.plain])
            pairs = []
            for block, scope in self.edges[label]:
                known = scope.of(shape)
                if not known and not isinstance(shape, Scalar):
                    break
                fixed = isinstance(shape, Scalar) and (not known or self.chance(0.2))
                pairs += [self.constant(shape, self.scalar(shape)) if fixed else self.pick(known[-6:]), block]
            else:
                made.append((shape, self.op(shape, Op.Phi, *pairs)))
        for shape, value in made:
            self.scope.add(shape, value)

    def join(self, label, scope):
        """Goes on at a merge block, or ends where nothing leads there."""
        self.scope = scope
        self.label(label)
        if label in self.edges:
            self.phis(label)
        else:
            self.put(self.functions, Op.Unreachable)
            self.block = None

    def statements(self, depth):
        """Some statements and constructs, until the block has ended."""
        for _ in range(1 + self.below(3)):
            for _ in range(1 + self.below(4)):
                self.statement()
            if self.budget > 0 and depth > 0:
                construct = self.random.choices([self.selection, self.loop, self.switch, self.loose], [4, 3, 2, 2])[0]
                construct(depth - 1)
            if self.block is None:
                return
            self.mix()

    def exits(self):
        """Where one may leave to from here: out of a loop or a switch."""
        return list(self.turn or ()) + ([self.past_switch] if self.past_switch else [])

    def leave(self):
        """Maybe ends the block by a jump out of a construct, or by a return."""
        places = self.exits() + [None] * self.may_return
        if not places or self.chance(0.6):
            return
        place = self.pick(places)
        if place is None:
            if self.chance(0.3):
                self.give_back()
        else:
            self.branch(place)

    def give_back(self):
        """Returns from the function."""
        if self.result:
            self.put(self.functions, Op.ReturnValue, self.value(self.result))
        else:
            self.put(self.functions, Op.Return)
        self.block = None

    def loose(self, depth):
        """A conditional jump out of a loop or a switch, which has no merge block."""
        if not self.exits():
            return
        place, on, condition = self.pick(self.exits()), self.new(), self.value(BOOL)
        self.leads(place)
        self.put(self.functions, Op.BranchConditional, condition, *self.pick([(place, on), (on, place)]))
        self.label(on)

    def selection(self, depth):
        merge, sides, condition = self.new(), [self.new() for _ in range(1 + self.chance(0.6))], self.value(BOOL)
        self.put(self.functions, Op.SelectionMerge, merge, self.below(3))
        if len(sides) == 1:
            self.leads(merge)
        targets = sides if len(sides) == 2 else self.pick([(sides[0], merge), (merge, sides[0])])
        self.put(self.functions, Op.BranchConditional, condition, *targets)
        before = self.scope
        for side in sides:
            self.scope = before.copy()
            self.label(side)
            self.end_part(depth, merge)
        self.join(merge, before)

    def end_part(self, depth, merge):
        """The statements of a part of a construct, which end somewhere."""
        self.statements(depth)
        if self.block is not None:
            self.leave()
        if self.block is not None:
            self.branch(merge)

    # Loops: a counter bounds the turns, and is asked before a turn, inside it, or behind it.

    def loop(self, depth):
        kind = self.pick(["before", "before", "inside", "behind", "single"])
        header, before, known = self.new(), self.block, self.scope.copy()
        self.put(self.functions, Op.Branch, header)
        self.label(header)
        carried = self.carried(before, known)
        limit = self.constant(UINT, 1 + self.below(3))
        if kind == "single":
            self.single_block(header, carried, limit)
        else:
            self.whole_loop(kind, depth, header, carried, limit)

    def carried(self, before, known):
        """The phis of a header: the counter first. Their second pairs are filled in by `fill`."""
        shapes = [UINT] + [shape for shape in (UINT, INT, BOOL, Vector(UINT, 2), self.plain) if self.chance(0.4)]
        made = []
        for place, shape in enumerate(shapes):
            values = known.of(shape)
            if place > 0 and not values and not isinstance(shape, Scalar):
                continue
            first = self.constant(shape, 0) if place == 0 or not values else self.pick(values[-6:])
            made.append((shape, self.op(shape, Op.Phi, first, before, 0, 0), len(self.functions)))
        for shape, value, _ in made:
            self.scope.add(shape, value)
        return made

    def fill(self, carried, values, block):
        for (_, _, end), value in zip(carried, values):
            self.functions[end - 2 : end] = [value, block]

    def next_turn(self, carried, limit):
        """The counter's next value, what else is carried, and whether there is another turn."""
        counter = self.op(UINT, Op.IAdd, carried[0][1], self.constant(UINT, 1))
        values = [counter] + [self.pick(self.scope.of(shape)[-6:]) for shape, _, _ in carried[1:]]
        return values, self.op(BOOL, Op.ULessThan, counter, limit)

    def single_block(self, header, carried, limit):
        """A loop whose header leads back to itself."""
        merge = self.new()
        for _ in range(self.below(4)):
            self.calculate()
        values, again = self.next_turn(carried, limit)
        self.fill(carried, values, header)
        self.put(self.functions, Op.LoopMerge, merge, header, 0)
        self.leads(merge)
        self.put(self.functions, Op.BranchConditional, again, header, merge)
        self.join(merge, self.scope)

    def whole_loop(self, kind, depth, header, carried, limit):
        body, onward, merge = self.new(), self.new(), self.new()
        for _ in range(self.below(3)):
            self.calculate()
        condition = self.op(BOOL, Op.ULessThan, carried[0][1], limit) if kind != "behind" else None
        self.put(self.functions, Op.LoopMerge, merge, onward, self.below(3))
        if kind == "before":
            self.leads(merge)
            self.put(self.functions, Op.BranchConditional, condition, body, merge)
        else:
            self.put(self.functions, Op.Branch, body)
        start, outer = self.scope.copy(), (self.turn, self.past_switch)
        self.turn, self.past_switch = (merge, onward), None
        self.label(body)
        if kind == "inside":
            self.stop_inside(condition, merge)
        self.end_part(depth, onward)
        self.turn, self.past_switch = None, None
        self.scope = start.copy()
        self.continue_part(kind == "behind", header, onward, merge, carried, limit)
        self.turn, self.past_switch = outer
        self.join(merge, start)

    def stop_inside(self, condition, merge):
        """Leaves a loop inside its body: by a loose conditional, or from a side of a selection."""
        on = self.new()
        if self.chance(0.5):
            self.leads(merge)
            self.put(self.functions, Op.BranchConditional, condition, on, merge)
        else:
            out = self.new()
            self.put(self.functions, Op.SelectionMerge, on, 0)
            self.put(self.functions, Op.BranchConditional, condition, on, out)
            self.label(out)
            self.branch(merge)
        self.label(on)

    def continue_part(self, asks, header, onward, merge, carried, limit):
        """The continue target, which leads back to the header. It stands there even where nothing leads to it."""
        self.label(onward)
        if onward not in self.edges:
            self.fill(carried, [value for _, value, _ in carried], onward)
            self.put(self.functions, Op.Branch, header)
            return
        self.phis(onward)
        may_return, self.may_return = self.may_return, 0
        for _ in range(self.below(3)):
            self.statement()
        if self.chance(0.2):
            self.selection(0)
        self.may_return = may_return
        values, again = self.next_turn(carried, limit)
        self.fill(carried, values, self.block)
        if asks or self.chance(0.3):
            self.leads(merge)
            self.put(self.functions, Op.BranchConditional, again, header, merge)
        else:
            self.put(self.functions, Op.Branch, header)

    # Switches: a case may fall into the next.

    def switch(self, depth):
        shape, merge = self.pick(INTS), self.new()
        cases = [self.new() for _ in range(1 + self.below(4))]
        whole = self.chance(0.2)
        selector = self.value(shape)
        if whole or self.chance(0.7):
            selector = self.both(Op.BitwiseAnd, shape, selector, 3)
        literals = list(range(4)) if whole else self.random.sample(range(6), min(6, len(cases) + self.below(3)))
        if shape == INT and self.chance(0.3):
            literals.append(-2)
        cases = cases[: len(literals)]
        # A case that falls into another stands directly before it.
        targets = sorted(cases + [self.pick(cases + [merge]) for _ in literals[len(cases) :]])
        default = self.new() if whole else self.pick([merge] + cases)
        self.put(self.functions, Op.SelectionMerge, merge, 0)
        self.put(self.functions, Op.Switch, selector, default, *[word for pair in zip(literals, targets) for word in pair])
        for target in dict.fromkeys([default, *targets]):
            self.leads(target)
        self.cases(depth, cases, merge, default if whole else None)

    def cases(self, depth, cases, merge, never):
        """The blocks of a switch; `never` is a default to which nothing goes, as all values have a case."""
        before, outer = self.scope, self.past_switch
        for place, case in enumerate(cases):
            self.scope, self.past_switch = before.copy(), merge
            self.label(case)
            self.phis(case)
            falls = place + 1 < len(cases) and self.chance(0.4)
            self.end_part(depth, cases[place + 1] if falls else merge)
        self.past_switch = outer
        if never:
            self.label(never)
            self.put(self.functions, Op.Unreachable)
            self.block = None
        self.join(merge, before)


class Shader(Flow):
    """A whole module. `data` is its bytes, and `sidecar` what it may be run on."""

    def __init__(self, seed):
        super().__init__(seed)
        self.extension, self.file = self.new(), self.new()
        self.edges, self.helpers = {}, []
        self.turn, self.past_switch = None, None
        self.main = self.new()
        self.make_globals()
        for _ in range(self.below(3)):
            self.make_helper()
        self.make_main()
        self.data = self.written()
        self.sidecar = self.made_sidecar()

    # Functions.

    def start(self, function, result, parameters, budget):
        """The beginning of a function: its parameters, its first block, its variables."""
        shapes = [self.pointer(Class.Function, shape) if by_pointer else self.type(shape) for shape, by_pointer in parameters]
        ty = self.once(("function", result, tuple(parameters)), Op.TypeFunction, self.type_of_result(result), *shapes)
        self.put(self.functions, Op.Function, self.type_of_result(result), function, 0, ty)
        self.scope, self.locals, self.result, self.budget = Scope(), [], result, budget
        for (shape, by_pointer), shape_id in zip(parameters, shapes):
            parameter = self.new()
            self.put(self.functions, Op.FunctionParameter, shape_id, parameter)
            if by_pointer:
                self.locals.append(Root(parameter, shape, Class.Function))
            else:
                self.scope.add(shape, parameter)
        self.label(self.new())
        for shape in (UINT, UINT, INT, self.plain, self.row, Vector(INT, 3), self.large):
            if shape == UINT or self.chance(0.4):
                self.make_local(shape)

    def make_local(self, shape):
        result = self.new()
        self.put(self.functions, Op.Variable, self.pointer(Class.Function, shape), result, Class.Function, *self.initial(shape))
        self.locals.append(Root(result, shape, Class.Function))

    def make_helper(self):
        function, result = self.new(), self.pick([None, UINT, INT, Vector(INT, 2), self.plain])
        parameters = [(self.pick([UINT, INT, Vector(UINT, 2), self.plain]), self.chance(0.5)) for _ in range(1 + self.below(2))]
        self.is_main, self.base, self.may_return = False, None, 1
        self.start(function, result, parameters, 14)
        self.statements(2)
        if self.block is not None:
            self.give_back()
        self.put(self.functions, Op.FunctionEnd)
        self.helpers.append((function, result, parameters))

    def make_main(self):
        self.is_main = True
        self.may_return = int(not self.has_barriers or self.careless)
        self.start(self.main, None, [], 45)
        self.read_built_ins()
        if self.order == "rounds":
            self.draw_ticket()
        self.statements(3)
        for _ in range(self.has_barriers and 1 + self.below(3)):
            if self.block is not None:
                if self.careless and self.chance(0.2):
                    self.drop_out()
                self.pick([self.exchange, self.exchange, self.shared_count, self.exchange_often])()
                self.statements(1)
        if self.block is not None:
            self.tell()
            self.put(self.functions, Op.Return)
        self.put(self.functions, Op.FunctionEnd)

    def read_built_ins(self):
        """Loads the built-ins, and calculates where the invocation's own elements begin."""
        triple = Vector(UINT, 3)
        index = self.op(UINT, Op.Load, self.built_in(BuiltIn.LocalInvocationIndex))
        group = self.op(triple, Op.Load, self.built_in(BuiltIn.WorkgroupId))
        groups = self.op(triple, Op.Load, self.built_in(BuiltIn.NumWorkgroups))
        side = [self.op(UINT, Op.CompositeExtract, groups, axis) for axis in range(2)]
        at = [self.op(UINT, Op.CompositeExtract, group, axis) for axis in range(3)]
        number = self.op(UINT, Op.IAdd, at[1], self.op(UINT, Op.IMul, at[2], side[1]))
        number = self.op(UINT, Op.IAdd, at[0], self.op(UINT, Op.IMul, number, side[0]))
        self.count_local = self.op(UINT, Op.IMul, self.op(UINT, Op.IMul, *self.size_ids[:2]), self.size_ids[2])
        whole = self.op(UINT, Op.IAdd, self.op(UINT, Op.IMul, number, self.count_local), index)
        self.base = self.op(UINT, Op.IMul, whole, self.constant(UINT, OWN_WORDS))
        self.local_index = index
        self.scope.add(UINT, index)
        self.scope.add(UINT, whole)
        for which in (BuiltIn.LocalInvocationId, BuiltIn.GlobalInvocationId):
            if self.chance(0.5):
                self.scope.add(triple, self.op(triple, Op.Load, self.built_in(which)))
        self.scope.add(triple, group)

    def draw_ticket(self):
        """An atomic on a place that all meet, and its answer."""
        pointer, root = self.new(), self.tallies[0]
        self.put(self.functions, Op.AccessChain, self.pointer(root.storage, UINT), pointer, root.id, self.constant(UINT, 2))
        op = self.pick([Op.AtomicExchange, Op.AtomicIAdd, Op.AtomicXor, Op.AtomicUMax, Op.AtomicIIncrement, Op.AtomicCompareExchange])
        self.scope.add(UINT, self.atomic_at(op, pointer, UINT))
        self.mix()

    def tell(self):
        """Stores what was calculated last, and what all that was mixed together comes to."""
        for _ in range(8):
            self.mix()
        traced = self.op(UINT, Op.Load, self.trace)
        for last in (False, False, True):
            found = self.scalar_pointer([self.mine])
            if found:
                pointer, shape = found
                value = traced if last else self.value(UINT)
                if shape == INT:
                    value = self.op(INT, Op.Bitcast, value)
                self.put(self.functions, Op.Store, pointer, value)

    # Barriers, which every invocation of a workgroup reaches.

    def barrier(self):
        memory = self.pick([SHARED_MEMORY, SHARED_MEMORY | BUFFER_MEMORY]) | ACQUIRE_RELEASE
        group = self.constant(UINT, GROUP)
        self.put(self.functions, Op.ControlBarrier, group, group, self.constant(UINT, memory))

    def drop_out(self):
        """One invocation of a workgroup returns, so that the others wait behind their next barrier."""
        out, on = self.new(), self.new()
        condition = self.op(BOOL, Op.IEqual, self.local_index, self.constant(UINT, self.below(4)))
        self.put(self.functions, Op.SelectionMerge, on, 0)
        self.put(self.functions, Op.BranchConditional, condition, out, on)
        self.label(out)
        self.put(self.functions, Op.Return)
        self.label(on)

    def board_place(self, index):
        pointer = self.new()
        self.put(self.functions, Op.AccessChain, self.pointer(Class.Workgroup, UINT), pointer, self.board.id, index)
        return pointer

    def exchange(self):
        """Each invocation writes a word, and reads another's behind a barrier."""
        self.put(self.functions, Op.Store, self.board_place(self.local_index), self.value(UINT))
        self.barrier()
        for _ in range(1 + self.below(2)):
            other = self.op(UINT, Op.UMod, self.value(UINT), self.count_local)
            self.scope.add(UINT, self.op(UINT, Op.Load, self.board_place(other)))
        self.barrier()

    def exchange_often(self):
        """An exchange in a loop of as many turns for all."""
        header, body, onward, merge = (self.new() for _ in range(4))
        before = self.block
        self.put(self.functions, Op.Branch, header)
        self.label(header)
        counter = self.op(UINT, Op.Phi, self.constant(UINT, 0), before, 0, 0)
        end = len(self.functions)
        again = self.op(BOOL, Op.ULessThan, counter, self.constant(UINT, 1 + self.below(3)))
        start = self.scope.copy()
        self.put(self.functions, Op.LoopMerge, merge, onward, 0)
        self.put(self.functions, Op.BranchConditional, again, body, merge)
        self.label(body)
        self.exchange()
        self.calculate()
        self.put(self.functions, Op.Branch, onward)
        self.label(onward)
        self.functions[end - 2 : end] = [self.op(UINT, Op.IAdd, counter, self.constant(UINT, 1)), onward]
        self.put(self.functions, Op.Branch, header)
        self.scope = start
        self.label(merge)

    def shared_count(self):
        """All invocations set a word to the same, then all count on it, then all read it."""
        pointer = self.board_place(self.constant(UINT, 31))
        how = [self.constant(UINT, GROUP), self.constant(UINT, RELAXED)]
        self.put(self.functions, Op.AtomicStore, pointer, *how, self.constant(UINT, self.word()))
        self.barrier()
        family = self.pick(COMMUTING + [[Op.AtomicUMin], [Op.AtomicUMax]])
        for _ in range(1 + self.below(3)):
            self.atomic_at(self.pick(family), pointer, UINT)
        self.barrier()
        self.scope.add(UINT, self.op(UINT, Op.Load, pointer))
        self.barrier()

    # The module's bytes.

    def written(self):
        interface = list(self.built_ins.values()) if self.minor < 4 else self.variables
        head = self.head
        self.put(head, Op.Capability, 1)
        if self.minor < 3:
            self.put(head, Op.Extension, *octets("SPV_KHR_storage_buffer_storage_class"))
        self.put(head, Op.ExtInstImport, self.extension, *octets("GLSL.std.450"))
        self.put(head, Op.MemoryModel, 0, 1)
        self.put(head, Op.EntryPoint, 5, self.main, *octets("main"), *interface)
        if self.size_kind == "ids":
            self.put(head, Op.ExecutionModeId, self.main, 38, *self.size_ids)
        else:
            self.put(head, Op.ExecutionMode, self.main, 17, *self.local)
        self.put(head, Op.String, self.file, *octets("made"))
        sections = head + self.marks + self.globals + self.functions
        words = [0x07230203, 1 << 16 | self.minor << 8, 0, self.bound, 0, *sections]
        return struct.pack(f"<{len(words)}I", *words)

    # What it may be run on.

    def made_sidecar(self):
        """The numbers of workgroups, the words of buffers and push constants, and a specialization."""
        spec = {}
        for made in self.specs:
            if self.chance(0.6):
                spec[made.id] = self.random.randint(*made.words) if made.words else self.scalar(made.shape)
        local = 1
        for side, number in zip(self.local, self.local_specs):
            local *= spec.get(number, side)
        most, groups = 96 if self.any_order else 8, [1, 1, 1]
        for axis in range(3):
            while groups[axis] < 3 and self.chance(0.5) and local * math.prod(groups) * (groups[axis] + 1) // groups[axis] <= most:
                groups[axis] += 1
        number = local * math.prod(groups)
        sidecar = {"groups": groups, "buffers": [self.words_for(buffer, number) for buffer in self.buffers], "spec": [spec]}
        if self.push_words:
            sidecar["push"] = [self.word() for _ in range(self.push_words)]
        return sidecar

    def words_for(self, buffer, invocations):
        """A buffer with enough words; one that is read alone may be short or empty, but not where a device is asked or an index may be
        outside of an array."""
        may_lack = not (buffer.written or self.careful or self.careless)
        elements = 16 + self.below(8)
        if self.is_mine(buffer):
            elements = max(16, invocations * OWN_WORDS)
        elif may_lack and self.chance(0.3):
            elements = self.below(16)
        words = buffer.fixed + elements * buffer.step
        if may_lack and self.chance(0.05):
            words = 0
        data = [self.word() for _ in range(words)]
        return {"set": buffer.set, "binding": buffer.binding, "kind": buffer.kind, "words": words, "init": [{"data": data}]}

    def is_mine(self, buffer):
        return buffer.written and buffer.fixed == 0
