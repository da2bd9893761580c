"""SPIR-V modules as words: names of numbers, types and how they are laid out, a writer, and a reader of instructions."""
import enum
import struct
from dataclasses import make_dataclass

MOST_WORD = 0xFFFFFFFF


class Op(enum.IntEnum):
    """The opcodes that are written, by the names of the standard."""

    Nop, Undef, String, Line, Extension, ExtInstImport, ExtInst = 0, 1, 7, 8, 10, 11, 12
    MemoryModel, EntryPoint, ExecutionMode, Capability = 14, 15, 16, 17
    TypeVoid, TypeBool, TypeInt, TypeVector, TypeArray, TypeRuntimeArray = 19, 20, 21, 23, 28, 29
    TypeStruct, TypePointer, TypeFunction = 30, 32, 33
    ConstantTrue, ConstantFalse, Constant, ConstantComposite, ConstantNull = 41, 42, 43, 44, 46
    SpecConstantTrue, SpecConstantFalse, SpecConstant, SpecConstantComposite, SpecConstantOp = 48, 49, 50, 51, 52
    Function, FunctionParameter, FunctionEnd, FunctionCall, Variable, Load, Store = 54, 55, 56, 57, 59, 61, 62
    AccessChain, InBoundsAccessChain, ArrayLength, Decorate, MemberDecorate = 65, 66, 68, 71, 72
    VectorExtractDynamic, VectorInsertDynamic, VectorShuffle = 77, 78, 79
    CompositeConstruct, CompositeExtract, CompositeInsert, CopyObject = 80, 81, 82, 83
    Bitcast, SNegate, IAdd, ISub, IMul, UDiv, SDiv, UMod, SRem, SMod = 124, 126, 128, 130, 132, 134, 135, 137, 138, 139
    Any, All, LogicalEqual, LogicalNotEqual, LogicalOr, LogicalAnd, LogicalNot, Select = 154, 155, 164, 165, 166, 167, 168, 169
    IEqual, INotEqual, UGreaterThan, SGreaterThan, UGreaterThanEqual, SGreaterThanEqual = 170, 171, 172, 173, 174, 175
    ULessThan, SLessThan, ULessThanEqual, SLessThanEqual = 176, 177, 178, 179
    ShiftRightLogical, ShiftRightArithmetic, ShiftLeftLogical, BitwiseOr, BitwiseXor, BitwiseAnd, Not = 194, 195, 196, 197, 198, 199, 200
    BitFieldInsert, BitFieldSExtract, BitFieldUExtract, BitReverse, BitCount = 201, 202, 203, 204, 205
    ControlBarrier, MemoryBarrier, AtomicLoad, AtomicStore, AtomicExchange, AtomicCompareExchange = 224, 225, 227, 228, 229, 230
    AtomicIIncrement, AtomicIDecrement, AtomicIAdd, AtomicISub = 232, 233, 234, 235
    AtomicSMin, AtomicUMin, AtomicSMax, AtomicUMax, AtomicAnd, AtomicOr, AtomicXor = 236, 237, 238, 239, 240, 241, 242
    Phi, LoopMerge, SelectionMerge, Label, Branch, BranchConditional, Switch = 245, 246, 247, 248, 249, 250, 251
    Return, ReturnValue, Unreachable, NoLine, ExecutionModeId, CopyLogical = 253, 254, 255, 317, 331, 400


class Extended(enum.IntEnum):
    """The numbers of GLSL.std.450 that are written."""

    SAbs, SSign, UMin, SMin, UMax, SMax, UClamp, SClamp, FindILsb, FindSMsb, FindUMsb = 5, 7, 38, 39, 41, 42, 44, 45, 73, 74, 75


class Class(enum.IntEnum):
    """Storage classes."""

    Input, Uniform, Workgroup, Private, Function, PushConstant, StorageBuffer = 1, 2, 4, 6, 7, 9, 12


class Mark(enum.IntEnum):
    """Decorations."""

    SpecId, Block, BufferBlock, ArrayStride, BuiltIn, Restrict, Aliased, Coherent, NonWritable = 1, 2, 3, 6, 11, 19, 20, 23, 24
    Binding, DescriptorSet, Offset = 33, 34, 35


class BuiltIn(enum.IntEnum):
    NumWorkgroups, WorkgroupSize, WorkgroupId, LocalInvocationId, GlobalInvocationId, LocalInvocationIndex = 24, 25, 26, 27, 28, 29


# Shapes of values and blocks. `rule` is std430, std140 or nothing; shapes that differ in it are different types.


def shape(name, fields, **rest):
    """A kind of shapes with these fields, and with those of `rest`, which have these values where nothing else is said."""
    return make_dataclass(name, [*fields.split(), *((field, object, value) for field, value in rest.items())], frozen=True)


Scalar = shape("Scalar", "name")
Vector = shape("Vector", "of size")
Array = shape("Array", "of length", rule="", by=0)  # by the specialization constant that is the length
Runtime = shape("Runtime", "of rule")
Record = shape("Record", "parts", rule="", block=0)  # the decoration that makes it a block

BOOL, UINT, INT = Scalar("bool"), Scalar("uint"), Scalar("int")
INTS = [UINT, INT]


def sized(scalar, size):
    """A scalar, or a vector of some."""
    return scalar if size == 1 else Vector(scalar, size)


def parts_of(shape):
    """The scalar and the number of a scalar or vector."""
    return (shape.of, shape.size) if isinstance(shape, Vector) else (shape, 1)


def rounded(number, to):
    return -(-number // to) * to


def alignment(shape, rule):
    if isinstance(shape, Scalar):
        return 4
    if isinstance(shape, Vector):
        return 8 if shape.size == 2 else 16
    inner = max(alignment(part, rule) for part in (shape.parts if isinstance(shape, Record) else [shape.of]))
    return rounded(inner, 16) if rule == "std140" else inner


def stride(shape, rule):
    """How far the elements of an array stand apart."""
    return rounded(extent(shape.of, rule), alignment(shape, rule))


def offsets(record):
    """Where the members of a struct stand."""
    at, places = 0, []
    for part in record.parts:
        places.append(rounded(at, alignment(part, record.rule)))
        at = places[-1] + extent(part, record.rule)
    return places


def extent(shape, rule):
    """The bytes of a shape, without the elements of a runtime array."""
    if isinstance(shape, Scalar):
        return 4
    if isinstance(shape, Vector):
        return 4 * shape.size
    if isinstance(shape, Array):
        return shape.length * stride(shape, rule)
    if isinstance(shape, Runtime):
        return 0
    last = offsets(shape)[-1] + extent(shape.parts[-1], rule)
    return rounded(last, alignment(shape, rule))


def laid(shape, rule):
    """The same shape, laid out."""
    if isinstance(shape, Array):
        return Array(laid(shape.of, rule), shape.length, rule)
    if isinstance(shape, Record):
        return Record(tuple(laid(part, rule) for part in shape.parts), rule)
    return shape


def octets(text):
    """A string as words."""
    data = text.encode() + b"\0"
    data += b"\0" * (-len(data) % 4)
    return struct.unpack(f"<{len(data) // 4}I", data)


class Words:
    """A module as it is written: its sections, its types and constants, each once."""

    def __init__(self):
        self.bound, self.made = 1, {}
        self.head, self.marks, self.globals, self.functions = [], [], [], []

    def new(self):
        self.bound += 1
        return self.bound - 1

    def put(self, section, op, *words):
        section.append((len(words) + 1) << 16 | op)
        section.extend(word & MOST_WORD for word in words)

    def once(self, key, op, *words):
        """The id of a global that has a result and no type, made where it is not there."""
        if key not in self.made:
            self.made[key] = self.new()
            self.put(self.globals, op, self.made[key], *words)
        return self.made[key]

    def type(self, shape):
        if shape not in self.made:
            self.made[shape] = self.type_made(shape)
        return self.made[shape]

    def type_made(self, shape):
        if isinstance(shape, Scalar):
            return self.once((shape.name,), *((Op.TypeBool,) if shape == BOOL else (Op.TypeInt, 32, int(shape == INT))))
        if isinstance(shape, Vector):
            return self.once((shape,), Op.TypeVector, self.type(shape.of), shape.size)
        if isinstance(shape, Array):
            length = shape.by or self.constant(UINT, shape.length)
            return self.strided(shape, self.once((shape,), Op.TypeArray, self.type(shape.of), length))
        if isinstance(shape, Runtime):
            return self.strided(shape, self.once((shape,), Op.TypeRuntimeArray, self.type(shape.of)))
        return self.struct_made(shape)

    def strided(self, shape, result):
        if shape.rule:
            self.put(self.marks, Op.Decorate, result, Mark.ArrayStride, stride(shape, shape.rule))
        return result

    def struct_made(self, shape):
        result = self.once((shape,), Op.TypeStruct, *[self.type(part) for part in shape.parts])
        if shape.rule:
            for member, place in enumerate(offsets(shape)):
                self.put(self.marks, Op.MemberDecorate, result, member, Mark.Offset, place)
        if shape.block:
            self.put(self.marks, Op.Decorate, result, shape.block)
        return result

    def pointer(self, storage, shape):
        return self.once(("pointer", storage, shape), Op.TypePointer, storage, self.type(shape))

    def typed(self, op, shape, *words):
        """The id of a new constant."""
        ty, result = self.type(shape), self.new()
        self.put(self.globals, op, ty, result, *words)
        return result

    def constant(self, shape, value):
        """The id of a constant: of a scalar, or of a composite that has this scalar in each part."""
        key = ("constant", shape, value)
        if key not in self.made:
            if isinstance(shape, Vector):
                self.made[key] = self.typed(Op.ConstantComposite, shape, *[self.constant(shape.of, value)] * shape.size)
            elif shape == BOOL:
                self.made[key] = self.typed(Op.ConstantTrue if value else Op.ConstantFalse, shape)
            else:
                self.made[key] = self.typed(Op.Constant, shape, value)
        return self.made[key]


def instructions(data):
    """The instructions of a module as opcodes with all their words."""
    words = struct.unpack(f"<{len(data) // 4}I", data)
    at = 5
    while at < len(words):
        yield words[at] & 0xFFFF, words[at : at + (words[at] >> 16)]
        at += words[at] >> 16
