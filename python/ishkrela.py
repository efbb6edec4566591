"""Ishkrela from Python: plans that move a table between the devices of a mesh.

A mesh is a grid of up to 1,024 devices, given by the sizes of its axes. A table (a tensor of up to
65,536 words of 32 bits) is spread over it; its sharding says which axes split each dimension. A plan
is a small file with the sizes of mesh and table, the sharding at the start, and steps that change it;
a block of steps that ends in the sharding it begins with may be repeated.
Devices are numbered in row-major order of their coordinates, or as the order of a plan lists them.

    >>> from ishkrela import *
    >>> file = plan_file([2, 2], [4, 4], Sharding([[0], [1]]), [AllGather([[], [1]])])
    >>> check(file).shard
    (2, 4)
    >>> place(file, 0, 3).first
    (2, 2)
    >>> place_all(file, 1, [0, 1, 2, 3])
    [(0, 0), (0, 0), (2, 0), (2, 0)]
    >>> groups([2, 2], [0])
    [[0, 2], [1, 3]]
    >>> print(picture(file, 0, spread(file, range(1, 17))))
                     +-------+-------+
    device (0, 0) -> |  1  2 |  3  4 | <- device (0, 1)
                     |  5  6 |  7  8 |
                     +-------+-------+
    device (1, 0) -> |  9 10 | 11 12 | <- device (1, 1)
                     | 13 14 | 15 16 |
                     +-------+-------+
    >>> print(picture(file, 1, moved(file, spread(file, range(1, 17)))))
                     +-------------+-------------+
    device (0, 0) -> |  1  2  3  4 |  1  2  3  4 | <- device (0, 1)
                     |  5  6  7  8 |  5  6  7  8 |
                     +-------------+-------------+
    device (1, 0) -> |  9 10 11 12 |  9 10 11 12 | <- device (1, 1)
                     | 13 14 15 16 | 13 14 15 16 |
                     +-------------+-------------+

From one sharding to another there is a plan that the library makes, and a file is read back:

    >>> plan = plan_between([2, 2], [4, 4], Sharding([[0], [1]]), Sharding([[1], []]))
    >>> plan.steps
    (AllGather(lists=((0,), (1,))), AllSlice(lists=((1,), ())))
    >>> Plan.from_bytes(plan.to_bytes()) == plan
    True

check, place, place_all, groups, run, plan_file, plan_between and the two ways of Plan are calls of the
verified library, which answers what the rules define on every input; where they refuse, Refused is raised.
spread, moved and picture are plain Python beside it.

A plan file is any bytes-like object, taken whole: bytes, a bytearray, a memoryview, an array. Memory
that is lent for writing is a writable buffer without gaps: an array.array, or a memoryview, a ctypes
or a numpy array of the same type.

The library is target/libishkrela.so of this project, which tools/build makes, or the file that the
environment variable ISHKRELA_LIBRARY names. Python 3.8 or newer; the standard library alone.
"""
import array
import ctypes
import itertools
import math
import os
from dataclasses import dataclass, replace
from typing import Any, Iterable, Iterator, List, Optional, Sequence, Tuple, Union

__all__ = [
    "AllGather", "AllReduce", "AllSlice", "AllToAll", "Checked", "Placed", "Plan", "ReduceScatter", "Refused", "Repeat",
    "Sharding", "check", "groups", "moved", "picture", "place", "place_all", "plan_between", "plan_file", "run",
    "spread",
]

MOST_AXES = 6
MOST_DIMS = 4
MOST_DEVICES = 1024
MOST_BYTES = 8192
RECORD_BYTES = 38  # of a step, as ishkrela_step of include/ishkrela.h has it
LEAST_STEP_BYTES = 3  # of a step in the file of an accepted plan: it names an axis

TEXTS = {
    1: "fewer than 18 bytes",
    2: "more than 8,192 bytes, given or to be written",
    3: "the edition is none of 1, 2 and 3",
    4: "total length is not the number of bytes given",
    5: "number of axes, rank or number of steps outside its limits",
    6: "an offset is wrong",
    7: "a section runs past the end; records end inside a block",
    8: "a list's count is above the number of axes",
    9: "bytes left after the last step",
    10: "a mesh size is 0",
    11: "the product of mesh sizes passes 1,024",
    12: "a table size is 0",
    13: "the product of table sizes passes 65,536",
    14: "start or goal: no such axis",
    15: "start or goal: an axis named before",
    16: "start or goal: unreduced or replicated list not strictly increasing",
    17: "start or goal: a dimension is not divisible",
    18: "start: the replicated list of edition 2 is empty",
    19: "the order is no rearrangement of 0 to D-1, or it is the plain one",
    20: "unknown kind of step",
    21: "a step names no axis",
    22: "step: no such axis",
    23: "an axis was named earlier in this step or, by an all-slice, is in a list of the sharding",
    24: "the gathered list is not the tail of the dimension's list",
    25: "a dimension's shard size is not divisible",
    26: "all-reduce: list not strictly increasing",
    27: "all-reduce: an axis splits a dimension or is to stay replicated; reduce-scatter: an axis is not unreduced",
    28: "all-to-all: source or target is no dimension, or they are equal",
    30: "work is shorter than the room",
    31: "spare is shorter than the room",
    32: "no such device",
    33: "an output is too short: for all groups, all first indexes, the order or the records of a file",
    34: "no such state",
    35: "the buffer is shorter than the file",
    40: "the goal has an unreduced axis that is not the start's, or another replicated list",
    41: "repeat: the sharding after the block is not the one before it",
    42: "repeat: deeper than 4",
    43: "more than 4,096 plain steps are run",
    44: "repeat: the count or the number of inner steps is 0",
}


Bytes = Union[bytes, bytearray, memoryview, array.array]
Lent = Union[array.array, bytearray, memoryview, ctypes.Array]
Axes = Sequence[int]
Lists = Sequence[Axes]


class Refused(Exception):
    """A refusal: its number, the step that it is given in (0 outside the steps), and a text. Steps are
    numbered from 1 in the order of the file, repeats and the steps inside them too. Where a device of a
    list is refused (32), `place` is the place in the list, from 0, of the first; it is None otherwise.

    docs/REFUSALS.md says of each number when it is given and what to do.
    """

    def __init__(self, number: int, step: int = 0, place: Optional[int] = None) -> None:
        self.number, self.step, self.place = number, step, place
        self.text = TEXTS.get(number, "unknown refusal")
        where = f" (step {step})" if step else "" if place is None else f" (place {place} of the list)"
        super().__init__(f"{number}: {self.text}{where}")

    def __reduce__(self) -> Tuple[type, Tuple[int, int, Optional[int]]]:
        return type(self), (self.number, self.step, self.place)  # so that it comes whole out of another process


@dataclass(frozen=True)
class Sharding:
    """For each dimension the axes that split it, outer to inner; the unreduced axes; and the axes to stay replicated."""

    dims: Lists
    unreduced: Axes = ()
    replicated: Axes = ()

    def __post_init__(self) -> None:
        _keep(self, dims=_tuples(self.dims), unreduced=tuple(self.unreduced), replicated=tuple(self.replicated))


@dataclass(frozen=True)
class Checked:
    """The check's answer: the words that a run needs, the numbers of devices and steps, and the last state.

    `steps` is the number of the last state: a repeat is one step, whatever is inside it. `moved` is the
    words that a run moves between devices: for each new word, the other devices whose word it is made from.
    """

    room: int
    devices: int
    steps: int
    sharding: Sharding
    shard: Tuple[int, ...]
    moved: int


@dataclass(frozen=True)
class Placed:
    """The placement's answer: a state's sharding and shard sizes, and where in the table a device's shard begins."""

    sharding: Sharding
    shard: Tuple[int, ...]
    first: Tuple[int, ...]


# ---- the calls of the library


def check(file: Bytes) -> Checked:
    """Judges a plan file. Answers Checked."""
    answer = _library().ishkrela_check(*_read(file))
    _raise(answer.refusal)
    sharding, shard = _sharding(answer.sharding, answer.rank), _front(answer.shard, answer.rank)
    return Checked(answer.room, answer.devices, answer.steps, sharding, shard, answer.moved)


def place(file: Bytes, state: int, device: int) -> Placed:
    """Announces a state of a plan and where a device's shard begins. State 0 is the start, state k is after
    the k-th of the plan's steps, where a repeat is one step. Answers Placed."""
    answer = _library().ishkrela_place(*_read(file), _number(state, 16), _number(device, 16))
    _raise(answer.refusal)
    sharding, shard = _sharding(answer.sharding, answer.rank), _front(answer.shard, answer.rank)
    return Placed(sharding, shard, _front(answer.first, answer.rank))


def place_all(file: Bytes, state: int, devices: Iterable[int], out: Optional[Lent] = None) -> List[Tuple[int, ...]]:
    """Where the shard of each device of a list begins, in a state of a plan: the first indexes that `place` gives for
    each of them, in one call. A device may be named again. Raises Refused with 32, and its `place` in the list, at the
    first device that is not there.

    `out`, 16-bit words such as an array.array("H") where it is given, is lent to the call: its first
    entries become the first indexes of each device in turn, and the others stay.
    """
    listed = array.array("H", [*devices])
    first = array.array("H", bytes(2 * MOST_DIMS * len(listed))) if out is None else out
    answer = _library().ishkrela_place_all(*_read(file), _number(state, 16), *_lent(listed, "H"), *_lent(first, "H"))
    _raise(answer.refusal, answer.place)
    rank = len(check(file).shard)
    indexes = array.array("H", memoryview(first).tobytes()[:2 * rank * len(listed)])
    return [tuple(indexes[at:at + rank]) for at in range(0, len(indexes), rank)]


def groups(
    mesh: Iterable[int], axes: Iterable[int], out: Optional[Lent] = None, order: Optional[Iterable[int]] = None
) -> List[List[int]]:
    """Lists the devices of a mesh by groups along a list of axes, each in order of position: a list for each group.

    `out`, 16-bit words such as an array.array("H") where it is given, is lent to the call: its first
    entries become the device numbers, one for each device of the mesh, and the others stay.

    `order` is the device at each coordinate tuple, in row-major order; None is plain order. One that is
    given is judged (19), the empty and the plain one too.
    """
    sizes, along = array.array("H", [*mesh]), array.array("B", [*axes])
    listing = array.array("H", bytes(2 * MOST_DEVICES)) if out is None else out
    lent = [*_lent(along, "B"), *_lent(listing, "H")]
    if order is None:
        _raise(_library().ishkrela_groups(*_lent(sizes, "H"), *lent))
    else:
        _raise(_library().ishkrela_groups_ordered(*_lent(sizes, "H"), *_lent(array.array("H", [*order]), "H"), *lent))
    devices, size = math.prod(sizes), math.prod(sizes[axis] for axis in along)
    listed = array.array("H", memoryview(listing).tobytes()[:2 * devices]).tolist()
    return [listed[at:at + size] for at in range(0, devices, size)]


def run(file: Bytes, work: Lent, spare: Lent) -> int:
    """Runs a plan on the words in `work`, each device's shard after the other, by device number.

    Answers the words moved between devices, the check's `moved`.

    `work` and `spare`, 32-bit words such as an array.array("I"), each with at least the check's `room`
    of them, are lent to the call and share no memory. Afterwards the last state stands at the front of
    work; the rest of work and all of spare are 0. A refusal leaves both as they were.
    """
    if _overlap(_lent(work, "I")[0], _lent(spare, "I")[0]):
        raise ValueError("work and spare overlap: lend two buffers that share no memory")
    answer = _library().ishkrela_run(*_read(file), *_lent(work, "I"), *_lent(spare, "I"))
    _raise(answer.refusal)
    return answer.moved


# ---- plans


@dataclass(frozen=True)
class AllSlice:
    """Splits each dimension further, along axes in no list of the sharding: a list for each dimension."""

    lists: Lists

    def __post_init__(self) -> None:
        _keep(self, lists=_tuples(self.lists))


@dataclass(frozen=True)
class AllGather:
    """Joins shards along the last axes of each dimension's list: a list for each dimension."""

    lists: Lists

    def __post_init__(self) -> None:
        _keep(self, lists=_tuples(self.lists))


@dataclass(frozen=True)
class AllReduce:
    """Adds the shards along unreduced axes, or ones that no list names: these multiply the table by their size."""

    axes: Axes

    def __post_init__(self) -> None:
        _keep(self, axes=tuple(self.axes))


@dataclass(frozen=True)
class AllToAll:
    """Moves the last axes of the source dimension's list to the end of the target's."""

    source: int
    target: int
    axes: Axes

    def __post_init__(self) -> None:
        _keep(self, axes=tuple(self.axes))


@dataclass(frozen=True)
class ReduceScatter:
    """Adds the shards along unreduced axes, and splits each dimension further along them: a list for each dimension."""

    lists: Lists

    def __post_init__(self) -> None:
        _keep(self, lists=_tuples(self.lists))


@dataclass(frozen=True)
class Repeat:
    """Runs a block of steps so many times, up to 255. The block has up to 255 steps, which may be repeats themselves
    down to depth 4, and ends in the sharding that it begins with."""

    count: int
    steps: "Sequence[Step]"

    def __post_init__(self) -> None:
        _keep(self, steps=tuple(self.steps))


Step = Union[AllSlice, AllGather, AllReduce, AllToAll, ReduceScatter, Repeat]
BY_DIM = {1: AllSlice, 2: AllGather, 5: ReduceScatter}  # the kinds with a list for each dimension


@dataclass(frozen=True)
class Plan:
    """A plan as Python values: mesh sizes, table sizes, the Sharding at the start, and steps; and the order of the
    devices, the one at each coordinate tuple in row-major order, or None for plain order.

    Any values make one; `to_bytes` has the library judge it. Plans are compared and hashed as values, and two that
    are accepted are equal just where their files are. An order of no numbers is None.
    """

    mesh: Sequence[int]
    table: Sequence[int]
    start: Sharding
    steps: Sequence[Step] = ()
    order: Optional[Sequence[int]] = None

    def __post_init__(self) -> None:
        order = None if self.order is None else tuple(self.order) or None
        _keep(self, mesh=tuple(self.mesh), table=tuple(self.table), steps=tuple(self.steps), order=order)

    def to_bytes(self) -> bytes:
        """The bytes of the plan's file, to be written to disk as they are. Raises Refused, with the number and the step
        that the check would give, where the rules refuse the plan.

        What is no plan at all raises before that: ValueError where the sharding or a step has not one list for each
        dimension of the table, OverflowError where a number does not fit its place in a file (16 bits for sizes and
        devices, 8 for axes, dimensions and counts).
        """
        file = bytearray(MOST_BYTES)
        return bytes(file[:self.write_into(file)])

    def write_into(self, buffer: Lent) -> int:
        """Writes the plan's file to the front of a lent buffer, such as a bytearray, and answers how many bytes it has.
        Those after it stay. Raises what `to_bytes` does, and Refused with 35 where the buffer is shorter than that."""
        return _write(self, b"".join(_records(self.steps, len(self.table))), buffer)

    @classmethod
    def from_bytes(cls, file: Bytes) -> "Plan":
        """The plan of a file that the check accepts: `to_bytes` gives these bytes again. Raises Refused on others."""
        whole, length = _read(file)
        order = array.array("H", bytes(2 * MOST_DEVICES))
        records = array.array("B", bytes(min(length, MOST_BYTES) // LEAST_STEP_BYTES * RECORD_BYTES))
        answer = _library().ishkrela_read(whole, length, *_lent(order, "H"), *_lent(records, "B"))
        _raise(answer.refusal)
        start, steps = _sharding(answer.start, answer.rank), records[:answer.steps_bytes].tobytes()
        mesh, table = _front(answer.mesh, answer.n), _front(answer.table, answer.rank)
        return cls(mesh, table, start, _steps(_apart(steps), answer.rank), order[:answer.order])


def plan_file(
    mesh: Iterable[int], table: Iterable[int], start: Sharding, steps: Iterable[Step] = (),
    order: Optional[Iterable[int]] = None
) -> bytes:
    """The bytes of a plan's file, Plan(mesh, table, start, steps, order).to_bytes(), which says what is raised."""
    return Plan(mesh, table, start, steps, order).to_bytes()


def plan_between(
    mesh: Iterable[int], table: Iterable[int], start: Sharding, goal: Sharding, order: Optional[Iterable[int]] = None
) -> Plan:
    """The Plan that leads from one sharding to another: an all-reduce, then an all-gather, then an all-slice, each
    left out where it would name no axis. Run on a spread of a table under the start it leaves one under the goal.

    Raises Refused where mesh, order, table or a sharding is refused, and with 40 where no step leads to the goal: it
    has an unreduced axis that the start lacks, or other axes that are to stay replicated.
    """
    plan = Plan(mesh, table, start, (), order)
    rank = len(plan.table)
    shardings = [_given("the start", start, rank), _given("the goal", goal, rank)]
    answer = _library().ishkrela_plan(*_mesh_and_table(plan), *shardings)
    _raise(answer.refusal)
    return replace(plan, steps=tuple(_steps(_apart(bytes(answer.steps)[:RECORD_BYTES * answer.count]), rank)))


def moved(file: Bytes, words: Iterable[int]) -> List[int]:
    """The words of a plan's last state, from those of its start."""
    answer = check(file)
    work, spare = array.array("I", [*words]), array.array("I", bytes(4 * answer.room))
    _count_words(file, 0, work)
    work.extend(itertools.repeat(0, answer.room - len(work)))
    run(file, work, spare)
    return work[:answer.devices * math.prod(answer.shard)].tolist()


def spread(file: Bytes, table: Iterable[int]) -> List[int]:
    """The words of a table (row-major) spread as at the start of a plan, each device's shard after the other.

    Of the devices along an unreduced axis the first holds the table's words and the others 0.
    """
    mesh, order, sizes = _sizes(file)
    table = [*table]
    if len(table) != math.prod(sizes):
        raise ValueError(f"a table of {_by(sizes)} has {math.prod(sizes)} words: {len(table)} were given")
    words = []
    tuples = dict(zip(order, itertools.product(*map(range, mesh))))
    start = place(file, 0, 0)
    for device, first in enumerate(place_all(file, 0, range(len(order)))):
        zero = any(tuples[device][axis] for axis in start.sharding.unreduced)
        for index in itertools.product(*map(range, start.shard)):
            words.append(0 if zero else table[_row_major(sizes, map(sum, zip(first, index)))])
    return words


def picture(file: Bytes, state: int, words: Iterable[int]) -> str:
    """A drawing of a state's words: the last axis of the mesh runs across, the others run down.
    The words are given by device number; each device is drawn at its coordinates.

    Of a shard the last dimension runs across; planes of the other dimensions stand below each other.
    Devices are named beside the drawing, the first and the last of each row; those of a single row
    of more than two are named above it, where the names fit.
    """
    mesh, order, _ = _sizes(file)
    words = [*words]
    shard = _count_words(file, state, words)
    width = max(len(str(word)) for word in words)
    across, down = shard[-1], math.prod(shard[:-1])
    cell = (width + 1) * across + 1
    rule = "+" + ("-" * cell + "+") * mesh[-1]
    above = len(mesh) == 1 and mesh[0] > 2 and cell > len("device")
    drawn = _above(mesh[0], cell) if above else []
    for row, beside in enumerate(itertools.product(*map(range, mesh[:-1]))):
        first, last = _device(*beside, 0), _device(*beside, mesh[-1] - 1)
        margin = "" if above else " " * len(f"{first} -> ")
        drawn.append(margin + rule)
        for line in range(down):
            text = "|"
            for column in range(mesh[-1]):
                at = (order[row * mesh[-1] + column] * down + line) * across
                text += "".join(f" {word:>{width}}" for word in words[at:at + across]) + " |"
            named = line == 0 and not above
            drawn.append(f"{first} -> {text}" + (f" <- {last}" if first != last else "") if named else margin + text)
    return "\n".join([*drawn, margin + rule])


# ---- inside


class _Sharding(ctypes.Structure):
    _fields_ = [
        ("counts", ctypes.c_uint8 * (MOST_DIMS + 2)), ("axes", ctypes.c_uint8 * ((MOST_DIMS + 2) * MOST_AXES)),
    ]


class _Checked(ctypes.Structure):
    _fields_ = [
        ("refusal", ctypes.c_uint32), ("room", ctypes.c_uint32), ("devices", ctypes.c_uint16),
        ("steps", ctypes.c_uint16), ("rank", ctypes.c_uint16), ("shard", ctypes.c_uint16 * MOST_DIMS),
        ("sharding", _Sharding), ("moved", ctypes.c_uint64),
    ]


class _Ran(ctypes.Structure):
    _fields_ = [("refusal", ctypes.c_uint32), ("moved", ctypes.c_uint64)]


class _Placed(ctypes.Structure):
    _fields_ = [
        ("refusal", ctypes.c_uint32), ("rank", ctypes.c_uint16), ("shard", ctypes.c_uint16 * MOST_DIMS),
        ("first", ctypes.c_uint16 * MOST_DIMS), ("sharding", _Sharding),
    ]


class _PlacedAll(ctypes.Structure):
    _fields_ = [("refusal", ctypes.c_uint32), ("place", ctypes.c_size_t)]


class _Step(ctypes.Structure):
    _fields_ = [
        ("kind", ctypes.c_uint8), ("source", ctypes.c_uint8), ("target", ctypes.c_uint8),
        ("counts", ctypes.c_uint8 * (MOST_DIMS + 1)), ("axes", ctypes.c_uint8 * ((MOST_DIMS + 1) * MOST_AXES)),
    ]


class _Written(ctypes.Structure):
    _fields_ = [("refusal", ctypes.c_uint32), ("bytes", ctypes.c_size_t)]


class _Opened(ctypes.Structure):
    _fields_ = [
        ("refusal", ctypes.c_uint32), ("n", ctypes.c_uint16), ("rank", ctypes.c_uint16),
        ("mesh", ctypes.c_uint16 * MOST_AXES), ("table", ctypes.c_uint16 * MOST_DIMS), ("start", _Sharding),
        ("order", ctypes.c_size_t), ("steps_bytes", ctypes.c_size_t),
    ]


class _Planned(ctypes.Structure):
    _fields_ = [("refusal", ctypes.c_uint32), ("count", ctypes.c_uint32), ("steps", _Step * 3)]


_loaded = None


def _library() -> Any:
    """The shared object, with the types of include/ishkrela.h."""
    global _loaded
    if _loaded is None:
        root = os.path.dirname(os.path.dirname(os.path.abspath(__file__)))
        path = os.environ.get("ISHKRELA_LIBRARY", os.path.join(root, "target", "libishkrela.so"))
        if not os.path.exists(path):
            raise ImportError(f"{path} is not there: tools/build makes it")
        _loaded = _typed(ctypes.CDLL(path))
    return _loaded


def _typed(library: Any) -> Any:
    slice_of = [ctypes.c_void_p, ctypes.c_size_t]
    file = [ctypes.c_char_p, ctypes.c_size_t]
    calls = {
        "ishkrela_check": (_Checked, file),
        "ishkrela_place": (_Placed, file + [ctypes.c_uint16, ctypes.c_uint16]),
        "ishkrela_place_all": (_PlacedAll, file + [ctypes.c_uint16] + 2 * slice_of),
        "ishkrela_groups": (ctypes.c_uint32, 3 * slice_of),
        "ishkrela_groups_ordered": (ctypes.c_uint32, 4 * slice_of),
        "ishkrela_run": (_Ran, file + 2 * slice_of),
        "ishkrela_write": (_Written, 3 * slice_of + [_Sharding] + file + slice_of),
        "ishkrela_read": (_Opened, file + 2 * slice_of),
        "ishkrela_plan": (_Planned, 3 * slice_of + 2 * [_Sharding]),
    }
    for name, (answer, takes) in calls.items():
        call = getattr(library, name, None)
        if call is None:
            raise ImportError(f"{library._name} has no {name}: it is older than this module, tools/build makes it anew")
        call.restype, call.argtypes = answer, takes
    return library


def _raise(refusal: int, place: Optional[int] = None) -> None:
    if refusal:
        raise Refused(refusal % 256, refusal // 256, place if refusal == 32 else None)


def _number(number: int, bits: int) -> int:
    # ctypes would cut a number that is too large, and so call for another state or device.
    if not 0 <= number < 2 ** bits:
        raise OverflowError(f"{number} is not a number of {bits} bits")
    return number


def _read(file: Bytes) -> Tuple[bytes, int]:
    """All bytes of a file, whatever its elements and steps are, and how many."""
    whole = memoryview(file).tobytes()
    return whole, len(whole)


def _lent(buffer: Lent, code: str) -> Tuple[Any, int]:
    """The memory of a buffer that is lent for writing, and its length. While the memory is held the buffer keeps its size."""
    wanted = f'lend an array.array("{code}"), or another writable buffer of its type without gaps'
    try:
        view = memoryview(buffer)
    except TypeError:
        raise TypeError(f"{wanted}, not a {type(buffer).__name__}") from None
    if view.format.lstrip("@=<") != code or view.readonly or not view.c_contiguous:
        raise TypeError(wanted)
    return (ctypes.c_char * view.nbytes).from_buffer(view), view.nbytes // view.itemsize


def _overlap(one: Any, other: Any) -> bool:
    first, second = ctypes.addressof(one), ctypes.addressof(other)
    return max(first, second) < min(first + len(one), second + len(other))


def _front(places: Any, rank: int) -> Tuple[int, ...]:
    return tuple(places[:rank])


def _sharding(answer: Any, rank: int) -> Sharding:
    lists = [tuple(answer.axes[MOST_AXES * d:][:count]) for d, count in enumerate(answer.counts)]
    return Sharding(lists[:rank], *lists[MOST_DIMS:])


def _keep(made: Any, **fields: Any) -> None:
    """Sets fields of a frozen dataclass: as tuples they are compared and hashed, however they were given."""
    for name, value in fields.items():
        object.__setattr__(made, name, value)


def _tuples(lists: Lists) -> Tuple[Tuple[int, ...], ...]:
    return tuple(map(tuple, lists))


def _bytes(numbers: Iterable[int]) -> bytes:
    return bytes(_number(number, 8) for number in numbers)


def _places(lists: Lists) -> Tuple[bytes, bytes]:
    """How many axes each list has, and its axes in six places. Where there are more, the count tells it: that is 8."""
    for axes in lists:
        if len(axes) > 255:
            raise OverflowError(f"a list of {len(axes)} axes: a list in a file has 255 at most, and each axis once")
    places = b"".join(_bytes(axes)[:MOST_AXES].ljust(MOST_AXES, b"\0") for axes in lists)
    return _bytes(map(len, lists)), places


def _by_dim(lists: Lists) -> List[Axes]:
    """The lists of four dimensions. A table with more is refused (5), whatever they name."""
    return [*lists, *(MOST_DIMS * [()])][:MOST_DIMS]


def _given(whose: str, sharding: Sharding, rank: int) -> _Sharding:
    _count_lists(whose, sharding.dims, rank)
    counts, axes = _places([*_by_dim(sharding.dims), sharding.unreduced, sharding.replicated])
    return _Sharding(tuple(counts), tuple(axes))


def _mesh_and_table(plan: Plan) -> List[Any]:
    """The mesh, the order and the table of a plan, as the calls take them."""
    numbers = [array.array("H", given) for given in (plan.mesh, plan.order or (), plan.table)]
    return [part for given in numbers for part in _lent(given, "H")]


def _write(plan: Plan, records: bytes, buffer: Lent) -> int:
    """Writes the file of a plan, with these records as its steps, into a lent buffer. Answers how many bytes it has."""
    start = _given("the sharding", plan.start, len(plan.table))
    answer = _library().ishkrela_write(*_mesh_and_table(plan), start, *_read(records), *_lent(buffer, "B"))
    _raise(answer.refusal)
    return answer.bytes


def _records(steps: Iterable[Step], rank: int) -> Iterator[bytes]:
    """The record of each step, those inside a repeat after its own."""
    for number, step in enumerate(_in_file_order(steps), 1):
        if isinstance(step, tuple(BY_DIM.values())):
            _count_lists(f"step {number}, {type(step).__name__},", step.lists, rank)
            yield _record(next(kind for kind, by_dim in BY_DIM.items() if isinstance(step, by_dim)), lists=step.lists)
        elif isinstance(step, AllReduce):
            yield _record(3, axes=step.axes)
        elif isinstance(step, AllToAll):
            yield _record(4, step.source, step.target, axes=step.axes)
        elif isinstance(step, Repeat):
            if len(step.steps) > 255:
                raise OverflowError(f"step {number} has {len(step.steps)} inner steps: a repeat has 255 at most")
            yield _record(9, step.count, len(step.steps))
        else:
            raise TypeError(f"step {number} is a {type(step).__name__}: give AllSlice, AllGather, .. or Repeat")


def _record(kind: int, source: int = 0, target: int = 0, lists: Lists = (), axes: Axes = ()) -> bytes:
    return b"".join([_bytes([kind, source, target]), *_places([*_by_dim(lists), axes])])


def _apart(records: bytes) -> Iterator[_Step]:
    return (_Step.from_buffer_copy(records, at) for at in range(0, len(records), RECORD_BYTES))


def _steps(records: Iterator[_Step], rank: int) -> Iterator[Step]:
    """The steps of records that the library made: a repeat takes those of its block."""
    for record in records:
        *lists, axes = [tuple(record.axes[MOST_AXES * d:][:count]) for d, count in enumerate(record.counts)]
        if record.kind == 9:
            yield Repeat(record.source, itertools.islice(_steps(records, rank), record.target))
        elif record.kind == 4:
            yield AllToAll(record.source, record.target, axes)
        elif record.kind == 3:
            yield AllReduce(axes)
        else:
            yield BY_DIM[record.kind](lists[:rank])


def _in_file_order(steps: Iterable[Step]) -> Iterator[Step]:
    """Each step, and after a repeat those inside it."""
    for step in steps:
        yield step
        if isinstance(step, Repeat):
            yield from _in_file_order(step.steps)


def _count_lists(whose: str, lists: Lists, rank: int) -> None:
    if len(lists) != rank:
        raise ValueError(
            f"{whose} has {_some(len(lists), 'list')} for a table of {_some(rank, 'dimension')}: "
            "give a list of axes for each dimension, [] for one without"
        )


def _some(number: int, of: str) -> str:
    return f"{number} {of}" + ("" if number == 1 else "s")


def _count_words(file: Bytes, state: int, words: Sequence[int]) -> Tuple[int, ...]:
    """The shard sizes of a state, which has as many words as are given."""
    devices, shard = check(file).devices, place(file, state, 0).shard
    asked = devices * math.prod(shard)
    if len(words) != asked:
        raise ValueError(
            f"state {state} has {asked} words, a shard of {_by(shard)} on each of {_some(devices, 'device')}: "
            f"{len(words)} were given"
        )
    return shard


def _sizes(file: Bytes) -> Tuple[Tuple[int, ...], ...]:
    """Of a plan that is accepted: the sizes of the mesh, the device at each coordinate tuple, the sizes of the table."""
    plan = Plan.from_bytes(file)
    return plan.mesh, plan.order or tuple(range(math.prod(plan.mesh))), plan.table


def _by(sizes: Iterable[int]) -> str:
    return "x".join(map(str, sizes))


def _row_major(sizes: Iterable[int], index: Iterable[int]) -> int:
    number = 0
    for size, place in zip(sizes, index):
        number = number * size + place
    return number


def _device(*coordinates: int) -> str:
    return f"device ({', '.join(map(str, coordinates))})"


def _above(devices: int, cell: int) -> List[str]:
    """The names of a row of devices, in two lines, each name over its shard."""
    names = [["device"] * devices, [f"({device})" for device in range(devices)]]
    return [" " + "".join(name.ljust(cell + 1) for name in line).rstrip() for line in names]
