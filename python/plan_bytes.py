"""For the tests: the bytes of plan files made without the library, of any plan, refused ones too, in any edition."""
import itertools

from ishkrela import AllGather, AllReduce, AllSlice, AllToAll, ReduceScatter


def file_of(mesh, table, start, steps=(), order=(), edition=None):
    """The file of a plan; where no edition is named, in that which has a place for all its parts and no other."""
    mesh, table, steps, order = [*mesh], [*table], [*steps], [*order]
    if edition is None:
        edition = 3 if order else 2 if start.replicated else 1
    sections = [
        numbers(mesh + order),
        numbers(table),
        lists([*start.dims, start.unreduced] + ([] if edition == 1 else [start.replicated])),
        b"".join(map(encoded, steps)),
    ]
    ends = list(itertools.accumulate(map(len, sections), initial=18))
    return numbers([edition, len(mesh), len(table), len(steps), *ends]) + b"".join(sections)


def encoded(step):
    if isinstance(step, AllSlice):
        return b"\1" + lists(step.lists)
    if isinstance(step, AllGather):
        return b"\2" + lists(step.lists)
    if isinstance(step, AllReduce):
        return b"\3" + lists([step.axes])
    if isinstance(step, AllToAll):
        return bytes([4, step.source, step.target]) + lists([step.axes])
    if isinstance(step, ReduceScatter):
        return b"\5" + lists(step.lists)
    return bytes([9, step.count, len(step.steps)]) + b"".join(map(encoded, step.steps))


def numbers(given):
    return b"".join(number.to_bytes(2, "little") for number in given)


def lists(given):
    return b"".join(bytes([len(axes), *axes]) for axes in given)
