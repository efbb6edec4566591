#!/usr/bin/env python3
"""two_routes: what two plans have in common, and whether they leave the same words.

    PYTHONPATH=python python3 examples/two_routes.py [ONE.plan OTHER.plan]

Without files it takes the plan that the library makes from rows to columns, and one by another way. It names what the
plans have in common, runs both from one spread of the table 1, 2, 3, .. and then from the words 0, 1, 2, .., which are
no spread where an axis is replicated, and compares the last states. docs/ROUTES.md says what is proved of them.
Exit status: 0 where the theorem speaks of the two and they leave one state from the spread, 1 where not, 2 where a
file is no plan.
"""
import math
import sys

from ishkrela import AllGather, AllReduce, AllSlice, AllToAll, Plan, ReduceScatter, Refused, Repeat, Sharding
from ishkrela import check, moved, plan_between, spread


def plain(steps):
    """The plain steps in running order."""
    for step in steps:
        if isinstance(step, Repeat):
            for _ in range(step.count):
                yield from plain(step.steps)
        else:
            yield step


def factor(plan):
    """The product of the sizes of all axes reduced that were replicated just before their own step, modulo 2^32."""
    product, unreduced = 1, set(plan.start.unreduced)
    for step in plain(plan.steps):
        if isinstance(step, AllReduce):
            product *= math.prod(plan.mesh[axis] for axis in step.axes if axis not in unreduced)
            unreduced -= set(step.axes)
        elif isinstance(step, ReduceScatter):
            unreduced -= {axis for axes in step.lists for axis in axes}
    return product % 2**32


def common(one, other):
    """What the theorem asks of two plans, by name: whether they have it in common."""
    ends = [check(plan.to_bytes()).sharding for plan in (one, other)]
    return {
        "mesh": one.mesh == other.mesh,
        "order of the devices": one.order == other.order,
        "table": one.table == other.table,
        "start": one.start == other.start,
        "end": ends[0] == ends[1],
        "factor modulo 2^32": factor(one) == factor(other),
    }


def compare(one, other):
    asked = common(one, other)
    for name, held in asked.items():
        print(f"{name}: {'the same' if held else 'not the same'}")
    if not all(asked.values()):
        print("the theorem does not speak of these two")
        return 1
    files = one.to_bytes(), other.to_bytes()
    words = spread(files[0], range(1, math.prod(one.table) + 1))
    one_state = told("from a faithful spread", [moved(file, words) for file in files])
    told("from the words 0, 1, 2, ..", [moved(file, range(len(words))) for file in files])
    return 0 if one_state else 1


def told(where, ends):
    one_state = ends[0] == ends[1]
    print(f"{where}: {'one last state' if one_state else 'two last states'}")
    return one_state


def two_ways():
    """From rows to columns on a mesh 2x2: the library's plan, and one that splits the table further on its way."""
    rows, columns = Sharding([[0], []]), Sharding([[], [0]])
    other = [AllSlice([[1], []]), AllToAll(0, 1, [0, 1]), AllGather([[], [1]])]
    return plan_between([2, 2], [4, 4], rows, columns), Plan([2, 2], [4, 4], rows, other)


def read(path):
    with open(path, "rb") as file:
        return Plan.from_bytes(file.read())


def main(paths):
    if len(paths) not in (0, 2):
        print("two_routes: name two plan files, or none", file=sys.stderr)
        return 2
    try:
        plans = [read(path) for path in paths] or two_ways()
    except (OSError, Refused) as wrong:
        print(f"two_routes: {wrong}", file=sys.stderr)
        return 2
    for name, plan in zip(("one", "other"), plans):
        print(f"the {name}:", *plan.steps, sep="\n    ")
    return compare(*plans)


if __name__ == "__main__":
    sys.exit(main(sys.argv[1:]))
