"""The worked plans of document 01 and the cases of tests/, put to the library through Python.

    python3 -m unittest discover python
"""
import array
import ast
import ctypes
import doctest
import glob
import inspect
import itertools
import json
import os
import pickle
import re
import subprocess
import typing
import unittest

import ishkrela
from ishkrela import AllGather, AllReduce, AllSlice, AllToAll, Plan, ReduceScatter, Refused, Repeat, Sharding
from ishkrela import check, groups, moved, picture, place, place_all, plan_between, plan_file, run, spread
from plan_bytes import file_of

W1 = bytes.fromhex("0100020002000100120016001a001f002300" "02000200" "04000400" "0100010100" "02000101")
ROOT = os.path.join(os.path.dirname(os.path.abspath(__file__)), "..")


def outcome(call, *given):
    """What a call answers, or the number and the step of its refusal."""
    try:
        return call(*given)
    except Refused as refused:
        return refused.number, refused.step


def made(mesh, table, start, steps=(), order=()):
    """The bytes of a plan, accepted or not. The library writes the same ones and reads them as the same plan, or it
    refuses alike to check, to write and to read them."""
    plan = Plan(mesh, table, start, steps, order)
    file = file_of(plan.mesh, plan.table, plan.start, plan.steps, plan.order or ())
    checked, written, read = outcome(check, file), outcome(plan.to_bytes), outcome(Plan.from_bytes, file)
    if isinstance(checked, tuple):
        assert (written, read) == (checked, checked), (plan, checked, written, read)
    else:
        assert (written, read) == (file, plan), (plan, written, read)
    return file


def w4(*steps):
    return made([2, 2], [4], Sharding([[1, 0]]), steps)


def w7(unreduced=(0,), size=2):
    return made([2], [size], Sharding([[]], unreduced), [AllReduce([0])])


def cases(name):
    with open(os.path.join(ROOT, "tests", name), encoding="utf-8") as file:
        for line in file.read().splitlines():
            if line and not line.startswith("#"):
                yield line.split("|")


def from_hex(text):
    return bytes.fromhex("" if text == "-" else text)


class Case(unittest.TestCase):
    def assertRefused(self, number, step, call, *given):
        with self.assertRaises(Refused) as caught:
            call(*given)
        self.assertEqual((caught.exception.number, caught.exception.step), (number, step))


class Worked(Case):
    """The ledger of document 01."""

    def test_w1_the_file_of_its_plan(self):
        self.assertEqual(plan_file([2, 2], [4, 4], Sharding([[0], [1]]), [AllGather([[], [1]])]), W1)

    def test_w1_the_answer_of_the_check(self):
        self.assertEqual(check(W1), ishkrela.Checked(32, 4, 1, Sharding([[0], []]), (2, 4), 16))
        self.assertEqual([place(W1, state, 0).shard for state in (0, 1)], [(2, 2), (2, 4)])

    def test_w2_joins_the_shards_of_a_row(self):
        upper, lower = [1, 2, 5, 6, 3, 4, 7, 8], [9, 10, 13, 14, 11, 12, 15, 16]
        self.assertEqual(moved(W1, range(1, 17)), 2 * upper + 2 * lower)

    def test_w3_groups_in_the_order_of_the_list(self):
        listed = groups([2, 3, 4, 5], [3, 1])
        self.assertEqual([len(group) for group in listed], 8 * [15])
        self.assertEqual(listed[0][:6], [0, 20, 40, 1, 21, 41])
        self.assertEqual(sorted(sum(listed, [])), list(range(120)))

    def test_w4_first_indexes_in_the_order_of_the_list(self):
        self.assertEqual([place(w4(), 0, device).first for device in range(4)], [(0,), (2,), (1,), (3,)])

    def test_w5_gathers_both(self):
        self.assertEqual(moved(w4(AllGather([[1, 0]])), [10, 30, 20, 40]), 4 * [10, 20, 30, 40])

    def test_w6_gathers_the_tail(self):
        self.assertEqual(moved(w4(AllGather([[0]])), [10, 30, 20, 40]), 2 * [10, 20, 30, 40])

    def test_w6_refuses_the_front(self):
        self.assertRefused(24, 1, check, w4(AllGather([[1]])))

    def test_w7_adds(self):
        self.assertEqual(moved(w7(), [1, 2, 5, 6]), 2 * [6, 8])
        self.assertEqual(moved(w7(size=1), [4294967295, 2]), [1, 1])

    def test_w8_rows_to_columns(self):
        file = made([2], [2, 2], Sharding([[0], []]), [AllToAll(0, 1, [0])])
        self.assertEqual(moved(file, [1, 2, 3, 4]), [1, 3, 2, 4])

    def test_reduce_scatter_as_000_draws_it(self):
        file = made([2], [4], Sharding([[]], [0]), [ReduceScatter([[0]])])
        self.assertEqual(moved(file, [1, 2, 3, 4, 5, 6, 7, 8]), [6, 8, 10, 12])
        self.assertEqual(check(file).sharding, Sharding([[0]]))

    def test_reduce_scatter_refused(self):
        for number, table, unreduced, axes in ((21, 4, [0, 1], []), (22, 4, [0, 1], [2]), (23, 4, [0, 1], [0, 0]),
                                               (23, 4, [], [1, 1]), (27, 4, [0], [1]), (27, 3, [0], [1]), (25, 3, [0], [0])):
            file = made([2, 2], [table], Sharding([[]], unreduced), [ReduceScatter([axes])])
            self.assertRefused(number, 1, check, file)

    def test_w9_divides(self):
        self.assertRefused(17, 0, check, made([4], [6], Sharding([[0]])))
        self.assertEqual(check(made([4], [8], Sharding([[0]]))).shard, (2,))

    def test_w10_doubles(self):
        file = w7(unreduced=[])
        self.assertEqual(check(file).sharding, Sharding([[]]))
        self.assertEqual(moved(file, spread(file, [1, 2])), 2 * [2, 4])

    def test_reduced_along_axes_that_nothing_names(self):
        once, twice = (made([2], [1], Sharding([[]]), times * [AllReduce([0])]) for times in (1, 2))
        self.assertEqual((moved(once, [7, 7]), moved(twice, [7, 7])), ([14, 14], [28, 28]))
        both = made([2, 3], [1], Sharding([[]], [0]), [AllReduce([0, 1])])
        self.assertEqual(check(both).sharding, Sharding([[]]))
        self.assertEqual(moved(both, spread(both, [5])), 6 * [15])

    def test_not_reduced_where_it_splits_or_is_to_stay(self):
        for start in (Sharding([[0]]), Sharding([[]], replicated=[0]), Sharding([[0]], [1])):
            for axes in ([0], [0, 1]):
                self.assertRefused(27, 1, check, made([2, 2], [4], start, [AllReduce(axes)]))

    def test_limits(self):
        self.assertEqual(check(made([256], [4096], Sharding([[0]]))).shard, (16,))
        self.assertEqual(check(made([257], [4097], Sharding([[]]))).room, 257 * 4097)
        self.assertEqual(check(made([1024], [256, 256], Sharding([[], []]))).room, 67108864)
        self.assertEqual(check(made([1], [65535], Sharding([[]]))).shard, (65535,))
        self.assertRefused(11, 0, check, made([1025], [4096], Sharding([[]])))
        self.assertRefused(13, 0, check, made([256], [256, 257], Sharding([[], []])))
        self.assertRefused(4, 0, check, W1 + bytes(8192 - len(W1)))
        self.assertRefused(2, 0, check, W1 + bytes(8193 - len(W1)))
        self.assertEqual(groups([1024], []), [[device] for device in range(1024)])
        self.assertRefused(11, 0, groups, [1025], [])
        both = made([2], [256, 256], Sharding([[0], []]), [AllGather([[0], []])])
        self.assertEqual(moved(both, range(65536)), 2 * list(range(65536)))
        there_and_back = 32 * [AllSlice([[0]]), AllGather([[0]])]
        self.assertEqual(check(made([2], [2], Sharding([[]]), there_and_back)).steps, 64)
        self.assertRefused(5, 0, check, made([2], [2], Sharding([[]]), there_and_back + [AllSlice([[0]])]))


class Editions(Case):
    """The axes that are to stay replicated, which files of edition 2 have."""

    def kept(self, *steps):
        return made([2, 2, 2], [4], Sharding([[1]], [2], [0]), steps)

    def test_the_file_of_a_plan(self):
        file = made([2, 2], [4], Sharding([[1]], replicated=[0]))
        self.assertEqual(file.hex(), "02000200010000001200160018001d001d00" "02000200" "0400" "0101" "00" "0100")
        free = made([2, 2], [4], Sharding([[1]]))
        self.assertEqual(free.hex(), "01000200010000001200160018001b001b00" "02000200" "0400" "0101" "00")

    def test_no_step_changes_the_list(self):
        file = self.kept(AllGather([[1]]), AllReduce([2]), AllSlice([[2, 1]]))
        shardings = [place(file, state, 7).sharding for state in range(4)]
        self.assertEqual(shardings, [
            Sharding([[1]], [2], [0]), Sharding([[]], [2], [0]), Sharding([[]], [], [0]), Sharding([[2, 1]], [], [0]),
        ])
        self.assertEqual(check(file).sharding, shardings[3])

    def test_a_spread_and_its_sum(self):
        file = self.kept(AllGather([[1]]), AllReduce([2]))
        self.assertEqual(moved(file, spread(file, [10, 20, 30, 40])), 8 * [10, 20, 30, 40])

    def test_no_step_names_such_an_axis(self):
        for number, step in ((23, AllSlice([[0]])), (24, AllGather([[0]])), (27, AllReduce([0]))):
            self.assertRefused(number, 1, check, self.kept(step))

    def test_one_plan_has_one_edition(self):
        self.assertRefused(18, 0, check, file_of([2], [4], Sharding([[]]), edition=2))
        self.assertRefused(17, 0, check, file_of([2], [3], Sharding([[0]]), edition=2))
        for edition in (0, 4, 257, 258, 259):
            self.assertRefused(3, 0, check, file_of([2], [4], Sharding([[]], replicated=[0]), edition=edition))


class Orders(Case):
    """The order of the devices, which files of edition 3 have: that of document 02's case, on a mesh of 3x2."""

    ORDER = (0, 2, 4, 1, 3, 5)

    def cabled(self, *steps, start=Sharding([[0]]), table=(6,)):
        return made([3, 2], table, start, steps, order=self.ORDER)

    def test_the_file_of_a_plan(self):
        order = "000002000400010003000500"
        file = "03000200010000001200220024002800280003000200" + order + "0600" "0100" "00" "00"
        self.assertEqual(self.cabled().hex(), file)
        self.assertEqual(plan_file([3, 2], [6], Sharding([[0]]), order=iter(self.ORDER)).hex(), file)
        kept = made([3, 2], [6], Sharding([[0]], replicated=[1]), order=self.ORDER)
        self.assertEqual((kept[0], check(kept).sharding), (3, Sharding([[0]], [], [1])))
        self.assertEqual(check(self.cabled()).sharding, Sharding([[0]]))
        for none in (None, (), []):
            self.assertEqual(plan_file([3, 2], [6], Sharding([[0]]), order=none), made([3, 2], [6], Sharding([[0]])))

    def test_groups(self):
        self.assertEqual(groups([3, 2], [1], order=self.ORDER), [[0, 2], [4, 1], [3, 5]])
        self.assertEqual(groups([3, 2], [0], order=iter(self.ORDER)), [[0, 4, 3], [2, 1, 5]])
        out = array.array("H", 7 * [9])
        self.assertEqual(groups([3, 2], [1, 0], out, self.ORDER), [[0, 4, 3, 2, 1, 5]])
        self.assertEqual(list(out), [0, 4, 3, 2, 1, 5, 9])

    def test_refused_groups(self):
        given = [([], (), 5), ([0], (), 10), ([1025], (), 11), ([3, 2], (), 19), ([3, 2], range(6), 19), ([1], [0], 19)]
        given += [([3, 2], (0, 2, 4, 1, 3), 19), ([3, 2], (0, 2, 4, 1, 3, 3), 19), ([3, 2], (0, 2, 4, 1, 3, 6), 19)]
        for mesh, order, number in given + [([3, 2], self.ORDER, 14)]:
            self.assertRefused(number, 0, groups, mesh, [2], None, order)
        self.assertRefused(15, 0, groups, [3, 2], [0, 0], None, self.ORDER)
        self.assertRefused(33, 0, groups, [3, 2], [0], array.array("H", 5 * [9]), self.ORDER)

    def test_first_indexes(self):
        self.assertEqual([place(self.cabled(), 0, device).first[0] for device in range(6)], [0, 2, 0, 4, 2, 4])
        self.assertRefused(32, 0, place, self.cabled(), 0, 6)

    def test_shards_lie_by_device_number(self):
        file = self.cabled(AllGather([[0]]))
        left, right = [1, 2, 9, 10, 7, 8], [5, 6, 3, 4, 11, 12]
        self.assertEqual(moved(file, range(1, 13)), left + right + right + left + left + right)
        self.assertEqual(moved(self.cabled(), range(1, 13)), [*range(1, 13)])

    def test_a_spread_and_its_sum(self):
        file = self.cabled(AllReduce([0]), AllGather([[1]]), start=Sharding([[1]], [0]))
        self.assertEqual(spread(file, range(1, 7)), [1, 2, 3, 0, 0, 0, 4, 5, 6] + 9 * [0])
        self.assertEqual(moved(file, spread(file, range(1, 7))), 6 * [1, 2, 3, 4, 5, 6])

    def test_a_spread_stays_one(self):
        steps = [AllSlice([[1], []]), AllToAll(0, 1, [1]), AllGather([[0], []])]
        for k in range(len(steps) + 1):
            file = self.cabled(*steps[:k], start=Sharding([[0], []]), table=(6, 2))
            last = self.cabled(start=check(file).sharding, table=(6, 2))
            self.assertEqual(moved(file, spread(file, range(12))), spread(last, range(12)))

    def test_a_picture_is_drawn_by_coordinates(self):
        file = self.cabled(start=Sharding([[0], [1]]), table=(3, 2))
        self.assertEqual(spread(file, range(1, 7)), [1, 4, 2, 5, 3, 6])
        drawn = picture(file, 0, spread(file, range(1, 7)))
        self.assertEqual([line for line in drawn.split("\n") if "->" in line], [
            "device (0, 0) -> | 1 | 2 | <- device (0, 1)",
            "device (1, 0) -> | 3 | 4 | <- device (1, 1)",
            "device (2, 0) -> | 5 | 6 | <- device (2, 1)",
        ])

    def test_refused_files(self):
        for order in (range(6), (0, 2, 4, 1, 3, 3), (0, 2, 4, 1, 3, 6), (6, 5, 4, 3, 2, 1)):
            self.assertRefused(19, 0, check, made([3, 2], [6], Sharding([[0]]), order=order))
        self.assertRefused(19, 0, check, made([1], [6], Sharding([[]]), order=[0]))

    def test_another_number_of_devices(self):
        for order in (self.ORDER[:5] + (5, 6), self.ORDER[:5], (0,)):
            self.assertRefused(19, 0, plan_file, [3, 2], [6], Sharding([[0]]), (), order)
        self.assertRefused(6, 0, check, file_of([3, 2], [6], Sharding([[0]]), order=self.ORDER[:5] + (5, 6)))


class Lists(Case):
    """First indexes for a whole list of devices: of document 02, Ask 1."""

    def assertNotPlaced(self, number, step, at, file, state, devices, length=99):
        """The refusal, with the place in the list beside it; nothing is written."""
        out = array.array("H", length * [9999])
        with self.assertRaises(Refused) as caught:
            place_all(file, state, devices, out)
        refused = caught.exception
        self.assertEqual((refused.number, refused.step, refused.place), (number, step, at))
        self.assertEqual(out.tolist(), length * [9999])

    def test_w4_in_one_call(self):
        self.assertEqual(place_all(w4(), 0, range(4)), [(0,), (2,), (1,), (3,)])
        self.assertEqual(place_all(w4(), 0, iter([1, 3, 1, 1])), [(2,), (3,), (2,), (2,)])

    def test_one_by_one(self):
        mesh, table, start = [2, 3, 2, 2, 3, 2], [12, 6, 15, 2], Sharding([[5, 0], [1], [4], [2]], [3])
        to_and_fro = Repeat(2, [AllToAll(1, 0, [5]), AllToAll(0, 1, [5])])
        steps = [AllGather([[0], [], [], []]), AllToAll(0, 1, [5]), to_and_fro]
        for order in ((), [*range(100, 144), *range(100)]):
            file = made(mesh, table, start, steps, order)
            for state in range(4):
                devices = [*range(143, -1, -1), 0, 77, 0]
                self.assertEqual(place_all(file, state, devices), [place(file, state, each).first for each in devices])

    def test_the_order_of_the_devices(self):
        file = made([3, 2], [6], Sharding([[0]]), order=Orders.ORDER)
        self.assertEqual(place_all(file, 0, [5, 4, 3, 2, 1, 0, 5]), [(4,), (2,), (4,), (0,), (2,), (0,), (4,)])
        self.assertNotPlaced(32, 0, 1, file, 0, [5, 6])

    def test_a_lent_output(self):
        for more in (0, 3):
            out = array.array("H", (4 + more) * [9999])
            self.assertEqual(place_all(W1, 0, [3, 1], out), [(2, 2), (0, 2)])
            self.assertEqual(out.tolist(), [2, 2, 0, 2] + more * [9999])
        for out in (bytes(8), array.array("B", bytes(8)), [0] * 4):
            with self.assertRaisesRegex(TypeError, r'array\.array\("H"\)'):
                place_all(W1, 0, [3, 1], out)

    def test_an_empty_list(self):
        for out in (None, array.array("H"), array.array("H", [9999])):
            self.assertEqual(place_all(W1, 1, [], out), [])
        self.assertEqual(out.tolist(), [9999])
        self.assertNotPlaced(34, 0, None, W1, 2, [])
        self.assertNotPlaced(24, 1, None, w4(AllGather([[1]])), 0, [])

    def test_the_first_that_is_not_there(self):
        for devices, at in (([4], 0), ([0, 1, 4], 2), ([0, 65535, 1, 4], 1), ([*(999 * [3]), 4], 999)):
            self.assertNotPlaced(32, 0, at, w4(), 0, devices, 2000)

    def test_what_is_refused_first(self):
        bad = w4(AllGather([[1]]))
        self.assertNotPlaced(24, 1, None, bad, 9, [9], 0)
        self.assertNotPlaced(34, 0, None, W1, 2, [9], 0)
        for devices, length in (([9], 1), ([0], 1), ([9, 9], 3), ([0, 1, 2], 5), ([0], 0)):
            self.assertNotPlaced(33, 0, None, W1, 1, devices, length)
        self.assertNotPlaced(32, 0, 0, W1, 1, [9], 2)

    def test_the_texts(self):
        with self.assertRaisesRegex(Refused, r"^32: no such device \(place 1 of the list\)$"):
            place_all(W1, 0, [0, 4])
        with self.assertRaisesRegex(Refused, "^32: no such device$"):
            place(W1, 0, 4)
        self.assertIsNone(Refused(32).place)


class Repeats(Case):
    """Blocks of steps that are repeated: of document 02, Ask 11."""

    THERE, BACK = AllSlice([[0]]), AllGather([[0]])
    PAIR = [THERE, BACK]

    def plan(self, *steps):
        return made([2], [2], Sharding([[]]), steps)

    def square(self, *steps, start=Sharding([[]])):
        return made([2, 2], [4], start, steps)

    def nested(self, depth, steps):
        return Repeat(1, steps if depth == 1 else [self.nested(depth - 1, steps)])

    def test_the_file_of_a_plan(self):
        file = "01000100010001001200140016001800" "2100" "0200" "0200" "0000" "090302" "010100" "020100"
        self.assertEqual(self.plan(Repeat(3, self.PAIR)).hex(), file)
        self.assertEqual(self.plan(Repeat(3, iter(self.PAIR))).hex(), file)
        deep = self.plan(Repeat(2, [Repeat(3, self.PAIR)]), self.THERE)
        self.assertEqual((deep[6], deep[24:].hex()), (2, "090201" "090302" "010100" "020100" "010100"))

    def test_steps_and_states_are_outermost(self):
        three = [AllSlice([[0]]), AllSlice([[1]]), AllGather([[0, 1]])]
        file = self.square(Repeat(5, three), AllSlice([[1]]), Repeat(2, self.PAIR))
        self.assertEqual(check(file), ishkrela.Checked(16, 4, 3, Sharding([[1]]), (2,), 5 * 12 + 2 * 4))
        self.assertEqual([place(file, state, 3).shard for state in range(4)], [(4,), (4,), (2,), (2,)])
        self.assertEqual([place(file, state, 3).first for state in range(4)], [(0,), (0,), (2,), (2,)])
        self.assertRefused(34, 0, place, file, 4, 0)

    def test_the_room_counts_states_inside_blocks(self):
        split = Sharding([[0, 1]])
        self.assertEqual(check(self.square(start=split)).room, 4)
        self.assertEqual(check(self.square(Repeat(2, [AllGather([[0, 1]]), AllSlice([[0, 1]])]), start=split)).room, 16)

    def test_runs(self):
        for count in (1, 2, 3, 255):
            self.assertEqual(moved(self.plan(Repeat(count, self.PAIR)), [1, 2, 3, 4]), [1, 4, 1, 4])
            # An odd number of moves: after an odd number of passes the words stand in the other buffer.
            three = Repeat(count, [AllSlice([[1]]), AllSlice([[0]]), AllGather([[1, 0]])])
            self.assertEqual(moved(self.square(three), range(1, 17)), 4 * [1, 10, 7, 16])
            self.assertEqual(moved(self.square(three, AllSlice([[0]])), range(1, 17)), 2 * [1, 10] + 2 * [7, 16])

    def test_a_block_reduces_in_every_pass(self):
        for count, factor in ((1, 2), (3, 8), (31, 2**31), (32, 0)):
            file = self.plan(Repeat(count, [AllReduce([0])]))
            self.assertEqual(moved(file, spread(file, [1, 3])), 2 * [factor, 3 * factor % 2**32])

    def test_a_spread_stays_one(self):
        block = Repeat(3, [AllGather([[1]]), Repeat(2, [AllSlice([[2]]), AllGather([[2]])]), AllSlice([[1]])])
        steps, start, table = [block, AllReduce([0]), block, AllGather([[1]])], Sharding([[1]], [0]), [10, 20, 30, 40]
        shards = [10, 20, 10, 20, 30, 40, 30, 40]
        for k, state in enumerate((shards + 8 * [0], shards + 8 * [0], 2 * shards, 2 * shards, 8 * table)):
            file = made([2, 2, 2], [4], start, steps[:k])
            self.assertEqual(moved(file, spread(file, table)), state)

    def test_the_most_plain_steps(self):
        full = Repeat(16, [Repeat(128, self.PAIR)])
        self.assertEqual(moved(self.plan(full), [1, 2, 3, 4]), [1, 4, 1, 4])
        self.assertRefused(43, 1, check, self.plan(Repeat(17, [Repeat(128, self.PAIR)])))
        self.assertRefused(43, 1, check, self.plan(Repeat(16, [Repeat(129, self.PAIR)])))
        inner = Repeat(129, 16 * [self.BACK, self.THERE])
        self.assertRefused(43, 3, check, self.plan(Repeat(1, [self.THERE, inner, self.BACK])))
        # For the plan so far, at a plain step and at a repeat.
        self.assertRefused(43, 5, check, self.plan(full, self.THERE))
        self.assertRefused(43, 5, check, self.plan(full, Repeat(1, self.PAIR)))

    def test_depth(self):
        for depth in range(1, 5):
            self.assertEqual(check(self.plan(self.nested(depth, self.PAIR))).steps, 1)
        self.assertRefused(42, 5, check, self.plan(self.nested(5, self.PAIR)))
        self.assertRefused(44, 5, check, self.plan(self.nested(5, [])))

    def test_refusals(self):
        for number, step, steps in (
            (44, 1, [Repeat(0, self.PAIR)]),
            (44, 1, [Repeat(1, [])]),
            (44, 4, [*self.PAIR, Repeat(1, [Repeat(1, [])])]),
            (41, 1, [Repeat(1, [self.THERE])]),
            (41, 3, [*self.PAIR, Repeat(255, 16 * self.PAIR + [self.THERE])]),
            (23, 3, [Repeat(1, [self.THERE, self.THERE])]),
            (24, 4, [Repeat(1, self.PAIR), self.BACK]),
            (24, 766, 3 * [Repeat(1, 127 * self.PAIR)] + [self.BACK]),
        ):
            with self.subTest(number=number, step=step):
                self.assertRefused(number, step, check, self.plan(*steps))
        turned = Repeat(1, [AllGather([[0, 1]]), AllSlice([[1, 0]])])
        self.assertRefused(41, 1, check, self.square(turned, start=Sharding([[0, 1]])))
        self.assertRefused(41, 1, check, self.square(Repeat(1, [AllReduce([0])]), start=Sharding([[1]], [0])))

    def test_the_longest_file(self):
        pair = [AllSlice([[0], []]), AllGather([[0], []])]
        blocks = 10 * [Repeat(2, 68 * pair)] + 5 * [Repeat(2, 67 * pair)]
        file = made([2], [2, 1], Sharding([[], []]), blocks)
        self.assertEqual((len(file), check(file).steps), (8192, 15))
        self.assertEqual(moved(file, [1, 2, 3, 4]), [1, 4, 1, 4])
        longer = made([2], [2, 1], Sharding([[], []]), 7 * [Repeat(1, 102 * pair)] + 3 * [Repeat(1, 101 * pair)])
        self.assertEqual(len(longer), 8193)
        self.assertRefused(2, 0, check, longer)


class Plans(Case):
    """Plans as values, written, read back and made between two shardings: of document 02, Asks 2 and 10."""

    PAIR = [AllSlice([[0], []]), AllGather([[0], []])]

    def test_files_are_read_as_their_plans(self):
        block = Repeat(3, [*self.PAIR, Repeat(2, [Repeat(255, self.PAIR)]), *self.PAIR])
        start, steps = Sharding([[], [1]], [2], [3]), [block, AllReduce([2]), AllToAll(1, 0, [1]), Repeat(1, self.PAIR)]
        for order in (None, [*range(1, 16), 0]):
            plan = Plan([2, 2, 2, 2], [4, 4], start, steps, order)
            again = Plan.from_bytes(made([2, 2, 2, 2], [4, 4], start, steps, order or ()))
            self.assertEqual((again, again.to_bytes()), (plan, plan.to_bytes()))
            self.assertEqual((again.steps, again.order), (tuple(steps), order and tuple(order)))

    def test_every_file_of_the_cases(self):
        read = 0
        for text, answer in cases("plans.txt"):
            file = from_hex(text)
            plan = outcome(Plan.from_bytes, file)
            with self.subTest(text):
                if answer.startswith("ok"):
                    read += 1
                    self.assertEqual(plan.to_bytes(), file)
                    self.assertEqual(Plan.from_bytes(bytearray(file)), plan)
                else:
                    self.assertEqual(plan, tuple(map(int, answer.split()[1:])))
        self.assertGreater(read, 50)

    def test_a_lent_buffer(self):
        plan = Plan.from_bytes(W1)
        for more in (0, 3):
            buffer = bytearray(35 * b"\xa5" + more * b"\xa5")
            self.assertEqual((plan.write_into(buffer), buffer), (35, W1 + more * b"\xa5"))
        for size in (34, 0):
            buffer = bytearray(size * b"\xa5")
            self.assertRefused(35, 0, plan.write_into, buffer)
            self.assertEqual(buffer, size * b"\xa5")
        buffer = array.array("B", 40 * [165])
        self.assertRefused(24, 1, Plan([2], [2], Sharding([[]]), [AllGather([[0]])]).write_into, buffer)
        self.assertEqual(buffer.tolist(), 40 * [165])
        for buffer in (bytes(40), array.array("H", 40 * [0]), [0] * 40):
            with self.assertRaisesRegex(TypeError, r'array\.array\("B"\)'):
                plan.write_into(buffer)

    def test_more_axes_than_a_list_has_places(self):
        given = [(start, []) for start in (Sharding([7 * [0]]), Sharding([[]], 255 * [0]), Sharding([[]], [], 7 * [0]))]
        steps = [AllReduce(7 * [0]), AllSlice([255 * [9]]), AllToAll(9, 9, 7 * [9])]
        for start, steps in given + [(Sharding([[]]), [step]) for step in steps]:
            self.assertRefused(8, 0, plan_file, 6 * [1], [1], start, steps)
            self.assertRefused(8, 0, check, file_of(6 * [1], [1], start, steps))

    def test_more_dimensions_or_axes_than_there_are_places(self):
        for mesh, rank in (([], 1), (7 * [1], 1), ([1], 0), ([1], 5), (300 * [0], 300)):
            for start in (Sharding(rank * [[]]), Sharding(rank * [7 * [9]], 255 * [0], [3, 2])):
                self.assertRefused(5, 0, plan_file, mesh, rank * [0], start, [AllReduce([])], [0])
                self.assertRefused(5, 0, plan_between, mesh, rank * [0], start, start, [0])

    def test_what_is_no_step(self):
        for given in (AllSlice, 3, "slice", Sharding([[]]), None):
            with self.assertRaisesRegex(TypeError, "step 2 is a .*: give AllSlice"):
                plan_file([2], [2], Sharding([[]]), [Repeat(1, [given])])

    def test_plans_are_values(self):
        plan = Plan(iter([2, 2]), (4,), Sharding([[0]]), iter([AllGather([[0]])]), iter([3, 2, 1, 0]))
        self.assertEqual(plan, Plan((2, 2), [4], Sharding([(0,)]), [AllGather(((0,),))], (3, 2, 1, 0)))
        self.assertEqual(len({plan, Plan.from_bytes(plan.to_bytes())}), 1)
        self.assertEqual(Plan([2], [2], Sharding([[]]), order=[]), Plan([2], [2], Sharding([[]])))
        self.assertEqual(eval(repr(plan)), plan)
        self.assertEqual(pickle.loads(pickle.dumps(plan)), plan)

    def between(self, start, goal, table=(8, 4)):
        return plan_between(4 * [2], table, start, goal)

    def test_between_two_shardings(self):
        one, other = Sharding([[0, 1], []], [2, 3]), Sharding([[0, 2], [1]], [3])
        steps = (AllReduce([2]), AllGather([[1], []]), AllSlice([[2], [1]]))
        plan = self.between(one, other)
        self.assertEqual(plan, Plan(4 * [2], [8, 4], one, steps))
        self.assertEqual(check(plan.to_bytes()).sharding, other)
        self.assertEqual(self.between(one, one).steps, ())
        self.assertEqual(self.between(one, Sharding([[0, 1], []])).steps, (AllReduce([2, 3]),))
        self.assertEqual(self.between(Sharding([[], []]), Sharding([[3], [0]])).steps, (AllSlice([[3], [0]]),))
        turned = self.between(Sharding([[0, 1], []]), Sharding([[1, 0], []]))
        self.assertEqual(turned.steps, (AllGather([[0, 1], []]), AllSlice([[1, 0], []])))

    def test_a_spread_is_carried_to_the_goal(self):
        table = [*range(1, 33)]
        shardings = [Sharding([[0, 1], [2]]), Sharding([[], [2, 1]]), Sharding([[3], []]), Sharding([[2], [3, 0]])]
        for order in (None, [*range(15, -1, -1)]):
            for start, goal in itertools.permutations(shardings, 2):
                file = plan_between(4 * [2], [8, 4], start, goal, order).to_bytes()
                last = plan_file(4 * [2], [8, 4], goal, order=order)
                self.assertEqual(moved(file, spread(file, table)), spread(last, table))

    def test_no_way_to_the_goal(self):
        none, first, both, kept = ((), ()), ((0,), ()), ((0, 1), ()), ((), (0,))  # unreduced, to stay replicated
        for start, goal in ((none, first), (first, both), (kept, none), (none, kept)):
            self.assertRefused(40, 0, self.between, Sharding([[], []], *start), Sharding([[], []], *goal))

    def test_what_is_refused_before_that(self):
        whole, goal = Sharding([[], []]), Sharding([[], []], [0])
        for number, bad in ((8, Sharding([5 * [0], []])), (14, Sharding([[4], []])), (15, Sharding([[0], [0]])),
                            (16, Sharding([[], []], [1, 0])), (17, Sharding([[0, 1, 2, 3], []]))):
            self.assertRefused(number, 0, self.between, bad, goal)
            self.assertRefused(number, 0, self.between, whole, bad)
        for number, mesh, order, table in (
            (10, [0], [0], [0]), (11, [1025], [0], [0]), (19, [2], [0], [0]), (19, [2], [0, 1], [0]),
            (12, [2], None, [0]), (13, [2], None, [65535, 2]),
        ):
            start = Sharding(len(table) * [9 * [9]])
            self.assertRefused(number, 0, plan_between, mesh, table, start, start, order)

    def test_a_list_for_each_dimension(self):
        both, one = Sharding([[0], []]), Sharding([[0]])
        for start, goal, whose in ((one, both, "the start has 1 list"), (both, one, "the goal has 1 list")):
            with self.assertRaisesRegex(ValueError, whose + " for a table of 2 dimensions: give a list"):
                self.between(start, goal)


class Cases(Case):
    """The cases of tests/, with the answers printed there."""

    def test_plans(self):
        for text, answer in cases("plans.txt"):
            file = from_hex(text)
            with self.subTest(text):
                self.assertEqual(self.announced(file), answer)

    def announced(self, file):
        try:
            steps = check(file).steps
        except Refused as refused:
            return f"no {refused.number} {refused.step}"
        lines = [[state, *place(file, state, 0).shard] for state in range(steps + 1)]
        return "/".join([f"ok {steps}", *(" ".join(map(str, line)) for line in lines)])

    def test_placements(self):
        for text, state, device, answer in cases("placements.txt"):
            with self.subTest(text, state=state, device=device):
                self.assertEqual(self.placed(from_hex(text), int(state), int(device)), answer)

    def placed(self, file, state, device):
        try:
            at = place(file, state, device)
        except Refused as refused:
            return f"no {refused.number} {refused.step}"
        dims, unreduced = [list(axes) for axes in at.sharding.dims], list(at.sharding.unreduced)
        replicated = f" {list(at.sharding.replicated)}" if at.sharding.replicated else ""
        return f"ok lists {dims} {unreduced}{replicated} sizes {list(at.shard)} first {list(at.first)}"

    def test_groups(self):
        for mesh, axes, length, answer in cases("groups.txt"):
            with self.subTest(mesh, axes=axes, length=length):
                self.assertEqual(self.listed(mesh, axes, length), answer)

    def test_groups_ordered(self):
        for mesh, order, axes, length, answer in cases("groups_ordered.txt"):
            with self.subTest(mesh, order=order, axes=axes, length=length):
                self.assertEqual(self.listed(mesh, axes, length, json.loads(order)), answer)

    def listed(self, mesh, axes, length, order=None):
        out = array.array("H", int(length) * [9999])
        before = list(out)
        try:
            numbers = sum(groups(json.loads(mesh), json.loads(axes), out, order), [])
        except Refused as refused:
            self.assertEqual(list(out), before)
            return f"no {refused.number} {refused.step}"
        self.assertEqual(list(out), numbers + before[len(numbers):])
        return " ".join(map(str, ["ok", *numbers]))

    def test_runs(self):
        for text, *before, answer, work_after, spare_after in cases("runs.txt"):
            work, spare = (array.array("I", map(int, words.split())) for words in before)
            with self.subTest(text, work=len(work), spare=len(spare)):
                self.assertEqual(self.ran(from_hex(text), work, spare), answer)
                after = [" ".join(map(str, words)) for words in (work, spare)]
                self.assertEqual(after, [work_after, spare_after])

    def ran(self, file, work, spare):
        try:
            run(file, work, spare)
        except Refused as refused:
            return f"no {refused.number} {refused.step}"
        return "ok"


class Boundary(Case):
    """What include/ishkrela.h says of the answers and of the memory lent."""

    def test_layout(self):
        for struct, size, offsets in (
            (ishkrela._Sharding, 42, [0, 6]),
            (ishkrela._Checked, 72, [0, 4, 8, 10, 12, 14, 22, 64]),
            (ishkrela._Ran, 16, [0, 8]),
            (ishkrela._Placed, 64, [0, 4, 6, 14, 22]),
            (ishkrela._PlacedAll, 16, [0, 8]),
            (ishkrela._Step, ishkrela.RECORD_BYTES, [0, 1, 2, 3, 8]),
            (ishkrela._Written, 16, [0, 8]),
            (ishkrela._Opened, 88, [0, 4, 6, 8, 20, 28, 72, 80]),
            (ishkrela._Planned, 124, [0, 4, 8]),
        ):
            self.assertEqual((ctypes.sizeof(struct), self.offsets(struct)), (size, offsets), struct)

    def offsets(self, answer):
        return [getattr(answer, name).offset for name, _ in answer._fields_]

    def is_0(self, answer):
        """Whether every field but the refusal is 0; what lies between fields has no value."""
        parts = [getattr(type(answer), name) for name, _ in answer._fields_ if name != "refusal"]
        return not any(any(bytes(answer)[part.offset:part.offset + part.size]) for part in parts)

    def test_each_field_where_it_is_not_0(self):
        start = Sharding([[5, 0], [1], [4], [2]], [3])
        steps = [AllGather([[0], [], [], []]), AllSlice([[0], [], [], []])]
        file = made([2, 3, 2, 2, 3, 2], [12, 6, 15, 2], start, steps)
        self.assertEqual(check(file), ishkrela.Checked(8640, 144, 2, start, (3, 2, 5, 1), 4320))
        self.assertEqual(place(file, 2, 143), ishkrela.Placed(start, (3, 2, 5, 1), (9, 4, 10, 1)))

    def test_beside_a_refusal_every_field_is_0(self):
        library = ishkrela._library()
        file = w4(AllGather([[1]]))
        for answer in (library.ishkrela_check(file, len(file)), library.ishkrela_place(file, len(file), 0, 0)):
            self.assertEqual(answer.refusal, 24 + 256)
            self.assertFalse(any(bytes(answer)[4:]))

    def opened(self, file, order, steps):
        """What a read into lists of these lengths answers and leaves: every bit was set before."""
        lent = (ctypes.c_uint16 * order)(*order * [65535]), (ctypes.c_uint8 * steps)(*steps * [255])
        answer = ishkrela._library().ishkrela_read(file, len(file), lent[0], order, lent[1], steps)
        return answer, list(lent[0]), list(lent[1])

    def test_what_a_read_answers_and_leaves(self):
        block = Repeat(3, [AllGather([[1], []]), AllSlice([[1], []])])
        file = made([3, 2], [4, 6], Sharding([[1], []], [], [0]), [block, AllToAll(0, 1, [1])], [5, 4, 3, 2, 1, 0])
        answer, order, records = self.opened(file, 7, 5 * 38)
        self.assertEqual((answer.refusal, answer.n, answer.rank), (0, 2, 2))
        self.assertEqual((answer.order, answer.steps_bytes), (6, 4 * 38))
        self.assertEqual((list(answer.mesh), list(answer.table)), ([3, 2, 0, 0, 0, 0], [4, 6, 0, 0]))
        self.assertEqual(list(answer.start.counts), [1, 0, 0, 0, 0, 1])
        self.assertEqual(list(answer.start.axes), [1] + 35 * [0])
        by_dim, last = [1, 0, 0, 0, 0, 1] + 29 * [0], [0, 0, 0, 0, 1] + 24 * [0] + [1] + 5 * [0]
        self.assertEqual(order, [5, 4, 3, 2, 1, 0, 65535])
        steps = [9, 3, 2] + 35 * [0] + [2, 0, 0] + by_dim + [1, 0, 0] + by_dim + [4, 0, 1] + last
        self.assertEqual(records, steps + 38 * [255])
        for lengths in ((5, 4 * 38), (6, 4 * 38 - 1), (0, 0)):
            answer, order, records = self.opened(file, *lengths)
            self.assertEqual((answer.refusal, self.is_0(answer)), (33, True))
            self.assertEqual((order, records), (lengths[0] * [65535], lengths[1] * [255]))
        self.assertEqual(self.opened(w4(), 0, 0)[0].refusal, 0)
        self.assertEqual(self.opened(w4(AllGather([[1]])), 0, 0)[0].refusal, 24 + 256)

    def test_what_the_planner_answers(self):
        start, goal = ishkrela._given("", Sharding([[0]], [1]), 1), ishkrela._given("", Sharding([[1]]), 1)
        on = ishkrela._mesh_and_table(Plan([2, 2], [4], Sharding([[]])))
        answer = ishkrela._library().ishkrela_plan(*on, start, goal)
        first, last = [0] + 34 * [0], [0, 0, 0, 0, 1] + 24 * [0] + [1] + 5 * [0]
        steps = [3, 0, 0] + last + [2, 0, 0, 1] + first[1:] + [1, 0, 0, 1] + [0, 0, 0, 0, 1] + 29 * [0]
        self.assertEqual((answer.refusal, answer.count, list(bytes(answer.steps))), (0, 3, steps))
        answer = ishkrela._library().ishkrela_plan(*on, goal, goal)
        self.assertEqual((answer.refusal, self.is_0(answer)), (0, True))
        answer = ishkrela._library().ishkrela_plan(*on, goal, start)
        self.assertEqual((answer.refusal, self.is_0(answer)), (40, True))

    def test_what_a_write_is_given_beside_its_records(self):
        plan = Plan([2, 2], [4, 4], Sharding([[0], [1]]))
        record = ishkrela._record(2, 7, 7, [[], [1], 3 * [7], 9 * [7]], 5 * [7])
        for more in (b"", 37 * b"\2"):
            file = bytearray(35)
            self.assertEqual((ishkrela._write(plan, record + more, file), bytes(file)), (35, W1))
        self.assertRefused(20, 2, ishkrela._write, plan, record + bytes(38), bytearray(40))
        self.assertRefused(7, 0, ishkrela._write, plan, ishkrela._record(9, 1, 2) + record, bytearray(40))

    def test_the_place_is_0_beside_every_outcome_but_32(self):
        none, some = array.array("H"), array.array("H", [0, 9])
        short, file = array.array("H", [7]), w4()
        for number, state, devices, first, place in (
            (0, 0, none, none, 0), (32, 0, some, some[:], 1), (33, 0, some, short, 0), (34, 1, some, short, 0),
        ):
            lent = [*ishkrela._lent(devices, "H"), *ishkrela._lent(first, "H")]
            answer = ishkrela._library().ishkrela_place_all(file, len(file), state, *lent)
            self.assertEqual((answer.refusal, answer.place), (number, place))

    def test_places_not_used_are_0(self):
        answer = ishkrela._library().ishkrela_check(w4(), len(w4()))
        self.assertEqual((list(answer.shard), list(answer.sharding.counts)), ([1, 0, 0, 0], [2, 0, 0, 0, 0, 0]))
        self.assertEqual(list(answer.sharding.axes), [1, 0] + 34 * [0])

    def test_the_unreduced_and_the_replicated_list_are_the_last(self):
        file = made([2, 2, 2, 2], [2], Sharding([[2]], [1], [0, 3]))
        answer = ishkrela._library().ishkrela_check(file, len(file)).sharding
        self.assertEqual(list(answer.counts), [1, 0, 0, 0, 1, 2])
        self.assertEqual(list(answer.axes)[24:], [1, 0, 0, 0, 0, 0, 0, 3, 0, 0, 0, 0])

    def test_no_bytes_at_no_place(self):
        self.assertEqual(ishkrela._library().ishkrela_check(None, 0).refusal, 1)
        self.assertEqual(ishkrela._library().ishkrela_place(None, 0, 0, 0).refusal, 1)
        self.assertEqual(ishkrela._library().ishkrela_place_all(None, 0, 0, None, 0, None, 0).refusal, 1)
        self.assertEqual(ishkrela._library().ishkrela_place_all(W1, len(W1), 0, None, 0, None, 0).refusal, 0)
        self.assertEqual(ishkrela._library().ishkrela_groups(None, 0, None, 0, None, 0), 5)
        self.assertEqual(ishkrela._library().ishkrela_groups_ordered(None, 0, None, 0, None, 0, None, 0), 5)
        none = ishkrela._given("", Sharding([]), 0)
        self.assertEqual(ishkrela._library().ishkrela_read(None, 0, None, 0, None, 0).refusal, 1)
        self.assertEqual(ishkrela._library().ishkrela_write(*3 * (None, 0), none, None, 0, None, 0).refusal, 5)
        self.assertEqual(ishkrela._library().ishkrela_plan(*3 * (None, 0), none, none).refusal, 5)

    def test_numbers_that_do_not_fit_are_not_cut(self):
        for state, device in ((65536, 0), (0, 65536), (-1, 0)):
            with self.assertRaises(OverflowError):
                place(w4(), state, device)
            with self.assertRaises(OverflowError):
                place_all(w4(), state, [0, device])
        for mesh, order in (([65538], None), ([2], [1, 65536])):
            with self.assertRaises(OverflowError):
                groups(mesh, [0], None, order)

    def test_short_buffers_are_refused_and_stay(self):
        room = check(W1).room
        for number, long in ((30, (room - 1, room)), (31, (room, room - 1)), (30, (0, 0))):
            work, spare = (array.array("I", size * [7]) for size in long)
            self.assertRefused(number, 0, run, W1, work, spare)
            self.assertEqual((list(work), list(spare)), (long[0] * [7], long[1] * [7]))

    def test_a_refused_file_leaves_the_buffers(self):
        work, spare = array.array("I", 99 * [7]), array.array("I", 99 * [8])
        self.assertRefused(24, 1, run, w4(AllGather([[1]])), work, spare)
        self.assertEqual((list(work), list(spare)), (99 * [7], 99 * [8]))

    def test_the_rest_of_the_buffers_is_0(self):
        work, spare = array.array("I", [*range(1, 5), *(60 * [7])]), array.array("I", 70 * [8])
        self.assertEqual(run(w4(AllGather([[0]])), work, spare), 4)
        self.assertEqual(list(work), 2 * [1, 3, 2, 4] + 56 * [0])
        self.assertEqual(list(spare), 70 * [0])

    def test_no_steps_keep_the_words(self):
        self.assertEqual(moved(w4(), [4, 3, 2, 1]), [4, 3, 2, 1])


class Given(Case):
    """What Python takes, and what it refuses before the library is called."""

    def test_buffers_that_overlap(self):
        words = array.array("I", range(64))
        whole = memoryview(words)
        for work, spare in ((words, words), (words, whole), (whole[:40], whole[39:]), (whole[8:48], whole[:64])):
            with self.assertRaisesRegex(ValueError, "overlap"):
                run(W1, work, spare)
        self.assertEqual(list(words), list(range(64)))

    def test_buffers_side_by_side(self):
        whole = memoryview(array.array("I", [*range(1, 17), *(48 * [7])]))
        run(W1, whole[:32], whole[32:])
        self.assertEqual(whole.tolist(), moved(W1, range(1, 17)) + 32 * [0])

    def test_buffers_of_other_kinds(self):
        work, spare = (ctypes.c_uint32 * 8)(10, 30, 20, 40), array.array("I", 8 * [7])
        run(w4(AllGather([[0]])), work, spare)
        self.assertEqual(list(work), 2 * [10, 20, 30, 40])
        out = (ctypes.c_uint16 * 5)(9, 9, 9, 9, 9)
        self.assertEqual((groups([2, 2], [0], out), list(out)), ([[0, 2], [1, 3]], [0, 2, 1, 3, 9]))

    def test_what_cannot_be_lent(self):
        words = array.array("I", 64 * [7])
        for work in (list(words), bytes(256), array.array("Q", words), array.array("i", words),
                     memoryview(words)[::2], memoryview(words).toreadonly()):
            for lent in ((work, array.array("I", words)), (array.array("I", words), work)):
                with self.assertRaisesRegex(TypeError, r'array\.array\("I"\)'):
                    run(W1, *lent)

    def test_a_refusal_keeps_no_hold_of_the_buffers(self):
        work, spare = array.array("I", [7]), array.array("I", [7])
        try:
            run(W1, work, spare)
        except Refused as refused:
            work.extend(range(31))
            self.assertEqual((refused.number, len(work)), (30, 32))

    def test_files_of_any_kind(self):
        file = w4()
        apart = memoryview(bytes(byte for byte in file for _ in range(2)))[::2]
        for given in (bytearray(file), memoryview(file), memoryview(file).cast("H"), array.array("H", file), apart):
            self.assertEqual(check(given), check(file))
            self.assertEqual(place(given, 0, 1), place(file, 0, 1))
            self.assertEqual(moved(given, [1, 2, 3, 4]), [1, 2, 3, 4])
            self.assertEqual(picture(given, 0, spread(given, [1, 2, 3, 4])), picture(file, 0, [1, 3, 2, 4]))

    def test_what_is_no_file(self):
        for given in (35, "a plan", list(W1), None):
            with self.assertRaises(TypeError):
                check(given)

    def test_a_list_for_each_dimension(self):
        both = Sharding([[0], [1]])
        for start, steps, whose in (
            (Sharding([[0]]), [], "the sharding has 1 list for a table of 2 dimensions"),
            (Sharding([[0], [1], []]), [], "the sharding has 3 lists"),
            (both, [AllGather([[]])], "step 1, AllGather, has 1 list"),
            (both, [ReduceScatter([[]])], "step 1, ReduceScatter, has 1 list"),
            (both, [AllGather([[], [1]]), AllSlice([])], "step 2, AllSlice, has 0 lists"),
            (both, [Repeat(2, [AllReduce([0]), AllSlice([[]])])], "step 3, AllSlice, has 1 list"),
            (both, [Repeat(2, [Repeat(2, [AllReduce([0])])]), AllGather([[]])], "step 4, AllGather, has 1 list"),
        ):
            with self.assertRaisesRegex(ValueError, whose + ".*: give a list of axes for each dimension"):
                plan_file([2, 2], [4, 4], start, steps)

    def test_numbers_of_a_file_that_do_not_fit(self):
        for mesh, start, steps in (([65536], Sharding([[]]), []), ([2], Sharding([[256]]), []),
                                   ([2], Sharding([[-1]]), []), ([2], Sharding([256 * [0]]), []),
                                   ([2], Sharding([[]], 6 * [0] + [256]), []),
                                   ([2], Sharding([[]]), [AllReduce(256 * [0])]),
                                   ([2], Sharding([[]]), [AllToAll(0, 256, [0])]),
                                   ([2], Sharding([[]]), [Repeat(256, [AllReduce([0])])]),
                                   ([2], Sharding([[]]), [Repeat(1, 256 * [AllReduce([0])])])):
            with self.assertRaises(OverflowError):
                plan_file(mesh, [2], start, steps)
        with self.assertRaises(OverflowError):
            plan_file([2], [2], Sharding([[]]), order=[1, 65536])

    def test_the_number_of_words(self):
        for count in (15, 17, 0, 32):
            words = [1] * count
            for call, given in ((moved, (W1, words)), (spread, (W1, words)), (picture, (W1, 0, words))):
                with self.assertRaisesRegex(ValueError, f"has 16 words.*: {count} were given"):
                    call(*given)
        with self.assertRaisesRegex(ValueError, "state 1 has 32 words, a shard of 2x4 on each of 4 devices: 16 were"):
            picture(W1, 1, range(16))

    def test_numbers_from_any_iterable(self):
        self.assertEqual(plan_file(iter([2, 2]), iter([4, 4]), Sharding([[0], [1]]), iter([AllGather([[], [1]])])), W1)
        self.assertEqual(groups(b"\2\2", b"\0"), [[0, 2], [1, 3]])
        self.assertEqual(moved(w4(), bytes([4, 3, 2, 1])), [4, 3, 2, 1])

    def test_steps_are_values(self):
        steps = [AllSlice([[], [1]]), AllGather([[], [1]]), AllReduce([0]), AllToAll(0, 1, [0]), ReduceScatter([[], [1]])]
        again = [AllSlice(((), (1,))), AllGather([(), [1]]), AllReduce((0,)), AllToAll(0, 1, iter([0])),
                 ReduceScatter(((), iter([1])))]
        steps, again = [*steps, Repeat(2, steps)], [*again, Repeat(2, iter(again))]
        self.assertEqual(steps, again)
        self.assertEqual(len({*steps, *again}), 6)
        self.assertEqual(Sharding([[0], []]), Sharding(((0,), ()), [], iter([])))
        self.assertEqual(eval(repr(steps)), steps)

    def test_a_refusal_comes_whole_out_of_a_pickle(self):
        for given in ((24, 1), (32, 0, 7)):
            refused = pickle.loads(pickle.dumps(Refused(*given)))
            self.assertEqual((refused.number, refused.step, refused.place), (*given, None)[:3])
            self.assertEqual(str(refused), str(Refused(*given)))

    def test_hints(self):
        for name in ishkrela.__all__:
            call = getattr(ishkrela, name)
            call = call.__init__ if inspect.isclass(call) else call
            named = {*inspect.signature(call).parameters, "return"} - {"self"}
            self.assertEqual(named, {*typing.get_type_hints(call)}, name)

    def test_the_syntax_of_python_3_8(self):
        patterns = [os.path.join(ROOT, *at) for at in (["python", "*.py"], ["examples", "*.py"], ["tools", "*"])]
        for path in itertools.chain(*map(glob.glob, patterns)):
            with open(path, encoding="utf-8") as file:
                source = file.read()
            if path.endswith(".py") or "python3" in source.split("\n")[0]:
                ast.parse(source, path, feature_version=(3, 8))


class Refusals(Case):
    """docs/REFUSALS.md: a row for each number, with the text of Refused, and an example of it (tools/try_c: the header)."""

    def setUp(self):
        with open(os.path.join(ROOT, "docs", "REFUSALS.md"), encoding="utf-8") as page:
            self.page = page.read()

    def rows(self):
        found = re.findall(r"^\| (\d+) \| (.*?) \| .*? \| `(.*)` \|$", self.page, re.M)
        return [(int(number), text, example) for number, text, example in found]

    def test_each_number_and_its_text(self):
        self.assertEqual({number: text for number, text, _ in self.rows()}, ishkrela.TEXTS)

    def step(self, number):
        if number == 42:
            return 5  # the first repeat that is too deep
        return 1 if number in range(20, 29) or number in range(41, 45) else 0

    def test_examples(self):
        names = {}
        exec(self.page.split("```python\n")[1].split("```")[0], names)
        for number, _, example in self.rows():
            with self.subTest(example):
                self.assertRefused(number, self.step(number), eval, example, names)


class Routes(Case):
    """Two routes, one table (document 02, Ask 14): pairs of crates/rules/specs/WorkedRoutes.antt, and the example."""

    def assertMeet(self, words, one, other, apart=None):
        """Two plans end in one sharding, and the same words stand there; from the words `apart` other ones do."""
        self.assertEqual(check(one).sharding, check(other).sharding)
        self.assertEqual(moved(one, words), moved(other, words))
        if apart is not None:
            self.assertNotEqual(moved(one, apart), moved(other, apart))

    def test_there_and_back(self):
        back = made([2], [2], Sharding([[]]), [AllSlice([[0]]), AllGather([[0]])])
        self.assertMeet([1, 2, 1, 2], made([2], [2], Sharding([[]])), back, [1, 2, 3, 4])
        self.assertEqual(moved(back, [1, 2, 3, 4]), [1, 4, 1, 4])

    def test_by_rows_and_at_once(self):
        by_rows = [AllSlice([[0], []]), AllToAll(0, 1, [0])]
        files = [made([2], [2, 2], Sharding([[], []]), steps) for steps in (by_rows, [AllSlice([[], [0]])])]
        self.assertMeet(2 * [1, 2, 3, 4], *files, range(1, 9))

    def test_under_an_order(self):
        files = [
            made([2, 2], [4], Sharding([[]]), steps, [2, 0, 3, 1])
            for steps in ([AllSlice([[0, 1]])], [AllSlice([[0]]), AllSlice([[1]])])
        ]
        self.assertMeet(4 * [1, 2, 3, 4], *files)
        self.assertEqual(moved(files[0], 4 * [1, 2, 3, 4]), [2, 4, 1, 3])

    def test_sums(self):
        start = Sharding([[]], unreduced=[0])
        files = [
            made([2], [2], start, steps) for steps in ([AllReduce([0])], [ReduceScatter([[0]]), AllGather([[0]])])
        ]
        self.assertMeet([1, 2, 5, 6], *files)

    def test_parts_that_stay_parts(self):
        start = Sharding([[]], unreduced=[0])
        files = [made([2, 2], [2], start, steps) for steps in ([], [AllSlice([[1]]), AllGather([[1]])])]
        self.assertMeet([1, 2, 1, 2, 5, 6, 5, 6], *files, range(1, 9))

    def example(self, *plans):
        program = os.path.join(ROOT, "examples", "two_routes.py")
        paths = [os.path.join(ROOT, "examples", plan) for plan in plans]
        run_with = {**os.environ, "PYTHONPATH": os.path.join(ROOT, "python")}
        done = subprocess.run(["python3", program, *paths], capture_output=True, text=True, env=run_with)
        return done.returncode, done.stdout, done.stderr

    def test_the_example(self):
        with open(os.path.join(ROOT, "examples", "two_routes.out"), encoding="utf-8") as printed:
            self.assertEqual(self.example(), (0, printed.read(), ""))

    def test_the_example_on_files(self):
        status, printed, _ = self.example("gather_1_then_0.plan", "gather_0_then_1_in_two_steps.plan")
        self.assertEqual((status, printed.split("\n")[-3]), (0, "from a faithful spread: one last state"))
        status, printed, _ = self.example("gather_1_then_0.plan", "gather_tail.plan")
        self.assertEqual((status, printed.split("\n")[-2]), (1, "the theorem does not speak of these two"))
        for wrong in ([], ["none.plan"], ["split_uneven_refused.plan"]):
            status, printed, told = self.example("gather_tail.plan", *wrong)
            self.assertEqual((status, printed, told.split(":")[0]), (2, "", "two_routes"))


class Pictures(Case):
    """plan_file, spread, moved and picture."""

    def test_the_words_of_the_module(self):
        self.assertEqual(doctest.testmod(ishkrela).failed, 0)

    def test_the_page_of_the_collectives(self):
        printed = subprocess.run([os.path.join(ROOT, "tools", "pictures")], capture_output=True, check=True, text=True)
        with open(os.path.join(ROOT, "docs", "COLLECTIVES.md"), encoding="utf-8") as page:
            self.assertEqual(printed.stdout, page.read())

    def test_unreduced_spread(self):
        self.assertEqual(spread(w7(), [6, 8]), [6, 8, 0, 0])

    def test_one_axis(self):
        file = made([2], [2, 2], Sharding([[], [0]]))
        drawn = picture(file, 0, spread(file, [1, 2, 3, 10]))
        self.assertEqual([line.strip() for line in drawn.split("\n")], [
            "+----+----+",
            "device (0) -> |  1 |  2 | <- device (1)",
            "|  3 | 10 |",
            "+----+----+",
        ])

    def test_one_row_of_three(self):
        file = made([3], [3, 3, 2], Sharding([[0], [], []]))
        self.assertEqual(picture(file, 0, list(range(11, 29))).split("\n"), [
            " device  device  device",
            " (0)     (1)     (2)",
            "+-------+-------+-------+",
            "| 11 12 | 17 18 | 23 24 |",
            "| 13 14 | 19 20 | 25 26 |",
            "| 15 16 | 21 22 | 27 28 |",
            "+-------+-------+-------+",
        ])

    def test_a_spread_stays_one(self):
        steps = [AllGather([[0]]), AllGather([[1]]), AllSlice([[0, 1]])]
        table = [10, 20, 30, 40]
        for k in range(len(steps) + 1):
            file, last = w4(*steps[:k]), made([2, 2], [4], check(w4(*steps[:k])).sharding)
            self.assertEqual(moved(file, spread(file, table)), spread(last, table))


if __name__ == "__main__":
    unittest.main()
