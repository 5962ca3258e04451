"""Runs, records, reports and refusals of the Python interface, and what it does with arguments that are wrong."""

import concurrent.futures
import itertools
import os
import pathlib
import subprocess
import sys
import unittest
from decimal import Decimal
from fractions import Fraction

import covrith
from covrith import End, Header, Living, Model, Place, Queue, Record, Refusal, Refused, Report, Server

HERE = pathlib.Path(__file__).resolve().parent
MODELS = HERE.parent / "models"

# document 01, the first example
MODEL = bytes.fromhex("01 01 00 00 00 02 02 05 01 01 00 04 01 02 02 05 01 03 01")
TAPE = bytes.fromhex("02 03 02 02 05 04")
RECORDS = [
    (3, 1, 1, 0), (3, 1, 2, 0), (3, 1, 3, 0), (5, 2, 1, 0), (5, 2, 2, 1), (8, 1, 4, 0),
    (8, 1, 5, 0), (8, 2, 2, 0), (8, 2, 3, 0), (12, 2, 4, 0), (12, 2, 5, 0),
]  # fmt: skip


class Curves(unittest.TestCase):
    def test_names_draw_once_for_each_time(self):
        drawn = covrith.make_tape(3, [(covrith.exponential(20), 5)])
        self.assertEqual(drawn, bytes([5, 3, 0, 11, 6, 7]))
        self.assertEqual(covrith.uniform(1, 6).points, ((0.0, 1.0), (1.0, 7.0)))
        self.assertEqual(covrith.discrete({0: 0.75, 1: 0.25}).points, ((0.0, 0.0), (49151 / 65536, 0.0), (0.75, 1.0), (1.0, 1.0)))
        self.assertEqual(covrith.empirical([3, 2.5, 10]).points, covrith.discrete([(3, 43691 / 65536), (10, 21845 / 65536)]).points)
        self.assertEqual(covrith.exponential(0.1), covrith.exponential(Decimal("0.1")))
        self.assertEqual(covrith.exponential(Fraction(1, 4)), covrith.exponential(0.25))
        for curve in (covrith.erlang(100, 20), covrith.normal(20, 10), covrith.lognormal(2, 6), covrith.weibull(0.5, 9), covrith.triangular(1, 1, 1)):
            self.assertEqual(len(curve.points), 24)
            self.assertEqual(covrith.make_tape(0, [(curve, 9)])[0], 9)

    def test_parameters_outside_the_rules(self):
        for wrong in (
            lambda: covrith.exponential(0), lambda: covrith.exponential(-1), lambda: covrith.exponential(float("nan")),
            lambda: covrith.exponential(float("inf")), lambda: covrith.exponential(100_000), lambda: covrith.exponential(10**12),
            lambda: covrith.normal(20, 11), lambda: covrith.lognormal(20, 61), lambda: covrith.erlang(0, 20), lambda: covrith.erlang(101, 20),
            lambda: covrith.weibull(0.4, 20), lambda: covrith.triangular(4, 3, 12), lambda: covrith.uniform(6, 1),
            lambda: covrith.uniform(0, 1_000_000), lambda: covrith.discrete({0: 0.7, 1: 0.2}), lambda: covrith.discrete({}),
            lambda: covrith.discrete([(1, 0.5), (0, 0.5)]), lambda: covrith.discrete({0: 1, 1: 0}), lambda: covrith.empirical([]),
            lambda: covrith.empirical([2_000_000]), lambda: covrith.discrete({k: 1 / 16 for k in range(16)}),
        ):  # fmt: skip
            with self.assertRaises(ValueError):
                wrong()
        for wrong in (lambda: covrith.exponential("20"), lambda: covrith.exponential(True), lambda: covrith.erlang(2.5, 20), lambda: covrith.uniform(1.5, 3)):
            with self.assertRaises(TypeError):
                wrong()

    def test_streams_of_lists(self):
        one, two = covrith.Drawn(covrith.exponential(20), 50, stream=1), covrith.Drawn(covrith.normal(9, 2), 50)
        both = covrith.draw_tape([one, two], 3)
        alone = [covrith.make_tape(7, [(one.distribution, 50)]), covrith.make_tape(6, [(two.distribution, 50)])]
        self.assertEqual(both, b"".join(alone))
        self.assertEqual(covrith.draw_tape([covrith.Drawn(covrith.Fixed(7), 2, times=60)]), covrith.tape([[420, 420]]))
        self.assertEqual(covrith.draw_tape([]), b"")
        for wrong in ([one, one], [covrith.Drawn(covrith.Fixed(7), 1, stream=0)], [covrith.Drawn(covrith.Fixed(7), 1, times=0)], [covrith.Drawn(covrith.Fixed(7), 1, times=2 * 10**9)]):
            with self.assertRaises(ValueError):
                covrith.draw_tape(wrong)
        with self.assertRaises(TypeError):
            covrith.draw_tape([(covrith.Fixed(7), 1)])
        with self.assertRaises(Refused) as refused:
            covrith.draw_tape([one], 256)
        self.assertEqual(refused.exception.number, 41)
        with self.assertRaises(Refused) as refused:
            covrith.draw_tape([two] * 17)
        self.assertEqual(refused.exception.number, 42)


class Runs(unittest.TestCase):
    def test_first_example(self):
        run = covrith.run(MODEL, TAPE)
        self.assertEqual((run.end, run.clock, run.turns, run.made, run.ended), (End.COUNTER, 12, 11, 2, 2))
        self.assertEqual(run.report, Report(12, 2, 2, [Server(2, 9, 1, 3, 1)], [], [], []))
        self.assertEqual(list(run.records()), RECORDS)
        self.assertEqual([record.entered for record in run.records()].count(False), 1)
        self.assertEqual(b"".join(map(covrith.record_bytes, RECORDS)), run.trace)
        self.assertEqual((covrith.count(run.trace), covrith.count(b""), covrith.count(b"\x7f\x80\xff")), (44, 0, 1))

    def test_lists_give_the_same_bytes(self):
        model = Model(
            facilities=1, lists=2, counter=2, blocks=[["generate", 1, 0], (4, 1), (covrith.Kind.ADVANCE, 2), ("RELEASE", 1), ("TERMINATE", 1)]
        )
        self.assertEqual(bytes(model), MODEL)
        self.assertEqual(covrith.tape([[3, 2], (5, 4)]), TAPE)
        self.assertEqual(covrith.run(model, [[3, 2], range(5, 3, -1)]), covrith.run(bytearray(MODEL), memoryview(TAPE)))

    def test_lists_with_values(self):
        free_tug = [("+", covrith.in_use(2))]
        model = Model(
            facilities=2,
            storages=[3],
            queues=1,
            lists=7,
            values=[
                covrith.summed(*free_tug, ("+", covrith.comparison(covrith.units_free(1), "=", covrith.constant(0))), ("+", covrith.in_use(1))),
                covrith.summed(*free_tug, ("+", covrith.in_use(1))),
            ],
            blocks=[
                ("GENERATE", 1, 0), ("ADVANCE", 2), ("SEIZE", 1), ("ADVANCE", 3), ("RELEASE", 1), ("GOTO", 2),
                ("GENERATE", 4, 0), ("ARRIVE", 1), ("WAITIF", covrith.value(1), ">", covrith.constant(0)), ("SEIZE", 2), ("ENTER", 1, 1),
                ("ADVANCE", 5), ("RELEASE", 2), ("ADVANCE", 6), ("WAITIF", covrith.value(2), ">", covrith.constant(0)), ("SEIZE", 2),
                ("ADVANCE", 5), ("RELEASE", 2), ("LEAVE", 1, 1), ("DEPART", 1), ("TERMINATE", 0),
                ("GENERATE", 7, 0), ("TERMINATE", 1),
            ],
        )  # fmt: skip
        stored, tape = covrith.load(MODELS / "ship-and-tug")
        self.assertEqual(bytes(model), stored)
        self.assertEqual(covrith.run(model, tape).report.queues, [Queue(87, 4524, 14)])

    def test_joined_waits(self):
        blocks = [
            ("GENERATE", 1, 0), ("ADVANCE", 2), ("SEIZE", 1), ("ADVANCE", 3), ("RELEASE", 1), ("GOTO", 2), ("GENERATE", 4, 0), ("ARRIVE", 1),
            ("WAITIF_SERVER", "U", 1), ("WAITIF_SERVER", "F", 1), ("WAITIF_JOINED", "U", 2, 2), ("SEIZE", 2), ("ENTER", 1, 1), ("ADVANCE", 5),
            ("RELEASE", 2), ("ADVANCE", 6), ("WAITIF_SERVER", "U", 1), ("WAITIF_JOINED", "U", 2, 1), ("SEIZE", 2), ("ADVANCE", 5),
            ("RELEASE", 2), ("LEAVE", 1, 1), ("DEPART", 1), ("TERMINATE", 0), ("GENERATE", 7, 0), ("TERMINATE", 1),
        ]  # fmt: skip
        model = Model(facilities=2, storages=[3], queues=1, lists=7, blocks=blocks)
        stored, tape = covrith.load(MODELS / "ship-and-tug-joined")
        self.assertEqual(bytes(model), stored)
        # each of the 99 times that a ship goes back and the 135 that one is put back is a turn without a record
        run = covrith.run(model, tape)
        self.assertEqual(run.turns, len(list(run.records())) + 99 + 135)
        with self.assertRaises(covrith.Refused) as refused:
            covrith.run(Model(facilities=2, storages=[3], queues=1, lists=7, blocks=blocks[:9] + blocks[10:]), tape)
        self.assertEqual(refused.exception.refusal, covrith.Refusal.BLOCK_ORDER)

    def test_families(self):
        zone = lambda number: [("SEIZE", number), ("ADVANCE", number + 1), ("RELEASE", number)]
        blocks = [
            ("GENERATE", 1, 0), ("ARRIVE", 1), ("SPLIT", 1, 9), ("SPLIT", 1, 13), *zone(1), ("GOTO", 16), *zone(2), ("GOTO", 16), *zone(3),
            ("ASSEMBLE", 3), ("ARRIVE", 2), ("ENTER", 1, 1), ("DEPART", 2), ("ADVANCE", 5), ("LEAVE", 1, 1), ("DEPART", 1), ("TERMINATE", 1),
        ]  # fmt: skip
        model = Model(facilities=3, storages=[2], queues=2, lists=5, counter=60, blocks=blocks)
        stored, tape = covrith.load(MODELS / "packing")
        self.assertEqual(bytes(model), stored)
        run = covrith.run(model, tape)
        self.assertEqual((run.end, run.made, run.ended), (End.COUNTER, 180, 180))
        self.assertEqual(sum(record.block == 16 and record.outcome == 0 for record in run.records()), 120)
        # the first of the first order has come, the second line too
        run = covrith.run(model, tape, budget=16)
        self.assertEqual(run.report.living[0], Living(1, Place.GATHERING))

    def test_taken_over(self):
        blocks = [
            ("GENERATE", 1, 0), ("ARRIVE", 1), ("SEIZE", 1), ("ADVANCE", 2), ("RELEASE", 1), ("DEPART", 1), ("TERMINATE", 1),
            ("GENERATE", 3, 1), ("ARRIVE", 2), ("SEIZE", 2), ("PREEMPT", 1), ("ADVANCE", 4), ("RETURN", 1), ("RELEASE", 2), ("DEPART", 2), ("TERMINATE", 0),
        ]  # fmt: skip
        model = Model(facilities=2, queues=2, lists=4, counter=24, blocks=blocks)
        stored, tape = covrith.load(MODELS / "quay")
        self.assertEqual(bytes(model), stored)
        run = covrith.run(model, tape)
        self.assertEqual((run.end, run.ended, run.report.facilities[0].entries), (End.COUNTER, 64, 24 + 40))
        # ferry 24 has the crane, and barge 22 is interrupted
        run = covrith.run(model, tape, budget=200)
        self.assertEqual([one for one in run.report.living if one.transaction in (22, 24)], [Living(22, Place.INTERRUPTED), Living(24, Place.FEL)])

    def test_editions(self):
        def yard(edition):
            blocks = [
                ("GENERATE", 1, 0), ("SEIZE", 1), ("ADVANCE", 2), ("RELEASE", 1), ("SEIZE", 1), ("RELEASE", 1), ("SEIZE", 1), ("ADVANCE", 2),
                ("RELEASE", 1), ("TERMINATE", 0), ("GENERATE", 3, 0), ("SEIZE", 1), ("ADVANCE", 2), ("RELEASE", 1), ("TERMINATE", 0),
                ("GENERATE", 4, 0), ("ENTER", 1, 1), ("ADVANCE", 6), ("LEAVE", 1, 1), ("TERMINATE", 0),
                ("GENERATE", 5, 0), ("ENTER", 1, 2), ("ADVANCE", 6), ("LEAVE", 1, 2), ("TERMINATE", 0),
            ]  # fmt: skip
            return Model(edition=edition, facilities=1, storages=[2], lists=6, counter=100, blocks=blocks)

        for edition, folder, lifted, living in ((1, "yard", [2, 7], []), (2, "yard-1996", [7, 2], [Living(4, Place.QL)])):
            stored, tape = covrith.load(MODELS / folder)
            self.assertEqual(bytes(yard(edition)), stored)
            self.assertEqual(covrith.Header.read(stored).edition, edition)
            run = covrith.run(yard(edition), tape)
            self.assertEqual([record.transaction for record in run.records() if (record.block, record.outcome) == (12, 0)], lifted)
            self.assertEqual(run.report.living, living)
        for edition in (0, 3):
            with self.assertRaises(covrith.Refused) as refused:
                covrith.run(yard(edition), tape)
            self.assertEqual(refused.exception.refusal, covrith.Refusal.MODEL_RANGE)

    def test_every_kind_and_term(self):
        terms = [covrith.CLOCK, covrith.parameter(4), covrith.entries(1), covrith.content(1), covrith.units_in_use(1), covrith.constant(-300)]
        model = Model(
            storages=[300], queues=1, lists=1, facilities=1, counter=7,
            values=[covrith.summed(("-", covrith.bracket(("+", term), ("-", covrith.constant(2))))) for term in terms],
            blocks=[
                ("GENERATE", 1, 127), ("PRIORITY", 3), ("LET", 1, covrith.value(6)), ("IF", covrith.parameter(1), "=", covrith.constant(302), 6),
                ("TERMINATE", 0), ("SPLIT", 2, 7), ("WAITIF_SERVER", "NF", 1), ("TERMINATE", 1),
            ],
        )  # fmt: skip
        run = covrith.run(model, [[0]])
        self.assertEqual((run.end, run.made, run.ended), (End.DRY, 3, 0))
        self.assertEqual(run.report.living, [Living(number, Place.WEL) for number in (1, 2, 3)])

    def test_ends(self):
        def end(blocks, lists=((1,),), **limits):
            model = Model(facilities=1, queues=1, lists=len(lists), blocks=[("GENERATE", 1, 0), *blocks, ("TERMINATE", 0)])
            return covrith.run(model, list(lists), **limits).end

        self.assertIs(end([]), End.DRY)
        self.assertIs(end([("TERMINATE", 1)]), End.COUNTER)
        self.assertIs(end([], budget=1), End.BUDGET)
        self.assertIs(end([], trace_bytes=11), End.TRACE_FULL)
        self.assertIs(end([("SPLIT", 255, 2)] * 5), End.NO_PLACE)
        self.assertIs(end([("ADVANCE", 1)]), End.NO_TIME)
        self.assertIs(end([("RELEASE", 1)]), End.NOT_IN_USE)
        self.assertIs(end([("DEPART", 1)]), End.NO_CONTENT)
        self.assertIs(end([("SEIZE", 1), ("SPLIT", 1, 5), ("ADVANCE", 2), ("RELEASE", 1)], [(1,), (5,)]), End.NOT_HOLDER)
        self.assertIs(end([("SEIZE", 1), ("TERMINATE", 1)]), End.STILL_HOLDS)
        self.assertIs(end([("SEIZE", 1), ("RELEASE", 1), ("TERMINATE", 1)]), End.COUNTER)
        self.assertIs(end([("SPLIT", 1, 5), ("SEIZE", 1), ("ADVANCE", 2), ("ASSEMBLE", 2)], [(1,), (5,)]), End.STILL_HOLDS)
        self.assertIs(end([("RETURN", 1)]), End.NOT_IN_USE)
        self.assertIs(end([("PREEMPT", 1), ("RELEASE", 1)]), End.NOT_HOLDER)
        self.assertIs(end([("SEIZE", 1), ("RETURN", 1)]), End.NOT_HOLDER)
        self.assertIs(end([("PREEMPT", 1)]), End.STILL_HOLDS)
        self.assertIs(end([("PREEMPT", 1), ("RETURN", 1), ("TERMINATE", 1)]), End.COUNTER)

    def test_late_clocks(self):
        walker = Model([("GENERATE", 1, 0), ("TERMINATE", 1)], lists=1, counter=9)
        longest, last = 10_000_000_000, 32_000_000_000
        run = covrith.run(walker, [[longest] * 3 + [2_000_000_000]])
        self.assertEqual((run.end, run.clock, run.report.clock), (End.DRY, last, last))
        self.assertEqual(list(run.records())[-1], Record(last, 4, 2, 0))
        late = [("SEIZE", 1), ("ADVANCE", 2), ("RELEASE", 1), ("TERMINATE", 0), ("GENERATE", 1, 1), ("PREEMPT", 1), *[("ADVANCE", 3)] * 3, ("RETURN", 1)]
        taken_over = Model([("GENERATE", 1, 0), *late, ("TERMINATE", 1)], facilities=1, lists=3)
        for more, end in ((0, End.COUNTER), (1, End.CLOCK_LIMIT)):
            run = covrith.run(taken_over, [[0, 5], [longest], [longest, longest, 2_000_000_000 + more]])
            self.assertEqual((run.end, run.clock), (end, 22_000_000_005 + more))
        run = covrith.run(walker, [[longest] * 3 + [2_000_000_001]])
        self.assertEqual((run.end, run.clock), (End.CLOCK_LIMIT, 3 * longest))
        self.assertEqual(list(covrith.records(covrith.record_bytes((last, 100_000_000, 256, 1)))), [Record(last, 100_000_000, 256, 1)])

    def test_threads(self):
        cases = [covrith.load(folder.parent) for folder in sorted(MODELS.glob("*/model.bin"))]
        alone = [covrith.run(*case) for case in cases]
        with concurrent.futures.ThreadPoolExecutor(4) as pool:
            self.assertEqual(list(pool.map(lambda case: covrith.run(*case), cases * 4)), alone * 4)


class Refusals(unittest.TestCase):
    def refused(self, number, call, *arguments, **named):
        with self.assertRaises(Refused) as caught:
            call(*arguments, **named)
        refused = caught.exception
        self.assertEqual((refused.number, refused.refusal), (number, Refusal(number)))
        self.assertIn(f"refused {number}: {refused.rule}", str(refused))
        return refused

    def test_runs(self):
        self.refused(1, covrith.run, MODEL, TAPE, work_numbers=16_383)
        self.refused(1, covrith.run, MODEL, TAPE, work_numbers=0, report_bytes=0)
        self.refused(2, covrith.run, MODEL, TAPE, report_bytes=10_239)
        self.refused(3, covrith.run, b"", TAPE)
        self.refused(3, covrith.run, b"\x80\x01" + MODEL[1:], TAPE)
        self.refused(3, covrith.run, Model([("TERMINATE", 2**32)]), [])
        self.refused(4, covrith.run, Model([], facilities=33), [])
        self.refused(5, covrith.run, Model([("TERMINATE", 0)], values=[covrith.summed(*[("+", covrith.CLOCK)])] * 2 + [deep(5)]), [])
        self.refused(6, covrith.run, MODEL + b"\x00", TAPE)
        self.refused(7, covrith.run, Model([("PRIORITY", 0)]), [])
        self.refused(8, covrith.run, MODEL, TAPE[:-1])
        self.refused(8, covrith.run, MODEL, [[3], [2**35]])
        self.refused(9, covrith.run, MODEL, [[3], [0] * 65_536])
        self.refused(9, covrith.run, MODEL, [[3], [10_000_000_001]])
        self.refused(9, covrith.run, MODEL, [[3], [2**35 - 1]])
        self.refused(10, covrith.run, MODEL, TAPE + b"\x00")

    def test_every_cut_of_a_trace(self):
        trace = covrith.run(MODEL, TAPE).trace
        for length in range(len(trace)):
            records = covrith.records(trace[:length])
            found = [next(records) for _ in range(length // 4)]
            self.assertEqual(found, RECORDS[: length // 4])
            if length % 4:
                refused = self.refused(31, next, records)
                self.assertEqual(refused.position, 4 * (length // 4))
            else:
                self.assertEqual(list(records), [])

    def test_records(self):
        self.refused(32, list, covrith.records(b"\x01\x01\x00"))
        self.refused(31, list, covrith.records(b"\x80\x01\x01\x00"))
        self.refused(32, covrith.record_bytes, (0, 0, 1, 0))
        self.refused(32, covrith.record_bytes, Record(32_000_000_001, 1, 1, 0))
        self.refused(32, covrith.record_bytes, Record(2**64 - 1, 1, 1, 0))
        self.refused(32, list, covrith.records(b"\xff\xff\xff\xff\x7f\x01\x01\x00"))
        self.refused(31, list, covrith.records(b"\x81\x80\x80\x80\x80\x00\x01\x01\x00"))

    def test_draws(self):
        self.assertEqual(list(itertools.islice(covrith.draws(0), 3)), [16_807, 282_475_249, 1_622_650_073])
        self.assertEqual(next(itertools.islice(covrith.draws(0), 9_999, None)), 1_043_618_065)
        ahead = itertools.islice(covrith.draws(510), 100_000, 100_003)
        self.assertEqual(list(ahead), list(itertools.islice(covrith.draws(511), 3)))
        self.refused(41, covrith.draws, 512)

    def test_columns(self):
        trace = bytes([3, 1, 1, 0, 5, 1, 2, 0])
        columns = covrith.to_columns(trace)
        self.assertEqual(columns, bytes([2, 3, 2, 1, 1, 1, 2, 0, 0]))
        self.assertEqual(covrith.from_columns(columns), trace)
        self.assertEqual(covrith.to_columns(b""), b"\0")
        self.assertEqual(covrith.from_columns(b"\0"), b"")
        self.refused(51, covrith.to_columns, trace[:-1])
        self.refused(51, covrith.from_columns, columns + b"\0")
        self.assertRaises(TypeError, covrith.to_columns, None)

    def test_join(self):
        # the first example twice, with a counter that it does not reach
        model = MODEL[:6] + b"\x09" + MODEL[7:]
        later = [[4, 1], [3, 6]]
        joined, laid = covrith.join(model, TAPE, model, later)
        self.assertEqual(joined, bytes([1, 2, 0, 0, 0, 4, 18, 10]) + MODEL[8:] + bytes([1, 3, 0, 4, 2, 2, 4, 5, 2, 3, 1]))
        self.assertEqual(laid, TAPE + covrith.tape(later))
        run = covrith.run(joined, laid)
        self.assertEqual(run.end, End.DRY)
        own = [r for r in run.records() if r.block <= 5]
        ranks = sorted({r.transaction for r in own})
        self.assertEqual([(r.clock, ranks.index(r.transaction) + 1, r.block, r.outcome) for r in own], RECORDS)
        second = b"\x02" + model[1:]
        self.refused(61, covrith.join, model, TAPE, second, TAPE)
        self.refused(8, covrith.join, model, TAPE, second, b"")
        self.refused(3, covrith.join, b"", b"", second, b"")
        self.refused(3, covrith.join, model, TAPE, b"", b"")
        self.refused(8, covrith.join, model, b"", b"", b"")
        self.assertRaises(TypeError, covrith.join, model, TAPE, None, TAPE)

    def test_make_tape(self):
        lists = [(covrith.Spread(12.5, 4), 3), (covrith.Fixed(7), 2), (covrith.Curve([(0, 1), (0.5, 3), (1, 10)]), 2)]
        self.assertEqual(covrith.make_tape(0, lists), bytes([3, 8, 9, 14, 2, 7, 7, 2, 2, 3]))
        self.assertEqual(covrith.make_tape(0, [(covrith.Fixed(2.75), 1)]), bytes([1, 2]))
        self.assertEqual(covrith.make_tape(511, []), b"")
        sixteen = covrith.make_tape(3, [(covrith.Fixed(1_000_000), 65_535)] * 16)
        self.assertEqual(len(sixteen), 16 * 3 * 65_536)
        self.refused(41, covrith.make_tape, 512, [(covrith.Fixed(-1), 1)])
        for wrong in (
            (covrith.Fixed(-1), 1), (covrith.Fixed(1 / 128), 1), (covrith.Fixed(float("nan")), 1), (covrith.Fixed(7), 65_536),
            (covrith.Spread(4, 4.5), 1), (covrith.Spread(500_001, 0), 1), (covrith.Curve([(0, 1)]), 1), (covrith.Curve([(0, 2), (1, 1)]), 1),
            (covrith.Curve([]), 0),
        ):  # fmt: skip
            self.refused(42, covrith.make_tape, 0, [wrong])
        self.refused(42, covrith.make_tape, 0, [(covrith.Fixed(7), 1)] * 17)


def deep(brackets):
    """a value with this many brackets inside each other"""
    term = covrith.CLOCK
    for _ in range(brackets):
        term = covrith.bracket(("+", term))
    return covrith.summed(("+", term))


class Reports(unittest.TestCase):
    HEADER = Header(1, 1, [3], 1)
    REPORT = bytes([0x82, 0x2C, 2, 0, *range(1, 14), 2, 1, 4, 2, 6])

    def test_by_names(self):
        report = Report.read(self.REPORT, self.HEADER)
        living = [Living(1, Place.FEL), Living(2, Place.MOVING)]
        self.assertEqual(report, Report(300, 2, 0, [Server(1, 2, 3, 4, 5)], [Server(6, 7, 8, 9, 10)], [Queue(11, 12, 13)], living))

    def test_headers(self):
        self.assertEqual(Header.read(bytes([1, 1, 1, 3, 1, 99])), self.HEADER)
        self.assertEqual(Header.read(MODEL), Header(1, 1, [], 0))
        for data, number in ((b"", 3), (b"\x00", 4), (b"\x01\x21", 4), (b"\x01\x00\x01\x00", 4), (b"\x01\x80\x01", 3), (b"\xff" * 6, 3)):
            with self.assertRaises(Refused) as caught:
                Header.read(data)
            self.assertEqual(caught.exception.number, number, data)

    def test_no_reports(self):
        nowhere = bytearray(self.REPORT)
        nowhere[-1] = 0x7F
        many = self.REPORT[:17] + b"\xff" * 8 + b"\x7f" + self.REPORT[18:]
        cuts = [self.REPORT[:length] for length in range(len(self.REPORT))]
        for data in [*cuts, self.REPORT + b"\x00", nowhere, many, b"\xff" * 40, b"\x80" * 40]:
            with self.assertRaises(covrith.NoReport):
                Report.read(data, self.HEADER)


class WrongArguments(unittest.TestCase):
    def test_types(self):
        nothing = (None, 5, 2.5, "01", object(), MODEL.hex())
        for wrong in nothing:
            for call in (
                lambda: covrith.run(wrong, TAPE),
                lambda: covrith.run(MODEL, wrong),
                lambda: covrith.records(wrong),
                lambda: covrith.count(wrong),
                lambda: covrith.record_bytes(wrong),
                lambda: covrith.tape(wrong),
                lambda: covrith.tape([wrong]),
                lambda: covrith.make_tape(0, wrong),
                lambda: covrith.make_tape(0, [wrong]),
                lambda: covrith.make_tape(0, [(wrong, 1)]),
                lambda: covrith.make_tape(0, [(covrith.Curve(wrong), 1)]),
                lambda: covrith.make_tape(0, [(covrith.Curve([wrong]), 1)]),
                lambda: Header.read(wrong),
                lambda: Report.read(wrong, Reports.HEADER),
                lambda: Report.read(Reports.REPORT, wrong),
                lambda: bytes(Model(wrong)),
                lambda: bytes(Model([wrong])),
                lambda: bytes(Model([], storages=wrong)),
                lambda: bytes(Model([], values=[wrong])),
            ):
                self.assertRaises(TypeError, call)
        for wrong in (None, "1", 1.0, b"1", [1], True):
            for name in ("budget", "trace_bytes", "work_numbers", "report_bytes"):
                self.assertRaises(TypeError, covrith.run, MODEL, TAPE, **{name: wrong})
            self.assertRaises(TypeError, covrith.record_bytes, [1, 1, wrong, 0])
            self.assertRaises(TypeError, covrith.tape, [[1, wrong]])
            self.assertRaises(TypeError, covrith.draws, wrong)
            self.assertRaises(TypeError, bytes, Model([], facilities=wrong))
            self.assertRaises(TypeError, covrith.make_tape, wrong, [])
            self.assertRaises(TypeError, covrith.make_tape, 0, [(covrith.Fixed(7), wrong)])
        for wrong in (None, "1", b"1", [1], True):
            self.assertRaises(TypeError, covrith.make_tape, 0, [(covrith.Fixed(wrong), 1)])
            self.assertRaises(TypeError, covrith.make_tape, 0, [(covrith.Curve([(0, 1), (1, wrong)]), 1)])

    def test_ranges(self):
        for name in ("budget", "trace_bytes", "work_numbers", "report_bytes"):
            for wrong in (-1, 2**64, -(2**70)):
                self.assertRaises(ValueError, covrith.run, MODEL, TAPE, **{name: wrong})
        for wrong in ((), (1, 1, 1), (1, 1, 1, 0, 4), (-1, 1, 1, 0), (2**64, 1, 1, 0)):
            self.assertRaises(ValueError, covrith.record_bytes, wrong)
        self.assertRaises(ValueError, covrith.tape, [[-1]])
        self.assertRaises(ValueError, covrith.draws, -1)
        for wrong in ((), (covrith.Fixed(7),), (covrith.Fixed(7), -1), (covrith.Fixed(7), 2**32), (covrith.Fixed(10**400), 1), (covrith.Curve([(0,)]), 1)):
            self.assertRaises(ValueError, covrith.make_tape, 0, [wrong])
        self.assertRaises(ValueError, covrith.make_tape, -1, [])
        for wrong in ([()], [("SEIZE",)], [("SEIZE", 1, 1)], [("SIEZE", 1)], [(99, 1)], [("SEIZE", -1)], [("WAITIF_SERVER", "X", 1)]):
            self.assertRaises(ValueError, bytes, Model(wrong))
        self.assertRaises(ValueError, covrith.summed, covrith.content(1))
        circle = ["SEIZE"]
        circle.append(circle)
        self.assertRaises((RecursionError, ValueError), bytes, Model([circle]))

    def test_no_library(self):
        program = "import covrith; print(len(covrith.tape([[1]]))); covrith.count(b'')"
        environment = {**os.environ, "COVRITH_LIB": "/nowhere", "PYTHONPATH": str(HERE)}
        done = subprocess.run([sys.executable, "-c", program], env=environment, capture_output=True, text=True)
        self.assertEqual((done.stdout, done.returncode), ("2\n", 1))
        self.assertIn("FileNotFoundError: /nowhere/libcovrith.so is not there: run tools/sharedlib", done.stderr)


if __name__ == "__main__":
    unittest.main()
