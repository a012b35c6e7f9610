"""The Python binding against the examples' answers, the stories of feed and recorder, wrong arguments: `python3 test_buttmitrel.py`."""
import concurrent.futures
import contextlib
import copy
import ctypes
import dataclasses
import io
import itertools
import os
import pathlib
import pickle
import re
import shutil
import struct
import subprocess
import sys
import tempfile
import unittest

import buttmitrel
from buttmitrel import Check, Flag, LiveFeed, Offered, Recorder, Refused, Rule, Verdict

HERE = pathlib.Path(__file__).resolve().parent
ROOT = HERE.parent.parent
EXAMPLES = ROOT / "examples"
OVER_VOLTAGE = {"COV": Rule(4200, 4100, 3)}


def trace_of(name):
    return (EXAMPLES / f"{name}.trace").read_bytes()


def number(digits, at, size):
    """The little-endian number of so many bytes at a byte of a report in hex digits."""
    return int.from_bytes(bytes.fromhex(digits[2 * at:2 * (at + size)]), "little")


def first_tick(digits, at):
    tick = number(digits, at, 4)
    return None if tick == 4294967295 else tick


def story():
    """The feed of examples/c: two seconds over the threshold, a hole from tick 3 to 5, then a second below."""
    feed = LiveFeed(3, 100, OVER_VOLTAGE)
    for tick, highest in [(0, 4150), (1, 4250), (2, 4250)]:
        feed.sample(tick, 1500, 300, [highest, 4140, 4130], [250, 250, 250])
    return feed


def state(feed):
    return feed.words, feed.totals


class RefusalCase(unittest.TestCase):
    def refuses(self, expected, call, *arguments):
        """The call raises this refusal, with a meaning of its own."""
        with self.assertRaises(Refused) as caught:
            call(*arguments)
        refused = caught.exception
        self.assertEqual((refused.number, refused.place), expected)
        self.assertNotIn("does not know", refused.meaning)
        self.assertEqual(str(refused), f"refused {refused.number} at {refused.place}: {refused.meaning}")
        return refused


class Judging(RefusalCase):
    def test_every_field_is_that_of_the_answer(self):
        answers = sorted(EXAMPLES.glob("*.answer"))
        self.assertEqual(len(answers), 6)
        for path in answers:
            word, digits, verdicts = path.read_text().split("\n")[:3]
            report = buttmitrel.judge(trace_of(path.stem))
            self.assertEqual(word, "accepted")
            self.assertEqual([rule.number for rule in report.rules], list(range(16)))
            for rule in report.rules:
                at = 10 * rule.number
                self.assertEqual((rule.alert, rule.status), (number(digits, at, 1), number(digits, at + 1, 1)))
                self.assertEqual(rule.first_possible_tick, first_tick(digits, at + 2))
                self.assertEqual(rule.first_held_tick, first_tick(digits, at + 6))
            self.assertEqual(list(report.outputs), [number(digits, at, 1) for at in (160, 161, 162)])
            self.assertEqual((report.charge_in_mas, report.charge_out_mas), (number(digits, 163, 8), number(digits, 171, 8)))
            self.assertEqual((report.unseen_ticks, report.ticks), (number(digits, 179, 4), number(digits, 183, 4)))
            self.assertEqual("".join(str(int(verdict)) for verdict in report.verdicts), verdicts)

    def test_names(self):
        report = buttmitrel.judge(trace_of("hidden_over_voltage"))
        self.assertIs(report.rules[0].status, Flag.UNKNOWN)
        self.assertIs(report.outputs.charge_mosfet_open, Flag.UNKNOWN)
        self.assertIs(report.verdicts[2], Verdict.CANNOT_TELL)
        self.assertEqual((report.rules[0].short_name, report.rules[0].name), ("COV", "Cell Overvoltage"))
        table = re.findall(r'^    rule\("([^"]+)", "([^"]+)"', (ROOT / "tools/trace/names.rs").read_text("utf-8"), re.MULTILINE)
        self.assertEqual(list(buttmitrel.RULE_NAMES), table)

    def test_fields_have_the_names_of_the_json(self):
        page = set(re.findall(r"^\| `(\w+)` \|", (ROOT / "docs/JSON.md").read_text("utf-8"), re.MULTILINE))
        names = [field.name for kind in (buttmitrel.Report, buttmitrel.RuleReport) for field in dataclasses.fields(kind)]
        names += buttmitrel.Outputs._fields + buttmitrel.NetCharge._fields
        self.assertEqual(set(names) - page, {"verdicts"})

    def test_every_refusal_of_the_examples(self):
        seen = []
        for path in sorted((EXAMPLES / "refused").glob("*.trace")):
            expected = tuple(map(int, re.findall(r"\d+", path.with_suffix(".answer").read_text())))
            for call in (buttmitrel.judge, buttmitrel.net_charge):
                self.refuses(expected, call, path.read_bytes())
            seen.append(expected[0])
        self.assertEqual(seen, list(range(1, 12)))
        self.refuses((1, 0), buttmitrel.judge, b"")

    def test_net_charge(self):
        self.assertEqual(buttmitrel.net_charge(trace_of("hidden_over_voltage")), (-80304, 116301))
        self.assertEqual(buttmitrel.net_charge(trace_of("clean_charge")).least_net_charge_mas, 3148500)
        self.assertEqual(buttmitrel.net_charge(trace_of("clean_charge")).greatest_net_charge_mas, 3148500)

    def test_reply_count(self):
        self.assertEqual(buttmitrel.reply_count(trace_of("hidden_over_voltage")), 5)
        self.refuses((5, 0), buttmitrel.reply_count, trace_of("refused/05_cut_off"))

    def test_any_bytes_object(self):
        trace = trace_of("latched_fuse")
        report = buttmitrel.judge(trace)
        self.assertEqual(buttmitrel.judge(bytearray(trace)), report)
        self.assertEqual(buttmitrel.judge(memoryview(b"x" + trace)[1:]), report)
        for wrong in ("trace", 5, None, [1, 3, 0, 0]):
            with self.assertRaisesRegex(TypeError, "give bytes"):
                buttmitrel.judge(wrong)

    def test_several_threads(self):
        traces = [trace_of(path.stem) for path in sorted(EXAMPLES.glob("*.answer"))]
        with concurrent.futures.ThreadPoolExecutor(4) as pool:
            self.assertEqual(list(pool.map(buttmitrel.judge, 20 * traces)), 20 * [buttmitrel.judge(trace) for trace in traces])

    def test_meanings_are_those_of_the_rust_crate(self):
        rust = (ROOT / "bindings/rust/src/meaning.rs").read_text(encoding="utf-8")
        sentences = {int(number): sentence for number, sentence in re.findall(r'(\d+) => "(.*)"', rust)}
        self.assertEqual(buttmitrel._MEANINGS, sentences)

    def test_a_refusal_passes_between_processes(self):
        refused = pickle.loads(pickle.dumps(Refused(9, 5, "a meaning")))
        self.assertEqual((refused.number, refused.place, refused.meaning), (9, 5, "a meaning"))


class Replies(RefusalCase):
    def test_seal(self):
        self.assertEqual(buttmitrel.seal(0x09, 12300), bytes.fromhex("1609170C3007"))
        for name in ("command", "word"):
            for wrong in (-1, 65536):
                with self.assertRaisesRegex(ValueError, f"{name} is {wrong}: give a number from 0 to"):
                    buttmitrel.seal(**{"command": 9, "word": 9, name: wrong})
        with self.assertRaisesRegex(ValueError, "command is 256: give a number from 0 to 255"):
            buttmitrel.seal(256, 0)
        with self.assertRaisesRegex(TypeError, "word is 1.5: give a whole number"):
            buttmitrel.seal(9, 1.5)

    def test_check(self):
        reply = bytes.fromhex("1609170C3007")
        self.assertIs(buttmitrel.check(reply), Check.WHOLE)
        self.assertIs(buttmitrel.check(b"\x17" + reply[1:]), Check.WRONG_ADDRESS)
        self.assertIs(buttmitrel.check(reply[:5] + b"\x08"), Check.WRONG_PEC)
        self.refuses((15, 0), buttmitrel.check, reply[:5])
        self.refuses((15, 0), buttmitrel.check, b"")


class CellVoltages(RefusalCase):
    def test_ten_cells(self):
        """What examples/README.md says of them."""
        found = buttmitrel.cells([3612, 3598, 3605, 3587, 3611, 3620, 3601, 3594, 3609, 3603])
        self.assertEqual((found.highest, found.lowest, found.sum), (3620, 3587, 36040))
        self.assertEqual(found, (3620, 3587, 36040))

    def test_every_place_of_highest_and_lowest(self):
        for count in range(3, 13):
            for highest, lowest in itertools.permutations(range(count), 2):
                volts = count * [3600]
                volts[highest], volts[lowest] = 3700, 3550
                self.assertEqual(buttmitrel.cells(volts), (3700, 3550, 3600 * count + 50))

    def test_any_voltage(self):
        for count in range(3, 13):
            for voltage in (0, 32768, 65535):
                self.assertEqual(buttmitrel.cells(count * [voltage]), (voltage, voltage, count * voltage))
        self.assertEqual(buttmitrel.cells(iter((65535, 0, 65535))), (65535, 0, 131070))

    def test_wrong_voltages(self):
        for count in (0, 1, 2, 13, 14, 259, 65539):
            self.refuses((3, 0), buttmitrel.cells, count * [3600])
        for wrong in (-1, 65536):
            with self.assertRaisesRegex(ValueError, f"a voltage is {wrong}: give a number from 0 to 65535"):
                buttmitrel.cells([wrong, 3600, 3600])
        with self.assertRaisesRegex(TypeError, "a voltage is 3.6: give a whole number"):
            buttmitrel.cells([3.6, 3600, 3600])
        with self.assertRaisesRegex(TypeError, "volts is 3600: give a list of whole numbers"):
            buttmitrel.cells(3600)

    def test_what_is_refused_first(self):
        for count, number in ((2, 3), (3, 15), (12, 15), (13, 3)):
            volts = (ctypes.c_uint16 * count)(*range(1, count + 1))
            for length in (0, 1, 2, 4, 5):
                three = (ctypes.c_uint32 * 5)(*5 * [77])
                self.refuses((number, 0), buttmitrel._call, "buttmitrel_cells", volts, count, three, length)
                self.assertEqual(list(three), 5 * [77])

    def test_what_is_written(self):
        for count, number, written in ((2, 3, 3 * [77]), (3, 0, [3, 1, 6]), (12, 0, [12, 1, 78]), (13, 3, 3 * [77])):
            volts = (ctypes.c_uint16 * count)(*range(1, count + 1))
            three = (ctypes.c_uint32 * 5)(*5 * [77])
            self.assertEqual(buttmitrel._library().buttmitrel_cells(volts, count, three, 3), number << 32)
            self.assertEqual(list(three), [*written, 77, 77])
            self.assertEqual(list(volts), list(range(1, count + 1)))


class Feeding(RefusalCase):
    def test_the_story(self):
        feed = story()
        rule = feed.report().rules[0]
        self.assertEqual((feed.expected_tick, rule.alert, rule.status), (3, Flag.HELD, Flag.CLEAR))
        feed.hole(5)
        feed.sample(6, 1500, 300, [4150, 4140, 4130], [250, 250, 250])
        rule = feed.report().rules[0]
        self.assertEqual((feed.expected_tick, rule.alert, rule.status), (7, Flag.UNKNOWN, Flag.UNKNOWN))
        self.assertEqual(feed.possible_states(0), [0, 3])
        before = state(feed)
        self.refuses((9, 7), feed.sample, 6, 1500, 300, [4150, 4140, 4130], [250, 250, 250])
        self.refuses((8, 7), feed.hole, 6)
        self.refuses((8, 7), feed.hole, 4294967295)
        self.assertEqual(state(feed), before)

    def test_possible_states_of_a_long_time(self):
        feed = LiveFeed(3, 100, {"CUV": Rule(3000, 3100, 200)})
        self.assertEqual(feed.possible_states(1), [0])
        feed.hole(299)
        self.assertEqual(feed.possible_states(1), list(range(201)))
        self.assertEqual(feed.possible_states(2), [0])

    def test_a_fed_trace_ends_as_it_is_judged(self):
        for path in sorted(EXAMPLES.glob("*.answer")):
            report, fed = buttmitrel.judge(trace_of(path.stem)), self.fed(trace_of(path.stem)).report()
            self.assertEqual([(r.alert, r.status) for r in fed.rules], [(r.alert, r.status) for r in report.rules])
            for field in dataclasses.fields(fed)[1:]:
                self.assertEqual(getattr(fed, field.name), getattr(report, field.name))

    def fed(self, trace):
        cells, idle = struct.unpack_from("<BH", trace, 1)
        feed = LiveFeed(cells, idle, trace[6:166])
        hole_count = struct.unpack_from("<H", trace, 166)[0]
        holes = dict(struct.unpack_from("<II", trace, 168 + 8 * i) for i in range(hole_count))
        replies_at = 168 + 8 * hole_count
        samples_at = replies_at + 2 + 10 * struct.unpack_from("<H", trace, replies_at)[0]
        for row in struct.iter_unpack(f"<Ihh{cells}H{cells}h", trace[samples_at + 2:]):
            if feed.expected_tick in holes:
                feed.hole(holes[feed.expected_tick])
            feed.sample(*row[:3], row[3:3 + cells], row[3 + cells:])
        if feed.expected_tick in holes:
            feed.hole(holes[feed.expected_tick])
        return feed

    def test_beginning(self):
        self.refuses((3, 0), LiveFeed, 13, 100, {})
        self.refuses((4, 0), LiveFeed, 3, 32767, {})
        self.refuses((6, 0), LiveFeed, 3, 100, 15 * [Rule(0, 0, 0)])
        self.refuses((6, 0), LiveFeed, 3, 100, bytes(159))
        self.refuses((7, 10), LiveFeed, 3, 100, {"SOV": Rule(4400, 4300, 3)})
        self.refuses((7, 0), LiveFeed, 3, 100, {"COV": Rule(4200, 4100, 256)})
        with self.assertRaisesRegex(ValueError, "cells is 259: give a number from 0 to 255"):
            LiveFeed(259, 100, {})
        with self.assertRaisesRegex(ValueError, "idle is 65536: give a number from 0 to 65535"):
            LiveFeed(3, 65536, {})

    def test_rules(self):
        listed = [Rule(4200, 4100, 3)] + 15 * [Rule(0, 0, 0)]
        self.assertEqual(buttmitrel.rule_bytes(OVER_VOLTAGE), buttmitrel.rule_bytes(listed))
        self.assertEqual(buttmitrel.rule_bytes(listed), bytes.fromhex("68100000041000000300") + bytes(150))
        with self.assertRaisesRegex(ValueError, "there is no rule 'COW': give one of COV, CUV, "):
            buttmitrel.rule_bytes({"COW": Rule(1, 1, 1)})
        with self.assertRaisesRegex(ValueError, "threshold is 2147483648: give a number from -2147483648 to 2147483647"):
            buttmitrel.rule_bytes([Rule(2147483648, 0, 1)])
        with self.assertRaisesRegex(ValueError, "time is 65536: give a number from 0 to 65535"):
            buttmitrel.rule_bytes([Rule(0, 0, 65536)])
        with self.assertRaisesRegex(TypeError, "give Rule"):
            buttmitrel.rule_bytes([5])
        for wrong in (None, 5):
            with self.assertRaisesRegex(TypeError, f"rules is {wrong}: give 16 Rules, a mapping of short names to Rules, or 160 bytes"):
                LiveFeed(3, 100, wrong)

    def test_readings(self):
        feed = story()
        before = state(feed)
        volts, temps = [4150, 4140, 4130], [250, 250, 250]
        for wrong in (volts[:2], volts + volts, []):
            self.refuses((15, 0), feed.sample, 3, 0, 0, wrong, temps)
            self.refuses((15, 0), feed.sample, 3, 0, 0, volts, wrong)
        for wrong in (-1, 4294967296):
            with self.assertRaisesRegex(ValueError, "tick is .*: give a number from 0 to 4294967295"):
                feed.sample(wrong, 0, 0, volts, temps)
            with self.assertRaisesRegex(ValueError, "last is .*: give a number from 0 to 4294967295"):
                feed.hole(wrong)
        for readings in ((32768, 0, volts, temps), (0, -32769, volts, temps), (0, 0, volts, [250, 250, 32768])):
            with self.assertRaisesRegex(ValueError, "give a number from -32768 to 32767"):
                feed.sample(3, *readings)
        for wrong in (65536 + 4150, -1):
            with self.assertRaisesRegex(ValueError, "a voltage is .*: give a number from 0 to 65535"):
                feed.sample(3, 0, 0, [wrong, 4140, 4130], temps)
        with self.assertRaisesRegex(TypeError, "a voltage is 4.15: give a whole number"):
            feed.sample(3, 0, 0, [4.15, 4140, 4130], temps)
        for name in ("volts", "temps"):
            with self.assertRaisesRegex(TypeError, f"{name} is 4150: give a list of whole numbers"):
                feed.sample(3, 0, 0, **{"volts": volts, "temps": temps, name: 4150})
        with self.assertRaisesRegex(ValueError, "rule is 16: give a number from 0 to 15"):
            feed.possible_states(16)
        self.assertEqual(state(feed), before)

    def test_resume(self):
        feed = story()
        again = LiveFeed.resume(3, 100, OVER_VOLTAGE, *state(feed))
        feed.hole(5)
        again.hole(5)
        self.assertEqual((state(again), again.report()), (state(feed), feed.report()))
        for other in (copy.copy(feed), copy.deepcopy(feed), pickle.loads(pickle.dumps(feed))):
            before = state(feed)
            self.assertEqual((state(other), other.report()), (before, feed.report()))
            other.hole(9)
            self.assertEqual(state(feed), before)
        words, totals = state(feed)
        for wrong in ((words[:79], totals), (words, totals[:3]), ((0, *words[1:]), totals), (words, (0, 0, 7, 6)), ([], [])):
            self.refuses((16, 0), LiveFeed.resume, 3, 100, OVER_VOLTAGE, *wrong)
        with self.assertRaisesRegex(ValueError, "a total is -1: give a number from 0 to"):
            LiveFeed.resume(3, 100, OVER_VOLTAGE, words, (-1, 0, 0, 6))


def offer(recorder, tick, cells=3):
    """Offers the tick as the bus of examples/c/recorder.c shows it."""
    highest = 4250 if 11 <= tick <= 23 else 4150
    return recorder.offer(tick, 1500, 300, [highest, 4140, 4130, *9 * [4000]][:cells], cells * [250])


def all_holes():
    """A recorder with 1,024 holes of one tick, the even ones, and the last of the odd ones stored in its only place."""
    recorder = Recorder(3, 1)
    for tick in range(1, 2048, 2):
        recorder.drain()
        offer(recorder, tick)
    return recorder


def kept(recorder):
    return recorder.record, recorder.store


class Recording(RefusalCase):
    def test_the_card(self):
        """What examples/README.md says of each tick."""
        recorder, samples, no_room = Recorder(cells=3, number=6), b"", []
        for tick in range(30):
            if not 20 <= tick <= 22 and offer(recorder, tick) is Offered.IN_HOLE:
                no_room.append(tick)
            if tick % 5 == 4:
                samples += recorder.drain(3)
        self.assertEqual(no_room, [9, 13, 14, 18, 19, 29])
        self.assertEqual(recorder.holes, [(9, 9), (13, 14), (18, 22), (29, 29)])
        self.assertEqual((recorder.ticks, recorder.stored, len(samples)), (30, 3, 18 * recorder.sample_size))
        with self.assertRaisesRegex(ValueError, "samples are 360 bytes: drain all, and give the 420 bytes drained, in order"):
            recorder.trace(100, OVER_VOLTAGE, samples)
        samples += recorder.drain(most=9)
        self.assertEqual((recorder.drain(), recorder.record), (b"", (3, 6, 30, 4, 0, 21)))
        self.assertEqual(recorder.ever_stored, 21)
        trace = recorder.trace(idle=100, rules=OVER_VOLTAGE, samples=samples)
        self.assertEqual(trace, trace_of("recorder"))
        report = buttmitrel.judge(trace)
        self.assertEqual((report.rules[0].first_possible_tick, report.rules[0].first_held_tick), (13, 17))
        self.assertEqual((report.ticks, report.unseen_ticks), (30, 9))

    def test_what_a_trace_is_made_of(self):
        recorder = Recorder(3, 0)
        for number, arguments in ((4, (32767, {})), (7, (0, {"COV": Rule(1, 2, 3)}))):
            self.refuses((number, 0), buttmitrel.judge, recorder.trace(*arguments, b""))
        for wrong, size in ((15 * [Rule(0, 0, 0)], 150), (bytes(159), 159), (bytes(655360), 655360), ([], 0)):
            with self.assertRaisesRegex(ValueError, f"rules are {size} bytes: give 16 rules, 160 bytes"):
                recorder.trace(0, wrong, b"")
        self.assertEqual(buttmitrel.judge(recorder.trace(0, {}, b"")).ticks, 0)
        with self.assertRaisesRegex(ValueError, "idle is 65536: give a number from 0 to 65535"):
            recorder.trace(65536, {}, b"")
        with self.assertRaisesRegex(TypeError, "samples is a list: give bytes"):
            recorder.trace(0, {}, [])
        forged = Recorder.resume([3, 0, 0, 0, 0, 65536], bytes(8192))
        with self.assertRaisesRegex(ValueError, "65536 samples were ever stored, as the record says: a trace has at most 65535"):
            forged.trace(0, {}, bytes(65536 * 20))

    def test_samples_that_a_trace_can_have(self):
        recorder = Recorder.resume([3, 1, 0, 0, 0, 65534], bytes(8192 + 20))
        self.assertIs(offer(recorder, 0), Offered.STORED)
        self.assertEqual((recorder.ever_stored, len(recorder.drain())), (65535, 20))
        for tick in (1, 2):
            self.assertIs(offer(recorder, tick), Offered.IN_HOLE)
        self.assertEqual((recorder.ever_stored, recorder.stored, recorder.holes), (65535, 0, [(1, 2)]))

    def test_no_second_is_lost_between_two_traces(self):
        """What docs/FORMAT.md says of a last hole, and of the recorder that follows."""
        recorder = all_holes()
        recorder.drain()
        self.refuses((17, 0), offer, recorder, 2052)
        following = Recorder(3, 1)
        offer(following, 2052 - recorder.ticks)
        self.assertEqual(following.holes, [(0, 3)])
        card = trace_of("recorder")
        longer = card[:166] + b"\5\0" + card[168:200] + struct.pack("<II", 30, 40) + card[200:]
        self.assertEqual(struct.unpack_from("<H", card, 166), (4,))
        self.assertEqual((buttmitrel.judge(longer).ticks, buttmitrel.judge(longer).unseen_ticks), (41, 9 + 11))

    def test_every_number_of_cells(self):
        for cells in range(3, 13):
            recorder = Recorder(cells, 2)
            self.assertEqual(len(recorder.store), 8192 + 2 * (8 + 4 * cells))
            answers = [offer(recorder, tick, cells) for tick in (1, 2, 4)]
            self.assertEqual(answers, [Offered.STORED, Offered.STORED, Offered.IN_HOLE])
            rows = list(struct.iter_unpack(f"<Ihh{cells}H{cells}h", recorder.drain()))
            volts = ([4150, 4140, 4130] + 9 * [4000])[:cells]
            self.assertEqual(rows, [(tick, 1500, 300, *volts, *cells * [250]) for tick in (1, 2)])
            self.assertEqual(recorder.holes, [(0, 0), (3, 4)])

    def test_starting(self):
        for cells in (2, 13):
            self.refuses((3, 0), Recorder, cells, 1)
        for arguments, text in (((256, 1), "cells is 256"), ((3, -1), "number is -1"), ((3, 4294967296), "number is 4294967296")):
            with self.assertRaisesRegex(ValueError, f"{text}: give a number from 0 to"):
                Recorder(*arguments)

    def test_wrong_offers(self):
        recorder = all_holes()
        before = kept(recorder)
        self.refuses((15, 0), recorder.offer, 5, 0, 0, [4000, 4000], 3 * [250])
        self.refuses((15, 0), recorder.offer, 5, 0, 0, 3 * [4000], 4 * [250])
        self.refuses((9, 2048), offer, recorder, 2047)
        self.refuses((9, 2048), offer, recorder, 4294967295)
        self.refuses((17, 0), offer, recorder, 2048)
        self.refuses((17, 0), offer, recorder, 4294967294)
        for wrong in (-1, 4294967296):
            with self.assertRaisesRegex(ValueError, "tick is .*: give a number from 0 to 4294967295"):
                offer(recorder, wrong)
            with self.assertRaisesRegex(ValueError, "most is .*: give a number from 0 to 4294967295"):
                recorder.drain(wrong)
        with self.assertRaisesRegex(ValueError, "a voltage is 65536: give a number from 0 to 65535"):
            recorder.offer(2048, 0, 0, [65536, 0, 0], 3 * [250])
        self.assertEqual(kept(recorder), before)

    def test_what_is_refused_first(self):
        short = (ctypes.c_uint32 * 5)(3, 0, 0, 0, 0)
        self.refuses((3, 0), buttmitrel._call, "buttmitrel_recorder_start", 2, 0, short, 5)
        self.refuses((15, 0), buttmitrel._call, "buttmitrel_recorder_start", 3, 0, short, 5)
        recorder = all_holes()
        for forged in ((ctypes.c_uint32 * 6)(*recorder.record[:4], 2, 0), short):
            recorder._record = forged
            before = kept(recorder)
            for tick in (0, 2048):
                self.refuses((16, 0), recorder.offer, tick, 0, 0, [], [])
            self.refuses((16, 0), recorder.drain, 1)
            self.assertEqual(kept(recorder), before)

    def test_1024_holes(self):
        recorder = all_holes()
        self.refuses((17, 0), offer, recorder, 2048)
        recorder.drain()
        self.refuses((17, 0), offer, recorder, 2049)
        self.assertIs(offer(recorder, 2048), Offered.STORED)
        self.assertEqual((len(recorder.holes), recorder.holes[-1], recorder.ticks), (1024, (2046, 2046), 2049))

    def test_no_room_at_all(self):
        recorder = Recorder(3, 0)
        for tick in (7, 4294967294):
            self.assertIs(offer(recorder, tick), Offered.IN_HOLE)
            self.assertEqual(recorder.holes, [(0, tick)])
        self.refuses((9, 4294967295), offer, recorder, 4294967295)
        self.assertEqual(recorder.drain(), b"")

    def test_resume(self):
        recorder = all_holes()
        for other in (copy.copy(recorder), copy.deepcopy(recorder), pickle.loads(pickle.dumps(recorder))):
            before = kept(recorder)
            self.assertEqual(kept(other), before)
            self.assertEqual(len(other.drain()), 20)
            self.assertIs(offer(other, 2048), Offered.STORED)
            self.assertEqual(kept(recorder), before)
        record, store = kept(recorder)
        for index, wrong in ((0, 4), (1, 2), (1, 4294967295), (3, 1025), (4, 2)):
            self.refuses((16, 0), Recorder.resume, [*record[:index], wrong, *record[index + 1:]], store)
        for wrong in ((record[:5], store), (record, store[1:]), ([], b""), ([2, 0, 0, 0, 0, 0], store), ([13, 0, 0, 0, 0, 0], store)):
            refused = self.refuses((16, 0), Recorder.resume, *wrong)
            self.assertIn("give six numbers, 3 to 12 cells, and a store of at least 8192 + number * (8 + 4 * cells) bytes", str(refused))
        longer = Recorder.resume(record, store + b"rest")
        longer.drain()
        offer(longer, 2048)
        self.assertEqual(longer.store[len(store):], b"rest")


class Loading(unittest.TestCase):
    def found(self, folder, **environment):
        """What a new Python that has this folder's buttmitrel.py says of an empty trace."""
        kept = {name: value for name, value in os.environ.items() if name != "BUTTMITREL_LIBRARY"}
        script = "import sys; sys.path.insert(0, sys.argv[1]); import buttmitrel; buttmitrel.judge(b'')"
        done = subprocess.run([sys.executable, "-B", "-c", script, str(folder)], env={**kept, **environment}, stderr=subprocess.PIPE)
        return done.stderr.decode()

    def test_places(self):
        library = pathlib.Path(buttmitrel._library()._name).resolve()
        with tempfile.TemporaryDirectory(suffix=" with a space") as name:
            folder = pathlib.Path(name)
            shutil.copy(HERE / "buttmitrel.py", folder)
            self.assertIn("refused 1 at 0", self.found(folder, BUTTMITREL_LIBRARY=str(library)))
            missing = self.found(folder, BUTTMITREL_LIBRARY=str(folder / "missing.so"))
            self.assertRegex(missing, "missing.so: cannot open .* name the file libbuttmitrel.so in .* BUTTMITREL_LIBRARY")
            self.assertIn("refused 1 at 0", self.found(folder, LD_LIBRARY_PATH=str(library.parent)))
            (folder / "other.so").write_bytes(b"no library")
            self.assertIn("BUTTMITREL_LIBRARY", self.found(folder, BUTTMITREL_LIBRARY=str(folder / "other.so")))
            shutil.copy(library, folder / "libbuttmitrel.so")
            self.assertIn("refused 1 at 0", self.found(folder))
        if (ROOT / "target/lib/libbuttmitrel.so").exists():
            self.assertIn("refused 1 at 0", self.found(HERE))


class Page(unittest.TestCase):
    def test_the_page_says_what_is_printed(self):
        page = (HERE / "README.md").read_text("utf-8")
        blocks = re.findall(r"```python\n(.*?)```\n+```text\n(.*?)```", page, re.DOTALL)
        self.assertEqual(len(blocks), 3)
        before = os.getcwd()
        os.chdir(ROOT)
        self.addCleanup(os.chdir, before)
        for code, expected in blocks:
            with contextlib.redirect_stdout(io.StringIO()) as printed:
                exec(compile(code, "README.md", "exec"), {})
            self.assertEqual(printed.getvalue(), expected)


if __name__ == "__main__":
    unittest.main()
