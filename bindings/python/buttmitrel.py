"""The judge of a battery bus analyzer from Python: one file over the shared library libbuttmitrel.so, with no packages.

judge(trace) answers a Report; LiveFeed takes samples and holes one by one; Recorder keeps samples, and a hole for every second that it
could not keep, for a trace; cells answers highest, lowest and sum of cell voltages; seal and check are for replies of the bus. What the
library refuses raises Refused. Numbers are in the trace's units: mV, mA, 0.1 degrees Celsius, mA seconds; a tick is a second.
include/buttmitrel.h says what each call promises, docs/FORMAT.md what traces, reports and refusals are.
"""
import ctypes
import ctypes.util
import dataclasses
import enum
import functools
import operator
import os
import struct
from ctypes import POINTER, c_char_p, c_int16, c_int64, c_size_t, c_uint8, c_uint16, c_uint32, c_uint64
from typing import Any, Callable, Dict, Iterable, List, Mapping, NamedTuple, Optional, Sequence, Tuple, Union

__all__ = [
    "Cells", "Check", "Flag", "LiveFeed", "LiveReport", "LiveRule", "NetCharge", "Offered", "Outputs", "RULE_NAMES", "Recorder",
    "Refused", "Report", "Rule", "RuleReport", "Verdict", "cells", "check", "judge", "net_charge", "reply_count", "rule_bytes", "seal",
]

# The short name of each rule, and the manual's.
RULE_NAMES = (
    ("COV", "Cell Overvoltage"),
    ("CUV", "Cell Undervoltage"),
    ("POV", "Pack Overvoltage"),
    ("PUV", "Pack Undervoltage"),
    ("OC Charge", "Charge Overcurrent"),
    ("OC Discharge", "Discharge Overcurrent"),
    ("OT Charge", "Overtemperature Charge"),
    ("OT Discharge", "Overtemperature Discharge"),
    ("Board Over Temperature", "Board Overtemperature"),
    ("Discharge Under Temperature", "Discharge Undertemperature"),
    ("SOV", "Safety Cell Overvoltage"),
    ("SOC Charge", "Safety Overcurrent Charge"),
    ("SOC Discharge", "Safety Overcurrent Discharge"),
    ("SOT Charge", "Safety Overtemperature Charge"),
    ("SOT Discharge", "Safety Overtemperature Discharge"),
    ("Cell Imbalance", "Cell Imbalance"),
)

# What each number of a refusal means, in the words of bindings/rust/src/meaning.rs.
_MEANINGS = {
    1: "the trace is shorter than the four bytes of its head",
    2: "the version is not 1",
    3: "the number of cells is not 3 to 12",
    4: "the idle current is over 32766 mA",
    5: "a count or a section runs past the end of the trace",
    6: "the rules are not 16 of 10 bytes each",
    7: "a rule that is on is outside its limits",
    8: "a hole is reversed, not after the hole before it, or ends at tick 4294967295",
    9: "a tick is covered by no record or by two, has already passed, or is 4294967295; the place is the tick that is expected",
    10: "a reply is earlier than the reply before it, or after the last tick",
    11: "bytes are left over after the last section",
    12: "the report's buffer is not 187 bytes",
    13: "the verdicts' buffer is not as long as there are replies",
    14: "the program was given more than 65536 bytes",
    15: "a list is not as long as the call asks for: give one voltage and one temperature a cell, six bytes a reply",
    16: "what was lent is no state of a live feed or of a recorder",
    17: "a new hole is needed, and the recorder has 1024 already",
}

# The report: for each rule alert, status and two first ticks; the outputs; the totals.
_FLAGS = struct.Struct("<BB8x")
_FIRST_TICKS = struct.Struct("<2xII")
_OUTPUTS = struct.Struct("<BBB")
_TOTALS = struct.Struct("<QQII")
_REPORT_SIZE = 16 * _FLAGS.size + _OUTPUTS.size + _TOTALS.size
_NO_TICK = 0xFFFFFFFF

# The recorder's numbers, and the room for holes at the front of its store; the rules and the most samples of a trace.
_RECORD_LENGTH = 6
_HOLES_SIZE = 8192
_HOLE = struct.Struct("<II")
_RULES_SIZE = 160
_MOST_SAMPLES = 65535

Bytes = Union[bytes, bytearray, memoryview]


class Flag(enum.IntEnum):
    """A three-way flag: UNKNOWN where the unseen ticks can have made it either."""

    CLEAR = 0
    HELD = 1
    UNKNOWN = 2


class Verdict(enum.IntEnum):
    """The verdict on a reply."""

    WRONG_ADDRESS = 1
    WRONG_PEC = 2
    OTHER_COMMAND = 3
    AGREES = 4
    DIFFERS = 5
    CANNOT_TELL = 6


class Check(enum.IntEnum):
    """What check finds."""

    WHOLE = 0
    WRONG_ADDRESS = 1
    WRONG_PEC = 2


class Offered(enum.IntEnum):
    """What became of a sample that a recorder was offered."""

    STORED = 0
    IN_HOLE = 1


class Refused(Exception):
    """A call was refused and has changed nothing: `number` and `place` of the refusal, and its `meaning`."""

    def __init__(self, number: int, place: int, meaning: str) -> None:
        super().__init__(number, place, meaning)
        self.number = number
        self.place = place
        self.meaning = meaning

    def __str__(self) -> str:
        return f"refused {self.number} at {self.place}: {self.meaning}"


class Rule(NamedTuple):
    """The numbers of a rule. Time 0 switches it off; a rule from SOV on has recovery 0."""

    threshold: int
    recovery: int
    time: int


class Outputs(NamedTuple):
    """Whether rules open the MOSFETs and command the fuse."""

    charge_mosfet_open: Flag
    discharge_mosfet_open: Flag
    fuse_commanded: Flag


@dataclasses.dataclass(frozen=True)
class LiveRule:
    """A rule as a live feed stands."""

    number: int
    short_name: str
    name: str
    alert: Flag
    status: Flag


@dataclasses.dataclass(frozen=True)
class RuleReport(LiveRule):
    """A rule at the end of a trace. The first ticks are those at which the status is held or unknown, and held; None is no tick."""

    first_possible_tick: Optional[int]
    first_held_tick: Optional[int]


@dataclasses.dataclass(frozen=True)
class LiveReport:
    """What a live feed says of the samples and holes so far. First ticks and verdicts belong to traces alone."""

    rules: Tuple[LiveRule, ...]
    outputs: Outputs
    charge_in_mas: int
    charge_out_mas: int
    unseen_ticks: int
    ticks: int


@dataclasses.dataclass(frozen=True)
class Report(LiveReport):
    """What the judge says of a trace, with a verdict for each reply."""

    rules: Tuple[RuleReport, ...]
    verdicts: Tuple[Verdict, ...]


class NetCharge(NamedTuple):
    """The least and the greatest net charge, in minus out, that the unseen ticks allow."""

    least_net_charge_mas: int
    greatest_net_charge_mas: int


class Cells(NamedTuple):
    """The highest and the lowest of cell voltages, and their sum, in mV."""

    highest: int
    lowest: int
    sum: int


Rules = Union[Bytes, Sequence[Rule], Mapping[str, Rule]]

_BYTES = (c_char_p, c_size_t)
_U8 = (POINTER(c_uint8), c_size_t)
_FEED = (c_uint8, c_uint16, *_BYTES, POINTER(c_uint64), c_size_t, POINTER(c_uint64), c_size_t)
_READINGS = (c_uint32, c_int16, c_int16, POINTER(c_uint16), c_size_t, POINTER(c_int16), c_size_t)
_RECORD = (POINTER(c_uint32), c_size_t)
_ARGUMENTS: Dict[str, Tuple[Any, ...]] = {
    "buttmitrel_reply_count": _BYTES,
    "buttmitrel_judge": (*_BYTES, *_U8, *_U8),
    "buttmitrel_net_charge": (*_BYTES, POINTER(c_int64), c_size_t),
    "buttmitrel_cells": (POINTER(c_uint16), c_size_t, POINTER(c_uint32), c_size_t),
    "buttmitrel_seal": (c_uint8, c_uint16, *_U8),
    "buttmitrel_check": _BYTES,
    "buttmitrel_live_begin": _FEED,
    "buttmitrel_live_sample": (*_FEED, *_READINGS),
    "buttmitrel_live_hole": (*_FEED, c_uint32),
    "buttmitrel_live_report": (*_FEED, *_U8),
    "buttmitrel_recorder_start": (c_uint8, c_uint32, *_RECORD),
    "buttmitrel_recorder_offer": (*_RECORD, *_U8, *_READINGS),
    "buttmitrel_recorder_drain": (*_RECORD, *_U8, *_U8),
}


def _library_path() -> str:
    """BUTTMITREL_LIBRARY, else beside this file, else the repository's, else what the loader finds."""
    named = os.environ.get("BUTTMITREL_LIBRARY")
    if named:
        return named
    here = os.path.dirname(os.path.realpath(__file__))
    for folder in (here, os.path.join(here, "..", "..", "target", "lib")):
        path = os.path.join(folder, "libbuttmitrel.so")
        if os.path.exists(path):
            return path
    return ctypes.util.find_library("buttmitrel") or "libbuttmitrel.so"


@functools.lru_cache(maxsize=None)
def _library() -> ctypes.CDLL:
    path = _library_path()
    try:
        library = ctypes.CDLL(path)
        for name, arguments in _ARGUMENTS.items():
            function = getattr(library, name)
            function.argtypes = arguments
            function.restype = c_uint64
    except (OSError, AttributeError) as why:
        raise OSError(
            f"buttmitrel: no library of the judge: {why}. Install it with './buttmitrel install', or name the file "
            "libbuttmitrel.so in the environment variable BUTTMITREL_LIBRARY."
        ) from why
    return library


def _call(name: str, *arguments: Any) -> int:
    """The value of a call, or its refusal raised."""
    answer: int = getattr(_library(), name)(*arguments)
    number, value = divmod(answer, 1 << 32)
    if number != 0:
        raise Refused(number, value, _MEANINGS.get(number, "a refusal that buttmitrel.py does not know; docs/FORMAT.md has them all"))
    return value


def _whole(name: str, value: Any, low: int, high: int) -> int:
    """A whole number that its C type holds, so that none is wrapped."""
    try:
        number = operator.index(value)
    except TypeError:
        raise TypeError(f"{name} is {value!r}: give a whole number") from None
    if not low <= number <= high:
        raise ValueError(f"{name} is {number}: give a number from {low} to {high}")
    return number


def _u8(name: str, value: Any) -> int:
    return _whole(name, value, 0, 0xFF)


def _u16(name: str, value: Any) -> int:
    return _whole(name, value, 0, 0xFFFF)


def _u32(name: str, value: Any) -> int:
    return _whole(name, value, 0, 0xFFFFFFFF)


def _u64(name: str, value: Any) -> int:
    return _whole(name, value, 0, 0xFFFFFFFFFFFFFFFF)


def _i16(name: str, value: Any) -> int:
    return _whole(name, value, -0x8000, 0x7FFF)


def _i32(name: str, value: Any) -> int:
    return _whole(name, value, -0x80000000, 0x7FFFFFFF)


def _bytes(name: str, data: Any) -> bytes:
    try:
        return bytes(memoryview(data))
    except TypeError:
        raise TypeError(f"{name} is a {type(data).__name__}: give bytes") from None


def _array(kind: Any, number: Callable[[str, Any], int], name: str, one: str, values: Any) -> Any:
    """A C array of numbers, which messages call by the list's name, and each by that of one."""
    try:
        each = iter(values)
    except TypeError:
        raise TypeError(f"{name} is {values!r}: give a list of whole numbers") from None
    numbers = [number(one, value) for value in each]
    return (kind * len(numbers))(*numbers)


def _one_rule(rule: Any) -> bytes:
    try:
        threshold, recovery, time = rule
    except (TypeError, ValueError):
        raise TypeError(f"a rule is {rule!r}: give Rule(threshold, recovery, time)") from None
    return struct.pack("<iiH", _i32("threshold", threshold), _i32("recovery", recovery), _u16("time", time))


def rule_bytes(rules: Rules) -> bytes:
    """The rules as in a trace, from a list of Rules or from a mapping of short names in which a rule that is missing is off."""
    if isinstance(rules, (bytes, bytearray, memoryview)):
        return bytes(rules)
    if isinstance(rules, Mapping):
        names = [short for short, _ in RULE_NAMES]
        unknown = [name for name in rules if name not in names]
        if unknown:
            raise ValueError(f"there is no rule {unknown[0]!r}: give one of {', '.join(names)}")
        rules = [rules.get(name, Rule(0, 0, 0)) for name in names]
    try:
        each = iter(rules)
    except TypeError:
        raise TypeError(f"rules is {rules!r}: give 16 Rules, a mapping of short names to Rules, or 160 bytes") from None
    return b"".join(map(_one_rule, each))


def reply_count(trace: Bytes) -> int:
    """How many replies a trace has."""
    data = _bytes("trace", trace)
    return _call("buttmitrel_reply_count", data, len(data))


def _live_report(report: bytes) -> LiveReport:
    """What a report says beside first ticks."""
    rules = []
    for number, (alert, status) in enumerate(_FLAGS.iter_unpack(report[:160])):
        rules.append(LiveRule(number, *RULE_NAMES[number], Flag(alert), Flag(status)))
    outputs = Outputs(*map(Flag, _OUTPUTS.unpack_from(report, 160)))
    return LiveReport(tuple(rules), outputs, *_TOTALS.unpack_from(report, 163))


def _tick(number: int) -> Optional[int]:
    return None if number == _NO_TICK else number


def judge(trace: Bytes) -> Report:
    """Judges a trace."""
    data = _bytes("trace", trace)
    buffer = (c_uint8 * _REPORT_SIZE)()
    verdicts = (c_uint8 * reply_count(data))()
    _call("buttmitrel_judge", data, len(data), buffer, len(buffer), verdicts, len(verdicts))
    live = _live_report(bytes(buffer))
    rules = []
    for rule, (possible, held) in zip(live.rules, _FIRST_TICKS.iter_unpack(bytes(buffer)[:160])):
        rules.append(RuleReport(**vars(rule), first_possible_tick=_tick(possible), first_held_tick=_tick(held)))
    fields: Dict[str, Any] = {**vars(live), "rules": tuple(rules), "verdicts": tuple(map(Verdict, verdicts))}
    return Report(**fields)


def net_charge(trace: Bytes) -> NetCharge:
    """The bounds of the net charge of a trace."""
    data = _bytes("trace", trace)
    bounds = (c_int64 * 2)()
    _call("buttmitrel_net_charge", data, len(data), bounds, len(bounds))
    return NetCharge(*bounds)


def cells(volts: Iterable[int]) -> Cells:
    """The highest, the lowest and the sum of 3 to 12 cell voltages."""
    mv = _array(c_uint16, _u16, "volts", "a voltage", volts)
    three = (c_uint32 * 3)()
    _call("buttmitrel_cells", mv, len(mv), three, len(three))
    return Cells(*three)


def seal(command: int, word: int) -> bytes:
    """The six bytes of a read-word reply."""
    reply = (c_uint8 * 6)()
    _call("buttmitrel_seal", _u8("command", command), _u16("word", word), reply, len(reply))
    return bytes(reply)


def check(reply: Bytes) -> Check:
    """Whether the six bytes of a reply have the right addresses and packet error code."""
    data = _bytes("reply", reply)
    return Check(_call("buttmitrel_check", data, len(data)))


def _readings(tick: int, current: int, board: int, volts: Iterable[int], temps: Iterable[int]) -> Tuple[Any, ...]:
    """A sample as the calls take it."""
    mv = _array(c_uint16, _u16, "volts", "a voltage", volts)
    tenths = _array(c_int16, _i16, "temps", "a temperature", temps)
    return (_u32("tick", tick), _i16("current", current), _i16("board", board), mv, len(mv), tenths, len(tenths))


class LiveFeed:
    """Takes samples and holes one by one as an analyzer runs, each from the expected tick on. A feed is for one thread at a time."""

    def __init__(self, cells: int, idle: int, rules: Rules) -> None:
        """Begins a feed with the number of cells, the idle current in mA and the rules (see rule_bytes)."""
        self._lend(cells, idle, rules, 80 * [0], 4 * [0])
        self._feed("buttmitrel_live_begin")

    @classmethod
    def resume(cls, cells: int, idle: int, rules: Rules, words: Iterable[int], totals: Iterable[int]) -> "LiveFeed":
        """The feed that began with these and had these words and totals, or refusal 16 where no feed has them."""
        feed = cls.__new__(cls)
        feed._lend(cells, idle, rules, words, totals)
        feed.report()
        return feed

    def __reduce__(self) -> Tuple[Any, ...]:
        """A copy, or a feed in another process, goes on by itself."""
        cells, idle, rules, _ = self._head
        return LiveFeed.resume, (cells, idle, rules, self.words, self.totals)

    def _lend(self, cells: int, idle: int, rules: Rules, words: Iterable[int], totals: Iterable[int]) -> None:
        data = rule_bytes(rules)
        self._head = (_u8("cells", cells), _u16("idle", idle), data, len(data))
        self._words = _array(c_uint64, _u64, "words", "a word", words)
        self._totals = _array(c_uint64, _u64, "totals", "a total", totals)

    def _feed(self, name: str, *arguments: Any) -> None:
        state = (self._words, len(self._words), self._totals, len(self._totals))
        _call(name, *self._head, *state, *arguments)

    def sample(self, tick: int, current: int, board: int, volts: Iterable[int], temps: Iterable[int]) -> None:
        """Takes the sample of the expected tick: current in mA, board temperature, the cells' voltages and temperatures."""
        self._feed("buttmitrel_live_sample", *_readings(tick, current, board, volts, temps))

    def hole(self, last: int) -> None:
        """Takes a hole from the expected tick up to and with its last tick."""
        self._feed("buttmitrel_live_hole", _u32("last", last))

    def report(self) -> LiveReport:
        """The flags, outputs and totals as the feed stands."""
        buffer = (c_uint8 * _REPORT_SIZE)()
        self._feed("buttmitrel_live_report", buffer, len(buffer))
        return _live_report(bytes(buffer))

    @property
    def expected_tick(self) -> int:
        """The tick that the next sample or hole begins at."""
        return self.totals[3]

    @property
    def words(self) -> Tuple[int, ...]:
        """The possible states of the rules as the library keeps them, for resume."""
        return tuple(self._words)

    @property
    def totals(self) -> Tuple[int, ...]:
        """Charge in, charge out, unseen ticks and ticks, for resume."""
        return tuple(self._totals)

    def possible_states(self, rule: int) -> List[int]:
        """The states that the rule of this number can have: above 0 it alerts, at its time its status is active."""
        first = 5 * _whole("rule", rule, 0, 15)
        return [state for state in range(320) if self._words[first + state // 64] >> state % 64 & 1]


class Recorder:
    """Keeps samples until they are drained, and a hole for every tick that it could not keep. A recorder is for one thread at a time.

    Every tick below `ticks` is in exactly one sample, drained or stored, or in exactly one hole.
    """

    def __init__(self, cells: int, number: int) -> None:
        """Starts a recorder of so many cells with room for so many samples."""
        room = _u32("number", number)
        self._record = (c_uint32 * _RECORD_LENGTH)()
        _call("buttmitrel_recorder_start", _u8("cells", cells), room, self._record, len(self._record))
        self._store = (c_uint8 * (_HOLES_SIZE + room * self.sample_size))()

    @classmethod
    def resume(cls, record: Iterable[int], store: Bytes) -> "Recorder":
        """The recorder that had this record and this store at the same moment, or refusal 16 where no recorder has them."""
        recorder = cls.__new__(cls)
        data = _bytes("store", store)
        recorder._record = _array(c_uint32, _u32, "record", "a number of the record", record)
        recorder._store = (c_uint8 * len(data)).from_buffer_copy(data)
        try:
            recorder._drain(0)
        except Refused as refused:
            wanted = "give six numbers, 3 to 12 cells, and a store of at least 8192 + number * (8 + 4 * cells) bytes"
            raise Refused(refused.number, refused.place, f"{refused.meaning}: {wanted}") from None
        return recorder

    def __reduce__(self) -> Tuple[Any, ...]:
        """A copy, or a recorder in another process, goes on by itself."""
        return Recorder.resume, (self.record, self.store)

    def _lent(self) -> Tuple[Any, ...]:
        return self._record, len(self._record), self._store, len(self._store)

    def _drain(self, size: int) -> bytes:
        buffer = (c_uint8 * size)()
        _call("buttmitrel_recorder_drain", *self._lent(), buffer, size)
        return bytes(buffer)

    def offer(self, tick: int, current: int, board: int, volts: Iterable[int], temps: Iterable[int]) -> Offered:
        """Offers the sample of the next tick or of a later one; ticks that are skipped become part of a hole.

        Current in mA, board temperature in 0.1 degrees Celsius; of each cell the voltage in mV and the temperature in 0.1 degrees. Answers
        Offered.STORED, or Offered.IN_HOLE where there is no room or 65,535 samples were ever stored: the tick is then part of a hole.
        Refusals: 15, not one voltage and one temperature a cell; 9, a tick that has passed or 4294967295 (place: the next tick); 17, a
        new hole is needed and there are 1,024: drain and offer the same tick again; if it is refused again, end the trace.
        """
        return Offered(_call("buttmitrel_recorder_offer", *self._lent(), *_readings(tick, current, board, volts, temps)))

    def drain(self, most: Optional[int] = None) -> bytes:
        """The oldest samples, at most so many, or all, as bytes of a trace: `sample_size` each. They are no longer stored."""
        count = self.stored if most is None else min(self.stored, _u32("most", most))
        return self._drain(count * self.sample_size)

    def trace(self, idle: int, rules: Rules, samples: Bytes) -> bytes:
        """A trace of the idle current in mA, the rules (see rule_bytes), the holes, no replies, and all samples as they were drained."""
        cells, _, _, hole_count, _, ever = self._record
        data, listed = _bytes("samples", samples), rule_bytes(rules)
        if len(listed) != _RULES_SIZE:
            raise ValueError(f"rules are {len(listed)} bytes: give 16 rules, {_RULES_SIZE} bytes")
        if ever > _MOST_SAMPLES:
            raise ValueError(f"{ever} samples were ever stored, as the record says: a trace has at most {_MOST_SAMPLES}")
        if len(data) != ever * self.sample_size:
            raise ValueError(f"samples are {len(data)} bytes: drain all, and give the {ever * self.sample_size} bytes drained, in order")
        head = struct.pack("<BBHH", 1, cells, _u16("idle", idle), len(RULE_NAMES))
        holes = bytes(memoryview(self._store)[:_HOLE.size * hole_count])
        return b"".join((head, listed, struct.pack("<H", hole_count), holes, struct.pack("<HH", 0, ever), data))

    @property
    def sample_size(self) -> int:
        """How many bytes a sample has."""
        return 8 + 4 * self._record[0]

    @property
    def ticks(self) -> int:
        """How many ticks are recorded, and so the next tick."""
        return self._record[2]

    @property
    def stored(self) -> int:
        """How many samples are stored and not drained."""
        return self._record[4]

    @property
    def ever_stored(self) -> int:
        """How many samples were ever stored, drained or not. At 65,535 every tick offered becomes part of a hole: end the trace."""
        return self._record[5]

    @property
    def holes(self) -> List[Tuple[int, int]]:
        """The first and the last tick of each hole."""
        return [_HOLE.unpack_from(self._store, _HOLE.size * index) for index in range(self._record[3])]

    @property
    def record(self) -> Tuple[int, ...]:
        """Cells, room, next tick, holes, samples stored and not drained, samples ever stored, for resume."""
        return tuple(self._record)

    @property
    def store(self) -> bytes:
        """The holes, from byte 8192 on the samples, for resume."""
        return bytes(self._store)
