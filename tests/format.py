# `format.py PROGRAM DOCUMENT`: judges the examples of docs/FORMAT.md with the program, carries out the calls of its recorder with the
# library that BUTTMITREL_LIBRARY names, and compares the document's tables with the code. From the repository's root.
import ctypes
import itertools
import re
import struct
import subprocess
import sys

sys.path.insert(0, "bindings/python")
import buttmitrel

PROGRAM, DOCUMENT = sys.argv[1:3]
TYPE_BYTES = {"u8": 1, "u16": 2, "u32": 4, "u64": 8, "i16": 2, "i32": 4, "": 1}
# What each table of offsets adds up to.
LENGTHS = {
    "head": "4",
    "rule": "10",
    "hole": "8",
    "reply": "10",
    "sample": "8 + 4n",
    "report": "187",
    "rule of the report": "10",
    "bytes on the bus": "6",
    "store": "8192 + m × (8 + 4n)",
}
checks = 0


def check(found, expected, what):
    global checks
    checks += 1
    if found != expected:
        sys.exit(f"format: {what}: {found}, and not {expected}")


def read(name):
    with open(name, encoding="utf-8") as file:
        return file.read()


# The tables by their header's words; each row is a list of texts.
def tables(text):
    found = {}
    for block in re.findall(r"(?:^\|.*\n)+", text, re.M):
        rows = [[cell.strip() for cell in line.strip().strip("|").split("|")] for line in block.splitlines()]
        found[tuple(rows[0])] = rows[2:]
    return found


# The bytes of the blocks 'offset: bytes # what they say', by the offset at which each begins, in the document's order.
def blocks(text):
    found = []
    for block in re.findall(r"(?:^ +\d+: .*\n)+", text, re.M):
        lines = re.findall(r"^ +(\d+): ([0-9A-F ]+)#", block, re.M)
        begin, whole = int(lines[0][0]), b""
        for offset, digits in lines:
            check(int(offset), begin + len(whole), f"the offset of {digits.strip()}")
            whole += bytes.fromhex(digits)
        found.append((begin, whole))
    return found


# A number as the document writes it, with n cells, room for m samples, and other names for numbers.
def number(text, n, m=5, **names):
    text = text.replace(",", "").replace("−", "-").replace("×", "*")
    return eval(re.sub(r"(\d)n", r"\1 * n", text), {"n": n, "m": m, **names})


def judge(trace):
    return subprocess.run([PROGRAM], input=trace, stdout=subprocess.PIPE, check=True).stdout.decode()


def offsets(found):
    named = {header[3]: rows for header, rows in found.items() if header[:3] == ("offset", "bytes", "type")}
    check(sorted(named), sorted(LENGTHS), "the tables of offsets")
    for name, n in itertools.product(named, (3, 12)):
        end = 0
        for offset, size, kind, what in named[name]:
            check(number(offset, n), end, f"{name}, offset of '{what}' for {n} cells")
            check(number(size, n) % TYPE_BYTES[kind], 0, f"{name}, '{what}' in whole {kind}")
            end += number(size, n)
        check(end, number(LENGTHS[name], n), f"the bytes of {name} for {n} cells")
    for section, _, size in found[("section", "records", "bytes a record")]:
        check(size, LENGTHS[section[:-1].replace("replie", "reply")], f"the bytes of each of the {section}")


def refusal_numbers(found):
    body = read("crates/refusals/src/lib.rt").split("pub fn number", 1)[1].split("pub fn ", 1)[0]
    code = [int(n) for n in re.findall(r"=> (\d+),", body)]
    check([int(row[0]) for row in found[("no.", "cause", "place", "cure")]], code, "the numbers of the refusals")


QUANTITIES = {
    "HighestCell": "highest cell voltage",
    "LowestCell": "lowest cell voltage",
    "SumOfCells": "sum of the cell voltages",
    "Current": "current",
    "HighestTempCharging": "highest cell temperature, charging",
    "HighestTempDischarging": "highest cell temperature, discharging",
    "Board": "board temperature",
    "LowestTempDischarging": "lowest cell temperature, discharging",
    "CellDifference": "highest minus lowest cell voltage",
}


# The sixteen rows as the document has them, from those of the code.
def coded_rules():
    table = read("crates/rules/src/lib.rt").split("const ROWS", 1)[1].split("];", 1)[0]
    for note, fields in re.findall(r"// (\d+, [^\n]*)\n\s*Row \{(.*?)\}", table, re.S):
        row = dict(re.findall(r"(\w+): (?:\w+::)?(\w+),", fields))
        drives = [name for name, field in (("C", "charge"), ("D", "discharge")) if row[field] == "true"]
        recovers = row["recovers"] == "true"
        yield note.split(", ", 1) + [
            QUANTITIES[row["quantity"]],
            row["side"].lower(),
            "yes" if recovers else "latches",
            "even ticks" if row["even"] == "true" else "every tick",
            ", ".join(drives if recovers else drives + ["fuse"]),
            row["bits"][2:] + "h",
        ]


def rules(found):
    header = ("no.", "name", "quantity Q", "unit", "side", "recovers", "evaluated", "drives", "bits")
    coded = list(coded_rules())
    check(len(coded), 16, "the rules in the code")
    check([row[:3] + row[4:] for row in found[header]], coded, "the table of the rules")


def calls(found):
    named = " ".join(row[0] for row in found[("call", "refusals, in order")])
    for function in re.findall(r"^uint64_t (\w+)\(", read("include/buttmitrel.h"), re.M):
        check(f"`{function}`" in named, True, f"{function} in the table of calls")


# A trace with no records, with one rule on.
def one_rule(n, rule, threshold, recovery, time):
    rows = [bytes(10)] * 16
    rows[rule] = struct.pack("<iiH", threshold, recovery, time)
    return bytes([1, n, 0, 0, 16, 0]) + b"".join(rows) + bytes(6)


# Thresholds and recoveries at the ends of a range, and whether the demand takes them.
def edges(demand, least, greatest):
    asked = demand.replace("≤", "<=").replace(", recovery 0", " and recovery == 0")
    near = [end + step for end in (least, greatest) for step in (-1, 0, 1)]
    for threshold, recovery in itertools.product(near, sorted({0, *near})):
        fits = eval(asked, {"threshold": threshold, "recovery": recovery, "least": least, "greatest": greatest})
        yield threshold, recovery, fits


def one_limit(n, rule, pairs):
    def answers(threshold, recovery, time, accepted):
        answer = judge(one_rule(n, rule, threshold, recovery, time)).splitlines()[0]
        expected = "accepted" if accepted else f"refused 7 at {rule}"
        check(answer, expected, f"rule {rule} of {n} cells with {threshold}, {recovery}, {time}")

    for threshold, recovery, fits in pairs:
        answers(threshold, recovery, 1, fits)
    inside = next(pair for pair in pairs if pair[2])
    outside = next(pair for pair in pairs if not pair[2])
    answers(*outside[:2], 0, True)
    answers(*inside[:2], 255, True)
    answers(*inside[:2], 256, False)


def limits(found):
    tried = []
    for numbers, demand, least, greatest in found[("rules", "demand", "least", "greatest")]:
        for rule, n in itertools.product(map(int, numbers.split(",")), (3, 12) if "n" in greatest else (3,)):
            one_limit(n, rule, list(edges(demand, number(least, n), number(greatest, n))))
            tried.append(rule)
    check(sorted(set(tried)), list(range(16)), "the rules that have limits")


# The PEC as the document tells it bytewise.
def pec(message):
    code = 0
    for byte in message:
        code ^= byte
        for _ in range(8):
            code = (code << 1 ^ (7 if code & 128 else 0)) & 255
    return code


def codes(text, trace):
    paragraph = re.search(r"\*\*PEC\.\*\*.*?\n\n", text, re.S).group().replace("\n", " ")
    check("%02X" % pec(b""), re.search(r"of no bytes is (\w\w)h", paragraph).group(1), "the PEC of no bytes")
    check("%02X" % pec(b"123456789"), re.search(r"`123456789` it is (\w\w)h", paragraph).group(1), "the PEC of 123456789")
    for byte, code in re.findall(r"of (\w\w)h it is (\w\w)h", paragraph):
        check("%02X" % pec(bytes.fromhex(byte)), code, f"the PEC of {byte}h")
    for word in range(0, 65536, 4099):
        bus = bytes([0x16, word % 256, 0x17]) + struct.pack("<H", word)
        check(verdict(trace, 0, bus + bytes([pec(bus)])) != "2", True, f"the PEC of {bus.hex()}")


def example(text, trace, report):
    check(len(trace), int(re.search(r"A trace of (\d+) bytes", text).group(1)), "the length of the example")
    formula = re.search(r"So a trace has (.*) bytes\.", text).group(1)
    check(len(trace), number(formula, 3, holes=1, replies=3, samples=3), "the length of a trace")
    verdicts = re.search(r"and the verdicts, `(\d+)`", text).group(1)
    check(judge(trace), f"accepted\n{report.hex()}\n{verdicts}\n", "the answer to the example")


# The verdict on one reply in place of the example's three.
def verdict(trace, tick, bus):
    answer = judge(trace[:176] + struct.pack("<HI", 1, tick) + bus + trace[208:])
    return answer.splitlines()[2]


def replies(found, trace):
    seen = set()
    for tick, bus, expected, why in found[("tick", "bytes on the bus", "verdict", "why")]:
        check(verdict(trace, int(tick), bytes.fromhex(bus.strip("`"))), expected, f"the verdict on {bus}, {why}")
        seen.add(expected)
    check(sorted(seen), list("123456"), "the verdicts that have an example")


# The trace with a change as the document writes it.
def changed(trace, change):
    for form, new in (
        (r"byte (\d+) is `(\w\w)`", lambda at, byte: trace[: int(at)] + bytes.fromhex(byte) + trace[int(at) + 1 :]),
        (r"the first (\d+) bytes only", lambda length: trace[: int(length)]),
        (r"([\d,]+) bytes? `00` more", lambda count: trace + bytes(number(count, 0))),
    ):
        match = re.fullmatch(form, change)
        if match:
            return new(*match.groups())
    sys.exit(f"format: '{change}' is no change that this test knows")


def changes(found, trace):
    rows = found[("change", "answer", "why")]
    for change, answer, why in rows:
        check(judge(changed(trace, change)), answer + "\n", f"{change}, {why}")
    for (upper, answer, _), (lower, _, _) in itertools.combinations(rows, 2):
        first, second = sorted([upper, lower], key=lambda change: not change.startswith("byte"))
        if first.startswith("byte"):
            check(judge(changed(changed(trace, first), second)), answer + "\n", f"{upper} and {lower}")
    check({int(answer.split()[1]) for _, answer, _ in rows}, {*range(1, 12), 14}, "the refusals that have an example")


# A call of the recorder as the document writes it: its answer, and what it drains.
def recorder_call(call, record, store, sample):
    library, lent = buttmitrel._library(), (record, len(record), store, len(store))
    verb, numbers = call.split()[0], [int(digits) for digits in re.findall(r"\d+", call)]
    if verb == "start":
        return library.buttmitrel_recorder_start(*numbers, record, len(record)), b""
    if verb == "offer":
        current, board, *cells = struct.unpack("<4xhh6h", sample)
        volts, temps = (ctypes.c_uint16 * 3)(*cells[:3]), (ctypes.c_int16 * 3)(*cells[3:])
        return library.buttmitrel_recorder_offer(*lent, *numbers, current, board, volts, 3, temps, 3), b""
    buffer = (ctypes.c_uint8 * numbers[0])()
    count = library.buttmitrel_recorder_drain(*lent, buffer, len(buffer))
    return count, bytes(buffer)[: count * len(sample)]


# Carries out the recorder's calls, and answers what comes behind the rules in the trace that is then written.
def recorder_calls(rows, sample):
    record, store, drained = (ctypes.c_uint32 * 6)(), (ctypes.c_uint8 * number("8192 + m × (8 + 4n)", 3, 2))(), b""
    for call, expected, after, why in rows:
        answer, samples = recorder_call(call, record, store, sample)
        drained += samples
        text = f"refused {answer >> 32} at {answer % (1 << 32)}" if answer >> 32 else str(answer)
        check((text, ", ".join(map(str, record))), (expected, after), f"{call}, {why}")
        for place in re.findall(r"in place (\d)", why):
            at = 8192 + int(place) * len(sample)
            check(bytes(store[at : at + len(sample)]), struct.pack("<I", record[2] - 1) + sample[4:], f"{call}, {why}")
        for hole in re.findall(r"hole (?:is )?(\d) to (\d)", why):
            last = 8 * (record[3] - 1)
            check(bytes(store[last : last + 8]), struct.pack("<II", *map(int, hole)), f"{call}, {why}")
    holes = bytes(store[: 8 * record[3]])
    return struct.pack("<H", record[3]) + holes + struct.pack("<HH", 0, record[5]) + drained


def recorder(text, found, trace, begin, rest):
    rows = found[("call", "answer", "recorder after it", "why")]
    check({call.split()[0] for call, *_ in rows}, {"start", "offer", "drain"}, "the recorder's calls that have an example")
    check((begin, recorder_calls(rows, trace[210:230]).hex()), (166, rest.hex()), "the trace of the recorder")
    said = re.search(r"is accepted: (\d+) ticks, (\d+) of them unseen;.* possible from tick (\d+) on and held at no tick", text)
    ticks, unseen, possible = map(int, said.groups())
    answer = judge(trace[:begin] + rest).splitlines()
    report = bytes.fromhex(answer[1])
    numbers = (*struct.unpack_from("<II", report, 2), *struct.unpack_from("<II", report, 179))
    check((answer[0], *numbers), ("accepted", possible, 0xFFFFFFFF, unseen, ticks), "the answer to the recorder's trace")


# The most samples that the program takes of a trace with no hole.
def longest(text, trace):
    said = re.search(r"hole ([\d,]+) samples of (\d+) cells or ([\d,]+) of (\d+)", text).groups()
    for most, n in (said[:2], said[2:]):
        for count, expected in ((number(most, 0), "accepted"), (number(most, 0) + 1, "refused 14 at 0")):
            head = trace[:1] + bytes([int(n)]) + trace[2:166] + struct.pack("<HHH", 0, 0, count)
            samples = b"".join(struct.pack("<I", tick) + bytes(4 + 4 * int(n)) for tick in range(count))
            check(judge(head + samples).splitlines()[0], expected, f"{count} samples of {n} cells")


def main():
    text = read(DOCUMENT)
    found = tables(text)
    recorded, (trace_begin, trace), (report_begin, report) = blocks(text)
    check((trace_begin, report_begin), (0, 0), "where the example's trace and report begin")
    offsets(found)
    refusal_numbers(found)
    rules(found)
    calls(found)
    limits(found)
    example(text, trace, report)
    replies(found, trace)
    codes(text, trace)
    changes(found, trace)
    recorder(text, found, trace, *recorded)
    longest(text, trace)
    print(f"format: {checks} checks of {DOCUMENT}")


main()
