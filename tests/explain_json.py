"""`explain_json.py FOLDER PAGE`: for each NAME.trace of the folder, with the judge's NAME.answer and what explain says of it, NAME.json and
NAME.text, every number of the JSON is compared with the bytes of the trace and of the answer, read here as paper 01 lays them out,
and every word with the text. Then one byte after another of a trace and an answer is changed, and each comparison must fail. PAGE
is docs/JSON.md, whose names and examples must be those of the JSON."""
import json
import pathlib
import re
import struct
import sys

FLAGS = {0: "clear", 1: "held", 2: "unknown"}
OUTPUTS = {"C": "charge_mosfet_open", "D": "discharge_mosfet_open", "F": "fuse_commanded"}
ALARMS = {0x4000: "TCA", 0x1000: "OTA", 0x0800: "TDA"}
VERDICTS = {1: "wrong_address", 2: "wrong_pec", 3: "other_command", 4: "agrees", 5: "differs", 6: "cannot_tell"}

# Paper 01's rules: unit, what they open (F: they command the fuse), bits of BatteryStatus.
RULES = [
    ("mV", "C", 0x4000), ("mV", "D", 0x0800), ("mV", "C", 0x4000), ("mV", "D", 0x0800),
    ("mA", "C", 0x4000), ("mA", "D", 0x0800), ("0.1 °C", "C", 0x5000), ("0.1 °C", "D", 0x1800),
    ("0.1 °C", "CD", 0x5800), ("0.1 °C", "D", 0x0800), ("mV", "CDF", 0x4800), ("mA", "CDF", 0x4800),
    ("mA", "CDF", 0x4800), ("0.1 °C", "CDF", 0x5800), ("0.1 °C", "CDF", 0x5800), ("mV", "CDF", 0x4800),
]


class Different(Exception):
    """What the JSON says is not what the bytes say."""


def demand(holds, what):
    if not holds:
        raise Different(what)


def alarms(word):
    return [name for bit, name in ALARMS.items() if word & bit]


def flag(byte):
    demand(byte in FLAGS, f"{byte} is no flag")
    return FLAGS[byte]


def tick(number):
    return None if number == 0xFFFFFFFF else number


def sections(trace):
    """The place and the count of each section up to the first that does not fit."""
    found, at = [], 4
    for width in (10, 8, 10, 8 + 4 * trace[1]):
        if at + 2 > len(trace):
            break
        count = struct.unpack_from("<H", trace, at)[0]
        found.append((at, count))
        at += 2 + count * width
    return found, at


def samples(trace, at, count):
    """Current and cell voltages by tick."""
    cells = trace[1]
    layout = struct.Struct(f"<Ihh{cells}H{cells}h")
    rows = [layout.unpack_from(trace, at + 2 + i * layout.size) for i in range(count)]
    return {row[0]: {"current_ma": row[1], "cells_mv": list(row[3:3 + cells])} for row in rows}


def rule(number, trace, report):
    """A rule's fields but for its names."""
    threshold, recovery, time = struct.unpack_from("<iiH", trace, 6 + 10 * number)
    alert, status, possible, held = struct.unpack_from("<BBII", report, 10 * number)
    unit, opens, bits = RULES[number]
    return {
        "number": number, "on": time > 0, "unit": unit, "threshold": threshold, "recovery": recovery, "time": time,
        "latches": "F" in opens, "at_even_ticks": unit == "0.1 °C", "drives": [OUTPUTS[letter] for letter in opens],
        "alarms": alarms(bits), "alert": flag(alert), "status": flag(status),
        "first_possible_tick": tick(possible), "first_held_tick": tick(held),
    }


def reply(record, verdict, seen):
    """A reply's fields but for its words."""
    when, bus = struct.unpack("<I6s", record)
    command, word, signed = bus[1], struct.unpack("<H", bus[3:5])[0], struct.unpack("<h", bus[3:5])[0]
    return {
        "tick": when, "bus_bytes": list(bus), "command": command, "word": word,
        "voltage_mv": word if command == 0x09 else None, "current_ma": signed if command == 0x0A else None,
        "alarms": alarms(word) if command == 0x16 else None, "verdict": verdict, "verdict_name": VERDICTS[verdict],
        "sample": seen.get(when),
    }


def accepted(trace, report, verdicts):
    """What the JSON of an accepted trace says, but for names and words."""
    (_, _), (_, _), (replies_at, reply_count), (samples_at, sample_count) = sections(trace)[0]
    seen = samples(trace, samples_at, sample_count)
    charge_in, charge_out, unseen, ticks = struct.unpack_from("<QQII", report, 163)
    records = [trace[at:at + 10] for at in range(replies_at + 2, replies_at + 2 + 10 * reply_count, 10)]
    demand(len(records) == len(verdicts), "another number of verdicts")
    return {
        "format": 1, "answer": "accepted", "cells": trace[1], "idle_ma": struct.unpack_from("<H", trace, 2)[0],
        "ticks": ticks, "unseen_ticks": unseen, "charge_in_mas": charge_in, "charge_out_mas": charge_out,
        "least_net_charge_mas": charge_in - charge_out - 32768 * unseen,
        "greatest_net_charge_mas": charge_in - charge_out + 32767 * unseen,
        "outputs": dict(zip(OUTPUTS.values(), map(flag, report[160:163]))),
        "rules": [rule(number, trace, report) for number in range(16)],
        "replies": [reply(*row, seen) for row in zip(records, verdicts)],
    }


def byte_of(trace, number, place):
    """Where in the file that begins which is refused."""
    if number in (2, 3, 4, 6):
        return {2: 0, 3: 1, 4: 2, 6: 4}[number]
    if number not in (5, 7, 8, 10, 11):
        return None
    found, end = sections(trace)
    if number == 5:
        return found[-1][0] if found and end > len(trace) else end
    return end if number == 11 else found[number - 7 if number < 10 else 2][0] + 2 + (8 if number == 8 else 10) * place


def refused(trace, number, place):
    """What the JSON of a refused trace says, but for the words."""
    counts = {7: "rule", 8: "hole", 9: "tick", 10: "reply"}
    return {
        "format": 1, "answer": "refused", "number": number, "place": place, "place_is": counts.get(number),
        "byte": byte_of(trace, number, place),
    }


def same(found, wanted, where):
    """The same values of the same types; wanted has every name of found but those of words."""
    demand(type(found) is type(wanted), f"{where}: {found!r} is not of the kind of {wanted!r}")
    if isinstance(wanted, dict):
        words = {"short_name", "name", "command_name", "meaning", "where_to_look", "what_to_do"}
        demand(set(found) - words == set(wanted), f"{where}: other names than {sorted(wanted)}")
        for name in wanted:
            same(found[name], wanted[name], f"{where}.{name}")
    elif isinstance(wanted, list):
        demand(len(found) == len(wanted), f"{where}: {len(found)} in place of {len(wanted)}")
        for index, pair in enumerate(zip(found, wanted)):
            same(*pair, f"{where}[{index}]")
    else:
        demand(found == wanted, f"{where}: {found!r} in place of {wanted!r}")


def numbers_agree(found, trace, answer):
    lines = answer.splitlines()
    if lines[0] == "accepted":
        wanted = accepted(trace, bytes.fromhex(lines[1]), [int(digit) for digit in lines[2]])
    else:
        wanted = refused(trace, *map(int, re.fullmatch(r"refused (\d+) at (\d+)", answer.strip()).groups()))
    same(found, wanted, "answer")


def words_agree(found, text):
    """The names and sentences of the JSON are those of the text."""
    if found["answer"] == "refused":
        look = "\n".join(found["where_to_look"])
        head = f"Refused, number {found['number']} at {found['place']}: {found['meaning']}."
        return demand(text == f"{head}\n{look}\nWhat to do: {found['what_to_do']}.\n", "other words than the text's")
    lines = text.splitlines()
    shown = [line for line in lines if line.startswith("  tick ")]
    demand(len(shown) == len(found["replies"]), "another number of replies than in the text")
    for line, one in zip(shown, found["replies"]):
        name = one["command_name"] or f"command {one['command']:02X}h,"
        demand(f"): {name} " in line and line.endswith(": " + one["meaning"]), f"{one} is not '{line}'")
    off = [line[len("  off: "):].split(", ") for line in lines if line.startswith("  off: ")]
    for one in found["rules"]:
        title = one["name"] if one["name"] == one["short_name"] else f"{one['short_name']} ({one['name']})"
        on = any(line.startswith(f"  {title}: alert {one['alert']}, status {one['status']}") for line in lines)
        demand(on == one["on"] and (on or "  all off" in lines or one["short_name"] in off[0]), f"rule {title} is not in the text")


def no_name_twice(pairs):
    demand(len(dict(pairs)) == len(pairs), "a name occurs twice")
    return dict(pairs)


def parsed(path):
    data = path.read_bytes()
    demand(data.isascii() and data.endswith(b"}\n") and data.count(b"\n") == 1, f"{path} is not one line of ASCII")
    return json.loads(data, object_pairs_hook=no_name_twice)


def document_agrees(page, found):
    """The tables of docs/JSON.md have the names of what is written, and its examples are written so."""
    first = found["hidden_over_voltage"]
    written = [*found.values(), *(one for full in found.values() for one in full.get("rules", []) + full.get("replies", []))]
    shown = {
        "Accepted": first, "Outputs": first["outputs"], "A rule": first["rules"][0], "A reply": first["replies"][0],
        "Refused": found["08_holes"],
    }
    parts = dict(part.split("\n", 1) for part in re.split(r"^##+ ", page, flags=re.MULTILINE)[1:])
    for heading, one in shown.items():
        names = re.findall(r"^\| `(\w+)` \|", parts[heading], re.MULTILINE)
        demand(names == list(one), f"docs/JSON.md, {heading}: {names} in place of {list(one)}")
    examples = [json.loads(block) for block in re.findall(r"^    {.*(?:\n     .*)*", page, re.MULTILINE)]
    demand(len(examples) == 3, "docs/JSON.md: three examples expected")
    for example in examples:
        demand(example in written, f"docs/JSON.md: {example} is written of no example")


def fails(*case):
    try:
        numbers_agree(*case)
    except Different:
        return True
    return False


def changed(data, at):
    return data[:at] + bytes([data[at] ^ 1]) + data[at + 1:]


def see_changes(found, trace, answer):
    """Of a trace with replies: each byte of the report, of the verdicts, of the rules and of the replies counts."""
    word, report, verdicts = answer.splitlines()
    answers = [f"{word}\n{changed(bytes.fromhex(report), at).hex()}\n{verdicts}\n" for at in range(187)]
    answers += [f"{word}\n{report}\n{verdicts[:at]}{7 - int(verdicts[at])}{verdicts[at + 1:]}\n" for at in range(len(verdicts))]
    at, count = sections(trace)[0][2]
    traces = [changed(trace, place) for place in [2, 3, *range(6, 166), *range(at + 2, at + 2 + 10 * count)]]
    missed = [f"answer {i}" for i, other in enumerate(answers) if not fails(found, trace, other)]
    missed += [f"trace {i}" for i, other in enumerate(traces) if not fails(found, other, answer)]
    demand(count > 0 and not missed, f"a changed byte goes unseen: {missed}")
    return len(answers) + len(traces)


def check(path):
    """What is written of a trace, compared with its bytes and with the text."""
    trace, answer = path.read_bytes(), path.with_suffix(".answer").read_text()
    found = parsed(path.with_suffix(".json"))
    numbers_agree(found, trace, answer)
    words_agree(found, path.with_suffix(".text").read_text(encoding="utf-8"))
    return found


def main(folder, page):
    found = {}
    for path in sorted(folder.glob("*.trace")):
        try:
            found[path.stem] = check(path)
        except Different as why:
            sys.exit(f"explain_json: {path}: {why}")
    first = folder / "hidden_over_voltage.trace"
    try:
        changes = see_changes(found[first.stem], first.read_bytes(), first.with_suffix(".answer").read_text())
        document_agrees(page.read_text(encoding="utf-8"), found)
    except Different as why:
        sys.exit(f"explain_json: {why}")
    accepted_count = sum(one["answer"] == "accepted" for one in found.values())
    print(f"explain_json: {accepted_count} accepted, {len(found) - accepted_count} refused, {changes} changed bytes seen")
    sys.exit(0 if min(accepted_count, len(found) - accepted_count) >= 50 else "explain_json: too few")


main(*map(pathlib.Path, sys.argv[1:]))
