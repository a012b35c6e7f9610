#!/usr/bin/env python3
"""Brings the must-fail edits to the spelling of the ported text.

usage: tools/port/turn_edits.py REV TODAY              at the top; REV: the commit whose text the edits fit, TODAY: the folder with the ported crates
       tools/port/turn_edits.py REV TODAY --compare    writes nothing, and shows TODAY's edits beside what the script makes of REV's, where they differ

Each 'old:' is sought in REV's file and turned word by word, as the ported file spells it; 'new:' is turned with the same words. An edit is
written where each 'old:' then stands exactly once in the ported file; the others are named, to be turned by hand.
"""
import collections
import difflib
import os
import re
import subprocess
import sys

NAME = re.compile(r"[^\s(){}\[\],;.:«»λ→=|@\"↦`⌜⌝]+")


def snake(name):
    name = name.replace("′", "'")
    if not re.match(r"[a-z]", name) or not re.search(r"[a-z0-9ℤℕ'][A-Z]|-", name) or re.fullmatch(r"-+", name):
        return name
    out = re.sub(r"(?<=[a-zℕ'])(?=[A-Z])", "_", name.replace("-", "_"))
    out = re.sub(r"(?<=[0-9])(?=[A-Z])", "_", out)
    return "".join(c.lower() if c.isascii() else c for c in out)


def show(rev, path):
    r = subprocess.run(["git", "show", f"{rev}:{path}"], capture_output=True, text=True)
    return r.stdout if r.returncode == 0 else None


def tight(text):
    """A projection is written tight: (r .f) is r.f, (g x) .f is (g x).f."""
    text = re.sub(r"«(\w+)»", r"\1", text)
    text = re.sub(r"\(([\w']+)((?: \.[\w']+)+)\)", lambda m: m.group(1) + m.group(2).replace(" ", ""), text)
    return re.sub(r"(?<=[\w')]) (?=\.[a-z])", "", text)


def plain(line):
    """A line without what the port changes: brackets, spelling, projections, the binder of a clause."""
    line = re.sub(r"\bnow \((\S+) \.(?:entry|exit)\)|\bnow (\S+)\b", lambda m: m.group(1) or m.group(2), line)
    line = re.sub(r"(?<=\w)\.(?:old|new|now)\b", "", line)
    line = re.sub(r"λ \w+\. (?=⌜)", "", line).replace("⌜", "").replace("⌝", "")
    line = tight(line)
    line = NAME.sub(lambda m: snake(m.group(0)), line)
    return re.sub(r"\s+", " ", line).strip()


def aligned(old, new):
    """For each line of old, the line of new that it became, or None."""
    a, b = [plain(l) for l in old], [plain(l) for l in new]
    out = [None] * len(a)
    for tag, i, j, k, m in difflib.SequenceMatcher(None, a, b, False).get_opcodes():
        if tag == "equal":
            for n in range(j - i):
                out[i + n] = k + n
        elif tag == "replace":
            for n in range(i, j):
                best = max(range(k, m), key=lambda q: difflib.SequenceMatcher(None, a[n], b[q], False).ratio())
                if difflib.SequenceMatcher(None, a[n], b[best], False).ratio() > 0.55:
                    out[n] = best
    return out


def learn(old, new, became, words):
    for i, k in enumerate(became):
        if k is None:
            continue
        a, b = NAME.findall(tight(old[i])), NAME.findall(new[k])
        for tag, i1, j1, k1, m1 in difflib.SequenceMatcher(None, a, b, False).get_opcodes():
            if tag == "replace" and j1 - i1 == m1 - k1:
                for x, y in zip(a[i1:j1], b[k1:m1]):
                    if re.match(r"[A-Za-z]", x) and re.match(r"[A-Za-z]", y):
                        words[x][y] += 1
            elif tag == "equal":
                for x in a[i1:j1]:
                    words[x][x] += 1


def turn(text, words, line, antt):
    """The text with today's words; line is the ported line, which says how a reference is read."""
    def read(m):
        name, at = m.group(1) or m.group(3), m.group(2)
        name = snake(name)
        if at == "exit":
            return name + ".new"
        for w in ("old", "now"):
            if line and re.search(r"\b" + re.escape(name) + r"\." + w + r"\b", line):
                return name + "." + w
        return name + (".old" if at else ".now")

    lead = re.match(r"\s*", text).group(0)
    text = text[len(lead):]
    end = re.search(r"\s*$", text).group(0)
    text = text[:len(text) - len(end)] if end else text
    text = re.sub(r"\(now \((\w+) \.(entry|exit)\)\)", lambda m: "now (%s .%s)" % m.groups(), text)
    text = re.sub(r"\(now (\w+)\)", r"now \1", text)
    text = re.sub(r"\bnow \((\w+) \.(entry|exit)\)|\bnow (\w+)\b", read, text)
    text = text.replace("⌜ ", "").replace(" ⌝", "")
    if antt or re.search(r" \.[a-z]", text):
        text = tight(text)

    def word(m):
        w = m.group(0)
        if w in words and words[w]:
            return words[w].most_common(1)[0][0]
        return snake(w) if antt else w
    return lead + NAME.sub(word, text) + end


def of(rev, folder):
    return [p for p in subprocess.run(["git", "ls-tree", "-r", "--name-only", rev, folder], capture_output=True, text=True).stdout.split("\n") if p]


class Crate:
    """The texts of a crate at the commit and in the ported folder, and the words that they teach."""

    def __init__(self, rev, today, name):
        self.rev, self.folder, self.name = rev, os.path.join(today, "crates", name), name
        self.words = collections.defaultdict(collections.Counter)
        self.files = {}
        for p in of(rev, f"crates/{name}/src") + of(rev, f"crates/{name}/specs"):
            old, new, became = self.texts(p.split("/", 2)[2])
            if new is not None:
                learn(old.split("\n"), new.split("\n"), became, self.words)

    def texts(self, file):
        if file not in self.files:
            here = os.path.join(self.folder, file)
            old = show(self.rev, f"crates/{self.name}/{file}")
            new = open(here, encoding="utf-8").read() if os.path.exists(here) else None
            self.files[file] = old, new, aligned(old.split("\n"), new.split("\n")) if new is not None else None
        return self.files[file]

    def turned(self, source):
        """The edit with the ported text's words, and what is wrong with it."""
        out, wrong, lines, file = [], [], source.split("\n"), None
        for n, line in enumerate(lines):
            if line.startswith("file:"):
                file = line[5:].strip()
                if self.texts(file)[1] is None:
                    wrong.append(f"no file {file}")
            if not line.startswith("old:"):
                if not line.startswith("new:"):
                    out.append(line)
                continue
            old, new, became = self.texts(file)
            o, x = line[4:].removeprefix(" "), lines[n + 1][4:].removeprefix(" ")
            k = became[old[:old.index(o)].count("\n")] if became and o in old else None
            now = new.split("\n")[k] if k is not None else ""
            antt = file.endswith(".antt") or "ensures" in now or "requires" in now
            to, tx = turn(o, self.words, now, antt), turn(x, self.words, now, antt)
            if new is not None and (new.count(to) != 1 or k is not None and to not in now):
                wrong.append(f"{file}: {o!r} -> {to!r} stands {new.count(to)} times; there now: {now!r}")
            if to == tx:
                wrong.append("old and new alike")
            out += ["old: " + to, "new: " + tx]
        return "\n".join(out), wrong


def main():
    rev, today, compare = sys.argv[1], sys.argv[2], "--compare" in sys.argv
    edits = [p for p in of(rev, "crates") if p.endswith(".edit")]
    crates, count = {}, collections.Counter()
    for path in edits:
        name = path.split("/")[1]
        if name not in crates:
            crates[name] = Crate(rev, today, name)
        text, wrong = crates[name].turned(show(rev, path))
        if compare:
            here = [p for p in (os.path.join(today, path), os.path.join(today, "crates", name, "must-fail", os.path.basename(path))) if os.path.exists(p)]
            is_now = open(here[0], encoding="utf-8").read() if here else ""
            count["alike" if text == is_now else "other"] += 1
            if text != is_now:
                print(path if here else path + " is gone")
                print("".join(f"    {l}\n" for l in difflib.unified_diff(text.split("\n"), is_now.split("\n"), n=0, lineterm="") if l[:2] not in ("--", "++", "@@")), end="")
        elif wrong:
            count["by hand"] += 1
            print("by hand:", path, *wrong, sep="\n    ")
        else:
            count["turned"] += 1
            open(path, "w", encoding="utf-8").write(text)
    print(len(edits), "edits:", ", ".join(f"{n} {what}" for what, n in sorted(count.items())))


main()
