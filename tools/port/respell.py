#!/usr/bin/env python3
"""Brings the repository's own definitions, lemmas and fields to snake case, in .antt and .rt files.

usage: tools/port/respell.py [--dry]      at the top, once, right after port.py (docs/PORT.md)

A word of specs/ or proofs/ in camel case or with dashes gets underscores: sampleAt is sample_at, put-long is put_long. Types, modules, the
functions of src/ and the names that Rattle makes (goals, steps, the proof of a function) keep theirs. A name counts as ours in a file that
declares it or imports it from a module of ours.
"""
import os
import re
import sys

DRY = "--dry" in sys.argv
WORD = re.compile(r"[^\s(){}\[\],;.:«»λ→=|@\"↦`]+")
DECLARED = re.compile(r"^(\s*)((?:(?:abbrev|unfoldable|pub|data|record|axiom)\s+)*)([^\s(){}\[\],;.:«»λ→=|]+(?:\s+[^\s(){}\[\],;.:«»λ→=|]+)*)\s*((?:[({][^=]*?[)}]\s*)*):(?!:)")
TIE = re.compile(r"^([^\s]+) : tie\.")


def snake(name):
    if not re.match(r"[a-z]", name) or name.startswith("_"):
        return name
    if not re.search(r"[a-z0-9ℤℕ][A-Z]|-", name):
        return name
    if re.fullmatch(r"-+", name):
        return name
    out = re.sub(r"(?<=[a-zℕ])(?=[A-Z])", "_", name.replace("-", "_"))
    out = re.sub(r"(?<=[0-9])(?=[A-Z])", "_", out)
    return out.lower() if "ℤ" not in out and "ℕ" not in out else "".join(c.lower() if c.isascii() else c for c in out)


# Lemmas that would get the name of what they are about.
LEMMAS = {}


def turned(name):
    return LEMMAS.get(name) or snake(name)


def antt_files():
    for folder, dirs, files in os.walk("crates"):
        dirs[:] = sorted(d for d in dirs if d not in ("out", "must-fail"))
        for f in sorted(files):
            if f.endswith(".antt"):
                yield os.path.join(folder, f)


def rt_files():
    for folder, dirs, files in os.walk("crates"):
        dirs[:] = sorted(d for d in dirs if d not in ("out", "must-fail"))
        for f in sorted(files):
            if f.endswith(".rt"):
                yield os.path.join(folder, f)


def module_of(path):
    return "Rattle." + path[len("crates/"):-len(".antt")].replace("/", ".")


def code_of(line):
    return re.sub(r"(^|\s)--(\s.*)?$", "", line)


def declared(path, text):
    """The names that a file declares, and which of them are fields."""
    made = set()
    names, fields = set(), set()
    in_record = None
    for line in text.splitlines():
        if line.startswith("--") or not line.strip():
            continue
        m = TIE.match(line)
        if m:
            made.add(m.group(1))
        indent = len(line) - len(line.lstrip())
        if in_record is not None and indent <= in_record:
            in_record = None
        if re.match(r"\s*(?:pub )?record .*where\s*$", line) or (re.match(r"\s*(?:pub )?record ", line) and not "=" in line):
            in_record = indent
            continue
        m = DECLARED.match(code_of(line))
        if m and "use" not in m.group(3).split()[:1]:
            for n in m.group(3).split():
                if n in ("abbrev", "unfoldable", "pub", "data", "record", "module", "use", "let", "in", "where"):
                    continue
                if in_record is not None:
                    fields.add(n)
                names.add(n)
    if path.endswith("/Proof.antt"):
        names = {n for n in names if n not in made and not n.endswith("-spec") and not n.endswith("_spec")}
    return names, fields


def imports(text):
    """(module, [names or (name, alias)]) of each use line, and module aliases."""
    for m in re.finditer(r"(?m)^\s*(?:ghost )?(?:pub )?use (Rattle\.[^\s{;]+?)(?:\.\{([^}]*)\}|( as \S+))?;?\s*$", text):
        yield m.group(1), m.group(2), m.group(3)


def main():
    texts = {p: open(p, encoding="utf-8").read() for p in antt_files()}
    decl = {p: declared(p, t) for p, t in texts.items()}
    modules = {module_of(p): p for p in texts}
    own_fields = set().union(*(f for _, f in decl.values()))
    own_names = set().union(*(n for n, _ in decl.values()))
    made = set()
    for p, t in texts.items():
        if p.endswith("/Proof.antt"):
            made |= {m.group(1) for m in map(TIE.match, t.splitlines()) if m}
    clashes = []
    alike = {}
    for n in own_names | {"bit_or"}:
        alike.setdefault(snake(n), set()).add(n)
    for to, names in alike.items():
        if len(names) > 1:
            for n in names:
                if "-" in n and n not in own_fields:
                    LEMMAS[n] = to + "_lem"
    LEMMAS["after_last"] = "after_last_lem"

    def turn(path, text, rt):
        scope = set() if rt else set(decl[path][0])
        aliases = set()
        library = set()
        for module, names, alias in imports(text):
            ours = module in modules
            if names is not None:
                for n in re.split(r",\s*", names.strip()):
                    n = n.strip()
                    word = n.split(" as ")[0].strip()
                    if ours:
                        scope.add(word)
                        if " as " in n:
                            scope.add(n.split(" as ")[1].strip())
                    else:
                        library.add(n.split(" as ")[-1].strip())
            elif ours:
                aliases.add(alias.split()[-1] if alias else module.split(".")[-1])
        for m in re.finditer(r"(?m)^\s*(?:ghost )?use ([^\s{;]+?)\.\{([^}]*)\};?\s*$", text):
            if not m.group(1).startswith("Rattle."):
                for n in re.split(r",\s*", m.group(2).strip()):
                    library.add(n.split(" as ")[-1].strip())
        # A file's word that a library of the file has under the same spelling stays the library's.
        if not rt:
            scope -= {n for n in library if n not in decl[path][0]}
        bare = {n: turned(n) for n in scope if turned(n) != n}
        all_words = set(WORD.findall(text))
        for n, to in sorted(bare.items()):
            if to in all_words and to not in bare.values():
                clashes.append((path, n, to))
            elif to in all_words and n in all_words:
                clashes.append((path, n, to))
        seen = {}
        for n, to in bare.items():
            if seen.setdefault(to, n) != n:
                clashes.append((path, n, to + " twice"))

        def line_of(line):
            comment = re.match(r"^(\s*)(--|//)", line)
            out, at = [], 0
            for m in WORD.finditer(line):
                w, s = m.group(0), m.start()
                out.append(line[at:s])
                at = m.end()
                before = line[s - 1] if s else ""
                if comment:
                    quoted = line.count("`", 0, s) % 2 == 1
                    if w in own_names and turned(w) != w and (quoted or "-" not in w):
                        w = turned(w)
                elif before == ".":
                    head = re.search(r"([^\s(){}\[\],;:«»λ→=|@\"↦]+)\.$", line[:s])
                    qualifier = head.group(1).split(".")[-1] if head else ""
                    if qualifier in aliases and w in own_names:
                        w = turned(w)
                    elif w in own_fields and w not in made:
                        w = turned(w)
                elif w in bare:
                    w = bare[w]
                elif w in own_fields and re.match(r"\s*=[^=]", line[m.end():] + " ") and turned(w) != w and not re.match(r"\s*let ", line[:s]):
                    w = turned(w)
                out.append(w)
            out.append(line[at:])
            return "".join(out)

        return "\n".join(line_of(l) for l in text.split("\n"))

    changed = 0
    for p, t in texts.items():
        new = turn(p, t, False)
        if new != t:
            changed += 1
            if not DRY:
                open(p, "w", encoding="utf-8").write(new)
    for p in rt_files():
        t = open(p, encoding="utf-8").read()
        new = turn(p, t, True)
        if new != t:
            changed += 1
            if not DRY:
                open(p, "w", encoding="utf-8").write(new)
    whole = {}
    for n in own_names | own_fields:
        whole.setdefault(turned(n), set()).add(n)
    print("fall together:", sorted(tuple(sorted(v)) for v in whole.values() if len(v) > 1))
    for c in clashes:
        print("clash:", *c)
    print(changed, "files changed")


main()
