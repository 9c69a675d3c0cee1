#!/usr/bin/env python3
"""Brings the repository's own names to today's spelling: words in snake case, a dash inside a word to an underscore.

Run once, at the top, right after /opt/rattle/port/port.py and before any edit by hand. It turns the .antt files, the
clauses and ghost imports of the .rt files, the must-fail edits, and names in backticks in README.md and docs/.
Where a lemma or a label would fall together with a definition, it ends in `_lem`, as the guides spell a lemma that
would have its function's name. Names that a library declares keep their spelling."""
import collections
import glob
import os
import re
import sys

TOKEN = re.compile(r"\.?[^\s(){}\[\],;.`\"]+")
OURS = re.compile(r"Rattle\.(?!(?:std|core)\b)\w+\.(?:specs|proofs)")
# what is renamed in one crate alone, before the rest: names that would fall together with a definition there
FIRST = {
    "crates/promises/": {"is_white": "is_white_lem", "is_name": "is_name_lem", "is_digit": "is_digit_lem", "digit_value": "digit_value_lem"},
    "crates/grammar/proofs/Standing.antt": {"goes_on": "went_on"},
    "crates/grammar/proofs/Sound.antt": {"to_item": "from_item"},
    "crates/cards/proofs/Orders.antt": {"in_order": "by_order"},
    "crates/promises/proofs/Vouched.antt": {"no-month": "NoMonth"},
    "crates/promises/proofs/SettledDesk.antt": {"partIn": "PartIn"},
}
# these would fall together with a variable of the code
INSTEAD = {"nextOffset": "offset_after"}


def snake(name):
    name = re.sub(r"([A-Z]+)([A-Z][a-z])", r"\1_\2", name)
    name = re.sub(r"([a-z0-9'])([A-Z])", r"\1_\2", name)
    return name.lower().replace("-", "_")


def uncommented(line):
    return re.sub(r"(^|\s)--(\s|$).*", "", line)


def declared(files):
    """The names that our .antt files declare, the labels of records among them, and what each file imports from a library."""
    own, labels, theirs = set(), set(), collections.defaultdict(set)
    for f in files:
        for line in open(f, encoding="utf-8"):
            line = uncommented(line.rstrip("\n"))
            use = re.match(r"\s*(?:pub )?use (\S+?)\.?\{(.*)\}", line)
            if use:
                for n in use.group(2).split(","):
                    name, _, alias = n.strip().partition(" as ")
                    if not OURS.match(use.group(1)):
                        theirs[f].add(name)
                    if alias:
                        own.add(alias)
                continue
            use = re.match(r"\s*(?:pub )?use \S+ as (\S+)", line)
            if use:
                own.add(use.group(1))
            d = re.match(r"^(\s*)(?:(?:abbrev|unfoldable|pub|record|data|ruleset) )*([^\s:(){}.,]+)(?:\s+[^:=]*)?\s:\s", line)
            if d:
                own.add(d.group(2))
                if d.group(1):
                    labels.add(d.group(2))
            d = re.match(r"^\s*(?:pub )?(?:record|data|ruleset) ([^\s:(){}.,]+)", line)
            if d:
                own.add(d.group(1))
            for d in re.finditer(r"\blet ([^\s:=(){}.,]+)\s+[:=]", line):
                own.add(d.group(1))
            for d in re.finditer(r"[({]([^(){}:]+) : ", line):
                own.update(d.group(1).split())
            for d in re.finditer(r"λ ([^.]+)\.", line):
                own.update(re.findall(r"[^\s(){}:,]+", d.group(1)))
    return own, labels, theirs


def wanted(own, labels, theirs, texts):
    """Each name of ours that has another spelling today, and that."""
    names = {n for n in own if re.match("[a-z]", n) and (re.search("[A-Z]", n) or "-" in n)}
    found = {f: {t.lstrip(".") for line in text.split("\n") for t in TOKEN.findall(uncommented(line))} for f, text in texts.items()}
    names |= {t for s in found.values() for t in s if re.fullmatch(r"[a-z][a-z0-9_']*-?[A-Z][A-Za-z0-9_'-]*", t) and not t.startswith("κs")}
    new = {n: INSTEAD.get(n, snake(n)) for n in names}
    same = collections.defaultdict(set)
    for n, m in new.items():
        same[m].add(n)
    for n in sorted(names):
        if re.search("[A-Z]", n):
            continue
        m = new[n]
        rivals = {r for r in same[m] | ({m} & own) if r != n}
        if any(n in s and (s & rivals or m in theirs[f]) for f, s in found.items()):
            new[n] = m + "_lem"
    return new


def turned(text, new, labels, theirs, rust=False):
    def one(match):
        t = match.group(0)
        if t.startswith("."):
            n = t[1:]
            if n in new and (n in labels or re.search("[A-Z]", n)) and n not in theirs:
                return "." + new[n]
            return t
        return t if t in theirs else new.get(t, t)

    lines = []
    for line in text.split("\n"):
        at = re.search(r"(^|\s)//(\s|$)" if rust else r"(^|\s)--(\s|$)", line)
        code, comment = (line[: at.start()], line[at.start() :]) if at else (line, "")
        comment = re.sub(r"`([^`\s]+)`", lambda m: "`" + new.get(m.group(1), m.group(1)) + "`", comment)
        parts = re.split(r'("(?:[^"\\]|\\.)*")', code)
        for k in range(0, len(parts), 2):
            if rust:
                parts[k] = re.sub(r"(?<![\w'.])[a-z]\w*[A-Z]\w*", lambda m: new.get(m.group(0), m.group(0)), parts[k])
            else:
                parts[k] = TOKEN.sub(one, parts[k])
        code = "".join(parts)
        lines.append(code + comment)
    return "\n".join(lines)


def main():
    if os.path.exists("docs/PORT.md"):
        sys.exit("respell.py: this repository is in today's spelling already (docs/PORT.md).")
    antt = sorted(glob.glob("crates/*/specs/*.antt") + glob.glob("crates/*/proofs/**/*.antt", recursive=True))
    for f in antt:
        table = next((t for p, t in FIRST.items() if f.startswith(p)), None)
        for p, t in FIRST.items():
            if f.startswith(p):
                text = open(f, encoding="utf-8").read()
                for a, b in t.items():
                    text = re.sub(r"(?<![\w.'-])" + re.escape(a) + r"(?![\w'-])", b, text)
                open(f, "w", encoding="utf-8").write(text)
    own, labels, theirs = declared(antt)
    texts = {f: open(f, encoding="utf-8").read() for f in antt}
    new = wanted(own, labels, theirs, texts)
    for f, text in texts.items():
        open(f, "w", encoding="utf-8").write(turned(text, new, labels, theirs[f]))
    for f in sorted(glob.glob("crates/*/src/**/*.rt", recursive=True)):
        text = open(f, encoding="utf-8").read()
        open(f, "w", encoding="utf-8").write(turned(text, new, labels, set(), rust=True))
    for f in sorted(glob.glob("crates/*/must-fail/*.edit")):
        out, rust = [], True
        for line in open(f, encoding="utf-8").read().split("\n"):
            if line.startswith("file: "):
                rust = line.endswith(".rt")
            elif re.match(r"(old|new):", line) and not rust:
                line = line[:4] + turned(line[4:], new, labels, set())
            elif line.startswith("# promise ") or line.startswith("# specs "):
                line = re.sub(r"^(# \w+ )([^\s:()]+)", lambda m: m.group(1) + new.get(m.group(2), m.group(2)), line)
            out.append(line)
        open(f, "w", encoding="utf-8").write("\n".join(out))
    for f in ["README.md", "CHANGELOG.md"] + sorted(glob.glob("docs/**/*.md", recursive=True)):
        text = open(f, encoding="utf-8").read()
        open(f, "w", encoding="utf-8").write(re.sub(r"`([^`\s]+)`", lambda m: "`" + ".".join(new.get(p, p) for p in m.group(1).split(".")) + "`", text))
    if "--list" in sys.argv:
        for n, m in sorted(new.items()):
            print(n, m)


if __name__ == "__main__":
    main()
