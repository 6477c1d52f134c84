#!/usr/bin/env python3
"""Respells the repository's own definitions and lemmas: dashes become underscores, and facts and records upper camel case.

usage: python3 tools/respell.py [FOLDER]    FOLDER has crates/; the present folder if none is given

Names are those that files of specs/ and proofs/ declare, fields of records among them. Names of goals that the toolchain
writes keep their spelling, and so do texts in quotes. A name that would fall together with another name in use is told
and stops the run, unless APART or TOGETHER lists it. Run once, on files that port.py has turned and nobody has edited.
"""

import collections
import os
import re
import sys

TOKEN = re.compile(r"[^\s(){}\[\],;.«»⟦⟧⌜⌝\"`]+")
DECLARED = re.compile(r"\s*(?:unfoldable |abbrev )?(?:pub )?([^\s(){}\[\],;.:]+)\s*:(?!=)\s*(.*)")
RECORD = re.compile(r"\s*(?:pub )?(?:record|data)\s+([^\s(){}]+)")

# The plain spelling is another name in the same scope.
APART = {
    "bit-and": "bit-bit_and",
    "bit-or": "bit-bit_or",
    "party-words": "party_words_lem",
}

# The plain spelling is also that of a function, or of the label of a clause, which no clause can mean.
TOGETHER = {
    "labels-only-rise", "look-same", "nobody-learns-above", "nobody-learns-here",
    "query-label", "seconds-label", "seen-record", "view-event", "view-session", "view-table",
}


def files(top):
    for folder, dirs, names in os.walk(os.path.join(top, "crates")):
        dirs[:] = sorted(d for d in dirs if d != "out")
        for name in sorted(names):
            if name.endswith((".rt", ".antt")):
                yield os.path.join(folder, name)


def plain(name):
    if name[0].isupper():
        return "".join(w[:1].upper() + w[1:] for w in name.split("-"))
    return name.replace("-", "_")


def main(top):
    texts = {}
    used = collections.Counter()
    dashed = set()
    for path in files(top):
        with open(path, encoding="utf-8") as f:
            texts[path] = f.read()
        antt = path.endswith(".antt")
        for line in texts[path].split("\n"):
            code = re.sub(r"--.*" if antt else r"//.*", "", line)
            used.update(TOKEN.findall(code))
            if not antt:
                continue
            for pattern in (DECLARED, RECORD):
                m = pattern.match(code)
                if m and "-" in m.group(1) and not (pattern is DECLARED and "goal." in m.group(2)):
                    dashed.add(m.group(1))
    new = {name: APART.get(name, plain(name)) for name in sorted(dashed)}
    bad = [n for n, m in new.items() if m in used and n not in TOGETHER]
    by_new = collections.defaultdict(list)
    for n, m in new.items():
        by_new[m].append(n)
    bad += [n for ns in by_new.values() if len(ns) > 1 for n in ns]
    if bad:
        print("respell: these fall together with other names: " + " ".join(f"{n}->{new[n]}" for n in bad))
        return 1
    changed = 0
    for path, text in texts.items():
        lines = []
        for line in text.split("\n"):
            parts = re.split(r'("(?:[^"\\]|\\.)*")', line) if path.endswith(".rt") else [line]
            lines.append("".join(p if p.startswith('"') else TOKEN.sub(lambda m: new.get(m.group(0), m.group(0)), p) for p in parts))
        after = "\n".join(lines)
        if after != text:
            changed += 1
            with open(path, "w", encoding="utf-8") as f:
                f.write(after)
    print(f"respell: {len(new)} names in {changed} files")
    for n, m in new.items():
        print(f"{n} {m}")
    return 0


if __name__ == "__main__":
    raise SystemExit(main(sys.argv[1] if len(sys.argv) > 1 else "."))
