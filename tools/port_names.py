#!/usr/bin/env python3
"""Brings this repository's own names to the spelling of today's Rattle. It is of use once, on what stood before docs/PORT.md.

usage: python3 tools/port_names.py before       at the top of the repository, before port.py: one bound variable gets another name,
                                                since port.py takes it for a name that is spelled anew already
       python3 tools/port_names.py after [KIT]  after port.py: definitions, lemmas and fields of specs/ and proofs/ go from camel
                                                case and dashes to snake case; KIT is the toolchain's folder, /opt/rattle by default

It lists the names that specs/ and proofs/ declare, and gives them as rows to the toolchain's own script for such names, which
leaves a name as it is where two would fall together. What Rattle makes for proofs keeps its spelling.
"""
import os
import re
import shutil
import subprocess
import sys
import tempfile

KIT = sys.argv[2] if len(sys.argv) > 2 else "/opt/rattle"
SNAKE = "2026-11-18-names-are-in-snake-case"
WORD = r'[^\s(){}.;,@"«»\[\]\\:]+'
MODES = r"(?:(?:abbrev|unfoldable|pub|mutual)\s+)*"
# What Rattle makes for proofs, which a file may declare for itself.
MADE = re.compile(
    r".*-requires(-\d+)?$|(After|Need|At|Then|Else|Inv|In|Arm|Inside|Open|Ran)-|μ|returns-|loop-|(invariant|decreases|measure)-|.*-(init|preserved)$|(overflow|nonzero|offset|slice)-"
)


def declared(text):
    text = re.sub(r"--[^\n]*", "", text)
    for line in text.split("\n"):
        yield from re.findall(rf"^\s*{MODES}({WORD})\s+(?:\{{[^{{}}]*\}}\s*)*:(?=\s)", line)
        yield from re.findall(rf"\blet\s+({WORD})\s*[:=]", line)
        for names in re.findall(r"[({]([^(){}:]+?) : ", line):
            yield from names.split()
        for names in re.findall(r"λ\s*([^.]*)\.(?=\s)", line):
            yield from re.findall(WORD, re.sub(r":[^()]*", "", names))


def lent(text, own):
    """The names that a file takes from a library of the toolchain."""
    for crate, names in re.findall(r"\buse (?:Rattle\.)?([^\s.{;]+)[^\s{;]*\{([^}]*)\}", text):
        if crate not in own:
            yield from (it.split(" as ")[0].strip() for it in names.split(","))


def is_odd(name):
    return name[0].isalpha() and not MADE.match(name) and bool(re.search(r"\w-\w", name) or re.match(r"[a-z]\w*[A-Z]", name))


def in_snake_case(name):
    return re.sub(r"(?<=[a-z0-9])[A-Z]", lambda m: "_" + m[0].lower(), name).replace("-", "_")


# The names that would fall together with another: a file, the name in it, and what it becomes first.
APART = [
    ("crates/quote/proofs/weigh/Proof.antt", "goes_on", "goes_onward"),
    ("crates/old_days/proofs/Jobs.antt", "first_store", "first_store_under"),
]
# What the toolchain's script leaves, since a crate, or a lemma that now has another name, is called so.
LAST = {"goesOn": "goes_on", "firstStore": "first_store", "dayJobs": "jobs_of_day"}


def rewrite(path, old, new):
    with open(path, encoding="utf-8") as it:
        text = it.read()
    turned = re.sub(rf"(?<![\w'-]){old}(?![\w'-])", new, text)
    if turned != text:
        with open(path, "w", encoding="utf-8") as it:
            it.write(turned)


def before():
    rewrite("crates/day_file/proofs/spans_ok/Proof.antt", "code_at", "base")


def texts():
    for folder, folders, files in os.walk("crates"):
        folders[:] = [it for it in folders if it != "out"]
        yield from (os.path.join(folder, it) for it in files if it.endswith((".rt", ".antt")))


def after():
    for path, old, new in APART:
        rewrite(path, old, new)
    respell()
    for path in texts():
        for old, new in LAST.items():
            rewrite(path, old, new)


def respell():
    rows, theirs, own = set(), set(), os.listdir("crates")
    for path in texts():
        with open(path, encoding="utf-8") as it:
            text = it.read()
        theirs.update(lent(text, own))
        if path.endswith(".antt") and os.path.basename(path) not in ("Answers.antt", "Invariants.antt"):
            rows.update(it for it in declared(text) if is_odd(it))
    rows -= theirs
    aside = tempfile.mkdtemp(prefix="port-names-")
    try:
        notes = os.path.join(aside, "rattle", "docs", "notes")
        shutil.copytree(os.path.join(KIT, "port", "notes"), notes)
        os.makedirs(os.path.join(aside, "rattle", "std"), exist_ok=True)
        with open(os.path.join(notes, SNAKE, "snake.tsv"), "w", encoding="utf-8") as table:
            for row in sorted(rows):
                table.write(f"{row}\t{in_snake_case(row)}\n")
        turn = [sys.executable, os.path.join(notes, SNAKE, "turn_snake.py"), "crates"]
        subprocess.run(turn, check=True)
    finally:
        shutil.rmtree(aside)


if len(sys.argv) < 2 or sys.argv[1] not in ("before", "after"):
    raise SystemExit(__doc__)
before() if sys.argv[1] == "before" else after()
