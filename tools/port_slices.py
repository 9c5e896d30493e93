#!/usr/bin/env python3
"""Turns contracts from lent slices to their words: run once, at the top, after port_names.py. docs/PORT.md says why.

A definition of specs/ took a slice, that is its words at the call's start and at its end. Now it takes words, and the clause says which: `x.old` and
`x.new` of a `&mut`, `x.now` of a `&`. It rewrites src/ alone; the definitions themselves are written by hand.
"""
import glob
import os
import re
import sys

# Each word with how many arguments it takes, and the word over lists that stands for it.
WORDS = {
    "rows_in": (1, "read_rows"),
    "store_in": (1, "store_of"),
    "store_out": (1, "store_of"),
    "bus_in": (1, "bus_of"),
    "bus_out": (1, "bus_of"),
    "memory_in": (2, "memory_of"),
    "memory_out": (2, "memory_of"),
    "lent_in": (3, "lent_of"),
    "lent_out": (3, "lent_of"),
    "session_in": (1, "read_session"),
    "buffers_in": (6, "buffers_of"),
    "buffers_out": (6, "buffers_of"),
    "told_out": (2, "told_of"),
    "lists_in": (4, "reply_lists"),
}
# Facts of a call: a lent `&mut` gives its words before and after, a `&` its words.
FACTS = {"MarksMemory": 5, "MarksRows": 4, "StepsRows": 4, "ReadsMemory": 5, "RunsMemory": 6, "WritesRows": 4, "WritesAnswer": 5, "PlacesSlot": 3, "PlacesSlots": 2}
WORLD = "world_in"
MODULES = {
    "read_rows": "Rattle.rows.specs.Table",
    "store_of": "Rattle.rows.specs.Store",
    "bus_of": "Rattle.bus.specs.Tables",
    "memory_of": "Rattle.session.specs.Lent",
    "lent_of": "Rattle.session.specs.Lent",
    "read_session": "Rattle.session_words.specs.State",
    "buffers_of": "Rattle.dispatch.specs.Slices",
    "told_of": "Rattle.direct.specs.Replies",
    "reply_lists": "Rattle.recovery.specs.RecoveryReply",
    "world": "Rattle.calls.specs.Step",
}
CITED = re.compile(r"(?<![\w.])(" + "|".join([*WORDS, *FACTS, WORLD]) + r")(?!\w)")
FUNCTION = re.compile(r"fn (\w+)(?:<[^>]*>)?\(([^)]*)\)((?:(?!\n\}).)*?)\n\s*\{\n", re.S)


def arguments(text, at, count):
    """The places of so many arguments from `at` on: names, or what stands in parentheses."""
    out = []
    while len(out) < count:
        at = re.compile(r"\s+").match(text, at).end()
        if text[at] != "(":
            end = re.compile(r"[\w'.]+").match(text, at).end()
        else:
            end, depth = at, 0
            while end == at or depth:
                depth += {"(": 1, ")": -1}.get(text[end], 0)
                end += 1
        out.append((at, end))
        at = end
    return out


def over_words(clauses, types, needed):
    at = 0
    while m := CITED.search(clauses, at):
        word = m.group(1)
        count = 4 if word == WORLD else FACTS.get(word) or WORDS[word][0]
        places = arguments(clauses, m.end(), count)
        given = [clauses[a:b] for a, b in places]

        def state(name, side):
            return name + ("." + side if types[name].startswith("&mut") else ".now")

        if word in FACTS:
            lent = [x for x in given if types.get(x, "").startswith("&")]
            both = {x: f"{x}.old {x}.new" if types[x].startswith("&mut") else f"{x}.now" for x in lent}
            new = " ".join([word, *(both.get(x, x) for x in given)])
        elif word == WORLD:
            new = f"world {given[0]} (lent_of {' '.join(state(x, 'old') for x in given[1:])})"
            needed |= {"world", "lent_of"}
        else:
            side = "new" if word.endswith("_out") else "old"
            new = " ".join([WORDS[word][1], *(state(x, side) for x in given)])
            needed.add(WORDS[word][1])
        clauses = clauses[: m.start()] + new + clauses[places[-1][1] :]
        at = m.start() + len(new)
    return clauses


def turned(text):
    needed, out, at = set(), "", 0
    for m in FUNCTION.finditer(text):
        types = {a: b.strip() for a, b in re.findall(r"(\w+)\s*:\s*([^,]+)", m.group(2))}
        out += text[at : m.start(3)] + over_words(m.group(3), types, needed)
        at = m.end(3)
    text = out + text[at:]

    def imports(m):
        names = [x.strip() for x in m.group(2).split(",")]
        names = [x for x in names if x not in WORDS and x != WORLD]
        names += sorted(x for x in needed if MODULES[x] == m.group(1) and x not in names)
        needed.difference_update(names)
        return f"ghost use {m.group(1)}.{{{', '.join(names)}}};" if names else ""

    if not needed:
        return text
    text = re.sub(r"ghost use ([\w.]+)\.\{([^}]*)\};", imports, text)
    lines = "".join(f"ghost use {MODULES[x]}.{{{x}}};\n" for x in sorted(needed))
    end = text.index("\n", text.rindex("ghost use ")) + 1
    text = text[:end] + lines + text[end:]
    return re.sub(r"(ghost use [^\n]*\n)\n+(?=ghost use)", r"\1", text)


if os.path.exists("docs/PORT.md"):
    sys.exit("port_slices.py: docs/PORT.md is there, so it ran already")
for path in sorted(glob.glob("crates/*/src/**/*.rt", recursive=True)):
    with open(path, encoding="utf-8") as f:
        before = f.read()
    after = turned(before)
    if after != before:
        with open(path, "w", encoding="utf-8") as f:
            f.write(after)
