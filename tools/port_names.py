#!/usr/bin/env python3
"""Brings the repository's own antt names to today's spelling: run once, at the top, right after port.py; docs/PORT.md says why.

Definitions and fields are in snake case, as `held_count`. A lemma's plain words are joined by `_`; a dash stays where both
sides are names in the lemma's own statement, as in `length-read_rows`. A type's name has no dash, as `BeginKept`. A lemma
that would have a definition's name gets `_lem`. Functions of src/, exported names, strings and inputs keep theirs.
It prints the table of names that changed.
"""
import collections
import glob
import os
import re
import sys

NAME = r"[A-Za-z_κ][A-Za-z0-9_'₀-₉-]*"
TOKEN = re.compile(NAME)
SIGNATURE = re.compile(r"^(\s*)(?:(?:abbrev|unfoldable|pub|private|opaque)\s+)*(" + NAME + r")(?:\s+[A-Za-z_][\w'-]*)?\s*:\s(.*)")
# Names of proofs that the port's converter turns, since the check makes the goals' names.
GOALS = "/Proof.antt"
# A word of the older library in our names, as LANDED has it and as port.py leaves it, and today's.
LIBRARY = {"getD": "get_or", "get_d": "get_or"}


def antt_files():
    return sorted(glob.glob("crates/*/specs/**/*.antt", recursive=True) + glob.glob("crates/*/proofs/**/*.antt", recursive=True))


def text_of(path):
    with open(path, encoding="utf-8") as f:
        return f.read()


def snake(name):
    name = re.sub(r"([a-z0-9])([A-Z])", r"\1_\2", name)
    return re.sub(r"([A-Z])([A-Z][a-z])", r"\1_\2", name).lower()


def definitions():
    """Each name with the files that define it, and with the words of its statements."""
    files, words = collections.defaultdict(set), collections.defaultdict(set)
    for path in antt_files():
        lines = text_of(path).split("\n")
        for i, line in enumerate(lines):
            m = SIGNATURE.match(line)
            if not m:
                continue
            name, indent = m.group(2), len(m.group(1))
            files[name].add(path)
            statement = [m.group(3)]
            for more in lines[i + 1 :]:
                if more.strip() and len(more) - len(more.lstrip()) <= indent:
                    break
                if re.match(r"\s*(unfolding|where)\b", more):
                    break
                statement.append(more)
            words[name] |= set(TOKEN.findall("\n".join(statement)))
    return files, words


def is_lower_camel(name):
    return re.match(r"^[a-z][a-z0-9_'-]*[A-Z]", name) is not None


def camel_name(name):
    return "-".join(snake(p) for p in name.split("-"))


def library_word(name):
    """The name with today's word of the library, a name of its own between dashes."""
    for old, new in LIBRARY.items():
        name = re.sub(rf"^{old}[_-]", f"{new}-", name)
        name = re.sub(rf"[_-]{old}$", f"-{new}", name)
    return name


def dashed_name(name, words):
    parts = name.split("-")
    out = parts[0] if parts[0][:1].isupper() else snake(parts[0])
    for left, right in zip(parts, parts[1:]):
        both = left in words and right in words
        upper = left[:1].isupper()
        out += ("-" if both or upper else "_") + snake(right)
    return out


def type_name(name):
    first, *rest = name.split("-")
    return first + "".join(p[:1].upper() + p[1:] for p in rest)


def table():
    files, words = definitions()
    names = {}
    for name in files:
        if name.endswith("-spec"):
            names[name] = name.replace("-", "_")
        elif library_word(name) != name:
            names[name] = library_word(name)
        elif all(f.endswith(GOALS) for f in files[name]):
            if is_lower_camel(name) and "-" not in name:
                names[name] = camel_name(name)
        elif "-" in name:
            is_type = name[:1].isupper() and "Type" in words[name]
            names[name] = type_name(name) if is_type else dashed_name(name, words[name])
        elif is_lower_camel(name):
            names[name] = camel_name(name)
    by_new = collections.defaultdict(set)
    for name in files:
        by_new[names.get(name, name)].add(name)
    for new, olds in by_new.items():
        if len(olds) < 2 or new.endswith("_spec"):
            continue
        specs = [o for o in sorted(olds) if any("/specs/" in f for f in files[o])] or [o for o in sorted(olds) if is_lower_camel(o)]
        keeper = specs[0] if specs else sorted(olds)[0]
        for old in olds - {keeper}:
            names[old] = new + "_lem"
    names = {a: b for a, b in names.items() if a != b}
    snakes = {a: files[a] for a in names if "-" not in a and not is_lower_camel(a)}
    return names, snakes


def turned(text, names):
    def new(m):
        to = names.get(m.group(0), m.group(0))
        # After a dot stands a step of the code or a field, which is no lemma's name.
        return m.group(0) if to.endswith("_lem") and text[m.start() - 1 : m.start()] == "." else to

    return TOKEN.sub(new, text)


def module_of(path):
    return "Rattle." + path.removeprefix("crates/").removesuffix(".antt").replace("/", ".")


def names_in(path, text, names, snakes):
    """The table for one file: a name that was in snake case before is turned where it is defined or imported alone."""
    mine = dict(names)
    for name, files in snakes.items():
        imports = (re.search(r"use " + re.escape(module_of(f)) + r"\.\{[^}]*(?<![\w-])" + re.escape(name) + r"(?![\w-])", text) for f in files)
        if path not in files and not any(imports):
            del mine[name]
    return mine


def outside_strings(text, names):
    return "".join(p if p.startswith('"') else turned(p, names) for p in re.split(r'("(?:[^"\\\n]|\\.)*")', text))


def in_code_marks(text, names):
    return re.sub(r"`[^`\n]+`", lambda m: turned(m.group(0), names), text)


def write(path, text):
    if text != text_of(path):
        with open(path, "w", encoding="utf-8") as f:
            f.write(text)


def main():
    if os.path.exists("docs/PORT.md"):
        return "port_names.py: docs/PORT.md is there, so it ran already; a second run would turn names that the check makes"
    names, snakes = table()
    for path in antt_files():
        text = text_of(path)
        write(path, turned(text, names_in(path, text, names, snakes)))
    everywhere = {a: b for a, b in names.items() if a not in snakes}
    for path in sorted(glob.glob("crates/*/src/**/*.rt", recursive=True)):
        write(path, outside_strings(text_of(path), everywhere))
    for path in sorted(glob.glob("crates/*/must-fail/*.edit")):
        write(path, turned(text_of(path), everywhere))
    for path in sorted(["README.md", *glob.glob("docs/**/*.md", recursive=True), *glob.glob("host/**/*.md", recursive=True), *glob.glob("papers/**/*.md", recursive=True)]):
        if not path.startswith("docs/PORT"):
            write(path, in_code_marks(text_of(path), everywhere))
    for old, new in sorted(names.items()):
        print(f"{old}\t{new}")


if __name__ == "__main__":
    sys.exit(main())
