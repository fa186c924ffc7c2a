#!/usr/bin/env python3
"""Spells the repository's own definitions and lemmas as Rattle spells its own: words in snake case, a prime as an apostrophe.

usage: python3 tools/respell.py        (once, at the top of the repository, right after Rattle's port.py)

It goes by whole words. A name of a definition or a lemma that is in camel case is put in snake case: in specs/, in proofs/, in what
src/ says to the prover, in must-fail/ and in the pages of docs/. A lemma whose parts are joined by dashes keeps a dash only between two
names of definitions. Functions of src/, types, modules, C names and strings keep theirs.
"""
import collections
import glob
import re
import sys

CAMEL = re.compile(r"(?<![\w'’-])([a-z][A-Za-z0-9]*[A-Z][A-Za-z0-9]*)(?![\w'-])")
DEFINED = re.compile(
    r"^[ \t]*(?:abbrev |unfoldable |pub |private |instance )*([^\W\d_][\w'-]*)(?: [^\W\d_][\w']*)* ?:(?!:)", re.M
)
USE = re.compile(r"^\s*(?:pub )?use ([^\s{;]+?)(?:\.\{([^}]*)\})?(?: as .*)?$", re.M)
TIED = re.compile(r"^[ \t]*(?:abbrev |pub )*([\w'-]+) : tie\.", re.M)
# lemmas that Rattle's script has put in snake case, under the name that a definition gets here
LEMMAS = {"is_cut": "is_cut_lem", "no_second": "no_second_lem"}
LEMMAS_OF = {"crates/row_walk/proofs/": {"next_place": "next_place_lem"}}
# names that differ in their spelling alone and never meet in one scope
APART = {
    "first_once", "goes_on", "in_order", "is_down", "next_place", "no_number", "no_place", "none_of", "number_read", "place_at", "stands_at",
}
# words of lists, between which and a definition a dash stays
WORDS = {"length", "take", "drop", "get_or", "set", "map", "append", "replicate"}
# names of Rattle's own, made for each function or word of its logic
KEPT = {"lParams", "aS"}


def snake(name):
    return re.sub(r"([a-z0-9])([A-Z])", r"\1_\2", name).lower()


def own_files():
    return sorted(glob.glob("crates/*/specs/**/*.antt", recursive=True) + glob.glob("crates/*/proofs/**/*.antt", recursive=True))


def read(path):
    with open(path, encoding="utf-8") as f:
        return f.read()


def defined_in(text):
    tied = set(TIED.findall(text))
    return {it for it in DEFINED.findall(text) if it not in tied and not it.endswith("-spec")}


def main():
    crates = {line.split(":")[0].strip() for line in read("crates.txt").splitlines() if ":" in line and not line.startswith("#")}
    texts = {path: read(path) for path in own_files()}
    # what comes from elsewhere keeps its name
    foreign = set(KEPT)
    for text in texts.values():
        for path, names in USE.findall(text):
            parts = path.split(".")
            if not (parts[0] == "Rattle" and len(parts) > 1 and parts[1] in crates):
                foreign.update(re.split(r"[,\s]+| as ", names or ""))
                foreign.add(parts[-1])
    own = set()
    for text in texts.values():
        own |= defined_in(text)
    table = {}
    for text in texts.values():
        for name in CAMEL.findall(text):
            if name not in foreign:
                table[name] = snake(name)
    definitions = {snake(it) for path, text in texts.items() if "/specs/" in path for it in defined_in(text) if "-" not in it}
    words = definitions | WORDS
    named = set(table.values()) | definitions
    for name in sorted(own):
        if "-" not in name or name in foreign or name[0].isupper():
            continue
        parts = [snake(it) for it in name.split("-")]
        joins = len(parts) == 2 and parts[0] in words and parts[1] in words
        table[name] = "-".join(parts) if joins else "_".join(parts)
        # a lemma that would have its function's name
        if table[name] in named:
            table[name] += "_lem"
    table |= LEMMAS
    # names that fall together
    taken = collections.defaultdict(list)
    for old, new in table.items():
        taken[new].append(old)
    bad = False
    for new, olds in sorted(taken.items()):
        if new in own and new not in table and any(o != new for o in olds):
            olds = [*olds, new]
        if len(olds) > 1 and new not in APART:
            print(f"falls together: {', '.join(sorted(olds))} as {new}")
            bad = True
    if "--table" in sys.argv:
        for old in sorted(table):
            if old != table[old]:
                print(f"{old}\t{table[old]}")
        return
    if bad and "--force" not in sys.argv:
        sys.exit("nothing was written")
    dashed = {old for old in table if "-" in old and old != table[old]}
    word = re.compile(r"(?<![\w'’-])[^\W\d_][\w'’-]*")

    def turn(text, all_dashes, more={}):
        def one(m):
            name = m.group(0)
            tail = ""
            while name and name[-1] in "'’-":
                tail = name[-1] + tail
                name = name[:-1]
            if (name in dashed or name in LEMMAS) and not all_dashes:
                return m.group(0)
            new = more.get(name, table.get(name))
            return m.group(0) if new is None else new + tail

        return word.sub(one, text)

    for path in [*texts, *sorted(glob.glob("crates/*/src/**/*.rt", recursive=True)), *sorted(glob.glob("crates/*/must-fail/*.edit"))]:
        text = read(path)
        more = next((names for front, names in LEMMAS_OF.items() if path.startswith(front)), {})
        new = turn(text, path.endswith(".antt"), more) if path.endswith(".antt") else turn(text, False)
        if path.endswith((".rt", ".edit")):
            new = re.sub(r"(ghost use [^;]*;)", lambda m: turn(m.group(1), True), new)
        # a prime
        new = new.replace("′", "'")
        if new != text:
            with open(path, "w", encoding="utf-8") as f:
                f.write(new)
    spelled = {snake(it) for it in own} | set(table.values())

    # edits, which keep the names that Rattle's script has put in snake case elsewhere
    def known(text):
        return CAMEL.sub(lambda m: snake(m.group(1)) if m.group(1) not in foreign and snake(m.group(1)) in spelled else m.group(1), text)

    for path in sorted(glob.glob("crates/*/must-fail/*.edit")):
        text = read(path)
        new = known(text)
        if new != text:
            with open(path, "w", encoding="utf-8") as f:
                f.write(new)

    # pages: a name in backticks, or one in camel case

    def page(text):
        def tick(m):
            return "`" + turn(m.group(1), True) + "`"

        text = re.sub(r"`([^`\n]+)`", tick, text)

        return known(text)

    for path in [*sorted(glob.glob("docs/**/*.md", recursive=True)), "README.md"]:
        text = read(path)
        new = page(text)
        if new != text:
            with open(path, "w", encoding="utf-8") as f:
                f.write(new)


main()
