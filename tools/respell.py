#!/usr/bin/env python3
"""Spells the repository's own definitions, lemmas and fields in snake case, once, after the move to today's Rattle.

usage: python3 tools/respell.py          in the repository: prints each renaming, then rewrites the files in place
       python3 tools/respell.py --list   prints the renamings and what falls together, and writes nothing

A name that specs/ or proofs/ declares loses capitals within it and dashes: halfPower, roots-right become half_power,
roots_right. Types, facts, modules, operators and the constants that begin with # keep their names, as do functions
of src/, exported names and strings. Where two names would fall together, the lemma gets _lem.
"""
import collections
import glob
import re
import sys

W = r"[^\s(){}.;,@\"«»\[\]\\]+"
TOKEN = re.compile(W)
DECLARED = re.compile(
    r"(?m)^( *)((?:unfoldable |abbrev |pub |axiom |data |record |ruleset )*)([^\s(){}.;,@\"«»\[\]\\:]+) ?((?:[({][^\n]*?[)}] ?)*) ?(?::|=)(?= |$)"
)
PLACES = re.compile(r"tie\.|statement M|Statement")


def read(path):
    with open(path, encoding="utf-8") as it:
        return it.read()


def files(*patterns):
    return sorted(p for one in patterns for p in glob.glob(one, recursive=True) if "/out/" not in p)


SPECS = files("crates/*/specs/**/*.antt")
LEMMAS = [p for p in files("crates/*/proofs/**/*.antt") if not p.endswith("/Proof.antt")]
WALKS = files("crates/*/proofs/**/Proof.antt")
SOURCES = files("crates/*/src/**/*.rt")
EDITS = files("crates/*/must-fail/*.edit")
PAGES = files("README.md", "docs/*.md", "tests/README.md", "examples/README.md", "bench/*.md")


def snake(name):
    words = re.sub(r"(?<=[a-z0-9])[A-Z]", lambda m: "_" + m[0].lower(), name)
    words = re.sub(r"^[A-Z](?=-)", lambda m: m[0].lower(), words)
    return words.replace("-", "_")


def is_own_style(name):
    return name[0] == "#" or "◌" in name or re.match(r"[A-Z][a-z]", name) is not None


def declared(path):
    text = re.sub(r"--[^\n]*", "", read(path))
    for m in DECLARED.finditer(text):
        indent, words, name, _ = m.groups()
        if name in ("where", "let", "in", "module", "use", "λ", "elim", "→", "×", "="):
            continue
        yield name, len(indent), words


def table():
    names, fields, where = set(), set(), collections.defaultdict(set)
    all_names = set()
    for path in SPECS + LEMMAS:
        for name, indent, words in declared(path):
            all_names.add(name)
            where[name].add(path)
            if not is_own_style(name) and snake(name) != name:
                (fields if indent else names).add(name)
    new, taken = {}, {n: n for n in all_names if snake(n) == n}
    together = []
    tokens = {p: set(TOKEN.findall(read(p))) for p in SPECS + LEMMAS + WALKS + SOURCES}
    met = lambda a, b: any(a in it and b in it for it in tokens.values())
    # definitions first, so that of two that meet in a file the lemma gives way
    order = sorted(names | fields, key=lambda n: (not re.search(r"[a-z0-9][A-Z]", n) or "-" in n, n))
    for name in order:
        to = snake(name)
        other = taken.get(to)
        if other is not None and met(name, other):
            if is_a_lemma(other) and not is_a_lemma(name):
                new[other] = to + "_lem"
            else:
                to += "_lem"
            together.append((name, other, new.get(other, other), to))
        taken[to] = name
        new[name] = to
        if any(to in it and name in it for it in tokens.values()) and not other:
            print(f"a file has both already: {name}, {to}")
    return new, fields, names, together


def is_a_lemma(name):
    """Declared in proofs/ alone."""
    return not any(name == it for path in SPECS for it, _, _ in declared(path))


def local(path, new):
    """The helpers of a walk, which only that file names."""
    out = {}
    text = read(path)
    for m in re.finditer(r"(?m)^(?:abbrev )?([^\s(){}.;,@\"«»\[\]\\:]+) :((?:[^\n]*\n)(?: +[^\n]*\n)*)", text):
        name, sig = m.groups()
        if re.search(r"^ tie\.", sig) or name in new or is_own_style(name):
            continue
        to = snake(name)
        if to != name:
            out[name] = to
    return out


def rust_words():
    words = set()
    for path in SOURCES:
        for w in re.findall(r"\b[a-z]\w*_\w*\b", re.sub(r"//[^\n]*|ghost use[^\n]*", "", read(path))):
            words.add(w)
    return words


def main(argv):
    new, fields, names, together = table()
    rust = rust_words()
    dashed_rust = {w.replace("_", "-") for w in rust}
    for old, to in sorted(new.items()):
        print(f"{old} -> {to}")
    for old, other, then, to in together:
        print(f"falls together: {old} and {other}, so {to} and {then}")
    clash = sorted(n for n in fields if n in dashed_rust)
    for n in clash:
        print(f"field spelled as a name of src/: {n}")
    if "--list" in argv:
        return 0

    def turned(text, more, in_source=False):
        def one(m):
            word, at = m[0], m.start()
            to = more.get(word) or new.get(word)
            if to is None:
                return word
            before = text[max(0, at - 60) : at]
            if "-" in word and in_source:
                return word
            if before.endswith("."):
                head = re.search(r"([^\s(){}.;,@]+)\.$", before)
                in_module = head is not None and re.match(r"[A-Z]", head[1]) is not None
                if "-" in word and not in_module and (word not in fields or word in clash):
                    return word
            line = text[text.rfind("\n", 0, at) + 1 : at]
            if "--" in line and re.search(r"(^|\s)--(\s|$)", line) and "-" in word and not line.endswith("`"):
                return word
            return to

        return TOKEN.sub(one, text)

    for path in SPECS + LEMMAS:
        write(path, turned(read(path), {}))
    for path in WALKS:
        write(path, turned(read(path), local(path, new)))
    # code has no such names: what a comment or a clause cites has capitals
    for path in SOURCES + EDITS:
        write(path, turned(read(path), {}, in_source=True))
    for path in PAGES:
        text = read(path)
        write(path, re.sub(r"`([^`\n]+)`", lambda m: "`" + TOKEN.sub(lambda w: new.get(w[0], w[0]), m[1]) + "`", text))
    return 0


def write(path, text):
    if read(path) != text:
        with open(path, "w", encoding="utf-8") as it:
            it.write(text)


if __name__ == "__main__":
    sys.exit(main(sys.argv[1:]))
