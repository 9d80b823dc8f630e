#!/usr/bin/env python3
"""Spells the repository's own definitions and lemmas in snake case, types in camel case.

usage: spell.py [--check]    at the top of the repository

Reads what specs/ and proofs/ declare (definitions, lemmas, fields, constructors), makes the new spelling of each name that
has a hyphen or a capital inside, and writes it wherever the name stands as a whole word: in .antt and .rt files, in
must-fail edits, and in code spans of README.md and docs/. Labels that the check makes (behind a dot, in a function's own
proof) stay. Local names of lemma files turn too. Prints what it left: names that would fall together with another one.
"""
import collections
import os
import re
import sys

WORD = re.compile(r'[^\s(){}.;,@"«»\[\]⟨⟩⌜⌝|]+')
DECLARED = re.compile(r"(?m)^[ ]*(?:(?:unfoldable|pub|abbrev|data|record|private)\s+)*(" + WORD.pattern + r")((?:\s*[({][^\n]*[)}])?)\s+:(?=\s)([^\n]*)")
HEADED = re.compile(r"(?m)^[ ]*(?:pub\s+)?(?:data|record)\s+(" + WORD.pattern + ")")
SYMBOLS = {"≤": "le", "<": "lt", "≡": "eq", "∷": "cons", "≢": "ne", "+": "add", "++": "append", "[]": "nil", "−": "minus"}


def files(root, ends):
    for folder, dirs, names in os.walk(root):
        dirs[:] = sorted(d for d in dirs if d not in ("out", "target", ".git", "rust"))
        for n in sorted(names):
            if n.endswith(ends):
                yield os.path.join(folder, n)


def is_own_proof(path):
    """A file of one function's proof: its labels are the check's, not ours."""
    return re.search(r"/proofs/(?:[a-z_+0-9]+/)+[A-Za-z]+\.antt$", path) is not None


def snake(name):
    parts = name.split("-")
    parts = [SYMBOLS.get(p, p) for p in parts if p]
    name = "_".join(parts)
    name = re.sub(r"(?<=[a-z0-9])([A-Z])(?![A-Z])", lambda m: "_" + m[1].lower(), name)
    name = re.sub(r"_([A-Z])(?![A-Z])", lambda m: "_" + m[1].lower(), name)
    return name.replace("__", "_")


def camel(name):
    words = re.split(r"[-_]", name)
    return "".join(w[:1].upper() + w[1:] for w in words if w)


def odd(name):
    if not re.search(r"[A-Za-z]", name):
        return False
    return "-" in name.strip("-") or re.match(r"[a-z].*[a-z0-9][A-Z]", name) is not None or re.search(r"_[A-Z][a-z]", name) is not None


def main():
    check = "--check" in sys.argv
    texts = {p: open(p, encoding="utf-8").read() for p in files("crates", (".antt", ".rt", ".edit"))}
    for p, names in LOCALS.items():
        for old, new in names.items():
            texts[p] = re.sub(r"(?<![\w'.-])%s(?![\w'-])" % old, new, texts[p])
        if not check:
            open(p, "w", encoding="utf-8").write(texts[p])
    declared = collections.defaultdict(set)
    types = set()
    for p, t in texts.items():
        if not p.endswith(".antt"):
            continue
        own = is_own_proof(p)
        for m in DECLARED.finditer(t):
            name, said = m[1], m[3]
            if own and re.search(r"\btie\.|\bgoal\.|statement", said):
                continue
            declared[name].add(p)
            if re.search(r"→\s*Type( \d)?\s*$|^\s*Type( \d)?\s*$", said):
                types.add(name)
        for m in HEADED.finditer(t):
            declared[m[1]].add(p)
            types.add(m[1])
        for m in re.finditer(r"(?m)^( *)(?:pub +)?record [^\n]*(?:\n(?!\1\S)[^\n]*)*?where *\n((?:\1 +[^\n]*\n|\n)+)", t):
            for f in re.finditer(r"(?m)^ +(?:pub +)?(" + WORD.pattern + r")(?: +" + WORD.pattern + r")* +:(?=\s)", m[2]):
                fields.add(f[1])
    functions = {f for p, t in texts.items() if p.endswith(".rt") for f in re.findall(r"\bfn (\w+)", t)}
    fields.difference_update({f for f in fields if f.replace("-", "_") in functions})
    imported = set()
    for t in texts.values():
        for m in re.finditer(r"use\s+((?:Prim|lib|borrow|native|mathlib|mir|core|std|Rattle\.(?:std|core))[\w.·]*)\.?\{([^}]*)\}", t):
            imported |= set(WORD.findall(m[2]))
    table = {}
    for name in declared:
        if name in imported or not odd(name):
            continue
        table[name] = camel(name) if name in types else snake(name)
    # Local names of lemma files and clauses: whole words with a hyphen that no kit library gives.
    for p, t in texts.items():
        if not p.endswith(".antt") or is_own_proof(p):
            continue
        code = re.sub(r"--[^\n]*", "", t)
        for m in re.finditer(r"(?<![.\w'])" + WORD.pattern, code):
            w = m[0]
            if re.match(r"^[a-z][a-zA-Z0-9₀-₉]*(-[a-zA-Z0-9₀-₉<≤≡]+|_[A-Z][a-z]+)+$", w) and w not in imported and w not in table and w not in declared:
                table[w] = snake(w)
    # A lemma that would be named as the definition that it is about.
    by_new = collections.defaultdict(set)
    for old, new in table.items():
        by_new[new].add(old)
    for new, olds in by_new.items():
        for old in olds:
            others = {q for q in (olds | {new}) - {old} if q in declared}
            if "-" in old and others:
                table[old] = new + "_law"
    table.update({o: "up_to_more" for o in ("up-to-more", "upTo-more") if o in table})
    # Names that fall together.
    news = collections.defaultdict(set)
    for old, new in table.items():
        news[new].add(old)
    words = {p: set(WORD.findall(re.sub(r"(--|//)[^\n]*", "", t))) for p, t in texts.items()}
    bad = 0
    for new, olds in sorted(news.items()):
        if len(olds) > 1:
            print("two become one:", new, sorted(olds))
            bad += 1
        for old in olds:
            where = [p for p, w in words.items() if old in w and new in w]
            if where:
                print("meets another:", old, "->", new, where[:3], len(where))
                bad += 1
    print(len(declared), "declared,", len(table), "turn,", bad, "to look at")
    if check:
        return
    pattern = re.compile(r"(?<![\w'\-₀-₉])(" + "|".join(sorted((re.escape(o) for o in table), key=len, reverse=True)) + r")(?![\w'\-₀-₉<≤≡∷+])")
    for p, t in texts.items():
        own = is_own_proof(p)

        def turn(m):
            if own and m.start() > 0 and t[m.start() - 1] == "." and not re.search(r"Rattle\.[\w.]*$", t[: m.start()].rsplit("\n", 1)[-1]):
                return m[0] if m[0] not in fields else table[m[0]]
            return table[m[0]]

        new = pattern.sub(turn, t)
        if new != t:
            open(p, "w", encoding="utf-8").write(new)
    for p in [*files("docs", (".md",)), "README.md"]:
        t = open(p, encoding="utf-8").read()
        new = re.sub(r"`[^`\n]*`", lambda s: pattern.sub(lambda m: table[m[0]], s[0]), t)
        if new != t:
            open(p, "w", encoding="utf-8").write(new)


fields = set()
# A local name that would hide a definition once that is spelled anew.
LOCALS = {"crates/blocked/proofs/RowLaws.antt": {"in_cell": "at_cell"}}
if __name__ == "__main__":
    main()
