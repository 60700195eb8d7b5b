#!/usr/bin/env python3
"""Brings the repository's own names to today's spelling, once, after the kit's port.py and before anything is mended.

Definitions, record fields and lemmas of specs/ and proofs/: words in lower camel case become snake case, and a dash stays only between two
names that are themselves defined. Names that Rattle makes (goals, steps) keep the spelling of the source inside each part, so the
dashes of an old step's name become underscores where the source has one name. Functions of src/ keep their names.

Usage: python3 tools/respell.py [--dry]      at the top of the repository
"""
import glob
import os
import re
import sys

TOKEN = re.compile(r"[^\W\d][\w'\-]*")
DEFINED = re.compile(r"^\s*(?:pub )?(?:abbrev |unfoldable )?(?:pub )?((?:[^\W\d][\w'\-]*)(?: [^\W\d][\w'\-]*)*) :(?= |$)(.*)$", re.M)
KEPT = {"ofBits", "toBits", "isNan"}
# names whose plain respelling is a word of the kit's or says too little
CHOSEN = {"isOk": "answered_ok", "from-le-16": "from_le_16", "from-le-32": "from_le_32", "from-le-64": "from_le_64"}


def read(path):
    with open(path, encoding="utf-8") as f:
        return f.read()


def bare(text):
    return re.sub(r"--[^\n]*", "", text)


def snake(word):
    return re.sub(r"(?<=[a-z0-9])([A-Z])", lambda m: "_" + m.group(1).lower(), word)


def is_camel(word):
    return re.match(r"[a-z][a-z0-9]*(?:[A-Z][a-z0-9]*)+'*$", word) is not None


def imported(text):
    """Names that a file takes from the kit's own libraries."""
    names = set()
    for m in re.finditer(r"^(?:ghost )?use (\S+?)\.\{([^}]*)\}", text, re.M):
        if m.group(1).startswith(("Rattle.std", "borrow", "denote", "prog", "logic", "lib", "Prim", "mathlib", "antt")):
            names |= {n.strip() for n in m.group(2).split(",")}
    return names


def is_walk(path):
    return os.path.basename(path) in ("Answers.antt", "Invariants.antt", "Proof.antt")


def main():
    dry = "--dry" in sys.argv
    antt = sorted(glob.glob("crates/*/specs/**/*.antt", recursive=True) + glob.glob("crates/*/proofs/**/*.antt", recursive=True))
    antt = [p for p in antt if "/out/" not in p]
    rust = sorted(glob.glob("crates/*/src/**/*.rt", recursive=True))
    texts = {p: read(p) for p in antt + rust}
    kit, spec_names, lemma_names, fields = set(), set(), set(), set()
    for p in antt:
        t = bare(texts[p])
        kit |= imported(texts[p])
        in_record = False
        for line in t.split("\n"):
            m = DEFINED.match(line)
            if m:
                if is_walk(p) and m.group(2).strip().startswith("goal."):
                    continue
                for n in m.group(1).split():
                    if n in ("pub", "abbrev", "unfoldable", "record", "data", "ghost"):
                        continue
                    (spec_names if "/specs/" in p else lemma_names).add(n)
                    if in_record:
                        fields.add(n)
            if re.match(r"^\s*(pub )?record \S+.*where\s*$", line) or re.match(r"^\s*(pub )?record ", line):
                in_record = True
            elif line.strip() == "" or re.match(r"^\S", line):
                in_record = False if not re.match(r"^\s*(pub )?record ", line) else True
    # every word in use, to see which new names would fall together with an old one
    used = set()
    for p, t in texts.items():
        used |= set(TOKEN.findall(bare(t) if p.endswith(".antt") else t))
    names = spec_names | lemma_names
    words = {snake(n) for n in names if "-" not in n} | {n for n in kit if "-" not in n}
    camel = {n: snake(n) for n in used if is_camel(n) and n not in KEPT and n not in kit}
    dashed = {}
    for n in names:
        if "-" not in n or n in kit:
            continue
        parts = [snake(q) for q in n.split("-")]
        new = parts[0]
        for i in range(1, len(parts)):
            two = parts[i - 1] in words and parts[i] in words and n not in fields
            new += ("-" if two else "_") + parts[i]
        if "-" in new and new.replace("-", "_") in words:
            new = new.replace("-", "_") + "_lem"
        dashed[n] = CHOSEN.get(n, new)
    table, said = {}, []
    rust_fns = set()
    rust_words = set()
    for p in rust:
        rust_fns |= set(re.findall(r"\bfn ([a-z_0-9]+)", texts[p]))
        code = re.sub(r"(?:requires|ensures\*?|ghost)\b[^{;]*\{[^}]*\}", "", texts[p])
        rust_words |= set(re.findall(r"\b[a-z_][a-z_0-9]*\b", re.sub(r"//[^\n]*", "", code)))
    taken = (used | kit) - set(camel) - set(dashed)
    for n, new in sorted(camel.items()):
        new = CHOSEN.get(n, new)
        if new in taken:
            where = "a function of src/" if new in rust_fns else "a word of src/" if new in rust_words else f"a lemma, now {new}_lem"
            said.append(f"falls together: {n} -> {new} ({where})")
            if where.startswith("a lemma"):
                table[new] = new + "_lem"
        table[n] = new
    news = set(table.values())
    for n, new in sorted(dashed.items()):
        while new != n and (new in taken or new in news):
            said.append(f"falls together: {n} -> {new}, so {new}_lem")
            new += "_lem"
        table[n] = new
        news.add(new)
    table = {a: b for a, b in table.items() if a != b}
    for s in said:
        print(s)
    # names that Rattle makes: a part of a name keeps the source's spelling
    source = set()
    for p in rust:
        source |= set(re.findall(r"\b[A-Za-z][A-Za-z0-9]*(?:_[A-Za-z0-9]+)+\b", texts[p]))
    source |= {"in_ok", "in_err", "in_default", "type_inv", "well_formed", "from_residual"}
    source |= {f"overflow_{op}" for op in ("add", "sub", "mul", "shl", "shr", "cast", "step")}
    source |= {"slice_bounds", "offset_bounds", "nonzero_div", "nonzero_rem"}
    by_dash = {s.replace("_", "-"): s for s in source}
    longest = sorted(by_dash, key=len, reverse=True)
    parts = re.compile(r"(?<![\w])(?:" + "|".join(map(re.escape, longest)) + r")(?![\w])")
    changed = 0
    for p, t in texts.items():
        walk = p.endswith(".antt") and is_walk(p)
        own_imports = imported(t)

        def one(m):
            w = m.group(0)
            before = t[m.start() - 1] if m.start() else ""
            if w in own_imports and before != ".":
                return w
            if w in table:
                made = walk and before == "." and w not in fields and re.search(r"[\w'\-]*$", t[: m.start() - 1]).group(0)[:1].islower()
                if not made:
                    return table[w]
            if walk and "-" in w and w not in kit:
                return parts.sub(lambda q: by_dash[q.group(0)], w)
            return w

        if p.endswith(".rt"):
            code = lambda m: table[m.group(0)] if m.group(0) in table and (is_camel(m.group(0)) or "-" in m.group(0)) else m.group(0)
            new = TOKEN.sub(code, t)
        else:
            new = TOKEN.sub(one, t)
        if new != t:
            changed += 1
            if not dry:
                with open(p, "w", encoding="utf-8") as f:
                    f.write(new)
    print(f"respell: {len(table)} names, {changed} files")


if __name__ == "__main__":
    main()
