#!/usr/bin/env python3
"""Spells the repository's own definitions and lemmas as today's Rattle spells names: words in snake case, types in camel case, constants in capitals with underscores.

usage: python3 tools/respell.py            at the top of the repository, after port.py of the kit

    kind-of -> kind_of, eqZ -> eq_z, Kids-left -> KidsLeft, LEAST-STATES -> LEAST_STATES

It turns the names that specs/ and the lemma files of proofs/ declare (with the fields of their records, the constructors of their data and the names that they are imported by), and the names of
the Rust sources that proofs write with dashes (a Rust name keeps its own spelling today). It goes over each .antt file, over the clauses and imports of each
.rt file, and over what the must-fail edits write of these. A name that a file imports from a library stays in that file. Names that fall together are
printed, as are names that stay. A second run changes nothing.
"""
import collections
import glob
import os
import re
import sys

W = r'[^\s(){}.;,@"«»]+'
TOKEN = re.compile(r'"(?:[^"\\\n]|\\.)*"|(?<![^\s(){}.;,@"«»])--[^\n]*|' + W)
DECL = re.compile(r'(?m)^(?:(?:abbrev|pub|unfoldable|data|record|ruleset)\s+)*(' + W + r')(?:\s*\{[^{}\n]*\}|\s*\([^()\n]*\))* :')
SECTION = re.compile(r'(?m)^ +(?:(?:abbrev|pub|unfoldable) )*(' + W + r')(?: \{[^{}\n]*\}| \([^()\n]*\))* :')
MEMBER = re.compile(r'(?m)^  (?:pub )?(' + W + r'(?: ' + W + r')*) :')
ALIAS = re.compile(r'(?<=[\s]as )([a-z]' + W + r')(?=[,}])')
USE = re.compile(r'\buse\s+([^\s;{]+?)\.?(?:\{([^}]*)\})?(?:\s+as\s+\S+)?\s*(?=;|\n|$)')


def new_name(old):
    if re.fullmatch(r"[A-Z][A-Z0-9]*(-[A-Z0-9]+)+", old):
        return old.replace("-", "_")
    if old[0].isupper():
        parts = old.split("-")
        return parts[0] + "".join(p[:1].upper() + p[1:] for p in parts[1:])
    words = re.sub(r"(?<=[a-z0-9])[A-Z]", lambda m: "_" + m[0].lower(), old)
    return words.replace("-", "_")


def plain(name):
    return re.fullmatch(r"[A-Za-z][A-Za-z0-9]*(-[A-Za-z0-9₀-₉']+)*'?|[A-Za-z][A-Za-z0-9-]*[₀-₉]*", name)


def read(p):
    with open(p, encoding="utf-8") as f:
        return f.read()


def code_of(text):
    return re.sub(r'(?m)(?<![^\s(){}.;,@"])--[^\n]*$', "", text)


def antt_files():
    return sorted(glob.glob("crates/*/specs/**/*.antt", recursive=True) + glob.glob("crates/*/proofs/**/*.antt", recursive=True))


def of_function(p):
    return re.match(r"crates/[^/]+/proofs/.+/", p) is not None


def declared():
    names = collections.defaultdict(set)
    for p in antt_files():
        code = code_of(read(p))
        if of_function(p):
            continue
        for m in DECL.finditer(code):
            names[m[1]].add(p)
        for m in SECTION.finditer(code):
            names[m[1]].add(p)
        for it in ALIAS.findall(code):
            names[it].add(p)
        for block in re.finditer(r"(?m)^(?:pub )?(?:record|data) [^\n]*\bwhere\n((?:  [^\n]*\n|\n)+)", code):
            for m in MEMBER.finditer(block[1]):
                for it in m[1].split():
                    names[it].add(p)
    for p in glob.glob("crates/*/src/**/*.rt", recursive=True):
        for line in re.findall(r"ghost use [^;]*;", read(p)):
            for it in ALIAS.findall(line):
                names[it].add(p)
    return names


def rust_names():
    names = set()
    for p in glob.glob("crates/*/src/**/*.rt", recursive=True):
        text = re.sub(r"//[^\n]*", "", read(p))
        names.update(it for it in re.findall(r"(?<![\w-])[a-z]\w*(?![\w-])", text) if "_" in it.strip("_"))
    return names


def table():
    names = declared()
    rows = {}
    for old in names:
        if plain(old) and new_name(old) != old:
            rows[old] = new_name(old)
    own = set(rows)
    for it in rust_names():
        rows.setdefault(it.replace("_", "-"), it)
    return names, rows, own


def is_own(path, crates):
    parts = path.split(".")
    return parts[0] == "Rattle" and len(parts) > 1 and parts[1] in crates


def foreign(text, crates):
    out = set()
    for path, items in USE.findall(text):
        if items and not is_own(path, crates):
            for it in items.split(","):
                it = it.strip().split(" as ")[-1].strip()
                if it:
                    out.add(it)
    return out


def turn(text, rows, stay, comment_words=True):
    def one(m):
        t = m[0]
        if t[0] == '"':
            return t
        if t.startswith("--"):
            return re.sub(r"`([^`\n]+)`", lambda s: "`" + re.sub(W, lambda w: rows.get(w[0], w[0]), s[1]) + "`", t)
        return t if t in stay else rows.get(t, t)

    return TOKEN.sub(one, text)


RT = re.compile(r'//[^\n]*|"(?:\\.|[^"\\])*"|\'(?:\\.|[^\'\\])\'|' + W)


def turn_rt(text, rows, stay):
    def one(m):
        t = m[0]
        if t.startswith("//"):
            return re.sub(r"`([^`\n]+)`", lambda s: "`" + re.sub(W, lambda w: rows.get(w[0], w[0]), s[1]) + "`", t)
        if t[0] in "\"'":
            return t
        return t if t in stay else rows.get(t, t)

    return RT.sub(one, text)


def meetings(names, rows):
    """Names that fall together: two old names with one new name in a file that has both."""
    new = collections.defaultdict(set)
    for old in list(names) + list(rows):
        new[rows.get(old, old)].add(old)
    met = {n: olds for n, olds in new.items() if len(olds) > 1}
    for p in antt_files() + sorted(glob.glob("crates/*/src/**/*.rt", recursive=True)):
        words = set(re.findall(W, code_of(read(p))))
        for n, olds in sorted(met.items()):
            here = sorted(o for o in olds if o in words)
            if len(here) > 1:
                print(f"meet: {p}: {', '.join(here)} -> {n}")


def main():
    crates = set(os.listdir("crates"))
    names, rows, own = table()
    meetings(names, rows)
    changed = 0
    for p in antt_files():
        text = read(p)
        stay = foreign(text, crates)
        for it in sorted(stay & set(rows)):
            if it in own:
                print(f"stays: {p}: {it}, a library's")
        after = turn(text, rows, stay)
        if after != text:
            changed += 1
            with open(p, "w", encoding="utf-8") as f:
                f.write(after)
    for p in sorted(glob.glob("crates/*/src/**/*.rt", recursive=True)):
        text = read(p)
        after = turn_rt(text, {k: v for k, v in rows.items() if "-" in k or k in own}, foreign(text, crates))
        if after != text:
            changed += 1
            with open(p, "w", encoding="utf-8") as f:
                f.write(after)
    for p in sorted(glob.glob("crates/*/must-fail/*.edit") + glob.glob("crates/*/more-edits/*.edit")):
        text = read(p)
        lines = []
        for line in text.split("\n"):
            m = re.match(r"(old|new): ", line)
            lines.append(line if not m else line[: m.end()] + turn_rt(line[m.end():], {k: v for k, v in rows.items() if k in own}, set()))
        after = "\n".join(lines)
        if after != text:
            changed += 1
            with open(p, "w", encoding="utf-8") as f:
                f.write(after)
    print(f"{len(own)} names of definitions and lemmas, {changed} files changed")


if __name__ == "__main__":
    sys.exit(main())
