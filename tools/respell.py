#!/usr/bin/env python3
"""Brings the names of this repository's own definitions and lemmas to snake case, and those of its types to camel case.

usage: tools/respell.py [--dry]      at the top of the repository, once, right after the toolchain's own port script

Only names that are declared in a specs/ or proofs/ folder are turned: definitions, lemmas, fields, constructors, and what
a lemma binds. Goals, steps and whatever else the toolchain names keep their dashes, and so do names that a file
imports from a library. A name in a comment is turned only between backticks.
"""
import glob
import os
import re
import sys

WORD = r"[A-Za-z][A-Za-z0-9_']*(?:-[A-Za-z0-9_']+)+"
TOKEN = re.compile(r"(?<![\w'\-«])(" + WORD + r")(?![\w'\-»])")
SIGNATURE = re.compile(r"^\s*(?:abbrev |unfoldable |pub |data |record |module )*((?:" + r"[A-Za-z«][\w'\-»]*" + r"\s+)+)(?:[({].*?)?:(?=\s|$)")
BINDER = re.compile(r"[({]((?:[A-Za-z][\w'\-]*\s+)+):\s")
LET = re.compile(r"\blet ([A-Za-z][\w'\-]*)\s*[:=]")
LAMBDA = re.compile(r"λ ((?:[A-Za-z][\w'\-]*\s*)+)\.")
USE = re.compile(r"^\s*(?:pub )?(?:ghost )?use ([\w.·'\-]+)\.\{([^}]*)\}")
KEYWORDS = {"abbrev", "unfoldable", "pub", "data", "record", "module", "where", "let", "in", "elim", "use"}


def files(kind):
    pattern = {"antt": "crates/*/{}/**/*.antt", "rt": "crates/*/src/**/*.rt"}[kind]
    for place in ("specs", "proofs") if kind == "antt" else ("",):
        for p in sorted(glob.glob(pattern.format(place), recursive=True)):
            if "/out/" not in p:
                yield p


def own_crates():
    return {os.path.basename(c) for c in glob.glob("crates/*") if os.path.isdir(c)}


def code_of(line):
    """The line without its comment."""
    at = re.search(r"(?:^|\s)--(?:\s|$)", line)
    return line[: at.start()] if at else line


def declared():
    """Every dashed name that a file of specs/ or proofs/ declares with a type or binds."""
    names = set()
    for p in files("antt"):
        for line in open(p, encoding="utf-8"):
            code = code_of(line)
            if re.search(r":\s*(goal|given)\.", code) and re.match(r"\s*(abbrev )?pub ", code):
                continue  # an answer to a goal: the toolchain's name
            m = SIGNATURE.match(code)
            found = m[1].split() if m else []
            for m in BINDER.finditer(code):
                found += m[1].split()
            found += LET.findall(code)
            for m in LAMBDA.finditer(code):
                found += m[1].split()
            m = re.match(r"^\s*(?:pub )?(?:data|record) ([A-Za-z][\w'\-]*)", code)
            if m:
                found.append(m[1])
            names |= {w for w in found if re.fullmatch(WORD, w) and w not in KEYWORDS}
    return names


def new_name(name):
    if name[0].isupper():
        return "".join(w[:1].upper() + w[1:] for w in name.split("-"))
    return name.replace("-", "_")


def imported_elsewhere(text, crates):
    """The names that this text imports from a library that is not ours."""
    out = set()
    for line in text.splitlines():
        m = USE.match(line)
        if m:
            parts = re.split(r"[.·]", m[1])
            if not (parts[0] == "Rattle" and len(parts) > 1 and parts[1] in crates):
                for w in m[2].split(","):
                    w = w.strip().split(" as ")
                    out.add(w[0].strip())
    return out


def turn_code(code, names, kept):
    def one(m):
        return new_name(m[1]) if m[1] in names and m[1] not in kept else m[1]

    return TOKEN.sub(one, code)


def turn_comment(text, names, kept):
    return re.sub(r"`[^`]*`", lambda m: turn_code(m[0], names, kept), text)


def turn_antt(text, names, kept):
    out = []
    for line in text.split("\n"):
        code = code_of(line)
        out.append(turn_code(code, names, kept) + turn_comment(line[len(code):], names, kept))
    return "\n".join(out)


def turn_rt(text, names, kept):
    """Strings, characters and comments stay as they are, but for names between backticks in a comment."""
    parts = re.split(r'(//[^\n]*|b?"(?:\\.|[^"\\])*"|b?\'(?:\\.|[^\'\\])\')', text)
    for i, part in enumerate(parts):
        if i % 2 == 0:
            parts[i] = turn_code(part, names, kept)
        elif part.startswith("//"):
            parts[i] = turn_comment(part, names, kept)
    return "".join(parts)


def main():
    dry = "--dry" in sys.argv[1:]
    crates, names = own_crates(), declared()
    changed, clashes = 0, []
    for kind, turn in (("antt", turn_antt), ("rt", turn_rt)):
        for p in files(kind):
            text = open(p, encoding="utf-8").read()
            kept = imported_elsewhere(text, crates)
            here = {m[1] for line in text.split("\n") for m in TOKEN.finditer(code_of(line))} & names - kept
            words = set(re.findall(r"[A-Za-z][\w'\-]*", text))
            clashes += [f"{p}: {w} would meet {new_name(w)}" for w in sorted(here) if new_name(w) in words]
            new = turn(text, names, kept)
            if new != text:
                changed += 1
                if not dry:
                    open(p, "w", encoding="utf-8").write(new)
    spelled = {}
    for w in sorted(names):
        spelled.setdefault(new_name(w), []).append(w)
    for y, ws in spelled.items():
        if len(ws) > 1:
            clashes.append(f"{' and '.join(ws)} fall together as {y}")
    print("\n".join(clashes))
    print(f"respell: {len(names)} names, {changed} files{' (dry)' if dry else ''}, {len(clashes)} places to look at")


if __name__ == "__main__":
    main()
