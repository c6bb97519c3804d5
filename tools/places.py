#!/usr/bin/env python3
"""Lists the places in src/ that read like an older form of the language, by kind, with a count for each.

usage: tools/places.py [KIND] [--count] [--root DIR]      at the top of the repository

A line is a place to look at, not a fault: docs/DESIGN-PASS.md says of each kind which places stay, and why. Tests are not
looked at. The kinds:

1a enums shaped like Option or Result        3a loops that count an index       5a clauses in three functions or more
1b a flag beside a value                     3b cases listed by hand            5b parameters that travel together
1c numbers for kinds, refusals or nothing    4a printing and conversion         6a fixed buffers and arrays in structs
1d an Option or Result handed on by hand     4b equality and tests by match     7a switches on which step to run
2a functions of one shape
"""
import collections
import glob
import re
import sys

ROOT = "."
if "--root" in sys.argv:
    at = sys.argv.index("--root")
    ROOT = sys.argv[at + 1]
    del sys.argv[at:at + 2]


def sources():
    for line in open(ROOT + "/crates.txt"):
        name = re.split(r"[:\s]", line.strip())[0]
        if not name or name.startswith("#") or name.endswith("_tests"):
            continue
        for path in sorted(glob.glob(f"{ROOT}/crates/{name}/src/**/*.rt", recursive=True)):
            if path.endswith("/tests.rt"):
                continue
            text = open(path).read()
            text = re.split(r"\n#\[cfg\(test\)\]\nmod tests \{", text)[0]
            yield name, path[len(ROOT) + 1:], text


def lines_of(text):
    for i, line in enumerate(text.split("\n"), 1):
        code = re.sub(r"//.*", "", line)
        if code.strip():
            yield i, code


class Fn:
    def __init__(self, path, line, name, head, clauses, body):
        self.path, self.line, self.name, self.head, self.clauses, self.body = path, line, name, head, clauses, body


def functions(path, text):
    """Each function with its head, its clauses and its body, found by the layout of rt fmt."""
    rows = text.split("\n")
    i = 0
    while i < len(rows):
        m = re.match(r"^(\s*)(?:#\[[^\]]*\]\s*)*(?:pub(?:\(crate\))? )?(?:extern \"C\" )?fn (\w+)", rows[i])
        if not m:
            i += 1
            continue
        indent, name, start = m.group(1), m.group(2), i
        head, clauses, body = [], [], []
        while i < len(rows):
            row = rows[i]
            if re.match(r"^\s*(requires|ensures)\b", row):
                clauses.append(row.strip())
            elif row == indent + "{" or (row.startswith(indent) and row.rstrip().endswith("{") and not clauses and not row.strip().startswith("//")):
                if row != indent + "{":
                    head.append(row)
                i += 1
                while i < len(rows) and rows[i] != indent + "}":
                    body.append(rows[i])
                    i += 1
                break
            elif row.rstrip().endswith(";") and not body:
                head.append(row)
                break
            else:
                head.append(row)
            i += 1
        yield Fn(path, start + 1, name, " ".join(x.strip() for x in head), clauses, "\n".join(re.sub(r"//.*", "", b) for b in body))
        i += 1


def enums(text):
    for m in re.finditer(r"^(?:pub(?:\(crate\))? )?enum (\w+)[^{]*\{(.*?)^\}", text, re.M | re.S):
        body = re.sub(r"//.*", "", m.group(2))
        flat = re.sub(r"\{[^}]*\}|\([^)]*\)", "*", body)
        yield text[:m.start()].count("\n") + 1, m.group(1), [v.strip() for v in flat.split(",") if v.strip()]


KINDS = collections.OrderedDict()


def kind(name):
    def keep(f):
        KINDS[name] = f
        return f
    return keep


@kind("1a")
def shaped():
    for _, path, text in sources():
        for line, name, variants in enums(text):
            bare = [v for v in variants if "*" not in v]
            full = [v for v in variants if "*" in v]
            words = {v.rstrip(" *") for v in variants}
            if len(variants) == 2 and full:
                yield path, line, f"enum {name}: {', '.join(variants)}"
            elif words & {"None", "Nothing", "Nowhere", "Missing", "Refused", "Accepted", "TurnedDown", "Absent"}:
                yield path, line, f"enum {name}: {', '.join(variants)}"


@kind("1b")
def flagged():
    for _, path, text in sources():
        for m in re.finditer(r"^(?:pub(?:\(crate\))? )?struct (\w+)[^;{]*\{(.*?)^\}", text, re.M | re.S):
            for f in re.finditer(r"^\s*(?:pub(?:\(crate\))? )?(\w+): bool,", m.group(2), re.M):
                yield path, text[:m.start()].count("\n") + 1, f"struct {m.group(1)}: {f.group(1)}"
        for f in functions(path, text):
            if re.search(r"-> (?:\w+::)?(?:Result<)?\(?(?:\w+, )*bool\b", f.head) and "&mut" in f.head:
                yield path, f.line, f"fn {f.name}: a bool beside what is written"


@kind("1c")
def numbered():
    for _, path, text in sources():
        for line, code in lines_of(text):
            if re.search(r"\bfn (number|letter|layer|place|index|bits|told)\(", code):
                yield path, line, code.strip()
            elif re.search(r"\b(number|refusal|kind|code): u(8|16|32)\b", code) and "fn " in code:
                yield path, line, code.strip()
            elif re.search(r"(const \w+: u\d+ = 255;|: u8 = 255|= 255u8|\b255,)", code):
                yield path, line, code.strip()


@kind("1d")
def handed():
    for _, path, text in sources():
        for f in functions(path, text):
            if re.search(r"-> Option<\(?(Refusal|\w*Fault|\w*Problem|Trouble)", f.head):
                yield path, f.line, f"fn {f.name}: a refusal in an Option"
        rows = text.split("\n")
        for i, row in enumerate(rows, 1):
            code = re.sub(r"//.*", "", row)
            if re.search(r"\bErr\((\w+)\) => (return )?Err\(", code) or re.search(r"\bOk\((\w+|\(\))\) => Ok\(\1\)", code):
                yield path, i, code.strip()
            elif re.search(r"\bNone => (None|Err\()", code) or re.search(r"Ok\(None\) => None", code) or re.search(r"\bErr\(_\) => None", code):
                yield path, i, code.strip()
            elif re.search(r"if let Err\((\w+)\) = .* \{$", code) and i < len(rows) and "return Err" in rows[i]:
                yield path, i, code.strip()
            elif re.search(r"if let Some\((\w+)\) = .* \{$", code) and i < len(rows) and re.search(r"return Err\(", rows[i]):
                yield path, i, code.strip()


def shape(f):
    """A body with names, numbers and strings taken out."""
    text = re.sub(r'b?"[^"]*"', "S", f.body)
    text = re.sub(r"\b(let|mut|match|if|else|for|in|return|while|loop|break|Ok|Err|Some|None|true|false|self)\b", lambda m: m.group(1).upper(), text)
    text = re.sub(r"b?'.'|\b\d\w*\b", "0", text)
    text = re.sub(r"\b[a-z_]\w*\b", "x", text)
    text = re.sub(r"\b[A-Z][a-z]\w*\b", "X", text)
    return re.sub(r"\s+", "", text)


@kind("2a")
def twins():
    groups = collections.defaultdict(list)
    for _, path, text in sources():
        for f in functions(path, text):
            s = shape(f)
            if len(s) > 24:
                groups[s].append(f)
    for s, fs in groups.items():
        if len(fs) > 1:
            yield fs[0].path, fs[0].line, " ~ ".join(f"{f.path.split('/')[1]}::{f.name}" for f in fs)


@kind("3a")
def counted():
    for _, path, text in sources():
        rows = text.split("\n")
        for i, row in enumerate(rows, 1):
            code = re.sub(r"//.*", "", row)
            m = re.search(r"\bfor (\w+) in [^{]*\.\.", code)
            if m and m.group(1) != "_":
                indent = len(row) - len(row.lstrip())
                body = []
                for other in rows[i:]:
                    if other.strip() and len(other) - len(other.lstrip()) <= indent:
                        break
                    body.append(other)
                inner = "\n".join(body)
                v = m.group(1)
                if re.search(r"\[[^\]]*\b%s\b[^\]]*\]" % v, inner) or re.search(r"\b%s\b as usize|\b%s / 4|\b%s \+" % (v, v, v), inner):
                    yield path, i, code.strip()
            elif re.search(r"\b(while|loop)\b.*\{$", code):
                yield path, i, code.strip()


@kind("3b")
def listed():
    for _, path, text in sources():
        rows = text.split("\n")
        for i, row in enumerate(rows, 1):
            code = re.sub(r"//.*", "", row)
            if re.search(r"[(\[,] ?0\)?[\]),;]?.*$", code) and i + 2 < len(rows):
                a, b, c = row, rows[i], rows[i + 1]
                def less(t):
                    return re.sub(r"\b(north|east|south|west|[0-3])\b", "#", t).strip().rstrip(",")
                if less(a) == less(b) == less(c) and "0" in a and "1" in b and "2" in c:
                    yield path, i, code.strip()


@kind("4a")
def printed():
    for _, path, text in sources():
        for line, code in lines_of(text):
            if re.search(r"\bfn (words|name|as_byte|narrow|as_number|from_\w+|to_\w+|done|numbered|copy)\b", code):
                yield path, line, code.strip()


@kind("4b")
def tested():
    for _, path, text in sources():
        for f in functions(path, text):
            if re.search(r"-> bool", f.head) and re.match(r"\s*match \*?\w+(\.\w+)? \{", f.body) and re.search(r"=> (true|false),", f.body) and not re.search(r"=> [^tf{\n]", f.body):
                yield path, f.line, f"fn {f.name}: a bool by match"


@kind("5a")
def repeated():
    groups = collections.defaultdict(list)
    for crate, path, text in sources():
        for f in functions(path, text):
            for c in set(re.sub(r"^(requires|ensures)( \w+)? \{", r"\1 {", c) for c in f.clauses):
                groups[crate, c].append(f)
    for (crate, c), fs in groups.items():
        if len(fs) >= 3:
            yield fs[0].path, fs[0].line, f"{len(fs)}: {c[:110]}"


@kind("5b")
def together():
    groups = collections.defaultdict(list)
    for crate, path, text in sources():
        for f in functions(path, text):
            m = re.search(r"\((.*)\)", f.head)
            names = tuple(re.findall(r"\b([a-z_]\w*): ", m.group(1))) if m else ()
            for i in range(len(names)):
                for j in range(i + 3, len(names) + 1):
                    groups[crate, names[i:j]].append(f)
    best = {}
    for (crate, names), fs in groups.items():
        if len(fs) >= 3:
            key = tuple(sorted(f"{f.path}:{f.line}" for f in fs))
            if key not in best or len(names) > len(best[key][1]):
                best[key] = (crate, names, fs)
    for crate, names, fs in best.values():
        yield fs[0].path, fs[0].line, f"{len(fs)}: {', '.join(names)}"


@kind("6a")
def buffers():
    for _, path, text in sources():
        for m in re.finditer(r"^(?:pub(?:\(crate\))? )?struct (\w+)[^;{]*\{(.*?)^\}", text, re.M | re.S):
            arrays = re.findall(r"(\w+): \[[^;\]]*(?:\[[^\]]*\])?[^;\]]*; ?\w+\]", m.group(2))
            if arrays:
                yield path, text[:m.start()].count("\n") + 1, f"struct {m.group(1)}: {', '.join(arrays)}"
        for line, code in lines_of(text):
            if re.search(r"let mut \w+ = \[0(u8)?; \w+\];", code):
                yield path, line, code.strip()


@kind("7a")
def switches():
    for _, path, text in sources():
        for f in functions(path, text):
            for m in re.finditer(r"match (\*?\w[\w.%/ ]*) \{\n((?:[^\n]*=> *\w+(?:::\w+)*\([^\n]*\),\n){3,})", f.body):
                arms = m.group(2).strip().split("\n")
                if all(re.match(r"\s*(\d+|_|\w+::\w+) => ", a) for a in arms) and not all(re.search(r"=> (Some|Ok|Err|write!)\b", a) for a in arms):
                    yield path, f.line, f"fn {f.name}: match {m.group(1)}, {len(arms)} steps"


def main():
    wanted = [a for a in sys.argv[1:] if not a.startswith("--")]
    for name, find in KINDS.items():
        if wanted and name not in wanted:
            continue
        found = list(find())
        print(f"{name}: {len(found)}")
        if "--count" not in sys.argv:
            for path, line, what in found:
                print(f"  {path}:{line}: {what}")


main()
