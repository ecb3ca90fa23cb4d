#!/usr/bin/env python3
"""The places of docs/DESIGN-PASS.md in crates/*/src, point by point: tools/design.py [-v] [POINT..]. With -v each place is printed."""
import collections
import glob
import re
import sys

FUNCTION = re.compile(r"^( *)(?:pub(?:\(\w+\))? )?(?:extern \"C\" )?fn (\w+)(<[^(]*>)?\((.*?)\)(?: -> (.*?))?\n?((?:\s+(?:requires|ensures)\*?[^\n]*\n(?:        [^\n]*\n)*)*)\s*\{\n(.*?)^\1\}", re.S | re.M)


def sources():
    for path in sorted(glob.glob("crates/*/src/**/*.rt", recursive=True)):
        yield path, open(path).read()


def functions():
    for path, text in sources():
        for m in FUNCTION.finditer(text):
            params = [p.strip() for p in re.split(r",\s*(?![^<(]*[>)])", m[4].replace("\n", " ")) if p.strip()]
            yield path, m[2], params, m[6] or "", m[7]


def lines(pattern):
    found = []
    for path, text in sources():
        for n, line in enumerate(text.split("\n"), 1):
            if re.search(pattern, line.split("//")[0]):
                found.append(f"{path}:{n}: {line.strip()}")
    return found


def enums():
    """1: enums of one's own with a variant that holds nothing or a refusal, beside variants that hold values."""
    found = []
    for path, text in sources():
        for m in re.finditer(r"^(?:pub(?:\(\w+\))? )?enum (\w+) \{\n(.*?)^\}", text, re.S | re.M):
            kinds = re.findall(r"^    (\w+(?:\(.*?\))?)(?: = \d+)?,", m[2], re.M)
            bare = [v for v in kinds if "(" not in v]
            refuses = any(re.match("Refused|Stopped|Lacking|Falls|Stray|Over", v) for v in kinds)
            if len(bare) < len(kinds) and (refuses or len(bare) in (1, len(kinds) - 1)):
                found.append(f"{path}: {m[1]} {{ {', '.join(kinds)} }}")
    return found


def numbers():
    """1: numbers that stand for kinds or refusals."""
    homes = r"/(refusal|rule|node|kind|pattern_kind|phrase_kind|tag)\.rt|wording/src/lib|expressions/src"
    return [x for x in lines(r"^(pub )?const [A-Z_]+: usize = \d+;") if re.search(homes, x)]


def twins():
    """2: functions with one skeleton, names, numbers and types aside, of three lines or more."""
    seen = collections.defaultdict(list)
    for path, name, params, clauses, body in functions():
        if body.count("\n") < 3:
            continue
        bones = re.sub(r"\b[A-Za-z_]\w*\b", lambda w: w[0] if w[0] in ("if", "else", "match", "while", "for", "in", "return", "let", "mut", "Ok", "Err", "Some", "None") else "x", body)
        bones = re.sub(r"\d+|x(::x)+", "x", bones)
        seen[re.sub(r"\s+", " ", bones)].append(f"{path}: {name}")
    return [" = ".join(group) for group in seen.values() if len(group) > 1]


def loops():
    """3: loops that count by hand."""
    return lines(r"^\s*while ")


def conversions():
    """4: conversions, equality, order and printing by hand."""
    return lines(r"^\s*(pub )?fn (wide|least|number|two|labelled|value|byte|letter)\(")


def together():
    """5: functions with seven and more parameters."""
    return [f"{path}: {name}: {len(params)}" for path, name, params, text, body in functions() if len(params) >= 7]


def clauses():
    """5: clauses that stand in three and more functions."""
    count = collections.Counter()
    for path, name, params, text, body in functions():
        for c in re.findall(r"requires[^{]*\{(.*)\}", text):
            for part in re.split(r" × ", c):
                count[part.strip(" ()")] += 1
    return [f"{n} functions: {c}" for c, n in count.most_common() if n >= 3]


def lengths():
    """6: a buffer with a count of what it holds beside it."""
    found = []
    for path, name, params, text, body in functions():
        pairs = [f"{a}, {b}" for a, b in zip(params, params[1:]) if re.search(r": &(mut )?\[u(32|8)\]$", a) and re.fullmatch(r"(n|m|b|k|count|props|long): usize", b)]
        if pairs:
            found.append(f"{path}: {name}: {'; '.join(pairs)}")
    return found


def switches():
    """7: a flag that says which step to run."""
    return lines(r"^\s*\w+: bool,|fn .*\w+: bool[,)]")


def answers():
    """8: answers in proof files."""
    return [f"{p}: {a}" for p in sorted(glob.glob("crates/*/proofs/**/Answers.antt", recursive=True)) for a in re.findall(r"^pub ([^ ]+) : goal\.", open(p).read(), re.M)]


POINTS = [enums, numbers, twins, loops, conversions, together, clauses, lengths, switches, answers]


def main():
    wanted = [a for a in sys.argv[1:] if a != "-v"]
    for point in POINTS:
        if wanted and point.__doc__[0] not in wanted:
            continue
        found = point()
        print(f"{len(found):5}  {point.__name__}: {point.__doc__}")
        if "-v" in sys.argv:
            for f in found:
                print("       " + f)


main()
