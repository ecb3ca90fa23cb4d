#!/usr/bin/env python3
"""Brings the repository's own definitions and lemmas to one spelling: words in snake case, types in camel case.

usage: python3 tools/respell.py [--show]     at the top of the repository, once, after port.py; --show writes nothing

A name is one that a file of specs/, or a file of lemmas below proofs/, declares with a dash or a capital inside, or that an import gives. It is turned wherever it stands
as a whole word: in .antt files, in clauses and imports of .rt files (strings aside), in edits; in comments and pages only between backticks. Names of
src/ have no such letters. Two names that would fall together in one file are told apart by OTHERWISE.
"""
import glob
import os
import re
import sys

WORD = re.compile(r"[^\s(){}\[\];,.`'\"/:λ∥⌜⌝=][^\s(){}\[\];,.`\"/]*")
DECLARED = re.compile(r"^(\s*)((?:(?:abbrev|unfoldable|pub|data|record)\s+)*)((?!(?:let|in|use|module)\s)[^\s(){}\[\];,.λ]+(?:\s+[^\s(){}\[\];,.:λ=]+)*)((?:\s+[({].*[)}])?\s+:(?:\s.*)?)$")
OTHERWISE = {
    "block-by": "block_by_lem",
    "same-conn": "same_conn_lem",
    "on-dedu": "on_dedu_lem",
    "on-expr": "on_expr_lem",
    "on-choice": "on_choice_lem",
    "fixRow": "fixed_row",
}
RUST_STRING = re.compile(r'"(?:[^"\\]|\\.)*"')


def lemma_files():
    """Files of specs/ and of lemmas: what stands in a function's own folder declares what Rattle names."""
    for path in sorted(glob.glob("crates/*/specs/**/*.antt", recursive=True) + glob.glob("crates/*/proofs/**/*.antt", recursive=True)):
        of_function = "/proofs/" in path and path.count("/") > 3 and os.path.basename(path) in ("Answers.antt", "Invariants.antt")
        if os.path.basename(path) not in ("Proof.antt", "Lib.antt") and not of_function:
            yield path


def declarations(path):
    """Each declared name with its words before it and its whole signature."""
    lines = open(path, encoding="utf-8").read().split("\n")
    for i, line in enumerate(lines):
        found = DECLARED.match(line)
        if not found or line.lstrip().startswith("--"):
            continue
        indent = len(found.group(1))
        signature = found.group(4)
        for later in lines[i + 1 :]:
            if not later.strip() or len(later) - len(later.lstrip()) <= indent or later.lstrip().startswith("--"):
                break
            signature += " " + later.strip()
        for name in found.group(3).split():
            yield found.group(2).split(), name, signature


def snake(name):
    name = re.sub(r"(?<=[a-z0-9₀-₉])(?=[A-Z])", "-", name) if name[0].islower() else name
    parts = [p if p[1:2].isupper() else p[:1].lower() + p[1:] for p in name.split("-")]
    return "_".join(parts)


def camel(name):
    return "".join(p[:1].upper() + p[1:] for p in name.split("-"))


def is_type(words, signature):
    return "data" in words or "record" in words or re.search(r"(?:→|:)\s*Type \d+(?:\s+where)?\s*$", signature) is not None


def renamings():
    kinds = {}
    for path in lemma_files():
        for words, name, signature in declarations(path):
            if "◌" in name or not re.search(r"-|(?<=[a-z0-9])[A-Z]", name) or not name[0].isalpha():
                continue
            if name[0].isupper() and "-" not in name:
                continue
            kinds.setdefault(name, set()).add(is_type(words, signature))
    to = {}
    for name, kind in kinds.items():
        if len(kind) > 1:
            print("both a type and a word:", name, file=sys.stderr)
        to[name] = OTHERWISE.get(name) or (camel(name) if True in kind else snake(name))
    return to


def turned(text, to, dotted):
    """The text with each whole word of `to` turned; a word behind a dot only where `dotted` says so."""

    def one(match):
        word = match.group(0)
        if word not in to:
            return word
        if text[match.start() - 1 : match.start()] == "." and not dotted(word):
            return word
        return to[word]

    return WORD.sub(one, text)


ALIAS = re.compile(r"([^\s,{}]+) as ([A-Za-z][^\s,{};]*[-·][^\s,{};]*)(?=[\s,{};]|$)")


def aliases(text):
    """What a file's imports call otherwise, where that has a dash or a dot in it: a type in camel case, else a word in snake case."""
    to = {}
    for line in text.split("\n"):
        if re.match(r"(?:ghost )?use ", line):
            for item, name in ALIAS.findall(line):
                parts = re.split(r"[-·]", name)
                is_kind = item[0].isupper() and "." not in item and "·" not in name
                to[name] = camel("-".join(parts)) if is_kind else "_".join(snake(p[:1].lower() + p[1:]) for p in parts)
    return to


def in_backticks(text, to):
    """A page or a comment: prose stays, names between backticks are turned."""
    parts = text.split("`")
    return "`".join(turned(p, to, lambda w: True) if i % 2 else p for i, p in enumerate(parts))


def in_file(path, text, to, fits):
    """A file's text turned, each comment and string by its own rule."""
    if path.endswith(".md"):
        return in_backticks(text, to)
    mark = "//" if path.endswith(".rt") else "#" if path.endswith((".edit", "run", "contracts")) else "--"
    lines = []
    for line in text.split("\n"):
        found = re.search(r"(?:^|(?<=\s))" + mark + r".*$", line)
        code, comment = (line[: found.start()], line[found.start() :]) if found and (mark != "#" or found.start() == 0) else (line, "")
        if path.endswith(".rt"):
            parts, at = [], 0
            for string in RUST_STRING.finditer(code):
                parts += [turned(code[at : string.start()], to, fits), string.group(0)]
                at = string.end()
            code = "".join(parts + [turned(code[at:], to, fits)])
        else:
            code = turned(code, to, fits)
        lines.append(code + in_backticks(comment, to))
    return "\n".join(lines)


def functions():
    """The functions of src/, as old proofs spell them: their names after a dot are Rattle's."""
    names = set()
    for path in glob.glob("crates/*/src/**/*.rt", recursive=True):
        names |= {n.replace("_", "-") for n in re.findall(r"\bfn (\w+)", open(path, encoding="utf-8").read())}
    return names


def main():
    to = renamings()
    made = functions()
    files = [p for p in glob.glob("crates/**/*", recursive=True) if p.endswith((".antt", ".rt", ".edit")) and "/out/" not in p]
    files += glob.glob("tests/**/*.edit", recursive=True) + glob.glob("tests/mutants/run") + glob.glob("tests/mutants/contracts")
    files += ["README.md"] + glob.glob("docs/*.md") + glob.glob("teaching/*.md") + glob.glob("crates/*.md")
    for path in sorted(set(f for f in files if os.path.isfile(f))):
        text = open(path, encoding="utf-8").read()
        words = set(WORD.findall(text))
        for new in {to[w] for w in words if w in to} & words:
            print(f"fall together in {path}: {new} and {[o for o in to if to[o] == new and o in words]}", file=sys.stderr)
        for new in {to[w] for w in words if w in to}:
            if len([o for o in words if to.get(o) == new]) > 1:
                print(f"two made one in {path}: {new}", file=sys.stderr)
        own = os.path.basename(path) == "Proof.antt"
        fits = (lambda w: w not in made) if own else (lambda w: True)
        here = {} if own else aliases(text)
        for name in set(here.values()) & words:
            print(f"an alias falls together in {path}: {name}", file=sys.stderr)
        new = in_file(path, text, {**to, **here}, fits)
        if new != text and "--show" not in sys.argv:
            open(path, "w", encoding="utf-8").write(new)
    if "--show" in sys.argv:
        for old in sorted(to):
            print(old, to[old])


main()
