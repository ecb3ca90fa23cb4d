#!/usr/bin/env python3
"""What the gate's programs must print, by the implementations beside this file: the baseline in C for evaluations and checks, `reader.py` for sheets,
`values.py` for expressions, `words.py` for the command's words.

    answers.py BASELINE replay < crates/replay/stdin      an answer for each request line
    answers.py BASELINE cases < crates/cases/src/main.rt  the text for each case of the bench, read off the program
    answers.py BASELINE words < crates/waxdapple/stdin    the command's answer to each request
"""
import ast
import os
import re
import subprocess
import sys

here = os.path.dirname(os.path.abspath(__file__))
sys.path += [os.path.join(here, ".."), os.path.join(here, "..", "values")]
import values
import words
from reader import Refused, read

# the fixed length of the tokens' buffer, the longest line that is taken, the most bytes of a field, and the most room that matters
TOKENS, LINE, FIELD, ROOM = 11264, 140000, 70000, 65536

BYTES = r"(-|(?:[0-9a-f]{2})+)"
FORMS = {
    "S": r"S %s$" % BYTES,
    "V": r"V %s$" % BYTES,
    "C": r"C %s %s$" % (BYTES, BYTES),
    "E": r"E ([0-9]+) ([0-9]+) %s$" % BYTES,
    "T": r"T ([0-9]+) ([0-9]+) ([0-9]+) %s$" % BYTES,
}


def baseline(program, requests):
    """The baseline's answer to each evaluation and check, in order."""
    text = "".join(r + "\n" for r in requests)
    answers = subprocess.run([program], input=text, capture_output=True, text=True, check=True).stdout.split("\n")[:-1]
    assert len(answers) == len(requests)
    return answers


def fields(line):
    """A request's letter and fields; None for a line that is no request."""
    form = FORMS.get(line[:1])
    found = form and len(line) <= LINE and re.match(form, line)
    if not found:
        return None
    numbers, texts = (found.groups()[:-1], found.groups()[-1:]) if line[0] in "ET" else ((), found.groups())
    if any(int(f) >= 2**64 for f in numbers) or any(len(f) > 2 * FIELD for f in texts):
        return None
    return line[0], found.groups()


def of_sheet(source):
    """The line for a sheet that is read."""
    try:
        s = read(source)
        return "S 0 %d %d %d %d %d" % (len(s.props), len(s.patterns), len(s.phrases), len(s.base), s.root)
    except Refused as refusal:
        return "S %d %d" % refusal.args


def of_values(source):
    """A line for each expression of a sheet that reads."""
    try:
        return list(values.answers(read(source)))
    except Refused:
        return []


def forwarded(letter, groups):
    """The request that the baseline answers; None where it is answered here."""
    if letter == "C":
        return "C %s %s" % groups
    if letter in "ET":
        budget, room, sheet = groups[-3:]
        if letter == "E" or int(groups[0]) >= TOKENS or int(budget) > 1024:
            return "E %s %d %s" % (budget, min(int(room), ROOM), sheet)
    return None


def source(field):
    return b"" if field == "-" else bytes.fromhex(field)


def replayed(program, lines):
    requests = [fields(line) for line in lines]
    asked = [forwarded(*r) if r else None for r in requests]
    answered = iter(baseline(program, [a for a in asked if a]))
    for r, a in zip(requests, asked):
        if r is None:
            print("?")
        elif a:
            print(next(answered))
        elif r[0] == "T":
            print("E 2 0")
        elif r[0] == "S":
            print(of_sheet(source(r[1][0])))
        else:
            for line in of_values(source(r[1][0])):
                print(line)


def told(name, answer, checked):
    """The text for a case: the answer in words, then a certificate in decimal and what its check gives."""
    _, number, *rest = answer.split()
    if number != "0":
        return ["%s: refused, number %s at %s" % (name, number, rest[0])]
    _, first, *more = checked.split()
    return [
        "%s: accepted, length %s, work %s, inferences %s" % (name, *rest[:3]),
        "  " + " ".join(str(b) for b in bytes.fromhex(rest[3])),
        "  stands, conclusion %s, inferences %s" % tuple(more) if first == "0" else "  falls, number %s at %s" % (first, more[0]),
    ]


def cases(program, text):
    found = re.findall(r'case\(\s*rt,\s*(b"[^"]*"),\s*(b"[^"]*"),\s*([0-9_]+),\s*([0-9_]+),?\s*\)', text)
    found = [(ast.literal_eval(n).decode(), ast.literal_eval(s).hex() or "-", int(b), int(r)) for n, s, b, r in found]
    answers = baseline(program, ["E %d %d %s" % (b, r, s) for _, s, b, r in found])
    accepted = [(s, a.split()[5]) for (_, s, _, _), a in zip(found, answers) if a.split()[1] == "0"]
    checks = iter(baseline(program, ["C %s %s" % pair for pair in accepted]))
    for (name, _, _, _), a in zip(found, answers):
        print("\n".join(told(name, a, next(checks) if a.split()[1] == "0" else None)))


def main():
    program, which = sys.argv[1:]
    if which == "words":
        for line in words.command(lambda lines: baseline(program, lines), sys.stdin.buffer.read()):
            print(line)
        return
    text = sys.stdin.read()
    if which == "replay":
        replayed(program, text.removesuffix("\n").split("\n"))
    else:
        cases(program, text)


main()
