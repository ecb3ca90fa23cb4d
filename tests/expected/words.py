"""The command's answers in words, from the numbers that the baseline answers."""
import re

from reader import Refused, read

REFUSALS = {
    1: "budget over 1,024",
    2: "a scratch buffer too short",
    3: "bytes end before a number, or inside it with under three groups read",
    4: "not shortest, over 65,535, or a third group that continues",
    5: "kind, count, atom, constructor, rule or variable number out of range; a pattern past either limit",
    6: "reference not earlier, not in its table, of the wrong class, or a fix not over kind 4 or 5",
    7: "bytes after the end",
    8: "budget spent",
    9: "nested too deep",
    10: "no such binding",
    11: "value of the wrong kind",
    12: "wrong number of arguments",
    13: "arguments, read left to right, don't have the rule's shapes",
    14: "premise not in the base",
    15: "announced conclusion differs",
    16: "suppose-absurd body isn't false",
    17: "no clause fits",
    18: "output shorter than the certificate",
    19: "certificate over its node or nesting limit",
    20: "stated conclusion isn't the derived one",
}
REFUSALS.update({n + 32: "in the certificate's bytes: " + REFUSALS[n] for n in range(3, 8)})
CONSTRUCTORS = "not and or if-then iff".split()
RULES = (
    "claim modus-ponens modus-tollens double-negation both left-and right-and left-either right-either constructive-dilemma equivalence "
    "left-iff right-iff true-intro absurd false-elim"
).split()


class Unreadable(Exception):
    """The fault of a text, in words."""


def decoded(form, data, what):
    """A file's bytes: as they are, or said in decimal."""
    if form == "b":
        return data
    said = bytearray()
    for number, line in enumerate(data.split(b"\n"), 1):
        for token in re.finditer(rb"[0-9]+|[^0-9 \t\r\n]", line):
            place = "%s's text says no bytes: at line %d, column %d " % (what, number, token.start() + 1)
            if not token.group().isdigit():
                raise Unreadable(place + "stands a character that is neither a digit nor white space")
            if int(token.group()) > 255:
                raise Unreadable(place + "begins a number over 255")
            said.append(int(token.group()))
    return bytes(said)


def around(data, place):
    """The bytes around a place, at most eight on either side."""
    before = "".join(" %d" % b for b in data[max(0, place - 8):place])
    dots = " .." if place > 8 else ""
    if place >= len(data):
        return dots + before + " [end]"
    after = "".join(" %d" % b for b in data[place + 1:place + 9])
    return "%s%s [%d]%s%s" % (dots, before, data[place], after, " .." if len(data) > place + 9 else "")


def first_equal(sheet, p):
    """The first proposition of the sheet with the shape of p."""
    shapes = []
    for kind, *parts in sheet.props:
        shapes.append((kind, *(parts if kind == 0 else [shapes[q] for q in parts])))
    return shapes.index(shapes[p])


def phrase(sheet, k):
    """A phrase in words."""
    kind, *x = sheet.phrases[k]
    listed = lambda numbers: "".join(" %d" % n for n in numbers)
    words = {
        0: lambda: "proposition %d" % first_equal(sheet, x[0]),
        1: lambda: "variable %d, counted from the innermost" % x[0],
        2: lambda: "constructor " + CONSTRUCTORS[x[0]],
        3: lambda: "rule " + RULES[x[0]],
        4: lambda: "function, parameters %d, body phrase %d" % tuple(x),
        5: lambda: "method, parameters %d, body phrase %d" % tuple(x),
        6: lambda: "call of phrase %d, argument phrases:%s" % (x[0], listed(x[2:])),
        7: lambda: "let phrase %d in phrase %d" % tuple(x),
        8: lambda: "fix of phrase %d" % x[0],
        9: lambda: "match of phrase %d, clauses by pattern and phrase:%s" % (x[0], listed(x[2:])),
        16: lambda: "method call of phrase %d, argument phrases:%s" % (x[0], listed(x[2:])),
        17: lambda: "assume phrase %d in phrase %d" % tuple(x),
        18: lambda: "suppose-absurd phrase %d in phrase %d" % tuple(x),
        19: lambda: "dlet phrase %d in phrase %d" % tuple(x),
        20: lambda: "phrase %d by phrase %d" % tuple(x),
        21: lambda: "block of phrases" + listed(x[1:]),
        22: lambda: "dmatch of phrase %d, clauses by pattern and phrase:%s" % (x[0], listed(x[2:])),
    }
    return "at phrase %d: %s" % (k, words[kind]())


def refused(kind, number, place, sheet, certificate):
    """A refusal, and what stands at its place."""
    lines = ["REFUSED %d: %s" % (number, REFUSALS[number])]
    if 3 <= number <= 7:
        lines.append("at byte %d of the sheet:%s" % (place, around(sheet, place)))
    elif number > 7 and kind == "C":
        lines.append("at byte %d of the certificate:%s" % (place, around(certificate, place)))
    elif 8 <= number <= 17:
        lines.append(phrase(read(sheet), place))
    return lines


def decimal(data):
    return " ".join(str(b) for b in data)


def evaluated(answer, sheet, print_it):
    number, *rest = answer.split()[1:]
    if number != "0":
        return refused("E", int(number), int(rest[0]), sheet, b"")
    lines = ["ACCEPTED with a certificate of %s bytes, work %s, inferences %s" % tuple(rest[:3])]
    return lines + [decimal(bytes.fromhex(rest[3]))] * print_it


def checked(answer, sheet, certificate, print_it):
    number, *rest = answer.split()[1:]
    if number != "0":
        return refused("C", int(number), int(rest[0]), sheet, certificate)
    lines = ["ACCEPTED with conclusion %s, inferences %s, in a certificate of %d bytes" % (*rest, len(certificate))]
    return lines + [decimal(certificate)] * print_it


def requests(data):
    """Each request: its fields and its two files; None for what is no request, which ends them."""
    while data:
        line, end, data = data.partition(b"\n")
        fields = line.decode("latin-1").split(" ")
        lengths = [fields[i] for i in (2, 4)] if len(fields) > 7 else ["", ""]
        if not all(n.isdigit() for n in lengths) or sum(map(int, lengths)) > len(data):
            yield None
            return
        n, m = map(int, lengths)
        yield fields, data[:n], data[n:n + m]
        data = data[n + m:]


def command(baseline, data):
    """The lines that the command's program prints."""
    for request in requests(data):
        if request is None:
            yield "UNREADABLE: the request is no request, or is cut short"
            continue
        fields, sheet, certificate = request
        kind, budget, print_it = fields[0], min(int(fields[5]), 1025), fields[6] == "d"
        try:
            sheet, certificate = decoded(fields[1], sheet, "the sheet"), decoded(fields[3], certificate, "the certificate")
        except Unreadable as fault:
            yield "UNREADABLE: %s" % fault
            continue
        if kind == "E":
            yield from evaluated(baseline(["E %d 65536 %s" % (budget, sheet.hex() or "-")])[0], sheet, print_it)
        elif kind == "C":
            yield from checked(baseline(["C %s %s" % (sheet.hex() or "-", certificate.hex() or "-")])[0], sheet, certificate, print_it)
        else:
            yield "UNREADABLE: the request is no request, or is cut short"
