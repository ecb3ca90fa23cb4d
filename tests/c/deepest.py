#!/usr/bin/env python3
"""Requests that nest as deep as document 01 allows, for the measure of the stack, a line each:

    propositions    512 of the sheet, each the denial of the one before, and as many denials more as the budget can form, listed by the certificate
    expressions     calls inside the last arguments of calls, to the limit of nesting, a pattern of 128 parts tried at the bottom
    deductions      method calls inside the last arguments of method calls, likewise
    blocks          blocks inside the last steps of blocks, likewise
    hypotheses      assumptions inside assumptions, likewise
    nodes           a certificate of 512 nested nodes
"""
import os
import sys

sys.path.append(os.path.join(os.path.dirname(os.path.abspath(__file__)), ".."))
from sheet import groups, written


def denials(n):
    """An atom, and n denials of it, one of the other."""
    return [[0, 0]] + [[3, k] for k in range(n)]


class Phrases(list):
    """Phrases under construction."""

    def add(self, *record):
        self.append(list(record))
        return len(self) - 1

    def denied(self, times, phrase):
        """So many calls of `not`, which phrase 0 must be, one inside the other."""
        for _ in range(times):
            phrase = self.add(6, 0, 1, phrase)
        return phrase


def propositions():
    """A denial costs two evaluations: ten calls, one inside the other, of a function that denies its parameter 49 times, and four denials more."""
    phrases = Phrases([[2, 0], [1, 0], [0, 511]])
    many = phrases.add(4, 1, phrases.denied(49, 1))
    value = phrases.denied(4, 2)
    for _ in range(10):
        value = phrases.add(6, many, 1, value)
    phrases.add(17, value, phrases.add(16, phrases.add(3, 13), 0))
    return written(denials(511), [], phrases, [])


def patterned(n):
    """Patterns of which the last is a denial of a denial, n parts in all."""
    return [[0]] + [[2, k] for k in range(n - 1)]


def expressions():
    """Calls of a function of four parameters."""
    phrases = Phrases([[0, 300], [4, 4, 0]])
    deep = phrases.add(9, 0, 1, 127, 0)
    for _ in range(61):
        deep = phrases.add(6, 1, 4, 0, 0, 0, deep)
    phrases.add(17, deep, phrases.add(16, phrases.add(3, 13), 0))
    return written(denials(400), patterned(128), phrases, [])


def nested(level, levels):
    """A dmatch inside so many levels of a deduction; phrase 2 concludes true, phrase 3 is a method of four parameters that does."""
    phrases = Phrases([[0, 300], [3, 13], [16, 1, 0], [5, 4, 2]])
    deep = phrases.add(22, 0, 1, 127, 2)
    for _ in range(levels):
        deep = phrases.add(*level, deep)
    return written(denials(400), patterned(128), phrases, [])


def deductions():
    return nested((16, 3, 4, 0, 0, 0), 61)


def blocks():
    return nested((21, 8, 2, 2, 2, 2, 2, 2, 2), 61)


def hypotheses():
    return nested((17, 0), 61)


def nodes():
    """true-intro under 511 assumptions of an atom: the listing has each conclusion's conditional."""
    sheet = written([[0, 0]], [], [[3, 13], [16, 0, 0]], [])
    props = [[0, 0], [1]] + [[6, 0, k] for k in range(1, 512)]
    numbers = [len(props)] + [v for record in props for v in record] + [2, 0] * 511 + [0, 13, 512]
    return sheet, bytes(b for n in numbers for b in groups(n))


for sheet in (propositions(), expressions(), deductions(), blocks(), hypotheses()):
    print("E 1024 65536", sheet.hex())
print("C %s %s" % tuple(b.hex() for b in nodes()))
