#!/usr/bin/env python3
"""Evaluation requests of a given work, for the benchmark: sheets.py KIND WORK COPIES.

    blocks      blocks of eight steps, each a claim, the last the next block
    calls       claims of claims, up to 60 deep, side by side in blocks
    props       lets whose values are conjunctions of the one before, under an assume
    c1          the bench case
"""
import os
import sys

sys.path.append(os.path.join(os.path.dirname(os.path.abspath(__file__)), ".."))
from sheet import written


def blocks(work):
    """A level is a block of up to seven claims, three evaluations each, and the next block."""
    phrases = [[3, 0], [0, 0], [16, 0, 1, 1]]
    top, left = 2, work - 3
    while left > 0:
        claims = min(7, (left - 1) // 3)
        phrases.append([21, claims + 1] + [2] * claims + [top])
        top = len(phrases) - 1
        left -= 1 + 3 * claims
    return written([[0, 0]], [], phrases, [0])


def calls(work):
    """Chains of claims of claims, two evaluations a level and one at the end, side by side in blocks."""
    phrases = [[3, 0], [0, 0]]
    chain = {0: 1}
    chains = max(1, work // 100)
    outer = 2 if chains > 8 else 1
    chains += (work - outer - chains) % 2
    levels, more = divmod((work - outer - chains) // 2, chains)
    for depth in range(1, levels + 2):
        phrases.append([16, 0, 1, chain[depth - 1]])
        chain[depth] = len(phrases) - 1
    steps = [chain[levels + 1]] * more + [chain[levels]] * (chains - more)
    if outer == 2:
        phrases.append([21, len(steps) - 7] + steps[7:])
        steps = steps[:7] + [len(phrases) - 1]
    phrases.append([21, len(steps)] + steps)
    return written([[0, 0]], [], phrases, [0])


def props(work):
    """A let's value is conjunctions over the binding before it, three evaluations each and two for the let; the body assumes the last and claims it."""
    phrases = [[2, 1], [1, 0], [0, 0], [3, 0], [16, 3, 1, 1], [17, 1, 4]]
    levels = min(48, (work - 7) // 5)
    while (work - 7 - 2 * levels) % 3:
        levels -= 1
    each, more = divmod((work - 7 - 2 * levels) // 3, levels)
    value = [1]
    for _ in range(each + 1):
        phrases.append([6, 0, 2, value[-1], 1])
        value.append(len(phrases) - 1)
    body = 5
    for level in range(levels):
        phrases.append([19, value[each + (level < more)], body])
        body = len(phrases) - 1
    phrases.append([19, 2, body])
    return written([[0, 0]], [], phrases, [])


def c1(work):
    return bytes([3, 0, 0, 0, 1, 4, 0, 1, 0, 10, 3, 5, 3, 6, 3, 4, 0, 2, 0, 1, 0, 0, 16, 0, 1, 3, 16, 1, 1, 3, 16, 2, 2, 4, 5, 21, 3, 6, 7, 8, 1, 2, 9])


def main():
    kind, work, copies = sys.argv[1], int(sys.argv[2]), int(sys.argv[3])
    sheet = {"blocks": blocks, "calls": calls, "props": props, "c1": c1}[kind](work)
    for _ in range(copies):
        print("E 1024 65535", sheet.hex())


main()
