#!/usr/bin/env python3
"""Sheets of expressions, and the value of each by a small evaluator written from document 01.

    values.py requests     the request lines `V SHEET` of crates/replay/stdin
    values.py answers      what they must be answered, as in crates/replay/stdout
"""
import os
import sys

sys.path.append(os.path.join(os.path.dirname(os.path.abspath(__file__)), ".."))
from reader import Refused
from sheet import written

BUDGET, NESTING = 1024, 64


class Sheet:
    """Propositions, patterns and phrases under construction; each method answers the new record's number."""

    def __init__(self):
        self.props, self.patterns, self.phrases = [], [], []

    def prop(self, *record):
        self.props.append(record)
        return len(self.props) - 1

    def pattern(self, *record):
        self.patterns.append(record)
        return len(self.patterns) - 1

    def phrase(self, *record):
        self.phrases.append(record)
        return len(self.phrases) - 1

    def call(self, f, *xs):
        return self.phrase(6, f, len(xs), *xs)

    def match(self, f, *clauses):
        return self.phrase(9, f, len(clauses), *[n for c in clauses for n in c])

    def ended(self):
        """The sheet with a root, a call of true-intro."""
        self.phrase(16, self.phrase(3, 13), 0)
        return self

    def written(self):
        """The sheet's bytes; its base is empty."""
        return written(self.props, self.patterns, self.phrases, [])


class Evaluator:
    """The expressions of one sheet, each evaluated by itself."""

    def __init__(self, sheet):
        self.sheet = sheet
        self.table = [("true",), ("false",)]
        shapes = []
        for record in sheet.props:
            shapes.append(self.shape(record, shapes))
        self.names = [self.intern(s) for s in shapes]
        self.work = BUDGET

    def shape(self, record, shapes):
        kind, *parts = record
        if kind == 0:
            return ("atom", parts[0])
        if kind in (1, 2):
            return (("true",), ("false",))[kind - 1]
        return (kind - 3, *[shapes[p] for p in parts])

    def intern(self, shape):
        if shape not in self.table:
            self.table.append(shape)
        return self.table.index(shape)

    def value(self, k, env, depth):
        """The value of phrase k: ('prop', shape), ('con', c), ('rule', r), or ('fun' or 'method', phrase, bindings)."""
        if self.work == 0:
            raise Refused(8, k)
        if depth == 0:
            raise Refused(9, k)
        self.work -= 1
        kind, *operands = self.sheet.phrases[k]
        return getattr(self, "kind%d" % kind)(k, operands, env, depth - 1)

    def kind0(self, k, operands, env, depth):
        return ("prop", self.table[self.names[operands[0]]])

    def kind1(self, k, operands, env, depth):
        for i in range(operands[0]):
            env = env and env[0]
        if env is None:
            raise Refused(10, k)
        return env[1]

    def kind2(self, k, operands, env, depth):
        return ("con", operands[0])

    def kind3(self, k, operands, env, depth):
        return ("rule", operands[0])

    def kind4(self, k, operands, env, depth):
        return ("fun", k, env)

    def kind5(self, k, operands, env, depth):
        return ("method", k, env)

    def kind6(self, k, operands, env, depth):
        operator = self.value(operands[0], env, depth)
        arguments = [self.value(x, env, depth) for x in operands[2:]]
        if operator[0] == "con":
            return self.constructed(k, operator[1], arguments)
        if operator[0] != "fun":
            raise Refused(11, k)
        parameters, body = self.sheet.phrases[operator[1]][1:]
        if len(arguments) != parameters:
            raise Refused(12, k)
        inner = operator[2]
        for v in arguments:
            inner = (inner, v)
        return self.value(body, inner, depth)

    def constructed(self, k, c, arguments):
        if len(arguments) != (1 if c == 0 else 2):
            raise Refused(12, k)
        if any(v[0] != "prop" for v in arguments):
            raise Refused(11, k)
        shape = (c, *[v[1] for v in arguments])
        self.intern(shape)
        return ("prop", shape)

    def kind7(self, k, operands, env, depth):
        first = self.value(operands[0], env, depth)
        return self.value(operands[1], (env, first), depth)

    def kind8(self, k, operands, env, depth):
        own = [env, None]
        own[1] = ("fun" if self.sheet.phrases[operands[0]][0] == 4 else "method", operands[0], own)
        return own[1]

    def kind9(self, k, operands, env, depth):
        subject = self.value(operands[0], env, depth)
        if subject[0] != "prop":
            raise Refused(11, k)
        clauses = operands[2:]
        for pattern, body in zip(clauses[::2], clauses[1::2]):
            bound = self.fits(pattern, subject[1])
            if bound is not None:
                for shape in bound:
                    env = (env, ("prop", shape))
                return self.value(body, env, depth)
        raise Refused(17, k)

    def fits(self, q, shape):
        """What pattern q binds in a proposition, left to right; None where it does not fit."""
        kind, *parts = self.sheet.patterns[q]
        if kind == 0:
            return [shape]
        if kind == 1:
            return [] if self.table[self.names[parts[0]]] == shape else None
        if shape[0] != kind - 2:
            return None
        bound = [self.fits(p, s) for p, s in zip(parts, shape[1:])]
        return None if None in bound else [s for b in bound for s in b]

    def number(self, v):
        """A value's kind and number."""
        if v[0] == "prop":
            return 0, self.table.index(v[1])
        return {"con": 1, "rule": 2, "fun": 3, "method": 4}[v[0]], v[1]


def answers(sheet):
    """A line for each expression of the sheet."""
    for k, record in enumerate(sheet.phrases):
        if record[0] < 16:
            yield answer(Evaluator(sheet), k)


def answer(evaluator, k):
    try:
        v = evaluator.value(k, None, NESTING)
        return "V %d 0 %d %d %d" % (k, *evaluator.number(v), evaluator.work)
    except Refused as refusal:
        return "V %d %d %d" % (k, *refusal.args)


def constructors():
    """Each constructor at propositions, at too few and too many arguments, and at a value that is no proposition."""
    s = Sheet()
    a, b = s.prop(0, 0), s.prop(0, 1)
    s.prop(4, a, b)
    p, q = s.phrase(0, a), s.phrase(0, b)
    for c in range(5):
        f = s.phrase(2, c)
        s.call(f)
        s.call(f, p)
        s.call(f, p, q)
        s.call(f, p, q, p)
        s.call(f, f)
        s.call(f, p, f)
        s.call(f, f, p)
    return s


def closures():
    """Functions that keep the bindings where they were written, under parameters and lets."""
    s = Sheet()
    a, b, c = (s.phrase(0, s.prop(0, i)) for i in range(3))
    v = [s.phrase(1, i) for i in range(4)]
    conj, cond = s.phrase(2, 1), s.phrase(2, 3)
    pair = s.call(conj, v[1], v[0])
    inner = s.phrase(4, 1, pair)
    outer = s.phrase(4, 1, inner)
    s.call(outer, a)
    applied = s.call(s.call(outer, a), b)
    s.call(outer, a, b)
    s.phrase(7, c, applied)
    kept = s.phrase(7, s.call(outer, a), s.phrase(7, c, s.call(v[1], v[0])))
    s.call(s.phrase(4, 0, kept))
    four = s.phrase(4, 4, s.call(cond, s.call(conj, v[3], v[2]), s.call(conj, v[1], v[0])))
    s.call(four, a, b, c, a)
    s.call(four, a, b, c)
    s.phrase(7, a, s.phrase(7, b, s.phrase(7, c, v[2])))
    s.phrase(7, a, s.phrase(7, b, v[3]))
    return s


def higher():
    """Functions that take functions, and what is no operator."""
    s = Sheet()
    a, b = (s.phrase(0, s.prop(0, i)) for i in range(2))
    v = [s.phrase(1, i) for i in range(3)]
    neg, disj, rule = s.phrase(2, 0), s.phrase(2, 2), s.phrase(3, 4)
    twice = s.phrase(4, 2, s.call(v[1], s.call(v[1], v[0])))
    s.call(twice, neg, a)
    flipped = s.phrase(4, 1, s.phrase(4, 2, s.call(v[2], v[0], v[1])))
    s.call(s.call(flipped, disj), a, b)
    s.call(flipped, disj)
    s.call(twice, s.phrase(4, 1, s.call(disj, v[0], b)), a)
    composed = s.phrase(4, 2, s.phrase(4, 1, s.call(v[2], s.call(v[1], v[0]))))
    s.call(s.call(composed, neg, neg), b)
    s.call(twice, twice, a)
    s.call(twice, rule, a)
    s.call(rule, a)
    s.call(a, b)
    s.call(a, v[0])
    s.call(s.phrase(4, 1, v[0]), rule)
    return s


def fixes():
    """A fix that recurses down a proposition, one that never ends, and fixes that are only yielded."""
    s = Sheet()
    p, q, r = (s.prop(0, i) for i in range(3))
    chain = s.prop(4, p, s.prop(4, q, s.prop(4, r, s.prop(1))))
    any_ = s.pattern(0)
    both, denial = s.pattern(3, any_, any_), s.pattern(2, any_)
    v = [s.phrase(1, i) for i in range(4)]
    neg, conj = s.phrase(2, 0), s.phrase(2, 1)
    last = s.phrase(8, s.phrase(4, 1, s.match(v[0], (both, s.call(v[3], v[0])), (denial, s.call(v[2], v[0])), (any_, v[0]))))
    whole = s.phrase(0, chain)
    s.call(last, whole)
    s.call(last, s.call(neg, s.call(neg, whole)))
    s.call(last, s.call(conj, whole, s.phrase(0, q)))
    endless = s.phrase(8, s.phrase(4, 0, s.call(v[0])))
    s.call(endless)
    s.phrase(7, endless, v[0])
    s.call(last, last)
    s.call(last)
    s.phrase(8, s.phrase(4, 4, s.phrase(1, 4)))
    s.call(s.phrase(8, s.phrase(4, 2, v[2])), whole, whole)
    return s


def methods():
    """Methods and fixes of methods are values; calling one as a function is of the wrong kind."""
    s = Sheet()
    a = s.phrase(0, s.prop(0, 7))
    truth = s.phrase(16, s.phrase(3, 13), 0)
    m = s.phrase(5, 1, truth)
    f = s.phrase(8, m)
    s.call(m, a)
    s.call(f, a)
    s.call(f)
    s.phrase(7, f, s.phrase(1, 0))
    s.match(m, (s.pattern(0), a))
    s.call(s.phrase(4, 1, m), a)
    return s


def matches():
    """Each kind of pattern, the first clause that fits, and none that fits."""
    s = Sheet()
    p, q = s.prop(0, 1), s.prop(0, 2)
    again = s.prop(0, 1)
    wholes = [s.prop(3, p)] + [s.prop(kind, p, q) for kind in (4, 5, 6, 7)]
    deep = s.prop(6, wholes[1], wholes[2])
    any_, exactly = s.pattern(0), s.pattern(1, again)
    shapes = [s.pattern(2, any_)] + [s.pattern(kind, any_, any_) for kind in (3, 4, 5, 6)]
    four = s.pattern(5, s.pattern(3, any_, any_), s.pattern(4, any_, any_))
    picky = s.pattern(3, exactly, any_)
    v = [s.phrase(1, i) for i in range(4)]
    conj = s.phrase(2, 1)
    for w in wholes + [p, q, deep]:
        subject = s.phrase(0, w)
        s.match(subject, (exactly, s.phrase(2, 0)), (shapes[0], v[0]), (picky, v[0]), (four, s.call(conj, v[3], v[0])))
        s.match(subject, (shapes[2], v[0]), (shapes[3], v[1]), (shapes[4], s.call(conj, v[0], v[1])), (any_, v[0]))
        s.match(subject, (shapes[1], v[2]))
    s.match(conj, (any_, conj))
    s.match(v[0], (any_, conj))
    return s


def spending():
    """Lets that double the work until the budget is spent."""
    s = Sheet()
    step = s.phrase(0, s.prop(2))
    for _ in range(12):
        step = s.phrase(7, step, step)
    return s


def nesting():
    """Lets inside lets, to the limit of nesting and past it; the budget is looked at first."""
    s = Sheet()
    step = s.phrase(0, s.prop(1))
    for _ in range(66):
        step = s.phrase(7, 0, step)
    return s


def sheets():
    for family in (constructors, closures, higher, fixes, methods, matches, spending, nesting):
        yield family().ended()


def main():
    for sheet in sheets():
        if sys.argv[1] == "requests":
            print("V", sheet.written().hex())
        else:
            print("\n".join(answers(sheet)))


if __name__ == "__main__":
    main()
