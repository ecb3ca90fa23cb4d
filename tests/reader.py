"""A sheet's records from its bytes, or the refusal, written from document 01."""


class Refused(Exception):
    """A refusal's number and place."""


class Sheet:
    """What a sheet says, each record as its numbers, the kind first."""

    def __init__(self):
        self.props, self.patterns, self.phrases, self.base, self.root = [], [], [], [], None


class Reader:
    """The bytes and the place of the next number."""

    def __init__(self, source):
        self.source, self.at, self.sheet = source, 0, Sheet()
        self.sizes = []

    def number(self):
        """The next number; 3 where the bytes end, 4 where it is not in its shortest form or over 65,535."""
        start, value = self.at, 0
        for group in range(3):
            if start + group == len(self.source):
                raise Refused(3, start)
            byte = self.source[start + group]
            value += (byte & 127) << (7 * group)
            if byte < 128:
                if (group and not byte) or value > 65535:
                    break
                self.at = start + group + 1
                return value
        raise Refused(4, start)

    def judged(self, right, why):
        start, value = self.at, self.number()
        if not right(value):
            raise Refused(why, start)
        return value

    def ranged(self, low, top):
        return self.judged(lambda v: low <= v <= top, 5)

    def below(self, n):
        return self.judged(lambda v: v < n, 6)

    def of_class(self, *kinds):
        """An earlier phrase of one of these kinds."""
        phrases = self.sheet.phrases
        return self.judged(lambda v: v < len(phrases) and phrases[v][0] in kinds, 6)

    def expression(self):
        return self.of_class(*range(10))

    def deduction(self):
        return self.of_class(*range(16, 23))

    def either(self):
        return self.below(len(self.sheet.phrases))

    def counted(self, low, top, *each):
        """A count, and so many runs of these operands."""
        n = self.ranged(low, top)
        return [n] + [read() for _ in range(n) for read in each]

    def proposition(self):
        kind, n = self.ranged(0, 7), len(self.sheet.props)
        if kind == 0:
            return [kind, self.ranged(0, 255)]
        return [kind] + [self.below(n) for _ in range((0, 0, 1, 2, 2, 2, 2)[kind - 1])]

    def pattern(self):
        start, kind, n = self.at, self.ranged(0, 6), len(self.sheet.patterns)
        if kind == 1:
            record = [kind, self.below(len(self.sheet.props))]
        else:
            record = [kind] + [self.below(n) for _ in range((0, None, 1, 2, 2, 2, 2)[kind])]
        inner = [self.sizes[p] for p in record[1:]] if kind > 1 else []
        binders, parts = sum(b for b, _ in inner) + (kind == 0), sum(p for _, p in inner) + 1
        if binders > 4 or parts > 256:
            raise Refused(5, start)
        self.sizes.append((binders, parts))
        return record

    def clauses(self, body):
        return self.counted(1, 4, lambda: self.below(len(self.sheet.patterns)), body)

    def phrase(self):
        kind = self.judged(lambda v: v <= 9 or 16 <= v <= 22, 5)
        operands = {
            0: lambda: [self.below(len(self.sheet.props))],
            1: lambda: [self.ranged(0, 255)],
            2: lambda: [self.ranged(0, 4)],
            3: lambda: [self.ranged(0, 15)],
            4: lambda: [self.ranged(0, 4), self.expression()],
            5: lambda: [self.ranged(0, 4), self.deduction()],
            6: lambda: [self.expression()] + self.counted(0, 4, self.expression),
            7: lambda: [self.expression(), self.expression()],
            8: lambda: [self.of_class(4, 5)],
            9: lambda: [self.expression()] + self.clauses(self.expression),
            16: lambda: [self.expression()] + self.counted(0, 4, self.either),
            17: lambda: [self.expression(), self.deduction()],
            18: lambda: [self.expression(), self.deduction()],
            19: lambda: [self.either(), self.deduction()],
            20: lambda: [self.expression(), self.deduction()],
            21: lambda: self.counted(1, 8, self.deduction),
            22: lambda: [self.either()] + self.clauses(self.deduction),
        }
        return [kind] + operands[kind]()

    def whole(self):
        """The five parts; 7 where bytes follow."""
        for table, low, top, record in (
            (self.sheet.props, 0, 512, self.proposition),
            (self.sheet.patterns, 0, 128, self.pattern),
            (self.sheet.phrases, 1, 512, self.phrase),
            (self.sheet.base, 0, 64, lambda: self.below(len(self.sheet.props))),
        ):
            for _ in range(self.ranged(low, top)):
                table.append(record())
        self.sheet.root = self.deduction()
        if self.at < len(self.source):
            raise Refused(7, self.at)
        return self.sheet


def read(source):
    return Reader(source).whole()
