#!/usr/bin/env python3
# texts.py PROGRAM: 4,000 texts in decimal, right and wrong, given to the command's program; what it answers is held to a reading of its own here.
# A text that says bytes must be answered as those bytes are; another must be UNREADABLE, for its first fault, with line and column.
import random
import subprocess
import sys

C1 = "3 0 0 0 1 4 0 1 0 10 3 5 3 6 3 4 0 2 0 1 0 0 16 0 1 3 16 1 1 3 16 2 2 4 5 21 3 6 7 8 1 2 9".split()
WHITE = [" ", "\n", "\t", "\r", "  ", "\n\n", " \r\n"]


def some_text():
    if random.random() < 0.6:
        return bytes(random.choice(b"0123456789 \n\t\r 255 256 /:") for _ in range(random.randint(0, 40)))
    numbers = C1 + [str(random.randint(0, 255)) for _ in range(random.randint(0, 3))]
    text = "".join(random.choice(WHITE) + "0" * random.randint(0, 2) + n for n in numbers) + random.choice(["", "\n"])
    if random.random() < 0.3:
        at = random.randrange(len(text))
        text = text[:at] + random.choice("x,-/:\x00\xff256789") + text[at:]
    return text.encode("latin1")


def reading(text):
    """The bytes that a text says, or what is wrong with it."""
    said, begun = [], b""
    lines = text.split(b"\n")
    for number, line in enumerate(lines, 1):
        for column, c in enumerate(line + b" ", 1):
            c = bytes([c])
            if c.isdigit():
                begun += c
                if int(begun) > 255:
                    return f"at line {number}, column {column - len(begun) + 1} begins a number over 255"
            elif c in (b" ", b"\t", b"\r"):
                if begun:
                    said.append(int(begun))
                begun = b""
            else:
                return f"at line {number}, column {column} stands a character that is neither a digit nor white space"
    return bytes(said)


def request(form, file):
    return b"E %s %d b 0 1024 d - \n" % (form, len(file)) + file


random.seed(1)
texts = [some_text() for _ in range(4000)]
readings = [reading(t) for t in texts]
asked = b"".join(request(b"t", t) + (request(b"b", r) if isinstance(r, bytes) else b"") for t, r in zip(texts, readings))
answer = subprocess.run([sys.argv[1]], input=asked, stdout=subprocess.PIPE, check=True).stdout.decode()
answers = []
for line in answer.splitlines():
    if line.startswith(("ACCEPTED", "REFUSED", "UNREADABLE")):
        answers.append([])
    answers[-1].append(line)
answers = iter(answers)
for text, r in zip(texts, readings):
    got = next(answers, None)
    expected = next(answers, None) if isinstance(r, bytes) else ["UNREADABLE: the sheet's text says no bytes: " + r]
    if got is None or got != expected:
        sys.exit(f"{text}: {got} and not {expected}")
if next(answers, None) is not None:
    sys.exit("more answers than requests")
