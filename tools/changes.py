"""What changed in signatures, clauses, definitions and theorems: usage: changes.py CONTRACTS OLD NEW, the kit's contracts.py and two folders with crates/.
Prints what changed, old (-) and new (+) side by side, and what is gone. Functions and definitions by contracts.py; public theorems of proofs/ here, by crate and name."""

import glob
import json
import os
import re
import subprocess
import sys


def theorems(folder):
    """{(crate, name): statement} of the public theorems in proofs/, answers and invariants aside."""
    found = {}
    for path in sorted(glob.glob(f"{folder}/crates/*/proofs/**/*.antt", recursive=True)):
        if os.path.basename(path) in ("Answers.antt", "Invariants.antt", "Goals.antt", "Lib.antt"):
            continue
        crate = path[len(folder):].split("/")[2]
        lines = open(path, encoding="utf-8").read().split("\n")
        for i, line in enumerate(lines):
            m = re.match(r"( *)(?:abbrev |unfoldable )?pub ([^\s:]+) : (.*)", line)
            if not m:
                continue
            said = [m[3]]
            for more in lines[i + 1:]:
                if not more.startswith(m[1] + " ") or more.strip().startswith(("unfolding", m[2] + " ")):
                    break
                said.append(more.strip())
            found.setdefault((crate, m[2]), []).append(" ".join(said))
    return found


def main():
    contracts, old, new = sys.argv[1:4]
    told = json.loads(subprocess.run([sys.executable, contracts, old, new, "--json"], capture_output=True, text=True, check=True).stdout)
    print("Functions that are gone or renamed\n")
    for name in told["functions not found again"]:
        print(f"  {name}")
    print("\nSignatures\n")
    for name, a, b in told["signatures changed"]:
        print(f"  {name}\n    - {a}\n    + {b}")
    print("\nClauses (requires, then ensures)\n")
    for name, r0, e0, r1, e1 in told["contracts changed"]:
        print(f"  {name}\n    - {clauses(r0, e0)}\n    + {clauses(r1, e1)}")
    for kind in ("ghost items and constants", "definitions"):
        part = told[kind]
        print(f"\n{kind.capitalize()}\n")
        for row in part["gone"]:
            print(f"  gone: {' '.join(row)}")
        for row in part["changed"]:
            print(f"  {' '.join(row[:-2])}")
            print("\n".join([f"    - {t}" for t in row[-2]] + [f"    + {t}" for t in row[-1]]))
    before, after = theorems(old), theorems(new)
    print("\nTheorems of proofs/\n")
    for key in sorted(before):
        if key not in after:
            print(f"  gone: {key[0]} {key[1]}")
        elif sorted(before[key]) != sorted(after[key]):
            print(f"  {key[0]} {key[1]}")
            print("\n".join([f"    - {t}" for t in before[key] if t not in after[key]] + [f"    + {t}" for t in after[key] if t not in before[key]]))


def clauses(asked, given):
    """A contract on one line, a clause's name before it."""
    return "; ".join([f"requires {n} {t}".replace("  ", " ") for n, t in asked] + [f"ensures {n} {t}".replace("  ", " ") for n, t in given])


main()
