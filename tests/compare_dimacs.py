#!/usr/bin/env python3
"""Compares the program dimacs with tests/reference.py on random texts: tests/compare_dimacs.py PROGRAM [COUNT [SEED]]."""
import os
import random
import subprocess
import sys

sys.path.insert(0, os.path.dirname(os.path.abspath(__file__)))
import reference

WORDS = ["p", "cnf", "d", "c", "0", "00", "-0", "01", "1", "-1", "2", "-2", "3", "4", "-5", "512", "513", "65536", "-65537",
         "4294967297", "18446744073709551617", "+1", "x", "-", "1.", "\xff"]
PARTS = [" ", " ", " ", "\n", "\n", "\t", "\r\n", "\nc note 1 0\n", "  ", "\r"]


def noise(rng):
    return "".join(rng.choice(WORDS) + rng.choice(PARTS) for _ in range(rng.randrange(12)))


def formula(rng):
    v = rng.choice([0, 1, 2, 3, 5, 9, 512, 513])
    clauses = []
    for _ in range(rng.randrange(5)):
        literals = [rng.choice([1, -1]) * rng.randint(1, max(1, v)) for _ in range(rng.randrange(5))]
        if rng.random() < 0.6:
            literals = list({abs(l): l for l in literals}.values())
        clauses.append(literals)
    count = len(clauses) + rng.choice([0, 0, 0, 0, 1, -1])
    words = ["p", "cnf", str(v), str(max(0, count))]
    for c in clauses:
        words += [str(l) for l in c] + ["0"]
    for _ in range(rng.choice([0, 0, 0, 1, 2])):
        words.insert(rng.randrange(len(words) + 1), rng.choice(WORDS))
    if rng.random() < 0.2:
        words = words[:rng.randrange(len(words) + 1)]
    return rng.choice(["", "", "c first\n", " "]) + "".join(w + rng.choice(PARTS) for w in words)


def main():
    program = sys.argv[1]
    count = int(sys.argv[2]) if len(sys.argv) > 2 else 1000
    rng = random.Random(int(sys.argv[3]) if len(sys.argv) > 3 else 1)
    answers = {}
    for i in range(count):
        text = (noise(rng) if rng.random() < 0.2 else formula(rng)).encode("latin-1")
        expected = reference.standard_form(text)
        got = subprocess.run([program], input=text, stdout=subprocess.PIPE, check=True).stdout.decode()
        if got != expected:
            print(f"differs on {text!r}: expected {expected!r}, got {got!r}")
            return 1
        kind = " ".join(expected.split()[:2]) if expected.startswith("refused") else "formula"
        answers[kind] = answers.get(kind, 0) + 1
    print(f"{count} texts without a difference: " + ", ".join(f"{k} {n}" for k, n in sorted(answers.items())))
    return 0


sys.exit(main())
