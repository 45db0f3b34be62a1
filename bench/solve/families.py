#!/usr/bin/env python3
"""Writes problems in DIMACS form into a folder: random clauses of three literals near the threshold, and pigeonholes.

usage: families.py FOLDER [SEED]

A random problem has 4.26 clauses for each variable, about half of them with a model. The files are
also what other solvers read, as `minisat FILE` and `cadical FILE`.
"""
import os
import random
import sys

VARIABLES = (50, 100, 150, 200)
COPIES = 3
RATIO = 4.26
HOLES = (6, 7, 8)


def random_clauses(rng, variables):
    """Clauses of three different variables in random signs."""
    clauses = []
    for _ in range(round(RATIO * variables)):
        chosen = rng.sample(range(1, variables + 1), 3)
        clauses.append([v if rng.random() < 0.5 else -v for v in chosen])
    return clauses


def pigeonhole(holes):
    """One pigeon more than holes: each has a hole, and no two have the same. There is no model."""
    def is_in(pigeon, hole):
        return pigeon * holes + hole + 1

    pigeons = range(holes + 1)
    clauses = [[is_in(p, h) for h in range(holes)] for p in pigeons]
    clauses += [[-is_in(p, h), -is_in(q, h)] for h in range(holes) for p in pigeons for q in range(p)]
    return clauses


def write(folder, name, variables, clauses):
    with open(os.path.join(folder, name + ".cnf"), "w") as file:
        file.write(f"p cnf {variables} {len(clauses)}\n")
        for clause in clauses:
            file.write(" ".join(map(str, clause)) + " 0\n")


def main():
    folder = sys.argv[1]
    rng = random.Random(int(sys.argv[2]) if len(sys.argv) > 2 else 1)
    os.makedirs(folder, exist_ok=True)
    for variables in VARIABLES:
        for copy in range(1, COPIES + 1):
            write(folder, f"random-{variables}-{copy}", variables, random_clauses(rng, variables))
    for holes in HOLES:
        write(folder, f"holes-{holes}", holes * (holes + 1), pigeonhole(holes))


main()
