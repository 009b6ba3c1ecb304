#!/usr/bin/env python3
"""Checks an LRAT proof that the clauses of a DIMACS CNF file have no model.

    lrat.py CLAUSES PROOF

A line `ID LITERALS 0 HINTS 0` adds a clause. It has to follow by unit propagation along its hints,
in their order: with its own literals false, each hint but the last names a clause with exactly one
literal that is not false, and that one is not true yet; it becomes true. The last hint names a clause
whose literals are all false. `ID d IDS 0` deletes clauses. The proof has to add the empty clause.
Negative hints (resolution asymmetric tautologies) are not taken. This file imports nothing of tv's.

Status: 0 the clauses have no model, 1 the proof doesn't show it, 2 a file can't be read.
"""
import sys


class Fault(Exception):
    """Why a proof doesn't show that there is no model."""


def clauses_of(path):
    """The clauses of a DIMACS CNF file, numbered from 1."""
    found, current, announced = {}, [], None
    with open(path) as file:
        for line in file:
            words = line.split()
            if not words or words[0] == "c":
                continue
            if words[0] == "p":
                announced = int(words[3])
                continue
            for literal in map(int, words):
                if literal:
                    current.append(literal)
                else:
                    found[len(found) + 1] = tuple(current)
                    current = []
    if current or announced != len(found):
        raise ValueError(f"{path}: {announced} clauses announced, {len(found)} found")
    return found


def check(clauses_path, proof_path):
    """The number of clauses that the proof adds; Fault where it doesn't show that there is no model."""
    clauses = clauses_of(clauses_path)
    added, is_empty = 0, False
    with open(proof_path) as file:
        for number, line in enumerate(file, 1):
            words = line.split()
            if not words or words[0] == "c":
                continue
            if words[1] == "d":
                delete(clauses, list(map(int, words[2:])), number)
                continue
            name, literals, hints = parsed(list(map(int, words)), number)
            if name in clauses:
                raise Fault(f"line {number}: clause {name} is there already")
            propagate(clauses, literals, hints, number)
            clauses[name] = literals
            added += 1
            is_empty |= not literals
    if not is_empty:
        raise Fault("the empty clause is not added")
    return added


def parsed(numbers, line):
    """A line's clause number, literals and hints."""
    if numbers.count(0) != 2 or numbers[-1] != 0:
        raise Fault(f"line {line}: not a line of LRAT")
    middle = numbers.index(0)
    return numbers[0], tuple(numbers[1:middle]), numbers[middle + 1:-1]


def delete(clauses, names, line):
    if names[-1:] != [0]:
        raise Fault(f"line {line}: not a line of LRAT")
    for name in names[:-1]:
        if clauses.pop(name, None) is None:
            raise Fault(f"line {line}: there is no clause {name}")


def propagate(clauses, literals, hints, line):
    """Ends where the clause of these literals follows along the hints."""
    false = set(literals)
    for place, hint in enumerate(hints):
        if hint not in clauses:
            raise Fault(f"line {line}: there is no clause {hint}")
        left = [literal for literal in clauses[hint] if literal not in false]
        if not left:
            if place + 1 < len(hints):
                raise Fault(f"line {line}: clause {hint} is false, and hints follow")
            return
        if len(left) > 1 or -left[0] in false:
            raise Fault(f"line {line}: clause {hint} is not unit")
        false.add(-left[0])
    raise Fault(f"line {line}: no hint is false")


def main():
    if len(sys.argv) != 3:
        print(__doc__, file=sys.stderr)
        return 2
    try:
        print(f"no model; {check(sys.argv[1], sys.argv[2])} clauses were added")
        return 0
    except Fault as fault:
        print(f"{sys.argv[2]}: {fault}")
        return 1
    except (OSError, ValueError, IndexError) as error:
        print(f"lrat.py: {error}", file=sys.stderr)
        return 2


if __name__ == "__main__":
    sys.exit(main())
