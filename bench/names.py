#!/usr/bin/env python3
"""Writes a model of 1,048,576 bytes, the most that a file may have, with about a thousand names: 900 relations, and
axioms that name them over and over.

    names.py >big.rml
"""
import random

LIMIT = 1048576


def conjunction(length):
    """A conjunction of atoms, of about so many bytes."""
    parts, size = [], 0
    while size < length:
        number = random.randrange(900)
        parts.append(f"r{number}(v)" if number % 2 else f"~r{number}")
        size += len(parts[-1]) + 3
    return " & ".join(parts)


def main():
    random.seed(1)
    lines = ["sort a", "variable v : a"]
    lines += [f"relation r{number}(a)" if number % 2 else f"relation r{number}" for number in range(900)]
    size = sum(len(line) + 1 for line in lines)
    for number in range(97):
        if size > LIMIT - 12000:
            break
        lines.append(f"axiom n{number}: {conjunction(11400)}")
        size += len(lines[-1]) + 1
    lines.append("#" + "x" * (LIMIT - size - 2))
    print("\n".join(lines))


if __name__ == "__main__":
    main()
