#!/usr/bin/env python3
"""Writes rows on `sample N` for each N from 0 to 40, for crates/rows/data/samples.txt.

    bench/samples.py >crates/rows/data/samples.txt

The numbers are not the program's: the bytes are those of the text that docs/FORMATS.md, "The sample", describes, and
groups and goals are counted by its rule on these. A block that has one path, which does not abort, has a goal for each
conjecture, and none on abort.
"""
MOST = 40


def text(size):
    """Gives the text of the sample of this size."""
    yield "sort node"
    yield "variable v : node"
    for i in range(size + 1):
        yield f"relation r{i}(node)"
    yield "init { " + "; ".join(f"r{i}(x) := false" for i in range(size + 1)) + " }"
    yield "action a0 { v := *; insert r0(v) }"
    for i in range(1, size + 1):
        yield f"action a{i} {{ v := *; assume r{i - 1}(v); insert r{i}(v) }}"
    for i in range(1, size + 1):
        yield f"conjecture c{i}: forall x:node. r{i}(x) -> r{i - 1}(x)"


def main():
    print("# Each sample that can be made, written by bench/samples.py. The format is that of rows.txt.")
    for size in range(MOST + 1):
        lines = list(text(size))
        conjectures = sum(line.startswith("conjecture") for line in lines)
        blocks = sum(line.startswith(("init", "action")) for line in lines)
        print(f"\nrow a sample of size {size}\nword sample\nword {size}")
        print("status 0\noutcome sampled\nwritten all\nloads 0 0\nout")
        print(f"|sample {size}")
        print(f"|bytes {sum(len(line) + 1 for line in lines)}")
        print(f"|groups {blocks * (1 + conjectures) + 1}")
        print(f"|goals {blocks * conjectures}")
        print("|verdict: inductive")


if __name__ == "__main__":
    main()
