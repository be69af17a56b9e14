#!/usr/bin/env python3
"""Names the program that the scripts of this folder run: the one that the variable IVYCHECK names, or else the one that
./ivycheck would run; so IVYVIEW and ./ivyview. As a script it prints its path, with the word `ivyview` that of the
other. It ends with 2 where there is none.
"""
import functools
import os
import subprocess
import sys

HERE = os.path.dirname(os.path.dirname(os.path.abspath(__file__)))


@functools.lru_cache(maxsize=None)
def program(name="ivycheck"):
    """Gives the program's path."""
    named = os.environ.get(name.upper())
    if named:
        found = os.path.abspath(named)
        if not os.path.isfile(found) or not os.access(found, os.X_OK):
            stop(f"{name.upper()} names {named}, and no program stands there")
        return found
    # (the folder of a clone may have a name that is no text)
    asked = subprocess.run([f"{HERE}/{name}", "--which"], capture_output=True, text=True, errors="surrogateescape")
    if asked.returncode:
        stop(asked.stderr.strip())
    return asked.stdout.strip()


def stop(why):
    print(f"{os.path.basename(sys.argv[0])}: {why}", file=sys.stderr)
    sys.exit(2)


def split(words):
    """Parts words at `--`: those before it, and those behind it."""
    at = words.index("--") if "--" in words else len(words)
    return words[:at], words[at + 1:]


def lanes():
    """Gives how many processors this process may run on."""
    return len(os.sched_getaffinity(0))


def examples():
    """Gives the paths of the files of examples/, in order."""
    return [f"{HERE}/examples/{name}" for name in sorted(os.listdir(f"{HERE}/examples"))]


if __name__ == "__main__":
    sys.stdout.buffer.write(os.fsencode(program(*sys.argv[1:])) + b"\n")
