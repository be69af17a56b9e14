#!/usr/bin/env python3
"""Holds the colours of both editors to the language's words, on every file of examples/; and tries the completion.

    editors/test.py     the status is 1 where something differs; without vim its part is skipped

Of each file the words and signs outside comments are coloured as the grammar of VS Code has it; each must have the
class of its kind, and names and brackets none. Vim is asked the same of every place, what `:IvyCheck` does with a fault
and with none, and what `:make` does with one where `ivyview` is the compiler. bash is asked what it completes, and zsh
whether it can read its part.
"""
import json
import pathlib
import re
import shutil
import subprocess
import sys
import tempfile

HERE = pathlib.Path(__file__).resolve().parent
sys.path.insert(0, str(HERE.parent / "bench"))
from program import program  # noqa: E402

KINDS = {
    "item": "rml sort define relation function variable axiom conjecture init action final".split(),
    "command": "skip abort assume assert insert remove put".split(),
    "branch": "if else choose or".split(),
    "quantifier": "forall exists ite".split(),
    "truth": "true false".split(),
}
KIND = {word: kind for kind, words in KINDS.items() for word in words}
SCOPES = {"keyword.other.item.rml": "item", "keyword.other.command.rml": "command", "keyword.control.rml": "branch",
          "keyword.operator.quantifier.rml": "quantifier", "constant.language.rml": "truth",
          "constant.numeric.rml": "number", "keyword.operator.rml": "sign", "comment.line.number-sign.rml": "comment"}
TOKEN = re.compile(r"#.*$|[A-Za-z_][A-Za-z0-9_]*|[0-9]+|<->|->|:=|~=|[=~&|*]|[^ \t\r]")


def kind(token):
    """The class of a token, by the language; none for names and brackets."""
    if token.startswith("#"):
        return "comment"
    if token in KIND:
        return KIND[token]
    if re.fullmatch(r"[0-9]{1,9}", token):
        return "number"
    return "sign" if re.fullmatch(r"<->|->|:=|~=|[=~&|*]", token) else ""


def tokens(path):
    """Each token of a file, with its line and its column from 1."""
    for number, line in enumerate(path.read_text(encoding="ascii", errors="replace").split("\n"), 1):
        for found in TOKEN.finditer(line):
            yield number, line, found


def code(path):
    """How many tokens of a file the grammar of VS Code gives another class."""
    grammar = json.loads((HERE / "vscode/syntaxes/rml.tmLanguage.json").read_text())
    rules = [(SCOPES[rule["name"]], re.compile(rule["match"])) for rule in grammar["patterns"]]
    wrong = 0
    for _, line, found in tokens(path):
        given = next((name for name, rule in rules if rule.match(line, found.start())), "")
        wrong += given != kind(found.group())
    return wrong


def vim(paths, room):
    """How many tokens Vim gives another class, and whether `:IvyCheck` goes to a fault and shows a verdict."""
    asked, expected = [], []
    for path in paths:
        asked.append(f"edit {path}")
        for number, _, found in tokens(path):
            asked.append(f"call add(g:told, synIDattr(synID({number}, {found.start() + 1}, 1), 'name'))")
            expected.append("rml" + kind(found.group()).capitalize() if kind(found.group()) else "")
    bad = room / "bad.rml"
    bad.write_text("relation p\nconjecture c:\n  q\n")
    good = room / "good.rml"
    good.write_text("relation p\nconjecture c: p -> p\n")
    asked += [f"edit {bad}", "IvyCheck", "call add(g:told, line('.') . ':' . col('.') . ':' . getqflist()[0].text)",
              f"edit {good}", "IvyCheck", "call add(g:told, string(getqflist()))"]
    expected += ["3:3:unknown name", "[]"]
    # (as `ivyview` prints the fault, with the line and a caret behind it)
    said = f"{bad}:3:3: F7 unknown name", "  q", "  ^"
    asked += [f"edit {bad}", "compiler ivyview", "let &g:errorformat = &l:errorformat", f"cgetexpr {list(said)}",
              "call add(g:told, join(map(getqflist(), "
              "'v:val.lnum . \":\" . v:val.col . \" \" . v:val.nr . v:val.text')))"]
    expected += ["3:3 7unknown name"]
    script = room / "test.vim"
    script.write_text("\n".join(
        ["set nocompatible", f"set runtimepath^={HERE}/vim", "filetype plugin on", "syntax on", "set hidden",
         f"let g:ivycheck = '{program()}'", "let g:told = []", *asked,
         f"call writefile(g:told, '{room}/told')", "qall!"]) + "\n")
    subprocess.run(["vim", "-u", "NONE", "-i", "NONE", "-es", "-S", str(script)], stdin=subprocess.DEVNULL, timeout=60)
    told = (room / "told").read_text().split("\n")[:-1] if (room / "told").exists() else []
    return sum(a != b for a, b in zip(told, expected)) + abs(len(told) - len(expected))


COMPLETED = {
    "": "check emit lrat houdini bmc replay sample --which --prove --first-look --sum",
    "b": "bmc",
    "--prove c": "check",
    "check fl": "flag.rml",
    "check flag.rml --t": "--terms",
    "check flag.rml --terms ": "",
    "bmc flag.rml --s": "--steps",
    "emit flag.rml 3 ": "cnf lrat",
    "emit flag.rml ": "",
    "replay flag.rml fl": "flag.rml",
    "sample ": "",
}


VIEWED = {
    "": "check bmc houdini why replay --help --version",
    "w": "why",
    "check fl": "flag.rml",
    "check flag.rml --l": "--lean",
    "check flag.rml --terms ": "",
    "bmc flag.rml --": "--steps --terms --ground --conflicts --lean --dot --json",
    "why flag.rml --": "--terms --ground --conflicts --json",
    "replay flag.rml --": "--json",
}


def bash():
    """How many beginnings of a command line bash completes otherwise."""
    return completed("ivycheck", COMPLETED) + completed("ivyview", VIEWED)


def completed(name, table):
    wrong = 0
    for begun, expected in table.items():
        words = [name, *begun.split(" ")]
        script = f"""shopt -s progcomp; . {HERE}/completion/{name}.bash
            COMP_WORDS=("$@"); COMP_CWORD=$(($# - 1)); _{name}; echo "${{COMPREPLY[*]}}" """
        told = subprocess.run(["bash", "-c", script, "bash", *words], capture_output=True, text=True,
                              cwd=HERE.parent / "examples").stdout
        wrong += told != expected + "\n"
    return wrong


def has_vim():
    """Whether there is a Vim that can run scripts, which the tiny one cannot."""
    if not shutil.which("vim"):
        return False
    told = subprocess.run(["vim", "--version"], capture_output=True, text=True).stdout
    return "+eval" in told and "+syntax" in told


def main():
    paths = sorted((HERE.parent / "examples").glob("*.rml"))
    wrong = sum(code(path) for path in paths)
    print(f"VS Code: {wrong} differ")
    differ = bash()
    print(f"bash: {differ} differ")
    wrong += differ
    if shutil.which("zsh"):
        differ = subprocess.run(["zsh", "-n", HERE / "completion/_ivycheck"]).returncode
        print(f"zsh: {differ} differ")
        wrong += differ
    else:
        print("skipped, since there is no zsh: its completion")
    if has_vim():
        with tempfile.TemporaryDirectory() as room:
            differ = vim(paths, pathlib.Path(room))
        print(f"Vim: {differ} differ")
        wrong += differ
    else:
        print("skipped, since there is no vim: its colours")
    return 1 if wrong else 0


if __name__ == "__main__":
    sys.exit(main())
