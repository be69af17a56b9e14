#!/usr/bin/env python3
"""Writes docs/TRUST.md: the definitions that stand under the clauses of `run`, and how long they are.

    bench/trust.py                  writes the page, and the numbers into README.md
    bench/trust.py --check [TREE]   whether both are of the sources (of the tree in TREE); status 1 where not
    bench/trust.py --of WHAT        each definition under WHAT, and by which it is cited: `run`, a clause of it as
                                    `check`, `inductive`, or a definition, as rml_command/Runs/Safe

It walks definitions: the names in the text of one, as the `use` lines of its page or its module have them, without
those that are bound there (parameters, variables of patterns, of `λ` and of `let`, fields). Counted are the lines of
definitions, without imports, comments and blank lines. A page `specs/declared/..` is written by the compiler: what
stands for it is the declaration in src/. Of a type with a `Model` that is the type of its values (`ghost Value`), since
a clause speaks of values alone; of a trait it is all that it says. Names of the kit are not followed.
"""
import collections
import glob
import os
import re
import sys
import textwrap

HERE = os.path.dirname(os.path.dirname(os.path.abspath(__file__)))
WORD = r"[^\W\d][\w']*(?:-[\w']+)*"
PATH = re.compile(rf"(?<![\w'.-])({WORD})((?:\.{WORD})*)")
FRAME = re.compile(r" *(?:(?:abbrev|unfoldable) )?(?:mutual|module)\b")
HEAD = re.compile(r" *((?:abbrev |unfoldable )?(?:pub )?)((?:data |record )?)(\S+)( :(?= |$))?")
SPEC_USE = re.compile(r"^\s*(?:ghost )?use Rattle\.(\w+)\.specs\.([\w.]+?)(?:\.\{([^}]*)\}| as (\w+))?;?\s*$", re.M)
RUST_USE = re.compile(r"^(?:pub )?use ([\w:]+?)(?:::\{([^}]*)\}| as (\w+))?;", re.M)
ITEM = re.compile(r"(?:pub(?:\(crate\))? )?(?:struct|enum|trait|type|const) (\w+)")
MODEL = re.compile(r"^impl(?:<[^\n]*?>)? (?:\w+::)*Model for (\w+)[^\n]*\{\n(.*?)^\}", re.M | re.S)

TOP = ("ivy_run", "top", "run")
CHECKED = ("model_commands/specs/Check.antt", "IsCheckedModel")
MODEL_OF = ("command_parts/specs/ModelTexts.antt", "IsTheModel")
SAFE = ("rml_command/specs/Runs.antt", "Safe")
INTRO = """# What must be believed

A contract that is proved says what its definitions say, and no more. To believe the headline of the
[README](../README.md), that what the program prints is so, read the contract of the call `run`
([top.rt](../crates/ivy_run/src/top.rt)) and the definitions under it: those that its clauses cite, those that these
cite, and so on. Code, proofs and all other pages are checked, and need not be read.

`bench/trust.py` writes this page, and the gate holds it to the sources. `bench/trust.py --of check` names each
definition under the clause `check`, with the one by which it is cited.

- A page is a file. Lines are those of definitions alone, without imports, comments and blank lines.
- A type of src/ counts as its declaration, or where it has a `Model` as the type of its values; how the fields stand
  for the value is not counted, since the clauses of `run` speak of values alone. A trait counts with its clauses.
- Not counted: the definitions of the kit's library, and what else the README names under "What is trusted".
- Each clause but `same` speaks of the outcome, and so has the types of the answers of all commands under it.
- `inductive` is the clause `check` without two of the three fields of `IsCheckedModel` (`model_commands`): what is left
  is that the text has this one model, and that no run of it aborts or breaks a conjecture where the verdict is
  `inductive`. The two say that the report has all groups, and that its other lines are right.
- `IsTheModel` says which model a text has, that is, what the language is; `Safe` is what is said of the model."""
PAGES = """## By page

A row in bold is a crate. The second column counts definitions under `run`; each other column counts the lines of a page
that stand under what it is headed by."""
TITLES = {
    "run": "`run`, all clauses",
    "inductive": "`inductive`, of the clause `check`",
    "IsTheModel": "`IsTheModel`, which model a text has",
    "Safe": "`Safe`, that no run aborts or breaks a conjecture",
}
SENTENCE = (
    "*How much that is*: under the clauses of `run`, the call that `main` of `ivycheck` makes, stand {2} definitions "
    "({3} lines, on {1} pages of {0} crates). Under the verdict `inductive` alone stand {6} of them ({7} lines, on {5} "
    "pages of {4} crates), and {8} of these ({9} lines) say what a run is and when a model is safe. "
    "[docs/TRUST.md](docs/TRUST.md) lists them by page."
)
# What binds names: parameters, `λ`, `let`, fields of records and local functions; fields and parameters of src/.
BINDERS = [re.compile(pattern, re.M) for pattern in (
    rf"[({{]((?:{WORD} )+): ", r"λ ([^.]*?)\. ", rf"\blet ({WORD})", rf"^ +(?:pub )?((?:{WORD} )+):(?: |$)",
    rf"^ +(?:pub )?({WORD}): ", rf"[(,]({WORD}): ")]
FIELD = re.compile(rf" *(?:pub )?({WORD}) :(?= |$)")
LABEL = re.compile(rf"(?:(?<=[{{;])|^) *{WORD} = ", re.M)

# A definition: its key (file and name), the lines that count, its parts (each a scope of its own for what is bound),
# the frames around it (lines of `module` and `mutual`), the scope of its page, the names that it gives, and of what
# kind it is: `data`, `record`, "" (a function); of src/ `enum` or `type`.
Definition = collections.namedtuple("Definition", "key lines parts frames scope makes kind")
# What the names and the aliases of a page or a module stand for: a key, or a declaration of src/ by crate and path.
Scope = collections.namedtuple("Scope", "names aliases")
Declared = collections.namedtuple("Declared", "crate path")


def read(path):
    """Gives the text of a file."""
    with open(path, encoding="utf-8") as file:
        return file.read()


def bare(text, comment):
    """Gives lines without what stands in strings, and without comments."""
    for line in text.split("\n"):
        yield re.sub(comment + r".*", "", re.sub(r'"(?:[^"\\]|\\.)*"', '""', line)).rstrip()


class Page:
    """A page of definitions: what it defines, in order."""

    def __init__(self, file, text):
        self.file, self.scope = file, imports(text)
        self.frames, self.found = [], []
        for line in bare(SPEC_USE.sub("", text), "--"):
            if line and not re.match(r" *(use|pub mod|infixl|infixr|infix) ", line):
                self.take(line)

    def take(self, line):
        """Takes one more line: it begins a frame or a definition, or goes on with one."""
        indent = len(line) - len(line.lstrip())
        while self.frames and indent <= self.frames[-1][0]:
            self.frames.pop()
        level = self.frames[-1][0] + 2 if self.frames else 0
        head = HEAD.match(line)
        if indent == level and FRAME.match(line):
            self.frames.append((indent, [line]))
        elif indent == level and any(head.group(1, 2, 4)):
            frames = [lines for _, lines in self.frames]
            self.found.append((head.group(3), head.group(2).strip(), level, [line], frames))
        elif self.frames and self.frames[-1][1][-1].lstrip()[:1] in "m({" and not ends_module(self.frames[-1][1]):
            self.frames[-1][1].append(line)
        elif self.found:
            self.found[-1][3].append(line)

    def definitions(self):
        """Gives the definitions of the page."""
        for name, kind, level, lines, frames in self.found:
            makes = [name]
            for line in lines[1:] if kind == "data" else []:
                made = re.match(rf" {{{level + 2}}}(\S+(?: \S+)*?) :(?: |$)", line)
                makes += made.group(1).split() if made else []
            parts = [lines] if kind == "data" else split_at(lines, level + 2 if kind else level)
            yield Definition((self.file, name), lines, parts, frames, self.scope, makes, kind)


def ends_module(lines):
    """Whether the lines of a frame are all that it has."""
    return lines[0].lstrip().split()[-1] == "mutual" or " where" in " ".join(lines)


def split_at(lines, level):
    """Parts the lines of a function into its type and its equations, or those of a record into its head and fields."""
    parts = [[lines[0]]]
    for line in lines[1:]:
        if len(line) - len(line.lstrip()) == level and line.strip() != "}":
            parts.append([])
        parts[-1].append(line)
    return parts


def imports(text):
    """Gives the scope of the `use` lines of a page, or of the `ghost use` lines of a module."""
    names, aliases = {}, {}
    for crate, page, listed, alias in SPEC_USE.findall(text):
        path = page.split(".")
        for item in filter(None, map(str.strip, listed.split(","))):
            name, _, new = item.partition(" as ")
            names[(new or name).strip()] = target(crate, path, name.strip())
        if alias:
            aliases[alias] = target(crate, path, "")
    return Scope(names, aliases)


def target(crate, path, name):
    """Gives what a name of a page stands for: a definition's key, or a declaration by its crate and path in src/."""
    if path[0] != "declared":
        return (f"{crate}/specs/{'/'.join(path)}.antt", name)
    owners = [part for part in path[1:] if not re.match("The[A-Z]", part)]
    return Declared(crate, (*owners, name) if path[-1] == "TheConstants" else tuple(owners))


class Module:
    """A module of src/: its types and traits, and the names that it imports."""

    def __init__(self, file, text):
        self.file = file
        text = "\n".join(bare(text, "//"))
        self.scope = imports(text)
        models = {name: body for name, body in MODEL.findall(text)}
        self.items = {}
        for name, lines in items(text.split("\n")):
            if name in models:
                lines = value_of(models[name])
            self.items[name] = lines
        self.inner = {name: imports(body) for name, body in models.items()}
        self.uses = rust_imports(text)

    def definitions(self):
        """Gives the types, traits and constants of the module."""
        for name, lines in self.items.items():
            inner = self.inner.get(name, Scope({}, {}))
            scope = Scope({**self.scope.names, **inner.names}, {**self.scope.aliases, **inner.aliases})
            kind = "enum" if " enum " in f" {lines[0]}" else "type"
            yield Definition((self.file, name), lines, [lines], [], scope, [name], kind)


def items(lines):
    """Gives the name and the lines of each type, trait and constant."""
    for at, line in enumerate(lines):
        found = ITEM.match(line)
        if found:
            end = at
            while not (lines[end] == "}" or (lines[end].endswith(";") and not lines[end].startswith(" "))):
                end += 1
            yield found.group(1), [line for line in lines[at:end + 1] if line]


def value_of(body):
    """Gives the lines of `ghost Value` of the body of a model."""
    lines = body.split("\n")
    at = next(number for number, line in enumerate(lines) if line.startswith("    ghost Value"))
    end = next(number for number in range(at, len(lines)) if lines[number].endswith("};"))
    return lines[at:end + 1]


def rust_imports(text):
    """Gives the path of each name that the `use` lines of a module bring."""
    paths = {}
    for path, listed, alias in RUST_USE.findall(text):
        for item in filter(None, map(str.strip, listed.split(","))):
            inner, _, new = item.partition(" as ")
            paths[new or inner.split("::")[-1]] = (*path.split("::"), *inner.split("::"))
        if not listed:
            paths[alias or path.split("::")[-1]] = tuple(path.split("::"))
    return paths


class Sources:
    """All pages and modules of a tree: what each name stands for."""

    def __init__(self, tree):
        self.tree, self.known, self.modules, self.paths = tree, {}, {}, {}
        crates = [line.split(":")[0].split()[0] for line in read(f"{tree}/crates.txt").split("\n")
                  if ":" in line and not line.startswith("#")]
        for crate in crates:
            for file in sorted(glob.glob(f"{tree}/crates/{crate}/specs/*.antt")):
                self.add(Page(f"{crate}/specs/{os.path.basename(file)}", read(file)))
            self.add_modules(crate, ())
        self.operators = sorted({name for _, name in self.known if "◌" in name})

    def add_modules(self, crate, inner):
        """Adds the modules of a crate below a folder of src/."""
        folder = "/".join([self.tree, "crates", crate, "src", *inner])
        for file in sorted(os.listdir(folder)):
            if os.path.isdir(f"{folder}/{file}"):
                self.add_modules(crate, (*inner, file))
            elif file.endswith(".rt"):
                path = () if file in ("lib.rt", "main.rt") and not inner else (*inner, file[:-3])
                module = Module("/".join([crate, "src", *inner, file]), read(f"{folder}/{file}"))
                self.modules[crate, path] = module
                self.paths[module.file] = (crate, path)
                self.add(module)

    def add(self, part):
        """Adds what a page or a module defines, by each name that it gives."""
        for definition in part.definitions():
            for name in definition.makes:
                self.known.setdefault((definition.key[0], name), definition)

    def declaration(self, crate, path):
        """Gives the key of a type by its path in a crate, through `pub use` lines; or none."""
        if not path:
            return None
        module = self.modules.get((crate, path[:-1]))
        if module and path[-1] in module.items:
            return (module.file, path[-1])
        if module and path[-1] in module.uses:
            return self.imported(crate, path[:-1], module.uses[path[-1]])
        return None

    def imported(self, crate, at, path):
        """Gives the key of what a path of a `use` line stands for, in a module of a crate."""
        if path[0] == "crate":
            return self.declaration(crate, path[1:])
        if (crate, (*at, path[0])) in self.modules:
            return self.declaration(crate, (*at, *path))
        return self.declaration(path[0], path[1:])

    def settle(self, goal):
        """Gives the key of the definition that gives a name; none where it is of the kit."""
        if isinstance(goal, Declared):
            goal = self.declaration(*goal)
        return self.known[goal].key if goal in self.known else None

    # What a definition cites.

    def stands_for(self, definition, word):
        """Gives the key of what a word in a definition stands for where nothing binds it; none for one of the kit."""
        file = definition.key[0]
        if (file, word) in self.known:
            return self.known[file, word].key
        if word in definition.scope.names:
            return self.settle(definition.scope.names[word])
        crate, path = self.paths.get(file, ("", ()))
        found = self.declaration(crate, (*path, word)) if crate else None
        return found if found in self.known else None

    def behind_alias(self, definition, alias, word):
        """Gives the key of what `alias.word` stands for."""
        goal = definition.scope.aliases[alias]
        return self.settle(goal if isinstance(goal, Declared) else (goal[0], word))

    def is_maker(self, definition, word):
        """Whether a word of a pattern is a constructor, and no variable."""
        key = self.stands_for(definition, word)
        found = self.known.get(key)
        if not found:
            return False
        return word != key[1] if found.kind == "data" else found.kind in ("type", "enum") and word[0].isupper()

    def variables(self, definition, part):
        """Gives the variables of the patterns of an equation."""
        head = re.split(r" =(?:\s|$)", "\n".join(part))[0]
        words = [first for first, rest in PATH.findall(head) if first not in definition.scope.aliases or not rest]
        return {word for word in words if not self.is_maker(definition, word)} - {definition.key[1]}

    def cited_by(self, definition):
        """Gives the keys of what a definition cites."""
        frames = "\n".join(line for lines in definition.frames for line in lines)
        outer, cited = binders(frames), self.cited_in(definition, frames, binders(frames))
        for number, part in enumerate(definition.parts):
            text = LABEL.sub(" ", "\n".join(part))
            if definition.kind == "enum":
                text = re.sub(r"^    \w+", "", text, flags=re.M)
            field = FIELD.match(text) if definition.kind == "record" and number else None
            if field:
                text = text[field.end():]
            bound = outer | binders(text)
            if number and not definition.kind:
                bound |= self.variables(definition, part)
            cited |= self.cited_in(definition, text, bound)
            if definition.kind == "record":
                outer |= {field.group(1)} if field else bound
        return cited

    def cited_in(self, definition, text, bound):
        """Gives the keys of what a text cites where these names are bound in it."""
        cited = set()
        for word, rest in PATH.findall(text):
            behind = rest.split(".")[1] if rest else ""
            if word in definition.scope.aliases and behind and (word not in bound or behind[0].isupper()):
                cited.add(self.behind_alias(definition, word, behind))
            elif word not in bound:
                cited.add(self.stands_for(definition, word))
        symbols = set(text.split())
        for name in self.operators:
            if set(filter(None, name.split("◌"))) <= symbols:
                cited.add(self.stands_for(definition, name))
        return cited - {None, definition.key}

    def under(self, seeds, cuts=()):
        """Gives the keys under these, each with the key by which it was met first; a cut stands for its definition."""
        cuts = {definition.key: definition for definition in cuts}
        met, todo = dict.fromkeys(sorted(seeds)), sorted(seeds)
        for key in todo:
            for below in sorted(self.cited_by(cuts.get(key, self.known[key]))):
                if below not in met:
                    met[below] = key
                    todo.append(below)
        return met


def binders(text):
    """Gives what a text binds: its parameters, the variables of `λ` and `let`, and its fields."""
    bound = set()
    for pattern in BINDERS:
        for found in pattern.findall(text):
            bound.update(re.findall(WORD, re.sub(r" : [^()]*", " ", found)))
    return bound


def clauses(sources, crate, module, name):
    """Gives what each clause of a public function cites by itself, with the types of what it speaks of."""
    file = f"{crate}/src/{module}.rt"
    text = "\n".join(bare(read(f"{sources.tree}/crates/{file}"), "//"))
    head = text[re.search(rf"^pub fn {name}\b", text, re.M).start():]
    head, *parts = re.split(r"^    ensures (\w+) ", head[:head.index("\n{")], flags=re.M)
    types = {"result": head[head.index("->"):]}
    types.update(re.findall(r"(\w+): ([^,>\n]+)", head))

    def cited(words, met=()):
        """Gives the keys of these words, and of the types of those that the head gives a type."""
        keys = {sources.stands_for(call, word) for word in words}
        for word in set(words) & set(types) - set(met):
            keys |= cited(re.findall(WORD, types[word]), (*met, word))
        return keys

    call = Definition((file, name), [], [], [], imports(text), [name], "call")
    for clause, body in zip(parts[::2], parts[1::2]):
        yield clause, cited([first for first, _ in PATH.findall(body)]) - {None}


def only(definition, *fields):
    """Gives a record with these fields alone."""
    lines = [line for line in definition.lines
             if not line.startswith("  pub ") or line.split()[1] in fields]
    return definition._replace(lines=lines, parts=split_at(lines, 2))


class Measured:
    """What stands under some definitions: the pages, and of each its definitions and lines."""

    def __init__(self, sources, seeds, cuts=()):
        self.met = sources.under(seeds, cuts)
        self.definitions = collections.Counter(file for file, _ in self.met)
        self.lines, frames = collections.Counter(), set()
        cut = {definition.key: definition for definition in cuts}
        for key in self.met:
            definition = cut.get(key, sources.known[key])
            for lines in [definition.lines] + definition.frames:
                if id(lines) not in frames:
                    frames.add(id(lines))
                    self.lines[key[0]] += len(lines)

    def totals(self):
        """Gives how many crates, pages, definitions and lines there are."""
        return (len({crate_of(file) for file in self.lines}), len(self.lines), len(self.met), sum(self.lines.values()))


def crate_of(file):
    """Gives the crate of a page."""
    return file.split("/")[0]


def measures(sources):
    """Gives what stands under `run`, under each of its clauses, and under parts of `check`, by name."""
    found = dict(clauses(sources, *TOP))
    safe = only(sources.known[CHECKED], "safe")
    parts = {clause: Measured(sources, seeds) for clause, seeds in found.items()}
    return {
        "run": Measured(sources, set().union(*found.values())),
        **parts,
        "inductive": Measured(sources, found["check"], [safe]),
        "IsTheModel": Measured(sources, [MODEL_OF]),
        "Safe": Measured(sources, [SAFE]),
    }


def row(cells):
    """Gives the line of a table."""
    return "| " + " | ".join(str(cell) for cell in cells) + " |"


def header(cells):
    """Gives the two lines that a table begins with."""
    return [row(cells), "|" + "---|" * len(cells)]


def page(sources, measured):
    """Gives the text of docs/TRUST.md."""
    lines = [INTRO, "", *header(["What stands under", "Crates", "Pages", "Definitions", "Lines"])]
    for name, one in measured.items():
        lines.append(row([TITLES.get(name, f"its clause `{name}`")] + [f"{count:,}" for count in one.totals()]))
    lines += ["", PAGES, "", *header(["Page", "Definitions"] + [f"`{name}`" for name in measured])]
    whole = measured["run"]
    for crate in sorted({crate_of(file) for file in whole.lines}):
        files = sorted(file for file in whole.lines if crate_of(file) == crate)
        lines.append(counts(f"**{crate}**", files, measured))
        for file in files:
            shown = file.split("/", 1)[1].removesuffix(".antt")
            lines.append(counts(f"[{shown}](../crates/{file})", [file], measured))
    return "\n".join(lines) + "\n"


def counts(title, files, measured):
    """Gives the row of some files: their definitions under `run`, and their lines under each."""
    numbers = [sum(measured["run"].definitions[file] for file in files)]
    numbers += [sum(one.lines[file] for file in files) for one in measured.values()]
    return row([title] + [f"{number:,}" if number else "" for number in numbers])


def with_numbers(text, measured):
    """Gives README.md with its sentence of numbers as they are."""
    of = {name: one.totals() for name, one in measured.items()}
    said = SENTENCE.format(*[f"{count:,}" for count in of["run"] + of["inductive"] + of["Safe"][2:]])
    new = textwrap.fill(said, 120, initial_indent="- ", subsequent_indent="  ", break_on_hyphens=False)
    changed, times = re.subn(r"^- \*How much that is\*: .*?(?=\n- |\n\n)", lambda _: new, text, flags=re.M | re.S)
    if times != 1:
        sys.exit("trust.py: README.md has to have one item that begins with *How much that is*")
    return changed


def tell(sources, measured, what):
    """Prints the definitions under something, each with the one by which it was met first."""
    if what.count("/") == 2:
        crate, name, word = what.split("/")
        key = next((key for key in sources.known if key[1] == word and key[0].startswith(f"{crate}/")
                    and key[0].split("/")[-1].split(".")[0] == name), None)
        one = Measured(sources, [sources.known[key].key]) if key else None
    else:
        one = measured.get(what)
    if not one:
        sys.exit(f"trust.py: {what} is neither a definition nor one of {', '.join(measured)}")
    for key, by in one.met.items():
        print(" ".join(key), "" if by is None else f"by {' '.join(by)}")
    print("{:,} crates, {:,} pages, {:,} definitions, {:,} lines".format(*one.totals()))


def main(words):
    """Does what the words ask for, and gives the status."""
    asked, tree = words[:1], words[1] if words[:1] == ["--check"] and words[1:] else HERE
    sources = Sources(tree)
    measured = measures(sources)
    if asked == ["--of"] and len(words) == 2:
        return tell(sources, measured, words[1])
    if words and asked != ["--check"] or len(words) > 2:
        sys.exit(__doc__)
    readme, trust = f"{tree}/README.md", f"{tree}/docs/TRUST.md"
    wanted = {trust: page(sources, measured), readme: with_numbers(read(readme), measured)}
    old = [path for path, text in wanted.items() if not os.path.exists(path) or read(path) != text]
    if asked and old:
        names = " and ".join(os.path.relpath(path, tree) for path in old)
        print(f"{names}: not of these sources; run bench/trust.py")
        return 1
    for path in old if not asked else []:
        with open(path, "w", encoding="utf-8") as file:
            file.write(wanted[path])
    return 0


if __name__ == "__main__":
    sys.exit(main(sys.argv[1:]))
