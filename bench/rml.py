"""A reader of RML in Python, for scripts that judge the program from outside: it knows nothing of the program's way.

`read(text)` gives a Model: sorts, relations, functions (variables are functions without arguments), axioms, conjectures
and blocks. Expressions are tuples: ("true",), ("rel", r, args), ("eq", a, b), ("not", p), ("and", ps), ("or", ps),
("implies", p, q), ("iff", p, q), ("forall", [(x, sort)..], p), ("exists", ..); terms are ("app", f, args), ("bound", x)
and ("ite", p, a, b). Commands are lists of paths of primitives: ("assume", p), ("set", symbol, names, side),
("havoc", symbol), ("abort",). Of format 2 the names of a listed sort's elements are variables, with an axiom of the
sort's name in front of the file's; and each use of a derived relation is written out. Texts are taken as faultless:
what breaks a rule of the language is not found.
"""
import re

SIGNS = ["<->", "->", ":=", "~=", "{", "}", "(", ")", ",", ";", ":", ".", "=", "~", "&", "|", "*"]
TOKEN = re.compile(r"\s+|#[^\n]*|(?P<word>[A-Za-z_0-9]+)|(?P<sign>" + "|".join(map(re.escape, SIGNS)) + ")")


def tokens(text):
    found, at = [], 0
    while at < len(text):
        it = TOKEN.match(text, at)
        if not it:
            raise ValueError(f"bad byte at {at}")
        if it["word"] or it["sign"]:
            found.append(it.group())
        at = it.end()
    return found + [None]


def aborts(path):
    return bool(path) and path[-1] == ("abort",)


class Model:
    def __init__(self):
        self.sorts, self.relations, self.functions, self.derived = [], {}, {}, {}
        self.axioms, self.conjectures, self.actions = [], [], []
        self.init, self.final = [[]], [[]]

    def stages(self):
        """Gives each stage with its paths, in the order of the report."""
        actions = [(f"action {name}", paths) for name, paths in self.actions]
        return [("init", self.init), *actions, ("final", self.final)]

    def goals(self):
        """Gives each goal as (stage, number of the path, path, name of the conjecture or None, the conjecture)."""
        for stage, paths in self.stages():
            for number, path in enumerate(paths, 1):
                if aborts(path):
                    yield stage, number, path, None, None
            if stage != "final":
                for name, c in self.conjectures:
                    for number, path in enumerate(paths, 1):
                        if not aborts(path):
                            yield stage, number, path, name, c


class Reader:
    def __init__(self, text):
        self.left, self.at, self.model, self.listed_axioms = tokens(text), 0, Model(), []

    def peek(self):
        return self.left[self.at]

    def take(self, wanted=None):
        word = self.left[self.at]
        if wanted is not None and word != wanted:
            raise ValueError(f"{wanted} wanted, {word} found, token {self.at}")
        self.at += 1
        return word

    def skip(self, word):
        if self.peek() == word:
            self.at += 1
            return True
        return False

    def listed(self, one):
        found = [one()]
        while self.skip(","):
            found.append(one())
        return found

    def names(self):
        return self.listed(self.take)

    def file(self):
        if self.skip("rml"):
            self.take()
        while self.peek() is not None:
            self.item(self.take())
        self.model.axioms[:0] = self.listed_axioms
        return self.model

    def item(self, word):
        m = self.model
        name = self.take() if word not in ("init", "final") else None
        if word == "sort":
            m.sorts.append(name)
            if self.skip("="):
                self.elements(name)
        elif word == "define":
            parameters = self.in_parentheses(lambda: self.listed(self.binder))
            self.take(":=")
            m.derived[name] = [x for x, _ in parameters], self.expr()
        elif word == "relation":
            m.relations[name] = self.in_parentheses(self.names)
        elif word == "function":
            self.take(":")
            sorts = self.names()
            self.take("->")
            m.functions[name] = (sorts, self.take())
        elif word == "variable":
            self.take(":")
            m.functions[name] = ([], self.take())
        elif word in ("axiom", "conjecture"):
            self.take(":")
            (m.axioms if word == "axiom" else m.conjectures).append((name, self.expr()))
        elif word == "action":
            m.actions.append((name, self.block()))
        elif word in ("init", "final"):
            setattr(m, word, self.block())
        else:
            raise ValueError(f"no item: {word}")

    def elements(self, sort):
        """The names of a listed sort's elements: no two are of one element, and each element has one."""
        self.take("{")
        names = self.names()
        self.take("}")
        self.model.functions |= {name: ([], sort) for name in names}
        each = [("app", name, []) for name in names]
        apart = [("not", ("eq", c, d)) for i, c in enumerate(each) for d in each[i + 1:]]
        covered = ("forall", [("@", sort)], ("or", [("eq", ("bound", "@"), c) for c in each]))
        self.listed_axioms.append((sort, ("and", [*apart, covered])))

    def in_parentheses(self, many):
        if not self.skip("("):
            return []
        found = many()
        self.take(")")
        return found

    def block(self):
        self.take("{")
        paths = [[]]
        while not self.skip("}"):
            more = self.command()
            paths = [old + new for old in paths for new in ([[]] if aborts(old) else more)]
            if not self.skip(";"):
                self.take("}")
                break
        return paths

    def command(self):
        """Gives the paths of a command."""
        word = self.take()
        if word == "skip":
            return [[]]
        if word == "abort":
            return [[("abort",)]]
        if word == "assume":
            return [[("assume", self.expr())]]
        if word == "assert":
            return [[("assume", ("not", self.expr())), ("abort",)], []]
        if word == "if":
            p = self.expr()
            yes = self.block()
            no = self.block() if self.skip("else") else [[]]
            return [[("assume", p), *path] for path in yes] + [[("assume", ("not", p)), *path] for path in no]
        if word == "choose":
            paths = self.block()
            while self.skip("or"):
                paths += self.block()
            return paths
        if word in ("insert", "remove", "put"):
            return [[self.at_tuple(word, self.take())]]
        names = self.in_parentheses(self.names)
        self.take(":=")
        if self.skip("*"):
            return [[("havoc", word)]]
        return [[("set", word, names, self.expr())]]

    def at_tuple(self, word, name):
        args = self.in_parentheses(lambda: self.listed(self.expr))
        names = [f"@{i}" for i in range(len(args))]
        here = ("and", [("eq", ("bound", x), t) for x, t in zip(names, args)])
        bound = [("bound", x) for x in names]
        if word == "insert":
            return ("set", name, names, ("or", [("rel", name, bound), here]))
        if word == "remove":
            return ("set", name, names, ("and", [("rel", name, bound), ("not", here)]))
        self.take("=")
        return ("set", name, names, ("ite", here, self.expr(), ("app", name, bound)))

    def expr(self):
        if self.peek() in ("forall", "exists"):
            word = self.take()
            binders = self.listed(self.binder)
            self.take(".")
            return (word, binders, self.expr())
        return self.iff()

    def binder(self):
        name = self.take()
        self.take(":")
        return name, self.take()

    def iff(self):
        left = self.imp()
        return ("iff", left, self.imp()) if self.skip("<->") else left

    def imp(self):
        left = self.either("|", "or", lambda: self.either("&", "and", self.unary))
        return ("implies", left, self.imp()) if self.skip("->") else left

    def either(self, sign, word, one):
        found = [one()]
        while self.skip(sign):
            found.append(one())
        return found[0] if len(found) == 1 else (word, found)

    def unary(self):
        if self.skip("~"):
            return ("not", self.unary())
        left = self.prim()
        if self.skip("="):
            return ("eq", left, self.prim())
        if self.skip("~="):
            return ("not", ("eq", left, self.prim()))
        return left

    def prim(self):
        word = self.take()
        if word == "(":
            inside = self.expr()
            self.take(")")
            return inside
        if word in ("true", "false"):
            return (word,)
        if word == "ite":
            p, a, b = self.in_parentheses(lambda: self.listed(self.expr))
            return ("ite", p, a, b)
        args = self.in_parentheses(lambda: self.listed(self.expr))
        if word in self.model.derived:
            parameters, side = self.model.derived[word]
            return written_out(side, dict(zip(parameters, args)))
        if word in self.model.relations:
            return ("rel", word, args)
        return ("app", word, args) if word in self.model.functions else ("bound", word)


def written_out(e, given):
    """Gives an expression without quantifiers with these expressions in the place of its bound names."""
    if isinstance(e, list):
        return [written_out(part, given) for part in e]
    if not isinstance(e, tuple):
        return e
    if e[0] == "bound":
        return given.get(e[1], e)
    return (e[0], *[written_out(part, given) for part in e[1:]])


def read(text):
    return Reader(text).file()
