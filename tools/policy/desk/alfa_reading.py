"""An ALFA file: its namespaces, declarations, policies and rules, with their places.

What has no place in the language is told where it stands, and reading goes on with the next item.
"""
from __future__ import annotations

from .alfa_expressions import Expressions
from .alfa_parts import Declared, Duty, File, Literal, Name, Namespace, Part
from .alfa_tokens import Stop, Token
from .faults import Remarks
from .positions import Source
from .xml_reading import Spot

EFFECTS = {"permit": "Permit", "deny": "Deny"}
# declarations of what the standard has, which is known here by its name
OF_THE_STANDARD = ("type", "function", "infix", "ruleCombinator", "policyCombinator")
IN_NAMESPACES = ("import", "namespace", "attribute", "category", "obligation", "advice", "policy",
                 "policyset", *OF_THE_STANDARD)
IN_PARTS = {"rule": ("target", "condition", "permit", "deny", "on"), "policy": ("target", "apply", "rule", "on"),
            "policyset": ("target", "apply", "policy", "policyset", "on")}
IN_ATTRIBUTES = ("id", "type", "category")


class Reader(Expressions):
    """Reads a file."""

    def all(self) -> None:
        """Reads the namespace around all of the file, into the file."""
        found = self.file.whole = Namespace("", None)
        while self.token.kind != "end":
            self.recovering(IN_NAMESPACES, lambda: self.item(found))
        self.next()

    def item(self, around: Namespace) -> None:
        """One item of a namespace."""
        word = self.token.value if self.token.kind == "name" else ""
        if word in ("policy", "policyset"):
            self.part(around.name, around.parts)
        elif word in OF_THE_STANDARD:
            self.of_the_standard(around)
        elif word == "namespace":
            self.namespace(around)
        elif word == "import":
            around.imports.append(self.imported())
        elif word in IN_NAMESPACES:
            around.declared.append(self.declaration())
        else:
            raise self.missing(f"One of {', '.join(IN_NAMESPACES[:8])}" + (' or "}"' if around.name else ""))

    def namespace(self, around: Namespace) -> None:
        self.nest(1)
        self.next()
        name = self.name("The name of a namespace")
        found = Namespace(f"{around.name}.{name.text}" if around.name else name.text, around)
        outside, self.path = self.path, found.name
        self.take("{")
        around.inner.append(found)
        while not self.is_next("}"):
            self.recovering(IN_NAMESPACES, lambda: self.item(found))
        self.next()
        self.path = outside
        self.nest(-1)

    def imported(self) -> Name:
        """The name behind `import`; `.*` stands behind one whose whole namespace is meant."""
        self.next()
        found = self.name("The name of what is imported")
        if self.took("."):
            self.take("*")
            found.text += ".*"
        return found

    def declaration(self) -> Declared:
        """An attribute in braces, or a category, an obligation or advice with its id."""
        kind = self.next().value
        token = self.one_name(f"The name of the {kind}")
        name = Name(token.value, self.spot(token.start))
        if kind == "attribute":
            return Declared(kind, name, self.members(name))
        self.take("=")
        return Declared(kind, name, {"id": self.text("The id, a text in quotes,")})

    def members(self, name: Name) -> dict[str, Literal | Name]:
        """What a declaration says of an attribute."""
        found = {}
        self.take("{")
        while not self.is_next("}"):
            word = self.token
            if not self.is_next(*IN_ATTRIBUTES):
                raise self.missing("One of id, type, category or \"}\"")
            if word.value in found:
                raise self.stop(f"The {word.value} of {name.text} is said twice.")
            self.next()
            self.take("=")
            found[word.value] = (self.text("The id, a text in quotes,") if word.value == "id"
                                 else self.name(f"The name of a {word.value}"))
        missing = [member for member in IN_ATTRIBUTES if member not in found]
        if missing:
            raise self.stop(f"The attribute {name.text} has no {' and no '.join(missing)}.")
        self.next()
        return found

    def of_the_standard(self, around: Namespace) -> None:
        """Passes over a declaration of a type, a function or the like: those of the standard are known, and
        no others."""
        token, depth = self.next(), 0
        while self.token.kind != "end" and (depth > 0 or not self.is_next("}", *IN_NAMESPACES)):
            depth += self.is_next("{") - self.is_next("}")
            self.next()
        if around.name != "System":
            self.remarks.fault("LeftOut", self.spot(token.start),
                               f"Declarations of the kind {token.value} are left out: the types, functions, "
                               f"operators and combining algorithms of the standard that this server has are "
                               f"known by their names, and there are no others. Take it out.")

    # Policies, sets and rules.

    def part(self, around: str, beside: list) -> None:
        """A policy, a set or a rule, which is put to those beside it."""
        self.nest(1)
        behind = [comment for comment in self.token.comments if comment.is_behind]
        for comment in behind:
            self.keep(comment)
        self.token.comments = [comment for comment in self.token.comments if comment not in behind]
        found = Part(self.token.value, None, None, self.spot(self.token.start, self.token.end))
        self.open.append(found)
        start = self.next().start
        if self.token.kind == "name":
            token = self.next()
            found.name = Name(token.value, self.spot(token.start))
        if self.took("="):
            found.id = self.text("The id, a text in quotes,")
        outside = self.path
        self.path = ".".join(filter(None, (around, found.name.text if found.name else found.kind)))
        found.spot = self.spot(start)
        self.take("{")
        beside.append(found)
        while not self.is_next("}"):
            self.recovering(IN_PARTS[found.kind], lambda: self.item_of(found), found)
        self.next()
        self.open.pop()
        self.path = outside
        self.nest(-1)

    def once(self, found: Part, member: str, word: Token) -> None:
        if getattr(found, member) is not None:
            raise self.stop(f"{word.shown()} stands here for the second time in one {found.kind}.", word)

    def item_of(self, found: Part) -> None:
        """One item of a rule, a policy or a set."""
        word, known = self.token, IN_PARTS[found.kind]
        if not self.is_next(*known):
            self.other(found, known)
        elif word.value in ("rule", "policy", "policyset"):
            self.part(self.path, found.inner)
        elif word.value == "on":
            found.duties += self.duties()
        elif word.value == "target":
            self.once(found, "target", self.next())
            found.target = self.target()
        elif word.value == "apply":
            self.once(found, "algorithm", self.next())
            found.algorithm = self.name("The name of a combining algorithm")
        elif word.value == "condition":
            self.once(found, "condition", self.next())
            found.condition = self.expression()
        else:
            self.once(found, "effect", self.next())
            found.effect = EFFECTS[word.value]

    def other(self, found: Part, known: tuple[str, ...]) -> None:
        """What begins with another word: in a set the name of one that it refers to."""
        if self.is_next("condition"):
            raise self.stop(f"A {found.kind} has no condition: write it in a rule, or what can be matched in "
                            f"the target.")
        if found.kind == "policyset" and self.is_next("rule"):
            raise self.stop("A policyset has no rule: write it in a policy.")
        if found.kind != "policyset" or self.token.kind != "name":
            # what was read as references may have been the words before this brace
            while self.is_next("{", "=") and found.inner and isinstance(found.inner[-1], Name):
                found.inner.pop()
            raise self.missing(f"One of {', '.join(known)} or \"}}\"")
        found.inner.append(self.name("The name of a policy"))

    def target(self) -> list[list[list]]:
        """The clauses of a target."""
        found = []
        if not self.is_next("clause"):
            raise self.missing('"clause"')
        while self.took("clause"):
            alternatives = [self.matches()]
            while self.took("or"):
                alternatives.append(self.matches())
            if self.is_next("&&", "||"):
                raise self.stop(f'In a target this is written {"and" if self.is_next("&&") else "or"}.')
            found.append(alternatives)
        return found

    def matches(self) -> list:
        """The matches with `and` between."""
        found = [self.match()]
        while self.took("and"):
            found.append(self.match())
        return found

    def match(self) -> object:
        """A match, as an expression."""
        if self.is_next("("):
            raise self.stop("A target has no brackets: `and` binds more than `or`, and all clauses have to "
                            "match. Write a part in brackets as a clause of its own.")
        return self.comparison()

    def duties(self) -> list[Duty]:
        """What is behind `on permit` or `on deny`."""
        self.next()
        if not self.is_next(*EFFECTS):
            raise self.missing('"permit" or "deny"')
        decision, found = EFFECTS[self.next().value], []
        self.take("{")
        while not self.took("}"):
            if not self.is_next("obligation", "advice"):
                raise self.missing('"obligation", "advice" or "}"')
            kind = self.next()
            name = self.name(f"The name of the {kind.value}")
            duty = Duty(kind.value, name, decision, [], self.spot(kind.start))
            if self.took("{"):
                while not self.took("}"):
                    duty.assignments.append(self.assignment())
            found.append(duty)
        return found

    def assignment(self) -> tuple[Name, object]:
        name = self.name('The name of an attribute that is assigned to, or "}",')
        self.take("=")
        return name, self.expression()


def file_of(path: str, held: bytes) -> File:
    """The ALFA in the bytes of a file."""
    found = File(Source(path, held), Remarks(), None)
    try:
        reader = Reader(found)
        reader.all()
    except Stop:
        return found
    if reader.loose:
        first = reader.loose[0]
        count = len(reader.loose)
        said = "One comment stands" if count == 1 else f"{count} comments stand"
        found.remarks.note("comments", Spot(found.source, "the file", first.start, first.end),
                           f"{said} beside policies and sets, where no document has a place for it: "
                           f"only comments in and directly before policies, sets and rules are kept.")
    return found
