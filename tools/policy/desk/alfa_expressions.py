"""Expressions of ALFA, as the words of a source are read one after another."""
from __future__ import annotations

from collections.abc import Callable

from .alfa_parts import Attribute, Call, File, Function, Literal, Name, Part
from .alfa_tokens import Comment, Stop, Token, tokens_of
from .faults import Remarks
from .positions import Source
from .xml_reading import Spot

MOST_NESTED = 100
COMPARISONS = ("==", ">", "<", ">=", "<=", "~")
DECLARING = ("namespace", "attribute", "category", "obligation", "advice", "policy", "policyset")


class Words:
    """Reads the words of a source, one after another."""

    def __init__(self, file: File):
        self.file, self.source, self.remarks, self.place = file, file.source, file.remarks, 0
        self.path, self.nested = "the file", 0
        # the comments of the parts that are open; those beside them have no place in a document
        self.open: list[Part] = []
        self.loose: list[Comment] = []
        self.tokens: list[Token] = tokens_of(file.source, file.remarks)

    # Words.

    @property
    def token(self) -> Token:
        return self.tokens[self.place]

    def spot(self, start: int, end: int | None = None) -> Spot:
        """A place from there up to the last word that was read."""
        return Spot(self.source, self.path, start, self.tokens[self.place - 1].end if end is None else end)

    def stop(self, sentence: str, token: Token | None = None) -> Stop:
        """Says what is wrong with the word that stands here; of what is no word that is said."""
        token = token or self.token
        if token.kind != "none":
            self.remarks.fault("NotAlfa", self.spot(token.start, token.end), sentence)
        return Stop()

    def missing(self, what: str) -> Stop:
        """Says that something else was expected."""
        advice = " Is a brace not closed?" if self.token.kind == "end" else ""
        return self.stop(f"{what} is expected here, and not {self.token.shown()}.{advice}")

    def next(self) -> Token:
        """The word that stands here; what follows stands here then."""
        found = self.token
        for comment in found.comments:
            self.keep(comment)
        found.comments = []
        self.place += found.kind != "end"
        return found

    def keep(self, comment: Comment) -> None:
        """A comment, for the innermost part that is open."""
        if comment.text and self.open:
            self.open[-1].comments.append(comment.text)
        elif comment.text:
            self.loose.append(comment)

    def is_next(self, *values: str) -> bool:
        """Whether one of these signs or names stands here."""
        return self.token.kind in ("sign", "name") and self.token.value in values

    def took(self, *values: str) -> bool:
        """Whether one of these stands here; it is passed over."""
        found = self.is_next(*values)
        if found:
            self.next()
        return found

    def take(self, value: str) -> Token:
        """The sign or name, which has to stand here."""
        if not self.is_next(value):
            raise self.missing(f'"{value}"')
        return self.next()

    def one_name(self, what: str) -> Token:
        """A name without dots."""
        if self.token.kind != "name":
            raise self.missing(what)
        return self.next()

    def name(self, what: str) -> Name:
        """A name, whose parts have dots between."""
        first = self.one_name(what)
        parts = [first.value]
        while self.is_next(".") and self.tokens[self.place + 1].kind == "name":
            self.next()
            parts.append(self.next().value)
        return Name(".".join(parts), self.spot(first.start))

    def text(self, what: str) -> Literal:
        """A text in quotes."""
        if self.token.kind != "text":
            raise self.missing(what)
        found = self.next()
        return Literal("text", found.value, None, self.spot(found.start))

    def recovering(self, words: tuple[str, ...], does: Callable[[], None], around: Part | None = None) -> None:
        """Reads one item, of the part around it if it stands in one. Behind a fault reading goes on with the next item,
        which begins with one of these words, or with the brace that ends what the item stands in."""
        began, path, nested, count = self.place, self.path, self.nested, len(self.open)
        try:
            does()
        except Stop:
            self.path, self.nested = path, nested
            del self.open[count:]
            if around is not None:
                around.is_cut = True
            try:
                self.skip(began, words)
            finally:
                self.passed(self.tokens[began:self.place])

    def skip(self, began: int, words: tuple[str, ...]) -> None:
        """Passes over the rest of an item; raises Stop at the end of the file."""
        passed = [token.value for token in self.tokens[began:self.place] if token.kind == "sign"]
        depth = passed.count("{") - passed.count("}")
        while self.token.kind != "end" and (self.place == began or depth > 0 or not self.is_next("}", *words)):
            depth += self.is_next("{") - self.is_next("}")
            self.next()
        if self.token.kind == "end":
            raise Stop

    def passed(self, tokens: list[Token]) -> None:
        """Keeps the names that are declared in words that were passed over: nothing says that they aren't there."""
        is_declared = False
        for token in tokens:
            if token.kind == "name" and token.value in DECLARING:
                is_declared = True
            elif token.kind == "sign" and token.value in "{=":
                is_declared = False
            elif token.kind == "name" and is_declared:
                self.file.passed.add(token.value)
            self.file.has_passed_import |= token.kind == "name" and token.value == "import"

    def nest(self, step: int) -> None:
        """Goes in, or out."""
        self.nested += step
        if self.nested > MOST_NESTED:
            raise self.stop(f"At most {MOST_NESTED} parts stand inside one another.")


class Expressions(Words):
    """Reads expressions."""

    def joined(self, sign: str, inner, other: str) -> object:
        """Expressions with one sign between, as one application."""
        first = inner()
        arguments, token = [first], self.token
        while self.took(sign):
            arguments.append(inner())
        if self.is_next(other):
            raise self.stop(f"In an expression this is written {sign}.")
        return first if len(arguments) == 1 else self.applied(token, arguments)

    def applied(self, token: Token, arguments: list) -> Call:
        """An operator applied."""
        name = Name(token.value, self.spot(token.start, token.end))
        return Call(name, arguments, self.spot(arguments[0].spot.start), True)

    def expression(self) -> object:
        self.nest(1)
        found = self.joined("||", self.conjunction, "or")
        self.nest(-1)
        return found

    def conjunction(self) -> object:
        return self.joined("&&", self.comparison, "and")

    def comparison(self) -> object:
        found = self.sum()
        token = self.token
        if self.is_next("!="):
            raise self.stop("ALFA has no !=: write not(a == b) in a condition. In a target nothing can be "
                            "unlike.")
        if self.took(*COMPARISONS):
            found = self.applied(token, [found, self.sum()])
        if self.is_next(*COMPARISONS):
            raise self.stop("A comparison has two sides: put the first one in brackets.")
        return found

    def sum(self) -> object:
        return self.from_left(("+", "-"), lambda: self.from_left(("*", "/"), self.operand))

    def from_left(self, signs: tuple[str, ...], inner) -> object:
        """Expressions with such signs between, from left to right."""
        found, count = inner(), 0
        while self.is_next(*signs):
            count += 1
            self.nest(1)
            token = self.next()
            found = self.applied(token, [found, inner()])
        self.nest(-count)
        return found

    def operand(self) -> object:
        """What stands between operators."""
        token = self.token
        if self.took("-"):
            if self.token.kind not in ("integer", "double"):
                raise self.missing("A number behind a minus")
            number = self.next()
            return Literal(number.kind, "-" + number.value, None, self.spot(token.start))
        if self.took("("):
            found = self.expression()
            self.take(")")
            return found
        if token.kind in ("text", "integer", "double"):
            return self.literal()
        if self.is_next("!"):
            raise self.stop("ALFA has no !: write not(..).")
        if token.kind != "name":
            raise self.missing("A value, an attribute or a function")
        return self.named()

    def literal(self) -> Literal:
        """A number, or a text, of another type where one is named."""
        token = self.next()
        its_type = self.name("The name of a type") if token.kind == "text" and self.took(":") else None
        return Literal(token.kind, token.value, its_type, self.spot(token.start))

    def named(self) -> object:
        """What begins with a name: a boolean, a function of arguments or as an argument, or an attribute."""
        start = self.token.start
        name = self.name("A name")
        if name.text in ("true", "false"):
            return Literal("boolean", name.text, None, name.spot)
        if self.took("("):
            return Call(name, self.arguments(), self.spot(start))
        if name.text == "function" and self.took("["):
            inner = self.name("The name of a function")
            self.take("]")
            return Function(inner, self.spot(start))
        is_needed, issuer = self.options() if self.took("[") else (False, None)
        return Attribute(name, is_needed, issuer, self.spot(start))

    def arguments(self) -> list:
        """The arguments of a function, up to the bracket that closes them."""
        found = []
        while not self.took(")"):
            if found:
                self.take(",")
            found.append(self.expression())
        return found

    def options(self) -> tuple[bool, Literal | None]:
        """What stands in square brackets behind an attribute: mustbepresent, and the issuer."""
        is_needed, issuer = False, None
        while not self.took("]"):
            if self.took("mustbepresent"):
                is_needed = True
            elif self.took("issuer"):
                self.take("=")
                issuer = self.text("The issuer, a text in quotes,")
            elif not self.took(",", "&&"):
                raise self.missing('"mustbepresent", "issuer" or "]"')
        return is_needed, issuer
