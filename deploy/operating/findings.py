"""What a look at the deployment finds: what is wrong, and what can't be told."""
from __future__ import annotations

import contextlib
from collections.abc import Iterator

from .settings import Wrong, words_of


class Findings:
    """Both, in the order in which they were found."""

    def __init__(self) -> None:
        self.wrong: list[str] = []
        self.unknown: list[str] = []
        self.under_way: list[str] = []
        self.told: set[object] = set()

    def add(self, what: str) -> None:
        """Something is wrong. It is told once."""
        if what not in self.wrong:
            self.wrong.append(what)

    def add_once(self, about: object, what: str) -> None:
        """Something is wrong with what several have, as a disk. It is told of the first one."""
        if about not in self.told:
            self.add(what)
        self.told.add(about)

    def cannot_tell(self, what: str) -> None:
        """Something can't be told. It is told once."""
        if what not in self.unknown:
            self.unknown.append(what)

    def take(self, others: Findings, tool: str, what: str) -> None:
        """All that was found of what a tool may restart just now: if it does, that alone is told in place of what seems
        to be wrong."""
        said = f"{what} is being restarted by {tool}"
        if others.wrong and tool and said not in self.under_way:
            self.under_way.append(said)
        for found in others.wrong if not tool else ():
            self.add(found)
        for found in others.unknown:
            self.cannot_tell(found)

    @contextlib.contextmanager
    def looking(self, what: str) -> Iterator[None]:
        """A look at something: an error is what is wrong, but where this user hasn't the right to look."""
        try:
            yield
        except Wrong as fault:
            self.add(str(fault))
        except PermissionError as fault:
            self.cannot_tell(f"{what}: {words_of(fault)}")
        except OSError as fault:
            self.add(f"{what}: {words_of(fault)}")
