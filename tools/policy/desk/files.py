"""Files that the desk reads: documents, also by the folder, rows, requests."""
from __future__ import annotations

import pathlib
from collections.abc import Callable

from .check import Checked, Rows, checked, checked_rows
from .positions import Source, read
from .setting import Usage


def held(path: str | pathlib.Path) -> bytes:
    """The bytes of a file."""
    try:
        return pathlib.Path(path).read_bytes()
    except OSError as fault:
        raise Usage(f"{path} can't be read: {fault.strerror}") from None
    except ValueError:
        raise Usage("a name with a NUL byte can't be read: no file has one") from None


def shown(path: pathlib.Path) -> str:
    """The path as people write it from here."""
    try:
        return str(path.resolve().relative_to(pathlib.Path.cwd()))
    except ValueError:
        return str(path)


def is_document(path: pathlib.Path) -> bool:
    """Whether a file of a folder is meant as a policy document: its one member is Policy or PolicySet, or
    it has an id of one."""
    text = held(path)
    node, slips = read(Source(str(path), text))
    if node is None or slips:
        return b'"PolicyId"' in text or b'"PolicySetId"' in text
    return bool({"Policy", "PolicySet", "PolicyId", "PolicySetId"} & set(node.last())) and node.at("Case") is None


def is_folder(path: pathlib.Path) -> bool:
    """Whether a folder has that name; none has one that no file may have."""
    try:
        return path.is_dir()
    except (OSError, ValueError):
        return False


def within(paths: list[str], endings: tuple[str, ...], what: str,
           is_meant: Callable[[pathlib.Path], bool] = lambda _: True) -> list[pathlib.Path]:
    """The files, each once, and in place of a folder those of its files that have one of the endings and are meant."""
    files: list[pathlib.Path] = []
    for path in map(pathlib.Path, paths):
        if is_folder(path):
            # (a pipe or a device in a folder of another's has no end)
            found = [file for file in sorted(path.iterdir())
                     if file.suffix in endings and file.is_file() and is_meant(file)]
            if not found:
                raise Usage(f"{path} holds no {what} (*{', *'.join(endings)})")
            files += found
        else:
            files.append(path)
    return list(dict.fromkeys(files))


def is_inside(folder: pathlib.Path, path: pathlib.Path) -> bool:
    """Whether a path leads to something in the folder, by whatever links; what no file may be named leads nowhere
    else."""
    try:
        return path.resolve().is_relative_to(folder.resolve())
    except (OSError, ValueError, RuntimeError):
        return True


def write(folder: pathlib.Path, name: str, data: bytes) -> None:
    """Writes a file of a folder, which somebody else may have made: through no link that it has."""
    path, place = folder / name, folder
    for part in pathlib.PurePath(name).parts:
        place /= part
        if place.is_symlink():
            raise Usage(f"{place} is a link, and nothing is written through it: take it away, or name another folder")
    path.parent.mkdir(parents=True, exist_ok=True)
    path.write_bytes(data)


def document_files(paths: list[str]) -> list[pathlib.Path]:
    """The files of documents, and the folders' files that are documents."""
    return within(paths, (".json",), "policy documents", is_document)


def documents(paths: list[str]) -> list[Checked]:
    """The documents of the files, and of the folders' files that are documents."""
    return [checked(shown(file), held(file)) for file in document_files(paths)]


def rows(path: str | None) -> Rows | None:
    return None if path is None else checked_rows(shown(pathlib.Path(path)), held(path))
