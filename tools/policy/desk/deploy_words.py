"""The options of the words that speak with a server: `status`, `deploy`, `rollback`, `pull` and `diff
--live`."""
from __future__ import annotations

import argparse
from collections.abc import Callable

from . import deploy
from .wire import SECONDS


def add_server(parser: argparse.ArgumentParser) -> None:
    """The options of all words that speak with a server."""
    parser.add_argument("--token-file", metavar="FILE",
                        help="a file whose first line is the token of the domain's administrator; else "
                             "DALVEZOUR_TOKEN in the environment")
    parser.add_argument("--timeout", type=float, default=SECONDS, metavar="SECONDS",
                        help="how long a reply is waited for")
    parser.add_argument("--live-root", metavar="ID",
                        help="what the root is now, where neither answers nor records show it: an id, or none")
    parser.add_argument("--allow-http", action="store_true",
                        help="sends the token to another machine without TLS: whoever is between can read it")
    parser.add_argument("--json", action="store_true", help="writes JSON")


def add_folder(parser: argparse.ArgumentParser) -> None:
    """The options of words over a folder."""
    parser.add_argument("folder", nargs="?", default=".", metavar="FOLDER",
                        help="a folder with domain.json; this one where it is left out")
    add_server(parser)
    parser.add_argument("--strict", action="store_true",
                        help="ends with status 1 for warnings, and where the folder "
                             "differs from the server")


def add_change(parser: argparse.ArgumentParser) -> None:
    """The options of `deploy` and `rollback`."""
    add_folder(parser)
    parser.add_argument("--yes", action="store_true", help="doesn't ask")
    parser.add_argument("--dry-run", action="store_true", help="shows what would be done, and does nothing")
    parser.add_argument("--only-whole", action="store_true",
                        help="does nothing where a decision request between may be answered neither as before "
                             "nor as after")
    parser.add_argument("--take-over", action="store_true",
                        help="takes the place of a deployment of something else that was begun and isn't "
                             "finished")
    parser.add_argument("--requests", metavar="FILE",
                        help="requests, or a file of cases: shows which answers change")
    parser.add_argument("--random", type=int, default=0, metavar="N", help="makes N requests for that")
    parser.add_argument("--seed", type=int, default=1, help="another seed makes other requests")
    parser.add_argument("--at", metavar="TIME", help="the time of requests that have none of their own")


def add_deploy(parser: argparse.ArgumentParser) -> None:
    """The options of `deploy`."""
    add_change(parser)
    parser.add_argument("--prune", action="store_true",
                        help="deletes the documents that the folder hasn't; no way leads back to them")
    parser.add_argument("--off", action="append", default=[], metavar="LINT", help="switches a lint off")


def add_rollback(parser: argparse.ArgumentParser) -> None:
    """The options of `rollback`."""
    add_change(parser)
    parser.add_argument("--to", type=int, metavar="NUMBER",
                        help="the deployment to go back to; else the one before")


def add_pull(parser: argparse.ArgumentParser) -> None:
    """The options of `pull`."""
    parser.add_argument("folder", nargs="?", default=".", metavar="FOLDER",
                        help="the folder to write; a new one, or one with domain.json")
    add_server(parser)
    parser.add_argument("--server", metavar="URL", help="the server, where the folder has no domain.json")
    parser.add_argument("--domain", metavar="NAME", help="the domain, where the folder has no domain.json")
    parser.add_argument("--overwrite", action="store_true", help="writes over files that differ")
    parser.add_argument("--all", action="store_true",
                        help="fetches documents that aren't active, too, into the folder `withdrawn` in it")


def add_words(word: Callable) -> None:
    """Adds these words to the command."""
    word("status", "shows what a domain has on its server, and whether the folder is what runs there",
         deploy.status, add_folder)
    word("deploy", "checks, tests, and brings a folder to its server",
         deploy.deploy, add_deploy)
    word("rollback", "goes back to the deployment before",
         deploy.rollback, add_rollback)
    word("pull", "makes a folder of what a domain has on its server",
         deploy.pulled, add_pull)
