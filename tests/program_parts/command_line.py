"""How the program is called."""
from said import NO_COMMAND, NO_TEXT, NO_TOKEN, no_such_command, other_words
from sent import OPERATOR, UNAUTHORIZED, message, reply

from .shared import ASK, BEGUN, REPLY, beginning, entry, expect, run, written


def command_lines():
    """Words that are no command line, help, the version, and tokens."""
    for words, said in (([], NO_COMMAND), (["replay"], other_words("replay", "OPERATOR-TOKEN")),
                        (["answer", OPERATOR], no_such_command("answer")),
                        (["replay", OPERATOR, OPERATOR], other_words("replay", "OPERATOR-TOKEN")),
                        (["Replay", OPERATOR], no_such_command("Replay"))):
        expect(f"usage {words!r}", run(entry(0, 0, ASK), words), (b"", said, 2))
    for token in ("sevenby", "x" * 65, "with space", "tab\tinside", "not-ascii-\u00e9", ""):
        expect(f"token {token!r}", run(entry(0, 0, ASK), ["replay", token]), (b"", NO_TOKEN, 2))
    expect("a word that isn't in UTF-8", run(b"", [b"replay\xff"]), (b"", NO_TEXT, 2))
    out, said, status = run(b"", ["--help"])
    names = (b"pdpd listen DATABASE ADDRESS TOKEN-FILE [CHANGES-ADDRESS]\n",
             b"pdpd serve DATABASE ADDRESS TOKEN-FILE CONNECTIONS\n",
             b"pdpd replay OPERATOR-TOKEN\n", b"PDPD_WORK", b"PDPD_READING", b"PDPD_MESSAGE", b"PDPD_END",
             b"Exit statuses: 0 ")
    expect("--help", ([name in out for name in names], said, status), ([True] * len(names), b"", 0))
    version = (b"pdpd 0.1\n"
               b"XACML 3.0, by its JSON Profile 1.1; a store of schema 2, to which one of schema 1 is converted\n")
    expect("--version", run(b"", ["--version"]), (version, b"", 0))
    for token in ("x" * 8, "x" * 64, "!~!~!~!~"):
        expect(f"token {token!r}", run(beginning(token) + entry(0, 0, ASK), ("replay", token)),
               (BEGUN + written(0, REPLY), b"", 0))
        other = entry(0, 0, message("GET", "/operator/domains", OPERATOR) + message("GET", "/operator/domains", token))
        expect(f"the token {token!r} alone", run(other, ("replay", token)),
               (written(0, UNAUTHORIZED) + written(0, reply("200 OK", '{"Domain":[]}')), b"", 0))
