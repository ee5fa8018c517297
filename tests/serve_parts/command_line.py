"""What is refused on the command line, in the environment and of the token file, in the order in which it is looked
for."""
from said import (
    ADDRESS_BAD, END_BAD, IDLE_BAD, MESSAGE_BAD, NO_COMMAND, PLACE_BAD, READING_BAD, REPLY_BAD, SHARED, SUMS_BAD,
    TOKEN_BAD, TOKEN_UNREAD, UNKNOWN, VIEWS_BAD, WORK_BAD, line, no_count, no_such_command, other_words)
from serving import COMMAND, OPERATOR

from .shared import LIST, environment, expect, expect_refusal, folder, listing, serving, words_to_serve

NEVER = folder / "never.db"
GOOD = words_to_serve(NEVER)
# each setting with what is said of it, in the order in which they are looked at
SETTINGS = (("PDPD_WORK", WORK_BAD), ("PDPD_REPLY", REPLY_BAD), ("PDPD_READING", READING_BAD),
            ("PDPD_VIEWS", VIEWS_BAD), ("PDPD_IDLE", IDLE_BAD), ("PDPD_SUMS", SUMS_BAD),
            *((("PDPD_MESSAGE", MESSAGE_BAD), ("PDPD_END", END_BAD)) if COMMAND == "listen" else ()))
NO_ADDRESS = PLACE_BAD if COMMAND == "listen" else ADDRESS_BAD
WORDS = "DATABASE ADDRESS TOKEN-FILE " + ("CONNECTIONS" if COMMAND == "serve" else "[CHANGES-ADDRESS]")
TOKENS = {
    "empty": b"", "seven": b"1234567\n", "sixty-five": b"x" * 65, "space": b"operator token\n",
    "carriage": b"operator-token-1\r\n", "second": b"\noperator-token-1\n", "high": b"operator-\xfftoken\n",
    "long": b"x" * 100_000, "nul": b"operator\0token\n",
}


def with_word(place, word):
    """A good command line but for the word at that place."""
    return [*GOOD[:place], str(word), *GOOD[place + 1:]]


def usages():
    """Words that are no command line, and numbers of connections that are none."""
    for words, said in (([], NO_COMMAND), ([COMMAND], other_words(COMMAND, WORDS)),
                        (["sever", *GOOD[1:]], no_such_command("sever")), (GOOD[:3], other_words(COMMAND, WORDS)),
                        ([*GOOD, "1", "2"], None),
                        ([*GOOD, "1"], None if COMMAND == "serve" else line("1", PLACE_BAD)),
                        (with_word(0, "Serve"), no_such_command("Serve")),
                        ([""], no_such_command("")), (["--halp"], no_such_command("--halp")),
                        (["a\nb"], no_such_command("a\\u{a}b")), (["replay"], other_words("replay", "OPERATOR-TOKEN")),
                        (["--help", "x"], other_words("--help", "no words"))):
        expect_refusal(f"{words[:2]} of {len(words)} words", words, 2, said or other_words(COMMAND, WORDS))
    serving_words = ["serve", *GOOD[1:4]]
    for count in ("0", "-1", "+1", "", "x", "1000001", "1.0", " 1", "1 ", "0x1", "9" * 30, "forever"):
        expect_refusal(f"{count!r} connections", [*serving_words, count], 2, no_count(count))


def addresses():
    """Words that are no address."""
    for address in ("", "localhost:80", "127.0.0.1", "127.0.0.1:", "127.0.0.1:65536", ":80", "127.0.0.1:x",
                    "127.0.0:80", "127.0.0.1:80 ", "http://127.0.0.1:80"):
        expect_refusal(f"address {address!r}", with_word(2, address), 2, line(address, NO_ADDRESS))
    expect_refusal("a word with a line feed is told on one line", with_word(2, "a\nb\t\u0085é"), 2,
                   line("a\\u{a}b\\u{9}\\u{85}é", NO_ADDRESS))


def settings():
    """Settings that are no numbers, and one that is too great."""
    for name, said in SETTINGS:
        great = "2" if name in ("PDPD_SUMS", "PDPD_END") else "18446744073709551616"
        for word in ("", "x", "-1", "+1", " 1", "1.5", great):
            expect_refusal(f"{name}={word!r}", with_word(3, folder / "no-token"), 2, said,
                           env=environment(**{name: word}))


def unknown_settings():
    """Variables that are named as settings are, and are none: a line names each, and the program goes on."""
    more = {"PDPD_WROK": "1", "PDPD_": "", "PDPD_IDLE": "30", "PDPD_MESSAGE": "10", "PDPDX": "1", "XPDPD_WORK": "1",
            "PDPD_LONG": "x" * 4_087, "PDPD_A\nB": "operator-token-1"}
    with serving("unknown.db", 1, env={name: held for name, held in environment(**more).items()
                                       if not name.startswith("PDPD_") or name in more}) as served:
        expect("a list beside unknown settings", served.once(LIST), [listing([])])
        out, said, status = served.ended()
        wanted = [UNKNOWN.format(name) for name in ("PDPD_", "PDPD_A\\u{a}B", "PDPD_WROK")]
        found = sorted(said.decode().splitlines(keepends=True))
        expect("unknown settings", (out, [line for line in found if "LONG" not in line], status), (b"", wanted, 0))


def token_files():
    """Files whose first line is no token, or that can't be read; and the least and the longest token."""
    for name, data in TOKENS.items():
        path = folder / f"token-{name}"
        path.write_bytes(data)
        expect_refusal(f"a token file: {name}", with_word(3, path), 2, line(path, TOKEN_BAD))
    for path in (folder / "no-token", folder):
        expect_refusal(f"a token file: {path.name}", with_word(3, path), 2, line(path, TOKEN_UNREAD))
    for name, data in {"least": b"12345678", "most": b"y" * 64 + b"\n",
                       "more": b"operator-token-2\nanything\r\n\xff"}.items():
        path = folder / f"token-{name}"
        path.write_bytes(data)
        with serving("tokens.db", 1, path) as served:
            expect(f"a token file: {name}", served.once(LIST.replace(OPERATOR.encode(), data.split(b"\n")[0])),
                   [listing([])])


def shared_token():
    """A token file that others can read: a line on standard error, and the program goes on."""
    path = folder / "token-shared"
    path.write_bytes(b"operator-token-1\n")
    for mode, said in ((0o600, b""), (0o644, line(path, SHARED)), (0o640, line(path, SHARED)),
                       (0o604, line(path, SHARED)), (0o400, b"")):
        path.chmod(mode)
        with serving("shared.db", 1, path) as served:
            expect(f"a token file of mode {mode:o}", served.once(LIST), [listing([])])
            expect(f"its line, of mode {mode:o}", served.ended(), (b"", said, 0))


def order_of_faults():
    """Of two faults the first is told; and no store is made behind one."""
    for (first, said), (second, _) in zip(SETTINGS, SETTINGS[1:]):
        expect_refusal(f"{first} goes before {second}", GOOD, 2, said, env=environment(**{first: "x", second: "x"}))
    expect_refusal("the address goes before PDPD_WORK", with_word(2, "x"), 2, line("x", NO_ADDRESS),
                   env=environment(PDPD_WORK="x"))
    expect_refusal("the address goes before the token file", words_to_serve(NEVER, "x", folder / "no-token"), 2,
                   line("x", NO_ADDRESS))
    expect("no store is made where something before it is refused", NEVER.exists(), False)
