"""What the program says on standard error (docs/guide/RUNNING.md): whole lines, and what it advises about a subject."""
from serving import COMMAND


def of_command(advice):
    """The line of the command that is tested about no subject."""
    return f"pdpd {COMMAND}: {advice}".encode()


USAGE = (b"usage: pdpd listen DATABASE ADDRESS TOKEN-FILE [CHANGES-ADDRESS], pdpd serve DATABASE ADDRESS TOKEN-FILE "
         b"CONNECTIONS, or pdpd replay OPERATOR-TOKEN (8 to 64 visible ASCII characters); pdpd --help says more\n")
NO_COMMAND = b"pdpd: no command; " + USAGE
NO_TOKEN = b"pdpd replay: OPERATOR-TOKEN is no token; " + USAGE
NO_TEXT = b"pdpd: a word of the command line isn't in UTF-8; " + USAGE
FAILED = b"pdpd: standard input or output failed\n"
NO_MEMORY, NO_MEMORY_TO_SERVE = b"pdpd: out of memory\n", of_command("out of memory\n")
NO_OUTPUT = of_command("standard output failed\n")

# ---- settings of the environment

WORK_BAD = of_command("PDPD_WORK is to be a number of units of work, or 0 for no limit\n")
REPLY_BAD = of_command("PDPD_REPLY is to be a number of bytes, or 0 for no limit\n")
READING_BAD = of_command("PDPD_READING is to be a number of bytes of policies, or 0 for no limit\n")
VIEWS_BAD = of_command("PDPD_VIEWS is to be a number of bytes of memory, or 0 for none\n")
IDLE_BAD = of_command("PDPD_IDLE is to be a number of seconds, or 0 for no limit\n")
MESSAGE_BAD = of_command("PDPD_MESSAGE is to be a number of seconds, or 0 for no limit\n")
END_BAD = of_command("PDPD_END is to be `input`, or not set\n")
UNKNOWN = "pdpd: {} is set, and is no setting: it isn't looked at\n"
SUMS_BAD = of_command("PDPD_SUMS is to be 1, or 0 for a new file without sums\n")

# ---- the token file and the address

TOKEN_UNREAD = "can't be read; its first line is to be the operator's token (8 to 64 visible ASCII characters)"
TOKEN_BAD = "its first line is no token (8 to 64 visible ASCII characters)"
SHARED = "others than its owner can read the operator's token; chmod 600"
ADDRESS_BAD = "not an IP address, `:` and a port, such as 127.0.0.1:8080"
PLACE_BAD = f"{ADDRESS_BAD}, nor `unix:` and a path of up to 107 bytes"
TAKEN = "no connections can be taken there; another program may have the port, or this machine another address"
LISTENED = "another program takes connections there; stop that one first, or name another path"
UNMADE = "no socket can be made there; its folder has to be there, and this user has to be allowed to write in it"
OCCUPIED = "something else than a socket stands there; name another path, or move it away"
INPUT_BAD = of_command("the end of standard input can't be watched (PDPD_END); it is to be a pipe, a socket or a "
                       "terminal\n")
NOT_TAKEN = "taking a connection failed; start the program again"

# ---- the store

NO_DATABASE = "not a database of SQLite that can be read; name another file"
SCHEMA = "not a store of this program (schema); name another file"
ROW = "a row of the store is damaged; put back a backup"
CORRUPT = ("the file's pages are damaged, or another program has written it and spoiled their sums; "
           "put back a backup")
BESIDE = "beside the program's tables stands what isn't the program's; what removes it: "
FOREIGN = ("other tables, indexes, views or triggers stand beside the program's (the line before names them), "
           "and nothing would be proved of what is kept there; drop them")
MADE_OTHERWISE = ("its tables weren't made as this program makes them (in another order, say), and nothing would be "
                  "proved of what is kept there; carry their rows into a new store")
NO_FOLDER = "can't be opened; its folder isn't there, make that first"
UNOPENED = ("can't be opened; it has to be a file, and this user has to be allowed to read and write it, "
            "and to write in its folder")
BUSY = "in use: another program has it open; stop that one first"
LOG_ALONE = ("the file isn't there, or is empty, and a store's log is (-wal); put the file back, "
             "or move the log away to begin a new store")
FILE_ALONE = ("the file has no tables, and its log isn't there (-wal); put the log back, "
              "or move the file away to begin a new store")
NO_LOG = ("its log isn't there (-wal); if the file wasn't closed, by `pdpd` or by SQLite, "
          "the last changes are missing")
OPEN_FILE = "others than its owner can read what is kept; chmod 600, and its log too (-wal)"
UNCLOSED = ("its log (-wal) can't be written back into the file; keep both, which have all that was answered unless "
            "another program wrote over one")
SHUT = "writing or reading it failed, and it can't go on; look after the disk, then start the program again"


def line(subject, advice):
    """The line of the command that is tested about a file, an address or a word."""
    return f"pdpd {COMMAND}: {subject}: {advice}\n".encode()


def foreign_lines(path, drops):
    """The lines about a store beside whose tables stands what these statements drop."""
    return line(path, BESIDE + drops) + line(path, FOREIGN)


def no_such_command(word):
    """The line about a word that is no command."""
    return f"pdpd: no command `{word}`; ".encode() + USAGE


def other_words(command, words):
    """The line about a command that takes other words."""
    return f"pdpd {command} takes {words}; ".encode() + USAGE


def no_count(word):
    """The line about a word that is no number of connections."""
    return (f"pdpd serve: CONNECTIONS `{word}` is no number from 1 to 1000000; for any number: pdpd listen; ".encode()
            + USAGE)
