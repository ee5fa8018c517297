"""The log of HAProxy: what kind of message each line begins with, and which lines there are."""

# A line of the log: what kind of message it was (`kind_rules`), then the rest. Neither fields nor bodies are in it, so
# no token is.
LINE = "%[var(txn.kind)] %ci:%cp %ft %b %HM %{+Q}HPO %ST %Tq/%Tw/%Tc/%Tr/%Ta %tsc %sq/%bq %rc %B"


def level(settings):
    """The least level that is logged, if not all: without LOG_DECISIONS that of changes. With DECISIONS the lines of
    decisions have the level debug, and go to their own log alone."""
    if not settings.log_decisions:
        return " notice"
    return " info" if settings.decisions else ""


def kind_rules():
    """What a message's line in the log begins with: `change`, `decision` or `reading`; `refused` (4xx) or `fault` (5xx)
    where nothing was changed. A change that nobody has answered (502, 504) stays a change. `lost` is a message whose
    client went before the reply: so much is logged of whoever sends without a token and ends, as often as he can."""
    return """\
    acl is_ask path_reg ^/domains/[^/]+/pdp$
    http-request set-var(txn.what) str(change)
    http-request set-var(txn.what) str(decision) if METH_POST is_ask
    http-request set-var(txn.what) str(reading) if METH_GET or METH_HEAD or METH_OPTIONS
    http-request set-var(txn.kind) str(lost)
    acl may_be_made status 502 504
    acl of_change var(txn.what) -m str change
    http-after-response set-var(txn.kind) var(txn.what)
    http-after-response set-var(txn.kind) str(refused) if { status 400:499 }
    http-after-response set-var(txn.kind) str(fault) if { status 500:599 } !of_change
    http-after-response set-var(txn.kind) str(fault) if { status 500:599 } !may_be_made
    # (newer versions say 400 of a client that went while its message was led on, where no rule here says it any more)
    http-response set-var(txn.replied) int(1)
    acl was_led var(txn.led) -m found
    acl was_replied var(txn.replied) -m found
    http-after-response set-var(txn.kind) str(lost) if { status 400:499 } was_led !was_replied
    # (what HAProxy itself answers to who isn't known: he may have it written as often as he wants)
    http-after-response set-var(txn.kind) str(refused) if { status 500:599 } !was_led !{ var(txn.accepted) -m found }
"""


# behind it no rule answers with 4xx
LED = "    http-request set-var(txn.led) int(1)\n"


def level_rules(settings):
    """Without LOG_DECISIONS what has the level info isn't logged: all but changes, and what failed. A message without a
    reply, or with one that HAProxy makes itself behind these rules, is logged only if its token is known: who has none
    may send many, and go."""
    if settings.log_decisions:
        return ""
    return """\
    http-request set-log-level notice if is_accepted
    http-response set-log-level info
    http-response set-log-level notice if of_change !{ status 400:499 }
    http-response set-log-level err if { status 500:599 }
"""


def errors_apart(settings):
    """What HAProxy can't read, and handshakes that fail, have the level err only where all is logged: else whoever
    sends such without a token would fill the log."""
    return "    # what failed has the level err\n    option log-separate-errors\n" if settings.log_decisions else ""
