"""Where HAProxy listens."""
import re

# what is no address of IPv6, or all of them; a name may be of one
OTHERS = re.compile(r"\*|[0-9.]*|\[?::\]?")


def bind(place):
    """The words by which it listens there, as a setting has them. At one address of IPv6 it says that it takes nothing
    of IPv4: else HAProxy 2.6 doesn't find that socket again at a reload, and takes no connection anywhere any more."""
    address, *more = place.split() or [""]
    hosts = [one.removeprefix("ipv6@").rpartition(":")[0] for one in address.split(",")]
    is_one = any("@" not in host and not OTHERS.fullmatch(host) for host in hosts)
    return f"bind {place}{' v6only' * (is_one and not {'v6only', 'v4v6'} & {*more})}"
