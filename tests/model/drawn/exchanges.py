"""Random messages in bytes, and random servers to which they go: mostly sound ones, in pieces, with slips in heads,
targets, fields and bodies."""
from commands import NAMES, TOKENS, alter
from machines import Server
from messages import Message, Stream
from rows import encoded
from servers import COUNTS, OPERATOR_TOKEN, TurnedAway, loopback, set_up
from views import distinct

NO_TOKENS = [b"a" * 7, b"a" * 65, b"acme token 1", b"acme-token-\xe9", b""]
NO_SCHEMES = [b"Basic ", b"Bearer\t", b"Bearer"]
METHODS = [b"GET", b"PUT", b"POST", b"DELETE", b"post", b"PATCH", b"HEAD", b"OPTIONS", b"M!#$%&'*+-.^_`|~", b"P(ST"]
PATHS = [b"/", b"*", b"/nowhere", b"/domains", b"/domains/acme", b"/domains//pdp", b"/domains/acme/pdp/",
         b"/domains/acme/pdp/x", b"//domains/acme/pdp", b"/domains/acme/%70dp", b"/%64omains/acme/pdp",
         b"/domains/acme%2Fpdp", b"/domains/acme/pdp%3Fx", b"/domains/%zz/pdp", b"/domains/%ff/pdp",
         b"/domains/acme+/pdp", b"/domains/./pdp", b"/domains/../domains/acme/pdp", b"/domains/acme/PDP",
         b"/domains/acme/pdp#x", b"/domains/\xc3\xa9/pdp", b"/domains/\xff/pdp", b"domains/acme/pdp", b"/operator",
         b"/operator/domains/", b"/operator/domains//tokens", b"/operator/domains/acme/tokens/x",
         b"/operator/domains/acme/pdp", b"/operator/domains/Acme", b"/operator/domains/Acme/tokens",
         b"/operator/domains/%ff", b"/operator/domains/" + b"a" * 33, b"/operator/domains/a%2fb", b"/domains/acme/pap",
         b"/domains/acme/pap/", b"/domains/acme/pap/policies/", b"/domains/acme/pap/policies/x",
         b"/domains/acme/pap/policies/x/1.0", b"/domains/acme/pap/root/x/1.0", b"/domains/acme/pap/policy",
         b"/domains/acme/pap/policy/urn:p", b"/domains/acme/pap/policy//1.0", b"/domains/acme/pap/policy/urn:p/1.0/",
         b"/domains/acme/pap/policy/urn:p/1.0/Active", b"/domains/acme/pap/policy/urn:p/1.0/active/x",
         b"/domains/acme/pap/%70olicy/urn%3ap/1%2e0", b"/domains/acme/pap/policy/a/b/1.0", b"/domains/Acme/pap/root",
         b"/domains/acme/root", b"/domains/acme/pip/x"]
# what stands before a path, and behind it
BEFORE = [b"http://h", b"http://h:8080", b"http://", b"http://u@h"]
BEFORE_NONE = [b"HTTP://h", b"https://h", b"http://h?x", b"/", b"x"]
BEHIND = [b"?", b"?x=/y", b"?x?y", b"?/domains/beta/pdp", b"?%ff"]
BEHIND_NONE = [b"?\xff", b"/", b"//", b"/x"]
VERSIONS = [b" HTTP/1.1\n", b" HTTP/1.0\r\n", b" HTTP/1.2\r\n", b" http/1.1\r\n", b"  HTTP/1.1\r\n",
            b" HTTP/1.1 \r\n", b"\r\n"]
FIELD_LINES = [b"Host: h\r\n", b"X:\t a \r\n", b"Accept: */*\n", b"a:\r\n", b"x-content-length: 1\r\n",
               b"X: \xff\x80\r\n", b"Expect: 100-continue\r\n", b"Authorization2: x\r\n", b"Connection: keep-alive\r\n",
               b"X: a,close\r\n"]
CLOSING_LINES = [b"Connection: close\r\n", b"connection: a,\tCLOSE \r\n", b"CONNECTION:close,\r\n"]
MEDIA_LINES = [b"Content-Type: application/json\r\n", b"Content-Type: application/json; a=b\r\n",
               b"content-type:application/XACML+json\r\n", b"Content-Type: application/json ;x\r\n"]
NO_MEDIA_LINES = [b"Content-Type: text/plain\r\n", b"Content-Type:\r\n", b"Content-Type: application/jsonx\r\n",
                  b"Content-Type: application/xacml+xml\r\n"]
FAULTY_LINES = [b"Content-Length: 3\r\n", b"Content-Length: \r\n", b"Content-Length: 1x\r\n", b"Content-Length: +1\r\n",
                b"Content-Length: 1, 1\r\n", b"Content-Length: 524289\r\n", b"Content-Length: 000524289\r\n",
                b"Content-Length: " + b"9" * 27 + b"\r\n", b"Transfer-Encoding: chunked\r\n", b"transfer-encoding:\r\n",
                b"a b: c\r\n", b": x\r\n", b"a\r\n", b"a:\x00\r\n", b"a:\x7f\r\n", b" a: b\r\n", b"a: b\r\r\n",
                b"a: b\rc\r\n", b"X: y\r\n" * 62, b"X: y\r\n" * 65]
# how many messages a row of a server has
MESSAGES = 20
# how many views a server has room for, where a row says that; 128 is as many as any has
ROOMS = [0, 1, 2, 128]
# how many bytes one end of a connection may write before the other one reads
BUFFERED = 32_768


class Exchanges:
    """Random messages in bytes, and rows of servers and of streams."""

    def __init__(self, commands):
        self.commands, self.random, self.one_of, self.seldom = (commands, commands.random, commands.one_of,
                                                                commands.seldom)
        # rows of one server with other rooms for views that are still to come
        self.in_rooms = []

    # Messages.

    def slipped(self, held):
        place = self.random.randint(0, len(held))
        return (held[:place] + self.one_of([b"", b" ", b"x", b"\xff", b"\"", b"\\", b"}", b":", b"\r\n"])
                + held[place + self.random.randrange(2):])

    def target(self, path):
        if self.seldom(0.025):
            path = self.one_of(PATHS)
        before = self.one_of(BEFORE_NONE if self.seldom(0.05) else BEFORE) if self.seldom(0.06) else b""
        behind = self.one_of(BEHIND_NONE if self.seldom(0.08) else BEHIND) if self.seldom(0.06) else b""
        return before + path + behind

    def authorization(self, token):
        """Fields with the token, mostly one that shows it."""
        token = self.one_of(NO_TOKENS) if self.seldom(0.007) else token
        scheme = (self.one_of(NO_SCHEMES)
                  if self.seldom(0.007) else self.one_of([b"Bearer "] * 9 + [b"bearer  ", b"BEARER ", b" Bearer "]))
        line = (self.one_of([b"Authorization: ", b"authorization:"]) + scheme + token
                + self.one_of([b"\r\n", b" \r\n", b"\n"]))
        return [line] * (self.one_of([0, 2]) if self.seldom(0.01) else 1)

    def lengths(self, length):
        """Fields with the length of the body, or nearly."""
        if self.seldom(0.01):
            length = self.one_of([length - 1, length + 1, 524_289, 10**26])
        line = self.one_of([b"Content-Length: %d\r\n"] * 8 + [b"content-length:\t%d \r\n", b"Content-Length: 00%d\r\n"])
        return [line % max(length, 0)] * self.one_of([1] * 20 + [2])

    def head(self, asking, length):
        lines = (self.lengths(length) if length or self.seldom(0.3) else []) + self.authorization(asking.token)
        for more, chance in ((FIELD_LINES, 0.3), (MEDIA_LINES, 0.3), (NO_MEDIA_LINES, 0.02), (CLOSING_LINES, 0.03),
                             (FAULTY_LINES, 0.01)):
            lines += [self.one_of(more)] * self.seldom(chance)
        self.random.shuffle(lines)
        if self.seldom(0.003):
            lines.append(b"X: " + b"a" * self.one_of([15_900, 16_384]) + b"\r\n")
        method = self.one_of(METHODS) if self.seldom(0.03) else asking.method
        version = self.one_of(VERSIONS) if self.seldom(0.012) else b" HTTP/1.1\r\n"
        return (method + b" " + self.target(asking.path) + version + b"".join(lines)
                + self.one_of([b"\r\n"] * 9 + [b"\n"]))

    def message(self):
        asking = self.commands.next()
        body = asking.body or self.one_of([b""] * 19 + [b"x"])
        body = self.slipped(body) if self.seldom(0.01) else body
        held = self.one_of([b""] * 19 + [b"\r\n", b"\n\n"]) + self.head(asking, len(body)) + body
        return self.slipped(held) if self.seldom(0.01) else held

    def plain(self, asking):
        """The message, without a slip in its head."""
        fields = b"Authorization: Bearer %b\r\nContent-Length: %d\r\n\r\n" % (asking.token, len(asking.body))
        return asking.method + b" " + asking.path + b" HTTP/1.1\r\n" + fields + asking.body

    def pieces(self, held):
        cuts = sorted(self.random.randint(0, len(held)) for _ in range(self.one_of([0, 0, 1, 3])))
        return [held[start:end] for start, end in zip([0] + cuts, cuts + [len(held)])]

    # Servers.

    def view(self):
        """Fields of documents, a root and a source."""
        decisions = self.commands.decisions
        active = decisions.active()
        active = distinct(active) if self.seldom(0.97) else active
        fields = [self.one_of(["document:"] * 7 + ["inactive:"]) + encoded(decisions.drafts.text(draft))
                  for draft in active]
        fields += ["document:" + encoded(self.commands.breaking.text())] * self.seldom(0.03)
        return fields + decisions.root(active) + decisions.world.source()

    def fields_of(self, names, with_views=True):
        """Fields of the domains of those names, with documents, a root and a source or without."""
        fields = []
        for name in names:
            tokens = self.random.sample(TOKENS, self.random.randint(1, 3))
            fields += (["domain:" + name] + [self.one_of(["ask:", "admin:"]) + encoded(token) for token in tokens]
                       + (self.view() if with_views else []))
        return fields

    def domains(self):
        """Fields of some domains, or of none, and now and then one that makes none."""
        fields = self.fields_of(self.random.sample(NAMES, self.one_of([0, 1, 1, 2, 2, 3])))
        slips = ["domain:acme", "domain:Acme", "domain:"] + ["ask:short"] * bool(fields)
        return fields + [self.one_of(slips)] * self.seldom(0.03)

    def begin(self):
        """Another server, and the fields that make it."""
        self.commands.begin(Server(OPERATOR_TOKEN), self.random.sample(NAMES, 3))
        fields = self.domains()
        try:
            self.commands.server = set_up(fields)
        except TurnedAway:
            pass
        return fields

    def taken(self, stream, held):
        """The bytes, which the stream takes; what they may alter is known from now on."""
        stream.held += held
        while isinstance(found := stream.next(), Message):
            alter(self.commands.server, found)
        return held

    def server(self):
        """A row of a server and its messages, one to four on a stream."""
        fields, count = ["server", *self.begin()], MESSAGES
        while count > 0:
            often = min(self.one_of([1, 2, 3, 4]), count)
            count -= often
            stream = Stream()
            for _ in range(often):
                for held in self.pieces(self.message()):
                    fields += self.commands.decisions.moment(0.2) + ["piece:" + encoded(self.taken(stream, held))]
            fields += self.counts() + [self.one_of(["close:"] * 9 + ["restart:"])] * (count > 0)
        return fields + ["readings:", "evaluations:", "unkept:"]

    def counts(self):
        """A field that asks what the server has counted, or none."""
        return [self.one_of(["readings:", "evaluations:"])] * self.seldom(0.3)

    def stream(self):
        """A row of a stream alone."""
        self.begin()
        return ["stream",
                *map(encoded, self.pieces(b"".join(self.message() for _ in range(self.one_of([1, 1, 2, 3])))))]

    def rooms(self):
        """The next row of a server that has room for so many views: the same messages for each of the rooms in turn."""
        if not self.in_rooms:
            kind, *fields = self.server()
            self.in_rooms = [[kind, f"views:{most}", *fields] for most in ROOMS]
        return self.in_rooms.pop()

    def sockets(self):
        """A row of a server's messages over sockets; of the server alone where a connection has more bytes than are
        sure to fit into the buffers."""
        kind, *fields = self.server()
        fields = ["close:" if field == "restart:" else field
                  for field in fields if field.partition(":")[0] not in COUNTS]
        written = " ".join(fields).split(" close: ")
        fits = all(len(held) < BUFFERED for held in written + loopback(*fields))
        return ["loopback" if fits else kind, *fields]

    def next(self):
        return self.server() if self.seldom(0.8) else self.stream()
