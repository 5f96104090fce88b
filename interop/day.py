"""A day of phones, as a script of `gatt_shell run`, and what it is to print.

What is due is worked out by table_file.py, and by the rules of docs/PROFILE.md for what a connection
is told unasked. Up to four phones are there at a time, and take in everything at once.
"""

from table_file import CHARACTERISTIC, CONFIGURATION, Link, Table

# Name, kind and address; and the keys of the phone, as `encrypt` has them, with what a link is worth by them.
PHONES = [
    ("U", "1 c0:00:00:00:00:0a", []),
    ("V", "0 c0:00:00:00:00:0a", []),
    ("P", "1 c0:00:00:00:00:01", [("0101010101010101 257", (16, False))]),
    ("Q", "0 00:11:22:33:44:55", [("0202020202020202 514", (16, True)), ("0303030303030303 771", (7, True))]),
]
ALWAYS = (1 << 64) - 1


class Connection:
    """A connection, and what has been told on it."""

    def __init__(self, name, peer, keys):
        self.name, self.peer, self.keys = name, peer, keys
        self.link = Link(is_known=bool(keys))
        self.until, self.waiting, self.unconfirmed, self.is_late = 0, [], None, False
        self.state = None


class Day:
    def __init__(self, path, random, pdu):
        self.table, self.random, self.pdu = Table(path), random, pdu
        self.lines, self.printed = [], []
        # What peers with keys have configured, the connections, and the order in which phones are named.
        self.rows, self.here, self.numbers = {}, {}, []
        self.now = 0
        self.brought = {}

    def whole(self, acts):
        for _ in range(acts):
            self.act()
        return "\n".join(self.lines) + "\n", "".join(f"{it}\n" for it in self.printed)

    # A line, and what it brings: first what the application is refused, then the frames of each phone.

    def line(self, text, fault=None):
        self.lines.append(text)
        if fault:
            self.printed.append(f"fault {fault}")

    def end_of_line(self):
        for connection in self.here.values():
            self.release(connection)
        for name in self.numbers:
            self.printed += self.brought.pop(name, [])

    def bring(self, name, text):
        self.brought.setdefault(name, []).append(f"{name} {text}")

    def act(self):
        chance = self.random.random()
        absent = [it for it in PHONES if it[0] not in self.here]
        if absent and (chance < 0.03 or not self.here):
            self.connect(*self.random.choice(absent))
        elif chance < 0.1:
            values = [it.handle + 1 for it in self.table.attributes if it.kind == CHARACTERISTIC]
            self.update(self.random.choice((*values, self.random.randint(1, len(self.table.attributes) + 1))))
        elif chance < 0.13:
            self.tick(self.now + self.random.choice((-1, 0, 1, 900, 20000, 30000)))
        else:
            self.by_phone(self.here[self.random.choice(list(self.here))], self.random.random())
        self.end_of_line()

    def by_phone(self, connection, chance):
        name = connection.name
        if chance < 0.02:
            connection.until = self.random.choice((ALWAYS, self.now + 5000))
            self.line(f"allow {name} {connection.until}")
        elif chance < 0.03:
            connection.until = 0
            self.line(f"deny {name}")
        elif chance < 0.05:
            self.go(connection)
        elif chance < 0.14:
            self.subscribe(connection)
        elif chance < 0.2:
            self.say(connection, b"\x1e")
        else:
            self.say(connection, self.pdu()[: self.random.choice((600, 600, 23))])

    # What is done.

    def connect(self, name, peer, keys):
        self.line(f"connect {name} {peer}")
        self.numbers += [name] if name not in self.numbers else []
        connection = self.here[name] = Connection(name, peer, keys)
        is_encrypted = bool(keys) and self.random.random() < 0.8
        self.table.begin(dict(self.rows.get(peer, {})) if is_encrypted else {})
        connection.state = self.table.state()
        if is_encrypted:
            self.end_of_line()
            key, (size, is_authenticated) = self.random.choice(keys)
            self.line(f"encrypt {name} {key}")
            connection.link.size, connection.link.is_authenticated = size, is_authenticated

    def go(self, connection):
        """The connection ends: a phone leaves, or loses its encryption."""
        del self.here[connection.name]
        if connection.link.size:
            self.rows[connection.peer] = connection.state["configured"]
        if self.random.random() < 0.5:
            self.line(f"clear {connection.name}")
            if connection.link.size:
                self.bring(connection.name, "ended 05")
                return
            self.end_of_line()
        self.line(f"drop {connection.name}")

    def say(self, connection, pdu):
        pdu = pdu[:517]
        self.line(f"{connection.name} < {pdu.hex() or '-'}")
        connection.link.is_authorized = self.now < connection.until
        self.table.enter(connection.state)
        answer = self.table.answer(pdu, connection.link)
        connection.state = self.table.state()
        if answer is not None:
            self.bring(connection.name, f"> {answer.hex()}")
        if pdu == b"\x1e" and not connection.is_late:
            connection.unconfirmed = None
        for it in self.table.changed:
            for other in self.here.values():
                if other is not connection:
                    self.raise_for(other, it)

    def subscribe(self, connection):
        handles = [it.handle for it in self.table.attributes if it.kind == CONFIGURATION]
        if handles:
            self.say(connection, b"\x12" + self.random.choice(handles).to_bytes(2, "little") + self.random.choice((b"\1\0", b"\2\0", b"\3\0")))

    def tick(self, now):
        if now < 0:
            return
        self.line(f"tick {now}", 5 if now < self.now else None)
        self.now = max(now, self.now)
        for connection in self.here.values():
            if connection.unconfirmed is not None and self.now - connection.unconfirmed >= 30000:
                connection.is_late, connection.waiting = True, []

    def update(self, handle):
        it = self.table.at(handle)
        value = self.random.randbytes(self.random.choice((0, 1, 1, it.most if it else 3, self.random.randrange(60))))
        text = f"update {handle} {value.hex() or '-'}"
        if it is None:
            self.line(text, 1)
        elif handle == 1 or self.table.at(handle - 1).kind != CHARACTERISTIC:
            self.line(text, 2)
        elif len(value) > it.most or it.is_fixed and len(value) != it.most:
            self.line(text, 3)
        else:
            self.line(text)
            it.value = value
            for connection in self.here.values():
                self.raise_for(connection, it)

    # What a connection is told unasked.

    def bits(self, connection, it):
        """What a connection may be told of a value by now: 1 by a notification, 2 by an indication."""
        connection.link.is_authorized = self.now < connection.until
        configuration = self.table.at(it.handle + 1)
        if not configuration or configuration.kind != CONFIGURATION or self.table.unmet(it.read, connection.link):
            return 0
        return connection.state["configured"].get(configuration.handle, b"\0\0")[0] & configuration.supports

    def raise_for(self, connection, it):
        bits = self.bits(connection, it)
        if connection.is_late or not bits:
            return
        if bits & 2:
            connection.waiting += [it] if it not in connection.waiting else []
        else:
            self.tell(connection, 0x1B, it)

    def release(self, connection):
        while connection.waiting and connection.unconfirmed is None:
            it = connection.waiting.pop(0)
            if self.bits(connection, it) & 2:
                self.tell(connection, 0x1D, it)
                connection.unconfirmed = self.now

    def tell(self, connection, opcode, it):
        told = bytes((opcode,)) + it.handle.to_bytes(2, "little") + it.value[: connection.state["mtu"] - 3]
        self.bring(connection.name, f"> {told.hex()}")
