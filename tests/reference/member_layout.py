"""The bytes of a member's book, read and written in plain Python by docs/LAYOUT.md.

A book is 5,234 bytes. What the bytes cannot mean (a mark that is neither 0 nor 1, a
count beyond its places, an entry of unknown kind, another length) is refusal 4, as is
what Member.faulty finds in what they do mean.
"""

from member_reference import (
    RECORDS_UNSOUND,
    MOST_IN_INFO,
    MOST_MEMBERS,
    MOST_OPEN,
    MOST_OUTGOING,
    MOST_TAKEN,
    Member,
    refuse_if,
)

SIZE = 5234

# Offsets in a book.
MEMBERS = 0
OWN = 1
SETTLED = 2
CARRIER = 7
CLIENT = 13
REGISTERED = 19
HANDED = 20
TOLD = 21
REPORTED = 22
TAKEN = 23
INFOS = 24
REGISTRATIONS = 25
TOLD_COUNTS = 26
SIDE = 34
OPEN = 35
OUTGOING = 191
INWARD = (2928, 4081)

# Sizes, and offsets in a queue entry.
VIEW_SIZE = 5
ENTRY_SIZE = 171
ENTRY_SENDER = 0
ENTRY_KIND = 1
ENTRY_NUMBER = 2
ENTRY_VIEWS = 10
KINDS = {1: "client", 2: "info", 3: "registered", 4: "told"}

# In an inward list, behind its count: the senders of all items, then their entry numbers.
SENDERS = 1
NUMBERS = 129


class Reading:
    """Bytes read at a place. The places read are kept in `used`: a script's answer
    may lean only on bytes that the papers determine."""

    def __init__(self, data):
        self.data = data
        self.used = set()

    def number(self, at, width=1):
        self.used.update(range(at, at + width))
        return int.from_bytes(self.data[at : at + width], "big")

    def mark(self, at):
        value = self.number(at)
        refuse_if(value > 1, RECORDS_UNSOUND)
        return value == 1

    def count(self, at, limit):
        value = self.number(at)
        refuse_if(value > limit, RECORDS_UNSOUND)
        return value

    def view(self, at):
        return (self.number(at, 4), self.number(at + 4))

    def view_if_marked(self, at):
        return self.view(at + 1) if self.mark(at) else None

    def views(self, at, limit):
        count = self.count(at, limit)
        return [self.view(at + 1 + VIEW_SIZE * i) for i in range(count)]

    def entry(self, at):
        sender = self.number(at + ENTRY_SENDER)
        kind = self.number(at + ENTRY_KIND)
        refuse_if(kind not in KINDS, RECORDS_UNSOUND)
        name = KINDS[kind]
        if name == "info":
            views = self.views(at + ENTRY_VIEWS, MOST_IN_INFO)
            # An info carries its settled view at the least.
            refuse_if(views == [], RECORDS_UNSOUND)
            return sender, ("info", views[0], views[1:])
        if name == "registered":
            return sender, ("registered",)
        return sender, (name, self.number(at + ENTRY_NUMBER, 8))

    def items(self, at):
        count = self.count(at, MOST_TAKEN)
        return [(self.number(at + SENDERS + i), self.number(at + NUMBERS + 8 * i, 8)) for i in range(count)]

    def member(self):
        refuse_if(len(self.data) != SIZE, RECORDS_UNSOUND)
        m = Member()
        m.members = self.number(MEMBERS)
        m.own = self.number(OWN)
        m.settled = self.view(SETTLED)
        m.carrier = self.view_if_marked(CARRIER)
        m.client = self.view_if_marked(CLIENT)
        m.registered = self.mark(REGISTERED)
        m.handed = self.number(HANDED)
        m.told = self.number(TOLD)
        m.reported = self.number(REPORTED)
        m.taken = self.number(TAKEN)
        m.infos = self.number(INFOS)
        m.registrations = self.number(REGISTRATIONS)
        # Of a told count only a member's place is used.
        for q in range(min(m.members, MOST_MEMBERS)):
            m.told_counts[q] = self.number(TOLD_COUNTS + q)
        m.side = 1 if self.mark(SIDE) else 0
        m.open = self.views(OPEN, MOST_OPEN)
        outgoing = self.count(OUTGOING, MOST_OUTGOING)
        m.outgoing = [self.entry(OUTGOING + 1 + ENTRY_SIZE * i) for i in range(outgoing)]
        m.inward = self.items(INWARD[m.side])
        m.early = self.items(INWARD[1 - m.side])
        return m


def from_bytes(data):
    """The member that the bytes mean, or Refused with 4. Whether it is sound is asked
    of it by each step."""
    return Reading(data).member()


class Writing:
    """A member written over the bytes of a book: unused places stay as they are."""

    def __init__(self, data):
        self.data = bytearray(data)

    def number(self, at, value, width=1):
        self.data[at : at + width] = value.to_bytes(width, "big")

    def view(self, at, view):
        self.number(at, view[0], 4)
        self.number(at + 4, view[1])

    def view_if_any(self, at, view):
        self.number(at, 0 if view is None else 1)
        if view is not None:
            self.view(at + 1, view)

    def views(self, at, views):
        self.number(at, len(views))
        for i, view in enumerate(views):
            self.view(at + 1 + VIEW_SIZE * i, view)

    def entry(self, at, entry):
        sender, message = entry
        self.number(at + ENTRY_SENDER, sender)
        self.number(at + ENTRY_KIND, [k for k in KINDS if KINDS[k] == message[0]][0])
        if message[0] == "info":
            self.views(at + ENTRY_VIEWS, [message[1]] + message[2])
        else:
            self.number(at + ENTRY_NUMBER, message[1] if len(message) > 1 else 0, 8)

    def items(self, at, items):
        self.number(at, len(items))
        for i, (sender, entry) in enumerate(items):
            self.number(at + SENDERS + i, sender)
            self.number(at + NUMBERS + 8 * i, entry, 8)

    def member(self, m):
        self.number(MEMBERS, m.members)
        self.number(OWN, m.own)
        self.view(SETTLED, m.settled)
        self.view_if_any(CARRIER, m.carrier)
        self.view_if_any(CLIENT, m.client)
        self.number(REGISTERED, 1 if m.registered else 0)
        self.number(HANDED, m.handed)
        self.number(TOLD, m.told)
        self.number(REPORTED, m.reported)
        self.number(TAKEN, m.taken)
        self.number(INFOS, m.infos)
        self.number(REGISTRATIONS, m.registrations)
        for q in range(m.members):
            self.number(TOLD_COUNTS + q, m.told_counts[q])
        self.number(SIDE, m.side)
        self.views(OPEN, m.open)
        self.number(OUTGOING, len(m.outgoing))
        for i, entry in enumerate(m.outgoing):
            self.entry(OUTGOING + 1 + ENTRY_SIZE * i, entry)
        self.items(INWARD[m.side], m.inward)
        self.items(INWARD[1 - m.side], m.early)


def to_bytes(m, over=bytes(SIZE)):
    """The bytes of a book, written over the bytes that were there."""
    writing = Writing(over)
    writing.member(m)
    return bytes(writing.data)
