"""The member by itself, once more, in plain Python.

It is written from the words of the specification alone, apart from the engine and
from the reference of the group, so that each can be compared with it line by line.
Quoted words are the specification's.

    python3 tests/reference/member_reference.py STORIES            the answers to the lines of a file
    python3 tests/reference/member_reference.py check STORIES      whether the file stdout beside it has them
    python3 tests/reference/member_reference.py random SEED LINES  a long hostile script

A view is a pair (identifier, set); a set is a number, bit 0 for member 0.
A queue entry is a pair (sender, message); a message is one of
    ("client", entry number)    ("info", settled view, [open views])
    ("registered",)             ("told", count)
The bytes of a book are in member_layout.py, the scripts in member_script.py, the
refusals' numbers, which both references share, in refusals.py.
"""

import sys

from refusals import (
    MEMBERS_OUT_OF_RANGE, FIRST_SET_UNFIT, RECORDS_UNSOUND, NO_SUCH_MEMBER, SET_UNFIT, NOT_IN_SET, NOT_ABOVE_CARRIER,
    NO_CARRIER_VIEW, NONE_OUTGOING, ORDER_FULL, NOT_ABOVE_CLIENT, INFO_MISSING, TEST_FAILED, NO_CLIENT_VIEW,
    ALREADY_REGISTERED, OUTGOING_FULL, NONE_TO_HAND, CLIENT_NOT_CARRIER, NOTHING_NEW_TO_TELL, NONE_TO_REPORT,
    TOLD_TOO_LOW, NOT_ABOVE_SETTLED, REGISTRATION_MISSING, ENDS_EARLY, UNKNOWN_KIND, SECTION_COUNT, EMPTY_SET,
    NOT_RISING, TOLD_OUT_OF_RANGE, BYTES_LEFT_OVER, BUFFER_TOO_SHORT, ANOTHER_VIEW, SENDER_NOT_IN_VIEW,
    TOO_MANY_OPEN, Refused, refuse_if,
)

# "Words and bounds"; 31 open is the limit of the member by itself.
MOST_MEMBERS = 8
MOST_OUTGOING = 16
MOST_TAKEN = 128
MOST_OPEN = 31
MOST_IN_INFO = 32


# Sets and views


def in_set(member, members_set):
    return member < MOST_MEMBERS and members_set >> member & 1 == 1


def members_of(members_set):
    return [m for m in range(MOST_MEMBERS) if in_set(m, members_set)]


def empty_or_beyond(members_set, members):
    """A set "empty or beyond the members"."""
    return members_set == 0 or members_set >= 2**members


def is_above(view, other):
    """No view at all is below every view; equal is not above."""
    return other is None or view[0] > other[0]


def same_view(view, other):
    """Client view and carrier view are compared by identifier."""
    return view is not None and other is not None and view[0] == other[0]


def rising(views):
    return all(views[i][0] < views[i + 1][0] for i in range(len(views) - 1))


def passes_test(new_set, held_set):
    """"twice the members in common must exceed the members of the held view"."""
    return 2 * len(members_of(new_set & held_set)) > len(members_of(held_set))


def own_or_given(view, held):
    """"Of two views with one identifier it keeps its own set"."""
    for mine in held:
        if mine[0] == view[0]:
            return mine
    return view


def both_together(mine, theirs):
    """Both lists of open views as one, identifiers rising, with the member's own sets."""
    together = dict(theirs)
    together.update(dict(mine))
    return sorted(together.items())


def only_above(views, settled):
    """"keeping only those above the settled one"."""
    return [v for v in views if is_above(v, settled)]


# "Message bytes"


def message_bytes(identifier, message):
    """The bytes of a message sent in the view of that identifier."""
    kind, views, numbers = {
        "client": lambda: (1, [], [message[1]]),
        "info": lambda: (2, [message[1]] + message[2], []),
        "registered": lambda: (3, [], []),
        "told": lambda: (4, [], [message[1]]),
    }[message[0]]()
    written = bytes([kind]) + identifier.to_bytes(4, "big") + bytes([len(views)])
    for view, members_set in views:
        written += view.to_bytes(4, "big") + bytes([members_set])
    written += bytes([len(numbers)])
    for number in numbers:
        written += number.to_bytes(8, "big")
    return written


class Bytes:
    """What is left of the bytes of a message; "bytes end early" is 32."""

    def __init__(self, data):
        self.rest = bytes(data)

    def number(self, width):
        refuse_if(len(self.rest) < width, ENDS_EARLY)
        taken, self.rest = self.rest[:width], self.rest[width:]
        return int.from_bytes(taken, "big")


def read_front(data):
    """(identifier of the view sent in, message, how many bytes it took). "The reader
    gives the message and the number of bytes it took": 32 to 34 as the bytes come, then
    35 to 37."""
    come = Bytes(data)
    kind = come.number(1)
    refuse_if(not 1 <= kind <= 4, UNKNOWN_KIND)
    identifier = come.number(4)
    count = come.number(1)
    refuse_if(not (1 <= count <= MOST_IN_INFO if kind == 2 else count == 0), SECTION_COUNT)
    views = []
    for _ in range(count):
        view = come.number(4)
        views.append((view, come.number(1)))
    count = come.number(1)
    refuse_if(count != (1 if kind in (1, 4) else 0), SECTION_COUNT)
    numbers = [come.number(8) for _ in range(count)]
    refuse_if(any(members_set == 0 for _, members_set in views), EMPTY_SET)
    refuse_if(not rising(views), NOT_RISING)
    refuse_if(kind == 4 and not 1 <= numbers[0] <= MOST_TAKEN, TOLD_OUT_OF_RANGE)
    if kind == 1:
        message = ("client", numbers[0])
    elif kind == 2:
        message = ("info", views[0], views[1:])
    elif kind == 3:
        message = ("registered",)
    else:
        message = ("told", numbers[0])
    return identifier, message, len(data) - len(come.rest)


def read_one(data):
    """"Callers that want exactly one [...] test the count and give 38 after 37"."""
    identifier, message, taken = read_front(data)
    refuse_if(taken != len(data), BYTES_LEFT_OVER)
    return identifier, message


# The member

OK = "ok"


def line(*parts):
    return " ".join(str(part) for part in parts)


class Member:
    """A member's book as plain data. A step gives its reply line or raises Refused."""

    def __init__(self):
        # No book of any group: a start makes one of it.
        self.members = 0
        self.own = 0
        self.settled = (0, 0)
        self.carrier = None
        self.client = None
        self.open = []
        # Positions in the client view's inward list, and whether it is registered there.
        self.registered = False
        self.handed = 0
        self.told = 0
        self.reported = 0
        # What was taken in the carrier view: how many, and from whom, as sets.
        self.taken = 0
        self.infos = 0
        self.registrations = 0
        self.told_counts = [0] * MOST_MEMBERS
        self.outgoing = []
        # The client view's inward list, and that of a carrier view not yet attempted:
        # pairs of sender and entry number.
        self.inward = []
        self.early = []
        # Which of a book's two places for them is the client view's: 0 or 1.
        self.side = 0

    # Refusals of every step

    def set_bad(self, view):
        return empty_or_beyond(view[1], self.members)

    def held_bad(self, settled, open_views):
        """A set that is none, or "open views (a book's or an info's) not rising above
        the settled one"."""
        views = [settled] + open_views
        return any(self.set_bad(v) for v in views) or not rising(views)

    def entry_bad(self, entry):
        sender, message = entry
        if sender >= self.members:
            return True
        if message[0] == "told":
            return not 1 <= message[1] <= MOST_TAKEN
        return message[0] == "info" and (
            len(message[2]) > MOST_OPEN or self.held_bad(message[1], message[2])
        )

    def carrier_inward(self):
        """The inward list of the carrier view."""
        return self.inward if same_view(self.client, self.carrier) else self.early

    def faulty(self):
        """"4 covers its own book, with over 31 open in place of what concerns the list"."""
        if not 1 <= self.members <= MOST_MEMBERS:
            return True
        positions = [self.handed, self.told, self.reported]
        limit = 0 if self.client is None else len(self.inward)
        return (
            self.held_bad(self.settled, self.open)
            or len(self.open) > MOST_OPEN
            or self.carrier is not None and self.set_bad(self.carrier)
            or self.client is not None and self.set_bad(self.client)
            or any(position > limit for position in positions)
            or self.taken > (0 if self.carrier is None else MOST_TAKEN)
            or any(count > MOST_TAKEN for count in self.told_counts[: self.members])
            or len(self.outgoing) > MOST_OUTGOING
            or any(self.entry_bad(entry) for entry in self.outgoing)
            or len(self.inward) > MOST_TAKEN
            or len(self.early) > MOST_TAKEN
            or any(sender >= self.members for sender, _ in self.inward + self.early)
            or self.carrier is not None and len(self.carrier_inward()) > self.taken
        )

    def check_sound(self):
        refuse_if(self.faulty(), RECORDS_UNSOUND)

    def check_book(self):
        self.check_sound()
        refuse_if(self.own >= self.members, NO_SUCH_MEMBER)

    # The steps. Each checks in the table's order, then changes.

    def start(self, members, first_set, own):
        refuse_if(not 1 <= members <= MOST_MEMBERS, MEMBERS_OUT_OF_RANGE)
        refuse_if(empty_or_beyond(first_set, members), FIRST_SET_UNFIT)
        refuse_if(own >= members, NO_SUCH_MEMBER)
        self.__init__()
        self.members = members
        self.own = own
        # "Everyone has it settled, nothing open."
        self.settled = (0, first_set)
        # "Its members have it as carrier and client view, attempted and registered."
        if in_set(own, first_set):
            self.carrier = self.settled
            self.client = self.settled
            self.registered = True
        return OK

    def join(self, identifier, members_set):
        self.check_book()
        view = (identifier, members_set)
        refuse_if(self.set_bad(view), SET_UNFIT)
        refuse_if(not in_set(self.own, members_set), NOT_IN_SET)
        refuse_if(not is_above(view, self.carrier), NOT_ABOVE_CARRIER)
        # "it becomes the carrier view"; "The inward list of a carrier view left without
        # an attempt goes."
        self.carrier = view
        self.early = []
        self.taken = 0
        # "Outgoing is emptied, then holds one info with what the member holds."
        self.outgoing = [(self.own, ("info", self.settled, list(self.open)))]
        # "Infos, registrations and told counts received are forgotten."
        self.infos = 0
        self.registrations = 0
        self.told_counts = [0] * MOST_MEMBERS
        return OK

    def pass_(self, room):
        """"pass gives out bytes", into a buffer with that much room."""
        self.check_book()
        refuse_if(self.carrier is None, NO_CARRIER_VIEW)
        refuse_if(not self.outgoing, NONE_OUTGOING)
        written = message_bytes(self.carrier[0], self.outgoing[0][1])
        refuse_if(room < len(written), BUFFER_TOO_SHORT)
        self.outgoing = self.outgoing[1:]
        return line("pass", written.hex())

    def deliver(self, data, sender):
        """"deliver is given bytes and a sender"."""
        self.check_deliver()
        identifier, message = read_one(data)
        self.take(identifier, message, sender)
        return OK

    def packet(self, data, sender):
        """"A packet of several is delivered one by one, up to the first refusal. Its
        result is the number delivered with the refusal that stopped it, or 0 (an empty
        packet: 0 and 0, once 4 is passed)"."""
        self.check_sound()
        delivered = 0
        while data:
            try:
                self.check_deliver()
                identifier, message, taken = read_front(data)
                self.take(identifier, message, sender)
            except Refused as refusal:
                # "the messages before that stay taken, and the stopped one changes nothing"
                return line("took", delivered, "refused", refusal.number)
            delivered += 1
            data = data[taken:]
        return line("took", delivered)

    def check_deliver(self):
        self.check_book()
        refuse_if(self.carrier is None, NO_CARRIER_VIEW)

    def take(self, identifier, message, sender):
        """What deliver does with a message that was read."""
        carried = [message[1]] + message[2] if message[0] == "info" else []
        refuse_if(any(self.set_bad(view) for view in carried), SET_UNFIT)
        refuse_if(identifier != self.carrier[0], ANOTHER_VIEW)
        refuse_if(not in_set(sender, self.carrier[1]), SENDER_NOT_IN_VIEW)
        refuse_if(self.taken >= MOST_TAKEN, ORDER_FULL)
        if message[0] == "info":
            self.take_info(sender, message[1], message[2])
        elif message[0] == "registered":
            self.registrations |= 1 << sender
        elif message[0] == "told":
            # "the sender's count replaces the earlier"
            self.told_counts[sender] = message[1]
        else:
            # "put at the end of that view's inward list"
            self.carrier_inward().append((sender, message[1]))
        self.taken += 1

    def take_info(self, sender, settled, open_views):
        # "a settled view with a higher identifier replaces its own"; "an open view that
        # an info settles is settled with the set it had open"
        if is_above(settled, self.settled):
            now_settled = own_or_given(settled, self.open)
        else:
            now_settled = self.settled
        # "open views are both lists together, keeping only those above the settled one"
        now_open = only_above(both_together(self.open, open_views), now_settled)
        refuse_if(len(now_open) > MOST_OPEN, TOO_MANY_OPEN)
        self.settled = now_settled
        self.open = now_open
        self.infos |= 1 << sender

    def attempt(self):
        self.check_book()
        refuse_if(self.carrier is None, NO_CARRIER_VIEW)
        refuse_if(not is_above(self.carrier, self.client), NOT_ABOVE_CLIENT)
        identifier, members_set = self.carrier
        refuse_if(any(not in_set(p, self.infos) for p in members_of(members_set)), INFO_MISSING)
        held = [self.settled] + self.open
        refuse_if(any(not passes_test(members_set, h) for _, h in held), TEST_FAILED)
        # "attempting a view not above its settled one, or whose identifier is open
        # already, opens nothing; 43 is then not given"
        now_open = only_above(both_together(self.open, [self.carrier]), self.settled)
        refuse_if(len(now_open) > MOST_OPEN, TOO_MANY_OPEN)
        # "the carrier view becomes open and becomes the client view; the old inward
        # list goes"
        self.open = now_open
        self.client = self.carrier
        self.inward = self.early
        self.early = []
        self.side = 1 - self.side
        # "The counts handed, told and reported start at 0."
        self.registered = False
        self.handed = 0
        self.told = 0
        self.reported = 0
        return line("attempt", self.own, identifier, members_set)

    def refuse_if_outgoing_full(self):
        """"24 applies only where a message would be queued"."""
        queued = same_view(self.client, self.carrier)
        refuse_if(queued and len(self.outgoing) >= MOST_OUTGOING, OUTGOING_FULL)

    def queue(self, message):
        """Outgoing gains a message; "where the client view isn't the carrier view [...]
        no message is queued"."""
        if same_view(self.client, self.carrier):
            self.outgoing = self.outgoing + [(self.own, message)]

    def register(self):
        """"noted for the client view; outgoing gains a registered message"."""
        self.check_book()
        refuse_if(self.client is None, NO_CLIENT_VIEW)
        refuse_if(self.registered, ALREADY_REGISTERED)
        self.refuse_if_outgoing_full()
        self.registered = True
        self.queue(("registered",))
        return line("register", self.own, self.client[0])

    def send(self, entry):
        """"outgoing gains a client message"."""
        self.check_book()
        refuse_if(self.client is None, NO_CLIENT_VIEW)
        self.refuse_if_outgoing_full()
        self.queue(("client", entry))
        return line("send", self.own, self.client[0], entry)

    def hand(self):
        """"the next of the client view's inward list is given out"."""
        self.check_book()
        refuse_if(self.client is None, NO_CLIENT_VIEW)
        refuse_if(self.handed >= len(self.inward), NONE_TO_HAND)
        sender, entry = self.inward[self.handed]
        self.handed += 1
        return line("hand", self.own, self.client[0], sender, entry)

    def tell(self):
        """"outgoing gains told, with the number handed out in this view"."""
        self.check_book()
        refuse_if(self.client is None, NO_CLIENT_VIEW)
        refuse_if(not same_view(self.client, self.carrier), CLIENT_NOT_CARRIER)
        # "count told already, or 0"
        refuse_if(self.handed == 0 or self.handed == self.told, NOTHING_NEW_TO_TELL)
        self.refuse_if_outgoing_full()
        self.told = self.handed
        self.queue(("told", self.handed))
        return OK

    def safe(self):
        """"the next handed message not yet reported is reported"."""
        self.check_book()
        refuse_if(self.client is None, NO_CLIENT_VIEW)
        refuse_if(not same_view(self.client, self.carrier), CLIENT_NOT_CARRIER)
        refuse_if(self.reported >= self.handed, NONE_TO_REPORT)
        # "Safe rests on told counts, the member's own included"
        counts = [self.told_counts[p] for p in members_of(self.client[1])]
        refuse_if(any(count < self.reported + 1 for count in counts), TOLD_TOO_LOW)
        sender, entry = self.inward[self.reported]
        self.reported += 1
        return line("safe", self.own, self.client[0], sender, entry)

    def collect(self):
        """"the carrier view becomes settled; only open views above it remain"."""
        self.check_book()
        refuse_if(self.carrier is None, NO_CARRIER_VIEW)
        refuse_if(not is_above(self.carrier, self.settled), NOT_ABOVE_SETTLED)
        members = members_of(self.carrier[1])
        refuse_if(any(not in_set(p, self.registrations) for p in members), REGISTRATION_MISSING)
        self.settled = self.carrier
        self.open = only_above(self.open, self.settled)
        return OK


if __name__ == "__main__":
    import member_script

    sys.exit(member_script.main(sys.argv[1:]))
