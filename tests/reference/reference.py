"""The group and its bench, once more, in plain Python.

It is written from the words of the specification alone, apart from the engine,
so that the two can be compared line by line. Quoted words are the specification's.

    python3 tests/reference/reference.py < script > replies

A view is a pair (identifier, set); a set is a number, bit 0 for member 0.
A queue entry is a pair (sender, message); a message is one of
    ("client", entry number)    ("info", settled view, [open views])
    ("registered",)             ("told", count)
"""

import copy
import sys

from refusals import (
    MEMBERS_OUT_OF_RANGE, FIRST_SET_UNFIT, LIST_LENGTH, UNKNOWN_STEP, NO_SUCH_MEMBER, SET_UNFIT, IDENTIFIER_NOT_ABOVE,
    LIST_FULL, NO_SUCH_VIEW, NOT_IN_SET, NOT_ABOVE_CARRIER, NO_CARRIER_VIEW, NONE_OUTGOING, WAITING_FULL,
    ORDER_FULL, NONE_WAITING, NONE_TO_DELIVER, NOT_ABOVE_CLIENT, INFO_MISSING, TEST_FAILED, NO_CLIENT_VIEW,
    ALREADY_REGISTERED, OUTGOING_FULL, NONE_TO_HAND, CLIENT_NOT_CARRIER, NOTHING_NEW_TO_TELL, NONE_TO_REPORT,
    TOLD_TOO_LOW, NOT_ABOVE_SETTLED, REGISTRATION_MISSING, ENDS_EARLY, UNKNOWN_KIND, SECTION_COUNT, EMPTY_SET,
    NOT_RISING, TOLD_OUT_OF_RANGE, BYTES_LEFT_OVER, LINE_UNREADABLE, VIEW_NOT_FRESH, FORM_TEST_FAILED, TOO_FEW_PLACES,
    Refused, refuse_if,
)

# "Words and bounds"
MOST_MEMBERS = 8
MOST_VIEWS = 32
MOST_OUTGOING = 16
MOST_WAITING = 8
MOST_ORDERED = 128

# "The bench" lends this many view records; a line holds at most this many bytes.
BENCH_ROOM = 8
BENCH_LINE = 64


# Sets and views


def in_set(member, members_set):
    return members_set >> member & 1 == 1


def members_of(members_set):
    return [m for m in range(MOST_MEMBERS) if in_set(m, members_set)]


def empty_or_beyond(members_set, members):
    """A set "empty or beyond the members"."""
    return members_set == 0 or members_set >= 2**members


def is_above(identifier, view):
    """No view at all is below every identifier; equal is not above."""
    return view is None or identifier > view[0]


def shares_member(one_set, other_set):
    return one_set & other_set != 0


def passes_test(new_set, held_set):
    """"twice the members in common must exceed the members of the held view"."""
    return 2 * len(members_of(new_set & held_set)) > len(members_of(held_set))


def only_above(views, settled):
    """"keeping only those above the settled one"."""
    return [v for v in views if is_above(v[0], settled)]


def both_together(views, others):
    """Both lists of open views as one, identifiers rising, each view once."""
    return sorted(set(views) | set(others))


# The group


def fresh_member(in_first, first):
    """"Its members have it as carrier and client view, attempted and registered.
    Members outside it have neither view. Everyone has it settled, nothing open.\""""
    return {
        "carrier": first if in_first else None,
        "client": first if in_first else None,
        "settled": first,
        "open": [],
        "outgoing": [],
        # What was taken in the carrier view.
        "taken": 0,
        "infos": set(),
        "registrations": set(),
        "told_counts": {},
        # The inward lists by view identifier: the client's, the carrier's.
        "inward": {first[0]: []} if in_first else {},
        # The member's own notes about its client view.
        "registered": in_first,
        "handed": 0,
        "told": 0,
        "reported": 0,
    }


class Group:
    """The views made with their queues, and what each member keeps."""

    def __init__(self, members, first_set, room):
        refuse_if(not 1 <= members <= MOST_MEMBERS, MEMBERS_OUT_OF_RANGE)
        refuse_if(empty_or_beyond(first_set, members), FIRST_SET_UNFIT)
        refuse_if(not 1 <= room <= MOST_VIEWS, LIST_LENGTH)
        first = (0, first_set)
        self.members = members
        self.room = room
        self.views = [first]
        # By view identifier: its order, and the waiting of each member.
        self.order = {0: []}
        self.waiting = {0: [[] for _ in range(members)]}
        self.member = [fresh_member(in_set(m, first_set), first) for m in range(members)]
        # Every view that an `attempt` reply named, "the first view's from the start".
        self.attempted = {first}

    def step(self, kind, x=0, y=0):
        """One step with its operands: ("ok",), ("refused", R) or the event it gives."""
        try:
            refuse_if(kind not in STEPS, UNKNOWN_STEP)
            name, does, _ = STEPS[kind]
            refuse_if(name != "create" and x >= self.members, NO_SUCH_MEMBER)
            reply = does(self, x, y)
        except Refused as refusal:
            return ("refused", refusal.number)
        if reply[0] == "attempt":
            _, _, identifier, members_set = reply
            self.attempted.add((identifier, members_set))
        return reply

    def form(self, identifier):
        """The driver: ("formed", how many steps), or ("refused", R) and nothing changes."""
        try:
            tried = copy.deepcopy(self)
            count = form(tried, identifier)
            self.__dict__ = tried.__dict__
            return ("formed", count)
        except Refused as refusal:
            return ("refused", refusal.number)

    def crossing(self, members_set, places):
        """The attempted views that share a member with the set: ("crossing", how many, their identifiers), or
        ("refused", R). `places` is how many identifiers the buffer has room for."""
        return self.listed("crossing", shares_member, members_set, places)

    def holding(self, members_set, places):
        """The same of those against which a view with this set would pass the test."""
        return self.listed("holding", passes_test, members_set, places)

    def listed(self, name, belongs, members_set, places):
        try:
            return (name, *list_attempted(self, belongs, members_set, places))
        except Refused as refusal:
            return ("refused", refusal.number)

    def before(self, identifier):
        """The newest attempted view below the identifier: ("before", its identifier, its set), or ("none",)."""
        lower = [view for view in self.attempted if view[0] < identifier]
        return ("before", *max(lower)) if lower else ("none",)


def start(members, first_set, room):
    """The fresh group, or ("refused", R)."""
    try:
        return Group(members, first_set, room)
    except Refused as refusal:
        return ("refused", refusal.number)


def view_made(group, identifier):
    for view in group.views:
        if view[0] == identifier:
            return view
    raise Refused(NO_SUCH_VIEW)


def client_is_carrier(m):
    return m["client"] == m["carrier"]


# The twelve steps. Each checks in the table's order, then changes.

OK = ("ok",)


def create(group, identifier, members_set):
    """"the carrier makes the view"."""
    refuse_if(empty_or_beyond(members_set, group.members), SET_UNFIT)
    refuse_if(any(identifier <= made for made, _ in group.views), IDENTIFIER_NOT_ABOVE)
    refuse_if(len(group.views) >= group.room, LIST_FULL)
    group.views.append((identifier, members_set))
    group.order[identifier] = []
    group.waiting[identifier] = [[] for _ in range(group.members)]
    return OK


def join(group, member, identifier):
    m = group.member[member]
    view = view_made(group, identifier)
    refuse_if(not in_set(member, view[1]), NOT_IN_SET)
    refuse_if(not is_above(identifier, m["carrier"]), NOT_ABOVE_CARRIER)
    # "The inward list of a carrier view left without an attempt goes."
    if m["carrier"] is not None and not client_is_carrier(m):
        del m["inward"][m["carrier"][0]]
    # "it becomes the carrier view"
    m["carrier"] = view
    m["inward"][identifier] = []
    m["taken"] = 0
    # "Outgoing is emptied, then holds one info with what the member holds."
    m["outgoing"] = [(member, ("info", m["settled"], list(m["open"])))]
    # "Infos, registrations and told counts received are forgotten."
    m["infos"] = set()
    m["registrations"] = set()
    m["told_counts"] = {}
    return OK


def pass_on(group, member, _):
    """"the first outgoing message goes to the member's waiting in its carrier view"."""
    m = group.member[member]
    refuse_if(m["carrier"] is None, NO_CARRIER_VIEW)
    refuse_if(not m["outgoing"], NONE_OUTGOING)
    waiting = group.waiting[m["carrier"][0]][member]
    refuse_if(len(waiting) >= MOST_WAITING, WAITING_FULL)
    waiting.append(m["outgoing"].pop(0))
    return OK


def order(group, member, identifier):
    """"the first one waiting goes to the end of the view's order"."""
    view_made(group, identifier)
    waiting = group.waiting[identifier][member]
    refuse_if(not waiting, NONE_WAITING)
    refuse_if(len(group.order[identifier]) >= MOST_ORDERED, ORDER_FULL)
    group.order[identifier].append(waiting.pop(0))
    return OK


def deliver(group, member, _):
    """"it takes the next message of its carrier view's order"."""
    m = group.member[member]
    refuse_if(m["carrier"] is None, NO_CARRIER_VIEW)
    identifier = m["carrier"][0]
    refuse_if(m["taken"] >= len(group.order[identifier]), NONE_TO_DELIVER)
    sender, message = group.order[identifier][m["taken"]]
    m["taken"] += 1
    if message[0] == "info":
        take_info(m, sender, message[1], message[2])
    elif message[0] == "registered":
        m["registrations"].add(sender)
    elif message[0] == "told":
        # "the sender's count replaces the earlier"
        m["told_counts"][sender] = message[1]
    else:
        # "put at the end of that view's inward list"
        m["inward"][identifier].append((sender, message[1]))
    return OK


def take_info(m, sender, settled, open_views):
    m["infos"].add(sender)
    # "a settled view with a higher identifier replaces its own"
    if is_above(settled[0], m["settled"]):
        m["settled"] = settled
    # "open views are both lists together, keeping only those above the settled one"
    m["open"] = only_above(both_together(m["open"], open_views), m["settled"])


def attempt(group, member, _):
    m = group.member[member]
    refuse_if(m["carrier"] is None, NO_CARRIER_VIEW)
    identifier, members_set = m["carrier"]
    refuse_if(not is_above(identifier, m["client"]), NOT_ABOVE_CLIENT)
    refuse_if(any(p not in m["infos"] for p in members_of(members_set)), INFO_MISSING)
    held = [m["settled"]] + m["open"]
    refuse_if(any(not passes_test(members_set, h) for _, h in held), TEST_FAILED)
    # "the old inward list goes"
    if m["client"] is not None:
        del m["inward"][m["client"][0]]
    # "the carrier view becomes open and becomes the client view"
    m["open"] = only_above(both_together(m["open"], [m["carrier"]]), m["settled"])
    m["client"] = m["carrier"]
    m["registered"] = False
    # "The counts handed, told and reported start at 0."
    m["handed"] = 0
    m["told"] = 0
    m["reported"] = 0
    return ("attempt", member, identifier, members_set)


def queue(m, member, message):
    """Outgoing gains a message; "where the client view isn't the carrier view [...]
    no message is queued"."""
    if client_is_carrier(m):
        m["outgoing"].append((member, message))


def refuse_if_outgoing_full(m):
    """"24 applies only where a message would be queued"."""
    refuse_if(client_is_carrier(m) and len(m["outgoing"]) >= MOST_OUTGOING, OUTGOING_FULL)


def register(group, member, _):
    """"noted for the client view; outgoing gains a registered message"."""
    m = group.member[member]
    refuse_if(m["client"] is None, NO_CLIENT_VIEW)
    refuse_if(m["registered"], ALREADY_REGISTERED)
    refuse_if_outgoing_full(m)
    m["registered"] = True
    queue(m, member, ("registered",))
    return ("register", member, m["client"][0])


def send(group, member, entry):
    """"outgoing gains a client message"."""
    m = group.member[member]
    refuse_if(m["client"] is None, NO_CLIENT_VIEW)
    refuse_if_outgoing_full(m)
    queue(m, member, ("client", entry))
    return ("send", member, m["client"][0], entry)


def hand(group, member, _):
    """"the next of the client view's inward list is given out"."""
    m = group.member[member]
    refuse_if(m["client"] is None, NO_CLIENT_VIEW)
    identifier = m["client"][0]
    inward = m["inward"][identifier]
    refuse_if(m["handed"] >= len(inward), NONE_TO_HAND)
    sender, entry = inward[m["handed"]]
    m["handed"] += 1
    return ("hand", member, identifier, sender, entry)


def tell(group, member, _):
    """"outgoing gains told, with the number handed out in this view"."""
    m = group.member[member]
    refuse_if(m["client"] is None, NO_CLIENT_VIEW)
    refuse_if(not client_is_carrier(m), CLIENT_NOT_CARRIER)
    # "count told already, or 0"
    refuse_if(m["handed"] == 0 or m["handed"] == m["told"], NOTHING_NEW_TO_TELL)
    refuse_if_outgoing_full(m)
    m["told"] = m["handed"]
    queue(m, member, ("told", m["handed"]))
    return OK


def safe(group, member, _):
    """"the next handed message not yet reported is reported"."""
    m = group.member[member]
    refuse_if(m["client"] is None, NO_CLIENT_VIEW)
    refuse_if(not client_is_carrier(m), CLIENT_NOT_CARRIER)
    refuse_if(m["reported"] >= m["handed"], NONE_TO_REPORT)
    identifier, members_set = m["client"]
    # "Safe rests on told counts, the member's own included"
    counts = [m["told_counts"].get(p, 0) for p in members_of(members_set)]
    refuse_if(any(count < m["reported"] + 1 for count in counts), TOLD_TOO_LOW)
    sender, entry = m["inward"][identifier][m["reported"]]
    m["reported"] += 1
    return ("safe", member, identifier, sender, entry)


def collect(group, member, _):
    """"the carrier view becomes settled; only open views above it remain"."""
    m = group.member[member]
    refuse_if(m["carrier"] is None, NO_CARRIER_VIEW)
    identifier, members_set = m["carrier"]
    refuse_if(not is_above(identifier, m["settled"]), NOT_ABOVE_SETTLED)
    members = members_of(members_set)
    refuse_if(any(p not in m["registrations"] for p in members), REGISTRATION_MISSING)
    m["settled"] = m["carrier"]
    m["open"] = only_above(m["open"], m["settled"])
    return OK


# A step's kind: its name, what it does, and the widths of its operands in bytes.
MEMBER_WIDTH = 1
SET_WIDTH = 1
IDENTIFIER_WIDTH = 4
ENTRY_WIDTH = 8

STEPS = {
    1: ("create", create, [IDENTIFIER_WIDTH, SET_WIDTH]),
    2: ("join", join, [MEMBER_WIDTH, IDENTIFIER_WIDTH]),
    3: ("pass", pass_on, [MEMBER_WIDTH]),
    4: ("order", order, [MEMBER_WIDTH, IDENTIFIER_WIDTH]),
    5: ("deliver", deliver, [MEMBER_WIDTH]),
    6: ("attempt", attempt, [MEMBER_WIDTH]),
    7: ("register", register, [MEMBER_WIDTH]),
    8: ("send", send, [MEMBER_WIDTH, ENTRY_WIDTH]),
    9: ("hand", hand, [MEMBER_WIDTH]),
    10: ("tell", tell, [MEMBER_WIDTH]),
    11: ("safe", safe, [MEMBER_WIDTH]),
    12: ("collect", collect, [MEMBER_WIDTH]),
}


# The driver


def form_steps(view):
    """"joins, infos, attempts, registrations and collects in that order; infos and registrations
    go by passes, orders, then deliveries, and each kind of step by rising server, one's steps together"."""
    identifier, servers = view[0], members_of(view[1])

    def each(name, times=1):
        kind = next(k for k in STEPS if STEPS[k][0] == name)
        return [(kind, p, identifier) for p in servers for _ in range(times)]

    exchange = each("pass") + each("order") + each("deliver", len(servers))
    return each("join") + exchange + each("attempt") + each("register") + exchange + each("collect")


def form(group, identifier):
    """"the newest view, not yet joined by anybody (no member's carrier view)"; "the first refusal among
    them is returned". How many steps there were."""
    view = view_made(group, identifier)
    newest = all(made <= identifier for made, _ in group.views)
    joined = any(m["carrier"] is not None and m["carrier"][0] == identifier for m in group.member)
    refuse_if(not newest or joined, VIEW_NOT_FRESH)
    # "passes the test against every view held by any of its servers"
    servers = [group.member[p] for p in members_of(view[1])]
    held = [h for m in servers for h in [m["settled"]] + m["open"]]
    refuse_if(any(not passes_test(view[1], h) for _, h in held), FORM_TEST_FAILED)
    steps = form_steps(view)
    for step in steps:
        reply = group.step(*step)
        refuse_if(reply[0] == "refused", reply[-1])
    return len(steps)


# The queries


def list_attempted(group, belongs, members_set, places):
    """How many attempted views belong with the set, and their identifiers, "newest first and each once"."""
    refuse_if(empty_or_beyond(members_set, group.members), SET_UNFIT)
    views = [view for view in group.attempted if belongs(members_set, view[1])]
    refuse_if(len(views) > places, TOO_FEW_PLACES)
    return [len(views)] + sorted((identifier for identifier, _ in views), reverse=True)


# "Message bytes": the reader


def read_front(data):
    """(view identifier, message, the number of bytes it took), or Refused. 32 to 34 are
    checked "as the bytes come", then 35 to 37."""
    rest = list(data)

    def number(width):
        refuse_if(len(rest) < width, ENDS_EARLY)
        taken = rest[:width]
        del rest[:width]
        return int.from_bytes(bytes(taken), "big")

    kind = number(1)
    refuse_if(kind not in (1, 2, 3, 4), UNKNOWN_KIND)
    identifier = number(4)
    view_count = number(1)
    allowed = range(1, MOST_VIEWS + 1) if kind == 2 else [0]
    refuse_if(view_count not in allowed, SECTION_COUNT)
    views = [(number(4), number(1)) for _ in range(view_count)]
    number_count = number(1)
    refuse_if(number_count != (1 if kind in (1, 4) else 0), SECTION_COUNT)
    numbers = [number(8) for _ in range(number_count)]
    refuse_if(any(members_set == 0 for _, members_set in views), EMPTY_SET)
    rising = all(views[i][0] < views[i + 1][0] for i in range(view_count - 1))
    refuse_if(not rising, NOT_RISING)
    refuse_if(kind == 4 and not 1 <= numbers[0] <= MOST_ORDERED, TOLD_OUT_OF_RANGE)
    if kind == 1:
        message = ("client", numbers[0])
    elif kind == 2:
        message = ("info", views[0], views[1:])
    elif kind == 3:
        message = ("registered",)
    else:
        message = ("told", numbers[0])
    return identifier, message, len(data) - len(rest)


def read_one(data):
    """(view identifier, message) of bytes that are to be exactly one: 38 after 37."""
    identifier, message, taken = read_front(data)
    refuse_if(taken != len(data), BYTES_LEFT_OVER)
    return identifier, message


# "The bench"


def read_numeral(word, width):
    """"decimal without leading zeros, each within its width"."""
    digits = all(byte in b"0123456789" for byte in word)
    refuse_if(word == b"" or not digits, LINE_UNREADABLE)
    refuse_if(word[:1] == b"0" and word != b"0", LINE_UNREADABLE)
    value = int(word)
    refuse_if(value >= 256**width, LINE_UNREADABLE)
    return value


def read_line(line):
    """(name, operands) of a line, its ending byte 10 taken off."""
    refuse_if(line == b"" or len(line) > BENCH_LINE, LINE_UNREADABLE)
    words = line.split(b" ")
    widths = {b"group": [MEMBER_WIDTH, SET_WIDTH]}
    for name, _, operand_widths in STEPS.values():
        widths[name.encode()] = operand_widths
    refuse_if(words[0] not in widths, LINE_UNREADABLE)
    due = widths[words[0]]
    refuse_if(len(words) - 1 != len(due), LINE_UNREADABLE)
    operands = [read_numeral(word, width) for word, width in zip(words[1:], due)]
    return words[0].decode(), operands


def answer(group, line):
    """The group after the line, and the reply to it."""
    try:
        name, operands = read_line(line)
        if name == "group":
            return Group(operands[0], operands[1], BENCH_ROOM), OK
        refuse_if(group is None, LINE_UNREADABLE)
    except Refused as refusal:
        return group, ("refused", refusal.number)
    kind = [k for k in STEPS if STEPS[k][0] == name][0]
    return group, group.step(kind, *operands)


def bench(lines, write):
    """A reply for each accepted line, and for each refused one too where "`all`" is the "first line", which "gets no
    reply and lasts through later groups"; "the last may lack" its byte 10."""
    group, shows_refusals = None, False
    for number, line in enumerate(lines):
        if line.endswith(b"\n"):
            line = line[:-1]
        if number == 0 and line == b"all":
            shows_refusals = True
            continue
        group, reply = answer(group, line)
        if reply[0] != "refused" or shows_refusals:
            write(" ".join(str(part) for part in reply) + "\n")


def write_out(reply):
    sys.stdout.write(reply)
    sys.stdout.flush()


if __name__ == "__main__":
    bench(sys.stdin.buffer, write_out)
