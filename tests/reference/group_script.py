"""Scripts for the whole group with a list of any length, and the answers to them by the reference.

A script is lines, each answered by one line. There are a list of 33 view records, eight
books and the queues of 32 views, all of value 0 at first, and no view record is lent at
first. Numbers are decimal.

    lend ROOM         from now on the first ROOM view records are lent, 0 to 33, with the
                      queues of as many views
    group N S         start: members, first set
    step KIND X Y     a step of any kind number and operands, each within its width
    list              the lent view records: identifier and set of each
    run N S K HEX     in ranges of its own, with as many view records as are lent: start, then
                      the first K steps of the records HEX, at most 40 and perhaps none, each kind
                      1 byte, first operand 4, second 8. It is answered by a record for each: the
                      verdict's number 1 byte, then the event, its kind 1, member 1, identifier
                      4, set 1, sender 1, entry number 8, and what it has not is 0. Steps after
                      the first K are a second list, for the group that the run left, answered
                      after the word then
    put AT I S        the view record at the place AT, 0 to 32, becomes this view
    create MADE I S N create in the list by itself, with so many views made of so many members
    lookup MADE I     lookup in the list by itself among the views made: the view found, or missing
    # words           a comment, answered by itself

No step is put to a group whose list put or create changed, before the next accepted start.

    python3 tests/reference/group_script.py SCRIPT          the answers
    python3 tests/reference/group_script.py check SCRIPT    whether they stand beside it, in the file stdout
"""

import sys

from reference import MOST_MEMBERS, MOST_VIEWS, OK, Group, empty_or_beyond, start
from refusals import RECORDS_UNSOUND
from stored_script import answered, each_line

LONGEST = MOST_VIEWS + 1
STEP = 13
MOST_STEPS = 40

# The widths of the operands in bytes.
WIDTHS = {
    "lend": [1],
    "group": [1, 1],
    "step": [1, 4, 8],
    "list": [],
    "put": [1, 4, 1],
    "create": [1, 4, 1, 1],
    "lookup": [1, 4],
}

UNSOUND = ("refused", RECORDS_UNSOUND)
EVENTS = {"attempt": 6, "register": 7, "send": 8, "hand": 9, "safe": 11}


class Unreadable(Exception):
    pass


def readable_if(fact, words):
    if not fact:
        raise Unreadable(words)


def big(value, width):
    return value.to_bytes(width, "big")


def event_bytes(answer):
    """The record of an answer."""
    if answer[0] == "refused":
        return big(answer[1], 1) + bytes(16)
    if answer[0] == "ok":
        return bytes(17)
    member, identifier = answer[1], answer[2]
    members_set = answer[3] if answer[0] == "attempt" else 0
    sender = answer[3] if answer[0] in ("hand", "safe") else 0
    entry = answer[-1] if answer[0] in ("send", "hand", "safe") else 0
    return (big(0, 1) + big(EVENTS[answer[0]], 1) + big(member, 1) + big(identifier, 4) + big(members_set, 1)
            + big(sender, 1) + big(entry, 8))


class Table:
    """What is lent, and an answer to each line."""

    def __init__(self):
        self.records = [(0, 0)] * LONGEST
        self.room = 0
        self.group = None
        self.changed = False

    def start(self, members, first_set):
        """"a later accepted `group` starts afresh"; a refused one changes nothing."""
        begun = start(members, first_set, self.room)
        if not isinstance(begun, Group):
            return begun
        self.group = begun
        self.changed = False
        self.records[: self.room] = [(0, first_set)] + [(0, 0)] * (self.room - 1)
        return OK

    def step(self, kind, first, second):
        """4 where nothing was started, where no list of this length can be, or where more views are made than are lent."""
        readable_if(not self.changed, "a step on a changed list")
        made = len(self.group.views) if self.group else 0
        if not 1 <= made <= self.room <= MOST_VIEWS:
            return UNSOUND
        self.group.room = self.room
        answer = self.group.step(kind, first, second)
        self.records[: len(self.group.views)] = self.group.views
        return answer

    def put(self, place, identifier, members_set):
        readable_if(place < LONGEST, "a place past the list")
        self.records[place] = (identifier, members_set)
        self.changed = True
        return OK

    def create(self, made, identifier, members_set, members):
        """The list by itself: 4 as far as it concerns the list, then create's row."""
        views = self.records[:made]
        rising = all(views[i][0] < views[i + 1][0] for i in range(len(views) - 1))
        fits = 1 <= made <= self.room <= MOST_VIEWS and 1 <= members <= MOST_MEMBERS
        if not fits or not rising or any(empty_or_beyond(s, members) for _, s in views):
            return UNSOUND
        group = Group(members, 1, self.room)
        group.views = views
        answer = group.step(1, identifier, members_set)
        if answer == OK:
            self.records[made] = (identifier, members_set)
            self.changed = True
        return answer

    def lookup(self, made, identifier):
        views = self.records[: min(made, self.room, MOST_VIEWS)]
        return next((("found", *view) for view in views if view[0] == identifier), ("missing",))

    def listed(self):
        return [part for record in self.records[: self.room] for part in record]

    @staticmethod
    def steps(group, word, data):
        """Each step of a list in turn. Steps that are not whole records get 4 before anything else, then what is no group."""
        if len(data) % STEP != 0 or group is None:
            return UNSOUND
        records = [data[i: i + STEP] for i in range(0, len(data), STEP)]
        steps = [[int.from_bytes(part, "big") for part in (r[:1], r[1:5], r[5:])] for r in records]
        return (word, b"".join(event_bytes(group.step(*operands)) for operands in steps).hex())

    def run(self, members, first_set, first, later):
        """A list that is refused by itself starts nothing."""
        if len(first) % STEP != 0:
            group, answer = None, UNSOUND
        else:
            begun = start(members, first_set, self.room)
            group, answer = (begun, self.steps(begun, "run", first)) if isinstance(begun, Group) else (None, begun)
        return answer if not later else (*answer, "then", *self.steps(group, "steps", later))

    def read_run(self, words):
        hexes = words[4] if len(words) == 5 else ""
        data = bytes.fromhex(hexes)
        readable_if(4 <= len(words) <= 5 and data.hex() == hexes and len(data) <= STEP * MOST_STEPS, words)
        readable_if(all(0 <= int(w) < 256 for w in words[1:4]), words)
        cut = STEP * int(words[3])
        return self.run(int(words[1]), int(words[2]), data[:cut], data[cut:])

    def answer(self, words):
        word = words[0]
        if word == "run":
            return self.read_run(words)
        readable_if(word in WIDTHS and len(words) == 1 + len(WIDTHS[word]), words)
        operands = [int(w) for w in words[1:]]
        readable_if(all(0 <= x < 256**width for x, width in zip(operands, WIDTHS[word])), words)
        if word == "lend":
            readable_if(operands[0] <= LONGEST, words)
            self.room = operands[0]
            return OK
        if word == "list":
            return ("list", *self.listed())
        calls = {"group": self.start, "step": self.step, "put": self.put, "create": self.create,
                 "lookup": self.lookup}
        return calls[word](*operands)


def answers(script):
    table = Table()

    def answer(text):
        reply = (text,) if text.startswith("#") else table.answer(text.split(" "))
        return " ".join(str(part) for part in reply)

    return each_line(script, answer, (Unreadable, ValueError))


def main(words):
    done = answered(words, answers)
    return __doc__ if done is None else done


if __name__ == "__main__":
    sys.exit(main(sys.argv[1:]))
