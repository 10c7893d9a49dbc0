"""Long hostile scripts for the member by itself: valid steps most of the time, between
them damaged messages, changed bytes of books, other lengths and wrong operands.

The papers leave the unused bytes of a book open after most steps. A byte is changed
here only where the book that results leans on no such byte, so that every line of a
script has one right answer.
"""

import copy
import random

import member_layout as layout
from member_reference import MOST_TAKEN, Refused, in_set, members_of, message_bytes
from member_script import BOOKS, MOST_BYTES, MOST_LENT, MOST_PASSED, Desk

# How many lines a group of members lives.
LIFE = 400


def changed_nothing(reply):
    """Whether the answer says that the book is as it was."""
    return reply.startswith("refused") or reply.split()[:2] == ["took", "0"]


def places_used(data):
    """The places that the meaning of these bytes leans on."""
    reading = layout.Reading(data)
    try:
        reading.member()
    except Refused:
        pass
    return reading.used


class Carrier:
    """The views of a group, and each one's order: pairs of sender and bytes."""

    def __init__(self, draw):
        self.draw = draw
        self.members = draw.choice([1, 2, 3, 3, 4, 5, 8])
        self.first = self.set_of_members()
        self.views = {}
        self.newest = 0
        self.order = {0: []}

    def set_of_members(self):
        whole = 2**self.members - 1
        return whole if self.draw.random() < 0.6 else self.draw.randint(1, whole)

    def new_view(self):
        self.newest = min(self.newest + self.draw.choice([1, 1, 1, 2, 1000]), 2**32 - 1)
        self.views[self.newest] = self.set_of_members()
        self.order[self.newest] = []

    def some_info(self):
        """The settled view and open views of some member that has no book here."""
        draw = self.draw
        made = sorted(self.views.items())
        count = draw.choice([0, 1, 2, len(made)])
        chosen = sorted(draw.sample(made, min(count, len(made))))
        if draw.random() < 0.1:
            low = draw.randint(1, 40)
            chosen = [(low + i, self.set_of_members()) for i in range(draw.randint(25, 32))]
        if draw.random() < 0.7 and (not chosen or chosen[0][0] > 0):
            chosen = [(0, self.first)] + chosen
        # Sometimes with another set than the view was made with.
        chosen = [(i, self.set_of_members() if draw.random() < 0.1 else s) for i, s in chosen]
        chosen = (chosen or [(0, self.first)])[:32]
        return ("info", chosen[0], chosen[1:])

    def some_message(self):
        draw = self.draw
        return draw.choice(
            [
                ("client", draw.randrange(2 ** draw.choice([4, 64]))),
                ("registered",),
                ("told", draw.randint(1, draw.choice([3, MOST_TAKEN]))),
                self.some_info(),
            ]
        )


class Teller:
    """A script as it grows, with the desk that answers it."""

    def __init__(self, seed):
        self.draw = random.Random(seed)
        self.desk = Desk()
        self.lines = []
        # The places of each book whose bytes are known: all are 0 at first.
        self.known = [set(range(MOST_LENT)) for _ in range(BOOKS)]
        self.begin()

    # Lines

    def say(self, *words):
        """The line, and whether nothing came of it."""
        text = " ".join(str(word) for word in words).rstrip()
        k = int(words[1])
        before = bytes(self.desk.books[k].data)
        reply = self.desk.answer(text)
        self.lines.append(text)
        if words[0] == "poke":
            self.known[k].add(int(words[2]))
        elif bytes(self.desk.books[k].data) != before or reply == "ok" and words[0] == "start":
            self.known[k] = places_used(self.book(k))
        return changed_nothing(reply)

    def refused(self, *words):
        """Whether nothing would come of the line; nothing is said."""
        kept = copy.deepcopy(self.desk.books)
        reply = self.desk.answer(" ".join(str(word) for word in words).rstrip())
        self.desk.books = kept
        return changed_nothing(reply)

    def book(self, k):
        return bytes(self.desk.books[k].data[: layout.SIZE])

    def member(self, k):
        """What the book means, or None where it is faulty."""
        try:
            m = layout.from_bytes(self.book(k))
            m.check_book()
            return m
        except Refused:
            return None

    # A group

    def begin(self):
        self.carrier = Carrier(self.draw)
        self.end = len(self.lines) + LIFE
        for k in range(BOOKS):
            self.restart(k)

    def restart(self, k):
        own = k % self.carrier.members
        self.say("start", k, self.carrier.members, self.carrier.first, own)

    # Valid steps

    def next_message(self, k, m):
        """The next of the order of its carrier view, as often as not by relay."""
        order = self.carrier.order.get(m.carrier[0], [])
        if m.taken >= len(order):
            return None
        sender, data = order[m.taken]
        for j in range(BOOKS):
            other = self.desk.books[j]
            if (other.own, other.passed) == (sender, data) and self.draw.random() < 0.5:
                return ("relay", k, j)
        return ("deliver", k, sender, data.hex())

    def next_packet(self, k, m):
        """The next of the order as far as one sender's go, and perhaps what stops it."""
        order = self.carrier.order.get(m.carrier[0], [])[m.taken :]
        sender = order[0][0] if order else self.draw.randrange(self.carrier.members)
        most = self.draw.choice([1, 2, 3, 20])
        data = b""
        for each, message in order[:most]:
            if each != sender:
                break
            data += message
        if not data or self.draw.random() < 0.3:
            data += self.some_packet(m)
        return ("packet", k, sender, data[:MOST_BYTES].hex())

    def some_packet(self, m):
        """Messages joined, mostly of the carrier view; some of another, cut, or rubbish."""
        draw = self.draw
        view = m.carrier[0] if m and m.carrier else 0
        parts = []
        for _ in range(draw.choice([0, 1, 1, 2, 3, 5, 12])):
            other = draw.choice([view, view, view, view, view, view, view, self.carrier.newest, view + 1])
            part = message_bytes(min(other, 2**32 - 1), self.carrier.some_message())
            if draw.random() < 0.05:
                part = part[: draw.randrange(len(part))]
            if draw.random() < 0.05:
                part += bytes(draw.randrange(6) for _ in range(draw.randint(1, 8)))
            parts.append(part)
        return b"".join(parts)

    def from_others(self, m):
        """A message of a member that perhaps has no book here: often what is missing."""
        draw = self.draw
        members = members_of(m.carrier[1])
        need = [(p, self.carrier.some_info()) for p in members if not in_set(p, m.infos)]
        need = need or [(p, ("registered",)) for p in members if not in_set(p, m.registrations)]
        if m.handed > 0 and draw.random() < 0.5:
            need = [(p, ("told", m.handed)) for p in members if m.told_counts[p] < m.handed]
        if need and draw.random() < 0.8:
            return draw.choice(need)
        return draw.randrange(self.carrier.members), self.carrier.some_message()

    def step(self, k, m):
        """Some step of the book k."""
        draw = self.draw
        word = draw.choice(
            ["join"]
            + ["pass", "deliver", "deliver", "attempt", "register"] * 6
            + ["send", "hand", "hand", "tell", "safe", "collect", "others", "packet"] * 4
        )
        if word == "join":
            views = self.carrier.views
            if not views or draw.random() < 0.3:
                self.carrier.new_view()
            view = self.carrier.newest if draw.random() < 0.8 else draw.choice(list(views))
            return ("join", k, view, views[view])
        if word == "pass":
            return ("pass", k, MOST_PASSED if draw.random() < 0.9 else draw.randint(0, 20))
        if word == "deliver" and m.carrier is not None:
            return self.next_message(k, m) or ("attempt", k)
        if word == "packet" and m.carrier is not None:
            return self.next_packet(k, m)
        if word == "others" and m.carrier is not None:
            sender, message = self.from_others(m)
            data = message_bytes(m.carrier[0], message)
            order = self.carrier.order.setdefault(m.carrier[0], [])
            if draw.random() < 0.7 and m.taken == len(order):
                # All take it in the same order.
                order.append((sender, data))
                return self.next_message(k, m)
            return ("deliver", k, sender, data.hex())
        if word == "send":
            return ("send", k, draw.randrange(2 ** draw.choice([4, 8, 64])))
        if word in ("deliver", "others", "packet"):
            return ("hand", k)
        return (word, k)

    def valid(self):
        """A step, seldom one that is refused."""
        k = self.draw.randrange(BOOKS)
        m = self.member(k)
        if m is None:
            return self.restart(k)
        for _ in range(8):
            words = self.step(k, m)
            if not self.refused(*words) or self.draw.random() < 0.05:
                break
        refused = self.say(*words)
        if words[0] == "pass" and not refused:
            book = self.desk.books[k]
            self.carrier.order.setdefault(m.carrier[0], []).append((book.own, book.passed))

    # Hostile lines

    def damaged(self):
        """A message or a packet with bytes changed, put in or left out, or from somebody else."""
        draw = self.draw
        k = draw.randrange(BOOKS)
        m = self.member(k)
        view = m.carrier[0] if m and m.carrier else 0
        word = draw.choice(["deliver", "deliver", "packet"])
        data = bytearray(message_bytes(view, self.carrier.some_message()))
        if draw.random() < (0.8 if word == "packet" else 0.1):
            data += self.some_packet(m)
        for _ in range(draw.choice([0, 1, 1, 2])):
            at = draw.randrange(len(data) + 1)
            # In an info, often the set of a view.
            at = 10 + 5 * draw.randrange(8) if data[:1] == b"\2" and draw.random() < 0.3 else at
            if draw.random() < 0.5 and at < len(data):
                data[at] = draw.choice([0, 0, 1, 2, 3, 4, 33, 129, 255, draw.randrange(256)])
            elif draw.random() < 0.5:
                data.insert(at, draw.randrange(256))
            else:
                del data[at : at + draw.choice([1, 1, len(data)])]
        sender = draw.choice([draw.randrange(self.carrier.members), draw.randrange(9), 255])
        self.say(word, k, sender, bytes(data[:MOST_BYTES]).hex())

    def wrong(self):
        """Operands that are mostly out of range."""
        draw = self.draw
        k = draw.randrange(BOOKS)
        number = draw.choice([0, 1, 8, 9, 255, draw.randrange(256)])
        members_set = draw.choice([0, 1, 128, 255, draw.randrange(256)])
        own = draw.choice([0, 7, 8, 255])
        view = draw.choice([0, self.carrier.newest, 2**32 - 1, draw.randrange(2**32)])
        words = draw.choice(
            [
                ("start", k, number, members_set, own),
                ("join", k, view, members_set),
                ("join", k, min(self.carrier.newest + 1, 2**32 - 1), members_set),
                ("pass", k, draw.randrange(MOST_PASSED + 1)),
            ]
        )
        # What others are to take would be another order then.
        if words[0] != "pass" or self.refused(*words):
            self.say(*words)

    def some_call(self, k):
        word = self.draw.choice(
            "attempt register hand tell safe collect send join pass deliver packet".split()
        )
        operands = {
            "send": [self.draw.randrange(100)],
            "join": [self.carrier.newest + 1, 2**self.carrier.members - 1],
            "pass": [self.draw.choice([0, MOST_PASSED])],
            "deliver": [0, message_bytes(self.carrier.newest, ("registered",)).hex()],
            "packet": [self.draw.randrange(9), self.some_packet(self.member(k))[:MOST_BYTES].hex()],
        }
        return self.say(word, k, *operands.get(word, []))

    def poked(self):
        """Some bytes changed, a few calls, and mostly the bytes put back."""
        draw = self.draw
        k = draw.randrange(BOOKS)
        changed = []
        for _ in range(draw.choice([1, 1, 1, 2, 5])):
            small = range(layout.OUTGOING + 12)
            used = sorted(self.known[k] & set(range(layout.SIZE)))
            at = draw.choice(draw.choice([small, used or small, layout.INWARD]))
            old = self.desk.books[k].data[at]
            near = [old ^ 1, (old + 1) % 256, (old - 1) % 256]
            value = draw.choice(near + [0, 1, 2, 3, 128, 129, 255, draw.randrange(256)])
            data = bytearray(self.book(k))
            data[at] = value
            if places_used(data) <= self.known[k] | {at}:
                self.say("poke", k, at, value)
                changed.append((at, old))
        untouched = all([self.some_call(k) for _ in range(draw.randint(1, 4))])
        if untouched and draw.random() < 0.8:
            for at, old in reversed(changed):
                self.say("poke", k, at, old)

    def shortened(self):
        k = self.draw.randrange(BOOKS)
        length = self.draw.choice([0, 1, 190, 5233, 5235, MOST_LENT, self.draw.randint(0, 5240)])
        self.say("lend", k, length)
        for _ in range(self.draw.randint(1, 3)):
            if length == layout.SIZE or self.draw.random() < 0.8:
                self.some_call(k)
            else:
                self.restart(k)
        self.say("lend", k, layout.SIZE)

    def many(self):
        """So many messages that limits are reached: outgoing, taken, handed."""
        k = self.draw.randrange(BOOKS)
        m = self.member(k)
        if m is None or m.carrier is None:
            return
        data = message_bytes(m.carrier[0], ("client", self.draw.randrange(100))).hex()
        member = self.draw.choice(members_of(m.carrier[1]))
        word = self.draw.choice(
            [("send", k, 1), ("deliver", k, member, data), ("packet", k, member, data * 7), ("hand", k)]
        )
        for _ in range(self.draw.choice([3, 20] if word[0] == "packet" else [18, 40, 132])):
            self.say(*word)

    def turn(self):
        if len(self.lines) > self.end:
            self.begin()
        chance = self.draw.random()
        for limit, does in (
            (0.05, self.damaged),
            (0.07, self.wrong),
            (0.13, self.poked),
            (0.14, self.shortened),
            (0.143, self.many),
        ):
            if chance < limit:
                return does()
        return self.valid()


def script(seed, lines):
    teller = Teller(seed)
    while len(teller.lines) < lines:
        teller.turn()
    return "".join(text + "\n" for text in teller.lines[:lines])
