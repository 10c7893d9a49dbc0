"""Random bench scripts that get far, with the answers that tests/reference/reference.py gives.

Each line is drawn, then tried on the reference's group: a refusal changes nothing, so
a refused draw may be dropped and another drawn. Most lines kept are accepted ones;
some refused ones are kept, and some lines are hostile.
"""

import random

import reference

# How many of a hundred kept lines are hostile, and how many are kept whatever the answer.
HOSTILE = 4
UNTRIED = 22
# After this many refused draws in a row the history has run dry.
DRAWS = 60

# A mood is how often each step is drawn; it lasts for some lines.
FLOW = {
    "join": 12, "pass": 16, "order": 16, "deliver": 40, "attempt": 12, "register": 8,
    "send": 10, "hand": 20, "tell": 10, "safe": 10, "collect": 8, "create": 1,
}
MOODS = [
    (FLOW, 8),
    # Everyone asks for what they have: order, taken and inward run empty.
    ({"order": 10, "deliver": 30, "hand": 30, "tell": 4, "safe": 30, "collect": 4, "pass": 6}, 3),
    # Outgoing fills to 16, waiting to 8.
    ({"send": 20, "pass": 6, "register": 1, "tell": 2}, 2),
    # An order fills to 128.
    ({"send": 10, "pass": 10, "order": 11, "deliver": 2}, 2),
    # A view follows a view before the last is settled.
    ({**FLOW, "create": 12, "join": 30, "attempt": 30, "send": 4}, 6),
]
# Of a hundred creates drawn while the newest view is not attempted by all its members, how many stay.
HASTY = 3
# Of a hundred sends drawn where nothing would be queued, how many stay.
IDLE = 10

WORDS = [b"group"] + [name.encode() for name, _, _ in reference.STEPS.values()]
NEAR_WIDTHS = [
    b"255", b"256", b"257", b"999", b"4294967295", b"4294967296", b"18446744073709551615",
    b"18446744073709551616", b"99999999999999999999", b"9" * 50, b"00", b"01", b"-1", b"+1",
    b"0x1", b"1.0", b"1e0", b"", b"\xd9\xa1", b"one",
]

# The line that shows refusals where it is the first; to how many lines there is one that is not.
ALL = b"all"
LINES_TO_AN_ALL = 40


def everything(reply):
    """What is shown where `all` is the first line."""
    return True


def accepted(reply):
    """What is shown otherwise."""
    return not reply.startswith("refused")


class Script:
    """Lines with their replies, without a first line `all`; `seed` determines both."""

    def __init__(self, seed):
        self.draw = random.Random(seed)
        self.group = None
        self.lines = []
        self.replies = []
        self.mood, self.mood_left, self.lines_left = FLOW, 0, 0

    def put(self, line):
        self.group, reply = reference.answer(self.group, line)
        self.keep(line, reply)

    def keep(self, line, reply):
        self.lines.append(line)
        self.replies.append(" ".join(str(part) for part in reply))

    def write(self, count):
        """`count` lines more."""
        end = len(self.lines) + count
        self.put_first_lines(end)
        while len(self.lines) < end:
            if self.group is None or self.lines_left <= 0:
                self.begin()
            elif not self.put_other_line():
                self.next_step()
            self.lines_left -= 1
            self.mood_left -= 1

    def put_first_lines(self, end):
        """Some hostile lines before the first group."""
        while self.draw.random() < 0.7 and len(self.lines) < end:
            self.put(self.hostile_line())

    def put_other_line(self):
        """At times a line that is no step; whether there is one."""
        hostile = self.draw.randrange(100) < HOSTILE
        if hostile:
            self.put(self.hostile_line())
        return hostile

    def put_alls(self):
        """Lines `all` behind the first one, where they are unreadable and change nothing."""
        for at in sorted(self.draw.sample(range(1, len(self.lines) + 1), len(self.lines) // LINES_TO_AN_ALL), reverse=True):
            self.lines.insert(at, ALL)
            self.replies.insert(at, "refused 40")

    def begin(self):
        """A fresh group; the first view has most members, or all, or any."""
        draw = self.draw
        members = draw.choice([1, 2, 3, 3, 4, 4, 5, 5, 6, 7, 8, 8])
        whole = 2**members - 1
        first = draw.choice([whole, whole, draw.randint(1, whole), whole & ~(1 << draw.randrange(members)) or whole])
        self.start(members, first)
        self.lines_left = draw.choice([150, 600, 1500, 4000, 8000])
        self.mood_left = 0

    def start(self, members, first_set):
        self.put(b"group %d %d" % (members, first_set))

    def next_step(self):
        draw = self.draw
        if self.mood_left <= 0:
            self.mood = draw.choices([m for m, _ in MOODS], [w for _, w in MOODS])[0]
            self.mood_left = draw.choice([20, 100, 300, 800])
            # Some members sleep for a while.
            everyone = range(self.group.members)
            awake = [p for p in everyone if draw.random() < 0.8]
            self.awake = awake if awake and draw.random() < 0.4 else list(everyone)
        untried = draw.randrange(100) < UNTRIED
        for _ in range(DRAWS):
            step = self.some_step()
            reply = self.group.step(*step)
            if untried or reply[0] != "refused":
                self.keep(line_of(step), reply)
                return
        # Little is left to do in this mood. With every step allowed to everyone it takes a new view, or a new group.
        if self.mood is FLOW and len(self.awake) == self.group.members:
            self.put(line_of((1, self.new_identifier(), self.new_set())))
            if self.replies[-1] != "ok":
                self.lines_left = 0
        self.mood, self.mood_left, self.awake = FLOW, 100, list(range(self.group.members))

    def some_step(self):
        draw, group = self.draw, self.group
        name = draw.choices(list(self.mood), self.mood.values())[0]
        if draw.randrange(100) == 0:
            name = draw.choice(list(FLOW))
        if name == "create":
            if not self.newest_attempted() and draw.randrange(100) >= HASTY:
                return self.some_step()
            return 1, self.new_identifier(), self.new_set()
        kind = next(k for k in reference.STEPS if reference.STEPS[k][0] == name)
        p = draw.choice(self.awake)
        if draw.randrange(300) == 0:
            p = draw.choice([group.members, 7, 8, 255, draw.randrange(256)])
        if name == "send" and p < group.members:
            m = group.member[p]
            if m["client"] != m["carrier"] and draw.randrange(100) >= IDLE:
                return self.some_step()
        if name == "send":
            return kind, p, draw.choice([draw.randrange(1000), draw.randrange(1000), draw.randrange(2**64), 2**64 - 1])
        if name in ("join", "order"):
            return kind, p, self.some_identifier()
        return kind, p

    def newest_attempted(self):
        newest = self.group.views[-1]
        return all(self.group.member[p]["client"] == newest for p in reference.members_of(newest[1]))

    def some_identifier(self):
        """Of the newest view, mostly; an older one; one never made."""
        draw, views = self.draw, self.group.views
        if draw.randrange(60) == 0:
            return draw.choice([views[-1][0] + 1, draw.randrange(12), 2**32 - 1]) % 2**32
        return views[-1][0] if draw.random() < 0.75 else draw.choice(views)[0]

    def new_identifier(self):
        draw, last = self.draw, self.group.views[-1][0]
        jump = draw.choice([1] * 40 + [0, 0, 2, 3, 7, 1000, -1, draw.randrange(2**20)])
        if draw.randrange(400) == 0:
            return 2**32 - 1
        return min(max(last + jump, 0), 2**32 - 1)

    def new_set(self):
        """Near an earlier view, so that the test passes often: one member less, two less, some more, all."""
        draw, group = self.draw, self.group
        whole = 2**group.members - 1
        base = draw.choice([group.views[-1][1], group.views[-1][1], draw.choice(group.views)[1], whole])
        for _ in range(draw.choice([0, 0, 1, 1, 2, 3])):
            base &= ~(1 << draw.randrange(group.members))
        for _ in range(draw.choice([0, 0, 0, 1, 2])):
            base |= 1 << draw.randrange(group.members)
        if draw.randrange(25) == 0:
            base = draw.choice([0, whole + 1, draw.randrange(256), 255]) & 255
        return base or (1 << draw.randrange(group.members)) * (draw.randrange(8) > 0)

    def hostile_line(self):
        """A line that is unreadable, or refused for its numbers."""
        draw = self.draw
        sort = draw.randrange(13)
        good = self.readable_line()
        words = good.split(b" ")
        if sort == 0:
            return draw.choice([b"", b" ", b"\r", b"\0", b"\t", b"#", b"1 1 1", b"5 0", b"13 0", b"ok", b"refused 40"])
        if sort == 1:
            return good + draw.choice([b" ", b"\r", b"\0", b"\t", b" 0", b"  ", b",", b"\xff", b".", b"a"])
        if sort == 2:
            return draw.choice([b" ", b"\t", b"\0", b"0", b"x", b"\xef\xbb\xbf"]) + good
        if sort == 3:
            return b" ".join(words[:-1]) + draw.choice([b"", b" "])
        if sort == 4:
            return good.replace(b" ", draw.choice([b"  ", b"\t", b"", b"_", b" \0", b" +", b" -", b" 0"]))
        if sort == 5:
            return draw.choice([good.upper(), good.capitalize(), good.title()])
        if sort == 6:
            at = draw.randrange(1, len(words))
            return b" ".join(words[:at] + [draw.choice(NEAR_WIDTHS)] + words[at + 1:])
        if sort == 7:
            # Around the greatest length, in digits, in spaces, in bytes of no sense.
            length = draw.choice([63, 64, 65, 66, 127, 128, 129, 300, 70000 if draw.randrange(20) == 0 else 64])
            return (good + draw.choice([b" ", b"0", b"1", b"z"]) * length)[:length]
        if sort == 8:
            return self.changed(good)
        if sort == 9:
            return bytes(draw.choice([b for b in range(256) if b != 10]) for _ in range(draw.randrange(1, 40)))
        if sort == 10:
            bad = [b"group 0 1", b"group 9 1", b"group 255 255", b"group 3 0", b"group 3 8", b"group 1 2", b"group 7 128"]
            return draw.choice(bad + [b"group 0 0", b"group 256 1", b"group 2 256", b"group 2", b"group"])
        if sort == 11:
            return b" ".join(words + [b"0"] * draw.randrange(1, 4))
        return draw.choice([w for w in WORDS + [words[0][:-1], words[0] + b"s"]]) + b"".join(
            b" " + draw.choice(NEAR_WIDTHS + [b"0", b"1", b"2"]) for _ in range(draw.randrange(4)))

    def readable_line(self):
        if self.group is None:
            return self.draw.choice([b"group 2 3", b"pass 0", b"send 0 5", b"create 1 1"])
        self.awake = getattr(self, "awake", None) or [0]
        return line_of(self.some_step())

    def changed(self, good):
        """A readable line with one byte put in, left out or put in place of another."""
        at = self.draw.randrange(len(good) + 1)
        byte = bytes([self.draw.choice(b" 0123456789aeghijnprstu\t\r\0+-")])
        return good[:at] + self.draw.choice([b"", byte, byte]) + good[at + self.draw.randrange(2):]

    def bytes(self):
        """The script, whose first line is not `all`; whether the last line ends in byte 10 is drawn by its length."""
        assert self.lines[:1] != [ALL]
        whole = b"".join(line + b"\n" for line in self.lines)
        return whole[:-1] if self.lines and self.lines[-1] and len(whole) % 2 else whole

    def answers(self, shows):
        """The lines whose replies are shown, and those."""
        shown = [(line, reply) for line, reply in zip(self.lines, self.replies) if shows(reply)]
        return [line for line, _ in shown], "".join(reply + "\n" for _, reply in shown).encode()


def line_of(step):
    name, _, _ = reference.STEPS[step[0]]
    return " ".join([name] + [str(operand) for operand in step[1:]]).encode()
