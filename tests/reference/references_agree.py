"""The two references beside each other: random steps of a group, each put to the
reference of the group and to references of the member by itself, one for each member,
whose bytes are carried in the same order. Their answers must be the same. The driver is one
call of the group, and its steps of the members; a packet is one call of a member, and must
leave what deliver leaves message by message. Every refusal that a step has in both and
every one of the driver's must have come, and every step must have succeeded: where one was
not seen the exit status is 1.

    python3 tests/reference/references_agree.py SEED STEPS
"""

import collections
import copy
import itertools
import random
import sys

import member_reference as alone
import reference as group

# The limit of the group's list; the group never has more open.
ROOM = 32

# After so many steps another group is begun.
LIFE = 2000

# The refusals that a step has in both; the others concern the carrier's own queues, or the bytes.
SHARED = {
    "join": [11, 12],
    "pass": [13, 14],
    "order": [],
    "deliver": [13],
    "attempt": [13, 19, 20, 21],
    "register": [22, 23, 24],
    "send": [22, 24],
    "hand": [22, 25],
    "tell": [22, 24, 26, 27],
    "safe": [22, 26, 28, 29],
    "collect": [13, 30, 31],
    "form": [10, 44, 45],
    "packet": [],
}
CARRIERS_OWN = [10, 15, 16, 17, 18]

KINDS = {name: kind for kind, (name, _, _) in group.STEPS.items()}
NAMES = {kind: name for name, kind in KINDS.items()}


class Beside:
    def __init__(self, draw, seen):
        self.draw = draw
        self.seen = seen
        members = draw.choice([1, 2, 2, 3, 3, 4, 5, 6, 7, 8])
        first_set = draw.choice([2**members - 1, draw.randint(1, 2**members - 1)])
        self.group = group.start(members, first_set, ROOM)
        self.members = [alone.Member() for _ in range(members)]
        for p, m in enumerate(self.members):
            m.start(members, first_set, p)
        # By view: what each member passed, and the order, as bytes.
        self.waiting = {}
        self.order = {}

    def alone(self, name, p, x):
        """The answer of the member p by itself, and what the carrier does beside it."""
        m = self.members[p]
        try:
            if name == "join":
                return m.join(x, group.view_made(self.group, x)[1])
            if name == "pass":
                data = bytes.fromhex(m.pass_(167).split(" ")[1])
                self.waiting.setdefault((m.carrier[0], p), []).append(data)
                return "ok"
            if name == "order":
                sent = self.waiting[(x, p)].pop(0)
                self.order.setdefault(x, []).append((p, sent))
                return "ok"
            if name == "deliver":
                order = self.order.get(m.carrier and m.carrier[0], [(0, b"")])
                sender, data = order[m.taken]
                return m.deliver(data, sender)
            return getattr(m, name)(*([x] if name == "send" else []))
        except alone.Refused as refusal:
            return f"refused {refusal.number}"

    def put(self, name, p, x):
        """One step of the member p, to both; whether it was accepted."""
        want = " ".join(str(part) for part in self.group.step(KINDS[name], p, x))
        refused = int(want.split(" ")[1]) if want.startswith("refused ") else 0
        if refused in CARRIERS_OWN:
            return False
        got = self.alone(name, p, x)
        if got != want:
            sys.exit(f"{name} {p} {x}: the group says {want}, the member by itself {got}")
        self.seen[name, refused] += 1
        return refused == 0

    def packet(self, p):
        """What comes next from one sender, joined, leaves the member as it is after one by one; both are only tried."""
        m = self.members[p]
        rest = self.order.get(m.carrier and m.carrier[0], [])[m.taken :]
        joined = [data for _, data in itertools.takewhile(lambda sent: sent[0] == rest[0][0], rest)]
        if len(joined) < 2:
            return
        at_once, one_by_one = copy.deepcopy(m), copy.deepcopy(m)
        answer = at_once.packet(b"".join(joined), rest[0][0])
        for data in joined:
            one_by_one.deliver(data, rest[0][0])
        if answer != f"took {len(joined)}" or vars(at_once) != vars(one_by_one):
            sys.exit(f"packet {p}: {len(joined)} messages are next, and the member by itself says {answer}")
        self.seen["packet", 0] += 1

    def create(self):
        """A further view, of all, of one in any set, or of what no view may have."""
        whole = 2 ** len(self.members) - 1
        identifier = self.group.views[-1][0] + self.draw.randint(0, 2)
        some = self.draw.choice([whole, whole, self.draw.randint(1, whole), self.draw.randrange(256)])
        self.group.step(KINDS["create"], identifier, some)

    def meet(self):
        """The members of the last view join it, hear of each other and attempt it, also where it fails the test."""
        identifier, members_set = self.group.views[-1]
        inside = [p for p in range(len(self.members)) if members_set >> p & 1]
        for name in ("join", "pass", "order"):
            for p in inside:
                self.put(name, p, identifier)
        for p in inside:
            while self.put("deliver", p, identifier):
                pass
        for p in inside:
            self.put("attempt", p, identifier)

    def form(self):
        """The driver: a new view, or another one. One call of the group is to leave what its steps leave."""
        if self.draw.random() < 0.8:
            self.create()
        identifier = self.draw.choice([v for v, _ in self.group.views[-1:] * 8 + self.group.views[-2:]] + [2**32 - 1])
        called = copy.deepcopy(self.group)
        answer, number = called.form(identifier)
        self.seen["form", number if answer == "refused" else 0] += 1
        steps = [] if answer == "refused" else group.form_steps(group.view_made(called, identifier))
        accepted = [self.put(NAMES[kind], p, x) for kind, p, x in steps]
        if not all(accepted) or vars(called) != vars(self.group):
            sys.exit(f"form {identifier}: the call says {answer} {number}, and leaves other than its steps")
        if steps:
            self.formed(called.views[-1], number)

    def formed(self, view, number):
        """"the view settled and nothing open at all k, after exactly 2k²+8k steps", in both."""
        servers = group.members_of(view[1])
        held = [(self.group.member[p]["settled"], self.group.member[p]["open"]) for p in servers]
        held += [(self.members[p].settled, self.members[p].open) for p in servers]
        if number != 2 * len(servers) ** 2 + 8 * len(servers) or any(h != (view, []) for h in held):
            sys.exit(f"form {view}: {number} steps leave {held}")

    def fill(self, p):
        """The member sends until its outgoing list is full, and then has more to say."""
        self.put("hand", p, 0)
        for entry in range(alone.MOST_OUTGOING + 1):
            self.put("send", p, entry)
        self.put("register", p, 0)
        self.put("tell", p, 0)

    def step(self):
        draw = self.draw
        name = draw.choice(["create"] + ["join"] * 3 + ["pass", "order", "deliver", "deliver"] * 20
                           + ["attempt", "register", "send", "hand", "tell", "safe", "collect"] * 5
                           + ["meet", "form", "fill"])
        p = draw.randrange(len(self.members))
        if name == "create":
            self.create()
        elif name == "meet":
            self.meet()
        elif name == "form":
            self.form()
        elif name == "fill":
            self.fill(p)
        else:
            if name == "deliver":
                self.packet(p)
            self.put(name, p, draw.randrange(100) if name == "send" else draw.choice(self.group.views[-2:])[0])


def main(words):
    draw = random.Random(int(words[0]))
    seen = collections.Counter()
    for n in range(int(words[1])):
        if n % LIFE == 0:
            beside = Beside(draw, seen)
        beside.step()
    missing = [(name, number) for name, numbers in SHARED.items() for number in [0] + numbers if not seen[name, number]]
    for name, number in missing:
        print(f"{name}: {f'refusal {number}' if number else 'success'} was not seen")
    strange = [(name, number) for name, number in seen if number and number not in SHARED[name]]
    for name, number in strange:
        print(f"{name}: refusal {number} is not one that the two have in common")
    if missing or strange:
        sys.exit(1)
    print(f"the two references agree on {sum(seen.values())} steps, and on each of {len(seen)} answers")


if __name__ == "__main__":
    main(sys.argv[1:])
