#!/usr/bin/env python3
"""figure1.py: whether outward events are those of a run of the report's Figure 1, and whether what was safe stayed.

    python3 tests/figure1/figure1.py [--final] FILE...    - for the standard input

A file holds histories in the words of the bench. Each begins with `group MEMBERS FIRST_SET`; after it come the outward events, a line each:

    attempt P G S    register P G    send P G X    hand P G Q X    safe P G Q X

A history of a host that keeps duty 7 of docs/HOST.md, 'Register last', may also say what an office held when it registered, right after the event:

    holds P G X0 X1 ...

There entry X belongs to mark X modulo the number of entries named, the greater of two entries of a mark is the later one, and 0 is no entry. With
--final every register must have such a line.

The first line that is refused is named with the reason, and the status is 1. The machine is that of `crates/rules/specs/Figure1.antt`; docs/SPEC.md says
it in words ('Figure 1 written out')."""
import collections
import sys

EVENTS = ("attempt", "register", "send", "hand", "safe")


class Refused(Exception):
    """No run of Figure 1 has the event after those before it, or an office lacks what it must hold."""


def refuse_if(condition, why):
    if condition:
        raise Refused(why)


def members(view_set):
    return {p for p in range(view_set.bit_length()) if view_set >> p & 1}


class Figure1:
    """The machine, fed one outward event after another.

    Two of its actions are hidden: createview and order. The machine takes each as late as it can, and this loses no run.

    createview. Of a pair of views it wants a common member, or a totally registered view between them. It looks when the later one of the pair is created.
    Totally registered views only become more, so if an early look passes, a later one passes too. A view has to be created when it is first attempted, and
    not sooner: only what was attempted can be registered in, so an unattempted view is never the one between, and is one more to agree with. So the
    machine creates each view at its first attempt. Identifiers need not rise: the look is the same above and below.

    order. It fixes the next place of a view's queue for good. A hand needs the place after those that its member received, and places are only seen by
    hands: safe wants one that every member received. An order that waits is still possible later, since the head of a pending list stays its head until
    it is ordered. So the machine fills a place at the first hand that needs it, with what this hand names."""

    def __init__(self, group_members, first_set):
        refuse_if(not 0 < first_set < 1 << group_members, "the first set does not fit the group")
        self.all = (1 << group_members) - 1
        self.created = {0: members(first_set)}  # by identifier
        self.current = {p: 0 for p in members(first_set)}
        self.registered = {0: members(first_set)}
        self.queue, self.pending, self.received, self.safely = {}, {}, {}, {}

    def feed(self, word, *numbers):
        refuse_if(word not in EVENTS, "it is not an outward event")
        getattr(self, word)(*numbers)

    def totally_registered_between(self, g, h):
        low, high = min(g, h), max(g, h)
        return any(low < x < high and view <= self.registered.get(x, set()) for x, view in self.created.items())

    def create(self, g, view):
        for h, other in self.created.items():
            refuse_if(not view & other and not self.totally_registered_between(g, h),
                      f"view {g} shares no member with view {h}, and no totally registered view is between them")
        self.created[g] = view

    def attempt(self, p, g, view_set):
        view = members(view_set)
        refuse_if(view_set & ~self.all or p not in view, f"member {p} is not in the view, or the group lacks one of its members")
        refuse_if(p in self.current and g <= self.current[p], f"member {p} has view {self.current.get(p)}, which is not below")
        if g not in self.created:
            self.create(g, view)
        refuse_if(self.created[g] != view, f"view {g} has two sets")
        self.current[p] = g

    def in_current(self, p, g):
        refuse_if(self.current.get(p) != g, f"the current view of member {p} is {self.current.get(p, 'none')}")

    def register(self, p, g):
        self.in_current(p, g)
        self.registered.setdefault(g, set()).add(p)

    def send(self, p, g, x):
        self.in_current(p, g)
        self.pending.setdefault((p, g), []).append(x)

    def hand(self, p, g, q, x):
        self.in_current(p, g)
        queue, place = self.queue.setdefault(g, []), self.received.get((p, g), 0)
        if place == len(queue):
            pending = self.pending.get((q, g), [])
            refuse_if(not pending, f"nothing of member {q} is pending in view {g}")
            refuse_if(pending[0] != x, f"entry {pending[0]} of member {q} is pending before it")
            queue.append((q, pending.pop(0)))
        refuse_if(queue[place] != (q, x), "place %d of view %d has entry %d of member %d" % (place + 1, g, queue[place][1], queue[place][0]))
        self.received[p, g] = place + 1

    def safe(self, p, g, q, x):
        self.in_current(p, g)
        queue, place = self.queue.get(g, []), self.safely.get((p, g), 0)
        lacking = sorted(r for r in self.created[g] if self.received.get((r, g), 0) <= place)
        refuse_if(lacking, f"place {place + 1} of view {g} was not handed out at {lacking}")
        refuse_if(queue[place] != (q, x), "place %d of view %d has entry %d of member %d" % (place + 1, g, queue[place][1], queue[place][0]))
        self.safely[p, g] = place + 1


class Finality:
    """Whether offices hold what they must when they register: what they were handed, what they held before, and whatever is reported safe in an earlier
    view, be it reported before or after. An office holds an entry if it has it or a later one of its mark."""

    def __init__(self, offices):
        self.owed = [set() for p in range(offices)]  # what the office was handed, or held when it registered last
        self.awaited = [[] for p in range(offices)]  # with its view, what was safe there and is due when the office registers in a later one
        self.safes, self.held = set(), []

    def feed(self, word, p, g, *numbers):
        if word == "hand":
            self.owed[p].add(numbers[1])
        if word == "safe" and (g, numbers[1]) not in self.safes:
            self.report_safe(g, numbers[1])
        if word == "holds":
            self.hold(p, g, numbers)

    def report_safe(self, g, x):
        self.safes.add((g, x))
        for awaited in self.awaited:
            awaited.append((g, x))
        for p, view, copy in self.held:
            refuse_if(g < view and lacks(copy, x), f"office {p} registered in view {view} without it")

    def hold(self, p, g, copy):
        for x in self.owed[p]:
            refuse_if(lacks(copy, x), f"office {p} had entry {x} and does not hold it")
        for view, x in self.awaited[p]:
            refuse_if(view < g and lacks(copy, x), f"entry {x} is safe in view {view}, and office {p} lacks it")
        # What it holds is owed from now on, so nothing has to be looked at twice.
        self.owed[p] = set(copy)
        self.awaited[p] = [(view, x) for view, x in self.awaited[p] if view >= g]
        self.held.append((p, g, copy))


def lacks(copy, x):
    return copy[x % len(copy)] < x


def first_refused(history):
    """The place of the first line that is refused, with the reason; None if all are accepted."""
    judge = Judge()
    for place, line in enumerate(history):
        try:
            judge.feed(line)
        except Refused as refused:
            return place, str(refused)
    return None


class Judge:
    """Figure 1 and finality, fed histories line by line; each begins anew with its `group`."""

    def __init__(self):
        self.counts = collections.Counter()

    def feed(self, line):
        word, *operands = line.split()
        numbers = [int(operand) for operand in operands]
        self.counts[word] += 1
        if word == "group":
            self.machine, self.finality = Figure1(*numbers), Finality(numbers[0])
            return
        if word != "holds":
            self.machine.feed(word, *numbers)
        self.finality.feed(word, *numbers)


def main(names):
    final = names[:1] == ["--final"]
    names, judge = names[final:], Judge()
    for name in names:
        with sys.stdin if name == "-" else open(name) as file:
            for place, line in enumerate(file, 1):
                try:
                    judge.feed(line)
                except Refused as refused:
                    return f"{name}:{place}: refused: '{line.strip()}': {refused}"
    events = sum(judge.counts[word] for word in EVENTS)
    if not events or final and not (judge.counts["safe"] and judge.counts["register"] == judge.counts["holds"]):
        return f"there is too little to judge: {dict(judge.counts)}"
    print(f"{judge.counts['group']} histories with {events} events, {judge.counts['safe']} of them safe: accepted")
    return 0


if __name__ == "__main__":
    sys.exit(main(sys.argv[1:]))
