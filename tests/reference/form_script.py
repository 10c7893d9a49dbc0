"""Random scripts for tests/outside/lines.hpp: lines of the bench, none of them hostile, and lines that no bench reads.

    lend ROOM             the next group is lent so many view records        ok
    form IDENTIFIER       the driver                                         formed STEPS | refused R
    crossing SET PLACES   the attempted views that share a member with SET   crossing NUMBER IDENTIFIER.. | refused R
    holding SET PLACES    those of which SET holds a majority                holding NUMBER IDENTIFIER.. | refused R
    before IDENTIFIER     the newest attempted view below it                 before IDENTIFIER SET | none

PLACES is the number of identifiers that the buffer has room for.
"""

import bench_script
import reference

# Of a thousand lines that are tried, how many form a view, and how many ask a query.
FORMS = 50
QUERIES = 120

# How many view records are lent: mostly as many as the bench lends, and often as many as there can be.
ROOMS = [reference.BENCH_ROOM] * 6 + [reference.MOST_VIEWS] * 4 + [1, 2]

# Each list: whether a view with the set beside the one asked about belongs to it.
LISTS = {"crossing": reference.shares_member, "holding": reference.passes_test}

# What a script must come to, or it shows too little: every answer of the driver and of the queries, and what would tell a
# wrong query from a right one.
DRIVER = {f"formed {2 * k * k + 8 * k}" for k in range(1, 9)} | {"refused 10", "refused 44", "refused 45"}
LISTED = {
    "refused 7", "refused 46", "no view", "one view", "several views", "exactly its places", "one place too few",
    "an unfit set and too few places", "a view that no book holds", "no view that was only joined", "a view in place 31",
}
OPEN_ALONE = "form: refused for an open view alone"
HALF = "holding: no view of which the set holds exactly half"
ONE_WAY = "holding: a view that would fail the test against the set"
OTHER_WAY = "holding: no view that would pass the test against the set"
WANTED = (
    {f"form: {answer}" for answer in DRIVER}
    | {f"{name}: {sort}" for name in LISTS for sort in LISTED}
    | {"before: none", "before: a view", "before: an attempted view's", "before: another view's", "before: no view's"}
    | {OPEN_ALONE, HALF, ONE_WAY, OTHER_WAY}
)


class FormScript(bench_script.Script):
    """Its lines with their replies; `seen` has what came of WANTED, and any other answer."""

    def __init__(self, seed):
        super().__init__(seed)
        self.seen = set()

    def put_first_lines(self, end):
        pass

    def put_other_line(self):
        drawn = self.draw.randrange(1000)
        if drawn < FORMS:
            self.form()
        elif drawn < FORMS + QUERIES:
            self.ask()
        return drawn < FORMS + QUERIES

    def start(self, members, first_set):
        """The group, and often a query at once, which no view of an earlier group may answer."""
        room = self.draw.choice(ROOMS)
        self.keep(b"lend %d" % room, reference.OK)
        self.group = reference.Group(members, first_set, room)
        self.keep(b"group %d %d" % (members, first_set), reference.OK)
        if self.draw.random() < 0.5:
            self.ask()

    def form(self):
        """A view is made and formed, whether or not the last one was settled; or any other one is."""
        if self.draw.random() < 0.3:
            self.leave_open()
        identifier = self.some_identifier()
        if self.draw.random() < 0.8:
            identifier = self.new_identifier()
            self.put(bench_script.line_of((1, identifier, self.new_set())))
        new_set, reply = self.group.views[-1][1], self.group.form(identifier)
        self.keep(b"form %d" % identifier, reply)
        self.seen.add("form: " + self.replies[-1])
        settled = [self.group.member[p]["settled"][1] for p in reference.members_of(new_set)]
        if reply == ("refused", 45) and all(reference.passes_test(new_set, held) for held in settled):
            self.seen.add(OPEN_ALONE)
        # Nothing more can be formed once the list is full: some lists are asked for, and another group is begun.
        if len(self.group.views) == self.group.room:
            for name in list(LISTS) * 3:
                self.ask_list(name)
            self.lines_left = 0

    def leave_open(self):
        """A view is made and, by hand, attempted by its members; nobody registers, so it stays open."""
        self.put(bench_script.line_of((1, self.new_identifier(), self.new_set())))
        for kind, *operands in reference.form_steps(self.group.views[-1]):
            name, _, widths = reference.STEPS[kind]
            if name == "register":
                break
            self.put(bench_script.line_of((kind, *operands[: len(widths)])))

    def ask(self):
        if self.draw.random() < 0.3:
            self.ask_before()
        else:
            self.ask_list(self.draw.choice(list(LISTS)))

    def ask_list(self, name):
        """The room of the buffer is near the list's length, or any; a set that does not fit has such a list here too."""
        asked = self.some_set()
        found = [view for view in self.group.attempted if LISTS[name](asked, view[1])]
        places = self.draw.choice([len(found), len(found) - 1, reference.MOST_VIEWS, self.draw.randrange(40)])
        places = max(places, 0)
        self.keep(b"%s %d %d" % (name.encode(), asked, places), getattr(self.group, name)(asked, places))
        self.seen |= {f"{name}: {sort}" for sort in self.sorts(name, asked, found, places)}

    def sorts(self, name, asked, found, places):
        """What this query shows."""
        group, answer = self.group, self.replies[-1]
        if answer.startswith("refused"):
            yield answer
            if answer == "refused 7" and len(found) > places:
                yield "an unfit set and too few places"
            if answer == "refused 46" and len(found) == places + 1:
                yield "one place too few"
            return
        yield ["no view", "one view", "several views"][min(len(found), 2)]
        if len(found) == places > 0:
            yield "exactly its places"
        if any(view not in books_views(group) for view in found):
            yield "a view that no book holds"
        joined = {m["carrier"] for m in group.member} - {None}
        if any(view not in group.attempted and LISTS[name](asked, view[1]) for view in joined):
            yield "no view that was only joined"
        if len(group.views) == reference.MOST_VIEWS and group.views[-1] in found:
            yield "a view in place 31"
        if name == "holding":
            yield from self.ways(asked, found)

    def ways(self, asked, found):
        """Where the test the other way round, or one that half a view passes, would answer something else."""
        for view in self.group.attempted:
            other_way = reference.passes_test(view[1], asked)
            if view in found and not other_way:
                yield ONE_WAY.removeprefix("holding: ")
            if view not in found and other_way:
                yield OTHER_WAY.removeprefix("holding: ")
            if 2 * len(reference.members_of(asked & view[1])) == len(reference.members_of(view[1])):
                yield HALF.removeprefix("holding: ")

    def ask_before(self):
        """An attempted view's identifier, any view's, one beside it, or any."""
        draw, views = self.draw, self.group.views
        near = draw.choice(views)[0] + draw.choice([-1, 1, 2])
        identifier = draw.choice([
            draw.choice(sorted(self.group.attempted))[0], draw.choice(views)[0], min(max(near, 0), 2**32 - 1), 0,
            2**32 - 1, draw.randrange(2**32),
        ])
        reply = self.group.before(identifier)
        self.keep(b"before %d" % identifier, reply)
        self.seen.add("before: " + ("a view" if reply[0] == "before" else self.replies[-1]))
        made = next((view for view in views if view[0] == identifier), None)
        sort = "an attempted view's" if made in self.group.attempted else "another view's" if made else "no view's"
        self.seen.add("before: " + sort)

    def some_set(self):
        """A view's, or near it, or any; at times one that is empty or beyond the members, of any 32 bits."""
        draw, members = self.draw, self.group.members
        whole = 2**members - 1
        some = draw.choice(self.group.views)[1]
        near = some ^ 1 << draw.randrange(members)
        beyond = 1 << draw.randrange(members, 32)
        if draw.randrange(6) == 0:
            return draw.choice([0, beyond, whole | beyond, near | beyond, 2**32 - 1, draw.randrange(2**32)])
        return draw.choice([whole, some, near, near, 1 << draw.randrange(members), draw.randint(1, whole)])


def books_views(group):
    """Every view that some member's book holds."""
    return {view for m in group.member for view in [m["carrier"], m["client"], m["settled"], *m["open"]]}
