"""The cases that the specification gives, asked of the reference.

    python3 tests/reference/reference_cases.py
"""

import copy
import io

from reference import Group, Refused, answer, bench, form_steps, members_of, read_front, read_one, start

KIND = {
    "create": 1, "join": 2, "pass": 3, "order": 4, "deliver": 5, "attempt": 6,
    "register": 7, "send": 8, "hand": 9, "tell": 10, "safe": 11, "collect": 12,
}


def shown(script):
    replies = []
    bench(io.BytesIO(script.encode()), replies.append)
    return "".join(replies)


def bench_replies(script):
    """The replies to every line, behind `all`; without it the accepted ones alone come."""
    replies = shown("all\n" + script)
    assert shown(script) == "".join(r for r in replies.splitlines(keepends=True) if not r.startswith("refused"))
    return replies


def do(group, name, *operands):
    return group.step(KIND[name], *operands)


def all_ok(group, *steps):
    for step in steps:
        assert do(group, *step) == ("ok",), step


def exchange_infos(group, identifier, members):
    """The members join the view and each takes the info of each."""
    for m in members:
        all_ok(group, ("join", m, identifier), ("pass", m), ("order", m, identifier))
    for m in members:
        for _ in members:
            all_ok(group, ("deliver", m))


def made_and_joined(first_set, identifier, members_set):
    """A group of five whose new view has every info."""
    group = Group(5, first_set, 32)
    all_ok(group, ("create", identifier, members_set))
    members = [m for m in range(5) if members_set >> m & 1]
    exchange_infos(group, identifier, members)
    return group


def reads(hexadecimal):
    try:
        return read_one(bytes.fromhex(hexadecimal))
    except Refused as refusal:
        return refusal.number


def whole_case():
    script = (
        "group 2 3\nsend 0 5\npass 0\norder 0 0\ndeliver 1\nhand 1\nattempt 1\n"
    )
    replies = (
        "ok\nsend 0 0 5\nok\nok\nok\nhand 1 0 0 5\nrefused 19\n"
    )
    assert bench_replies(script) == replies
    assert bench_replies(script[:-1]) == replies


def three_of_five_pass():
    group = made_and_joined(0b11111, 1, 0b11100)
    assert do(group, "attempt", 2) == ("attempt", 2, 1, 0b11100)


def two_of_five_fail():
    group = made_and_joined(0b11111, 1, 0b00011)
    assert do(group, "attempt", 0) == ("refused", 21)


def an_open_view_fails():
    group = made_and_joined(0b11111, 1, 0b00111)
    assert do(group, "attempt", 2) == ("attempt", 2, 1, 0b00111)
    all_ok(group, ("create", 2, 0b11100))
    exchange_infos(group, 2, [2, 3, 4])
    # Server 2 has start settled and {0,1,2} open; its info told 3 and 4 so.
    for m in [2, 3, 4]:
        assert group.member[m]["settled"] == (0, 0b11111)
        assert group.member[m]["open"] == [(1, 0b00111)]
        assert do(group, "attempt", m) == ("refused", 21)


def settled_by_all(members_set):
    """A group of five in which all of the view collected it."""
    group = made_and_joined(0b11111, 1, members_set)
    members = [m for m in range(5) if members_set >> m & 1]
    for m in members:
        assert do(group, "attempt", m)[0] == "attempt"
        assert do(group, "register", m) == ("register", m, 1)
        all_ok(group, ("pass", m), ("order", m, 1))
    for m in members:
        for _ in members:
            all_ok(group, ("deliver", m))
        all_ok(group, ("collect", m))
    return group


def two_of_three_pass():
    group = settled_by_all(0b00111)
    all_ok(group, ("create", 2, 0b00011))
    exchange_infos(group, 2, [0, 1])
    assert do(group, "attempt", 0) == ("attempt", 0, 2, 0b00011)
    # The same test, asked of a group that starts with {0,1,2}.
    group = made_and_joined(0b00111, 1, 0b00011)
    assert do(group, "attempt", 1) == ("attempt", 1, 1, 0b00011)


def two_of_four_fail():
    group = settled_by_all(0b01111)
    all_ok(group, ("create", 2, 0b00011))
    exchange_infos(group, 2, [0, 1])
    assert do(group, "attempt", 0) == ("refused", 21)
    group = made_and_joined(0b01111, 1, 0b00011)
    assert do(group, "attempt", 1) == ("refused", 21)


def collect_in_the_first_view():
    group = Group(5, 0b11111, 32)
    assert do(group, "collect", 0) == ("refused", 30)


def same_identifier_twice():
    group = Group(5, 0b11111, 32)
    all_ok(group, ("create", 1, 0b00111))
    assert do(group, "create", 1, 0b00111) == ("refused", 8)
    assert do(group, "create", 0, 0b00111) == ("refused", 8)


def registered_reads():
    assert reads("03 00000000 00 00") == (0, ("registered",))


def info_reads():
    assert reads("02 00000001 01 00000000 07 00") == (1, ("info", (0, 0b111), []))


def cut_and_lengthened():
    assert reads("02 00000001 01 00000000 07") == 32
    assert reads("02 00000001 01 00000000 07 00 00") == 38


def joined_read_in_order():
    joined = "03 00000000 00 00 02 00000001 01 00000000 07 00"
    assert reads(joined) == 38
    assert read_front(bytes.fromhex(joined)) == (0, ("registered",), 7)
    assert read_front(bytes.fromhex(joined)[7:]) == (1, ("info", (0, 0b111), []), 12)


def ordered_128_then_16():
    group = Group(1, 0b1, 32)
    for entry in range(128):
        assert do(group, "send", 0, entry) == ("send", 0, 0, entry)
        all_ok(group, ("pass", 0), ("order", 0, 0))
    assert do(group, "send", 0, 128) == ("send", 0, 0, 128)
    all_ok(group, ("pass", 0))
    assert do(group, "order", 0, 0) == ("refused", 16)
    for entry in range(128):
        all_ok(group, ("deliver", 0))
    assert do(group, "deliver", 0) == ("refused", 18)


def list_of_length_1():
    group = Group(5, 0b11111, 1)
    assert do(group, "create", 0, 0b1) == ("refused", 8)
    assert do(group, "create", 1, 0b1) == ("refused", 9)


def start_refusals():
    assert start(0, 1, 8) == ("refused", 1)
    assert start(9, 0, 0) == ("refused", 1)
    assert start(2, 0, 0) == ("refused", 2)
    assert start(2, 4, 0) == ("refused", 2)
    assert start(2, 3, 0) == ("refused", 3)
    assert start(2, 3, 33) == ("refused", 3)


def bench_lines():
    """What is unreadable, and what is only refused."""
    assert bench_replies("") == ""
    assert bench_replies("\n") == "refused 40\n"
    before = "pass 0\ngroup 9 1\ngroup 256 1\ngroup 2 4\ngroup 2 3\n"
    assert bench_replies(before) == (
        "refused 40\nrefused 1\nrefused 40\nrefused 2\nok\n"
    )
    running = "group 2 3\n"
    for line, reply in [
        ("pass 255", "refused 6"), ("pass 256", "refused 40"),
        ("pass 2", "refused 6"), ("join 9 99", "refused 6"),
        ("create 1 255", "refused 7"), ("create 1 256", "refused 40"),
        ("create 4294967295 1", "ok"), ("create 4294967296 1", "refused 40"),
        ("send 0 18446744073709551615", "send 0 0 18446744073709551615"),
        ("send 0 18446744073709551616", "refused 40"),
        ("send 0 05", "refused 40"), ("send 0 0", "send 0 0 0"),
        ("send 0 +5", "refused 40"), ("send  0 5", "refused 40"),
        (" pass 0", "refused 40"), ("pass 0 ", "refused 40"),
        ("pass", "refused 40"), ("pass 0 0", "refused 40"),
        ("PASS 0", "refused 40"), ("3 0", "refused 40"), ("pass\t0", "refused 40"),
        ("pass 0\r", "refused 40"), ("x" * 64, "refused 40"), ("x" * 200, "refused 40"),
        ("group 3 8", "refused 2"), ("group 3 7", "ok"),
    ]:
        assert bench_replies(running + line) == "ok\n" + reply + "\n", line
    # A refused later group leaves the running one; an accepted one starts afresh.
    assert bench_replies("group 2 3\nsend 0 5\ngroup 0 1\npass 0\ngroup 2 3\npass 0\n") == (
        "ok\nsend 0 0 5\nrefused 1\nok\nok\nrefused 14\n"
    )


def bench_first_line():
    """`all` counts as the very first line, and nowhere else."""
    case = "group 2 3\nattempt 1\nsend 0 5\n"
    everything, accepted = "ok\nrefused 19\nsend 0 0 5\n", "ok\nsend 0 0 5\n"
    assert shown("all") == shown("all\n") == shown("") == ""
    assert shown("all\n" + case) == everything
    assert shown("all\nall\n" + case) == "refused 40\n" + everything
    for first in ["", "\n", "hello\n", "all \n", " all\n", "All\n", "all\r\n", "all\0\n", "all 1\n", "al\n", "alll\n"]:
        assert shown(first + case) == accepted, first
        if first != "":
            assert shown(first + "all\n" + case) == accepted, first
    assert shown(case + "all\n" + case) == accepted + accepted
    # It lasts through later groups, accepted and refused.
    assert shown("all\ngroup 9 1\n" + case + "group 2 4\nattempt 1\n" + case) == (
        "refused 1\n" + everything + "refused 2\nrefused 19\n" + everything
    )
    # A refused line leaves no trace, the last without its byte 10 neither.
    assert shown("attempt 1\ngroup 9 1\n\n") == "" and shown("group 2 3\nattempt 1") == "ok\n"


def formed(group, identifier, members_set):
    """The view is made and formed; the steps by hand leave the same."""
    all_ok(group, ("create", identifier, members_set))
    by_hand, servers = copy.deepcopy(group), members_of(members_set)
    steps, count = form_steps((identifier, members_set)), 2 * len(servers) ** 2 + 8 * len(servers)
    assert len(steps) == count and group.form(identifier) == ("formed", count)
    replies = [by_hand.step(*step) for step in steps]
    assert vars(by_hand) == vars(group)
    # The outward history: the attempts, then the registers, by rising server.
    events = [("attempt", p, identifier, members_set) for p in servers] + [("register", p, identifier) for p in servers]
    assert [reply for reply in replies if reply != ("ok",)] == events
    for p in servers:
        assert group.member[p]["settled"] == (identifier, members_set) and group.member[p]["open"] == []
    return count


def formed_by_one_to_eight():
    for servers, count in enumerate([10, 24, 42, 64, 90, 120, 154, 192], 1):
        group = Group(servers, 2**servers - 1, 32)
        assert formed(group, 1, 2**servers - 1) == count and formed(group, 9, 2**servers - 1) == count
        # A further one where the last is left with entries in every queue.
        for p in range(servers):
            for entry in range(16):
                assert do(group, "send", p, entry)[0] == "send"
        assert formed(group, 10, 2**servers - 1) == count


def form_refusals():
    group = Group(5, 0b11111, 32)
    assert group.form(0) == ("refused", 44) and group.form(1) == ("refused", 10)
    all_ok(group, ("create", 1, 0b00011))
    assert group.form(1) == ("refused", 45) and group.form(0) == ("refused", 44) and group.form(2) == ("refused", 10)
    # Older, and it would fail the test: 44 is asked before 45.
    all_ok(group, ("create", 2, 0b00111))
    assert group.form(1) == ("refused", 44)
    all_ok(group, ("join", 2, 2))
    assert group.form(2) == ("refused", 44)
    assert formed(group, 3, 0b00111) == 42 and group.form(3) == ("refused", 44)


def form_fails_where_steps_pass():
    """Server 7 still holds the first view: {0,1,7} has no majority of it, and the infos would take it away."""
    group = Group(8, 0b11111111, 32)
    assert formed(group, 1, 0b00011111) == 90 and formed(group, 2, 0b00000111) == 42
    all_ok(group, ("create", 3, 0b10000011))
    assert group.form(3) == ("refused", 45)
    assert [reply for reply in [group.step(*step) for step in form_steps((3, 0b10000011))] if reply[0] == "refused"] == []


# More places than any list of views needs.
ENOUGH = 32


def asked_at_once():
    """The first view is attempted from the start. {3} crosses it and holds no majority of it; {4} is outside it."""
    group = Group(5, 0b01111, 32)
    assert group.crossing(0b01111, ENOUGH) == ("crossing", 1, 0) and group.holding(0b01111, ENOUGH) == ("holding", 1, 0)
    assert group.crossing(0b01000, ENOUGH) == ("crossing", 1, 0) and group.holding(0b01000, ENOUGH) == ("holding", 0)
    assert group.crossing(0b10000, ENOUGH) == ("crossing", 0) and group.holding(0b10000, ENOUGH) == ("holding", 0)
    assert group.before(1) == ("before", 0, 0b01111)


def joined_is_not_attempted():
    """Made, joined and every info taken is not enough, nor is a refused attempt; one member's attempt is."""
    group = made_and_joined(0b11111, 1, 0b00111)
    assert group.crossing(0b00111, ENOUGH) == ("crossing", 1, 0) and group.before(2) == ("before", 0, 0b11111)
    assert do(group, "attempt", 4) == ("refused", 19)
    assert group.crossing(0b00111, ENOUGH) == ("crossing", 1, 0)
    assert do(group, "attempt", 1) == ("attempt", 1, 1, 0b00111)
    assert group.crossing(0b00111, ENOUGH) == ("crossing", 2, 1, 0) and group.before(2) == ("before", 1, 0b00111)
    assert group.crossing(0b11000, ENOUGH) == ("crossing", 1, 0)
    # A further attempt of the same view lists it no second time.
    assert do(group, "attempt", 2) == ("attempt", 2, 1, 0b00111)
    assert group.crossing(0b00111, ENOUGH) == ("crossing", 2, 1, 0)
    # Nor does a view that fails the test become attempted, by hand or by the driver.
    group = made_and_joined(0b11111, 1, 0b00011)
    assert do(group, "attempt", 0) == ("refused", 21)
    all_ok(group, ("create", 2, 0b00011))
    assert group.form(2) == ("refused", 45)
    assert group.crossing(0b11111, ENOUGH) == ("crossing", 1, 0)


def three_attempted():
    """A group whose view 4 was attempted by one member, and whose view 7 the driver formed."""
    group = made_and_joined(0b11111, 4, 0b00111)
    assert do(group, "attempt", 0)[0] == "attempt"
    formed(group, 7, 0b11110)
    return group


def forgotten_is_listed():
    """A view that no book holds any more is listed as long as the group lives."""
    group = three_attempted()
    formed(group, 8, 0b11111)
    for m in group.member:
        assert m["settled"] == m["carrier"] == m["client"] == (8, 0b11111) and m["open"] == []
    assert group.crossing(0b00001, ENOUGH) == ("crossing", 3, 8, 4, 0)
    assert group.crossing(0b00010, ENOUGH) == ("crossing", 4, 8, 7, 4, 0)
    assert group.holding(0b00011, ENOUGH) == ("holding", 1, 4)
    assert group.holding(0b01110, ENOUGH) == ("holding", 4, 8, 7, 4, 0)


def half_is_no_majority():
    """Of the view, and not of the set: the test the other way round answers something else."""
    group = Group(5, 0b01111, 32)
    assert group.holding(0b00011, ENOUGH) == ("holding", 0) and group.holding(0b10011, ENOUGH) == ("holding", 0)
    assert group.holding(0b00111, ENOUGH) == ("holding", 1, 0)
    group = Group(8, 0b00000001, 32)
    assert group.holding(0b11111111, ENOUGH) == ("holding", 1, 0)


def places_for_the_list():
    """46 for a buffer one identifier short, none at an exact fit. 7 is checked first."""
    group = three_attempted()
    for places in [3, 4, ENOUGH]:
        assert group.crossing(0b00010, places) == ("crossing", 3, 7, 4, 0)
        assert group.holding(0b11110, places) == ("holding", 3, 7, 4, 0)
    for places in [0, 1, 2]:
        assert group.crossing(0b00010, places) == group.holding(0b11110, places) == ("refused", 46)
    assert group.holding(0b01000, 0) == ("holding", 0)
    for unfit in [0, 0b100000, 0b100010, 255, 256, 256 + 0b11111, 2**32 - 1]:
        for places in [0, 2, ENOUGH]:
            assert group.crossing(unfit, places) == group.holding(unfit, places) == ("refused", 7)


def newest_before():
    """Strictly below; the identifier need not be a view's, and a view that was only made is passed over."""
    group = three_attempted()
    all_ok(group, ("create", 9, 0b11111))
    first, second, third = ("before", 0, 0b11111), ("before", 4, 0b00111), ("before", 7, 0b11110)
    for found, identifiers in [(("none",), [0]), (first, [1, 3, 4]), (second, [5, 6, 7]), (third, [8, 9, 10, 2**32 - 1])]:
        for identifier in identifiers:
            assert group.before(identifier) == found, identifier


def another_group_starts_afresh():
    """A refused `group` leaves the views attempted; an accepted one leaves its first view alone."""
    group = three_attempted()
    same, reply = answer(group, b"group 9 1")
    assert reply == ("refused", 1) and same.crossing(0b00010, ENOUGH) == ("crossing", 3, 7, 4, 0)
    other, reply = answer(group, b"group 3 3")
    assert reply == ("ok",) and other.crossing(0b111, ENOUGH) == ("crossing", 1, 0) and other.before(9) == ("before", 0, 3)


CASES = [
    whole_case,
    three_of_five_pass,
    two_of_five_fail,
    an_open_view_fails,
    two_of_three_pass,
    two_of_four_fail,
    collect_in_the_first_view,
    same_identifier_twice,
    registered_reads,
    info_reads,
    cut_and_lengthened,
    joined_read_in_order,
    ordered_128_then_16,
    list_of_length_1,
    start_refusals,
    bench_lines,
    bench_first_line,
    formed_by_one_to_eight,
    form_refusals,
    form_fails_where_steps_pass,
    asked_at_once,
    joined_is_not_attempted,
    forgotten_is_listed,
    half_is_no_majority,
    places_for_the_list,
    newest_before,
    another_group_starts_afresh,
]

if __name__ == "__main__":
    for case in CASES:
        case()
    print(len(CASES), "cases hold")
