#!/usr/bin/env python3
"""Messages as bytes, a second time, in plain Python: the lines that the program `test_vectors` is run on, and the answers it must give.

    python3 tests/reference/wire_vectors.py stdin  > crates/test_vectors/stdin
    python3 tests/reference/wire_vectors.py stdout > crates/test_vectors/stdout
    python3 tests/reference/wire_vectors.py check      whether those two files are what this makes
    python3 tests/reference/wire_vectors.py count      how many lines get which answer

Nothing here is taken from the code of the repository: `read` and `write` below follow the words of the format and of the rows
'reader' and 'writer' of the table of refusals. The lines are:

    read HEX                         HEX is one message                    refused R | MESSAGE taken N
    front HEX                        HEX starts with a message             refused R | MESSAGE taken N
    write ROOM KIND I X ID:SET ..    a message into ROOM bytes of ee       refused R BUFFER | wrote N BUFFER

where MESSAGE is `client I X`, `info I ID:SET ..`, `registered I` or `told I X`, I the identifier of the view sent in.
"""
import os
import sys

CLIENT, INFO, REGISTERED, TOLD = 1, 2, 3, 4
KINDS = [CLIENT, INFO, REGISTERED, TOLD]
WORDS = {CLIENT: 'client', INFO: 'info', REGISTERED: 'registered', TOLD: 'told'}
TOP4, TOP8 = 2 ** 32 - 1, 2 ** 64 - 1
ROOM_MOST, INPUT_MOST = 200, 65536  # what the program has room for


# ---- the format

class Refused(Exception):
    pass


def number(x, width):
    return x.to_bytes(width, 'big')


def views_allowed(kind, count):
    return 1 <= count <= 32 if kind == INFO else count == 0


def numbers_allowed(kind, count):
    return count == (1 if kind in (CLIENT, TOLD) else 0)


def check_content(kind, views, x):
    """35 to 37, over the whole message, in this order."""
    if any(s == 0 for _, s in views):
        raise Refused(35)
    if any(a >= b for (a, _), (b, _) in zip(views, views[1:])):
        raise Refused(36)
    if kind == TOLD and not 1 <= x <= 128:
        raise Refused(37)


def read(data, all_of_it):
    """Kind, identifier, views, numbers as the bytes come: 32 where they end, 33 and 34 at once. Then 35 to 37. 38 where it is to be all of them."""
    at = 0

    def take(width):
        nonlocal at
        if at + width > len(data):
            raise Refused(32)
        at += width
        return int.from_bytes(data[at - width:at], 'big')

    kind = take(1)
    if kind not in KINDS:
        raise Refused(33)
    view = take(4)
    count = take(1)
    if not views_allowed(kind, count):
        raise Refused(34)
    views = [(take(4), take(1)) for _ in range(count)]
    count = take(1)
    if not numbers_allowed(kind, count):
        raise Refused(34)
    x = take(8) if count else 0
    check_content(kind, views, x)
    if all_of_it and at < len(data):
        raise Refused(38)
    return kind, view, x, views, at


def message(kind, view, x=0, views=()):
    """The bytes of a message, whether or not it is one that the format allows."""
    numbers = [x] if kind in (CLIENT, TOLD) else []
    return (bytes([kind]) + number(view, 4) + bytes([len(views) % 256]) + b''.join(number(i, 4) + bytes([s]) for i, s in views)
            + bytes([len(numbers)]) + b''.join(number(n, 8) for n in numbers))


def write(room, kind, view, x, views):
    """What stands in a buffer of ee afterwards, and how many bytes were written. 33 cannot arise: the writer is given a message."""
    if not views_allowed(kind, len(views)):
        raise Refused(34)
    check_content(kind, views, x)
    data = message(kind, view, x, views)
    if len(data) > room:
        raise Refused(39)
    return data + b'\xee' * (room - len(data)), len(data)


# ---- answers

def answer_read(data, all_of_it):
    try:
        kind, view, x, views, taken = read(data, all_of_it)
    except Refused as r:
        return 'refused %d' % r.args
    rest = ['%d' % x] if kind in (CLIENT, TOLD) else ['%d:%d' % v for v in views]
    return ' '.join([WORDS[kind], '%d' % view] + rest + ['taken', '%d' % taken])


def answer_write(room, kind, view, x, views):
    try:
        data, n = write(room, kind, view, x, views)
    except Refused as r:
        return 'refused %d %s' % (r.args[0], 'ee' * room)
    return 'wrote %d %s' % (n, data.hex())


# ---- vectors

vectors = []


def reads(data):
    vectors.append(('read ' + data.hex(), answer_read(data, True)))


def fronts(data):
    vectors.append(('front ' + data.hex(), answer_read(data, False)))


def both(data):
    reads(data)
    fronts(data)


def writes(room, kind, view, x=0, views=()):
    assert 0 <= room <= ROOM_MOST
    line = ' '.join(['write', '%d' % room, '%d' % kind, '%d' % view, '%d' % x] + ['%d:%d' % v for v in views])
    vectors.append((line, answer_write(room, kind, view, x, views)))


def known(line, answer):
    """A vector whose answer is written out: the functions above must give it too."""
    word, rest = (line + ' ').split(' ', 1)
    data = bytes.fromhex(rest)
    assert answer_read(data, word == 'read') == answer, line
    vectors.append((word + ' ' + data.hex(), answer))


def rising(count, first=0, step=1, members=255):
    return [(first + step * i, members) for i in range(count)]


ONE = [(0, 7)]
FULL = [(7 * i + 3, i * 37 % 255 + 1) for i in range(31)] + [(TOP4, 255)]
LONGEST = message(INFO, 0x01020304, views=FULL)
assert len(LONGEST) == 167


def worked_cases():
    known('read 03 00000000 00 00', 'registered 0 taken 7')
    known('read 02 00000001 01 00000000 07 00', 'info 1 0:7 taken 12')
    known('read 02 00000001 01 00000000 07', 'refused 32')
    known('read 02 00000001 01 00000000 07 00 00', 'refused 38')
    known('front 02 00000001 01 00000000 07 00 00', 'info 1 0:7 taken 12')
    known('read', 'refused 32')
    known('read 05', 'refused 33')
    known('read 02 00000001 21', 'refused 34')
    known('read 01 00000002 00 01 0000000000000005', 'client 2 5 taken 15')
    known('read 04 ffffffff 00 01 0000000000000080', 'told 4294967295 128 taken 15')
    known('read 04 ffffffff 00 01 0000000000000081', 'refused 37')
    known('read 02 00000009 02 00000001 03 00000001 03 00', 'refused 36')
    known('read 02 00000009 02 00000001 03 00000002 00 00', 'refused 35')


def every_length():
    """The longest info cut at every place, and with bytes behind it."""
    for n in range(len(LONGEST) + 1):
        reads(LONGEST[:n])
    for more in (1, 2, 33, 89):
        both(LONGEST + b'\x03' * more)
    fronts(LONGEST)
    for whole in (message(CLIENT, 5, TOP8), message(TOLD, 5, 9), message(REGISTERED, 5)):
        for n in range(len(whole) + 1):
            reads(whole[:n])
        both(whole + whole)


def kinds_and_counts():
    for kind in list(range(8)) + [127, 128, 254, 255]:
        reads(bytes([kind]))
        reads(bytes([kind]) + number(1, 4) + bytes(2))
    for kind in KINDS:
        for count in (0, 1, 2, 31, 32, 33, 34, 64, 128, 255):
            head = bytes([kind]) + number(1, 4) + bytes([count])
            reads(head)
            if count < 3 or kind == INFO and count in (32, 33):
                body = b''.join(number(i, 4) + b'\x07' for i in range(count))
                reads(head + body)
                reads(head + body + bytes([1 if kind in (CLIENT, TOLD) else 0]) + bytes(7) + b'\x05')
        for count in (0, 1, 2, 32, 33, 255):
            head = message(kind, 1, 0, ONE if kind == INFO else ())
            head = head[:12] if kind == INFO else head[:7]
            reads(head[:-1] + bytes([count]))
            both(head[:-1] + bytes([count]) + bytes(7) + b'\x05')


def values():
    for x in (0, 1, 2, 127, 128, 129, 255, 256, 257, 384, 2 ** 32 + 1, 2 ** 63, 2 ** 63 + 1, TOP8 - 255, TOP8):
        reads(message(TOLD, 3, x))
        reads(message(CLIENT, 3, x))
    for view in (0, 1, 255, 256, 2 ** 31, TOP4 - 1, TOP4):
        for kind in KINDS:
            reads(message(kind, view, 1, ONE if kind == INFO else ()))
    for members in (0, 1, 127, 128, 254, 255):
        reads(message(INFO, 1, views=[(4, members)]))
        reads(message(INFO, 1, views=[(4, 1), (5, members)]))
        reads(message(INFO, 1, views=rising(31) + [(31, members)]))
    for a, b in ((0, 0), (0, 1), (1, 0), (TOP4, TOP4), (TOP4 - 1, TOP4), (TOP4, 0), (255, 256), (256, 255), (2 ** 31 - 1, 2 ** 31), (2 ** 31, 2 ** 31 - 1)):
        reads(message(INFO, 1, views=[(a, 1), (b, 2)]))
    for last in (29, 30, 31):
        reads(message(INFO, 1, views=rising(31) + [(last, 1)]))
    reads(message(INFO, 1, views=rising(32, TOP4 - 31)))
    reads(message(INFO, 1, views=rising(32, 9, 1000)))


def two_faults():
    """Messages with two faults: the answer says which is looked for first."""
    empty, falling = [(1, 1), (2, 0)], [(2, 1), (1, 1)]
    faulty = [(2, 0), (1, 1)]
    later = [falling[0], (1, 0)]
    for views in (empty, falling, faulty, later):
        whole = message(INFO, 1, views=views)
        both(whole)
        both(whole + b'\x00')                                   # and bytes left over
        reads(whole[:-1])                                       # and ends early
        reads(whole[:8])
        reads(whole[:-1] + b'\x01')                             # and a wrong count of numbers, at once
        reads(whole[:-1] + b'\x01' + number(5, 8))
        for kind in (0, 5, 255):                                # and an unknown kind
            reads(bytes([kind]) + whole[1:])
        reads(whole[:5] + b'\x21' + whole[6:])                  # and a wrong count of views
        for kind in (CLIENT, REGISTERED, TOLD):                 # and views where none belong
            reads(bytes([kind]) + whole[1:])
    for x in (0, 129):
        whole = message(TOLD, 1, x)
        both(whole)
        both(whole + b'\x00')
        reads(whole[:-1])
        reads(b'\x05' + whole[1:])
        reads(whole[:6] + b'\x02' + whole[7:])
        reads(message(TOLD, 1, x, ONE))
        reads(message(TOLD, 1, x, [(0, 0)]))
    for kind in (0, 5):
        reads(bytes([kind]) + number(1, 4) + b'\x21')
        reads(bytes([kind]) + number(1, 3))
        both(bytes([kind]) + number(1, 4) + bytes(3))
    for kind in KINDS:
        both(message(kind, 1, 1, ONE if kind == INFO else ()) + b'\x00')
        reads(bytes([kind]) + number(1, 4) + b'\x21' + bytes(20))
        reads(bytes([kind]) + number(1, 4) + b'\x00\x09' + bytes(20))


def writer():
    def lengths(kind, view, x=0, views=()):
        n = len(message(kind, view, x, views))
        for room in (0, 1, n - 1, n, n + 1, ROOM_MOST):
            writes(room, kind, view, x, views)
        reads(message(kind, view, x, views))

    for x in (0, 1, 2 ** 63, TOP8):
        lengths(CLIENT, TOP4, x)
    for x in (1, 128):
        lengths(TOLD, 0, x)
    lengths(REGISTERED, 77)
    for views in (ONE, [(0, 1), (TOP4, 128)], FULL):
        lengths(INFO, 0x01020304, 0, views)
    for view in (0, 1, 255, 256, TOP4):
        for kind in KINDS:
            writes(20, kind, view, 1, ONE if kind == INFO else ())
    for x in (0, 127, 129, 255):
        writes(20, TOLD, 1, x)
        writes(15, TOLD, 1, x)
        writes(14, TOLD, 1, x)                                  # and too short
        writes(20, TOLD, 1, x, ONE)                             # and a view where none belongs
    for kind in KINDS:
        for count in (0, 1, 2, 32):
            writes(16, kind, 1, 1, rising(count, members=1))
    for count in (33, 256, 257):
        writes(8, INFO, 1, 0, rising(count, members=1))
    for views in ([(0, 0)], [(1, 1), (2, 0)], [(0, 0), (0, 0)], [(2, 0), (1, 1)], [(2, 1), (1, 1)], [(2, 1), (2, 1)], [(TOP4, 1), (0, 1)],
                  rising(31) + [(30, 1)], rising(31) + [(31, 0)], rising(32) + [(31, 0)], [(1, 1), (0, 0), (5, 5)]):
        n = len(message(INFO, 1, 0, views))
        for room in (0, n - 1 if n <= ROOM_MOST else 8, ROOM_MOST):
            writes(room, INFO, 1, 0, views)                     # and too short
        if len(views) < 32:
            writes(30, CLIENT, 1, 1, views)                     # and views where none belong


def mixed():
    """Messages with a byte changed, put in or left out, by a fixed sequence of numbers."""
    state = 1

    def draw(n):
        nonlocal state
        state = (state * 6364136223846793005 + 1442695040888963407) % 2 ** 64
        return (state >> 33) % n

    for _ in range(100):
        kind = KINDS[draw(4)]
        views = rising(draw(4) + 1, draw(300), draw(3) + 1, draw(255) + 1) if kind == INFO else ()
        data = bytearray(message(kind, draw(TOP4), draw(140), views))
        for _ in range(draw(3)):
            at = draw(len(data))
            change = draw(4)
            if change == 0:
                data[at] = draw(256)
            elif change == 1:
                data[at] = draw(3)
            elif change == 2:
                del data[at]
            else:
                data.insert(at, draw(4))
        (reads if draw(3) else fronts)(bytes(data))


def packets():
    """Messages joined: what stands at the front, then at the front of the rest, to the end or to what is none."""
    def packet(*messages, behind=b''):
        data = b''.join(message(*m) for m in messages) + behind
        if not behind:
            reads(data)                                         # one message they are not
        for kind, view, x, views in messages:
            fronts(data)
            *written, taken = read(data, False)
            assert written == [kind, view, x if kind in (CLIENT, TOLD) else 0, list(views)]
            data = data[taken:]
        assert data == behind
        if behind:
            fronts(behind)

    client, registered, told = (CLIENT, 5, TOP8, ()), (REGISTERED, 5, 0, ()), (TOLD, 5, 9, ())
    info, longer = (INFO, 5, 0, ONE), (INFO, 5, 0, [(0, 7), (TOP4, 1)])
    packet(registered, told, client, info)
    packet(longer, registered, registered)
    packet((CLIENT, 1, 3, ()), (CLIENT, 2, 3, ()), (CLIENT, 1, 3, ()))       # of two views
    packet(info, behind=message(*client)[:-1])                               # the last is cut
    packet(registered, registered, behind=b'\x03')
    packet(registered, behind=b'\x00')                                       # of no kind
    packet(registered, behind=message(CLIENT, 5, 1, ONE) + message(*registered))
    packet(registered, behind=message(INFO, 5, views=[(0, 7), (1, 0)]) + message(*registered))
    packet(registered, behind=message(INFO, 5, views=[(1, 7), (1, 7)]) + message(*registered))
    packet(client, behind=message(TOLD, 5, 129) + message(*client))


for part in (worked_cases, every_length, kinds_and_counts, values, two_faults, writer, mixed, packets):
    part()

seen, lines, answers = set(), [], []
for line, answer in vectors:
    if line not in seen:
        seen.add(line)
        lines.append(line)
        answers.append(answer)


INPUT, OUTPUT = ('\n'.join(part) + '\n' for part in (lines, answers))
assert len(INPUT) <= INPUT_MOST


def count():
    tally = {}
    for line, answer in zip(lines, answers):
        word = ' '.join([line.split()[0]] + answer.split()[:2 if answer.startswith('refused') else 1])
        tally[word] = tally.get(word, 0) + 1
    for word in sorted(tally):
        print('%4d %s' % (tally[word], word))
    print('%4d lines, %d bytes' % (len(lines), len(INPUT)))


def check():
    folder = os.path.join(os.path.dirname(os.path.abspath(__file__)), '..', '..', 'crates', 'test_vectors')
    for name, text in (('stdin', INPUT), ('stdout', OUTPUT)):
        with open(os.path.join(folder, name)) as f:
            if f.read() != text:
                sys.exit('crates/test_vectors/%s differs' % name)


def main():
    do = {'stdin': lambda: sys.stdout.write(INPUT), 'stdout': lambda: sys.stdout.write(OUTPUT), 'check': check, 'count': count}
    if len(sys.argv) != 2 or sys.argv[1] not in do:
        sys.exit(__doc__)
    do[sys.argv[1]]()


main()
