"""Scripts for the member by itself, and the answers to them by the reference.

A script is lines, each answered by one line. There are four books, 0 to 3, each a range
of 5,234 bytes of value 0 at first. K and J are books; numbers are decimal.

    start K N S P     members, first set, own number      join K I S        the view
    attempt K    register K    send K V    hand K    tell K    safe K    collect K
    pass K ROOM       into a buffer of ROOM bytes, at most 200
    deliver K Q HEX   the bytes HEX, at most 1,024 and perhaps none, from the sender Q
    packet K Q HEX    the same bytes as a packet: took N, the number of messages delivered,
                      or took N refused R where the next one was refused by R
    relay K J         what J last passed, delivered to K with J's own number as sender: the
                      number of its last accepted start, 0 before
    poke K AT X       byte AT of the book becomes X
    lend K N          from now on the first N bytes of the book are lent, at most 5,240: what
                      lies behind the 5,234 is 0
    # words           a comment, answered by itself
"""

import sys

from member_layout import SIZE, Reading, to_bytes
from member_reference import RECORDS_UNSOUND, OK, Member, Refused, line, refuse_if
from stored_script import answered, each_line

BOOKS = 4
MOST_LENT = 5240
MOST_PASSED = 200
MOST_BYTES = 1024

# The widths of the operands behind the book, in bytes.
WIDTHS = {
    "start": [1, 1, 1],
    "join": [4, 1],
    "pass": [1],
    "attempt": [],
    "register": [],
    "send": [8],
    "hand": [],
    "tell": [],
    "safe": [],
    "collect": [],
    "relay": [1],
    "poke": [2, 1],
    "lend": [2],
}


class Unreadable(Exception):
    pass


def readable_if(fact, words):
    if not fact:
        raise Unreadable(words)


class Lent:
    """A book as the host lends it, with what the script remembers about it."""

    def __init__(self):
        self.data = bytearray(MOST_LENT)
        self.length = SIZE
        self.own = 0
        self.passed = b""

    def bytes_lent(self):
        return bytes(self.data[: self.length])

    def step(self, name, *operands):
        """A call with these bytes lent: a refusal "changes nothing lent"."""
        data = self.bytes_lent()
        try:
            if name == "start":
                refuse_if(len(data) != SIZE, RECORDS_UNSOUND)
                m, data = Member(), bytes(SIZE)
            else:
                m = Reading(data).member()
            reply = getattr(m, "pass_" if name == "pass" else name)(*operands)
        except Refused as refusal:
            return line("refused", refusal.number)
        self.data[:SIZE] = to_bytes(m, data)
        return reply


class Desk:
    """The four books, and an answer to each line."""

    def __init__(self):
        self.books = [Lent() for _ in range(BOOKS)]

    def read(self, words):
        """The word, the book and the operands of a line."""
        word = words[0]
        readable_if(word in WIDTHS and len(words) == 2 + len(WIDTHS[word]), words)
        operands = [int(w) for w in words[2:]]
        fits = all(0 <= x < 256**width for x, width in zip(operands, WIDTHS[word]))
        readable_if(fits and 0 <= int(words[1]) < BOOKS, words)
        return word, int(words[1]), operands

    def arrive(self, words):
        """A deliver or a packet."""
        hexes = words[3] if len(words) == 4 else ""
        data = bytes.fromhex(hexes)
        readable_if(3 <= len(words) <= 4 and data.hex() == hexes, words)
        readable_if(len(data) <= MOST_BYTES and 0 <= int(words[2]) < 256, words)
        return self.books[int(words[1])].step(words[0], data, int(words[2]))

    def answer(self, text):
        if text.startswith("#"):
            return text
        words = text.split(" ")
        if words[0] in ("deliver", "packet"):
            return self.arrive(words)
        word, k, operands = self.read(words)
        book = self.books[k]
        if word == "relay":
            readable_if(operands[0] < BOOKS, words)
            other = self.books[operands[0]]
            return book.step("deliver", other.passed, other.own)
        if word == "poke":
            readable_if(operands[0] < SIZE, words)
            book.data[operands[0]] = operands[1]
            return OK
        if word == "lend":
            readable_if(operands[0] <= MOST_LENT, words)
            book.length = operands[0]
            return OK
        readable_if(word != "pass" or operands[0] <= MOST_PASSED, words)
        reply = book.step(word, *operands)
        if word == "start" and reply == OK:
            book.own = operands[2]
        if reply.startswith("pass "):
            book.passed = bytes.fromhex(reply[5:])
        return reply


def answers(script):
    return each_line(script, Desk().answer, (Unreadable, ValueError))


def main(words):
    if len(words) == 3 and words[0] == "random":
        from member_hostile import script

        sys.stdout.write(script(int(words[1]), int(words[2])))
        return 0
    done = answered(words, answers)
    return __doc__ if done is None else done
