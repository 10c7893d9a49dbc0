#!/usr/bin/env python3
"""How much the test from outside sees: one rule after another of the plain implementation is changed, and the test must
find a difference with the library each time. Some ten minutes: each change is a compilation.

    python3 tests/strength/changed_rules.py LIBRARY [NUMBER ..]
"""
import pathlib
import re
import shutil
import subprocess
import sys

ROOT = pathlib.Path(__file__).resolve().parents[2]
WORK = ROOT / "target" / "changed-rules"


def gone(text):
    return text, ""


def exchanged(first, second):
    """Two conditions in a row, asked in the other order."""
    return first + "\n" + second, second + "\n" + first


IN_STEP = "return has_carrier && has_client && carrier.id == client.id;"
POSITIONS = "handed > limit || told > limit || reported > limit"
COMING = "if (has_carrier && coming().count > taken) return false;"
RISING = "(i > 0 && e.view(i).id <= e.view(i - 1).id)"
OPEN_RISING = "open[i].id <= (i ? open[i - 1] : settled).id"
FULL = "if (in_step() && outgoings == kOutgoing) return kOutgoingFull;"
FRESH = "if (newest().id != id || joined(id)) return kViewNotFresh;"
TRIED = "if (Refusal r = tried.step(s.kind, s.first, s.second, Range{event, kEventSize})) return r;"
COUNTED = "put(count.at, kLengthSize, steps(newest()).size());"
LISTED = "if (!paired(steps, answers) || !sound()) return kRecordsUnsound;"
PRUNED = "      prune(views, count, now);\n"
JOINED = "for (unsigned i = 1; i < m.count; ++i) open_view(views, count, now, m.views[i]);\n"
READ_ONE = "  if (Refusal r = read_front(bytes, size, m, taken)) return r;\n  return taken == size ? kAccepted : kBytesLeftOver;"
READ_FRONT = "  if (Refusal r = read_front(bytes, size, m, taken)) return r;\n  store_record(m, record.at);\n"
ARRIVED = "    if (Refusal r = read(bytes, size, message)) return r;\n    return arrive(message, sender);"
CARRIED, FRONT = "    if (!has_carrier) return kNoCarrierView;\n", "    if (Refusal r = read_front(bytes, size, message, taken_bytes)) return r;\n"
ONE = FRONT.replace("read_front(", "read(").replace(", taken_bytes", "")
ADMITTED = "if (delivery.size != kDeliverySize || check() == kRecordsUnsound) return kRecordsUnsound;\n"
STOPPED = "Refusal stopped = kAccepted;"
TOOK = "if (stopped == kAccepted) ++delivered, at += front;"
GAVE = "    put(delivery.at + kDelivered, 4, delivered), delivery.at[kStopped] = static_cast<uint8_t>(stopped);\n    return kAccepted;"
PAST = "marks() >> made() != 0"
MARKED = "    if (r == kAccepted) put(queues_.at + kQueuesMarks, kMarksSize, marks() | uint64_t{1} << find(m_.carrier.id));"
FITS = "    if (!set_fits(set, books_.at[kAtMembers])) return kSetUnfit;"
FOUND = "    std::vector<uint32_t> ids;\n    for (const View& v : attempted())\n      if (wanted(static_cast<uint8_t>(set), v.set)) ids.push_back(v.id);"
PLACES = "    if (kIdentifierSize * ids.size() > views.size) return kTooFewPlaces;"
WRITTEN = "    for (size_t i = 0; i < ids.size(); ++i) put(views.at + kIdentifierSize * i, kIdentifierSize, ids[i]);"
NUMBERED = "    put(count.at, kLengthSize, ids.size());"
MOVED_UP = "for (unsigned i = 0; i < outgoings; ++i) outgoing[i] = outgoing[i + 1];"

# For each file what stands there, and what is put in its place: at its first occurrence.
CHANGES = {
    "wire.hpp": [
        ("count >= 1 && count <= kViews", "count <= kViews"),
        ("count <= kViews : count == 0", "count < kViews : count == 0"),
        ("m.views[i].set == 0", "i > 0 && m.views[i].set == 0"),
        ("m.views[i].id <= m.views[i - 1].id", "m.views[i].id < m.views[i - 1].id"),
        gone("m.number < 1 || "),
        ("m.number > kOrdered)", "m.number > kOrdered + 1)"),
        (READ_ONE, "  Refusal r = read_front(bytes, size, m, taken);\n  return taken != 0 && taken != size ? kBytesLeftOver : r;"),
        (READ_ONE, "  return read_front(bytes, size, m, taken);"),
        (READ_FRONT, "  if (Refusal r = read(bytes, size, m)) return r;\n  taken = size;\n  store_record(m, record.at);\n"),
        (READ_FRONT, "  put(len.at, kLengthSize, 0);\n" + READ_FRONT),
        (READ_FRONT, "  store_record(m, record.at);\n" + READ_FRONT),
        ("put(len.at, kLengthSize, taken);", "put(len.at, kLengthSize, size);"),
        gone(" || len.size != kLengthSize"),
        exchanged("  if (Refusal r = content(m)) return r;", "  if (size < length(m)) return kBufferTooShort;"),
        ("size < length(m)", "size <= length(m)"),
    ],
    "member.hpp": [
        gone("if (e.sender() >= members) return false;"),
        ("e.sender() >= members", "e.sender() > members"),
        gone("e.number() >= 1 && "),
        ("e.number() <= kOrdered", "e.number() <= 255"),
        gone("e.count() < 1 || "),
        ("e.count() > kViews", "e.count() >= kViews"),
        (RISING, "(i > 1 && e.view(i).id <= e.view(i - 1).id)"),
        (RISING, "(i > 0 && e.view(i).id < e.view(i - 1).id)"),
        gone("!known(e.view(i)) || "),
        (IN_STEP, "return has_client && carrier.id == client.id;"),
        (IN_STEP, "return has_carrier && carrier.id == client.id;"),
        (IN_STEP, "return has_carrier && has_client && carrier == client;"),
        gone("if (!in.known(settled)) return false;"),
        (OPEN_RISING, "open[i].id < (i ? open[i - 1] : settled).id"),
        (OPEN_RISING, "i && open[i].id <= open[i - 1].id"),
        gone("(has_carrier && !in.known(carrier)) || "),
        gone(" || (has_client && !in.known(client))"),
        (POSITIONS, "handed > limit || told > limit"),
        (POSITIONS, "handed > limit || reported > limit"),
        (POSITIONS, "told > limit || reported > limit"),
        ("has_client ? mine().count : 0", "mine().count"),
        ("taken > (has_carrier ? most : 0)", "taken > most"),
        gone(COMING),
        (COMING, "if (coming().count > taken) return false;"),
        (COMING, "if (has_carrier && coming().count > taken + 1) return false;"),
        ("q < members; ++q)\n      if (tolds[q] > kOrdered)", "q < 8; ++q)\n      if (tolds[q] > kOrdered)"),
        ("tolds[q] > kOrdered", "tolds[q] > kOrdered + 1"),
        ("list.items[i].sender >= members", "list.items[i].sender > members"),
        ("for (const Inward& list : inward)\n", "for (const Inward& list : {mine()})\n"),
        gone("if (v.id <= settled.id) return;"),
        ("open[at].id == v.id) return;", "open[at].id == v.id) { open[at] = v; return; }"),
        ("v.id <= carrier.id", "v.id < carrier.id"),
        ("if (has_carrier && v.id <= carrier.id)", "if (v.id <= carrier.id)"),
        gone("inward[1 - side].count = 0;"),
        ("taken = infos = registrations = 0;", "taken = infos = 0;"),
        ("memset(tolds, 0, sizeof tolds);", "memset(tolds, 0, members);"),
        (MOVED_UP, MOVED_UP + " memset(&outgoing[outgoings], 0, kSlotSize);"),
        ("if (open[i].id == now.id) now = open[i];", ";"),
        gone("prune(views, count, now);"),
        # joined into 32 places first, and pruned then
        (PRUNED + "      " + JOINED, JOINED.replace("open_view(views, count, now,", "if (count < kViews) open_view(views, count, settled,") + PRUNED),
        ("if (count > kOpen) return kTooManyOpen;\n      settled", "if (count > kOpen + 1) return kTooManyOpen;\n      settled"),
        ("m.views[0].id > settled.id", "m.views[0].id >= settled.id"),
        ("carrier.id <= client.id", "carrier.id < client.id"),
        ("if (has_client && carrier.id <= client.id)", "if (carrier.id <= client.id)"),
        gone("if (carrier.set & ~infos) return kInfoMissing;"),
        ("bool passes = majority(carrier.set, settled.set);", "bool passes = true;"),
        ("passes = passes && majority", "passes = passes || majority"),
        ("for (unsigned i = 0; i < opens; ++i) passes", "for (unsigned i = 0; i + 1 < opens; ++i) passes"),
        gone(", registered = false"),
        ("handed = told = reported = 0;", "handed = reported = 0;"),
        gone("inward[side].count = 0;\n"),
        exchanged("    if (registered) return kAlreadyRegistered;", "    " + FULL),
        (FULL, "if (outgoings == kOutgoing) return kOutgoingFull;"),
        ("handed == 0 || handed == told", "handed == 0 || handed <= told"),
        ("handed == 0 || handed == told", "handed == told"),
        exchanged("    if (handed == 0 || handed == told) return kNothingNewToTell;",
                  "    if (outgoings == kOutgoing) return kOutgoingFull;"),
        ("tolds[q] < reported + 1", "tolds[q] < reported"),
        ("if ((client.set >> q & 1) && tolds", "if ((client.set >> q & 1) && q != own && tolds"),
        ("if ((client.set >> q & 1) && tolds", "if ((carrier.set >> q & 1) && tolds"),
        ("reported >= handed", "reported == handed"),
        ("carrier.id <= settled.id", "carrier.id < settled.id"),
        ("carrier.set & ~registrations", "(carrier.set & ~registrations) & ~(1u << own)"),
        gone("prune(open, opens, settled);"),
        exchanged("    if (carrier.id <= settled.id) return kNotAboveSettled;",
                  "    if (carrier.set & ~registrations) return kRegistrationMissing;"),
    ],
    "book.hpp": [
        gone("b[kAtRegistered] > 1 || "),
        gone(" || b[kAtSide] > 1"),
        ("b[kAtOpen] > kOpen ||", "b[kAtOpen] > kOpen + 1 ||"),
        gone("b[kAtInward0] > kOrdered || "),
        ("Item{at[kItemSenders + i], get(at + kItemNumbers + 8 * i, 8)}", "Item{at[1 + 9 * i], get(at + 2 + 9 * i, 8)}"),
        ("at[kItemSenders + i] = m.inward[s].items[i].sender;", "at[1 + 9 * i] = m.inward[s].items[i].sender;"),
    ],
    "alone.hpp": [
        ("own < members ? kAccepted : kNoSuchMember;\n}", "own <= members ? kAccepted : kNoSuchMember;\n}"),
        ("own < members ? kAccepted : kNoSuchMember;\n  }", "own <= members ? kAccepted : kNoSuchMember;\n  }"),
        exchanged("    if (message.view != carrier.id) return kAnotherView;",
                  "    if (sender >= kMembers || !(carrier.set >> sender & 1)) return kSenderNotInView;"),
        exchanged("    if (sender >= kMembers || !(carrier.set >> sender & 1)) return kSenderNotInView;",
                  "    if (taken >= kOrdered) return kOrderFull;"),
        ("sender >= kMembers || !(carrier.set >> sender & 1)", "!(carrier.set >> (sender & 31) & 1)"),
        ("if (!set_fits(message.views[i].set, members)) return kSetUnfit;", ";"),
        exchanged("    if (!set_fits(set, members)) return kSetUnfit;", "    if (!(set >> own & 1)) return kNotInSet;"),
        ("put(length.at, kLengthSize, size);", "put(length.at, kLengthSize, size << 24);"),
        ("    return m_.admit();", "    return kAccepted;"),
        # one message as a packet of one; 38 behind all others
        (ARRIVED, "    size_t front = 0;\n    if (Refusal r = read_front(bytes, size, message, front)) return r;\n    return arrive(message, sender);"),
        (ARRIVED, "    size_t front = 0;\n    if (Refusal r = read_front(bytes, size, message, front)) return r;\n"
         "    if (Refusal r = ByItself(*this).arrive(message, sender)) return r;\n"
         "    return front == size ? arrive(message, sender) : kBytesLeftOver;"),
        # 13 behind the reader's; a packet of one message alone
        (CARRIED + "    Message message;\n" + FRONT, "    Message message;\n" + FRONT + CARRIED),
        (CARRIED + "    Message message;\n" + FRONT, CARRIED + "    Message message;\n    taken_bytes = size;\n" + ONE),
        gone("delivery.size != kDeliverySize || "),
        gone(" || check() == kRecordsUnsound"),
        # 6 as the call's answer; then 6, 13 and 42 of an empty packet
        (ADMITTED, "if (delivery.size != kDeliverySize) return kRecordsUnsound;\n    if (Refusal r = check()) return r;\n"),
        (STOPPED, "Refusal stopped = size > 0 || m_.own < m_.members ? kAccepted : kNoSuchMember;"),
        (STOPPED, "Refusal stopped = size > 0 || m_.has_carrier ? kAccepted : kNoCarrierView;"),
        (STOPPED, "Refusal stopped = size > 0 || !m_.has_carrier || m_.carrier.set >> (sender & 7) & 1 ? kAccepted : kSenderNotInView;"),
        # goes on behind a refused message; counts it; says 38 of what is none; ends behind 128
        (TOOK, "if (stopped != kAccepted && front > 0 && at + front < size) stopped = kAccepted, at += front;\n      else " + TOOK),
        (TOOK, "++delivered, at += front;"),
        (TOOK, TOOK + "\n      else if (delivered > 0 && front == 0) stopped = kBytesLeftOver;"),
        ("at < size && stopped == kAccepted;", "at < size && stopped == kAccepted && delivered < kOrdered;"),
        (GAVE, GAVE.replace("kAccepted", "stopped")),
        (GAVE, GAVE.replace("(stopped)", "(kAccepted)")),
        (GAVE, GAVE.replace("4, delivered", "4, delivered << 24")),
        # a packet that is stopped leaves the book as it was
        ("uint32_t delivered = 0;\n", "uint32_t delivered = 0;\n    struct Kept {\n      uint8_t *at, was[kBookSize];\n      const uint8_t* stop;\n"
         "      ~Kept() { if (*stop) memcpy(at, was, kBookSize); }\n    } kept{book_.at, {}, delivery.at + kStopped};\n    memcpy(kept.was, book_.at, kBookSize);\n"),
    ],
    "group.hpp": [
        ("at[0] * kSlotSize); }", "kWaiting * kSlotSize - kSlotSize); }"),
        ("(room() < 1 || room() > kViews || queues_.size == queues_size(room()))", "queues_.size == queues_size(room())"),
        ("made() > room()", "made() > kViews"),
        ("(i > 0 && view(i).id <= view(i - 1).id)", "(i > 0 && view(i).id < view(i - 1).id)"),
        gone("!set_fits(view(i).set, members()) || "),
        gone("if (!order(i).sound(in)) return false;"),
        ("kind == kTold ? count : get", "get"),
        ("if (e.kind() == kClient) put", "if (e.kind() != kInfo) put"),
        gone("if (e.kind() == kTold) at[kOrderCounts + i] = static_cast<uint8_t>(e.number());"),
        ("if (e.kind() == kTold) at", "if (e.kind() != kInfo) at"),
        ("e.count() * kViewSize);", "kInfoSize);"),
        ("count() > kOrdered) return false", "count() > 255) return false"),
        ("for (unsigned i = 0; i < count(); ++i)\n      if (!in.sound(entry(i)))",
         "for (unsigned i = 0; i + 1 < count(); ++i)\n      if (!in.sound(entry(i)))"),
        ("p < members(); ++p)\n        if (!waiting", "p < kMembers; ++p)\n        if (!waiting"),
        gone(" || m_.own != p"),
        ("at < made() ? order(at).count() : 0", "128"),
        ("id <= view(made() - 1).id", "id < view(made() - 1).id"),
        ("p < kMembers; ++p) waiting(made(), p)", "p < members(); ++p) waiting(made(), p)"),
        exchanged("    if (from.count() == 0) return kNoneWaiting;", "    if (to.count() == kOrdered) return kOrderFull;"),
        exchanged("    if (m_.outgoings == 0) return kNoneOutgoing;", "    Queue to = waiting(find(m_.carrier.id), p);\n"
                  "    if (to.count() == kWaiting) return kWaitingFull;"),
        exchanged("    if (!set_fits(set, members())) return kSetUnfit;",
                  "    if (id <= view(made() - 1).id) return kIdentifierNotAbove;"),
        exchanged("    if (id <= view(made() - 1).id) return kIdentifierNotAbove;",
                  "    if (made() == room()) return kListFull;"),
        exchanged("    if (!set_fits(first_set, members)) return kFirstSetUnfit;",
                  "    if (room() < 1 || room() > kViews) return kListLength;"),
        ("view(i).id != id", "view(i).id != static_cast<uint32_t>(id)"),
        ("to.push(m_.outgoing[0]);", "m_.outgoing[0].bytes[170] = 0, to.push(m_.outgoing[0]);"),
        ("event.size != kEventSize || !sound()", "event.size != kEventSize"),
        gone("steps.size == count * kStepSize && "),
        ("answers.size == count * kAnswerSize", "answers.size >= count * kAnswerSize"),
        gone("memset(answer, 0, kAnswerSize);"),
        gone("if (!paired(steps, answers)) return kRecordsUnsound;"),
        (LISTED, "if (!sound()) return kRecordsUnsound;"),
        (LISTED, "if (!paired(steps, answers)) return kRecordsUnsound;"),
        ("return sound() ? kAccepted : kRecordsUnsound;", "return lengths() ? kAccepted : kRecordsUnsound;"),
        # the marks past the room alone; with 32 views made a shift by the width
        gone(PAST + " || "),
        (PAST, PAST.replace("made()", "room()")),
        (PAST, PAST.replace("made()", "(made() % 32)")),
        gone(" || queues_.at[kQueuesLayout] != kLayout"),
        # no mark; the newest view's; that of a refused attempt
        gone(MARKED + "\n"),
        (MARKED, MARKED.replace("find(m_.carrier.id)", "(made() - 1)")),
        (MARKED, MARKED.replace("r == kAccepted", "r != kNoCarrierView")),
        gone("    put(queues_.at + kQueuesMarks, kMarksSize, 1);\n"),
        gone(", queues_.at[kQueuesLayout] = kLayout"),
    ],
    "queries.hpp": [
        gone("if (get(queues_.at + kQueuesMarks, kMarksSize) >> i & 1) "),
        ("a.id > b.id", "a.id < b.id"),
        ("unsigned i = 0; i < queues_", "unsigned i = 1; i < queues_"),
        gone("views.size % kIdentifierSize != 0 || "),
        gone("count.size != kLengthSize || "),
        ("count.size != kLengthSize || !sound()", "count.size != kLengthSize"),
        exchanged(FITS, FOUND + "\n" + PLACES),
        (FITS, FITS.replace("set_fits(set,", "set_fits(set & 255,")),
        (PLACES, PLACES.replace(">", ">=")),
        gone(PLACES + "\n"),
        exchanged(PLACES, WRITTEN),
        (PLACES + "\n" + WRITTEN + "\n" + NUMBERED, NUMBERED + "\n" + PLACES + "\n" + WRITTEN),
        (NUMBERED, NUMBERED.replace("ids.size()", "kIdentifierSize * ids.size()")),
        ("(own & other) != 0", "(own & other) == own"),
        ("majority(own, held)", "majority(held, own)"),
        ("majority(own, held)", "2 * ones(own & held) >= ones(held)"),
        gone("found.size != kFoundSize || "),
        ("found.size != kFoundSize || !sound()", "found.size != kFoundSize"),
        gone("    memset(found.at, 0, found.size);\n"),
        ("v.id >= id", "v.id > id"),
        gone("      break;\n"),
    ],
    "driver.hpp": [
        gone("count.size != kLengthSize || "),
        gone(" || Group(list_, books_, queues_).check()"),
        exchanged("    if (!is_made(id)) return kNoSuchView;", "    " + FRESH),
        exchanged("    " + FRESH, "    if (!passes_held(newest())) return kFormTestFailed;"),
        gone("newest().id != id || "),
        gone(" || joined(id)"),
        gone("member(p).has_carrier && "),
        ("if (member(p).has_carrier", "if ((newest().set >> p & 1) && member(p).has_carrier"),
        gone("if (!(v.set >> p & 1)) continue;"),
        gone("if (!majority(v.set, m.settled.set)) return false;"),
        ("i < m.opens", "i + 1 < m.opens"),
        gone("if (!passes_held(newest())) return kFormTestFailed;"),
        ("kAttempt, kRegister, kPass", "kRegister, kAttempt, kPass"),
        ("kDeliver, kCollect", "kDeliver"),
        ("p < kMembers; ++p)\n        for", "p < 7; ++p)\n        for"),
        ("kind == kDeliver ? ones(v.set) : 1", "1"),
        ("Range{books.data(), books.size()}", "books_"),
        ("Range{queues.data(), queues.size()}", "queues_"),
        (TRIED, TRIED.replace("return r;", "continue;")),
        gone("memcpy(queues_.at, queues.data(), queues.size());"),
        ("    std::vector<uint8_t> books", "    " + COUNTED + "\n    std::vector<uint8_t> books"),
        (COUNTED, COUNTED.replace("size());", "size() - 1);")),
    ],
}


def difference(library, name, old, new):
    """What the test says of the change, or None if it finds nothing."""
    shutil.rmtree(WORK, ignore_errors=True)
    for part in ("tests/outside", "tests/reference", "include"):
        shutil.copytree(ROOT / part, WORK / part)
    path = WORK / "tests/outside" / name
    text = path.read_text()
    if old not in text:
        sys.exit(f"not in {name}: {old}")
    path.write_text(text.replace(old, new, 1))
    program = WORK / "outside_test"
    source = WORK / "tests/outside/outside_test.cpp"
    subprocess.run(["c++", "-std=c++17", "-O1", "-w", "-o", program, source, library], check=True)
    run = subprocess.run([program, "short", "1"], capture_output=True, text=True, timeout=300)
    if run.returncode == 0:
        return None
    found = re.search(r"DIFFERENCE.*", run.stdout)
    return found.group(0)[:100] if found else f"status {run.returncode}"


def main(library, *numbers):
    changes = [(name, old, new) for name, pairs in CHANGES.items() for old, new in pairs]
    missed = 0
    for number in map(int, numbers) if numbers else range(len(changes)):
        name, old, new = changes[number]
        found = difference(library, name, old, new)
        missed += found is None
        print(f"{number} {name}: {found or 'NOT FOUND: ' + repr(old) + ' -> ' + repr(new)}", flush=True)
    print(f"{len(changes)} changes, {missed} not found")
    return 1 if missed else 0


if __name__ == "__main__":
    sys.exit(main(*sys.argv[1:]))
