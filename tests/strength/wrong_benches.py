#!/usr/bin/env python3
"""How much the tests of the bench see: one fault after another is put into its sources. The prover must refuse it, or the stored scripts, the
lines sent one at a time or the reads and writes that fail must show it. The prover refuses the faults of `showing` by itself; of what the bench
reads and writes it knows nothing.

    python3 tests/strength/wrong_benches.py
"""
import pathlib
import shutil
import subprocess
import sys

ROOT = pathlib.Path(__file__).resolve().parents[2]
WORK = ROOT / "target" / "wrong-benches"
BENCH = WORK / "target" / "bin" / "bench"
TESTS = {
    "stored scripts": ["tests/reference/compare.py", "corpus", "tests/scripts"],
    "lines one at a time": ["tests/scripts/bench_waits.py"],
    "failing reads and writes": ["tests/scripts/bench_fails.py"],
}

UNSHOWN = "    if !h.shown {\n        return;\n    }\n"
LAST = "let h = bench_session::showing::hear_next(list, all, queues, bench, line);"
SENT = "let sent = crate::pieces::send(rt, out, filled);"

# For each file what is wrong, what stands there, and what is put in its place: it stands there once.
FAULTS = {
    "bench/src/main.rt": [
        ("each piece of the input has a first line", "let mut bench = before;",
         "let mut bench = Bench { running: before.running, output: bench_session::showing::Output::Undecided };"),
        ("each piece of the input begins without a group", "bench = t.bench;",
         "bench = Bench { running: false, output: t.bench.output };"),
        ("a last line without its byte 10 is the first", LAST, LAST.replace("bench,", "bench_session::showing::idle(),")),
        ("a last line without its byte 10 is always answered", UNSHOWN, ""),
        ("a last line without its byte 10 is never answered", UNSHOWN, UNSHOWN.replace("!h.shown", "h.shown || !h.shown")),
        ("every reply is shown", "if h.shown {\n            let said", "if h.shown || !h.shown {\n            let said"),
        ("replies wait until there are some", SENT, "let sent = if filled > 64 { crate::pieces::send(rt, out, filled) } else { true };"),
        ("replies before an unshown last line are lost", "bench = h.bench;",
         "bench = h.bench; if end + 1 == input.len() && !h.shown { return Turn { bench, at: end + 1, failed: false }; }"),
        ("a failed write goes on", "failed: !sent,", "failed: sent && !sent,"),
    ],
    "bench_session/src/showing.rt": [
        ("`all` counts wherever it stands", "                Output::Quiet\n", "                Output::Undecided\n"),
        ("`all` gets a reply", "Output::Undecided => reply.is_ok(),", "Output::Undecided => true,"),
        ("`all` lasts for one line", "Output::All => Output::All,", "Output::All => Output::Quiet,"),
        ("`all` ends with the first group", "output: decided_by(bench.output, line),",
         "output: if a.running && !bench.running { Output::Quiet } else { decided_by(bench.output, line) },"),
        ("refusals are always shown", "Output::Quiet => reply.is_ok(),", "Output::Quiet => true,"),
        ("refusals are never shown", "shows(bench.output, a.reply)", "shows(Output::Quiet, a.reply)"),
        ("accepted lines are not shown", "        Output::Undecided => reply.is_ok(),\n        Output::Quiet => reply.is_ok(),",
         "        Output::Undecided => false,\n        Output::Quiet => false,"),
    ],
    "bench_lines/src/lines.rt": [
        ("`all` with a byte 13", 'words::is(line, b"all")', 'words::is(line, b"all") || words::is(line, b"all\\r")'),
        ("`all` in capitals", 'words::is(line, b"all")', 'words::is(line, b"all") || words::is(line, b"ALL")'),
        ("a line that begins with `all`", 'words::is(line, b"all")', 'line.len() >= 3 && words::is(&line[..3], b"all")'),
    ],
}


def noticed():
    """What sees a fault in the bench that stands in WORK: the prover, or else tests of what is built."""
    proved = subprocess.run([WORK / ".ci" / "prove", "program", "bench"], stdin=subprocess.DEVNULL, stdout=subprocess.PIPE, stderr=subprocess.STDOUT, text=True)
    if proved.returncode and "logic=not-proved" in proved.stdout:
        return ["the prover"]
    if proved.returncode:
        sys.exit("the bench was not built, and the prover did not refuse it:\n" + proved.stdout)
    return [name for name, words in TESTS.items()
            if subprocess.run([sys.executable, *words, str(BENCH)], cwd=ROOT, stdout=subprocess.DEVNULL, stderr=subprocess.DEVNULL).returncode]


def with_fault(file, old, new):
    path = WORK / "crates" / file
    text = path.read_text()
    if text.count(old) != 1:
        sys.exit(f"{file}: {old!r} stands there {text.count(old)} times")
    path.write_text(text.replace(old, new))
    seen = noticed()
    path.write_text(text)
    return seen


def main():
    shutil.rmtree(WORK, ignore_errors=True)
    for name in "crates", ".ci":
        shutil.copytree(ROOT / name, WORK / name, ignore=shutil.ignore_patterns("out"))
    subprocess.run(["git", "init", "-q"], cwd=WORK, check=True)
    for name in "crates.txt", ".rattle-version":
        shutil.copy(ROOT / name, WORK)
    if noticed():
        sys.exit("a fault is seen where there is none")
    missed = 0
    for file, faults in FAULTS.items():
        for what, old, new in faults:
            seen = with_fault(file, old, new)
            print(f"{what}: {', '.join(seen) if seen else 'NOT NOTICED'}", flush=True)
            missed += not seen
    return missed == 0


if __name__ == "__main__":
    sys.exit(0 if main() else 1)
