#!/usr/bin/env python3
"""Keeps the record program running over pipes and holds what it prints, and when, against the oracle's lines.

Usage: tests/interface/coprocess.py PROGRAM ORACLE LATE. LATE answers when its input has ended, as older
programs do. A group of checks ends with its first failure. The last line reads 'N passed, M failed'. Status 1:
something differs.
"""
import random
import select
import subprocess
import sys
import time
from pathlib import Path

sys.dont_write_bytecode = True
sys.path.insert(0, str(Path(__file__).resolve().parents[2] / "examples"))
from spheroidal_client import Misunderstood, Session, ask, record

LIMIT = 10.0  # seconds that an answer may take
PAUSE = 0.02  # seconds in which nothing may come
SHORT_ALLOWANCES = (0, 60, 1000, 65535)
ALLOWANCES = (*SHORT_ALLOWANCES, 65536, 65593, 2**31, 2**32 - 1)
MARKS = (b"SX", b"WS", b"VS", b"SS", b"VW", b"WV", b"sw", b"\0\0", b"\xff\xff", b"TW", b"\0S")


class Running:
    """The program over pipes, in bytes."""

    def __init__(self, program):
        self.process = subprocess.Popen([program], bufsize=0, stdin=subprocess.PIPE, stdout=subprocess.PIPE)
        self.write = self.process.stdin.write

    def came(self, seconds):
        return bool(select.select([self.process.stdout], [], [], max(0.0, seconds))[0])

    def printed(self, expected):
        """Whether just these bytes come in time."""
        until, read = time.monotonic() + LIMIT, b""
        while len(read) < len(expected) and self.came(until - time.monotonic()):
            more = self.process.stdout.read(len(expected) - len(read))
            if not more:
                break
            read += more
        return read == expected

    def silent(self):
        return not self.came(PAUSE)

    def ended(self):
        """Whether the program ends in time, with status 0 and no further line."""
        try:
            return self.process.wait(LIMIT) == 0 and self.process.stdout.read() == b""
        except subprocess.TimeoutExpired:
            return False

    def __enter__(self):
        return self

    def __exit__(self, *_):
        self.process.stdin.close()
        self.process.stdout.close()
        self.process.kill()
        self.process.wait()


def longer(short):
    """The same record of 35 bytes."""
    return b"SV" + short[2:9] + b"\0\0" + short[9:] if short[:2] == b"SW" else short


def row(m, n, allowance=65535):
    return record(2, {"m": m, "n": n, "c": 2.5, "allowance": allowance})


REFUSED = row(200, 200)
KINDS = (row(0, 2), longer(row(0, 2)), row(0, 2, 2**32 - 1))


def drawn():
    """Records of all operations, two that there are not among them, each of either kind, which alternate."""
    draw = random.Random(6)
    for number in range(200):
        is_long = (number + number // 10) % 2
        m = draw.choice((0, 0, 1, 2, 3, 5, 7, 200))
        c = draw.choice((0.0, 1e-5, -1.0, *(draw.uniform(0, 12) for _ in range(5))))
        allowance = draw.choice(ALLOWANCES if is_long else SHORT_ALLOWANCES)
        fields = {"m": m, "n": m + draw.randrange(9), "c": c, "allowance": allowance}
        made = record(number % 10, fields, draw.uniform(-5, 60), draw.uniform(-0.1, 1.05))
        yield longer(made) if is_long else made
    yield from (row(0, 199), longer(row(0, 199)), row(0, 199, 65536))


def lines_of(oracle, records):
    """Each record's lines as the oracle prints them."""
    printed = subprocess.run([oracle], input=b"".join(records), stdout=subprocess.PIPE, check=True).stdout
    answers = [b""] * len(records)
    for line in printed.splitlines(keepends=True):
        answers[int(line.split()[1])] += line
    return answers


def refusal(number, reason):
    return b"R %d %d\n" % (number, reason)


def one_by_one(program, oracle):
    records = list(drawn())
    with Running(program) as running:
        for number, (asked, lines) in enumerate(zip(records, lines_of(oracle, records))):
            running.write(asked)
            yield running.printed(lines), f"the lines of record {number}, {asked.hex()}"
        yield running.silent(), "further lines"
        running.process.stdin.close()
        yield running.ended(), "the end"


def session(program, oracle):
    records = list(drawn())
    with Session(program) as running:
        for number, (asked, lines) in enumerate(zip(records, ask(oracle, records))):
            yield running.ask(asked) == lines, f"the lines of record {number}, {asked.hex()}"


def fails(call, words):
    """Whether the call is given up with these words."""
    try:
        call()
    except Misunderstood as error:
        return words in str(error)
    return False


def session_given_up(program, late):
    with Session(program) as running:
        yield fails(lambda: running.ask(b"SX"), "older than this client"), "an unknown mark"
        yield fails(lambda: running.ask(REFUSED), "has ended"), "a record after the program's end"
    with Session(late, 0.2) as running:
        yield fails(lambda: running.ask(REFUSED), "within 0.2 seconds: it may be older"), "a late answer"
    yield fails(lambda: Session("no-such-program"), "made by: ./build"), "no program"


def cuts():
    """Each kind of record with every length at which it can be cut."""
    return [(kind, at) for kind in KINDS for at in range(1, len(kind))]


def cut_anywhere(program, oracle):
    """A record's beginning alone, and behind two whole ones: these are answered, and it once its rest has come."""
    records = [asked for kind, _ in cuts() for asked in (kind, *KINDS[:2], kind)]
    lines = iter(lines_of(oracle, records))
    with Running(program) as running:
        for kind, at in cuts():
            for before in (b"", b"".join(KINDS[:2])):
                what = f"cut {kind[:2].hex()} after {at} bytes, behind {len(before)}"
                running.write(before + kind[:at])
                if before:
                    yield running.printed(next(lines) + next(lines)), f"{what}: the lines of the records before"
                yield running.silent(), f"{what}: lines of the first part"
                running.write(kind[at:])
                yield running.printed(next(lines)), f"{what}: the lines of the whole"


def byte_by_byte(program, oracle):
    lines = lines_of(oracle, KINDS)
    with Running(program) as running:
        for asked, expected in zip(KINDS, lines):
            for byte in asked:
                yield running.silent(), "lines of a part"
                running.write(bytes([byte]))
            yield running.printed(expected), "the lines of a record written byte by byte"


def many_at_once(program):
    """More than the program's buffer holds, and half a record of the other kind, in one write; the lines fit the
    pipe."""
    for asked, after in ((REFUSED, longer(REFUSED)), (longer(REFUSED), REFUSED)):
        with Running(program) as running:
            running.write(asked * 2000 + after[:17])
            lines = b"".join(refusal(number, 4) for number in range(2000))
            yield running.printed(lines), "the lines of 2000 records"
            yield running.silent(), "lines of half a record"
            running.write(after[17:])
            yield running.printed(refusal(2000, 4)), "the line of the record after them"


def before_the_end(oracle):
    """Whole records to stand before what ends a stream, with their number and lines."""
    for records in ((), KINDS[:2]):
        yield b"".join(records), len(records), b"".join(lines_of(oracle, records))


def wrong_marks(program, oracle):
    """Two bytes are enough to be refused, and the pipe stays open."""
    for before, number, lines in before_the_end(oracle):
        for mark in MARKS:
            what = f"mark {mark.hex()} after {number} records"
            for rest in (b"", bytes(30)):
                with Running(program) as running:
                    running.write(before + mark + rest)
                    yield running.printed(lines + refusal(number, 2)), f"{what}, {len(rest)} bytes behind: the lines"
                    yield running.ended(), f"{what}, {len(rest)} bytes behind: the end"
            with Running(program) as running:
                running.write(before + mark[:1])
                yield running.printed(lines) and running.silent(), f"{what}: lines after its first byte"
                running.write(mark[1:])
                yield running.printed(refusal(number, 2)) and running.ended(), f"{what} in two parts"


def closed(program, oracle):
    """The input ends: between two records, inside one, or after the first byte of no mark."""
    for before, number, lines in before_the_end(oracle):
        for part in (b"", b"X", *(kind[:at] for kind, at in cuts())):
            what = f"closed after {number} records and {part.hex() or 'nothing'}"
            with Running(program) as running:
                running.write(before + part)
                yield running.printed(lines) and running.silent(), f"{what}: the lines before"
                running.process.stdin.close()
                yield running.printed(refusal(number, 1) if part else b""), f"{what}: the refusal"
                yield running.ended(), f"{what}: the end"


def main(program, oracle, late):
    groups = {
        "records one by one": one_by_one(program, oracle),
        "the client's session": session(program, oracle),
        "a session given up": session_given_up(program, late),
        "records cut anywhere": cut_anywhere(program, oracle),
        "records byte by byte": byte_by_byte(program, oracle),
        "many records at once": many_at_once(program),
        "wrong marks": wrong_marks(program, oracle),
        "closed inputs": closed(program, oracle),
    }
    passed = failed = 0
    for name, checks in groups.items():
        try:
            for right, what in checks:
                if not right:
                    raise Misunderstood(what)
                passed += 1
        except (Misunderstood, BrokenPipeError) as error:
            failed += 1
            print(f"{name}: {error}")
    print(f"{passed} passed, {failed} failed")
    return 1 if failed else 0


if __name__ == "__main__":
    sys.exit(main(*sys.argv[1:]))
