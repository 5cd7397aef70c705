#!/usr/bin/env python3
"""Asks the record program `spheroidal`, for sheets the library, in plain words and prints tables.

    spheroidal_client.py row oblate m=0 n=4 c=2.5
    spheroidal_client.py dlmf oblate m=1 n=6 c=10
    spheroidal_client.py angular oblate m=0 n=4 c=2.5 x=-1:1:9
    spheroidal_client.py radial oblate m=0 n=2 c=1
    spheroidal_client.py radial oblate m=0 n=2 c=1 x=0:5:11 --wronskian
    spheroidal_client.py first oblate m=0 n=2 c=1 x=0:5:11
    spheroidal_client.py sheet prolate m=0 n=4 c=0:20:11 x=-1:1:64

m is the order, n the degree, c the size parameter. dlmf is the row as DLMF has it: each value less c * c
for prolate modes, plus c * c for oblate ones. x is one number or start:stop:count. radial is both oblate
radial functions, first is the first of them alone, at any finite x from zero on, with c x up to 200; x=0
is the disc, and radial takes it where x is left out. cv is the characteristic value: where it is left
out, it is taken from the mode's row. allowance is the most steps for each value of a row, from 0 to
4294967295, and 65535 if left out. A number is decimal, or 0x and the 16 digits of a double's bits.

sheet is the angular function of up to 32 c at up to 64 x, each c with the characteristic value of its own
row; c too is one number or start:stop:count. It prints a picture, a line for each c and a character for
each x, or with --numbers a table. --derivative shows the derivative in place of the value.

In a row, zero pivot says whether 1e-30 was put in for a pivot of zero while the value was bisected.
That is no error, and common at small c.

--wronskian prints beside each radial answer to how many digits its Wronskian R1 R2' - R1' R2 is the exact
one, 1/(c (x x + 1)). The four numbers may have fewer right digits than that.

Angular and radial answers are checked (docs/ACCURACY.md): where fewer than 6 digits are left or a
number is not finite, a warning is printed on the error output. The table stays as it is.

Status 1: something is refused. Status 2: the words are not understood, or the program or, for a sheet,
the library is missing. A warning does not change the status.
"""
import argparse
import ctypes
import math
import os
import re
import select
import struct
import subprocess
import sys
import time
from pathlib import Path

sys.dont_write_bytecode = True  # nothing is written beside the sources
import spheroidal_checks as checks

TARGET = Path(__file__).resolve().parent.parent / "target"
PROGRAM = TARGET / "bin" / "spheroidal"
LIBRARY = TARGET / "spheroidal" / "shared" / "libspheroidal_c.so"
OPERATIONS = {
    ("row", "prolate"): 1,
    ("row", "oblate"): 2,
    ("angular", "prolate"): 3,
    ("angular", "oblate"): 4,
    ("radial", "oblate"): 5,
    ("dlmf", "prolate"): 6,
    ("dlmf", "oblate"): 7,
    ("first", "oblate"): 8,
}
# The keys that each request needs, and those that may be left out.
NEEDED = {
    "row": "m n c",
    "dlmf": "m n c",
    "angular": "m n c x",
    "radial": "m n c",
    "first": "m n c x",
    "sheet": "m n c x",
}
OPTIONAL = {
    "row": "allowance",
    "dlmf": "allowance",
    "angular": "cv allowance",
    "radial": "cv x allowance",
    "first": "cv allowance",
    "sheet": "allowance",
}
# What the functions are called.
NAMES = {
    "angular": "angular function",
    "radial": "radial functions",
    "first": "first-kind radial function",
    "sheet": "angular function",
}
# Why an operation is refused; where it matters, a sentence for each operation.
ANGULAR_LIMIT = "(n - m)/2 + c is 175 or more"
ANGULAR_ARGUMENT = "x is not a number from -1 to 1"
RADIAL_LIMIT = "(n - m)/2 + c is 175 or more, or its whole part and m together are above 175"
RADIAL_ARGUMENT = "x is not a finite number from zero on"
REFUSALS = {
    3: "the record program does not know this operation: it may be older than this client",
    4: "m is above 199, n is below m, or n - m is above 199",
    5: "c is not a finite number from zero on",
    6: {
        "row": "(n - m)/2 + c is 291 or more",
        "dlmf": "(n - m)/2 + c is 291 or more",
        "angular": ANGULAR_LIMIT,
        "radial": RADIAL_LIMIT,
        "first": RADIAL_LIMIT,
        "sheet": ANGULAR_LIMIT,
    },
    7: "cv is not a finite number",
    8: {
        "angular": ANGULAR_ARGUMENT,
        "radial": RADIAL_ARGUMENT,
        "first": RADIAL_ARGUMENT,
        "sheet": ANGULAR_ARGUMENT,
    },
    10: "a value used up its allowance of steps",
    11: "off the disc c x is above 200, or twice the whole part of (n - m)/2 + c and m together are above 201",
    12: "a trial order of the Bessel functions is outside 1 to 100000",
    13: "a sheet has more than 32 c or 64 x, or its block is too short",
}
# How many words follow the record's number on a line.
WORDS = {"V": 5, "Z": 2, "D": 2, "A": 4, "F": 6, "G": 4, "R": 1}
# How many lines an accepted row has for each mode, by its operation.
LINES_OF_MODE = {1: 2, 2: 2, 6: 1, 7: 1}
# What two bytes hold, and what four; an allowance above the first is written in a record of the longer kind.
LARGEST_SHORT = 65535
LARGEST_ALLOWANCE = 4294967295
# Where none is given. No row is known to need more than 132 steps, and older programs read the record.
ALLOWANCE = LARGEST_SHORT
# An oblate mode whose eigenvalue is c * c; a program from before that rule answers -c * c.
PROBE = {"m": 0, "n": 0, "c": 1e-11, "allowance": 0}
# What the last word of a line Z means.
ZERO_PIVOT = {"0": "no", "1": "yes"}
MADE_BY = "The record program is made by: ./build"
LIBRARY_MADE_BY = "The library is made by: ./build"
MOST_POINTS = 10_000
SHEET_PLACES = 4096
# The characters of a picture, from the least number to the greatest, and that of no finite number.
SHADES = " .:-=+*#%@"
NO_SHADE = "?"
# What the library answers in place of an infinite derivative.
INFINITE = 1e100
LEAST_DIGITS = 6


class Misunderstood(Exception):
    """The words cannot be made into records, or the program cannot be asked."""


class Refused(Exception):
    """The program or the library refused: the number, and what was asked."""

    def __str__(self):
        number, what = self.args
        reason = REFUSALS.get(number, "the record program's reason is unknown here")
        return f"refused {number}: {reason[what] if isinstance(reason, dict) else reason}"


def older(program, said):
    return Misunderstood(f"{program} {said}: it may be older than this client\n{MADE_BY}")


def whole(word, most=LARGEST_SHORT):
    if not re.fullmatch(f"[0-9]{{1,{len(str(most))}}}", word) or int(word) > most:
        raise ValueError(f"a whole number from 0 to {most}")
    return int(word)


def number(word):
    if re.fullmatch("0[xX][0-9a-fA-F]{16}", word):
        return double(word[2:])
    try:
        if "_" not in word:
            return float(word)
    except ValueError:
        pass
    raise ValueError("a number")


def points(word):
    """One number, or those of start:stop:count, both ends exact."""
    parts = word.split(":")
    if len(parts) == 1:
        return [number(word)]
    try:
        start, stop, last = number(parts[0]), number(parts[1]), whole(parts[2]) - 1
        if len(parts) != 3 or not 1 <= last < MOST_POINTS:
            raise ValueError
    except (ValueError, IndexError):
        raise ValueError(f"a number, or start:stop:count with a count from 2 to {MOST_POINTS}") from None
    return [start + (stop - start) * at / last for at in range(last)] + [stop]


READERS = {
    "m": whole,
    "n": whole,
    "allowance": lambda word: whole(word, LARGEST_ALLOWANCE),
    "c": number,
    "cv": number,
    "x": points,
}


def fields_of(what, words):
    """The words key=value as a dictionary."""
    needed, optional = NEEDED[what].split(), OPTIONAL[what].split()
    fields = {}
    for word in words:
        key, equals, value = word.partition("=")
        if not equals or key not in needed + optional:
            takes = " ".join(f"{key}=" for key in needed + optional)
            raise Misunderstood(f"'{word}' is not understood: {what} takes {takes}")
        if key in fields:
            raise Misunderstood(f"{key} is given twice")
        try:
            reader = points if (what, key) == ("sheet", "c") else READERS[key]
            fields[key] = reader(value)
        except ValueError as error:
            raise Misunderstood(f"'{word}': {key} must be {error}") from None
    missing = " ".join(f"{key}=" for key in needed if key not in fields)
    if missing:
        raise Misunderstood(f"still needed for {what}: {missing}")
    return fields


def double(digits):
    return struct.unpack(">d", bytes.fromhex(digits))[0]


def record(operation, fields, cv=0.0, x=0.0):
    m, n, allowance = fields["m"], fields["n"], fields.get("allowance", ALLOWANCE)
    mark, form = (b"SW", "<BHHHddd") if allowance <= LARGEST_SHORT else (b"SV", "<BHHIddd")
    return mark + struct.pack(form, operation, m, n, allowance, fields["c"], cv, x)


def ask(program, records):
    """For each record its lines, split into words: the letter first, the record's number left out. A
    line V ends with the last word of its line Z."""
    try:
        done = subprocess.run([program], input=b"".join(records), stdout=subprocess.PIPE, check=True)
    except (OSError, subprocess.CalledProcessError) as error:
        raise Misunderstood(f"{error}\n{MADE_BY}") from None
    answers = [[] for _ in records]
    for line in done.stdout.splitlines():
        at, words = parsed(program, line)
        if not 0 <= at < len(records):
            raise unlike(program)
        answers[at].append(words)
    answers = [joined(program, lines) for lines in answers]
    if not all(answers):
        raise Misunderstood(f"{program} did not answer every record")
    return answers


def unlike(program):
    return Misunderstood(f"{program} does not answer as the record program does")


def parsed(program, line):
    """A line's record number, and its words without it."""
    try:
        letter, at, *rest = line.decode("ascii").split()
        if len(rest) != WORDS[letter]:
            raise ValueError
        return int(at), [letter, *rest]
    except (ValueError, LookupError):
        raise unlike(program) from None


def joined(program, lines):
    """A record's lines, each Z joined to the V before it."""
    if lines == [["R", "2"]]:
        raise older(program, f"does not know records with an allowance above {LARGEST_SHORT}")
    answer, left = [], iter(lines)
    for line in left:
        if line[0] in "VZ":
            after = next(left, [])
            if [line[0], *after[:2]] != ["V", "Z", line[1]] or after[2] not in ZERO_PIVOT:
                raise older(program, f"does not print a V and a Z line for mode {line[1]}")
            line = [*line, after[2]]
        answer.append(line)
    return answer


class Session:
    """The record program kept running and asked record by record, for programs that measure and ask in
    turn. An answer may take so many seconds."""

    def __init__(self, program=str(PROGRAM), seconds=10.0):
        self.program, self.seconds, self.asked, self.held = program, seconds, 0, b""
        try:
            self.process = subprocess.Popen(
                [program], bufsize=0, stdin=subprocess.PIPE, stdout=subprocess.PIPE
            )
        except OSError as error:
            raise Misunderstood(f"{error}\n{MADE_BY}") from None

    def ask(self, record):
        """The record's lines, as the function `ask` gives them."""
        until = time.monotonic() + self.seconds
        try:
            self.process.stdin.write(record)
        except BrokenPipeError:
            raise Misunderstood(f"{self.program} has ended") from None
        lines = [self.line(until)]
        while lines[0][0] != "R" and len(lines) < line_count(record):
            lines.append(self.line(until))
        self.asked += 1
        return joined(self.program, lines)

    def line(self, until):
        """The words of the next line, which is waited for until then."""
        while b"\n" not in self.held:
            left = max(0.0, until - time.monotonic())
            if not select.select([self.process.stdout], [], [], left)[0]:
                raise older(self.program, f"did not answer a record within {self.seconds:g} seconds")
            read = self.process.stdout.read(65536)
            if not read:
                raise Misunderstood(f"{self.program} has ended")
            self.held += read
        line, _, self.held = self.held.partition(b"\n")
        at, words = parsed(self.program, line)
        if at != self.asked:
            raise unlike(self.program)
        return words

    def close(self):
        self.process.stdin.close()
        self.process.stdout.close()
        self.process.wait()

    def __enter__(self):
        return self

    def __exit__(self, *_):
        self.close()


def line_count(record):
    """How many lines a record has where it is accepted."""
    operation, m, n = struct.unpack_from("<BHH", record, 2)
    return LINES_OF_MODE[operation] * (n - m + 1) if operation in LINES_OF_MODE else 1


def ask_row(program, what, kind, fields):
    """The lines of a row in either form."""
    operation = OPERATIONS[what, kind]
    records = [record(operation, fields)]
    if (what, kind) == ("dlmf", "oblate"):
        records.append(record(operation, PROBE))
    lines, *probes = ask(program, records)
    for [[letter, *words]] in probes:
        if letter != "D" or double(words[-1]) <= 0:
            raise older(program, "does not add c * c to oblate values, as DLMF's form asks")
    if lines[0][0] == "R":
        raise Refused(int(lines[0][1]), what)
    return lines


def say(sentence):
    """On the error output, after what was printed so far."""
    sys.stdout.flush()
    print(f"{Path(sys.argv[0]).name}: {sentence}", file=sys.stderr)


def coefficients(path, kind, fields, cv):
    """The mode's expansion coefficients, or None where the library is not there."""
    try:
        library = ctypes.CDLL(os.path.abspath(path))
        return checks.coefficients(library, kind, fields["m"], fields["n"], fields["c"], cv)
    except (OSError, AttributeError):
        say(f"the recurrence was not checked: {path} cannot be loaded (./build makes the library)")
        return None


def sheet_of(path, kind, fields):
    """The library, and the sheet by it: for each c its pairs, at each x."""
    try:
        library = ctypes.CDLL(os.path.abspath(path))
        call = getattr(library, f"spheroidal_{kind}_sheet")
    except OSError:
        raise Misunderstood(f"sheets need the library, and {path} cannot be loaded\n{LIBRARY_MADE_BY}") from None
    except AttributeError:
        raise Misunderstood(f"{path} has no sheets: it may be older than this client\n{LIBRARY_MADE_BY}") from None
    lists = fields["c"], fields["x"], [0.0] * SHEET_PLACES
    lent = [(ctypes.c_double * len(numbers))(*numbers) for numbers in lists]
    call.restype = ctypes.c_uint8
    call.argtypes = [ctypes.c_uint16] * 2 + [ctypes.c_uint32] + [ctypes.c_void_p, ctypes.c_size_t] * 3
    words = [word for numbers in lent for word in (numbers, len(numbers))]
    refusal = call(fields["m"], fields["n"], fields.get("allowance", ALLOWANCE), *words)
    if refusal:
        raise Refused(refusal, "sheet")
    places = iter(lent[2])
    return library, [[(next(places), next(places)) for _ in fields["x"]] for _ in fields["c"]]


def sheet_errors(library, kind, fields, sheet):
    """Pairs of c and x, and the error that is expected there."""
    m, n, xs = fields["m"], fields["n"], fields["x"]
    for c, pairs in zip(fields["c"], sheet):
        cv = checks.characteristic_value(library, kind, m, n, c)
        d = checks.coefficients(library, kind, m, n, c, cv)
        errors = checks.angular_errors(kind, m, n, c, cv, d, xs, pairs)
        yield from (((c, x), error) for x, error in zip(xs, errors))


def errors_of(program, what, kind, fields, cv, d, answers):
    """Pairs of x and the error that is expected there, by all the checks that can be made."""
    m, n, c = fields["m"], fields["n"], fields["c"]
    xs, numbers = zip(*answers)
    if what == "radial":
        [[words]] = ask(program, [record(OPERATIONS[what, kind], fields, cv)])
        disc = [double(digits) for digits in words[3:]]
        return [(x, checks.radial_error(m, n, c, cv, d, x, four, disc)) for x, four in answers]
    if what == "first":
        if d:
            return [(x, checks.first_kind_error(m, n, c, cv, d, x, pair)) for x, pair in answers]
        return [(x, checks.first_kind_cancellation(m, x, pair)) for x, pair in answers]
    if d:
        return list(zip(xs, checks.angular_errors(kind, m, n, c, cv, d, xs, numbers)))
    [[words]] = ask(program, [record(OPERATIONS[what, kind], fields, cv)])
    return [(0.0, checks.error_at_zero(m, n, [double(digits) for digits in words[3:]]))]


def warn(answers, errors, places="x"):
    """Says where numbers are not finite and where few digits are left; a place is an x, or c and x."""
    broken = {x for x, numbers in answers if not all(map(math.isfinite, numbers))}
    if broken:
        say(f"warning: NaN or infinity at {len(broken)} of {len(answers)} {places} (docs/ACCURACY.md)")
    few = [(checks.digits(error), x) for x, error in errors if x not in broken]
    few = [(digits, x) for digits, x in few if digits < LEAST_DIGITS]
    if few:
        digits, x = min(few)
        where = "c = {!r}, x = {!r}".format(*x) if isinstance(x, tuple) else f"x = {x!r}"
        if len(errors) > 1:
            where = f"{len(few)} of {len(errors)} {places}, the fewest at {where}"
        left = f"about {digits}" if digits else "none"
        say(f"warning: fewer than {LEAST_DIGITS} digits are right at {where}: {left} (docs/ACCURACY.md)")


def print_table(heads, rows):
    widths = [max(map(len, column)) for column in zip(heads, *rows)]
    for row in [heads, *rows]:
        print("  ".join(word.rjust(width) for word, width in zip(row, widths)))


def is_shown(number):
    return math.isfinite(number) and abs(number) != INFINITE


def print_picture(cs, grid, show):
    """A line for each c with a character for each x, and what the characters mean."""
    shown = [number for line in grid for number in line if is_shown(number)]
    least, greatest = min(shown, default=0.0), max(shown, default=0.0)
    span = greatest / 2 - least / 2  # halves, as the whole may be too large for a double

    def shade(number):
        if not is_shown(number):
            return NO_SHADE
        share = (number / 2 - least / 2) / span if span else 0.0
        return SHADES[min(int(share * len(SHADES)), len(SHADES) - 1)]

    labels = [f"{c:.6g}" for c in cs]
    for label, line in zip(labels, grid):
        print(f"{label.rjust(max(map(len, labels)))} |{''.join(map(shade, line))}|")
    if shown:
        print(f"|{SHADES}| from the least, {show(least)}, to the greatest, {show(greatest)}")
    if len(shown) < sum(map(len, grid)):
        print(f"{NO_SHADE} is NaN, infinity, or the 1e100 that is answered for it")


def plotter():
    """The plotting library, asked for before anything is computed."""
    try:
        import matplotlib

        matplotlib.use("Agg")
        import matplotlib.pyplot
    except ImportError:
        raise Misunderstood("--plot needs matplotlib, which is not installed; the table does without") from None
    return matplotlib.pyplot


def plot(pyplot, path, title, xs, curves):
    """Curves are pairs of a name and values. Of two, the second may be far larger: it is drawn on a scale
    that is linear as far as the first goes, and logarithmic beyond."""
    figure, axes = pyplot.subplots()
    for name, values in curves:
        axes.plot(xs, values, label=name)
    axes.set(title=title, xlabel="x", ylabel="value")
    axes.grid(True)
    if len(curves) > 1:
        sizes = [abs(value) for value in curves[0][1] if math.isfinite(value) and value]
        axes.set_yscale("symlog", linthresh=max(sizes, default=1.0))
        axes.legend()
    save(figure, path)


def plot_sheet(pyplot, path, title, fields, grid):
    figure, axes = pyplot.subplots()
    shown = [[number if is_shown(number) else math.nan for number in line] for line in grid]
    figure.colorbar(axes.pcolormesh(fields["x"], fields["c"], shown, shading="nearest"))
    axes.set(title=title, xlabel="x", ylabel="c")
    save(figure, path)


def save(figure, path):
    try:
        figure.savefig(path)
    except (OSError, ValueError) as error:
        raise Misunderstood(f"the plot is not written: {error}") from None
    print(f"plot written to {path}")


def run_sheet(options, path, fields, pyplot, show):
    kind, cs, xs = options.kind, fields["c"], fields["x"]
    library, sheet = sheet_of(path, kind, fields)
    title = f"{kind.capitalize()} {NAMES['sheet']} of mode {fields['n']} with m = {fields['m']}"
    answers = [((c, x), pair) for c, pairs in zip(cs, sheet) for x, pair in zip(xs, pairs)]
    grid = [[pair[options.derivative] for pair in pairs] for pairs in sheet]
    if options.numbers:
        print(title)
        print_table(["c", "x", "value", "derivative"], [[*map(show, place + pair)] for place, pair in answers])
    else:
        name = "derivative" if options.derivative else "value"
        print(f"{title}: the {name}, c downwards, x from {show(xs[0])} to {show(xs[-1])}")
        print_picture(cs, grid, show)
    warn(answers, list(sheet_errors(library, kind, fields, sheet)), "pairs of c and x")
    if pyplot:
        plot_sheet(pyplot, options.plot, title, fields, grid)


def run(options):
    what, kind = options.what, options.kind
    if kind == "prolate" and what in ("radial", "first"):
        raise Misunderstood(f"there are no {kind} radial functions here, only oblate ones")
    fields = fields_of(what, options.words)
    ranges = [fields.get("x", [])] + ([fields["c"]] if what == "sheet" else [])
    if options.plot and min(map(len, ranges)) < 2:
        if what == "sheet":
            raise Misunderstood("--plot of a sheet is for c=start:stop:count and x=start:stop:count")
        raise Misunderstood("--plot is for angular, radial and first with x=start:stop:count")
    if options.wronskian and what != "radial":
        raise Misunderstood("--wronskian is for radial")
    if (options.numbers or options.derivative) and what != "sheet":
        raise Misunderstood("--numbers and --derivative are for sheet")
    pyplot = plotter() if options.plot else None
    program = options.program or os.environ.get("SPHEROIDAL") or str(PROGRAM)
    library = options.library or os.environ.get("SPHEROIDAL_LIBRARY") or str(LIBRARY)

    def show(digits):
        return digits if options.bits else repr(double(digits))

    if what == "sheet":
        run_sheet(options, library, fields, pyplot, lambda number: show(struct.pack(">d", number).hex()))
        return
    mode = f"m = {fields['m']}, c = {fields['c']!r}"
    if what in ("row", "dlmf"):
        lines = ask_row(program, what, kind, fields)
        form = ", in DLMF's form" if what == "dlmf" else ""
        print(f"{kind.capitalize()} modes {fields['m']} to {fields['n']} with {mode}{form}")
        if what == "dlmf":
            print_table(["mode", "value"], [[at, show(value)] for _, at, value in lines])
        else:
            rows = [
                [at, show(value), steps, show(lower), show(upper), ZERO_PIVOT[flag]]
                for _, at, steps, value, lower, upper, flag in lines
            ]
            print_table(["mode", "value", "steps", "lower", "upper", "zero pivot"], rows)
        return

    cv = fields.get("cv")
    if cv is None:
        cv = double(ask_row(program, "row", kind, fields)[-1][3])
    xs = fields.get("x", [0.0])
    answers = ask(program, [record(OPERATIONS[what, kind], fields, cv, x) for x in xs])
    title = f"{kind.capitalize()} {NAMES[what]} of mode {fields['n']} with {mode}"
    heads = ["x", "value", "derivative"]
    if what == "radial":
        heads = ["x", "first kind", "derivative", "second kind", "derivative"]
    if options.wronskian:
        heads.append("Wronskian's digits")
    rows, refused, accepted = [], [], []
    for x, [[letter, *words]] in zip(xs, answers):
        if letter == "R":
            if what == "radial" and words == ["8"] and 0 < x < math.inf:
                raise older(program, "refuses both radial functions off the disc, where x is above zero")
            refused.append(int(words[0]))
            words = [f"refused {words[0]}"] * (len(heads) - 1)
        else:
            numbers = [double(digits) for digits in words[2:]]
            accepted.append((x, numbers))
            words = [show(digits) for digits in words[2:]]
            if options.wronskian:
                words.append(str(checks.digits(checks.wronskian_error(fields["c"], x, numbers))))
        rows.append([show(struct.pack(">d", x).hex()), *words])
    if accepted:
        print(f"{title}, cv = {show(struct.pack('>d', cv).hex())}")
        print_table(heads, rows)
        d = coefficients(library, kind, fields, cv)
        warn(accepted, errors_of(program, what, kind, fields, cv, d, accepted))
    if refused:
        raise Refused(refused[0], what)
    if pyplot:
        places = {"first kind": 0, "second kind": 2} if what == "radial" else {"value": 0}
        curves = [(name, [numbers[at] for _, numbers in accepted]) for name, at in places.items()]
        plot(pyplot, options.plot, title, xs, curves)


def main():
    parser = argparse.ArgumentParser(description=__doc__, formatter_class=argparse.RawDescriptionHelpFormatter)
    parser.add_argument("what", choices=list(NEEDED))
    parser.add_argument("kind", choices=["prolate", "oblate"])
    parser.add_argument("words", nargs="*", metavar="key=value")
    parser.add_argument("--bits", action="store_true", help="print doubles as the 16 digits of their bits")
    parser.add_argument("--plot", metavar="FILE", help="plot angular or radial functions or a sheet (needs matplotlib)")
    parser.add_argument("--wronskian", action="store_true", help="print the Wronskian's digits beside radial answers")
    parser.add_argument("--numbers", action="store_true", help="print a sheet as a table, values and derivatives")
    parser.add_argument("--derivative", action="store_true", help="show a sheet's derivative in place of its value")
    parser.add_argument("--program", help="the record program; by default SPHEROIDAL or target/bin/spheroidal")
    parser.add_argument("--library", help="the library; by default SPHEROIDAL_LIBRARY or what ./build makes")
    try:
        try:
            run(parser.parse_intermixed_args())
        finally:
            sys.stdout.flush()
    except Misunderstood as error:
        say(error)
        return 2
    except Refused as error:
        say(error)
        return 1
    except BrokenPipeError:
        # the reader has gone, as with | head; nothing is left to be printed
        os.dup2(os.open(os.devnull, os.O_WRONLY), sys.stdout.fileno())
    return 0


if __name__ == "__main__":
    sys.exit(main())
