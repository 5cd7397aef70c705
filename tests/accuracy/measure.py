"""Prints the tables of docs/ACCURACY.md: right digits of characteristic values, coefficients, angular
functions and radial functions on the disc and off it, all from the record program and the library,
against the high-precision reference; and how often the checks for callers err. SPHEROIDAL and
SPHEROIDAL_LIBRARY name another program and library, as for the client.
"""
import ctypes
import math
import os
import random
import sys
from dataclasses import dataclass
from decimal import Decimal
from pathlib import Path

from reference import Mode, dlmf_eigenvalue

REPOSITORY = Path(__file__).resolve().parents[2]
sys.path.insert(0, str(REPOSITORY / "examples"))
import spheroidal_checks as checks
import spheroidal_client as client

KINDS = ("prolate", "oblate")
PARAMETERS = (1e-8, 1e-7, 1e-6, 1e-5, 1e-3, 0.1, 1.0, 2.0, 5.0, 10.0, 20.0, 40.0, 80.0, 120.0)
ORDERS = (0, 1, 2, 3, 5, 8, 12, 20, 30, 50, 80, 120)
OFFSETS = (0, 1, 2, 3, 5, 10, 15, 20, 25, 30, 40, 60)
# What the tables call small.
SMALL_OFFSET, SMALL_ORDER = 10, 5
ARGUMENTS = (0.0, 0.1, 0.3, 0.5, 0.7, 0.9, 0.99)
# Of the first kind off the disc, and from where on near the disc is left.
OFF_DISC = (1e-8, 1e-6, 1e-4, 1e-3, 0.01, 0.1, 0.3, 1.0, 3.0, 10.0, 50.0)
AWAY = 0.1
# Of the second kind off the disc.
SECOND_PARAMETERS = (1e-4, 1e-3, 0.01, 0.1, 1.0, 2.0, 5.0, 10.0, 20.0, 40.0, 80.0, 100.0)
SECOND_ORDERS, SECOND_OFFSETS = (0, 1, 2, 3, 5, 8, 12), (*range(11), 15, 20, 25, 30)
SECOND_OFF_DISC = (1e-9, 1e-6, 1e-3, 0.1, 0.3, 0.5, 0.7, 1.0, 1.5, 2.0, 3.0, 5.0, 10.0, 50.0, 1000.0)
# Digits in which two ways of the reference must agree.
LEAST_AGREEMENT = 40
ENOUGH = client.LEAST_DIGITS
PROGRAM = os.environ.get("SPHEROIDAL") or str(client.PROGRAM)
LIBRARY = ctypes.CDLL(os.environ.get("SPHEROIDAL_LIBRARY") or str(client.LIBRARY))


@dataclass
class Answer:
    """What the program and the library answer for a mode, with the row's own value."""

    kind: str
    m: int
    n: int
    c: float
    value: float
    lower: float
    upper: float
    d: list = None
    pairs: list = None
    four: list = None

    def truth(self):
        return Mode(self.kind, self.m, self.n, self.c, self.value)


# ---- asking


def doubles(lines):
    """The doubles of a pair's or a quadruple's line, or None for a refusal."""
    [[letter, *words]] = lines
    return None if letter == "R" else [client.double(word) for word in words[2:]]


def answers_of(modes):
    """The answers for modes (kind, m, n, c), in this order; those whose coefficients are refused are
    left out."""
    lasts = {}
    for kind, m, n, c in modes:
        lasts[kind, m, c] = max(n, lasts.get((kind, m, c), m))
    records = [record("row", kind, m, n, c) for (kind, m, c), n in lasts.items()]
    rows = dict(zip(lasts, client.ask(PROGRAM, records)))
    answers = []
    for kind, m, n, c in modes:
        value, lower, upper = map(client.double, rows[kind, m, c][n - m][3:6])
        d = checks.coefficients(LIBRARY, kind, m, n, c, value)
        if d:
            answers.append(Answer(kind, m, n, c, value, lower, upper, d))
    asked = [record("angular", a.kind, a.m, a.n, a.c, a.value, x) for a in answers for x in ARGUMENTS]
    pairs = list(map(doubles, client.ask(PROGRAM, asked)))
    asked = [record("radial", "oblate", a.m, a.n, a.c, a.value) for a in answers]
    fours = map(doubles, client.ask(PROGRAM, asked))
    for i, (answer, four) in enumerate(zip(answers, fours)):
        answer.pairs = pairs[i * len(ARGUMENTS) : (i + 1) * len(ARGUMENTS)]
        answer.four = four if answer.kind == "oblate" else None
    return answers


def first_kinds(answers, arguments=OFF_DISC, what="first"):
    """The pairs of the first kind of each oblate answer, None where one is refused."""
    asked = [record(what, "oblate", a.m, a.n, a.c, a.value, x) for a in answers for x in arguments]
    found = iter(map(doubles, client.ask(PROGRAM, asked)) if asked else [])
    return [[next(found) for _ in arguments] for _ in answers]


def both_kinds(answers, arguments):
    """The four numbers of both kinds of each oblate answer, None where they are refused."""
    return first_kinds(answers, arguments, "radial")


def record(what, kind, m, n, c, cv=0.0, x=0.0):
    return client.record(client.OPERATIONS[what, kind], {"m": m, "n": n, "c": c}, cv, x)


# ---- measuring: right digits, from 0 to 16


def digits(error):
    return 16.0 if not error else min(16.0, max(0.0, -float(Decimal(error).log10())))


def relative(found, true):
    return digits(abs(Decimal(found) / true - 1)) if math.isfinite(found) else 0.0


def coefficient_digits(answer, truth):
    """Of the function that the coefficients expand, in the mean over x."""
    if not all(map(math.isfinite, answer.d)):
        return 0.0
    off = sum(w * (Decimal(v) - d) ** 2 for w, v, d in zip(truth.weight, answer.d, truth.d))
    return digits((off / sum(w * d * d for w, d in zip(truth.weight, truth.d))).sqrt())


def angular_digits(answer, truth):
    """At each x, of value and derivative, against the function's size around x."""
    found = []
    for x, (value, slope) in zip(map(Decimal, ARGUMENTS), answer.pairs):
        if not math.isfinite(value) or not math.isfinite(slope):
            found.append(0.0)
            continue
        true, true_slope = truth.angular(x)
        unit = (1 - x * x).sqrt() / (truth.n + 1 + Decimal(truth.c))
        size = (true**2 + (unit * true_slope) ** 2).sqrt()
        off = max(abs(Decimal(value) - true), unit * abs(Decimal(slope) - true_slope))
        found.append(digits(off / size))
    return found


def disc_digits(answer, truth):
    """The least of the three numbers that are not zero."""
    odd = truth.parity
    first, (value, slope) = truth.first_on_disc(), truth.second_on_disc()
    pairs = [(answer.four[odd], first), (answer.four[2], value), (answer.four[3], slope)]
    return min(relative(found, true) for found, true in pairs)


def first_kind_digits(truth, x, pair):
    return pair_digits(truth, x, pair, truth.first_off_disc(Decimal(x)))


def second_kind_digits(truth, arguments, fours):
    """For each argument of the second kind, where the four numbers are not refused."""
    accepted = [Decimal(x) for x, four in zip(arguments, fours) if four]
    pairs = iter(truth.second_off_disc(accepted))
    return [pair_digits(truth, x, four[2:], next(pairs)) if four else None for x, four in zip(arguments, fours)]


def pair_digits(truth, x, pair, true):
    """Of value and of derivative, each against itself; where the function oscillates and passes through
    zero, against its amplitude. What is below the least normal double is right where the answer is too."""
    m, x = truth.m, Decimal(x)
    square = ((Decimal(truth.c) * x) ** 2 - truth.value + m * m / (1 + x * x)) / (1 + x * x)
    sizes = list(map(abs, true))
    if square > 0:
        wave = square.sqrt()
        amplitude = min(1, wave * x) * (true[0] ** 2 + true[1] ** 2 / square).sqrt()
        sizes = [max(sizes[0], amplitude), max(sizes[1], wave * amplitude)]
    found = []
    for answer, right, size in zip(pair, true, sizes):
        if math.isfinite(answer) and max(abs(answer), abs(right)) >= sys.float_info.min:
            found.append(digits(abs(Decimal(answer) - right) / size))
        else:
            found.append(16.0 if math.isfinite(answer) else 0.0)
    return found


def wronskian_digits(answer):
    return finite_digits(checks.wronskian_error(answer.c, 0.0, answer.four))


def finite_digits(error):
    return digits(error) if math.isfinite(error) else 0.0


# ---- tables


def print_tables(measured, parameters):
    """Least and median digits by c and m, then by c and n - m; `measured` has digits by mode."""
    by_order = lambda c, m: [d for (m2, n, c2), d in measured if (m2, c2) == (m, c) and n - m <= SMALL_OFFSET]
    by_offset = lambda c, o: [d for (m, n, c2), d in measured if c2 == c and n - m == o and m <= SMALL_ORDER]
    orders = ", ".join(str(m) for m in ORDERS if m <= SMALL_ORDER)
    for heading, name, columns, cell in (
        (f"By c and m, over n − m from 0 to {SMALL_OFFSET}:", "m", ORDERS, by_order),
        (f"By c and n − m, over m of {orders}:", "n − m", OFFSETS, by_offset),
    ):
        print(f"{heading}\n\n| c | {' | '.join(f'{name} {column}' for column in columns)} |")
        print("|" + "---|" * (len(columns) + 1))
        for c in parameters:
            cells = [least_and_median(cell(c, column)) for column in columns]
            print(f"| {c:g} | {' | '.join(cells)} |")
        print()


def least_and_median(found):
    found = sorted(found)
    return f"{int(found[0])}, {int(found[len(found) // 2])}" if found else "-"


def table_modes(kind, parameters):
    wide = [(m, m + o) for m in ORDERS for o in range(SMALL_OFFSET + 1)]
    long = [(m, m + o) for m in ORDERS if m <= SMALL_ORDER for o in OFFSETS]
    return [(kind, m, n, c) for c in parameters for m, n in sorted({*wide, *long})]


def print_by_argument(heading, measured, rows, arguments=OFF_DISC, name="c"):
    """Least and median digits by c, or what else the rows are, and x; `measured` has row, x and digits."""
    print(f"{heading}\n\n| {name} | {' | '.join(f'x {x:g}' for x in arguments)} |\n|" + "---|" * (len(arguments) + 1))
    for row in rows:
        cells = [least_and_median([d for r, x2, d in measured if (r, x2) == (row, x)]) for x in arguments]
        print(f"| {row:g} | {' | '.join(cells)} |")
    print()


def print_first_kind(parameters):
    """The first kind off the disc: near it by x, away from it by m and n - m."""
    values, first, others, away = [], [], [], []
    orders, offsets = [m for m in ORDERS if m <= 12], [*range(SMALL_OFFSET + 1), 15, 20]
    chosen = {("oblate", m, m + o, c) for c in parameters for m in orders for o in offsets}
    answers = answers_of(sorted(chosen.union(table_modes("oblate", parameters))))
    for answer, pairs in zip(answers, first_kinds(answers)):
        truth, least = answer.truth(), []
        for x, pair in zip(OFF_DISC, pairs):
            if pair:
                value, slope = first_kind_digits(truth, x, pair)
                if answer.m in orders and answer.n - answer.m in offsets:
                    values.append((answer.c, x, value))
                    (others if answer.m else first).append((answer.c, x, slope))
                least += [value, slope] if x >= AWAY else []
        if least:
            away.append(((answer.m, answer.n, answer.c), min(least)))
    print("### Oblate first kind off the disc\n")
    print_by_argument("Value, by c and x, over m of 0, 1, 2, 3, 5, 8, 12 and n − m to 10, 15, 20:", values, parameters)
    print_by_argument("Derivative, by c and x, over m = 0 and the same n − m:", first, parameters)
    print_by_argument("Derivative, by c and x, over the other m and the same n − m:", others, parameters)
    print(f"Value and derivative, the least over x from {AWAY:g} to 50 of those that are accepted. ", end="")
    print_tables(away, parameters)


def print_first_kind_least(parameters, largest_order, largest_offset):
    """The least digits of all modes with small m and n - m, by where x begins."""
    arguments = (1e-8, 1e-4, 0.01, 0.1, 0.3, 1.0, 3.0, 4.9)
    print(f"### Least digits of the first kind with m up to {largest_order} and n − m up to {largest_offset}\n")
    print("| c | value, x from 1e-8 | value, x from 0.1 | derivative, x from 0.1 | both, x from 1 |\n|---|---|---|---|---|")
    for c in parameters:
        numbers = [(m, m + o) for m in range(largest_order + 1) for o in range(largest_offset + 1)]
        answers, least = answers_of([("oblate", m, n, c) for m, n in numbers]), [16.0] * 4
        for answer, pairs in zip(answers, first_kinds(answers, arguments)):
            truth = answer.truth()
            for x, pair in zip(arguments, pairs):
                value, slope = first_kind_digits(truth, x, pair) if pair else (16.0, 16.0)
                found = [value, *([value, slope] if x >= AWAY else [16.0] * 2), min(value, slope) if x >= 1 else 16.0]
                least = list(map(min, least, found))
        print(f"| {c:g} | {' | '.join(str(int(digits)) for digits in least)} |")
    print()


def print_near_disc(orders, c):
    """From where on, down to the disc, the first kind has fewer than 6 digits, is zero, is NaN: n = m."""
    exponents = [-e / 10 for e in range(0, 3230)]
    print(f"### Oblate first kind near the disc, n = m, c = {c:g}\n")
    print("| m | derivative below 6 digits | value 0 | value NaN | derivative NaN |\n|---|---|---|---|---|")
    for m in orders:
        [answer] = answers_of([("oblate", m, m, c)])
        [pairs] = first_kinds([answer], [10**e for e in exponents])
        truth, found = answer.truth(), [None] * 4
        for e, pair in zip(exponents, pairs):
            tests = [not found[0] and first_kind_digits(truth, 10**e, pair)[1] < ENOUGH]
            tests += [pair[0] == 0, math.isnan(pair[0]), math.isnan(pair[1])]
            found = [f or (t and f"{10**e:.0e}") for f, t in zip(found, tests)]
        print(f"| {m} | {' | '.join(f or 'nowhere' for f in found)} |")
    print()


def print_second_kind(parameters):
    """The second kind off the disc by c and by n - m, all of it and by the formula that gave it."""
    found, wronskian = [], []
    answers = answers_of([("oblate", m, m + o, c) for c in parameters for m in SECOND_ORDERS for o in SECOND_OFFSETS])
    for a, fours in zip(answers, both_kinds(answers, SECOND_OFF_DISC)):
        for x, four, both in zip(SECOND_OFF_DISC, fours, second_kind_digits(a.truth(), SECOND_OFF_DISC, fours)):
            if both:
                found.append((a, x, min(both), checks.neumann_sum_kept(a.m, a.n, a.c, a.d, x)))
                wronskian.append((a.c, x, finite_digits(checks.wronskian_error(a.c, x, four))))
    print("### Oblate second kind off the disc\n")
    modes = "m of 0, 1, 2, 3, 5, 8, 12 and n − m to 10, 15, 20, 25, 30"
    table = lambda heading, measured: print_by_argument(heading, measured, parameters, SECOND_OFF_DISC)
    table(f"Value and derivative, the lesser of both, by c and x, over {modes}:", [(a.c, x, d) for a, x, d, _ in found])
    table("The same where `rmn2l` gave them:", [(a.c, x, d) for a, x, d, far in found if far])
    table("The same where `rmn2so` gave them:", [(a.c, x, d) for a, x, d, far in found if not far])
    print("By n − m and x, over c from 0.01 to 10. ", end="")
    middle = [f for f in found if 0.01 <= f[0].c <= 10]
    for heading, orders in ("With m of 0, 1, 2, 3:", (0, 1, 2, 3)), ("With m of 5, 8, 12:", (5, 8, 12)):
        by_offset = [(a.n - a.m, x, d) for a, x, d, _ in middle if a.m in orders]
        print_by_argument(heading, by_offset, SECOND_OFFSETS, SECOND_OFF_DISC, "n − m")
    table("By the Wronskian of both kinds, by c and x, over the same modes:", wronskian)


def print_second_kind_least(parameters, largest_order, largest_offset):
    """The least digits of all modes with small m and n - m, by ranges of x."""
    arguments = (1e-6, 1e-4, 0.01, 0.1, 0.2, 0.3, 0.5, 0.7, 1.0, 1.5, 2.0, 3.0, 4.0, 5.0, 7.0, 10.0, 20.0)
    ranges = (1e-6, 0.1), (0.2, 0.5), (0.7, 1.0), (1.5, 3.0), (4.0, 20.0)
    print(f"### Least digits of the second kind with m up to {largest_order} and n − m up to {largest_offset}\n")
    print(f"| c | {' | '.join(f'x {low:g} to {high:g}' for low, high in ranges)} |\n|" + "---|" * (len(ranges) + 1))
    for c in parameters:
        numbers = [(m, m + o) for m in range(largest_order + 1) for o in range(largest_offset + 1)]
        answers, least = answers_of([("oblate", m, n, c) for m, n in numbers]), [16.0] * len(ranges)
        for answer, fours in zip(answers, both_kinds(answers, arguments)):
            found = list(zip(arguments, second_kind_digits(answer.truth(), arguments, fours)))
            for at, (low, high) in enumerate(ranges):
                least[at] = min([least[at], *(min(both) for x, both in found if both and low <= x <= high)])
        print(f"| {c:g} | {' | '.join(str(int(digits)) for digits in least)} |")
    print()


def print_measurements(parameters):
    values, errors, outside = [], [], []
    for kind in KINDS:
        tables = {"angular functions": [], "coefficients": []}
        if kind == "oblate":
            tables |= {"radial functions on the disc": [], "radial functions on the disc, by the Wronskian": []}
        for answer in answers_of(table_modes(kind, parameters)):
            truth, key = answer.truth(), (answer.m, answer.n, answer.c)
            values.append((key, relative(answer.value, truth.value)))
            off, size = abs(Decimal(answer.value) - truth.value), abs(truth.value)
            errors.append((off / size, off / max(size, Decimal(answer.c) ** 2), answer))
            outside.append(max(Decimal(answer.lower) - truth.value, truth.value - Decimal(answer.upper)) / size)
            tables["angular functions"].append((key, min(angular_digits(answer, truth))))
            tables["coefficients"].append((key, coefficient_digits(answer, truth)))
            if answer.four:
                tables["radial functions on the disc"].append((key, disc_digits(answer, truth)))
                tables["radial functions on the disc, by the Wronskian"].append((key, wronskian_digits(answer)))
        for name, measured in tables.items():
            print(f"### {kind.capitalize()} {name}\n")
            print_tables(measured, parameters)
    print("### Characteristic values, prolate and oblate\n")
    print_tables(values, parameters)
    error, _, worst = max(errors, key=lambda found: found[0])
    where = f"{named(worst)}, value {worst.value:.4g}"
    print(f"The largest relative error of {len(values)} values is {error:.1e}, {where}.")
    print(f"Against the larger of value and c² it is {max(found[1] for found in errors):.1e}.")
    count = sum(off > 0 for off in outside)
    print(f"{count} exact values lie outside their bracket, by at most {max(outside):.1e} of the value.\n")


def print_dlmf(parameters, orders, offsets):
    """The largest errors of rows in DLMF's form, against the eigenvalues of DLMF's own matrix."""
    print("### Rows in DLMF's form\n")
    print("| c | prolate, of the larger of eigenvalue and c² | oblate, of the eigenvalue |\n|---|---|---|")
    modes = [(m, m + offset) for m in orders for offset in offsets]
    for c in parameters:
        worst = []
        for kind in KINDS:
            errors = []
            rows = client.ask(PROGRAM, [record("dlmf", kind, m, n, c) for m, n in modes])
            for (m, n), lines in zip(modes, rows):
                value = client.double(lines[-1][-1])
                true = dlmf_eigenvalue(kind, m, n, c, value)
                size = max(abs(true), Decimal(c) ** 2) if kind == "prolate" else true
                errors.append(abs(Decimal(value) - true) / size)
            worst.append(max(errors))
        print(f"| {c:g} | {' | '.join(f'{error:.1e}' for error in worst)} |")
    print(f"\n{len(modes)} modes of each kind for each c.\n")


def named(answer):
    return f"{answer.kind} m {answer.m} n {answer.n} c {answer.c!r}"


def print_near_zero(modes):
    """Oblate values at those c where they pass through zero, found by bisection."""
    print("| mode | value | absolute error | relative error |\n|---|---|---|---|")
    for m, n in modes:
        low, high = 0.0, 100.0
        while low < (low + high) / 2 < high:
            middle = (low + high) / 2
            [answer] = answers_of([("oblate", m, n, middle)])
            low, high = (middle, high) if answer.value > 0 else (low, middle)
        error = abs(Decimal(answer.value) - answer.truth().value)
        print(f"| {named(answer)} | {answer.value:.1e} | {error:.1e} | {error / abs(answer.truth().value):.1e} |")
    print()


def print_zero_pivots(count):
    """Values for which a zero pivot was replaced, and the others of their rows. Such rows have small c."""
    choice, modes = random.Random(20261116), []
    for _ in range(count):
        m = choice.randrange(7)
        modes.append((choice.choice(KINDS), m, m + choice.randrange(9), 10 ** choice.uniform(-10, -3)))
    errors = {"yes": [], "no": []}
    for (kind, m, _, c), row in zip(modes, client.ask(PROGRAM, [record("row", *mode) for mode in modes])):
        flags = [client.ZERO_PIVOT[line[-1]] for line in row]
        if "yes" in flags:
            for n, (line, flag) in enumerate(zip(row, flags), m):
                value = client.double(line[3])
                errors[flag].append(abs(Decimal(value) / Mode(kind, m, n, c, value).value - 1))
    print(f"Rows with c from 1e-10 to 1e-3: of {len(errors['yes'])} values with a zero pivot the largest ", end="")
    print(f"relative error is {max(errors['yes']):.1e}, of {len(errors['no'])} others beside them {max(errors['no']):.1e}.\n")


def print_reliable(parameters, largest_order, largest_offset):
    """The least digits of all modes with small m and n - m."""
    print(f"### Least digits with m up to {largest_order} and n − m up to {largest_offset}\n")
    print(f"| c | angular | coefficients | disc | first kind, x from {AWAY:g} on |\n|---|---|---|---|---|")
    for c in parameters:
        numbers = [(m, m + o) for m in range(largest_order + 1) for o in range(largest_offset + 1)]
        least = [16.0] * 4
        answers = answers_of([(kind, m, n, c) for kind in KINDS for m, n in numbers])
        arguments = [x for x in OFF_DISC if x >= AWAY]
        for answer, pairs in zip(answers, first_kinds(answers, arguments)):
            truth = answer.truth()
            found = [min(angular_digits(answer, truth)), coefficient_digits(answer, truth)]
            if answer.four:
                away = [first_kind_digits(truth, x, pair) for x, pair in zip(arguments, pairs) if pair]
                found += [disc_digits(answer, truth), min(map(min, away))]
            least = list(map(min, least, found + least[len(found) :]))
        print(f"| {c:g} | {' | '.join(str(int(digits)) for digits in least)} |")
    print()


# ---- why digits are lost

# What is asked: the angular function at x, a coefficient, or the second kind or its derivative at x.
EXAMPLES = (
    ("oblate", 0, 30, 1.0, "S", 0.0),
    ("oblate", 0, 40, 1.0, "S", 0.0),
    ("oblate", 0, 0, 20.0, "S", 0.0),
    ("prolate", 0, 0, 45.0, "S", 1.0),
    ("oblate", 0, 2, 1e-10, "S", 0.3),
    ("oblate", 0, 4, 1e-7, "S", 0.3),
    ("oblate", 0, 42, 1e-3, "coefficient", 21),
    ("oblate", 0, 150, 0.1, "coefficient", 75),
    ("oblate", 30, 50, 40.0, "coefficient", 0),
    ("prolate", 100, 120, 60.0, "coefficient", 0),
    ("oblate", 114, 114, 1.0, "S", 0.0),
    ("oblate", 0, 2, 1.0, "R2", 1.1),
    ("oblate", 0, 0, 10.0, "R2", 1.0),
    ("oblate", 0, 9, 1.0, "R2", 2.0),
    ("oblate", 0, 15, 1.0, "R2", 1.0),
    ("oblate", 0, 0, 30.0, "R2", 0.5),
    ("oblate", 0, 6, 1e-4, "R2", 2.0),
    ("oblate", 0, 6, 1e-4, "R2'", 2.0),
    ("oblate", 1, 1, 1.0, "R2'", 1e-12),
)


def print_examples():
    print("### Examples of lost digits\n\n| mode | asked | answer | true |\n|---|---|---|---|")
    for *mode, what, at in EXAMPLES:
        [answer] = answers_of([tuple(mode)])
        truth = answer.truth()
        if what == "S":
            [lines] = client.ask(PROGRAM, [record("angular", *mode, answer.value, at)])
            found, true = doubles(lines)[0], truth.angular(Decimal(at))[0]
        elif what.startswith("R2"):
            place = what.endswith("'")
            [[four]] = both_kinds([answer], [at])
            found, true = four[2 + place], truth.second_off_disc([Decimal(at)])[0][place]
        else:
            found, true = answer.d[at], truth.d[at]
        print(f"| {named(answer)} | {what} {at} | {found:.8g} | {true:.8g} |")
    print()


def print_wrong_directions(parameters):
    """Shares of modes whose coefficients fail the recurrence, at small c."""
    orders = (range(0, 6), range(6, 13), (20,), (50,), (95,))
    offsets = range(2, 21)
    print("### Coefficients of a wrong direction, n − m from 2 to 20\n")
    print("| c | m 0 to 5 | m 6 to 12 | m 20 | m 50 | m 95 |\n|---|---|---|---|---|---|")
    for c in parameters:
        shares = []
        for group in orders:
            answers = answers_of([(kind, m, m + o, c) for kind in KINDS for m in group for o in offsets])
            errors = [checks.recurrence_error(a.kind, a.m, a.n, a.c, a.value, a.d) for a in answers]
            shares.append(sum(checks.digits(error) < ENOUGH for error in errors) / len(errors))
        print(f"| {c:.2g} | {' | '.join(f'{share:.0%}' for share in shares)} |")
    print()


# ---- the reference held against itself


def print_self_test(modes):
    """The sum over Legendre functions against the power series of the differential equation, the
    Wronskian of the radial functions, the sum over Bessel functions against the series from the disc, and
    the second kind at 5, by the series from its sum at 12, against its sum there."""
    names = "power series", "Wronskian", "series from the disc", "Wronskian off the disc", "second kind's sum at 5"
    least = dict.fromkeys(names, 99)
    for answer in answers_of(modes):
        truth, x = answer.truth(), Decimal("0.6")
        agreement = {"power series": truth.angular(x)[0] / truth.angular_by_powers(x) - 1}
        if answer.kind == "oblate":
            value, slope = truth.second_on_disc()
            product = -value if truth.parity else slope
            agreement["Wronskian"] = Decimal(truth.c) * truth.first_on_disc() * product - 1
            far = Decimal(5)
            pairs = zip(truth.first_off_disc(far), truth.first_by_steps(far))
            agreement["series from the disc"] = max(abs(found / true - 1) for found, true in pairs)
            arguments = [Decimal(x) for x in ("0.001", "0.3", "2", "15")]
            pairs = zip(arguments, map(truth.first_off_disc, arguments), truth.second_off_disc(arguments))
            errors = [Decimal(truth.c) * (x * x + 1) * (r * t - s * q) - 1 for x, (r, s), (q, t) in pairs]
            agreement["Wronskian off the disc"] = max(map(abs, errors))
            sums = zip(truth.neumann_sum(far), truth.second_down(Decimal(12), truth.neumann_sum(Decimal(12)), far))
            agreement["second kind's sum at 5"] = max(abs(found / true - 1) for found, true in sums)
        for name, error in agreement.items():
            least[name] = min(least[name], -float(abs(error).log10()) if error else 99)
    print(f"The reference against itself in {len(modes)} modes: ", end="")
    print(", ".join(f"{int(found)} digits by the {name}" for name, found in least.items()) + ".\n")
    if min(least.values()) < LEAST_AGREEMENT:
        sys.exit("accuracy: the reference does not agree with itself, so nothing is measured by it")


# ---- not a number


def print_not_finite(step):
    """Shares of all accepted modes that are answered with NaN or infinity."""
    print("### Answers that are not finite\n")
    print("| kind | c | modes | coefficients | angular | radial | from m on at n = m | from n on at m = 60 |")
    print("|---|---|---|---|---|---|---|---|")
    for kind in KINDS:
        for c in (1e-3, 1.0, 30.0):
            modes = [(kind, m, m + o, c) for m in range(0, 200, step) for o in range(0, 200, step)]
            answers = answers_of(modes)
            broken = lambda numbers: not all(map(math.isfinite, numbers))
            lost = [a for a in answers if any(map(broken, a.pairs))]
            shares = [sum(broken(a.d) for a in answers) / len(answers), len(lost) / len(answers)]
            radial = [a for a in answers if a.four]
            shares.append(sum(broken(a.four) for a in radial) / len(radial) if radial else None)
            cells = ["-" if share is None else f"{share:.0%}" for share in shares]
            edges = min(a.m for a in lost if a.n == a.m), min(a.n for a in lost if a.m == 60)
            print(f"| {kind} | {c:g} | {len(answers)} | {' | '.join(cells)} | {edges[0]} | {edges[1]} |")
    print()


# ---- the checks for callers


def random_modes(count, largest_order, largest_offset, largest_c, kinds):
    """Small and large m, n - m and c, of each about as many."""
    choice, modes = random.Random(20261116), []
    pick = lambda *limits: choice.randrange(choice.choice(limits))
    while len(modes) < count:
        m, offset = pick(4, 15, largest_order), pick(4, 15, largest_offset)
        spans = (-9.9, -4), (-4, 0), (-0.5, 1.5)
        c = choice.choice([10 ** choice.uniform(*span) for span in spans] + [choice.uniform(0, largest_c)] * 2)
        modes.append((choice.choice(kinds), m, m + offset, c))
    return modes


class Tally:
    """How a check errs: warnings where digits are enough, silence where they are not."""

    def __init__(self, name):
        self.name, self.right, self.wrong, self.needless, self.missed, self.worst = name, 0, 0, 0, 0, None

    def count(self, true, estimated):
        self.right += true >= ENOUGH
        self.wrong += true < ENOUGH
        self.needless += true >= ENOUGH > estimated
        if true < ENOUGH <= estimated:
            self.missed += 1
            self.worst = true if self.worst is None else min(self.worst, true)

    def row(self):
        worst = "" if self.worst is None else f" (least {self.worst:.1f})"
        return f"| {self.name} | {self.wrong} | {self.missed}{worst} | {self.right} | {self.needless} |"


def print_checks(count):
    finite = lambda numbers: all(map(math.isfinite, numbers))
    points, modes = Tally("client, each x"), Tally("client, least over x")
    simple, zero = Tally("recurrence and S(0)"), Tally("S(0) alone")
    for a in answers_of(random_modes(count, 110, 100, 120, KINDS)):
        if not finite(a.d) or not all(map(finite, a.pairs)):
            continue
        true = angular_digits(a, a.truth())
        errors = checks.angular_errors(a.kind, a.m, a.n, a.c, a.value, a.d, ARGUMENTS, a.pairs)
        estimated = list(map(checks.digits, errors))
        for pair in zip(true, estimated):
            points.count(*pair)
        modes.count(min(true), min(estimated))
        at_zero = checks.digits(checks.error_at_zero(a.m, a.n, a.pairs[0]))
        unfit = checks.digits(checks.recurrence_error(a.kind, a.m, a.n, a.c, a.value, a.d))
        simple.count(min(true), min(at_zero, unfit))
        zero.count(min(true), at_zero)
    disc, alone = Tally("client, disc"), Tally("Wronskian alone")
    for a in answers_of(random_modes(count * 3 // 4, 60, 40, 60, ("oblate",))):
        if a.four and finite(a.four) and finite(a.d):
            true = disc_digits(a, a.truth())
            error = checks.wronskian_error(a.c, 0.0, a.four)
            alone.count(true, checks.digits(error))
            error += checks.recurrence_error(a.kind, a.m, a.n, a.c, a.value, a.d)
            disc.count(true, checks.digits(error))
    first, parts = Tally("client, first kind, each x"), Tally("its derivative's parts alone")
    answers = answers_of(random_modes(count // 2, 60, 40, 60, ("oblate",)))
    for a, pairs in zip(answers, first_kinds(answers)):
        truth = a.truth() if finite(a.d) else None
        for x, pair in zip(OFF_DISC, pairs):
            if truth and pair and finite(pair):
                true = min(first_kind_digits(truth, x, pair))
                first.count(true, checks.digits(checks.first_kind_error(a.m, a.n, a.c, a.value, a.d, x, pair)))
                parts.count(true, checks.digits(checks.first_kind_cancellation(a.m, x, pair)))
    both, without = Tally("client, both kinds, each x"), Tally("Wronskian and these parts")
    for a, fours in zip(answers, both_kinds(answers, SECOND_OFF_DISC)):
        if not finite(a.d):
            continue
        truth = a.truth()
        for x, four, second in zip(SECOND_OFF_DISC, fours, second_kind_digits(truth, SECOND_OFF_DISC, fours)):
            if four and finite(four):
                true = min(*first_kind_digits(truth, x, four[:2]), *second)
                error = lambda d: checks.radial_error(a.m, a.n, a.c, a.value, d, x, four, a.four)
                both.count(true, checks.digits(error(a.d)))
                without.count(true, checks.digits(error(None)))
    print("### The checks\n")
    print(f"| check | fewer than {ENOUGH} digits | of these silent | {ENOUGH} or more | of these warned |")
    print("|---|---|---|---|---|")
    for tally in (points, modes, simple, zero, disc, alone, first, parts, both, without):
        print(tally.row())
    print()


def main(words):
    if words not in ([], ["quick"]):
        sys.exit("usage: tests/accuracy/run [quick]")
    quick = bool(words)
    print_self_test(random_modes(20 if quick else 100, 60, 60, 60, KINDS))
    print_measurements((1e-7, 1.0, 20.0) if quick else PARAMETERS)
    print_first_kind((1e-7, 1.0, 20.0) if quick else PARAMETERS)
    print_first_kind_least((1.0,) if quick else (1e-3, 0.1, 1.0, 5.0, 10.0, 15.0, 20.0, 30.0, 40.0), 12, 20)
    print_near_disc((0, 1, 3, 12) if quick else (0, 1, 2, 3, 5, 8, 12, 20, 30, 50, 80), 1.0)
    print_second_kind((1e-3, 1.0, 20.0) if quick else SECOND_PARAMETERS)
    for largest_offset in (10,) if quick else (10, 30):
        parameters = (1.0,) if quick else (1e-4, 1e-3, 0.01, 0.1, 1.0, 5.0, 10.0, 15.0, 20.0, 40.0)
        print_second_kind_least(parameters, 12, largest_offset)
    print_near_zero([(0, 1), (1, 1), (2, 6), (10, 12)])
    print_zero_pivots(400 if quick else 4000)
    print_dlmf((1.0, 20.0) if quick else (*PARAMETERS[3:], 200.0, 280.0), (0, 1, 5, 20, 80), (0, 1, 2, 5, 10))
    print_reliable((1.0,) if quick else (9e-11, 1e-4, 1e-3, 0.03, 1.0, 7.0, 10.0), 12, 15)
    print_examples()
    print_wrong_directions((1e-7, 1e-5) if quick else [10 ** (e / 2) for e in range(-20, -5)])
    print_not_finite(10 if quick else 2)
    print_checks(200 if quick else 2000)


if __name__ == "__main__":
    main(sys.argv[1:])
