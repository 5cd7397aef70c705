"""Decides in whole numbers whether answers of the elementary functions keep what is promised.

Usage: exact.py ANSWERS SEED, where ANSWERS is the program made of answers.c.

A number stands as a whole number of units of 2^-1200: so does every double, exactly. What has to be
rounded, terms of series, is held between two such whole numbers, rounded outward. So each decision is
exact. Bounds that are too wide for one would stop the program; they are at most 2^-900 wide.
"""
import math
import random
import struct
import subprocess
import sys

PLACES = 1200
ONE = 1 << PLACES

LAST_ARGUMENT = 200.0
SWITCHES = [2.0**-27, 0.1875, 0.375, 0.65625, 1.0, 1.5625, 2.75, 8.0, 200.0]
LARGEST = sys.float_info.max
LEAST_NORMAL = sys.float_info.min
SHOWN = 5


def stop(reason):
    print(f"exact: {reason}", file=sys.stderr)
    sys.exit(2)


def units(x):
    """A double, exactly."""
    above, below = x.as_integer_ratio()
    return above * (ONE // below)


def power_of_two(k):
    return ONE >> -k


def ceiling(a, b):
    return -(-a // b)


def circle(t):
    """Bounds of the sine and of the cosine of t, from 0 on, by their Taylor series.

    Every derivative of the two is at most 1 in size. So by Taylor's theorem what is left out is no
    larger than t^k / k! for the first power k left out.
    """
    zeros = min((t & -t).bit_length() - 1, PLACES) if t else 0
    digits, shift = t >> zeros, PLACES - zeros
    low, high = ONE, ONE  # of t^k / k!
    sums = [[ONE, ONE], [0, 0]]
    k = 0
    while True:
        k += 1
        low = (low * digits >> shift) // k
        high = -((-high * digits >> shift) // k)
        if high <= 1:
            break
        total = sums[k % 2]
        if k % 4 < 2:
            total[0] += low
            total[1] += high
        else:
            total[0] -= high
            total[1] -= low
    cosine, sine = ((total[0] - high, total[1] + high) for total in sums)
    return sine, cosine


def log_of_quotient(a, b):
    """Bounds of the natural logarithm of a / b, from 1 to 2: twice the series of z^k / k over odd k
    with z = (a - b) / (a + b). As z is at most 1/3, what is left out is at most twice the first
    power left out.
    """
    low, high = (a - b) * ONE // (a + b), ceiling((a - b) * ONE, a + b)
    low_square, high_square = low * low >> PLACES, ceiling(high * high, ONE)
    low_sum = high_sum = 0
    k = 1
    while high > 1:
        low_sum += low // k
        high_sum += ceiling(high, k)
        low, high = low * low_square >> PLACES, -(-high * high_square >> PLACES)
        k += 2
    return 2 * low_sum, 2 * (high_sum + 2 * high)


LOG_2 = log_of_quotient(2, 1)
LOG_10 = tuple(3 * two + rest for two, rest in zip(LOG_2, log_of_quotient(5, 4)))


def times(n, bounds):
    """Bounds of a multiple, n of any sign."""
    low, high = n * bounds[0], n * bounds[1]
    return min(low, high), max(low, high)


def logarithm(x):
    """Bounds of the natural logarithm of a double above zero."""
    a, b = x.as_integer_ratio()
    k = a.bit_length() - b.bit_length()
    a, b = (a, b << k) if k >= 0 else (a << -k, b)
    if a < b:
        a, k = 2 * a, k - 1
    twos, rest = times(k, LOG_2), log_of_quotient(a, b)
    return twos[0] + rest[0], twos[1] + rest[1]


def at_most(one, other):
    """Whether one number is at most another, by bounds of both."""
    if one[1] <= other[0]:
        return True
    if other[1] < one[0]:
        return False
    raise ArithmeticError("the bounds are too wide to decide")


def within(bounds, result, allowed):
    """Whether a result is within what is allowed of the number between the bounds."""
    low, high = result - allowed, result + allowed
    return at_most((low, low), bounds) and at_most(bounds, (high, high))


def sine_within(x, result, allowed):
    return within(circle(units(x))[0], result, allowed)


def cosine_within(x, result, allowed):
    return within(circle(units(x))[1], result, allowed)


def log10_within(x, result, allowed):
    log = tuple(ONE * bound for bound in logarithm(x))
    low, high = times(result - allowed, LOG_10), times(result + allowed, LOG_10)
    return at_most(low, log) and at_most(log, high)


def sides(t, x):
    """Bounds of sin t and of x cos t. For t from 0 to 2 and x from 0 on, their difference has the
    sign of t - arctan x: it is a positive multiple of that one's sine, and that is less than pi in size.
    """
    sine, cosine = circle(t)
    return tuple(ONE * bound for bound in sine), times(units(x), cosine)


def arctangent_within(x, result, allowed):
    low, high = result - allowed, result + allowed
    if high < 0 or low > 2 * ONE:
        return False
    if low >= 0:
        sine, multiple = sides(low, x)
        if not at_most(sine, multiple):
            return False
    if high > 2 * ONE:
        return True
    sine, multiple = sides(high, x)
    return at_most(multiple, sine)


def promised_of_sine(x):
    """Below 1 the promise has x as a factor, so that it is the stricter one."""
    return units(min(x, 1.0)) >> 40


class Function:
    def __init__(self, name, decide, promised, known, moved):
        self.name = name
        self.decide = decide  # whether a result is within what is allowed, both in units
        self.promised = promised  # what is allowed at x
        self.known = known  # Python's own function, for the self-check
        self.moved = moved  # in the self-check, a result that is moved by this must be refused

    def failure(self, x, result):
        """What is wrong with a result, None where it is right."""
        if not math.isfinite(result):
            return "is not finite"
        if not self.decide(x, units(result), self.promised(x)):
            return "breaks the promise"
        if not self.decide(x, units(result), units(2 * math.ulp(result))):
            return "is off by more than 2 units in the last place"
        return None


FUNCTIONS = [
    Function("sine", sine_within, promised_of_sine, math.sin, power_of_two(-39)),
    Function("cosine", cosine_within, lambda x: power_of_two(-40), math.cos, power_of_two(-39)),
    Function("log10", log10_within, lambda x: power_of_two(-20), math.log10, power_of_two(-19)),
    Function("arctangent", arctangent_within, lambda x: power_of_two(-40), math.atan, power_of_two(-39)),
]


def check_decisions():
    """The decisions must accept right results and refuse those that are moved: by twice what is
    allowed, by the same share of x (the sine below 1), and by 3 units in the last place.
    """
    for function in FUNCTIONS:
        for x in [2.0**-1074, 1e-300, 2.0**-27, 1e-5, 0.3, 0.999, 1.0, 3.0, 22.0, 199.5, 1e300]:
            if x > LAST_ARGUMENT and function.name in ("sine", "cosine"):
                continue
            right = units(function.known(x))
            allowed, last = function.promised(x), units(math.ulp(function.known(x)))
            moves = [(0, allowed, True), (0, 2 * last, True)]
            for sign in (-1, 1):
                moves.append((sign * function.moved, allowed, False))
                moves.append((sign * 2 * allowed, allowed, False))
                moves.append((sign * 3 * last, 2 * last, False))
            for move, limit, expected in moves:
                if function.decide(x, right + move, limit) != expected:
                    stop(f"the decision on {function.name} of {x} is wrong, so nothing is decided")


def bits(x):
    return struct.unpack("<Q", struct.pack("<d", x))[0]


def double(pattern):
    return struct.unpack("<d", struct.pack("<Q", pattern))[0]


def beside(x, far=1):
    """x and its neighbours above zero, as many on each side."""
    middle = bits(x)
    return [double(middle + step) for step in range(-far, far + 1) if 0 < middle + step < bits(math.inf)]


def in_binades(least, greatest, each, draw):
    """Doubles from 2^least to 2^(greatest + 1), as many in each binade."""
    for k in range(least, greatest + 1):
        yield from (math.ldexp(draw.getrandbits(52) | 1 << 52, k - 52) for _ in range(each))


def circle_arguments(draw):
    yield from (0.0, -0.0)
    for x in SWITCHES + [2.0**-1074, LEAST_NORMAL]:
        yield from (y for y in beside(x, 3) if y <= LAST_ARGUMENT)
    for k in range(1, 128):
        yield from beside(k * math.pi / 2, 2)
    yield from in_binades(-1074, -28, 1, draw)
    yield from in_binades(-27, 6, 30, draw)
    yield from (1 + 199 * draw.getrandbits(53) / 2**53 for _ in range(1000))


def log_arguments(draw):
    for x in SWITCHES + [2.0**-1074, LEAST_NORMAL, LARGEST]:
        yield from beside(x, 3)
    for k in range(-323, 309):
        yield from beside(float(f"1e{k}"))
    yield from in_binades(-1074, 1023, 1, draw)
    for k in range(1, 53):
        yield from (1 + sign * math.ldexp(draw.getrandbits(53), -53 - k) for sign in (-1, 1) * 5)


def arctangent_arguments(draw):
    yield from (0.0, -0.0)
    for x in SWITCHES + [2.0**-1074, LEAST_NORMAL, LARGEST]:
        yield from beside(x, 3)
    yield from in_binades(-1074, 1023, 1, draw)
    yield from in_binades(-30, 60, 20, draw)


ARGUMENTS = {
    "sine": circle_arguments,
    "cosine": circle_arguments,
    "log10": log_arguments,
    "arctangent": arctangent_arguments,
}


def answers(program, name, arguments):
    lines = "".join(f"{name} {bits(x):016x}\n" for x in arguments)
    run = subprocess.run([program], input=lines, stdout=subprocess.PIPE, text=True)
    printed = run.stdout.split()
    if run.returncode != 0 or len(printed) != len(arguments):
        stop(f"{program}: status {run.returncode}, {len(printed)} answers to {len(arguments)} arguments")
    return [double(int(word, 16)) for word in printed]


def differences(function, program, seed):
    """How many arguments were tried, and how many of them have wrong results."""
    arguments = list(ARGUMENTS[function.name](random.Random(seed)))
    found = 0
    for x, result in zip(arguments, answers(program, function.name, arguments)):
        failure = function.failure(x, result)
        if failure is None:
            continue
        found += 1
        if found <= SHOWN:
            print(f"{function.name} of {bits(x):016x} ({x!r}): {bits(result):016x} ({result!r}) {failure}")
    return len(arguments), found


def main():
    program, seed = sys.argv[1], int(sys.argv[2])
    check_decisions()
    tried = found = 0
    for function in FUNCTIONS:
        arguments, failures = differences(function, program, seed)
        print(f"exact: {function.name}, {arguments} arguments, {failures} differences")
        tried += arguments
        found += failures
    print(f"exact: {found} differences in {tried} arguments")
    sys.exit(found > 0)


main()
