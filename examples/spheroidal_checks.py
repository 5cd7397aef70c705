"""Checks that a caller can run on an answer: how far off it may be, from answers alone. The formulas,
and how often the checks err, stand in docs/ACCURACY.md. An error is relative, and NaN where it cannot
be formed. m, n, c and cv are the mode's; d are its expansion coefficients.
"""
import ctypes
import math

SIGNS = {"prolate": 1, "oblate": -1}
COEFFICIENTS = 200


def digits(error):
    """How many digits an error leaves, from 0 to 16; none where it is NaN."""
    if not error < 1:
        return 0
    return min(16, int(-math.log10(error))) if error > 0 else 16


def ratio(above, below):
    return above / below if below else math.nan


def worst(errors):
    return max(errors, key=lambda error: math.inf if math.isnan(error) else error)


def coefficients(library, kind, m, n, c, cv):
    """The expansion coefficients, by the shared library as ctypes loads it; None where it refuses."""
    call = getattr(library, f"spheroidal_{kind}_coefficients")
    call.restype = ctypes.c_uint8
    call.argtypes = [ctypes.c_uint16] * 2 + [ctypes.c_double] * 2 + [ctypes.c_void_p, ctypes.c_size_t]
    values = (ctypes.c_double * COEFFICIENTS)()
    return None if call(m, n, c, cv, values, COEFFICIENTS) else list(values)


def characteristic_value(library, kind, m, n, c):
    """The last value of the row from m to n, by the same library, which must accept it."""
    call, places = getattr(library, f"spheroidal_{kind}_row"), n - m + 1
    types = ctypes.c_double, ctypes.c_uint32, ctypes.c_double, ctypes.c_double, ctypes.c_uint8
    buffers = [(place * places)() for place in types]
    call.restype = ctypes.c_uint8
    call.argtypes = [ctypes.c_uint16] * 2 + [ctypes.c_double, ctypes.c_uint32]
    call.argtypes += [ctypes.c_void_p, ctypes.c_size_t] * len(buffers)
    call(m, n, c, 2**32 - 1, *(word for buffer in buffers for word in (buffer, places)))
    return buffers[0][n - m]


def recurrence_terms(kind, m, n, c, cv, d):
    """Of each place the norm of its Legendre function, in units of the first, and the three terms of the
    recurrence, whose sum is zero."""
    square, weight = SIGNS[kind] * c * c, 1.0
    for i, (below, here, above) in enumerate(zip([0.0, *d], d, [*d[1:], 0.0])):
        k = 2 * i + (n - m) % 2
        s = m + k
        if i > 0:
            weight *= math.sqrt((2 * m + k) * (2 * m + k - 1) / (k * (k - 1)) * (2 * s - 3) / (2 * s + 1))
        a = (2 * m + k + 2) * (2 * m + k + 1) / ((2 * s + 3) * (2 * s + 5)) * square
        b = s * (s + 1) + (2 * s * (s + 1) - 2 * m * m - 1) / ((2 * s - 1) * (2 * s + 3)) * square
        g = k * (k - 1) / ((2 * s - 3) * (2 * s - 1)) * square
        yield weight, (a * above, (b - cv) * here, g * below)


def recurrence_error(kind, m, n, c, cv, d):
    """How far d is from the mode's direction: its residual in the three-term recurrence over n + 1,
    which is below the distance to the next characteristic value of this parity. Each place is
    weighted with the norm of its Legendre function."""
    places = list(recurrence_terms(kind, m, n, c, cv, d))
    residual = [weight * sum(terms) for weight, terms in places]
    size = [weight * here for (weight, _), here in zip(places, d)]
    return ratio(math.hypot(*residual), math.hypot(*size)) / (n + 1)


def legendre_at_zero(m, odd, count):
    """P(0) of order m and degrees m, m + 2, .., or P'(0) of degrees m + 1, m + 3, .. where odd is 1;
    without the Condon-Shortley sign."""
    values = [math.prod(map(float, range(1, 2 * (m + odd), 2)))]
    for k in range(2, 2 * count, 2):
        values.append(values[-1] * -(2 * (m + odd) + k - 1) / k)
    return values


def error_at_zero(m, n, pair):
    """S(0), or S'(0) where n - m is odd, against the Legendre function's, from the pair at x = 0."""
    odd = (n - m) % 2
    return abs(ratio(pair[odd], legendre_at_zero(m, odd, (n - m) // 2 + 1)[-1]) - 1)


def cancellation_at_zero(m, n, d):
    """The sizes of the terms d P(0) that normalise d, in units of their sum."""
    values = legendre_at_zero(m, (n - m) % 2, len(d))
    return ratio(sum(abs(v * p) for v, p in zip(d, values) if v), abs(values[(n - m) // 2]))


def legendre(m, x, count):
    """P of order m and degrees m, m + 1, .. at x, and the derivatives, which are left out at -1, 1."""
    square = 1 - x * x
    values = [math.prod(odd * math.sqrt(square) for odd in range(1, 2 * m, 2))]
    values.append((2 * m + 1) * x * values[0])
    for l in range(m + 1, m + count - 1):
        values.append(((2 * l + 1) * x * values[-1] - (l + m) * values[-2]) / (l - m + 1))
    if square == 0:
        return values, [0.0] * count
    below = [0.0, *values]
    return values, [((2 * m + i) * below[i] - (m + i) * x * values[i]) / square for i in range(count)]


def sum_at(m, n, c, d, x, pair):
    """The pair at x against the sums of d over Legendre functions, and the sizes of their terms, both
    in units of the function's size around x."""
    if abs(x) == 1 and m > 0:
        return 0.0, 1.0  # S is zero there
    used = [i for i, value in enumerate(d) if value] or [0]
    values, slopes = legendre(m, x, 2 * used[-1] + 3)
    unit = math.sqrt(1 - x * x) / (n + 1 + c)
    terms = [d[i] * values[2 * i + (n - m) % 2] for i in used]
    slope_terms = [d[i] * slopes[2 * i + (n - m) % 2] * unit for i in used]
    size = math.hypot(sum(terms), sum(slope_terms))
    off = max(abs(pair[0] - sum(terms)), abs(pair[1] * unit - sum(slope_terms)))
    return ratio(off, size), ratio(sum(map(abs, terms + slope_terms)), size)


def angular_errors(kind, m, n, c, cv, d, xs, pairs):
    """The error of each pair of an angular function's value and derivative."""
    uncertain, at_zero = recurrence_error(kind, m, n, c, cv, d), cancellation_at_zero(m, n, d)
    sums = [sum_at(m, n, c, d, x, pair) for x, pair in zip(xs, pairs)]
    return [off + uncertain * (at_zero + cancellation) for off, cancellation in sums]


def wronskian_error(c, x, four):
    """c (x x + 1) (R1 R2' - R1' R2) - 1 from value and derivative of both kinds; exact ones give zero."""
    root = math.hypot(1, x)
    value1, slope1, value2, slope2 = (root * number for number in four)
    return abs(c * (value1 * slope2 - slope1 * value2) - 1)


ROUNDING = 1e-15


def place_errors(kind, m, n, c, cv, d):
    """How far each place of d is off, relative to itself: the error of the direction, and for places
    below the mode's own the largest residual between the two in units of its terms. The first kind near
    the disc hangs on the first place, which may be tiny."""
    common, worst, errors = ROUNDING + recurrence_error(kind, m, n, c, cv, d), 0.0, []
    places = list(recurrence_terms(kind, m, n, c, cv, d))
    for _, terms in reversed(places[: (n - m) // 2]):
        size = sum(map(abs, terms))
        worst = max(worst, abs(sum(terms)) / size if size else 0.0)
        errors.append(common + worst)
    return errors[::-1] + [common] * (len(d) - len(errors))


def first_kind_sum(m, n, c, d, x, errors):
    """The first oblate kind and its derivative at x from zero on, as sums of d over spherical Bessel
    functions j, and what the errors of d's places may make of them, relative to them; the value's first.
    It is formed from quotients of neighbouring j over x, so that nothing cancels near the disc, unlike in
    the library."""
    used = [i for i, value in enumerate(d) if value] or [0]
    odd, count = (n - m) % 2, m + 2 * used[-1] + 3
    quotients, above = [], 0.0  # of degrees l + 1 and l, over x
    for l in range(count + int(c * x) + 60, -1, -1):
        above = c / ((2 * l + 3 - c * x * x * above) or ROUNDING)
        quotients.append(above)
    quotients.reverse()
    root, scale = math.hypot(1, x), math.sin(c * x) / (c * x) if c * x else 1.0
    scale *= math.prod(root * quotient for quotient in quotients[:m])
    term, before, weight = 1.0, 0.0, 1.0  # j of degree m + r over that of degree m, and of one less over x
    values, slopes, weights, off = [], [], [], [0.0, 0.0, 0.0]
    around = m * x / root / root
    for r in range(0, 2 * used[-1] + odd + 1):
        if r % 2 == odd:
            factor, error = d[r // 2] * weight, errors[r // 2]
            sign = (-1) ** ((n - m - r) // 2)
            parts = [r * before, -c * x * quotients[m + r] * term, around * term]
            weights.append(factor)
            values.append(sign * factor * term)
            slopes.append(sign * factor * sum(parts))
            sizes = abs(factor * term), abs(factor) * sum(map(abs, parts)), abs(factor)
            off = [whole + error * size for whole, size in zip(off, sizes)]
        before = quotients[m + r] * term
        term = x * before
        weight *= (2 * m + r + 1) / (r + 1)
    sums, whole = [sum(values), sum(slopes)], sum(weights)
    errors = [ratio(size, abs(total)) + ratio(off[2], abs(whole)) for size, total in zip(off, sums)]
    return [ratio(scale * total, whole) for total in sums], errors


def first_kind_sizes(m, c, cv, x, pair):
    """What errors of value and derivative are held against: the number itself, or, where the function
    oscillates and passes through zero, its amplitude."""
    value, slope = map(abs, pair)
    root = math.hypot(1, x)
    square = (c * x / root) * (c * x / root) + ((m / root) * (m / root) - cv) / root / root
    if square <= 0:
        return value, slope
    wave = math.sqrt(square)
    amplitude = min(1.0, wave * x) * math.hypot(value, slope / wave)
    return max(value, amplitude), max(slope, wave * amplitude)


def first_kind_error(m, n, c, cv, d, x, pair):
    """The error of a pair of the first oblate kind's value and derivative at x, the larger of both."""
    sums, uncertain = first_kind_sum(m, n, c, d, x, place_errors("oblate", m, n, c, cv, d))
    sizes = first_kind_sizes(m, c, cv, x, sums)
    errors = []
    for answer, true, size, error in zip(pair, sums, sizes, uncertain):
        zero = answer == 0 and true == 0  # as one of the two is on the disc
        errors.append(0.0 if zero else ratio(abs(answer - true) + error * abs(true), size))
    return worst(errors)


def first_kind_cancellation(m, x, pair):
    """What the derivative loses near the disc, without d: its two parts nearly cancel, of which one is
    m/(x (x x + 1)) times the value; for m = 0 those of the Bessel function's derivative do."""
    if not x:
        return 0.0
    part = m / (x * (x * x + 1)) if m else 1 / x
    return ratio(ROUNDING * part * abs(pair[0]), abs(pair[1]))


def neumann_functions(z, highest):
    """Spherical Bessel functions of the second kind of orders 0, 1, .. at z and their derivatives, as the
    library has them: where one passes 1e300 the others are left at zero, and so are all derivatives but
    that of order 0. With them the number of orders that the library goes by, which is one less."""
    if z < 1e-60:
        return [-1e300] * (highest + 1), [1e300] * (highest + 1), highest
    sine, cosine = math.sin(z), math.cos(z)
    values = [-cosine / z, (-cosine / z - sine) / z]
    slopes = [(sine + cosine / z) / z]
    for k in range(2, highest + 1):
        values.append((2 * k - 1) * values[-1] / z - values[-2])
        if abs(values[-1]) >= 1e300:
            rest = [0.0] * (highest - k)
            return values + rest, slopes + [0.0] * highest, k - 1
    slopes += [values[k - 1] - (k + 1) * values[k] / z for k in range(1, highest)]
    return values, slopes + [0.0], highest - 1


def neumann_sum_kept(m, n, c, d, x):
    """Whether the second kind at x is the sum of d over these functions. The library takes it where the
    last term changed value and derivative by less than a tenth, and else the series for small x."""
    half, odd = (n - m) // 2, (n - m) % 2
    last = 25 + half + int(c)
    if x <= 1e-8:
        return False
    values, slopes, orders = neumann_functions(c * x, 2 * last + m)
    total, kept = 0.0, True
    for table in values, slopes:
        before, total = total, 0.0
        factor = math.prod(map(float, range(1, 2 * m + odd + 1))) * (1e-200 if m + last > 80 else 1.0)
        for k in range(last):
            if k:
                factor = factor * (m + k) * (m + k + odd - 0.5) / k / (k + odd - 0.5)
            total += (-1) ** (half + k) * factor * (d[k] * table[m + 2 * k + odd])
            change, before = abs(total - before), total
            if k >= half and change < abs(total) * 1e-14:
                break
        if table is values and m + 2 * k + odd >= orders:
            return False
        part = ratio(change, abs(total)) + 1e-14
        kept = kept and not 0.1 < part < math.inf
    return kept


def radial_error(m, n, c, cv, d, x, four, disc):
    """The error of both oblate kinds at x, the largest of the four numbers; disc has those at x = 0, and d
    may be None. What is off on the disc grows from there like the first kind while the second falls, which
    the Wronskian does not see: it counts where the second kind is by the series for small x."""
    off = wronskian_error(c, x, four)
    if not d:
        return worst([off, first_kind_cancellation(m, x, four[:2])])
    off += recurrence_error("oblate", m, n, c, cv, d)
    if not x:
        return off
    if not neumann_sum_kept(m, n, c, d, x):
        odd = (n - m) % 2
        share = ratio(abs(disc[2 + odd]), abs(disc[odd]))
        growth = worst([ratio(share * abs(four[at]), abs(four[2 + at])) for at in (0, 1)])
        off += (ROUNDING + wronskian_error(c, 0.0, disc)) * growth
    return worst([off, first_kind_error(m, n, c, cv, d, x, four[:2])])
