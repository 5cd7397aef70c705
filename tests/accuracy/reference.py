"""Spheroidal functions in high precision, as the accuracy test's reference.

An eigenvalue of the tridiagonal matrix, its vector d in Flammer's normalisation, the angular function
as the sum of d over associated Legendre functions without the Condon-Shortley sign, and both oblate
radial functions on the disc and off it. All in decimal floating point, with as many digits as the sums
lose and some 60 more.
"""
from decimal import Decimal, getcontext
from functools import lru_cache
from math import factorial, prod

SIGNS = {"prolate": 1, "oblate": -1}
# From here on the sum over spherical Neumann functions gives the second kind.
FAR = 12


def set_precision(n, c):
    """The normalisation loses about e^c, and the power series of the self-test about 2.5^n."""
    getcontext().prec = 60 + int(0.9 * c + 0.45 * n)


def matrix(sign, m, parity, c, places):
    """a, b and g of the recurrence a[i] d[i + 1] + (b[i] - cv) d[i] + g[i] d[i - 1] = 0."""
    square = sign * Decimal(c) * Decimal(c)
    a, b, g = [], [], []
    for k in range(parity, 2 * places + parity, 2):
        s = m + k
        a.append(Decimal((2 * m + k + 2) * (2 * m + k + 1)) / ((2 * s + 3) * (2 * s + 5)) * square)
        b.append(s * (s + 1) + Decimal(2 * s * (s + 1) - 2 * m * m - 1) / ((2 * s - 1) * (2 * s + 3)) * square)
        g.append(Decimal(k * (k - 1)) / ((2 * s - 3) * (2 * s - 1)) * square)
    return a, b, g


def dlmf_matrix(sign, m, parity, c, places):
    """The same of the matrix of DLMF 30.16, whose eigenvalues are DLMF's, with gamma squared for c
    squared with its sign."""
    square = sign * Decimal(c) * Decimal(c)
    a, b, g = [], [], []
    for k in range(parity, 2 * places + parity, 2):
        s = m + k
        a.append(-square * (2 * m + k + 1) * (2 * m + k + 2) / ((2 * s + 3) * (2 * s + 5)))
        b.append(s * (s + 1) - 2 * square * (s * (s + 1) - 1 + m * m) / ((2 * s - 1) * (2 * s + 3)))
        g.append(-square * (k - 1) * k / ((2 * s - 3) * (2 * s - 1)))
    return a, b, g


def pivots(a, b, g, value):
    """The pivots from the first place on; as many are below zero as eigenvalues are below the value."""
    found = [b[0] - value]
    for i in range(1, len(b)):
        found.append(b[i] - value - a[i - 1] * g[i] / (found[-1] or Decimal("1e-300")))
    return found


def pivots_back(a, b, g, value):
    """The pivots from the last place on, in the places' order."""
    found = [b[-1] - value]
    for i in range(len(b) - 2, -1, -1):
        found.append(b[i] - value - a[i] * g[i + 1] / (found[-1] or Decimal("1e-300")))
    return found[::-1]


def weights(m, parity, places):
    """The squared norms of the Legendre functions on (-1, 1), in units of the first."""
    found = [Decimal(1)]
    for i in range(1, places):
        k = 2 * i + parity
        factor = Decimal((k + 2 * m) * (k + 2 * m - 1)) / (k * (k - 1))
        found.append(found[-1] * factor * (2 * m + 2 * k - 3) / (2 * m + 2 * k + 1))
    return found


def refined(a, b, g, weight, value):
    """One Rayleigh step: a better eigenvalue, and the vector, by pivots from both ends."""
    down, up = pivots(a, b, g, value), pivots_back(a, b, g, value)
    gaps = [down[i] + up[i] - (b[i] - value) for i in range(len(b))]
    joint = min(range(len(b)), key=lambda i: abs(gaps[i]))
    vector = [Decimal(0)] * len(b)
    vector[joint] = Decimal(1)
    for i in range(joint - 1, -1, -1):
        vector[i] = -a[i] * vector[i + 1] / down[i]
    for i in range(joint + 1, len(b)):
        vector[i] = -g[i] * vector[i - 1] / up[i]
    norm = sum(w * v * v for w, v in zip(weight, vector))
    return value + gaps[joint] * weight[joint] / norm, vector


@lru_cache(maxsize=512)
def legendre(m, x, count, precision):
    """P of order m and degrees m, m + 1, .. at x, and the derivatives, none at -1 and 1. The precision
    is named for the cache."""
    one = 1 - x * x
    root = one.sqrt() ** m if m else Decimal(1)
    for odd in range(1, 2 * m, 2):
        root *= odd
    values = [root, (2 * m + 1) * x * root]
    for l in range(m + 1, m + count - 1):
        values.append(((2 * l + 1) * x * values[-1] - (l + m) * values[-2]) / (l - m + 1))
    if not one:
        return values, None
    below = [Decimal(0), *values]
    slopes = [((m + i + m) * below[i] - (m + i) * x * values[i]) / one for i in range(count)]
    return values, slopes


def nearest_eigenvalue(a, b, g, weight, start):
    """The eigenvalue nearest to the start, to all but 20 of the digits, and its vector."""
    value, limit = Decimal(start), Decimal(10) ** (20 - getcontext().prec)
    for _ in range(20):
        last = value
        value, vector = refined(a, b, g, weight, last)
        if abs(value - last) <= limit * max(1, abs(value)):
            return value, vector
    raise ArithmeticError(f"no eigenvalue is found near {start}")


def places_of(n, m, c):
    """How many places of the matrix decide the eigenvalue and the vector."""
    return (n - m) // 2 + int(c) + 60


def dlmf_eigenvalue(kind, m, n, c, start):
    """DLMF's eigenvalue nearest to the start, from DLMF's own matrix."""
    set_precision(n, c)
    parity, places = (n - m) % 2, places_of(n, m, c)
    a, b, g = dlmf_matrix(SIGNS[kind], m, parity, c, places)
    return nearest_eigenvalue(a, b, g, weights(m, parity, places), start)[0]


class Mode:
    """One mode. `start` is its characteristic value, right to some digits: the nearest eigenvalue is
    taken, and that it is the mode's is tested by the count of eigenvalues below it."""

    def __init__(self, kind, m, n, c, start):
        set_precision(n, c)
        self.kind, self.m, self.n, self.c = kind, m, n, c
        self.parity, self.index = (n - m) % 2, (n - m) // 2
        places = places_of(n, m, c)
        a, b, g = matrix(SIGNS[kind], m, self.parity, c, places)
        self.weight = weights(m, self.parity, places)
        value, vector = nearest_eigenvalue(a, b, g, self.weight, start)
        near = max(1, abs(value)) * Decimal("1e-25")
        counts = [sum(p < 0 for p in pivots(a, b, g, value + side)) for side in (-near, near)]
        if counts != [self.index, self.index + 1]:
            raise ArithmeticError(f"{start} belongs to another mode than {self.kind} m {m} n {n} c {c}")
        at_zero = self.legendre(Decimal(0))[self.parity]
        scale = at_zero[self.index] / sum(v * p for v, p in zip(vector, at_zero))
        self.value, self.d = value, [v * scale for v in vector]

    def legendre(self, x):
        """Values and derivatives at x of the Legendre functions that the coefficients belong to."""
        values, slopes = legendre(self.m, x, 2 * len(self.weight) + 1, getcontext().prec)
        chosen = slice(self.parity, 2 * len(self.weight) + self.parity, 2)
        return values[chosen], slopes and slopes[chosen]

    def angular(self, x):
        values, slopes = self.legendre(x)
        value = sum(d * p for d, p in zip(self.d, values))
        return value, slopes and sum(d * p for d, p in zip(self.d, slopes))

    def angular_by_powers(self, x, terms=2000):
        """The same value by the power series of the differential equation, without d."""
        m, square = self.m, SIGNS[self.kind] * Decimal(self.c) * Decimal(self.c)
        u = [Decimal(0)] * (terms + 2)
        u[self.parity] = self.legendre(Decimal(0))[self.parity][self.index]
        for k in range(self.parity, terms, 2):
            own = k * (k - 1) + 2 * (m + 1) * k - self.value + m * (m + 1)
            u[k + 2] = (own * u[k] + (square * u[k - 2] if k > 1 else 0)) / ((k + 1) * (k + 2))
        total = Decimal(0)
        for coefficient in reversed(u):
            total = total * x + coefficient
        return total * (1 - x * x).sqrt() ** m if m else total

    def factors(self):
        """d times (2m + r)!/r!, of which the sum normalises the radial functions."""
        factor, found = Decimal(factorial(2 * self.m + self.parity)), []
        for i, value in enumerate(self.d):
            r = 2 * i + self.parity
            if i > 0:
                factor = factor * (2 * self.m + r) * (2 * self.m + r - 1) / (r * (r - 1))
            found.append(value * factor)
        return found

    def first_on_disc(self):
        """The first oblate radial function on the disc, or its derivative where n - m is odd; the
        other of the two is zero. Of the sum over spherical Bessel functions one term is left."""
        factors, c = self.factors(), Decimal(self.c)
        odd = prod(range(3, 2 * (self.m + self.parity) + 2, 2))
        return (-1) ** self.index * factors[0] * c ** (self.m + self.parity) / odd / sum(factors)

    def first_off_disc(self, x):
        """The first oblate radial function and its derivative at x above zero: the sum over spherical
        Bessel functions. Of each term's derivative, that of x^-m times it, nothing cancels near zero."""
        m, c, factors = self.m, Decimal(self.c), self.factors()
        j = bessel(c * x, m + 2 * len(factors) + 2)
        terms = [((-1) ** (self.index + i) * factor, 2 * i + self.parity) for i, factor in enumerate(factors)]
        scale = (1 + x * x).sqrt() ** m / x**m / sum(factors)
        value = scale * sum(f * j[m + r] for f, r in terms)
        slope = scale * sum(f * (r * j[m + r] / x - c * j[m + r + 1]) for f, r in terms)
        return value, slope + m * x / (1 + x * x) * value

    def first_by_steps(self, x):
        """The same from the disc by Taylor series of the differential equation, without Bessel functions."""
        start, x = self.first_on_disc(), +x  # rounded, so that the steps can reach it
        pair, at = (Decimal(0), start) if self.parity else (start, Decimal(0)), Decimal(0)
        while at < x:
            step = min(x - at, (1 + at * at).sqrt() / 2, 20 / Decimal(self.c))
            pair, at = self.stepped(at, step, *pair), at + step
        root = (1 + x * x).sqrt() ** self.m
        return root * pair[0], root * (pair[1] + self.m * x / (1 + x * x) * pair[0])

    def second_on_disc(self):
        """The second one and its derivative on the disc."""
        return self.second_down(Decimal(FAR), self.neumann_sum(Decimal(FAR)), Decimal(0))

    def second_off_disc(self, arguments):
        """The second one and its derivative at each of the arguments above zero: from FAR on its sum over
        spherical Neumann functions, below by Taylor series of the differential equation from there down."""
        found, at, pair = {}, Decimal(FAR), None
        for x in sorted(arguments, reverse=True):
            if x >= FAR:
                u, du = self.neumann_sum(x)
            else:
                pair = self.second_down(at, pair or self.neumann_sum(at), x)
                at, (u, du) = x, pair
            root = (1 + x * x).sqrt() ** self.m
            found[x] = root * u, root * (du + self.m * x / (1 + x * x) * u)
        return [found[x] for x in arguments]

    def neumann_sum(self, x):
        """u and its derivative at x, which is well above 1: of the second kind (1 + x^2)^(m/2) u."""
        m, c, factors = self.m, Decimal(self.c), self.factors()
        y, slopes = neumann(c * x, m + 2 * len(factors) + 1)
        signs = [(-1) ** (self.index + i) for i in range(len(factors))]
        at = [m + 2 * i + self.parity for i in range(len(factors))]
        u = sum(s * f * y[l] for s, f, l in zip(signs, factors, at)) / sum(factors) / x**m
        du = c * sum(s * f * slopes[l] for s, f, l in zip(signs, factors, at)) / sum(factors) / x**m - m * u / x
        return u, du

    def second_down(self, x, pair, end):
        """u and its derivative from x down to the end. Where they do not oscillate they grow on the way,
        and so errors lose weight."""
        while x > end:
            most = min((1 + x * x).sqrt() / 2, 20 / Decimal(self.c))
            after = max(end, x - most)
            pair, x = self.stepped(x, after - x, *pair), after
        return pair

    def stepped(self, x, step, u, du):
        """From x to x + step by the Taylor series of (1 + x^2) u'' + 2 (m + 1) x u' + q u = 0, with
        q = m (m + 1) - cv + c^2 x^2. The radial function is (1 + x^2)^(m/2) u."""
        m, square = self.m, Decimal(self.c) * Decimal(self.c)
        q, a = m * (m + 1) - self.value + square * x * x, [u, du]
        value, slope, power, small, k = u + du * step, du, step, 0, 0
        limit = (abs(u) + abs(du * step)) * Decimal(10) ** -getcontext().prec
        while small < 4:
            total = 2 * x * (k + 1) * (k + m + 1) * a[k + 1] + (k * (k - 1) + 2 * (m + 1) * k + q) * a[k]
            total += square * ((2 * x * a[k - 1] if k > 0 else 0) + (a[k - 2] if k > 1 else 0))
            a.append(-total / ((1 + x * x) * (k + 2) * (k + 1)))
            slope += (k + 2) * a[-1] * power
            power *= step
            value += a[-1] * power
            small = small + 1 if (k + 2) * abs(a[-1] * power) < limit else 0
            k += 1
        return value, slope


def cosine_and_sine(z):
    extra = int(0.9 * float(z)) + 10
    getcontext().prec += extra
    sums, term, k = [Decimal(0)] * 4, Decimal(1), 0
    limit = Decimal(10) ** -getcontext().prec
    while k < z or term > limit:
        sums[k % 4] += term
        k += 1
        term = term * z / k
    getcontext().prec -= extra
    return sums[0] - sums[2], sums[1] - sums[3]


def bessel(z, count):
    """Spherical Bessel functions of degrees 0, 1, .. at z, by their recurrence from far above on down."""
    cosine, sine = cosine_and_sine(z)
    above, here, values = Decimal(0), Decimal(1), []
    for l in range(max(count, int(z)) + 2 * getcontext().prec, 0, -1):
        above, here = here, (2 * l + 1) / z * here - above
        if l <= count:
            values.append(here)
    values.reverse()
    zero, one = sine / z, sine / z / z - cosine / z
    scale = zero / values[0] if abs(zero) > abs(one) else one / values[1]
    return [value * scale for value in values]


def neumann(z, count):
    """Spherical Neumann functions of degrees 0, 1, .. at z, and the derivatives."""
    cosine, sine = cosine_and_sine(z)
    values = [-cosine / z, -cosine / z / z - sine / z]
    for l in range(1, count):
        values.append((2 * l + 1) / z * values[-1] - values[-2])
    below = [sine / z, *values]
    return values, [below[l] - (l + 1) / z * values[l] for l in range(count)]
