#!/usr/bin/env python3
"""Loads the shared library and holds rows, radial functions, sheets and refusals of it against the record
program.

Usage: tests/interface/shared.py LIBRARY PROGRAM. Status 1: something differs.
"""
import ctypes
import struct
import subprocess
import sys

ALLOWANCE = 2**32 - 1
# The operation, its function, m, n and c; the second row meets a zero pivot.
ROWS = [(2, "spheroidal_oblate_row", 0, 4, 2.5), (1, "spheroidal_prolate_row", 0, 2, 1e-5)]
# The operation, its line's letter, its function and how many doubles it gives.
RADIAL = [(5, "F", "spheroidal_oblate_radial", 4), (8, "G", "spheroidal_oblate_first_kind", 2)]
# m, n, c, cv and x, off the disc and on it; the last two are refused.
ARGUMENTS = [(0, 4, 2.5, 16.9, 1.5), (0, 4, 2.5, 16.9, 0.25), (3, 3, 1.0, 12.0, -0.0)]
ARGUMENTS += [(1, 1, 1.0, 2.0, 201.0), (1, 1, 1.0, 2.0, -1.0)]
# The operations of the row and of the angular function, the sheet's function, m, n, each c and each x.
SHEETS = [
    (1, 3, "spheroidal_prolate_sheet", 1, 4, [2.5, 0.0, 1e-5], [-1.0, 0.25, 1.0, -0.0]),
    (2, 4, "spheroidal_oblate_sheet", 0, 2, [1.0, 10.0], [0.5]),
]
BUFFERS = (ctypes.c_double, ctypes.c_uint32, ctypes.c_double, ctypes.c_double, ctypes.c_uint8)


def call(function, m, n, c, places):
    """The function's number, and what the five buffers hold afterwards."""
    lent = [(kind * places)() for kind in BUFFERS]
    mode = [ctypes.c_uint16, ctypes.c_uint16, ctypes.c_double, ctypes.c_uint32]
    function.argtypes = mode + [kind for buffer in lent for kind in (type(buffer), ctypes.c_size_t)]
    function.restype = ctypes.c_uint8
    number = function(m, n, c, ALLOWANCE, *(word for buffer in lent for word in (buffer, places)))
    return number, [list(buffer) for buffer in lent]


def lines(m, values, steps, lowers, uppers, substituted):
    places = zip(values, steps, lowers, uppers, substituted)
    for mode, (value, step, lower, upper, flag) in enumerate(places, m):
        yield " ".join(["V 0", str(mode), str(step), *(struct.pack(">d", x).hex() for x in (value, lower, upper))])
        yield f"Z 0 {mode} {flag}"


def printed_by(program, operation, m, n, c, cv=0.0, x=0.0):
    record = b"SV" + struct.pack("<BHHIddd", operation, m, n, ALLOWANCE, c, cv, x)
    return subprocess.run([program], input=record, capture_output=True, check=True).stdout.decode()


def same(library, program, operation, name, m, n, c):
    printed = printed_by(program, operation, m, n, c)
    function, places = getattr(library, name), n - m + 1
    number, buffers = call(function, m, n, c, places)
    short, untouched = call(function, m, n, c, places - 1)
    answered = number == 0 and list(lines(m, *buffers)) == printed.splitlines()
    return answered and short == 9 and not any(map(any, untouched))


def same_radial(library, program, operation, letter, name, count, m, n, c, cv, x):
    function, places = getattr(library, name), [ctypes.c_double() for _ in range(count)]
    function.argtypes = [ctypes.c_uint16] * 2 + [ctypes.c_double] * 3 + [ctypes.POINTER(ctypes.c_double)] * count
    function.restype = ctypes.c_uint8
    number = function(m, n, c, cv, x, *map(ctypes.byref, places))
    words = " ".join(struct.pack(">d", place.value).hex() for place in places)
    line = f"R 0 {number}\n" if number else f"{letter} 0 {m} {n} {words}\n"
    return line == printed_by(program, operation, m, n, c, cv, x)


def same_sheet(library, program, row, angular, name, m, n, cs, xs):
    """The block, of which two places behind stay, against a row for each c and an angular function for each
    pair; and a block that is a place short."""
    function, places = getattr(library, name), 2 * len(cs) * len(xs)
    function.argtypes = [ctypes.c_uint16] * 2 + [ctypes.c_uint32] + [ctypes.c_void_p, ctypes.c_size_t] * 3
    function.restype = ctypes.c_uint8
    block = (ctypes.c_double * (places + 2))()
    lists = [(ctypes.c_double * len(numbers))(*numbers) for numbers in (cs, xs)]
    lent = [word for numbers in lists for word in (numbers, len(numbers))]
    short = function(m, n, ALLOWANCE, *lent, block, places - 1) == 13 and not any(block)
    answered = function(m, n, ALLOWANCE, *lent, block, places + 2) == 0
    printed = []
    for c in cs:
        last = printed_by(program, row, m, n, c).splitlines()[-2].split()
        cv = struct.unpack(">d", bytes.fromhex(last[4]))[0]
        for x in xs:
            printed += printed_by(program, angular, m, n, c, cv, x).split()[4:]
    return short and answered and [struct.pack(">d", place).hex() for place in block] == printed + ["0" * 16] * 2


library, program = ctypes.CDLL(sys.argv[1]), sys.argv[2]
right = [same(library, program, *row) for row in ROWS]
right += [same_radial(library, program, *radial, *call) for radial in RADIAL for call in ARGUMENTS]
right += [same_sheet(library, program, *sheet) for sheet in SHEETS]
sys.exit(0 if all(right) else 1)
