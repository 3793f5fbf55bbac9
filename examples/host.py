#!/usr/bin/env python3
"""The host of host.c by Python's ctypes, which prints the same: a message is encoded, sent over a noisy path, decoded and read back; and
two calls are refused.

    host.py [LIBRARY]    libmalligovu.so by its path; else where the system looks for libraries
"""
import ctypes
import sys
from ctypes import c_int8, c_size_t, c_uint8, c_uint32, c_uint64

# of malligovu.h
MOST_BYTES = 8
TAKEN, WRONG_COUNT, UNSENT_BIT = 0, 4, 9
DISTANCE, FLIPS, CANDIDATES, FIGURES = 0, 1, 2, 3

# the code: m = 6 and t = 3 give words of 63 bits with 45 message bits; s = 3 of them are left out, so 60 bits are sent
M, T, S, BITS, ORDER = 6, 3, 3, 60, 2


def lent(element):
    """The types of a pointer and of the length after it."""
    return [ctypes.POINTER(element), c_size_t]


def library(path):
    """The functions. Without argtypes a number would be passed as an int, and a length would lose its upper half."""
    found = ctypes.CDLL(path)
    code = [c_uint32, c_uint32, c_uint32]
    found.malligovu_encode.argtypes = code + [c_uint64] + lent(c_uint8)
    found.malligovu_read.argtypes = code + lent(c_uint8) + lent(c_uint64)
    found.malligovu_fault.argtypes = code + lent(c_uint8)
    found.malligovu_decode.argtypes = code + [c_uint32] + lent(c_int8) + lent(c_uint8) + lent(c_uint32)
    for function in (found.malligovu_encode, found.malligovu_read, found.malligovu_fault, found.malligovu_decode):
        function.restype = c_uint32
    return found


def noises():
    """Noise of a deviation near 0.6, without end: twelve uniform numbers, summed, are near enough to a normal one."""
    state = 1
    while True:
        total = -6.0
        for _ in range(12):
            state = (state * 1664525 + 1013904223) % 2**32
            total += state / 2**32
        yield 0.6 * total


def heard(bit, noise):
    """A bit 0 is sent as +1 and a bit 1 as -1; what is heard is a signed byte, 48 where there is no noise."""
    return max(-128, min(127, int(48 * ((-1 if bit else 1) + noise))))


def gives(call, number, wanted=TAKEN):
    if number != wanted:
        sys.exit(f"{call} returned {number}")


def main():
    calls = library(sys.argv[1] if len(sys.argv) > 1 else "libmalligovu.so")
    message, back = 0x2A5F00C0DE, (c_uint64 * 1)()
    sent, got, figures = (c_uint8 * MOST_BYTES)(), (c_uint8 * MOST_BYTES)(), (c_uint32 * FIGURES)()

    gives("encode", calls.malligovu_encode(M, T, S, message, sent, MOST_BYTES))
    bits = [sent[i // 8] >> i % 8 & 1 for i in range(BITS)]
    soft = (c_int8 * BITS)(*map(heard, bits, noises()))
    wrong = sum((value < 0) != bit for value, bit in zip(soft, bits))
    print(f"sent      {message:010x} in {BITS} bits, {wrong} of them heard wrongly")

    gives("decode", calls.malligovu_decode(M, T, S, ORDER, soft, BITS, got, MOST_BYTES, figures, FIGURES))
    print(f"decoded   soft distance {figures[DISTANCE]}, {figures[FLIPS]} bits put right, {figures[CANDIDATES]} candidates")

    # where S > 0 a decoded word may have a one that was never sent, and is then refused here
    gives("read", calls.malligovu_read(M, T, S, got, MOST_BYTES, back, 1))
    print(f"read      {back[0]:010x}")

    # one value is missing: nothing is written
    gives("decode", calls.malligovu_decode(M, T, S, ORDER, soft, BITS - 1, got, MOST_BYTES, figures, FIGURES), WRONG_COUNT)
    print(f"refused   {WRONG_COUNT}, a count of values other than n - s")

    # two ones above the 60 bits that are sent, at 61 and 62: the number says what is wrong, and malligovu_fault where
    sent[7] |= 1 << 5 | 1 << 6
    gives("read", calls.malligovu_read(M, T, S, sent, MOST_BYTES, back, 1), UNSENT_BIT)
    place = calls.malligovu_fault(M, T, S, sent, MOST_BYTES)
    print(f"refused   {UNSENT_BIT}, a one at the unsent position {place}")
    return back[0] != message or place != 61


sys.exit(main())
