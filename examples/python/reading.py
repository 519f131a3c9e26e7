"""Reads a chain at a record, checks a rules text, runs it by messages, and reads the chain again:
reading.py REGISTER RULES CHAIN RECORD. The library is libplot.so, or what PLOT_LIBRARY names."""

import ctypes
import os
import sys

LINE, FINISHED, EXCHANGES, MESSAGES, FILLED, MOST_LINES = 0, 1, 2, 3, 6, 7  # places of the answer, see plot.h
plot = ctypes.CDLL(os.environ.get("PLOT_LIBRARY", "libplot.so"))
SIZE, U64, U16 = ctypes.c_size_t, ctypes.c_uint64, ctypes.c_uint16
Answer = ctypes.c_uint64 * 8


def call(function, *lent):
    """Calls the library, and ends where it refuses: the answer."""
    answer = Answer()
    number = function(*lent, answer)
    if number != 0:
        sys.exit(f"{function.__name__}: refused {number} at line {answer[LINE]}")
    return answer


def text(data):
    """Bytes as the library takes them: where they are, and how many."""
    return ctypes.c_char_p(data), SIZE(len(data))


def print_reading(register, chain, record):
    value = ctypes.c_int64()
    answer = call(plot.plot_read, *text(register), *text(chain.encode()), U64(record), ctypes.byref(value))
    print(f"{chain} at {record} is {value.value if answer[FILLED] else 'unfilled'}")


def main(register, rules, chain, record):
    register, rules, record = open(register, "rb").read(), open(rules, "rb").read(), int(record)
    print_reading(register, chain, record)
    answer = call(plot.plot_check, *text(register), *text(rules))
    # The register has passed, so it has its sizes: n, r and m.
    n, r, m = (int.from_bytes(register[place : place + 4], "little") for place in (0, 4, 8))
    places = n * (answer[MOST_LINES] + r + m + 1)
    out, marks = ctypes.create_string_buffer(len(register)), ctypes.create_string_buffer(places + 1)
    values = (ctypes.c_int64 * (places + 1))()
    lent = (out, SIZE(len(register)), values, SIZE(places), marks, SIZE(places))
    answer = call(plot.plot_run_messages, *text(register), *text(rules), U16(1000), *lent)
    print(f"{answer[FINISHED]} steps, {answer[EXCHANGES]} exchanges, {answer[MESSAGES]} messages")
    print_reading(out.raw, chain, record)


if len(sys.argv) != 5:
    sys.exit("usage: reading.py REGISTER RULES CHAIN RECORD")
main(*sys.argv[1:])
