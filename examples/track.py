#!/usr/bin/env python3
"""Tracks a pass from Python by ctypes: a carrier at 250 Hz with the bank on, which is silent for three blocks.

usage: track.py LIBRARY, a shared library made of libgibsumac.a (examples/programs makes one and runs this)."""
import ctypes
import math
import sys
from ctypes import POINTER, Structure, c_bool, c_double, c_float, c_size_t, c_uint64

PAIRS, WINDOWS, VERSION = 400, 8192, 3


class Settings(Structure):
    _fields_ = [("rate", c_uint64), ("factor", c_uint64), ("modulation", c_uint64), ("adaptive", c_bool), ("dual_lock", c_bool), ("bank", c_bool),
                ("two", c_bool), ("fade", c_uint64), ("ratio", c_double)]


class Carriers(Structure):
    _fields_ = [(name, c_double) for name in ("nominal", "target", "target2", "frequency2")]


class Channel(Structure):
    """Held as it is: 1,968 bytes, aligned as the doubles in it are. gibsumac.h has its fields."""
    _fields_ = [("words", c_uint64 * 246)]


class Answer(Structure):
    _fields_ = [("refusal", c_uint64), ("locked", c_bool), ("tracker", c_uint64), ("in_fade", c_bool), ("fade_count", c_uint64), ("ended", c_bool),
                ("phase", c_double), ("frequency", c_double), ("snr", c_double), ("electrons", c_double), ("metric", c_double)]


class Returned(Structure):
    _fields_ = [("refusal", c_uint64), ("channel", Channel)]


class Blocked(Structure):
    _fields_ = [("answer", Answer), ("channel", Channel)]


def load(path):
    library = ctypes.CDLL(path)
    floats, doubles = POINTER(c_float), POINTER(c_double)
    for name, result, arguments in [
        ("version", c_uint64, []),
        ("channel_size", c_size_t, []),
        ("survey", c_uint64, [floats, c_size_t]),
        ("open", Returned, [Settings]),
        ("assign", Returned, [Channel, Carriers]),
        ("block", Blocked, [Channel, c_uint64, floats, c_size_t, floats, c_size_t, doubles, c_size_t]),
        ("release", Channel, [Channel]),
    ]:
        function = getattr(library, "gibsumac_" + name)
        function.restype, function.argtypes = result, arguments
    if library.gibsumac_version() != VERSION or library.gibsumac_channel_size() != ctypes.sizeof(Channel):
        sys.exit("track.py: the library is another version")
    return library


def accepted(call, refusal):
    if refusal:
        sys.exit(f"{call} refused {refusal}")


def main():
    if len(sys.argv) != 2:
        sys.exit(__doc__.split("\n\n")[1])
    core = load(sys.argv[1])
    opened = core.gibsumac_open(Settings(rate=40000, factor=1, adaptive=True, dual_lock=True, bank=True, fade=2, ratio=1.0))
    accepted("open", opened.refusal)
    assigned = core.gibsumac_assign(opened.channel, Carriers(target=137.5e6))
    accepted("assign", assigned.refusal)
    channel, windows, none = assigned.channel, (c_double * WINDOWS)(), (c_float * 1)()
    print("block locked offset/Hz snr/dB metric")
    for block in range(8):
        silent = 3 <= block < 6
        turns = [2 * math.pi * 250 * (block * PAIRS + i) / 40000 for i in range(PAIRS)]
        samples = (c_float * (2 * PAIRS))(*([0.0] * 2 * PAIRS if silent else [f(t) for t in turns for f in (math.cos, math.sin)]))
        flag = core.gibsumac_survey(samples, 2 * PAIRS)
        r = core.gibsumac_block(channel, flag, samples, 0 if flag > 1 else 2 * PAIRS, none, 0, windows, WINDOWS)
        accepted("block", r.answer.refusal)
        channel, a = r.channel, r.answer
        print(f"{block + 1} {a.locked:d} {a.frequency - 137.5e6:.3f} {a.snr:.1f} {a.metric:.3f}")
    core.gibsumac_release(channel)


main()
