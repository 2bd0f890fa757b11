#!/usr/bin/env python3
"""Measures `sim` on one federate with many actions, at three sizes up to the limit of a file.

Run it at any place: `python3 bench/steps.py`. It needs the built program (`./helics_run` builds it). It prints
seconds of the processor (the least of several runs), peak memory and the exponents of growth, and ends with
status 1 where the exponent of time or the peak passes its limit.
"""
import json
import pathlib
import sys
import tempfile

from measured import PROGRAM, exponent, sim

FILE_LIMIT = 16_777_216  # the greatest length of a file, in bytes
ACTION_LIMIT = 1_000_000  # the greatest number of actions
FRACTIONS = (0.25, 0.5, 1.0)
RUNS = 5
EXPONENT_LIMIT = 1.2
PEAK_LIMIT = 1024  # MiB


def requests(number):
    return '{"do":"request","time":"%dns"}' % number


def finishes(number):
    return '{"do":"finish"}'


def federate_file(action, most_bytes, most_actions):
    """The text of a federate file within both limits, and how many actions it has."""
    head, tail = '{"name":"A","script":[', "]}"
    room = most_bytes - len(head) - len(tail)
    parts = []
    while len(parts) < most_actions:
        part = ("," if parts else "") + action(len(parts) + 1)
        if len(part) > room:
            break
        room -= len(part)
        parts.append(part)
    return head + "".join(parts) + tail, len(parts)


def run(folder, grants):
    """Seconds of the processor and peak memory in MiB of one run, which prints so many grants."""
    seconds, peak, out = sim(folder)
    printed = out.count(b"\ngrant ")
    if printed != grants:
        sys.exit("steps: %d grants and not %d" % (printed, grants))
    return seconds, peak


def measure(name, action, grants_of, folder):
    """Prints the three sizes of one shape, and answers whether they keep the limits."""
    print("%s: actions   MiB of file   processor seconds   peak MiB" % name)
    rows = []
    for fraction in FRACTIONS:
        text, count = federate_file(action, int(FILE_LIMIT * fraction), int(ACTION_LIMIT * fraction))
        (folder / "a.json").write_text(text)
        runs = [run(folder, grants_of(count)) for _ in range(RUNS)]
        seconds, peak = min(r[0] for r in runs), max(r[1] for r in runs)
        rows.append((count, seconds, peak))
        print("%s  %8d   %11.1f   %17.2f   %8.0f" % (" " * len(name), count, len(text) / 2**20, seconds, peak))
    first, last = rows[0], rows[-1]
    time_grows = exponent(first[0], last[0], first[1], last[1])
    memory_grows = exponent(first[0], last[0], first[2], last[2])
    print("%s  exponent of time %.2f (limit %.1f), of memory %.2f; peak %.0f MiB (limit %d)" % (
        " " * len(name), time_grows, EXPONENT_LIMIT, memory_grows, last[2], PEAK_LIMIT))
    return time_grows < EXPONENT_LIMIT and last[2] < PEAK_LIMIT


def main():
    if not PROGRAM.is_file():
        print("steps: passed over, since the program isn't built; run ./helics_run once")
        return 0
    with tempfile.TemporaryDirectory() as name:
        folder = pathlib.Path(name)
        (folder / "run.json").write_text(json.dumps({"federates": [{"name": "A", "exec": "$self fed a.json"}]}))
        kept = [
            measure("requests", requests, lambda count: count + 1, folder),
            measure("finishes", finishes, lambda count: 1, folder),
        ]
    return 0 if all(kept) else 1


if __name__ == "__main__":
    sys.exit(main())
