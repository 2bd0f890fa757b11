#!/usr/bin/env python3
"""Measures `sim` on three shapes of federations, at three numbers of federates and three of steps.

Run it at any place: `python3 bench/shapes.py`. It needs the built program (`./helics_run` builds it). An event is
a grant or an item that is handed over. It prints seconds of the processor (the least of several runs), peak memory,
nanoseconds an event, and the exponents of growth in federates and in steps. A peak of some 20 MiB is that of the
Python process before it became the program. It ends with status 1 where the exponent in steps passes its limit.
"""
import json
import pathlib
import sys
import tempfile

from measured import PROGRAM, exponent, sim

FEDERATES = (32, 128, 512)
STEPS = (1000, 4000, 16000)
FEW_FEDERATES = 8  # while the steps grow
FEW_STEPS = 40  # while the federates grow
RUNS = 3
EXPONENT_LIMIT = 1.2  # in steps
FAR = {"do": "request", "time": "1000000000ns"}


def at(step):
    return {"do": "request", "time": "%dns" % (step + 1)}


def steps_alone(number, count, steps):
    """No interface: every federate asks for the next nanosecond."""
    return {"script": [at(step) for step in range(steps)]}


def ring(number, count, steps):
    """Each hears the one before it, and publishes one more than it heard."""
    action = {"do": "publish_sum", "to": "x", "input": 0, "add": 1}
    return {
        "publications": [{"key": "x", "type": "int"}],
        "subscriptions": [{"key": "F%d/x" % ((number - 1) % count), "type": "int"}],
        "script": [action, FAR] * steps,
    }


def fan_out(number, count, steps):
    """All others hear the first."""
    if number > 0:
        return {"subscriptions": [{"key": "F0/x", "type": "int"}], "script": [FAR] * steps}
    script = []
    for step in range(steps):
        script += [at(step), {"do": "publish", "to": "x", "value": step}]
    return {"publications": [{"key": "x", "type": "int"}], "script": script}


def write_files(folder, shape, count, steps):
    entries = []
    for number in range(count):
        name = "F%d" % number
        file = dict(shape(number, count, steps), name=name)
        (folder / (name + ".json")).write_text(json.dumps(file))
        entries.append({"name": name, "exec": "$self fed %s.json" % name})
    (folder / "run.json").write_text(json.dumps({"federates": entries}))


def measure(shape, count, steps):
    """Prints one line, and answers the seconds."""
    with tempfile.TemporaryDirectory() as name:
        folder = pathlib.Path(name)
        write_files(folder, shape, count, steps)
        runs = [sim(folder) for _ in range(RUNS)]
    seconds, peak, out = min(r[0] for r in runs), max(r[1] for r in runs), runs[0][2]
    events = out.count(b"\ngrant ") + out.count(b"\nvalue ")
    print("  %9d   %5d   %8d   %7.3f   %8.0f   %12.0f" % (count, steps, events, seconds, peak, seconds * 1e9 / events))
    return seconds


def main():
    if not PROGRAM.is_file():
        print("shapes: passed over, since the program isn't built; run ./helics_run once")
        return 0
    kept = True
    for name, shape in (("steps alone", steps_alone), ("ring", ring), ("fan-out", fan_out)):
        print("%s" % name)
        print("  federates   steps     events   seconds   peak MiB   ns an event")
        by_federates = [measure(shape, count, FEW_STEPS) for count in FEDERATES]
        by_steps = [measure(shape, FEW_FEDERATES, steps) for steps in STEPS]
        in_federates = exponent(FEDERATES[0], FEDERATES[-1], by_federates[0], by_federates[-1])
        in_steps = exponent(STEPS[0], STEPS[-1], by_steps[0], by_steps[-1])
        print("  exponent in federates %.2f, in steps %.2f (limit %.1f)" % (in_federates, in_steps, EXPONENT_LIMIT))
        kept = kept and in_steps < EXPONENT_LIMIT
    return 0 if kept else 1


if __name__ == "__main__":
    sys.exit(main())
