#!/usr/bin/env python3
"""Measures how a federate file is read whole, at three sizes up to the limit of a file.

Run it at any place: `python3 bench/federate_files.py`. The program does more than read, and refuses a federate with so
many inputs, so this makes a program of a few lines that calls `fed_config::read_federate`, in a folder of its own
beside copies of the crates below, and has `rt` prove and build it, which takes some minutes. It prints seconds of the
processor (the least of several runs), peak memory and the exponents of growth, and ends with status 1 where one of
them passes the limit.
A peak of some 15 MiB is that of the Python process before it became the program.
"""
import json
import os
import pathlib
import shutil
import subprocess
import sys
import tempfile

from measured import ROOT, exponent

FILE_LIMIT = 16_777_216  # the greatest length of a file, in bytes
INTERFACE_LIMIT = 32_768  # the greatest number of interfaces in a list
FRACTIONS = (1 / 16, 1 / 4, 1)
RUNS = 5
EXPONENT_LIMIT = 1.2

MAIN = """// Reads the federate file of the folder that it runs in, and prints how much it holds.
#![tactic(auto)]

use fed_config::read_federate;
use std::{fs, io};

fn main(rt: HostRuntime) -> io::Result<()> {
    let bytes = fs::read(&rt, "file.json")?;
    match read_federate(rt.alloc(), bytes.as_slice()) {
        Ok(config) => println!(rt; "read {} {}", config.federate.inputs.len(), config.script.is_some())?,
        Err(refusal) => println!(rt; "{:?} {}", refusal.cause, refusal.path)?,
    }
    Ok(())
}
"""


def crates_below(name):
    """The lines of crates.txt of a crate and of those below it, by name."""
    lines = {}
    for line in (ROOT / "crates.txt").read_text().splitlines():
        if ":" in line and not line.startswith("#"):
            lines[line.split(":")[0].split()[0]] = line
    found, waiting = {}, [name]
    while waiting:
        crate = waiting.pop()
        if crate in lines and crate not in found:
            found[crate] = lines[crate]
            waiting += lines[crate].split(":")[1].split()
    return found


def build(folder):
    """Makes the program in a folder, and answers its path."""
    below = crates_below("fed_config")
    for name in below:
        shutil.copytree(ROOT / "crates" / name, folder / "crates" / name, ignore=shutil.ignore_patterns("out", "must-fail"))
    source = folder / "crates/read_file/src"
    source.mkdir(parents=True)
    (source / "main.rt").write_text(MAIN)
    (folder / "crates.txt").write_text("\n".join([*below.values(), "read_file: fed_config"]) + "\n")
    shutil.copy(ROOT / "HANDLES", folder / "HANDLES")
    log = folder / "log.txt"
    with open(log, "wb") as sink:
        subprocess.run(["rt", "run"], cwd=source.parent, stdin=subprocess.DEVNULL, stdout=sink, stderr=sink, check=False)
    program = source.parent / "out/read_file"
    if not program.is_file():
        sys.exit("federate_files: the program wasn't built:\n" + log.read_text()[-2000:])
    return program


def write_list(file, head, one, tail, most_bytes, most_items):
    """Writes a list of texts within both limits, part by part: this process stays small beside what it measures."""
    room = most_bytes - len(head) - len(tail)
    file.write(head)
    for number in range(most_items):
        part = ("," if number else "") + one(number)
        if len(part) > room:
            break
        room -= len(part)
        file.write(part)
    file.write(tail)


def compact(value):
    return json.dumps(value, separators=(",", ":"))


def action(number):
    return compact((
        {"do": "request", "time": "%dns" % number},
        {"do": "publish", "to": "x", "value": number},
        {"do": "send", "from": "e", "to": "A/e", "data": {"hex": "%016x" % number}},
    )[number % 3])


def interface(number):
    return compact({"key": "k%d" % number, "type": "int", "targets": ["F%d/%s" % (number, "x" * 200), "y" * 240]})


def with_actions(file, size):
    head = '{"publications":[{"key":"x","type":"int"}],"endpoints":[{"name":"e"}],"script":['
    write_list(file, head, action, "]}", size, 1_000_000)


def with_inputs(file, size):
    write_list(file, '{"inputs":[', interface, "]}", size, INTERFACE_LIMIT)


def with_other_keys(file, size):
    """One object with many keys that stand in no table."""
    write_list(file, "{", lambda number: '"other_%08d":%d' % (number, number % 10), "}", size, 1_000_000)


def run(program, folder):
    """Seconds of the processor, and peak memory in MiB."""
    child = subprocess.Popen([str(program)], cwd=folder, stdout=subprocess.PIPE)
    said = child.stdout.read()
    _, status, usage = os.wait4(child.pid, 0)
    if os.waitstatus_to_exitcode(status) != 0 or not said.startswith(b"read "):
        sys.exit("federate_files: the program said %r" % said)
    return usage.ru_utime + usage.ru_stime, usage.ru_maxrss / 1024


def measure(name, write_to, program, folder):
    """Prints the three sizes of one shape, and answers whether they keep the limit."""
    print("%s: MiB of file   processor seconds   peak MiB" % name)
    rows = []
    for fraction in FRACTIONS:
        path = folder / "file.json"
        with open(path, "w") as file:
            write_to(file, int(FILE_LIMIT * fraction))
        size = path.stat().st_size
        runs = [run(program, folder) for _ in range(RUNS)]
        rows.append((size, min(r[0] for r in runs), max(r[1] for r in runs)))
        print("%s  %11.1f   %17.3f   %8.0f" % (" " * len(name), size / 2**20, *rows[-1][1:]))
    first, last = rows[0], rows[-1]
    in_time = exponent(first[0], last[0], first[1], last[1])
    in_memory = exponent(first[0], last[0], first[2], last[2])
    print("%s  exponent of time %.2f, of memory %.2f (limit %.1f)" % (" " * len(name), in_time, in_memory, EXPONENT_LIMIT))
    return max(in_time, in_memory) < EXPONENT_LIMIT


def main():
    if shutil.which("rt") is None:
        print("federate_files: passed over, since the Rattle toolchain's rt isn't on the path")
        return 0
    with tempfile.TemporaryDirectory() as name:
        folder = pathlib.Path(name)
        program = build(folder)
        kept = [
            measure("actions", with_actions, program, folder),
            measure("inputs", with_inputs, program, folder),
            measure("other keys", with_other_keys, program, folder),
        ]
    return 0 if all(kept) else 1


if __name__ == "__main__":
    sys.exit(main())
