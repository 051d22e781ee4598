#!/usr/bin/env python3
"""Runs scripts again with other numbers of workers, whose output and exit status must stay the same.

usage: tests/rows-on-workers.py PROGRAM FOLDER WORKERS..

FOLDER has, also in folders below it, files NAME.script, NAME.expected and NAME.status. Each `recover N` of a script, N
from 1 to 64, becomes `recover W`, for each W of WORKERS. A script with a command that the program doesn't know yet is
left out, as is one without a recovery. Behind the script every word of the region is peeked, whatever its length, so
that the regions are compared byte by byte; of what that run prints a hash is kept. The region that a script leaves is
checked as a file, of which the metadata alone are read, and from a pipe, which is read whole: both say the same.
"""

import hashlib
import re
import subprocess
import sys
import tempfile
from pathlib import Path

COMMANDS = (
    "format time recover replay tree free faults report poke cut peek stop list stat read"
    " create mkdir write size attr link unlink rmdir rename clean upgrade"
).split()
BLOCK = 4096
MOST_BLOCKS = 262144


def is_known(script):
    words = [line.split(" ")[0] for line in script.splitlines() if line and not line.startswith("#")]
    return "recover" in words and all(word in COMMANDS for word in words)


def with_workers(script, workers):
    return re.sub(r"(?m)^recover ([1-9]|[1-5][0-9]|6[0-4])$", f"recover {workers}", script)


def most_blocks(script):
    """The most blocks that a region of the script can have."""
    named = map(int, re.findall(r"(?m)^format [0-9]+ ([0-9]+) [0-9]+$", script))
    return max((blocks for blocks in named if blocks <= MOST_BLOCKS), default=0)


def run(program, script):
    done = subprocess.run([program, "run"], input=script.encode("latin-1"), capture_output=True, timeout=120)
    return done.stdout, done.returncode


def run_and_peek(program, script, blocks):
    """The hash of what the script prints with a peek of each word of so many blocks behind it, and the exit status."""
    with tempfile.TemporaryFile() as lines:
        lines.write(script.encode("latin-1"))
        for start in range(0, blocks * BLOCK, BLOCK):
            lines.write(b"".join(b"peek %d\n" % at for at in range(start, start + BLOCK, 8)))
        lines.seek(0)
        with subprocess.Popen([program, "run"], stdin=lines, stdout=subprocess.PIPE) as done:
            digest = hashlib.file_digest(done.stdout, "sha256").hexdigest()
    return digest, done.returncode


def both_ways(program, path, workers):
    """The number of workers for which a check of the region that a script leaves differs by the way of reading, or None."""
    with tempfile.TemporaryDirectory() as room:
        image = Path(room) / "image"
        with open(path, "rb") as script:
            subprocess.run([program, "run", "--save", image], stdin=script, capture_output=True, timeout=120)
        if not image.exists():
            return None
        for count in workers:
            found = []
            for place, given in ((image, b""), ("/dev/stdin", image.read_bytes())):
                done = subprocess.run([program, "check", place, "--workers", count], input=given, capture_output=True, timeout=120)
                found.append((done.stdout, done.returncode))
            if found[0] != found[1]:
                return count
    return None


def check(program, path, workers):
    """The first difference, or None."""
    script = path.read_bytes().decode("latin-1")
    expected = path.with_suffix(".expected").read_bytes()
    status = int(path.with_suffix(".status").read_text())
    whole = script if script.endswith("\n") or not script else script + "\n"
    words = None
    for count in workers:
        output, code = run(program, with_workers(script, count))
        if output != expected or code != status:
            return f"{path}: differs on {count} workers, status {code}"
        peeked = run_and_peek(program, with_workers(whole, count), most_blocks(script))
        if words not in (None, peeked):
            return f"{path}: the region differs on {count} workers"
        words = peeked
    differs = both_ways(program, path, workers)
    return f"{path}: a pipe differs from its file on {differs} workers" if differs else None


def main():
    if len(sys.argv) < 4:
        sys.exit(__doc__)
    program, folder, workers = sys.argv[1], Path(sys.argv[2]), sys.argv[3:]
    scripts = [p for p in sorted(folder.rglob("*.script")) if is_known(p.read_bytes().decode("latin-1"))]
    differences = [found for p in scripts if (found := check(program, p, workers))]
    print("\n".join(differences + [f"{len(scripts) - len(differences)} the same, {len(differences)} differ"]))
    sys.exit(1 if differences or not scripts else 0)


if __name__ == "__main__":
    main()
