"""The hosts of hosts/c that a script asks: built with the library where they are not, run on frames, under settings."""

import os
import subprocess
import sys

ROOT = os.path.dirname(os.path.dirname(os.path.dirname(os.path.abspath(__file__))))
ARCHIVE = os.path.join(ROOT, "target", "staticlib", "libspatialjoin_c.a")


def newest(*paths):
    """When the youngest of these files, or of those below these folders, was written; 0 where one is not there."""
    times = []
    for path in paths:
        below = []
        for folder, folders, names in os.walk(path):
            below += [os.path.join(folder, name) for name in names]
            # What rt makes is no source.
            folders[:] = [name for name in folders if name != "out"]
        times += [os.path.getmtime(each) if os.path.exists(each) else 0 for each in below or [path]]
    return max(times)


def built(options, source, name):
    """The host of this source, built where it or the library is missing or older than its sources."""
    header, source = os.path.join(ROOT, "include", "spatialjoin.h"), os.path.join(ROOT, "hosts", "c", source)
    host = os.path.join(ROOT, "target", name)
    crates = [os.path.join(ROOT, name) for name in ("crates", "crates.txt")]
    compiler = os.environ.get("CC", "cc")
    steps = []
    if newest(ARCHIVE) < newest(*crates):
        print(f"{options.script}: proving and building the library (some minutes the first time)", file=sys.stderr)
        steps.append([os.path.join(ROOT, "scripts", "build-library")])
    if steps or newest(host) < newest(ARCHIVE, header, source):
        steps.append([compiler, "-O2", "-I", os.path.dirname(header), "-o", host, source, ARCHIVE])
    for step in steps:
        try:
            done = subprocess.run(step, cwd=ROOT, stdin=subprocess.DEVNULL, stdout=subprocess.PIPE, stderr=subprocess.STDOUT)
        except OSError as error:
            options.fail(f"{step[0]}: {error.strerror}")
        if done.returncode:
            sys.stderr.buffer.write(done.stdout[-2000:])
            options.fail(f"{' '.join(step)} failed")
    return host


def settings(options):
    """The three numbers of the option, or none."""
    given = options.values.get("settings")
    if given is None:
        return []
    numbers = given.split(",")
    if len(numbers) != 3 or not all(number.isdecimal() for number in numbers) or any(
        int(number) >= bound for number, bound in zip(numbers, (2**8, 2**32, 2**32))
    ):
        options.fail(f"--settings {given}: not three numbers, of 8, 32 and 32 bits")
    return numbers


def answers(options, command, frames, last):
    """What the host writes for each frame: its lines up to one that begins with one of these words."""
    lines = "".join(frame.hex() + "\n" for frame in frames)
    try:
        done = subprocess.run(command, input=lines, stdout=subprocess.PIPE, encoding="ascii")
    except OSError as error:
        return options.fail(f"{command[0]}: {error.strerror}")
    found = [[]]
    for line in done.stdout.splitlines():
        found[-1].append(line)
        if line.startswith(last):
            found.append([])
    if done.returncode or len(found) != len(frames) + 1:
        options.fail(f"{command[0]}: {len(found) - 1} answers to {len(frames)} frames, status {done.returncode}")
    return found
