#!/usr/bin/env python3
"""How many instructions the job program takes, counted by valgrind: for a take of some cells, and for one question
for places after it. Call it with the path of the program: tools/job_costs.py crates/strip_job/out/strip_job

The instructions of an empty job are taken off, so that what is left is the command's own: for a take that of its C
commands and its T, for a question that of its F alone."""

import re
import subprocess
import sys
import tempfile

from jobs_by_the_rules import command, take

SIZES = [1_000, 2_000, 4_000, 8_000]
MONTHS = [31, 28, 31, 30, 31, 30, 31, 31, 30, 31, 30, 31]


def month_days(count):
    """The days of month after month, each by its number in the month."""
    days = []
    while len(days) < count:
        for length in MONTHS:
            days += range(1, length + 1)
    return days[:count]


STRIPS = {
    "one glyph": lambda count: [1] * count,
    "weekdays": lambda count: [place % 7 + 1 for place in range(count)],
    "days of months": month_days,
    "parities": lambda count: [bin(place).count("1") % 2 for place in range(count)],
}


def run(program, job):
    return subprocess.run([program], input=job, capture_output=True, check=True).stdout.decode()


def instructions(program, job):
    with tempfile.TemporaryDirectory() as folder:
        words = ["valgrind", "--tool=callgrind", f"--callgrind-out-file={folder}/out", program]
        said = subprocess.run(words, input=job, capture_output=True, check=True).stderr.decode()
    return int(re.search(r"Collected *: *(\d+)", said).group(1))


def main(program):
    nothing = instructions(program, b"")
    print(f"an empty job: {nothing:,}")
    for name, strip in STRIPS.items():
        for size in SIZES:
            job = take(strip(size))
            number = int(run(program, job).split()[1])
            half = size // 2
            question = command("F", number, 0, half, 0, 2 * half - 1)
            taken = instructions(program, job)
            asked = instructions(program, job + question)
            answer = run(program, job + question).splitlines()[1]
            print(f"{name}, {size:,} cells: take {taken - nothing:,}, places {asked - taken:,} ({answer}), number {number}")


main(sys.argv[1])
