#!/usr/bin/env python3
"""compare.py OURS THEIRS IMAGE...: CPU time per step of two programs that run the same images."""

import os
import resource
import statistics
import subprocess
import sys

PAIRS = 7
LIMITS = ["--room", "4096", "--calls", "4294967295", "--steps", "4294967295"]


def run(program, image, *options):
    """One run on an empty tape: what it printed, what it said on standard error, and its CPU time in seconds."""
    before = resource.getrusage(resource.RUSAGE_CHILDREN)
    done = subprocess.run([program, *LIMITS, *options, "--code", image], stdin=subprocess.DEVNULL, capture_output=True, text=True)
    after = resource.getrusage(resource.RUSAGE_CHILDREN)
    if done.returncode != 0:
        sys.exit(f"{program} on {image}: status {done.returncode}: {done.stderr.strip()}")
    return done.stdout, done.stderr, after.ru_utime - before.ru_utime + after.ru_stime - before.ru_stime


def check(ours, theirs, image):
    """Both print the same and end well. How many steps the run takes."""
    printed, said, _ = run(theirs, image, "--count-steps")
    if run(ours, image)[0] != printed:
        sys.exit(f"{image}: {ours} and {theirs} print different things")
    if not printed.endswith("done\n"):
        sys.exit(f"{image}: does not end with done")
    return int(said)


def compare(ours, theirs, image):
    steps = check(ours, theirs, image)
    pairs = [(run(ours, image)[2], run(theirs, image)[2]) for _ in range(PAIRS)]
    best, median = ([statistic(times) * 1e9 / steps for times in zip(*pairs)] for statistic in (min, statistics.median))
    print(f"{os.path.basename(image)}: {steps:,} steps, both print the same; {PAIRS} runs of each")
    print(f"  {'':16}{'best':>10}{'median':>10}")
    for i, program in enumerate((ours, theirs)):
        print(f"  {os.path.basename(program):16}{best[i]:7.2f} ns{median[i]:7.2f} ns")
    print(f"  {'ratio':16}{best[0] / best[1]:10.2f}{median[0] / median[1]:10.2f}")


def main():
    if len(sys.argv) < 4:
        sys.exit("usage: compare.py OURS THEIRS IMAGE...")
    ours, theirs, *images = sys.argv[1:]
    for image in images:
        compare(ours, theirs, image)


main()
