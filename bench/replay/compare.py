"""Runs `standby scan t` over logs of several sizes, and the reader alone in turn, and prints the best time, speed and
peak memory of each, and how they grow.

usage: compare.py STANDBY BENCH_LAYERS MIB:BLOCKS ..
"""
import os
import sys

sys.path.insert(0, os.path.join(os.path.dirname(os.path.abspath(__file__)), ".."))
from measure import over_log, tell_growth

RUNS = 3


def check(text, log):
    """The scan stands at the log's end, and gave each row once."""
    lines = text.split("\n")
    ids = {line.split("\t")[0] for line in lines if line.startswith("row ")}
    if lines[0] != "scan 1 at " + log.end or lines[-1] != "end 1" or len(ids) != log.kinds["inserts"]:
        sys.exit("the scan is not of the whole log: %s, %d rows, %s" % (lines[0], len(ids), lines[-1]))


def main():
    standby, reader = (os.path.abspath(word) for word in sys.argv[1:3])
    ours = ("standby scan", [standby, "scan", "t"])
    tell_growth([over_log(word, RUNS, ours, check, lambda folder, log: [("reader", [reader, "read"])]) for word in sys.argv[3:]])


main()
