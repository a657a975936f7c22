"""Runs the reader and pg_waldump over one log in turn, and prints the best time, speed and peak memory of each.

usage: compare.py PROGRAM SEGMENTS
"""
import os
import sys
import tempfile

sys.path.insert(0, os.path.join(os.path.dirname(os.path.abspath(__file__)), ".."))
from measure import MAGICS, Measured, length, tell_ratio, timed, waldump, waldump_words, written

RUNS = 7


def main():
    program, segments = os.path.abspath(sys.argv[1]), sys.argv[2]
    with tempfile.TemporaryDirectory() as folder:
        timed([program, "make", segments], folder)
        start, end = written(folder).split()
        words = waldump_words(folder, start, end)
        ours = Measured("reader", length(start, end))
        theirs = Measured("pg_waldump --quiet", length(start, end))
        for _ in range(RUNS):
            ours.run([program, "read"], folder)
            own = written(folder)
            if words:
                theirs.run(words, folder)
        print("log from %s to %s, best of %d runs each" % (start, end, RUNS))
        ours.tell()
        print("  " + own.replace("\n", ", "))
        if words:
            theirs.tell()
            tell_ratio(ours, theirs)
            print("  pg_waldump is of release %s" % waldump()[1])
        else:
            print("pg_waldump of release %s is not installed: no comparison" % ", ".join(MAGICS))


main()
