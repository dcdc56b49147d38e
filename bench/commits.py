#!/usr/bin/env python3
"""Prints what a COMMIT of many writes takes on each store, where all are of one partition and where each is of its own.

bench/commits.py PROGRAM [WRITES]: of a transaction that inserts 1,000 rows, or so many, how many calls its COMMIT makes, and the instructions
that it takes, in millions: those of the run without those of the same run with ROLLBACK in place of COMMIT.
"""
import subprocess
import sys
import tempfile

import loads


def script(store, row, writes, end):
    places = ["place coordinator " + store, "place shop " + store]
    rows = ["  INSERT INTO shop.item (cat, n, qty) VALUES (%s, 7)" % (row % n) for n in range(writes)]
    return "\n".join([*places, "schema " + loads.ITEMS, "client c1", "  BEGIN", *rows, "  " + end, "run", "rest"]) + "\n"


def calls(program, text):
    """How many calls came after the COMMIT was taken."""
    report = subprocess.run([program, "replay"], input=text.encode(), stdout=subprocess.PIPE, check=True).stdout.decode()
    return report[report.index(": COMMIT\n"):].count(" call 1 ")


def main():
    program, writes = sys.argv[1], int(sys.argv[2]) if len(sys.argv) > 2 else 1000
    with tempfile.TemporaryDirectory() as folder:
        print("| store | partitions | calls | M instructions |\n|---|---|---|---|")
        for store in ["ordered", "hashed", "sqlite", "sharded"]:
            for partitions, row in [(1, "1, %d"), (writes, "%d, 1")]:
                whole, without = (script(store, row, writes, end) for end in ["COMMIT", "ROLLBACK"])
                count = loads.instructions(program, whole, folder) - loads.instructions(program, without, folder)
                print("| %s | %d | %d | %d |" % (store, partitions, calls(program, whole), round(count / 1e6)), flush=True)


if __name__ == "__main__":
    main()
