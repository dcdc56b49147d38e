#!/usr/bin/env python3
"""Runs the scripts by which the program's time and memory are compared, and prints what each takes.

bench/loads.py PROGRAM [LOAD ...]: of each load, or of these, the instructions in millions, as `valgrind --tool=callgrind` counts them, and the
most memory in KiB that the process had. bench/loads.py --write FOLDER writes the scripts there instead.
"""
import os
import random
import subprocess
import sys
import tempfile

ACCOUNTS = '{"bank.account":{"partition-key":["id"],"columns":{"id":"INT","balance":"INT"}}}'
ITEMS = '{"shop.item":{"partition-key":["cat"],"clustering-key":["n"],"columns":{"cat":"INT","n":"INT","qty":"INT"}}}'


def of_one_client(schema, statements):
    lines = ["schema " + schema, "client c1"] + ["  " + s for s in statements] + ["run", "rest"]
    return "\n".join(lines) + "\n"


def transaction(*statements):
    return ["BEGIN", *statements, "COMMIT"]


def gets(n):
    """n transactions with two INSERTs, of which most second ones meet a row, and two SELECTs of single rows."""
    insert = "INSERT INTO bank.account (id, balance) VALUES (%d, 100)"
    select = "SELECT balance FROM bank.account WHERE id = %d"
    statements = []
    for i in range(1, n + 1):
        statements += transaction(insert % i, insert % (i // 2 + 1), select % i, select % (i // 3 + 1))
    return of_one_client(ACCOUNTS, statements)


def scans(n):
    """n rows of one partition, a hundred a transaction, and ten transactions that scan all of them."""
    statements = []
    for first in range(0, n, 100):
        rows = range(first, first + 100)
        statements += transaction(*("INSERT INTO shop.item (cat, n, qty) VALUES (1, %d, 7)" % k for k in rows))
    statements += transaction("SELECT * FROM shop.item WHERE cat = 1 AND qty = 0") * 10
    return of_one_client(ITEMS, statements)


def columns(n):
    """500 UPSERTs of 50 rows of n columns."""
    names = ["c%02d" % i for i in range(n - 1)]
    kinds = ",".join('"%s":"INT"' % name for name in names)
    statements = []
    for k in range(500):
        values = ", ".join(str(k + i) for i in range(n - 1))
        statements += transaction("UPSERT INTO w.t (id, %s) VALUES (%d, %s)" % (", ".join(names), k % 50, values))
    return of_one_client('{"w.t":{"partition-key":["id"],"columns":{"id":"INT",%s}}}' % kinds, statements)


def wide(n):
    """Four transactions of n UPSERTs."""
    upsert = "UPSERT INTO bank.account (id, balance) VALUES (%d, %d)"
    statements = []
    for k in range(4):
        statements += transaction(*(upsert % (i, k) for i in range(n)))
    return of_one_client(ACCOUNTS, statements)


def contend(clients, each):
    """So many clients with so many transactions each, that read one of 64 accounts and write another, in turns."""
    draw = random.Random(5)
    lines = ["schema " + ACCOUNTS, "client setup", "  BEGIN"]
    lines += ["  INSERT INTO bank.account (id, balance) VALUES (%d, 100)" % i for i in range(1, 65)] + ["  COMMIT"]
    for c in range(clients):
        lines.append("client w%d" % c)
        for t in range(each):
            a, b = draw.randrange(1, 65), draw.randrange(1, 65)
            lines += ["  BEGIN", "  SELECT balance FROM bank.account WHERE id = %d" % a]
            lines += ["  UPDATE bank.account SET balance = %d WHERE id = %d" % (t, b), "  COMMIT"]
    return "\n".join(lines + ["run", "step 1 300", "rest"]) + "\n"


LOADS = {
    "gets1000": (gets, 1000), "gets3300": (gets, 3300), "scan1000": (scans, 1000), "scan4000": (scans, 4000),
    "columns16": (columns, 16), "columns64": (columns, 64), "wide4000": (wide, 4000), "contend4": (contend, 4, 600),
    "contend16": (contend, 16, 600),
}


def script(name):
    make, *sizes = LOADS[name]
    return make(*sizes)


def memory(program, text, folder):
    """The most memory of a run, in KiB. A small process starts it: the figure of a child counts what its parent had at the start."""
    peak = os.path.join(folder, "peak")
    command = ["/usr/bin/time", "-f", "%M", "-o", peak, program, "replay"]
    subprocess.run(command, input=text.encode(), stdout=subprocess.DEVNULL, check=True)
    with open(peak, encoding="utf8") as f:
        return int(f.read())


def instructions(program, text, folder):
    command = ["valgrind", "--tool=callgrind", "--callgrind-out-file=" + os.path.join(folder, "out"), program, "replay"]
    run = subprocess.run(command, input=text.encode(), stdout=subprocess.DEVNULL, stderr=subprocess.PIPE, check=True)
    line = [x for x in run.stderr.decode().splitlines() if "Collected" in x][0]
    return int(line.split(":")[1].replace(",", ""))


def main():
    if sys.argv[1] == "--write":
        for name in LOADS:
            with open(os.path.join(sys.argv[2], name), "w", encoding="utf8") as f:
                f.write(script(name))
        return
    with tempfile.TemporaryDirectory() as folder:
        print("| load | M instructions | KiB |\n|---|---|---|")
        for name in sys.argv[2:] or LOADS:
            text = script(name)
            count = instructions(sys.argv[1], text, folder)
            print("| %s | %d | %d |" % (name, round(count / 1e6), memory(sys.argv[1], text, folder)), flush=True)


if __name__ == "__main__":
    main()
