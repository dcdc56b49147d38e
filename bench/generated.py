#!/usr/bin/env python3
"""Runs generated scripts with the built program, and has the program `judge` decide what is promised of their reports.

    bench/generated.py FIRST COUNT [PROGRAM [JUDGE]]

A seed gives a script: one to six clients, statements over two to four tables on all stores, both ends of every kind, lost and dropped
calls, stops, clocks, VACUUM; of a seed past 10,000 delayed calls and requests that land late too; and of one past 20,000 columns that are
added, and statements that name them. The program runs it, and the judge is given the script and the report. The first seed that fails is
printed, with its script in as few moves and statements as still fail.

Build both first: cd crates/scalardb && rt run -- replay < ../../examples/first.script; the same in crates/judge.
"""
import pathlib
import random
import subprocess
import sys

ROOT = pathlib.Path(__file__).resolve().parent.parent
STORES = ["ordered", "hashed", "sqlite", "sharded"]
TABLES = [
    ("bank", "account", {"id": "INT", "balance": "INT", "owner": "TEXT"}, ["id"], []),
    ("bank", "entry", {"id": "INT", "n": "INT", "amount": "BIGINT"}, ["id"], ["n"]),
    ("shop", "item", {"code": "TEXT", "qty": "INT", "sold": "BOOLEAN"}, ["code"], []),
    ("shop", "order", {"a": "INT", "b": "TEXT", "n": "INT", "note": "BLOB"}, ["a", "b"], ["n DESC"]),
]
NAMES = ["ann", "bob", "eve", "carl"]
# columns that moves add
ADDED = {"extra": "INT", "mark": "TEXT", "since": "BIGINT"}


class Maker:
    """What one seed draws."""

    def __init__(self, seed):
        self.draw = random.Random(seed)
        self.tables = self.draw.sample(TABLES, self.draw.randint(2, len(TABLES)))
        self.last_key = self.draw.choice([0, 1, 3])
        self.slow = self.draw.random() < 0.5
        self.late = seed > 10000
        self.grows = seed > 20000

    def literal(self, kind, key=False):
        if not key and self.draw.random() < 0.08:
            return "NULL"
        if kind == "BOOLEAN":
            return self.draw.choice(["TRUE", "FALSE"])
        if kind == "TEXT":
            return f"'{self.draw.choice(NAMES)}'"
        if kind == "BLOB":
            return self.draw.choice(["X'00'", "X'0AFF'"])
        return str(self.draw.randint(0, self.last_key) if key else self.draw.randint(-5, 100))

    def name(self, table):
        second = f'"{table[1]}"' if table[1] == "order" else table[1]
        return f"{table[0]}.{second}"

    def keys(self, table):
        return table[3] + [c.split()[0] for c in table[4]]

    def kinds(self, table):
        """The columns that a statement may name: those of the table, and some that may have been added to it."""
        if self.grows and self.draw.random() < 0.4:
            return table[2] | ADDED
        return table[2]

    def tests(self, table, kinds):
        keys = self.keys(table)
        form = self.draw.random()
        if form < 0.55:
            names = keys
        elif form < 0.75:
            names = table[3]
        else:
            names = []
        tests = [f"{n} = {self.literal(kinds[n], True)}" for n in names]
        if self.draw.random() < 0.2:
            other = self.draw.choice(sorted(kinds))
            sign = self.draw.choice(["=", "<>", "<", "<=", ">", ">="])
            value = self.literal(kinds[other], True)
            tests.append(self.draw.choice([f"{other} {sign} {value}", f"{other} IS NULL", f"{other} IS NOT NULL"]))
        return " WHERE " + " AND ".join(tests) if tests else ""

    def statement(self):
        table = self.draw.choice(self.tables)
        kinds, keys = self.kinds(table), self.keys(table)
        others = [c for c in sorted(kinds) if c not in keys]
        form = self.draw.random()
        if form < 0.3:
            columns = self.draw.choice(["*", ", ".join(self.draw.sample(sorted(kinds), 2))])
            limit = f" LIMIT {self.draw.randint(0, 3)}" if self.draw.random() < 0.2 else ""
            return f"SELECT {columns} FROM {self.name(table)}{self.tests(table, kinds)}{limit}"
        if form < 0.6:
            names = keys + self.draw.sample(others, self.draw.randint(0, len(others)))
            values = ", ".join(self.literal(kinds[n], n in keys) for n in names)
            word = self.draw.choice(["INSERT", "UPSERT"])
            return f"{word} INTO {self.name(table)} ({', '.join(names)}) VALUES ({values})"
        if form < 0.8:
            column = self.draw.choice(others)
            return f"UPDATE {self.name(table)} SET {column} = {self.literal(kinds[column])}{self.tests(table, kinds)}"
        if form < 0.95:
            return f"DELETE FROM {self.name(table)}{self.tests(table, kinds)}"
        return self.draw.choice(["BEGIN", "SELECT * FROM bank.none", "UPDATE x SET", "SELECT 'a' FROM bank.account", "VACUUM"])

    def client(self):
        lines = []
        for _ in range(self.draw.randint(1, 4)):
            if self.draw.random() < 0.08:
                lines.append("VACUUM")
                continue
            lines.append("BEGIN")
            lines += [self.statement() for _ in range(self.draw.randint(0, 5))]
            lines += self.draw.choices([["COMMIT"], ["ROLLBACK"], []], [8, 1, 1])[0]
        return lines

    def alter(self):
        table = self.draw.choice(self.tables)
        name = self.draw.choice([f"{table[0]}.{table[1]}"] * 9 + ["bank.none", "coordinator.state"])
        column = self.draw.choice(list(ADDED) * 4 + [sorted(table[2])[0], "tx_id", "before_x"])
        kind = ADDED.get(column, "TEXT") if self.draw.random() < 0.8 else self.draw.choice(["BOOLEAN", "INT", "BIGINT", "TEXT", "BLOB"])
        return f"alter {name} {column} {self.draw.choice([kind, kind.lower()])}"

    def moves(self, clients):
        moves, now, delayed = [], 0, 0
        for _ in range(self.draw.randint(0, 60)):
            client, form = self.draw.randint(1, clients), self.draw.random()
            if self.grows and self.draw.random() < 0.2:
                moves += self.draw.choice([["rest"], [], []]) + [self.alter()]
                continue
            if self.late and self.draw.random() < 0.15:
                moves.append(f"delay {client}")
                delayed += 1
            elif self.late and self.draw.random() < 0.15:
                moves.append(f"land {self.draw.randint(1, delayed + 1)}")
            elif form < 0.6:
                count = self.draw.randint(1, 3 if self.slow else 8)
                moves.append(f"step {client} {count}" if count > 1 else f"step {client}")
            elif form < 0.72:
                moves.append(f"lose {client}")
            elif form < 0.82:
                moves.append(f"drop {client}")
            elif form < 0.86:
                moves.append(f"stop {client}")
            elif form < 0.96:
                now += self.draw.choice([15000, 20000] if self.slow else [1, 1000, 15000, 40000])
                moves.append(f"clock {now}")
            else:
                moves.append("rest")
        return moves + (["rest"] if self.draw.random() < 0.9 else [])

    def script(self):
        spaces = sorted({t[0] for t in self.tables} | {"coordinator"})
        places = [(ns, self.draw.choice(STORES)) for ns in spaces if self.draw.random() < 0.7]
        clients = [self.client() for _ in range(self.draw.randint(1, 6))]
        return places, clients, self.moves(len(clients))


def text_of(maker, script):
    places, clients, moves = script
    tables = []
    for ns, name, kinds, partition, clustering in sorted(maker.tables):
        columns = ",".join(f'"{c}":"{k}"' for c, k in sorted(kinds.items()))
        key = ",".join(f'"{c}"' for c in partition)
        order = ",".join(f'"{c}"' for c in clustering)
        tables.append(f'"{ns}.{name}":{{"partition-key":[{key}],"clustering-key":[{order}],"columns":{{{columns}}}}}')
    lines = [f"place {ns} {store}" for ns, store in places]
    lines.append("schema {" + ",".join(tables) + "}")
    for i, statements in enumerate(clients):
        lines.append(f"client c{i + 1}")
        lines += ["  " + s for s in statements]
    return "\n".join(lines + ["run"] + moves) + "\n"


def fault_of(program, judge, text):
    """Why a script fails: none where its report is as promised."""
    played = subprocess.run([program, "replay"], input=text.encode(), capture_output=True, check=False)
    if played.returncode != 0:
        return f"replay ends with {played.returncode}, {played.stderr.decode().strip()}"
    if judge is None:
        return None
    judged = subprocess.run([judge], input=text.encode() + played.stdout, capture_output=True, check=False)
    if judged.returncode != 0 or judged.stdout != b"as promised\n":
        return f"judge ends with {judged.returncode}, {(judged.stdout + judged.stderr).decode().strip()}"
    return None


def without(items, i):
    return items[:i] + items[i + 1:]


def smaller(script):
    """The scripts with one part less."""
    places, clients, moves = script
    for i in range(len(moves)):
        yield places, clients, without(moves, i)
    for i, statements in enumerate(clients):
        for j in range(len(statements)):
            yield places, clients[:i] + [without(statements, j)] + clients[i + 1:], moves
    for i in range(len(places)):
        yield without(places, i), clients, moves


def shrunk(maker, script, fails):
    """A script that fails, and of which nothing can be left out."""
    found = True
    while found:
        found = False
        for next_script in smaller(script):
            if fails(text_of(maker, next_script)):
                script, found = next_script, True
                break
    return script


def main():
    first, count = int(sys.argv[1]), int(sys.argv[2])
    program = sys.argv[3] if len(sys.argv) > 3 else str(ROOT / "crates/scalardb/out/scalardb")
    judge = sys.argv[4] if len(sys.argv) > 4 else str(ROOT / "crates/judge/out/judge")
    judge = None if judge == "-" else judge
    for seed in range(first, first + count):
        maker = Maker(seed)
        script = maker.script()
        fault = fault_of(program, judge, text_of(maker, script))
        if fault is not None:
            print(f"seed {seed}: {fault}")
            print(text_of(maker, shrunk(maker, script, lambda t: fault_of(program, judge, t) is not None)), end="")
            sys.exit(1)
    print(f"as promised: {count} scripts, from seed {first}")


main()
