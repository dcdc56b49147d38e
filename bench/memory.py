#!/usr/bin/env python3
"""Runs worked scripts with one allocation refused, or one read or write failing or cut short, one number a run.

    bench/memory.py --preload LIBRARY [--every K] [--program FILE] [--case NAME]... [alloc|fail_io|short_io]

The cases are worked scripts of bench/rows (the first one, an owner that is expired by a recoverer, a VACUUM that is stopped), a schema, a
load, a session and an export over a database in a file, and `bench 1`. Each is run plain first. Then, for each K-th number up to the
number of its calls, it is run with that call refused, on a copy of the same file. A run has to end

  alloc      as out of memory, having written a prefix of the plain output; or with the plain output; or with an output in which a statement
             is answered `nomemory`
  fail_io    with a read fault and nothing written, or with a write fault and a prefix of the plain output
  short_io   with the plain output

within 60 seconds. The first other end of a case is printed. Then the counts.

`rt try --fail-alloc N` refuses one allocation in the same way, but compiles anew for each number, which takes minutes. So the calls are
refused by a library that is loaded before the C library: it refuses the call of malloc or realloc whose number, from 1, is in
FAIL_ALLOC, answers EIO to that of read or write in FAIL_IO, and lets that in SHORT_IO move one byte; and it writes the two numbers of calls,
as 8 bytes each, into the file CALLS. It is not part of this repository.

Build the program first: cd crates/scalardb && rt run -- replay < ../../examples/first.script
"""
import argparse
import os
import shutil
import struct
import subprocess
import sys
import tempfile

ROOT = os.path.dirname(os.path.dirname(os.path.abspath(__file__)))
ROWS = os.path.join(ROOT, 'bench', 'rows')
SCHEMA = b'{"bank.account":{"partition-key":["id"],"columns":{"id":"INT","balance":"INT"}}}'
LOAD = b'id,balance\n1,100\n2,50\n3,7\n'
SQL = b'BEGIN\nSELECT balance FROM bank.account WHERE id = 1\nUPDATE bank.account SET balance = 70 WHERE id = 1\nCOMMIT\n'
VARIABLES = {'alloc': 'FAIL_ALLOC', 'fail_io': 'FAIL_IO', 'short_io': 'SHORT_IO'}


def script(name):
    with open(os.path.join(ROWS, name + '.script'), 'rb') as file:
        return file.read()


# A name, the words, the input, and the commands before it that fill a database in a file; None: no file.
CASES = [(name, ['replay'], script(name), None)
         for name in ('first_transaction', 'recoverer_wins_and_owner_is_expired', 'vacuum_stopped_half_way')]
CASES.append(('bench 1', ['bench', '1'], b'', None))
SESSION = [(['schema'], SCHEMA), (['load', 'bank.account', 'insert', '2'], LOAD), (['sql'], SQL), (['export', 'bank.account'], b'')]
CASES += [(words[0], words, text, SESSION[:at]) for at, (words, text) in enumerate(SESSION)]


class Program:
    def __init__(self, path, preload, room):
        self.path, self.preload, self.room = path, preload, room

    def run(self, words, text, file, refused):
        """The exit status, standard output and error, and the numbers of allocations and of reads and writes."""
        calls = os.path.join(self.room, 'calls')
        env = {'LD_PRELOAD': self.preload, 'CALLS': calls, **refused}
        if file:
            env['SCALARDB_FILE'] = file
        try:
            ended = subprocess.run([self.path, *words], input=text, capture_output=True, timeout=60, env=env)
        except subprocess.TimeoutExpired:
            return None, b'', b'', (0, 0)
        with open(calls, 'rb') as counts:
            return ended.returncode, ended.stdout, ended.stderr, struct.unpack('QQ', counts.read(16))


def answered(case, output):
    """Whether a whole output has a statement that found no memory."""
    if case == 'bench 1':
        counts = dict(line.split(' ') for line in output.decode().split('\n')[:-1])
        return counts['transactions'] == '1' and int(counts['committed']) + int(counts['other']) == 1
    return b'nomemory' in output


def end_of(case, kind, plain, ended):
    """The kind of end, or None where it is none of those that may be."""
    status, output, error, _ = ended
    if status == 0 and output == plain:
        return 'plain output'
    if kind == 'short_io':
        return None
    if kind == 'fail_io':
        if status == 4 and error == b'read fault\n' and output == b'':
            return 'read fault'
        return 'write fault' if status == 5 and error == b'write fault\n' and plain.startswith(output) else None
    if status == 7 and plain.startswith(output) and error in (b'out of memory\n', b''):
        return 'out of memory'
    if status == 12 and error == b'not committed: nomemory\n' and output == b'':
        return 'answered nomemory'
    return 'answered nomemory' if status == 0 and answered(case, output) else None


def prepared(program, before):
    """A file that these commands have filled; None where there are none to be run on a file."""
    if before is None:
        return None
    file = os.path.join(program.room, 'prepared.db')
    for each in (file, file + '-wal', file + '-shm', file + '-journal'):
        if os.path.exists(each):
            os.remove(each)
    for words, text in before:
        assert program.run(words, text, file, {})[0] == 0, words
    return file


def copied(program, file):
    if file is None:
        return None
    copy = os.path.join(program.room, 'copy.db')
    for end in ('', '-wal', '-shm', '-journal'):
        if os.path.exists(copy + end):
            os.remove(copy + end)
        if os.path.exists(file + end):
            shutil.copy(file + end, copy + end)
    return copy


def tried(program, case, kind, every):
    """How the runs of a case ended; what was printed of the first that ended otherwise."""
    name, words, text, before = case
    file = prepared(program, before)
    status, plain, error, calls = program.run(words, text, copied(program, file), {})
    assert status == 0, (name, status, error)
    counts, wrong = {}, None
    for number in range(1, calls[0 if kind == 'alloc' else 1] + 1, every):
        ended = program.run(words, text, copied(program, file), {VARIABLES[kind]: str(number)})
        end = end_of(name, kind, plain, ended)
        counts[end or 'OTHERWISE'] = counts.get(end or 'OTHERWISE', 0) + 1
        if end is None and wrong is None:
            wrong = f'{name}: {kind} {number}: {ended[0]} {ended[2]!r} {ended[1][-300:]!r}'
    return counts, wrong


def main():
    words = argparse.ArgumentParser()
    words.add_argument('--preload', required=True)
    words.add_argument('--every', type=int, default=1)
    words.add_argument('--case', action='append', choices=[case[0] for case in CASES])
    words.add_argument('--program', default=os.path.join(ROOT, 'crates', 'scalardb', 'out', 'scalardb'))
    words.add_argument('kind', choices=VARIABLES, nargs='?', default='alloc')
    given = words.parse_args()
    failed = False
    with tempfile.TemporaryDirectory() as room:
        program = Program(os.path.abspath(given.program), os.path.abspath(given.preload), room)
        for case in CASES:
            if given.case and case[0] not in given.case:
                continue
            # reads and writes of a database in a file aren't those of the input and the output
            if given.kind != 'alloc' and case[3] is not None:
                continue
            counts, wrong = tried(program, case, given.kind, given.every)
            print(f'{case[0]}:', ', '.join(f'{end} {n}' for end, n in sorted(counts.items())), flush=True)
            if wrong:
                failed = True
                print(wrong, flush=True)
    return failed


sys.exit(main())
