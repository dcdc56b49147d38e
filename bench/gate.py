#!/usr/bin/env python3
"""Prints the processor minutes that a run of `rt ci` takes for each crate: its proof, its tests, its edits.

Start `rt ci`, and then, beside nothing else: bench/gate.py PID, with the number of its process. The time of each of its processes is
read from the system four times a second until the run has ended.
"""
import collections
import os
import re
import sys
import time

TICKS = os.sysconf("SC_CLK_TCK")


def stat(pid):
    """The parent, the ticks of the process and of its children that ended, and its start."""
    try:
        text = open(f"/proc/{pid}/stat").read()
    except OSError:
        return None
    f = text[text.rindex(")") + 2 :].split()
    return int(f[1]), int(f[11]) + int(f[12]), int(f[13]) + int(f[14]), f[19]


def described(pid):
    try:
        command = open(f"/proc/{pid}/cmdline", "rb").read().replace(b"\0", b" ").decode(errors="replace")
        return command, os.readlink(f"/proc/{pid}/cwd")
    except OSError:
        return "", ""


def sampled(root):
    """The ticks of each child of a process, with all below it, by its command and folder."""
    tasks = {}
    while True:
        procs = {int(d): s for d in os.listdir("/proc") if d.isdigit() for s in [stat(d)] if s}
        if root not in procs:
            return tasks.values()
        children = collections.defaultdict(list)
        for pid, (parent, *_) in procs.items():
            children[parent].append(pid)

        def total(pid):
            return procs[pid][1] + procs[pid][2] + sum(total(child) for child in children[pid])

        for pid in children[root]:
            task = tasks.setdefault((pid, procs[pid][3]), {"ticks": 0, "what": described(pid)})
            task["ticks"] = max(task["ticks"], total(pid))
        time.sleep(0.25)


def kind(command, folder):
    if "rt-edit" in folder or "rt-edits" in command:
        return "edits"
    return "tests" if " --test" in command else "proof"


def main():
    minutes = collections.defaultdict(collections.Counter)
    for task in sampled(int(sys.argv[1])):
        command, folder = task["what"]
        named = re.search(r"--crate-name (\S+)", command) or re.search(r"crates/([a-z_0-9]+)", f"{folder} {command}")
        crate = named.group(1) if named else "other"
        minutes[crate][kind(command, folder)] += task["ticks"] / TICKS / 60
    for crate, parts in sorted(minutes.items(), key=lambda item: -sum(item[1].values())):
        print("%-16s proof %5.1f  tests %5.1f  edits %5.1f" % (crate, parts["proof"], parts["tests"], parts["edits"]))
    print("all %.1f" % sum(sum(parts.values()) for parts in minutes.values()))


main()
