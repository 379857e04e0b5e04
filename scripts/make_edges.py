#!/usr/bin/env python3
"""Writes plans at the paper's limits: crates/vectors_test/data/edges.bin, in the format of the vectors, and
plan files and a step file in crates/edges_test/data.

Each record holds desks, the lengths of plan, steps and output, and then these; the steps are empty.
The plans are laid out here by hand, by the paper's layout, and not by the project's own code.
"""
import pathlib
import struct

CREATE, SYNC, FINISH, SEND, RECEIVE, SET, ADD = range(1, 8)


def layout(tasks):
    at, head, body = 4 + 4 * len(tasks), b"", b""
    for task in tasks:
        head += struct.pack("<HH", at, len(task))
        body += b"".join(struct.pack("<BBH", kind, 0, argument) for kind, argument in task)
        at += 4 * len(task)
    return struct.pack("<HH", len(tasks), sum(map(len, tasks))) + head + body


def record(plan, refused=0, desks=1):
    output = b"refused %d\n" % refused if refused else b"end 0 0\n"
    return struct.pack("<BHHH", desks, len(plan), 0, len(output)) + plan + output


def created(n):
    """n tasks: task 1 creates tasks 2 to 63, task 2 those from 64 on."""
    first = [(CREATE, u) for u in range(2, min(n, 63) + 1)] + [(FINISH, 0)]
    second = [(CREATE, u) for u in range(64, n + 1)] + [(FINISH, 0)]
    return [first, second] + [[(FINISH, 0)]] * (n - 2)


def long(n):
    """One task of n instructions."""
    return [[(SYNC, 0)] * (n - 1) + [(FINISH, 0)]]


def full():
    """64 tasks of 64 instructions: the largest file there is."""
    tasks = created(64)
    return [[(SET, 65535)] * (64 - len(task)) + task for task in tasks]


def channels(sent, received):
    """Task 1 creates the others; tasks 2 to 4 send on these channels, tasks 5 to 7 receive on those."""
    def three(kind, numbers):
        code = [(kind, c) for c in numbers]
        return [code[:60] + [(FINISH, 0)], code[60:120] + [(FINISH, 0)], code[120:] + [(FINISH, 0)]]
    return [[(CREATE, u) for u in range(2, 8)] + [(FINISH, 0)]] + three(SEND, sent) + three(RECEIVE, received)


def over():
    """Sums at the top and over it: tasks 1 and 3 pass 65,535, task 2 reaches it."""
    return [
        [(CREATE, 2), (CREATE, 3), (SET, 65535), (ADD, 1), (FINISH, 0)],
        [(SET, 65535), (ADD, 0), (FINISH, 0)],
        [(ADD, 65535), (ADD, 65535), (FINISH, 0)],
    ]


def runs(tasks):
    """A run step of each of these tasks."""
    return b"".join(struct.pack("<BBH", 1, task, 0) for task in tasks)


def main():
    every = list(range(1, 129))
    records = [
        record(layout(created(64))),
        record(layout(created(65)), refused=2),
        record(layout(long(64))),
        record(layout(long(65)), refused=2),
        record(layout(full()), desks=6),
        record(layout(full()) + b"\0", refused=2),
        # all 128 channels; nobody uses one of them; only a send and only a receive on it
        record(layout(channels(every, every)), desks=6),
        record(layout(channels(every[:-1], every[:-1]))),
        record(layout(channels(every[1:], every[1:]))),
        record(layout(channels(every, every[:-1])), refused=6),
        record(layout(channels(every[:-1], every)), refused=6),
        record(layout(channels(every, every[1:])), refused=6),
        record(layout(channels(every[1:], every)), refused=6),
        # two tasks receive on a channel, two send on one
        record(layout(channels(every, every + [1])), refused=6),
        record(layout(channels(every + [1], every)), refused=6),
        # one send, one receive, and no other instruction but a finish
        record(layout([[(SEND, 1), (FINISH, 0)]]), refused=6),
        record(layout([[(RECEIVE, 128), (FINISH, 0)]]), refused=6),
    ]
    there = pathlib.Path(__file__).resolve().parent.parent
    (there / "crates/vectors_test/data/edges.bin").write_bytes(b"".join(records))
    data = there / "crates/edges_test/data"
    (data / "tasks64.plan").write_bytes(layout(created(64)))
    (data / "code64.plan").write_bytes(layout(long(64)))
    (data / "code65.plan").write_bytes(layout(long(65)))
    (data / "over.plan").write_bytes(layout(over()))
    (data / "over.steps").write_bytes(runs([1, 1, 1, 1, 2, 2, 2, 3, 3, 3, 1]))


if __name__ == "__main__":
    main()
