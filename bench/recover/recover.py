"""Recovers log files by a few lines of its own, after docs/FORMATS.md alone.

Run without arguments it prints what the tests of the channel expect of the example file, cut at each length and with each
byte set to ff: runs of neighbouring lengths or offsets with one answer. With a folder as argument it prints what that
folder's log files leave.
"""

import os
import re
import struct
import sys


class Bad(Exception):
    pass


def header(birth, number):
    return b"FLUMELOG" + struct.pack(">HHI", 1, birth, number)


def event(data):
    at = 4
    last = None
    for _ in range(struct.unpack(">I", data[:4])[0]):
        pair = []
        for _ in range(2):
            size = struct.unpack(">I", data[at : at + 4])[0]
            if at + 4 + size > len(data):
                raise ValueError
            pair.append(data[at + 4 : at + 4 + size])
            pair[-1].decode("utf-8")
            at += 4 + size
        if last is not None and pair[0] <= last:
            raise ValueError
        last = pair[0]
    size = struct.unpack(">I", data[at : at + 4])[0]
    if at + 4 + size != len(data):
        raise ValueError
    return data[at + 4 :]


def record(data, at):
    """The record at an offset and its end, or an error where there is none."""
    kind = data[at]
    if kind == 1:
        txn, size = struct.unpack_from(">QI", data, at + 1)
        if size > 1048576 or at + 13 + size > len(data):
            raise ValueError
        return (kind, txn, event(data[at + 13 : at + 13 + size])), at + 13 + size
    if kind == 2:
        return (kind,) + struct.unpack_from(">QQ", data, at + 1), at + 17
    if kind == 3:
        return (kind,) + struct.unpack_from(">Q", data, at + 1), at + 9
    if kind == 4:
        fields, end = struct.unpack_from(">QQI", data, at + 1), at + 21
    elif kind == 5:
        fields, end = struct.unpack_from(">QI", data, at + 1), at + 13
    elif kind == 6:
        fields, end = struct.unpack_from(">I", data, at + 1), at + 5
    else:
        raise ValueError
    if fields[-1] == 0:
        raise ValueError
    return (kind,) + fields, end


def frame(data, gate):
    """The records of the frame of an open commit byte, with their offsets, and the next commit byte."""
    found, at = [], gate + 1
    while True:
        rec, end = record(data, at)
        if rec[0] == 6:
            if rec[1] != len(found) or end >= len(data):
                raise ValueError
            return found, end
        found.append((at, rec))
        at = end


def lines(number, data):
    if len(data) <= 17:
        return
    births = [b for b in (1, 2) if data[:16] == header(b, number)]
    if not births:
        yield 0, None
        return
    if births == [1]:
        yield 0, "begins"
    gate = 16
    while data[gate] == 1:
        try:
            found, end = frame(data, gate)
        except (ValueError, IndexError, struct.error):
            yield gate, None
            return
        yield from found
        gate = end


class Log:
    def __init__(self):
        self.left, self.number, self.txn, self.open = [], 0, 1, {}

    def apply(self, rec):
        """Whether the record is legal; if so it is applied."""
        kind, txn = rec[0], rec[1]
        if not 1 <= txn <= 2**64 - 2:
            return False
        was = self.open.get(txn)
        if kind in (1, 2):
            if was is None and len(self.open) >= 1024 or was is not None and was[0] != kind:
                return False
            held = [n for k, ns in self.open.values() if k == 2 for n in ns]
            if kind == 2 and (rec[2] in held or rec[2] not in [n for n, _ in self.left]):
                return False
            self.open.setdefault(txn, (kind, []))[1].append(rec[2])
        elif kind == 3:
            if was is None:
                return False
        elif kind == 4:
            if was is None or was[0] != 1 or len(was[1]) != rec[3]:
                return False
            if rec[2] != self.number or rec[2] + rec[3] > 2**64 - 1:
                return False
            self.left += list(zip(range(rec[2], rec[2] + rec[3]), was[1]))
            self.number += rec[3]
        else:
            if was is None or was[0] != 2 or len(was[1]) != rec[2]:
                return False
            self.left = [item for item in self.left if item[0] not in was[1]]
        if kind > 2:
            del self.open[txn]
        self.txn = max(self.txn, txn + 1)
        return True


def recover(files):
    log = Log()
    for number, data in sorted(files):
        for at, rec in lines(number, data):
            if rec == "begins":
                log.open = {}
            elif rec is None or not log.apply(rec):
                return "bad log %d at %d" % (number, at)
    return "left %s, next %d, transaction %d" % (log.left, log.number, log.txn)


def put(txn, body):
    return b"\x01" + struct.pack(">QIII", txn, 8 + len(body), 0, len(body)) + body


def pipe_frame(txn, first, body):
    return put(txn, body) + b"\x04" + struct.pack(">QQI", txn, first, 1) + b"\x06" + struct.pack(">I", 2)


EXAMPLE = header(1, 1) + b"\x01" + pipe_frame(1, 0, b"a") + b"\x01" + pipe_frame(2, 1, b"b") + b"\x00"


def runs(answers):
    start = 0
    for i in range(1, len(answers) + 1):
        if i == len(answers) or answers[i] != answers[start]:
            print("%d to %d: %s" % (start, i - 1, answers[start]))
            start = i


def main():
    if len(sys.argv) > 1:
        found = [(re.fullmatch(r"log-(0|[1-9]\d*)", n), n) for n in os.listdir(sys.argv[1])]
        paths = [(int(m[1]), os.path.join(sys.argv[1], n)) for m, n in found if m and int(m[1]) < 2**32]
        print(recover([(n, open(p, "rb").read()) for n, p in paths]))
        return
    assert len(EXAMPLE) == 115
    print("cut to so many bytes")
    runs([recover([(1, EXAMPLE[:n])]) for n in range(116)])
    print("the byte at this offset set to ff")
    runs([recover([(1, EXAMPLE[:n] + b"\xff" + EXAMPLE[n + 1 :])]) for n in range(115)])


main()
