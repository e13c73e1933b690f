#!/usr/bin/env python3
"""Compares jobcheck and jobpack with a second implementation of the job format, on random jobs, sound and damaged.

  compare_jobs.py [COUNT [START]]     COUNT jobs (default 2000), from the random numbers that START gives (default 1)

Build the programs first: make programs
"""
import random
import re
import struct
import subprocess
import sys
from pathlib import Path

CRATES = Path(__file__).resolve().parent.parent / 'crates'
NUMBER = rb'(?:0|-?[1-9][0-9]{0,9})'
COUNTS = {b'head': 3, b'use': 1, b'corner': 3, b'move': 4, b'ban': 3, b'lift': 3, b'fill': 0, b'standing': 0}
ORDERS = [re.compile(word + (rb' ' + NUMBER) * count, re.S) for word, count in COUNTS.items()]
ORDERS += [re.compile(rb'note .+', re.S), re.compile(rb'close (sum|worst|sum-worst)')]


def check(body):
    return sum((offset + 1) * byte for offset, byte in enumerate(body))


def block(number, text):
    body = struct.pack('<HH', number, len(text)) + text + bytes(504 - len(text))
    return body + struct.pack('<I', check(body))


def pack(lines):
    texts, text = [], b''
    for line in lines:
        if len(text) + len(line) + 1 > 504:
            texts.append(text)
            text = b''
        text += line + b'\n'
    if text:
        texts.append(text)
    return b''.join(block(number, text) for number, text in enumerate(texts))


def refusal(rest, number):
    if len(rest) < 512:
        return 1
    found, used = struct.unpack('<HH', rest[:4])
    if check(rest[:508]) != struct.unpack('<I', rest[508:512])[0]:
        return 2
    if found != number:
        return 3
    if used > 504 or (used and rest[3 + used] != 10) or any(rest[4 + used:508]):
        return 4
    return None


def listing(job):
    out, blocks, lines, refused = [], 0, 0, 0
    while job:
        why = refusal(job, blocks)
        if why:
            out.append(b'refused %d block %d line 0\n' % (why, blocks))
            refused += 1
            break
        used = struct.unpack('<H', job[2:4])[0]
        for line in job[4:4 + used].split(b'\n')[:-1]:
            lines += 1
            if any(order.fullmatch(line) for order in ORDERS):
                out.append(b'block %d line %d: %s\n' % (blocks, lines, line))
            else:
                out.append(b'refused 5 block %d line %d\n' % (blocks, lines))
                refused += 1
        blocks += 1
        job = job[512:]
    out.append(b'blocks %d lines %d refused %d\n' % (blocks, lines, refused))
    return b''.join(out), refused


class Jobs:
    GOOD = [b'0', b'5', b'-7', b'12', b'2000', b'9999999999', b'-9999999999']
    ODD = [b'-0', b'00', b'007', b'10000000000', b'-10000000000', b'', b'-', b'+1', b'1a']
    KINDS = [b' sum', b' worst', b' sum-worst', b'', b'  sum', b' sum ', b' best', b' sum-wors']
    WORDS = list(COUNTS) + [b'note', b'note', b'close', b'close', b'fil', b'NOTE', b'', b'heads']

    def __init__(self, start):
        self.random = random.Random(start)

    def line(self):
        r = self.random
        word = r.choice(self.WORDS)
        if word == b'note':
            text = bytes(r.choice([b for b in range(256) if b != 10]) for _ in range(r.randrange(30)))
            return word + r.choice([b'', b' ', b'  ', b' ' + text])
        if word == b'close':
            return word + r.choice(self.KINDS)
        numbers = self.GOOD if r.random() < 0.7 else self.GOOD + self.ODD
        count = COUNTS.get(word, 0) + (r.choice([-1, 1]) if r.random() < 0.1 else 0)
        for _ in range(count):
            word += (b' ' if r.random() < 0.97 else b'  ') + r.choice(numbers)
        return word + (b' ' if r.random() < 0.05 else b'')

    def lines(self):
        return [self.line() for _ in range(self.random.randrange(60))]

    def damaged(self, job):
        r = self.random
        job = bytearray(job)
        how = r.randrange(4)
        if how == 0:
            return bytes(job[:r.randrange(len(job) + 1)])
        if how == 1:
            return bytes(job) + bytes(r.randrange(256) for _ in range(r.randrange(600)))
        if job:
            place = r.choice([0, 1, 2, 3, r.randrange(512)]) + 512 * r.randrange(len(job) // 512)
            job[place] = r.choice([0, 1, 10, 255, job[place] ^ 1])
            if how == 2:
                first = place - place % 512
                job[first + 508:first + 512] = struct.pack('<I', check(job[first:first + 508]))
        return bytes(job)


def run(program, given):
    return subprocess.run([CRATES / program / 'out' / program], input=given, capture_output=True)


def main():
    count = int(sys.argv[1]) if len(sys.argv) > 1 else 2000
    jobs = Jobs(int(sys.argv[2]) if len(sys.argv) > 2 else 1)
    for turn in range(count):
        lines = jobs.lines()
        job = pack(lines)
        packed = run('jobpack', b''.join(line + b'\n' for line in lines))
        if packed.stdout != job or packed.returncode != 0:
            sys.exit('jobpack differs at turn %d' % turn)
        if jobs.random.random() < 0.5:
            job = jobs.damaged(job)
        text, refused = listing(job)
        listed = run('jobcheck', job)
        if listed.stdout != text or listed.returncode != (1 if refused else 0):
            sys.exit('jobcheck differs at turn %d' % turn)
    print('%d jobs alike' % count)


main()
