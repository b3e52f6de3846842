#!/usr/bin/env python3
"""Texts as judge.py reads them, beside what the library read of them in portions.

    readings.py FOLDER

Each FOLDER/NAME.txt is read by judge.read, and the lines that follow from that are compared with FOLDER/NAME.txt.read, which
host/c/portions.c wrote: X with the bad line's number and reason, if there is one, then every filled cell, as bits. Of a bad text
these are the cells of the lines before the bad one.  The last line is 'N passed, M failed'.
"""
import glob
import os
import sys

from judge import Bad, lines_of, read

# a contact's lines after its C, with zeros
AFTER_C = [b'N' + 10 * b'\t00000000', b'T' + 8 * b'\t00000000'] * 2


def before(data, number):
    """the lines before a bad one, as a good text, and how many floats of its last contact were added to make it one"""
    lines = list(lines_of(data))[:number - 1]
    since = 0                        # lines since the last C, with it
    for line in lines:
        since = 1 if line[:1] == b'C' else since + 1 if since else 0
    missing = AFTER_C[since - 1:] if 0 < since < 5 else []
    added = sum(line.count(b'\t') for line in missing)
    return b''.join(line + b'\n' for line in lines + missing), added


def reading(data):
    """what portions.c has to write of a text"""
    out, added = [], 0
    try:
        bodies, contacts, steps = read(data)
    except Bad as bad:
        out.append('X %d %d' % (bad.line, bad.reason))
        data, added = before(data, bad.line)
        bodies, contacts, steps = read(data)
    floats = [u for c in contacts for u in c.cells]
    out += ['b %08x' % u for row in bodies for u in row]
    out += ['n %d' % n for c in contacts for n in (c.body1, c.body2, c.count)]
    out += ['f %08x' % u for u in floats[:len(floats) - added]]
    out += ['s %d' % n for row in steps for n in row]
    return out


def main(folder):
    passed = failed = 0
    for name in sorted(glob.glob(os.path.join(folder, '*.txt'))):
        with open(name, 'rb') as f:
            wanted = reading(f.read())
        try:
            with open(name + '.read') as f:
                got = f.read().split('\n')[:-1]
        except OSError:
            got = ['nothing']
        if got == wanted:
            passed += 1
        else:
            failed += 1
            print('readings: %s: not as judge.py reads it' % name)
    print('%d passed, %d failed' % (passed, failed))
    return failed == 0 and passed != 0


if __name__ == '__main__':
    sys.exit(0 if main(sys.argv[1]) else 1)
