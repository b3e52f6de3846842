#!/usr/bin/env python3
"""Loads never pull (request E10), looked for in what ./sheet wrote:

    pushing.py FOLDER

Of every text NAME.txt of the folder with an answer NAME.wrote, each normal load on an I line is 0 or above, or it is what its
N line handed in; and where a step on its contact was answered 0, it is 0 or above. It says how many loads there were, how many
of them are not 0 or above, and ends with 1 where one pulls."""
import glob
import os
import sys

INFINITY = 0x7f800000
MINUS_ZERO = 0x80000000


def at_least_0(load):
    """a number of 0 or above, by its eight digits; a NaN is not"""
    return int(load, 16) <= INFINITY or int(load, 16) == MINUS_ZERO


def pulls(text, answer):
    """The I lines that pull, how many there are, and how many are not 0 or above."""
    rows = [line.split('\t') for line in text.split('\n')]
    handed_in = [row[6] for row in rows if row[0] == 'N']
    contact_of = [int(row[1]) for row in rows if row[0] == 'S']
    answers = [line.split('\t') for line in answer.split('\n')]
    numbers = [row[1] for row in answers if row[0] == 'A']
    done = {contact for contact, number in zip(contact_of, numbers) if number == '0'}
    bad, loads, others = [], 0, 0
    for row in answers:
        if row[0] != 'I':
            continue
        contact, point, load = int(row[1]), int(row[2]), row[3]
        loads += 1
        if not at_least_0(load):
            others += 1
            if load != handed_in[2 * contact + point] or contact in done:
                bad.append('\t'.join(row))
    return bad, loads, others


def main(folder):
    loads = others = bad = 0
    for name in sorted(glob.glob(os.path.join(folder, '*.txt'))):
        with open(name, encoding='latin-1', newline='') as f:
            text = f.read()
        with open(name[:-4] + '.wrote', encoding='latin-1', newline='') as f:
            answer = f.read()
        if answer[:1] in ('X', 'R', ''):
            continue
        found, n, m = pulls(text, answer)
        loads, others, bad = loads + n, others + m, bad + len(found)
        for line in found:
            print('fuzz: %s: a load pulls: %s' % (os.path.basename(name), line))
    print('fuzz: %d loads, %d not 0 or above and as they were handed in, %d pull' % (loads, others - bad, bad))
    return 1 if bad else 0


sys.exit(main(sys.argv[1]))
