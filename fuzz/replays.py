#!/usr/bin/env python3
"""A second reading of request E1 of document 02, "Last year's sheets again", in Python: what the program behind ./replay
has to write for a year's file. It is written from that request and from the readings below; of this repository it uses
judge.py alone, which says what a night's output is.

    replays.py < year.txt > lines

Readings of what E1 leaves open:
- A line ends with byte 10. What stands after the last byte 10, if anything, is a line too, and is as good as one that has
  it: a last D ends its input, a last Z ends its day, a last recorded line may be the same as the output's line.
- A line holds only D if it is the one byte 68, and only Z if it is the one byte 90. A carriage return, a blank or a byte
  more makes it another line. A line of more than 160 bytes goes on to its byte 10 like any other.
- A Z line before the day's D is a line of the input; a D line after it is a line of the recorded output.
- If any byte follows a Z line, be it a single byte 10, there is a further day.
"""
import itertools
import sys

from judge import run


def lines_of(data):
    lines = data.split(b'\n')
    if lines[-1] == b'':             # nothing stands after the last byte 10, or the data is empty
        lines.pop()
    return lines


def first_difference(output, recorded):
    """the number, from 1, of the first line that differs, is missing or is surplus; 0 if there is none"""
    for number, (ours, theirs) in enumerate(itertools.zip_longest(output, recorded), 1):
        if ours != theirs:           # None, which no line equals, where one of them has ended
            return number
    return 0


def replay(data):
    lines = lines_of(bytes(data))
    written = []
    day = at = 0                     # the day that starts at line `at`
    while at < len(lines):
        day += 1
        try:
            d = lines.index(b'D', at)
        except ValueError:           # no D: it is the last day, since all that is left belongs to its input
            written.append(b'%d\t2\n' % day)
            break
        try:
            z = lines.index(b'Z', d + 1)
        except ValueError:           # the last Z may be missing
            z = len(lines)
        # each of these lines has its byte 10, since the D line comes after it
        night = b''.join(line + b'\n' for line in lines[at:d])
        number = first_difference(lines_of(run(night)), lines[d + 1:z])
        written.append(b'%d\t1\t%d\n' % (day, number) if number else b'%d\t0\n' % day)
        at = z + 1
    return b''.join(written)


if __name__ == '__main__':
    sys.stdout.buffer.write(replay(sys.stdin.buffer.read()))
