#!/usr/bin/env python3
"""Years of recorded nights for ./replay, with what request E1 wants written of them.

    years.py N SEED FOLDER

writes FOLDER/000.txt .. and, by replays.py, FOLDER/000.out .., and a line on each year to FOLDER/LABELS. The fixed years,
which hold every edge once, come first (there are 50; a smaller N makes the first N of them); the rest are random years of
0 to 12 days, the same for the same seed. The nights are those of texts.py: good ones, damaged ones, random bytes.
"""
import os
import random
import sys

import texts
from judge import run
from replays import lines_of, replay

# The longest good text has 33,152 bytes, and 161 bytes after it show that a further line is bad: about there a reader may go wrong.
DECIDES = 33313
ABOUT_THE_END = range(DECIDES - 3, DECIDES + 5)
# No output is longer; what is recorded may be.
LONGEST_OUTPUT = 9550

NOTHING = b'E\t0\t0\n'               # the output of an empty input
NEARLY_D = (b'D\r', b' D', b'D ', b'DD', b'd', b'D\t', b'D\0', b'\0D', b'\xc4', b'\xef\xbb\xbfD', b'D\v', b'DZ')
NEARLY_Z = (b'ZZ', b' Z', b'Z\r', b'Z ', b'z', b'Z\t', b'Z\0', b'\0Z', b'\xda', b'\xef\xbb\xbfZ', b'Z\v', b'ZD')


def joined(lines):
    return b''.join(line + b'\n' for line in lines)


class Day:
    """The four parts of a day. A marker is its whole line, and may be left out or be another line."""

    def __init__(self, night, recorded=None, d=b'D\n', z=b'Z\n'):
        self.night = night
        self.recorded = run(night) if recorded is None else recorded
        self.d = d
        self.z = z

    def text(self):
        return self.night + self.d + self.recorded + self.z


def year_of(days):
    return b''.join(day.text() for day in days)


# ----------------------------------------------------- recorded outputs, spoiled
#
# Each makes of the lines of an output, of which there is at least one, what stands recorded. Now and then some leave it as
# it is, as where two equal lines change places.

def other_byte(rng, byte):
    return rng.choice([b for b in b'0123456789abcdefABEIXR\t \r\0\xff' if b != byte])


def byte_changed(rng, lines):
    i = rng.randrange(len(lines))
    line = bytearray(lines[i] or b'0')
    at = rng.choice((0, len(line) - 1, rng.randrange(len(line))))
    line[at] = other_byte(rng, line[at])
    lines[i] = bytes(line)
    return joined(lines)


def other_case(rng, lines):
    i = rng.randrange(len(lines))
    lines[i] = lines[i].upper() if lines[i].upper() != lines[i] else lines[i].lower()
    return joined(lines)


def every_line_changed(rng, lines):
    return joined(line + b'0' for line in lines)


def line_missing(rng, lines):
    del lines[rng.choice((0, -1, rng.randrange(len(lines))))]
    return joined(lines)


def only_the_first(rng, lines):
    return joined(lines[:rng.randrange(len(lines))])


def nothing_recorded(rng, lines):
    return b''


def put_in(rng, lines, line):
    lines.insert(rng.choice((0, len(lines), len(lines), rng.randint(0, len(lines)))), line)
    return joined(lines)


def surplus_line(rng, lines):
    return put_in(rng, lines, rng.choice(lines + [b'A\t0\t0', b'E\t0\t0', b'X\t1\t1', b' ', b'\t', b'0']))


def blank_line(rng, lines):
    return put_in(rng, lines, b'')


def nearly_marker(rng, lines):
    return put_in(rng, lines, rng.choice(NEARLY_D + NEARLY_Z))


def d_line(rng, lines):
    return put_in(rng, lines, b'D')


def z_line(rng, lines):
    return put_in(rng, lines, b'Z')


def nul_line(rng, lines):
    return put_in(rng, lines, b'\0' * rng.choice((1, 2, 160)))


def lines_swapped(rng, lines):
    i = rng.randrange(len(lines))
    k = rng.choice((max(i - 1, 0), rng.randrange(len(lines))))
    lines[i], lines[k] = lines[k], lines[i]
    return joined(lines)


def line_shorter(rng, lines):
    i = rng.choice((len(lines) - 1, rng.randrange(len(lines))))
    lines[i] = lines[i][1:] if rng.random() < 0.3 else lines[i][:-1]
    return joined(lines)


def line_longer(rng, lines):
    i = rng.choice((len(lines) - 1, rng.randrange(len(lines))))
    more = rng.choice((b'0', b'\r', b'\0', b' ', b'\t', b'D', b'Z', b'\xff'))
    lines[i] = more + lines[i] if rng.random() < 0.3 else lines[i] + more
    return joined(lines)


def every_line_with_cr(rng, lines):
    return joined(line + b'\r' for line in lines)


def lines_run_together(rng, lines):
    i = rng.randrange(len(lines))
    lines[i:i + 2] = [rng.choice((b'', b'\t', b'\r', b'\0')).join(lines[i:i + 2])]
    return joined(lines)


def line_broken(rng, lines):
    i = rng.randrange(len(lines))
    at = rng.randint(0, len(lines[i]))
    lines[i:i + 1] = [lines[i][:at], lines[i][at:]]
    return joined(lines)


def recorded_twice(rng, lines):
    return joined(lines) * 2


def of_another_night(rng, lines):
    return run(texts.good_night(rng).text())


def far_too_long(rng, lines):
    """longer than any output: by many lines, by one, or by one whose start is right"""
    more = LONGEST_OUTPUT + rng.randint(-2, 40)
    how = rng.randrange(5)
    if how == 0:
        return joined(lines) + b'\n' * more
    if how == 1:
        return joined(lines) + lines[-1] * more + b'\n'
    if how == 2:
        i = rng.randrange(len(lines))
        lines[i] += rng.choice((b'0', b'\0', b'D', b'Z', b'ZD')) * more
        return joined(lines)
    if how == 3:
        return joined(lines) + (joined(lines) + b'D\nZZ\n') * (more // len(joined(lines)) + 1)
    # as long as the longest output, to the byte
    return joined(lines) + b'0' * max(more - 10 - len(joined(lines)), 1) + b'\n'


SPOILS = (byte_changed, other_case, every_line_changed, line_missing, only_the_first, nothing_recorded, surplus_line, blank_line,
          nearly_marker, d_line, z_line, nul_line, lines_swapped, line_shorter, line_longer, every_line_with_cr,
          lines_run_together, line_broken, recorded_twice, of_another_night, far_too_long)

# ------------------------------------------------------------------------ nights


def line_with_d(rng):
    """a line that a reader who breaks long lines, or looks at a line's end alone, takes for D"""
    n = rng.choice((2, 3, 80, 159, 160, 161, 162, 163, 319, 320, 321, 322, 323, 640, 4096))
    line = bytearray(rng.choice((b'Q', b'0', b'\0', b'D', b'Z', b'\r', b' ')) * n)
    line[rng.choice((n - 1, n - 1, min(160, n - 1), min(161, n - 1), rng.randrange(n)))] = ord('D')
    return bytes(line)


def any_night(rng):
    kind = rng.choice(['good'] * 4 + ['edge'] + ['damaged'] * 3 + ['random bytes', 'tiny'])
    if kind == 'good':
        return texts.good_night(rng).text()
    if kind == 'edge':
        return texts.edge_night(rng).text()
    if kind == 'damaged':
        return texts.damaged(rng)
    if kind == 'random bytes':
        return texts.random_bytes(rng)
    return rng.choice((b'', b'', b'\n', b'S\t0\t0\n', texts.LB, b'\0\n', b'Q\n'))


MOST_LINES = 256 + 64 + 2 * 64 + 1


def most_lines(rng):
    """a night of the largest size that is good, each contact with two points: its output has the most lines"""
    night = texts.good_night(rng, 64, 64, 256, 'real')
    for contact in night.contacts:
        contact['count'] = 2
    night.steps = [(k % 64, kind % 5) for k, kind in night.steps]
    return night.text()


def long_input(rng, size, early):
    """an input of so many bytes, good as far as one can be, or with an early bad line"""
    if early:
        start = rng.choice((b'Q\n', b'\n', texts.LB + b'B\n', b'0' * 161 + b'\n', b'Z\n', texts.LB * 3 + b'S\t0\n', texts.LN))
    else:
        start = rng.choice((texts.FULL, texts.FULL, texts.FULL, most_lines(rng), texts.LB * 64 + texts.LK * 64))
    fill = rng.choice((b'S\t0\t0\n', texts.LS, texts.LB, b'0', b'D', b'\n', b'Z\n', b'\0', b'D\r\n', b'DD\n',
                       b'0' * 159 + b'D\n', b'0' * 160 + b'D\n', texts.FULL))
    text = (start + fill * (max(size - len(start), 0) // len(fill) + 1))[:size - 1]
    if text.endswith(b'\nD'):        # else what is left of the filling is the D line itself
        text = text[:-1] + b'0'
    return text + b'\n'


def spoiled_night(rng, night):
    """the night as it is, or with a line put in that is not the D line, or another that is longer than any good one"""
    how = rng.choice(['as it is'] * 6 + ['Z line', 'nearly a marker', 'line with D', 'no letter', 'CR', 'long'])
    lines = lines_of(night)
    at = rng.choice((0, len(lines), rng.randint(0, len(lines))))
    if how == 'Z line':
        lines.insert(at, b'Z')
    elif how == 'nearly a marker':
        lines.insert(at, rng.choice(NEARLY_D + NEARLY_Z))
    elif how == 'line with D':
        lines.insert(at, line_with_d(rng))
    elif how == 'no letter':
        lines.insert(at, rng.choice((b'', b'\0', b'\0' * 161)))
    elif how == 'CR':
        lines = [line + b'\r' for line in lines]
    elif how == 'long' and rng.random() < 0.4:
        size = rng.choice((rng.choice(ABOUT_THE_END), rng.choice(ABOUT_THE_END), len(texts.FULL) + rng.randint(-2, 170),
                           2 * DECIDES + rng.randint(-3, 3), 65536 + rng.randint(-3, 3), rng.randint(DECIDES, 100000)))
        return long_input(rng, size, rng.random() < 0.5)
    else:
        return night
    return joined(lines)

# ------------------------------------------------------------------ random years


def random_day(rng):
    night = spoiled_night(rng, any_night(rng))
    if night and not night.endswith(b'\n') and rng.random() < 0.9:
        night += b'\n'               # else the D stands at the end of the night's last line
    day = Day(night)
    if rng.random() < 0.6:
        day.recorded = rng.choice(SPOILS)(rng, lines_of(day.recorded))
        if day.recorded and rng.random() < 0.1:
            day.recorded = rng.choice(SPOILS)(rng, lines_of(day.recorded))
    how = rng.random()
    if how < 0.02:                   # the input runs on
        day.d = rng.choice((b'', rng.choice(NEARLY_D) + b'\n'))
    elif how < 0.04:                 # two days run together
        day.z = rng.choice((b'', rng.choice(NEARLY_Z) + b'\n'))
    elif how < 0.05:
        day.d = b'D\nD\n'
    elif how < 0.06:
        day.z = b'Z\nZ\n'
    return day


def up_to(place, fill, after_night):
    """a day with an input of one line, so long that what follows `after_night` stands that many bytes after the day's start"""
    return Day(fill * (place - len(after_night) - 1) + b'\n')


# What may stand between the input and the place in question; the day's output is X, line 1, reason 1.
AFTER_NIGHT = (b'', b'D\n', b'D\nX\t1\t1\n', b'D\nX\t1\t1\nZ\n', b'D\nX\t1\t1\nZ\nD\n')


def at_an_edge(rng):
    """a first day, in which a marker stands about the end of a buffer"""
    edge = rng.choice((1024, 4096, 8192, 16384, 32768, 65536, DECIDES, LONGEST_OUTPUT)) + rng.randint(-3, 3)
    return up_to(edge, rng.choice((b'0', b'D', b'\0')), rng.choice(AFTER_NIGHT))


def random_year(rng):
    """-> (what was done to the file, the file)"""
    days = [random_day(rng) for _ in range(rng.choice((0, 1, 1, 2, 3, 4, 5, 6, 8, 10, 12)))]
    if rng.random() < 0.08:
        days.insert(0, at_an_edge(rng))
    year = year_of(days)
    how = rng.choice(('whole', 'whole', 'whole', 'no last Z', 'no last byte 10', 'ends in its output', 'more after Z', 'cut',
                      'no D', 'no Z', 'byte changed', 'ends in its input', 'ends with D'))
    if not days:
        how = 'whole'
    elif how == 'no last Z':
        days[-1].z = b''
        year = year_of(days)
    elif how == 'no last byte 10':
        year = year[:-1]
    elif how == 'ends in its output':
        days[-1].z = b''
        year = year_of(days)[:-1]
    elif how == 'more after Z':
        year += rng.choice((b'\n', b'\n\n', b'\r\n', b'\0', b' ', b'\x1a', b'D', b'D\n', b'D\n\n', b'Z', b'Z\n', b'Z\nD', texts.LB,
                            Day(b'').text()[:-2]))
    elif how == 'cut':
        year = year[:rng.randrange(len(year))]
    elif how == 'no D':
        rng.choice(days).d = b''
        year = year_of(days)
    elif how == 'no Z':
        rng.choice(days).z = b''
        year = year_of(days)
    elif how == 'byte changed':
        at = rng.randrange(len(year))
        year = year[:at] + bytes([rng.choice((10, 13, 0, 32, 68, 90, rng.randrange(256)))]) + year[at + 1:]
    elif how == 'ends in its input':
        days[-1].d = days[-1].recorded = days[-1].z = b''
        year = year_of(days)
    elif how == 'ends with D':
        days[-1].recorded = days[-1].z = b''
        days[-1].d = rng.choice((b'D', b'D\n'))
        year = year_of(days)
    return how, year

# ------------------------------------------------------------------- fixed years


def fixed_years():
    """yields (label, file): the ends of a file, and every kind of line and of difference once"""
    rng = random.Random(1)           # not the seed: these are always the same
    good = texts.good_night(rng, 3, 2, 6, 'real').text()
    assert len(lines_of(run(good))) > 9
    refused = good + b'S\t9\t0\n'
    bad = good + b'S\n'
    assert run(refused) == b'R\t2\n' and run(bad).startswith(b'X\t')
    same = Day(b'').text()

    # a file's end
    yield 'empty', b''
    for whole in (b'D', b'D\n', b'Z', b'Z\n', b'\n', b'\n\n\n', b'D\nZ', b'D\nZ\n', b'D\n' + NOTHING, b'D\n' + NOTHING[:-1],
                  b'D\n' + NOTHING + b'Z', b'D\n' + NOTHING + b'\n', b'D\n' + NOTHING[:-2]):
        yield repr(whole), whole
    for more in (b'\n', b'\0', b'D', b'Z\n', b'D\n' + NOTHING[:-1]):
        yield 'after Z %r' % more, same + more
    yield 'days of four bytes, which tell the most for their length', b'D\nZ\n' * 3000

    # what is recorded
    def spoiled_each(night):
        return [Day(night, spoil(rng, lines_of(run(night)))) for spoil in SPOILS if spoil != z_line for _ in range(2)]

    yield 'each spoil of a good night', year_of(spoiled_each(good))
    yield 'each spoil of an X line', year_of(spoiled_each(bad))
    yield 'Z inside what is recorded', year_of([Day(good, z_line(rng, lines_of(run(good)))), Day(good), Day(b'')])
    output = lines_of(run(good))
    yield 'each line missing', year_of([Day(good, joined(output[:i] + output[i + 1:])) for i in range(len(output))] + [Day(good)])
    yield 'each line surplus', year_of([Day(good, joined(output[:i] + [b'A\t0\t9'] + output[i:]))
                                        for i in range(len(output) + 1)])
    yield 'each length', year_of([Day(good, joined(output[:i])) for i in range(len(output) + 1)])
    yield 'nearly Z or D recorded', year_of([Day(b'', NOTHING + line + b'\n') for line in (b'D',) + NEARLY_Z + NEARLY_D])
    yield 'D before the output', year_of([Day(b'', b'D\n' + NOTHING), Day(b'', b'D\n'), Day(b'', b'D\nD\n' + NOTHING), Day(b'')])
    yield 'X and R', year_of([Day(bad), Day(refused), Day(bad, run(refused)), Day(refused, run(bad)), Day(b'Q\n', NOTHING),
                              Day(b'', run(bad)), Day(good, run(bad)), Day(bad, run(good)), Day(bad, b''), Day(bad), Day(good)])
    yield 'no last Z, the same', year_of([Day(b''), Day(good, z=b'')])
    yield 'no last Z and no last byte 10', year_of([Day(b''), Day(good, z=b'')])[:-1]
    yield 'no last Z, more than the output', year_of([Day(b''), Day(good, run(good) + b'A\t0\t0', z=b'')])
    yield 'two days run together', year_of([Day(good, z=b''), Day(b''), Day(b'', z=b''), Day(b''), Day(b'')])
    full = most_lines(rng)
    output = lines_of(run(full))
    assert len(output) == MOST_LINES
    yield 'the most lines', year_of([Day(full), Day(full, joined(output[:-1])), Day(full, joined(output + [b''])),
                                     Day(full, joined(output[:-1] + [output[-1] + b'0'])), Day(full)])
    yield 'far longer than an output', year_of([Day(b'', NOTHING + b'\n' * 30000), Day(b'', NOTHING[:-1] + b'0' * 30000 + b'\n'),
                                                Day(b'', b'Z' * 30000 + b'\n'), Day(b'', NOTHING * 5000), Day(b''),
                                                Day(full, joined(output) * 4), Day(full)])
    # what differs stands past the bytes of an output, what came before is the same: a buffer that drops the rest
    yield 'about the longest output', year_of([Day(b'', NOTHING + b'0' * (n - len(NOTHING) - 1) + b'\n')
                                               for n in range(LONGEST_OUTPUT - 3, LONGEST_OUTPUT + 4)])

    # what is put in
    yield 'nearly D put in', year_of([Day(line + b'\n') for line in NEARLY_D + (b'', b'\0', b'\x1a')])
    yield 'Z put in', year_of([Day(night) for night in (b'Z\n', b'Z\nZ\n', texts.LB + b'Z\n', b'Z\n' + good, good + b'Z\n', b'')])
    yield 'no D', year_of([Day(b''), Day(good, d=b''), Day(b''), Day(b'')])
    yield 'no D, and it does not show', year_of([Day(b'', d=b''), Day(b'A\n'), Day(b'A\n', d=b''), Day(b'A\n')])
    yield 'no D in the last day', year_of([Day(b''), Day(good, d=b'')])
    yield 'the last input alone', year_of([Day(b''), Day(good, b'', d=b'', z=b'')])
    yield 'D at the end of a line', year_of([Day(good[:-1]), Day(b''), Day(good)])
    yield 'CR everywhere', year_of([Day(good), Day(b'')]).replace(b'\n', b'\r\n')
    long_lines = []
    for n in (2, 159, 160, 161, 162, 163, 320, 321, 322, 323):
        for line in (b'Q' * (n - 1) + b'D', b'D' * n, b'Q' * n, b'Q' * 160 + b'D' + b'Q' * n, b'Q' * 161 + b'D' + b'Q' * n):
            long_lines += [Day(line + b'\n'), Day(texts.LB + line + b'\n' + texts.LB)]
    yield 'long lines with D', year_of(long_lines)
    # The longest good text is followed by a line of so many bytes that the D line stands at the end of what decides.
    about = []
    for size in ABOUT_THE_END:
        need = size - len(texts.FULL) - 1
        for line in (b'Q' * need, b'S\t0\t' + b'0' * (need - 4), b'D' * need, b'Q' * (need - 1) + b'D',
                     b'Q' * (need - 2) + b'\n0'):
            about.append(Day(texts.FULL + line + b'\n'))
        about.append(Day(texts.FULL + b'Q' * need + b'\nDD\n'))
        about.append(Day(b'Q\n' + b'0' * (size - 3) + b'\n'))
        about.append(Day((b'Q\n' + b'DZ\n' * size)[:size - 1] + b'\n'))
        about.append(Day(b'Q' * (size - 1) + b'\n', NOTHING))
    yield 'D where enough is read', year_of(about)
    # Whoever reads a file in portions whose size divides 4096 sees every part of a marker at a portion's end and start.
    year = b''
    for shift in range(-3, 4):
        for fill in (b'0', b'D'):
            for after_night in AFTER_NIGHT:
                year += up_to(4096 + shift + -len(year) % 4096, fill, after_night).text()
    yield 'each part of a marker at a multiple of 4096', year
    yield 'the longest input', year_of([Day(texts.FULL), Day(texts.FULL, b'R\t3\n'), Day(full), Day(texts.FULL * 3), Day(b'')])

    # many days
    wrong = Day(b'', b'E\t0\t1\n').text()
    yield '120 days', b''.join(wrong if i % 7 == 3 else same for i in range(120))
    yield '1002 days', b''.join(wrong if i % 3 == 1 else same for i in range(1001)) + b'\n'

# -------------------------------------------------------------------------- main


def years(n, seed):
    """yields (label, file)"""
    made = 0
    for item in fixed_years():
        if made == n:
            return
        yield item
        made += 1
    rng = random.Random(seed)
    while made < n:
        yield random_year(rng)
        made += 1


def main(argv):
    n, seed, folder = int(argv[1]), int(argv[2]), argv[3]
    os.makedirs(folder, exist_ok=True)
    with open(os.path.join(folder, 'LABELS'), 'w') as labels:
        for i, (label, year) in enumerate(years(n, seed)):
            with open(os.path.join(folder, '%03d.txt' % i), 'wb') as file:
                file.write(year)
            with open(os.path.join(folder, '%03d.out' % i), 'wb') as file:
                file.write(replay(year))
            labels.write('%03d %s\n' % (i, label))


if __name__ == '__main__':
    main(sys.argv)
