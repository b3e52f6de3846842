#!/usr/bin/env python3
"""Test texts for the text program of document 01, with judged outputs.

    texts.py N SEED OUTDIR [--no-huge] [--only a|b|c|d|e]

writes OUTDIR/0000.txt .. and OUTDIR/0000.out, and prints what was covered.
Kinds of text: (a) good nights, (b) damaged nights, (c) random bytes,
(d) sizes, (e) huge.  If N is at least 500, (d) stands first, once each, then
(e) once each (80 MB; not with --no-huge); the rest is a, b, c by weight.
With --only d or e all of that kind are written, at most N.
"""
import collections
import os
import random
import struct
import sys

from judge import HEAD, NORMAL, TANGENT, FLOOR, run, to_bits, rnd, of_bits

# ------------------------------------------------------------------ floats

def F(x):
    return to_bits(rnd(x))

QNAN, SNAN = 0x7fc00000, 0x7f800001
NOT_FINITE = [0x7fc00000, 0xffc00000, 0x7f800001, 0xff800001, 0x7fffffff, 0xffffffff,
              0x7fabcdef, 0xff812345, 0x7fc0dead, 0x7fbfffff, 0x7f800000, 0xff800000]
TINY = [0x00000000, 0x80000000, 0x00000001, 0x80000001, 0x007fffff, 0x807fffff,
        0x00800000, 0x80800000, 0x1e3ce507, 0x1e3ce508, 0x1e3ce509, 0x9e3ce508]
BIG = [0x7f7fffff, 0xff7fffff, 0x7f000000, 0xff000000, 0x7e967699, 0x60ad78ec, 0x5f000000]
EDGE = [0x3f800000, 0xbf800000, 0x3f7fffff, 0x3f800001, 0x3f000000, 0x3f000001, 0x3effffff]
SMALL = [F(x) for x in (-2, -1, -0.5, -0.0, 0, 0, 0, 0.5, 1, 1, 2, 3)]


class Night:
    def __init__(self):
        self.bodies = []             # [x, y, w] patterns
        self.contacts = []           # dicts
        self.steps = []              # (contact, kind)

    def lines(self):
        out = []
        for b in self.bodies:
            out.append(b'B' + b''.join(b'\t%08x' % u for u in b))
        for c in self.contacts:
            out.append(b'C\t%d\t%d\t%d' % (c['b1'], c['b2'], c['count'])
                       + b''.join(b'\t%08x' % c['head'][n] for n in HEAD))
            for pt in c['pts']:
                out.append(b'N' + b''.join(b'\t%08x' % pt[0][n] for n in NORMAL))
                out.append(b'T' + b''.join(b'\t%08x' % pt[1][n] for n in TANGENT))
        for s in self.steps:
            out.append(b'S\t%d\t%d' % s)
        return out

    def text(self):
        return b''.join(l + b'\n' for l in self.lines())


def zero_points():
    return [(dict.fromkeys(NORMAL, 0), dict.fromkeys(TANGENT, 0)) for _ in range(2)]

# ------------------------------------------------------- (a) good nights

def foot_contact(rng, b1, b2, count):
    """a foot b1 (perhaps the floor) against b2, realistic numbers"""
    tilt = rng.choice((0.0, 0.0, 0.0, rng.uniform(-0.3, 0.3)))
    dx, dy = rnd(-tilt), rnd((1 - tilt * tilt) ** 0.5)
    m1 = 0.0 if b1 == FLOOR else rng.choice((1 / 83, rng.uniform(0.008, 0.05)))
    m2 = 0.0 if b2 == FLOOR else rng.choice((1 / 83, rng.uniform(0.008, 0.05)))
    j1 = 0.0 if b1 == FLOOR else rng.choice((20.0, rng.uniform(1, 30), 0.3))
    j2 = 0.0 if b2 == FLOOR else rng.choice((20.0, rng.uniform(1, 30), 0.3))
    arms = [-rng.uniform(0.02, 0.15), rng.uniform(0.02, 0.15)]
    if rng.random() < 0.25:          # both points on one side: k12 > 0
        arms = [rng.uniform(0.02, 0.15), rng.uniform(0.02, 0.15)]
    if rng.random() < 0.3:
        arms.reverse()
    arms2 = [rng.uniform(-0.15, 0.15) for _ in arms]
    high = rng.uniform(0.03, 0.1)
    head = dict(dirx=F(dx), diry=F(dy), im1x=F(m1), im1y=F(m1), im2x=F(m2), im2y=F(m2),
                friction=F(rng.choice((0.6, 0.6, 0.3, 0.0, rng.uniform(0, 1.5)))))
    k12 = m1 + m2 + arms[0] * j1 * arms[1] + arms2[0] * j2 * arms2[1]
    if rng.random() < 0.22:
        k12 = rng.choice((-1, 1, -3)) * rng.uniform(0.3, 3)
    head['k12'] = F(k12)
    head['flag'] = rng.choice([F(1.0)] * 7 + [F(0.0), F(0.0), 0x3f000000, 0x3f000001, F(-1.0)])
    pts = []
    for i in range(2):
        k = m1 + m2 + arms[i] ** 2 * j1 + arms2[i] ** 2 * j2
        p = rng.choice((0.0, 0.0, rng.uniform(0, 8), rng.uniform(0, 1)))
        n = dict(torque1=F(arms[i]), torque2=F(arms2[i]), ii1=F(arms[i] * j1), ii2=F(arms2[i] * j2),
                 rhs=F(rng.choice((0.0, rng.uniform(-0.2, 0.1), rng.uniform(-0.02, 0.02)))),
                 impulse=F(p), accumulator=F(rng.choice((0.0, rng.uniform(0, 20), -p))),
                 r=F(1 / k if k else 0.0), cfm=F(rng.choice((1.0, 1.0, 0.95, rng.uniform(0.3, 1)))),
                 seed=F(rng.choice((0.0, rng.uniform(-0.6, -0.05), rng.uniform(-0.6, 0.2)))))
        kt = m1 + m2 + high ** 2 * (j1 + j2)
        t = dict(torque1=F(high), torque2=F(-high), ii1=F(high * j1), ii2=F(-high * j2),
                 rhs=F(rng.choice((0.0, 0.0, rng.uniform(-0.1, 0.1)))),
                 impulse=F(rng.choice((0.0, rng.uniform(-3, 3)))), accumulator=F(rng.uniform(-2, 2)),
                 r=F(1 / kt if kt else 0.0))
        pts.append((n, t))
    return dict(b1=b1, b2=b2, count=count, head=head, pts=pts)


def clear_floor(c):
    for b, ims, ii in ((c['b1'], ('im1x', 'im1y'), 'ii1'), (c['b2'], ('im2x', 'im2y'), 'ii2')):
        if b == FLOOR:
            for n in ims:
                c['head'][n] = 0
            for pt in c['pts']:
                pt[0][ii] = 0
                pt[1][ii] = 0


def palette_contact(rng, b1, b2, count, pick):
    """every float from pick(); then put right what 9 would refuse, mostly"""
    c = dict(b1=b1, b2=b2, count=count, head={n: pick() for n in HEAD},
             pts=[({n: pick() for n in NORMAL}, {n: pick() for n in TANGENT}) for _ in range(2)])
    for n in ('im1x', 'im1y', 'im2x', 'im2y', 'friction'):
        c['head'][n] &= 0x7fffffff
    if rng.random() < 0.6:
        c['head']['flag'] = F(1.0)
    for pt in c['pts']:
        pt[0]['r'] &= 0x7fffffff
        pt[1]['r'] &= 0x7fffffff
        pt[0]['impulse'] &= 0x7fffffff
        cfm = of_bits(pt[0]['cfm'])
        if not 0 < cfm <= 1:
            pt[0]['cfm'] = rng.choice((0x3f800000, 0x3f000000, 0x3f7fffff, 1, 0x00800000))
    if rng.random() < 0.2:           # minus zero where "below 0" lets it pass
        c['head'][rng.choice(('im1x', 'im2y', 'friction'))] = 0x80000000
        c['pts'][0][0][rng.choice(('r', 'impulse'))] = 0x80000000
    clear_floor(c)
    if rng.random() < 0.2:           # minus zero on the floor's side
        for b, k in ((b1, '1'), (b2, '2')):
            if b == FLOOR:
                c['head']['im' + k + 'x'] = 0x80000000
                c['pts'][0][0]['ii' + k] = 0x80000000
                c['pts'][count - 1][1]['ii' + k] = 0x80000000
    return c


def pickers(rng):
    def small():
        return rng.choice(SMALL)

    def wide():
        k = rng.random()
        if k < 0.35:
            return rng.choice(SMALL)
        if k < 0.6:
            return rng.choice(TINY)
        if k < 0.75:
            return rng.choice(BIG)
        if k < 0.85:
            return rng.choice(EDGE)
        return F(rng.uniform(-4, 4) * 10 ** rng.randint(-20, 20))

    def moderate():
        return F(rng.uniform(-4, 4) * 10 ** rng.randint(-6, 6))

    def tiny():
        return rng.choice(TINY + SMALL)

    def bits():
        while True:
            u = rng.getrandbits(32)
            if u & 0x7f800000 != 0x7f800000:
                return u
    return dict(small=small, wide=wide, moderate=moderate, tiny=tiny, bits=bits)


def defect(rng, night, c):
    """spoil one contact, or a body of it, in one way that a check names"""
    k = rng.randint(5, 10)
    nb = len(night.bodies)
    cnt = c['count'] if c['count'] in (1, 2) else 2
    if k == 5:
        w = rng.randint(0, 4)
        if w == 0:
            c['b1'] = rng.choice((nb, nb + 1, 64, 65534, 1000))
        elif w == 1:
            c['b2'] = rng.choice((nb, 63, 64, 65534, 256))
        elif w == 2:
            c['b1'] = c['b2']
        elif w == 3:
            c['b1'] = c['b2'] = FLOOR
        else:
            c['b2'] = c['b1']
    elif k == 6:
        c['count'] = rng.choice((0, 3, 4, 255, 256, 257, 258, 65535))
    elif k == 7:
        c['count'] = 1               # with kind 4 later
    elif k == 8:
        bad = rng.choice(NOT_FINITE)
        w = rng.randint(0, 4)
        if w == 0:
            c['head'][rng.choice(HEAD)] = bad
        elif w == 1:
            c['pts'][rng.randrange(cnt)][0][rng.choice(NORMAL)] = bad
        elif w == 2:
            c['pts'][rng.randrange(cnt)][1][rng.choice(TANGENT)] = bad
        elif w == 3:                 # in b, perhaps past the count: no matter then
            c['pts'][1][rng.randint(0, 1)][rng.choice(TANGENT)] = bad
        elif nb:
            b = rng.choice((c['b1'], c['b2']))
            if b < nb:
                night.bodies[b][rng.randrange(3)] = bad
    elif k == 9:
        neg = rng.choice((F(-0.01), F(-1), 0x80000001, 0xff7fffff, 0x80800000))
        w = rng.randint(0, 6)
        pt = c['pts'][rng.randrange(2)]
        if w == 0:
            c['head'][rng.choice(('im1x', 'im1y', 'im2x', 'im2y'))] = neg
        elif w == 1:
            c['head']['friction'] = neg
        elif w == 2:
            pt[rng.randint(0, 1)]['r'] = neg
        elif w == 3:
            pt[0]['impulse'] = neg
        elif w == 4:
            pt[0]['cfm'] = rng.choice((0, 0x80000000, 0x3f800001, F(2), neg, 0x7f7fffff))
        else:
            side = '1' if c['b1'] == FLOOR else '2'
            val = rng.choice((F(0.012), 1, 0x80000001, F(-1)))
            if rng.random() < 0.4:
                c['head']['im' + side + rng.choice('xy')] = val
            else:
                pt[rng.randint(0, 1)]['ii' + side] = val
    else:
        huge = rng.choice((0x7f7fffff, 0x7f000000, 0x7e967699))
        w = rng.randint(0, 6)
        pt = c['pts'][rng.randrange(cnt)]
        if w == 0:
            pt[0]['r'] = huge
            pt[0]['rhs'] = F(-3)
        elif w == 1:
            pt[0]['impulse'] = huge
            if c['b1'] != FLOOR:
                pt[0]['ii1'] = F(4)
            else:
                pt[0]['ii2'] = F(4)
        elif w == 2:
            pt[1]['r'] = huge
            pt[1]['rhs'] = F(rng.choice((-3, 3)))
            pt[0]['impulse'] = huge
            c['head']['friction'] = F(rng.choice((1.0, 4.0)))
        elif w == 3:
            pt[0]['rhs'] = huge | rng.getrandbits(1) << 31
            pt[0]['seed'] = 0xff7fffff
            pt[0]['accumulator'] = F(1)
        elif w == 4:
            c['head']['k12'] = huge
            c['head']['flag'] = rng.choice((0, F(1)))
        elif w == 5:
            pt[1]['impulse'] = huge | rng.getrandbits(1) << 31
            pt[1]['r'] = 0
        elif nb:
            b = rng.choice((c['b1'], c['b2']))
            if b < nb:
                night.bodies[b][rng.randrange(3)] = huge | rng.getrandbits(1) << 31


def good_night(rng, nb=None, nc=None, ns=None, style=None):
    night = Night()
    if style is None:
        style = rng.choice(['real'] * 11 + ['small'] * 3 + ['wide', 'moderate', 'tiny', 'bits'])
    nb = rng.choice((1, 2, 2, 3, 4, 6)) if nb is None else nb
    nc = rng.randint(1, 5) if nc is None else nc
    ns = rng.choice((0, 1, 3, 6, 10, 16, 24)) if ns is None else ns
    pick = pickers(rng).get(style)
    for _ in range(nb):
        if pick:
            night.bodies.append([pick(), pick(), pick()])
        else:
            night.bodies.append([F(rng.uniform(-0.5, 0.5)), F(rng.uniform(-0.6, 0.25)),
                                 F(rng.choice((0.0, rng.uniform(-1, 1), rng.uniform(-6, 6))))])
        if rng.random() < 0.05:
            night.bodies[-1][rng.randrange(3)] = 0x80000000
    for _ in range(nc):
        b1 = rng.randrange(nb) if nb else FLOOR
        b2 = FLOOR
        if nb > 1 and rng.random() < 0.4:
            b2 = rng.choice([i for i in range(nb) if i != b1])
        if rng.random() < 0.15:
            b1, b2 = b2, b1
        count = rng.choice((1, 2, 2))
        if pick:
            c = palette_contact(rng, b1, b2, count, pick)
        else:
            c = foot_contact(rng, b1, b2, count)
        if count == 1 and rng.random() < 0.3:     # point b is never read then
            for part in c['pts'][1]:
                for n in part:
                    part[n] = rng.choice(NOT_FINITE + BIG + TINY)
        night.contacts.append(c)
    spoiled = set()
    if nc and rng.random() < 0.5:
        for _ in range(rng.choice((1, 1, 2, 3))):
            i = rng.randrange(nc)
            defect(rng, night, night.contacts[i])
            spoiled.add(i)
    # patterns in bodies that no contact names, and in accumulators and seeds
    if nb and rng.random() < 0.15:
        night.bodies[rng.randrange(nb)][rng.randrange(3)] = rng.choice(NOT_FINITE)
    for _ in range(ns):
        if not nc:
            break
        k = rng.randrange(nc)
        kind = rng.choice((0, 1, 2, 3, 4, 4, 4))
        if kind == 4 and night.contacts[k]['count'] == 1 and rng.random() < 0.7:
            kind = rng.choice((0, 1, 2, 3))
        night.steps.append((k, kind))
    z = rng.random()
    if night.steps and z < 0.08:
        i = rng.randrange(len(night.steps))
        if z < 0.03:
            night.steps[i] = (rng.choice((nc, nc + 1, 64, 65535, 256)), night.steps[i][1])
        elif z < 0.06:
            night.steps[i] = (night.steps[i][0], rng.choice((5, 6, 9, 10, 256, 257, 65535)))
        else:                        # both, 3 first in the list: 2 is the answer
            night.steps.insert(0, (0, 5))
            night.steps.append((nc, 0))
    elif ns and not nc:
        night.steps = [(0, 0)] * ns
    return night


def edge_night(rng):
    """one contact, all kinds of step, and one or two cells at an edge"""
    night = Night()
    night.bodies = [[F(rng.uniform(-0.5, 0.5)), F(rng.uniform(-0.6, 0.25)), F(rng.uniform(-3, 3))] for _ in range(2)]
    b1, b2 = rng.choice(((0, FLOOR), (0, FLOOR), (FLOOR, 0), (0, 1)))
    c = foot_contact(rng, b1, b2, rng.choice((1, 2, 2)))
    night.contacts = [c]
    mode = rng.randint(0, 5)
    if mode == 0:                    # a cell that is not finite, or at an edge
        for _ in range(rng.choice((1, 1, 1, 2))):
            val = rng.choice(NOT_FINITE + TINY + EDGE + [F(-0.01), F(0.01), F(-1)])
            k = rng.randrange(51)
            if k < 9:
                c['head'][HEAD[k]] = val
            elif k < 45:
                pt = c['pts'][(k - 9) // 18]
                j = (k - 9) % 18
                if j < 10:
                    pt[0][NORMAL[j]] = val
                else:
                    pt[1][TANGENT[j - 10]] = val
            else:
                night.bodies[(k - 45) // 3][(k - 45) % 3] = val
    elif mode == 1:                  # what 9 looks at, and only that
        val = rng.choice((F(-0.01), 0x80000001, 0x80000000, 0, 1, 0x3f800000, 0x3f800001, F(0.01), 0x00800000))
        places = [(c['head'], n) for n in ('im1x', 'im1y', 'im2x', 'im2y', 'friction')]
        for pt in c['pts']:
            places += [(pt[0], 'r'), (pt[1], 'r'), (pt[0], 'impulse'), (pt[0], 'cfm'), (pt[0], 'cfm'), (pt[0], 'ii1'),
                       (pt[0], 'ii2'), (pt[1], 'ii1'), (pt[1], 'ii2')]
        d, n = rng.choice(places)
        d[n] = val
    elif mode == 2:                  # around the cutoff of inv, in r and in cfm
        near = (0x1e3ce507, 0x1e3ce508, 0x1e3ce509, 0x1e3ce506, 0x1e3ce50a)
        for pt in c['pts']:
            for n in ('r', 'cfm'):
                if rng.random() < 0.5:
                    pt[0][n] = rng.choice(near)
            if rng.random() < 0.7:
                pt[0]['impulse'] = rng.choice((0, 0, F(1e-20), F(1e-22)))
        c['count'] = 2
        c['head']['flag'] = F(1)
        if rng.random() < 0.5:
            c['head']['k12'] = rng.choice((0, F(1e-20), F(-1e10), F(1e20), F(-1e20), F(1e-3)))
    elif mode == 3:                  # zeros of both signs
        for b in night.bodies:
            for i in range(3):
                if rng.random() < 0.8:
                    b[i] = rng.choice((0, 0x80000000))
        for pt in c['pts']:
            for n in ('rhs', 'seed', 'impulse', 'accumulator', 'r', 'torque1'):
                if rng.random() < 0.7:
                    pt[0][n] = rng.choice((0, 0x80000000))
            for n in ('rhs', 'impulse', 'torque1', 'r'):
                if rng.random() < 0.7:
                    pt[1][n] = rng.choice((0, 0x80000000))
        if rng.random() < 0.4:
            c['head']['k12'] = rng.choice((0, 0x80000000))
    elif mode == 4:                  # two real bodies, all numbers uneven: rounding
        c = foot_contact(rng, 0, 1, 2)
        c['head'].update(dirx=F(rng.uniform(-1, 1)), diry=F(rng.uniform(-1, 1)), im1x=F(rng.uniform(0, 2)),
                         im1y=F(rng.uniform(0, 2)), im2x=F(rng.uniform(0, 2)), im2y=F(rng.uniform(0, 2)),
                         flag=F(rng.choice((0, 0, 1))))
        for pt in c['pts']:
            for part in pt:
                for n in ('torque1', 'torque2', 'ii1', 'ii2', 'rhs'):
                    part[n] = F(rng.uniform(-1, 1))
            pt[0]['r'] = F(rng.uniform(0.1, 1))
            pt[1]['r'] = F(rng.uniform(0.1, 1))
        night.contacts = [c]
    else:                            # det at zero and about it
        r = rng.choice((1.0, 0.5, 2.0, 0.25))
        for pt in c['pts']:
            pt[0]['r'] = F(r)
            pt[0]['cfm'] = F(rng.choice((1, 1, 0.5)))
            pt[0]['rhs'] = F(rng.choice((-1, -0.5, 0, 0.5, 1)))
            pt[0]['impulse'] = F(rng.choice((0, 0, 0.5, 1)))
        k = 1 / r
        c['head']['k12'] = rng.choice((F(k), F(-k), F(k) + 1, F(k) - 1, F(-k) + 1, F(-k) - 1))
        c['head']['flag'] = rng.choice((F(1), F(1), F(1), 0x3f000001))
        c['count'] = 2
        if rng.random() < 0.5:
            for b in night.bodies:
                b[:] = [0, 0, 0]
    kinds = [0, 1, 2, 3, 4] if c['count'] == 2 or rng.random() < 0.2 else [0, 1, 2, 3]
    rng.shuffle(kinds)
    if mode in (2, 4, 5):
        kinds = [4] + kinds + [4]
    night.steps = [(0, k) for k in kinds[:rng.choice((1, 3, 6))]]
    return night


# ---------------------------------------------------------- (b) damaged

ALPHABET = b'BCNTS\t\n0123456789abcdefABCDEF-+. \r\0\xff'


def base_lines(rng):
    nb = rng.choice((0, 1, 2, 3))
    return good_night(rng, nb, rng.choice((0, 1, 1, 2)), rng.choice((0, 1, 3, 5)), 'real').lines()


def join(lines):
    return b''.join(l + b'\n' for l in lines)


def pad_to(rng, line, n):
    """make a line n bytes long, keeping its start"""
    if len(line) >= n:
        return line[:n]
    how = rng.randint(0, 3)
    need = n - len(line)
    if how == 0:
        return line + b'\t' * need
    if how == 1:
        return line + b'0' * need
    if how == 2:
        return line + (b'\t00000000' * (need // 9 + 1))[:need]
    return line + bytes(rng.choice(b'abc \t\r\0\xff') for _ in range(need))


def damaged(rng):
    lines = base_lines(rng)
    if not lines:
        lines = [b'B\t00000000\t00000000\t00000000']
    for _ in range(rng.choice((1, 1, 1, 1, 2))):
        data, lines = damage_once(rng, lines)
    return data


def damage_once(rng, lines):
    how = rng.randint(0, 24)
    lines = list(lines) or [b'S\t0\t0']
    i = rng.randrange(len(lines))
    fields = lines[i].split(b'\t')
    j = rng.randrange(1, len(fields)) if len(fields) > 1 else 0
    text = bytearray(join(lines))
    at = rng.randrange(len(text))
    byte = rng.choice(ALPHABET) if rng.random() < 0.7 else rng.randrange(256)

    def raw(b):
        b = bytes(b)
        return b, b.split(b'\n')[:-1] if b.endswith(b'\n') else b.split(b'\n')

    def again():
        lines[i] = b'\t'.join(fields)
        return join(lines), lines

    if how == 0:
        text[at] = byte
        return raw(text)
    if how == 1:
        text.insert(at, byte)
        return raw(text)
    if how == 2:
        del text[at]
        return raw(text)
    if how == 3:
        text.insert(at, text[at])
        return raw(text)
    if how == 4:
        del lines[i]
        return join(lines), lines
    if how == 5:
        lines.insert(i, lines[i])
        return join(lines), lines
    if how == 6:
        k = rng.randrange(len(lines))
        lines[i], lines[k] = lines[k], lines[i]
        return join(lines), lines
    if how == 7:                     # CR LF, everywhere or on one line
        if rng.random() < 0.5:
            lines = [l + b'\r' for l in lines]
        else:
            lines[i] += b'\r'
        return join(lines), lines
    if how == 8:
        fields[j] = fields[j].upper()
        if fields[j] == lines[i].split(b'\t')[j]:
            fields[j] = rng.choice((b'3F800000', b'3f80000A', b'0000000g', b'0x3f8000', b'3f80000:', b'3f80000/', b'3f80000`'))
        return again()
    if how == 9:
        fields[j] = b'0' + fields[j]
        return again()
    if how == 10:                    # numbers at and past the edge
        pool = [b'65536', b'65536', b'65536', b'65535', b'65534', b'70000', b'99999', b'65545', b'65599', b'100000', b'655360', b'131072',
                b'4294967296', b'18446744073709551616', b'9' * 80, b'00', b'01', b'00000', b'065535', b'0' * 30 + b'1']
        cs = [k for k, l in enumerate(lines) if l[:1] in (b'C', b'S')]
        if cs:
            k = rng.choice(cs)
            f = lines[k].split(b'\t')
            f[rng.randint(1, min(len(f) - 1, 3 if f[0] == b'C' else 2)) if len(f) > 1 else 0] = rng.choice(pool)
            lines[k] = b'\t'.join(f)
        return join(lines), lines
    if how == 11:
        fields[j] = rng.choice((b'-', b'+', b' ', b'.')) + fields[j]
        return again()
    if how == 12:
        fields[j] = b''
        return again()
    if how == 13:
        del fields[j]
        return again()
    if how == 14:
        fields.insert(rng.randint(0, len(fields)), rng.choice((b'00000000', b'0', b'', b'B', b'3f800000')))
        return again()
    if how == 15:
        lines[i] += b'\t' * rng.choice((1, 1, 2, 5))
        return join(lines), lines
    if how == 16:                    # no final newline
        return join(lines)[:-1], lines
    if how == 17:                    # truncated
        return raw(text[:at])
    if how == 18:                    # lines around 160 bytes
        n = rng.choice((159, 160, 161, 162))
        start = rng.choice((lines[i], lines[i][:2], b'', b'Q', b'BB', lines[i][:1]))
        lines[i] = pad_to(rng, start, n)
        data = join(lines)
        if rng.random() < 0.3:       # as the last line, without byte 10
            lines = lines[:i + 1]
            data = join(lines)[:-1]
        return data, lines
    if how == 19:                    # first field
        fields[0] = rng.choice((b'', b'b', b'A', b'I', b'E', b'X', b'R', b'BB', b'B ', b' B', b'\r', b'\0', b'\xff',
                                b'SS', b'CN', b'c', b's', b'B\r'))
        return again()
    if how == 20:                    # a known letter in a wrong place, or alone
        if rng.random() < 0.5:
            lines[i] = rng.choice((b'B', b'C', b'N', b'T', b'S', b'B\t', b'S\t0', b'S\t', b'C\t0\t65535\t1'))
        else:
            lines[i] = rng.choice((b'B', b'C', b'N', b'T', b'S')) + lines[i][1:]
        return join(lines), lines
    if how == 21:                    # an empty line
        lines.insert(i if rng.random() < 0.7 else len(lines), b'')
        return join(lines), lines
    if how == 22:                    # two tabs, or a blank, for one tab
        k = text.find(b'\t', at)
        if k >= 0:
            text[k:k + 1] = rng.choice((b'\t\t', b' ', b'  ', b'\t ', b' \t', b'\v', b','))
        return raw(text)
    if how == 24:                    # a good line, or a good contact, at another place
        k = rng.randrange(len(lines))
        n = 5 if lines[i][:1] == b'C' else 1
        moved = lines[i:i + n]
        del lines[i:i + n]
        lines[k:k] = moved
        return join(lines), lines
    # a contact cut short by the end
    cs = [k for k, l in enumerate(lines) if l[:1] in (b'C', b'N', b'T')]
    if cs:
        lines = lines[:rng.choice(cs) + 1]
    data = join(lines)
    if rng.random() < 0.4:
        data = data[:-1]
    return data, lines

# ------------------------------------- (d) every cell at every edge value

CELL_VALUES = [0x7fc0dead, 0xff800001, 0x7f800000, 0xff800000, F(-0.01), 0x80000001, 0x80000000, 0, 1,
               0x3f000000, 0x3f7fffff, 0x3f800000, 0x3f800001, 0x7f7fffff, 0xff7fffff, 0x1e3ce508]


def cells_night(rng, val, count, sides):
    """51 contacts alike but for one cell each, one body each, all kinds"""
    night = Night()
    for k in range(51):
        night.bodies.append([F(rng.uniform(-0.5, 0.5)), F(rng.uniform(-0.6, 0.25)), F(rng.uniform(-3, 3))])
    night.bodies.append([F(0.1), F(0.05), F(-0.2)])
    for k in range(51):
        b1, b2 = ((k, FLOOR), (FLOOR, k), (k, 51))[sides]
        c = foot_contact(rng, b1, b2, count)
        c['head']['flag'] = F(rng.choice((0, 1)))
        c['head']['friction'] = F(0.6)
        if k < 9:
            c['head'][HEAD[k]] = val
        elif k < 45:
            part, names = divmod((k - 9) % 18, 10)
            pt = c['pts'][(k - 9) // 18]
            pt[part][(NORMAL, TANGENT)[part][names]] = val
        elif k < 48:
            night.bodies[k][k - 45] = val
        night.contacts.append(c)
    kinds = [0, 1, 4, 2, 3] if count == 2 else [0, 1, 2, 3]
    for k in range(51):
        rng.shuffle(kinds)
        night.steps += [(k, kind) for kind in kinds]
    if count == 1:
        night.steps += [(rng.randrange(51), 4) for _ in range(20)]
    return night

# ------------------------------------------------------ (c) random bytes

def random_bytes(rng):
    k = rng.randint(0, 5)
    n = rng.choice((0, 1, 2, 3, 5, 10, 30, 159, 160, 161, 162, 300, 1000, 5000))
    if k == 0:
        return bytes(rng.randrange(256) for _ in range(n))
    if k == 1:
        return bytes(rng.choice(ALPHABET) for _ in range(n))
    if k == 2:                       # lines of a known letter and noise
        out = b''
        for _ in range(rng.randint(1, 8)):
            out += rng.choice((b'B\t', b'C\t', b'N\t', b'T\t', b'S\t')) \
                + bytes(rng.choice(b'\t0123456789abcdef') for _ in range(rng.randint(0, 40))) + b'\n'
        return out
    if k == 3:                       # right shape of line, random letters
        out = b''
        form = {b'B': (0, 3), b'C': (3, 9), b'N': (0, 10), b'T': (0, 8), b'S': (2, 0)}
        word = rng.choice(('B', 'BC', 'BCN', 'BCNT', 'BCNTN', 'BCNTNT', 'BCNTNTS', 'BBCNTNTCNTNTSS', 'S', 'CNTNT', 'CNTNTB'))
        for ch in word + ''.join(rng.choice('BCNTS') for _ in range(rng.choice((0, 0, 1, 2)))):
            l = ch.encode()
            d, f = form[l]
            out += l + b''.join(b'\t%d' % rng.choice((0, 1, 2, 9, 10, 65535, rng.randrange(65536))) for _ in range(d)) \
                + b''.join(b'\t%08x' % rng.getrandbits(32) for _ in range(f)) + b'\n'
        return out
    if k == 4:                       # a good night with noise behind it
        return good_night(rng, style='real').text() + bytes(rng.choice(ALPHABET) for _ in range(n))
    return bytes(rng.choice(b'\n\t\r\0 ') for _ in range(n))

# ------------------------------------------------------------- (d) sizes

LB = b'B\tffc00001\t7f800000\tffffffff\n'
LC = b'C\t65535\t65534\t65535' + b'\tffffffff' * 9 + b'\n'
LN = b'N' + b'\t7fc0dead' * 10 + b'\n'
LT = b'T' + b'\t80000001' * 8 + b'\n'
LK = LC + LN + LT + LN + LT
LS = b'S\t65535\t65535\n'
FULL = LB * 64 + LK * 64 + LS * 256
assert len(FULL) == 33152 == 64 * 29 + 64 * 433 + 256 * 14


def sizes(rng):
    out = []

    def put(name, data):
        out.append(('d:' + name, data))

    def night(nb, nc, ns, style='real'):
        return good_night(random.Random(rng.getrandbits(32)), nb, nc, ns, style)

    for nb, nc, ns in ((64, 64, 256), (64, 1, 5), (1, 64, 5), (1, 1, 256), (0, 0, 0), (64, 0, 0), (0, 64, 0), (0, 0, 1), (0, 0, 257),
                       (65, 1, 1), (1, 65, 1), (1, 1, 257), (65, 0, 0), (0, 65, 0), (65, 65, 257), (64, 65, 257), (64, 64, 257),
                       (63, 63, 255), (64, 64, 0)):
        put('%d,%d,%d' % (nb, nc, ns), night(nb, nc, ns).text())
        if nb in (64, 65) or nc == 65 or ns == 257:
            t = night(nb, nc, ns).text()
            put('%d,%d,%d no newline' % (nb, nc, ns), t[:-1])
    # the order of lines: every letter at every place, its fields good and bad; and every place as the end
    whole = night(1, 1, 1).text().split(b'\n')[:-1]
    letters = {l[:1]: l for l in whole}
    for place in range(len(whole) + 1):
        before = b''.join(l + b'\n' for l in whole[:place])
        put('ends at %d' % place, before)
        put('ends at %d, no newline' % place, before[:-1])
        for letter, line in sorted(letters.items()):
            put('%s at %d' % (letter.decode(), place), before + line + b'\n')
            put('%s at %d, bad fields' % (letter.decode(), place), before + line + b'\t0\n')
            put('%s at %d, and the rest' % (letter.decode(), place), before + line + b'\n' + b''.join(l + b'\n' for l in whole[place:]))
    for style in ('small', 'wide', 'real', 'moderate'):
        put('full ' + style, night(64, 64, 256, style).text())
    full = night(64, 64, 256)
    full.steps = [(i % 64, (0, 4, 1, 2, 3)[i % 5]) for i in range(256)]
    t = full.text()
    put('full walk', t)
    put('full walk no newline', t[:-1])
    for more in (b'S\t0\t0\n', b'S\t0\t0', b'\n', b'\t', b'S', b'S\t0\t', b'B\t0\n', LB, LC, LN, LT, LS, b'\xff' * 160, b'\xff' * 161,
                 b'garbage\nmore\n', b'\r\n', b'S\t00\t0\n', b'S\t65536\t0\n', b'S\t0\t0\t\n'):
        put('full walk + %r' % more[:12], t + more)
        put('longest + %r' % more[:12], FULL + more)
    # the 65th of each, wrong in an earlier way too
    put('65th B bad', LB * 64 + b'B\t0\t0\t0\n')
    put('65th C bad', LB * 64 + LK * 64 + LC[:-2] + b'\n')
    put('65th C then end', LB * 64 + LK * 64 + LC)
    put('65th C then N', LB * 64 + LK * 64 + LC + LN)
    put('64 contacts, last cut', LB * 64 + LK * 63 + LC + LN + LT + LN)
    put('64 contacts, last cut, no newline', (LB * 64 + LK * 63 + LC + LN + LT + LN)[:-1])
    put('257th S bad', LS * 256 + b'S\t0\n')
    put('257th line B', LS * 256 + LB)
    # numbers of the longest form that still run: 65535 as body2, 2-digit contacts
    put('longest', FULL)
    put('longest no newline', FULL[:-1])
    k3 = LB * 64 + LK * 64 + b'S\t63\t65535\n' * 256
    put('longest kind', k3)
    runs = LB * 64 + LK * 64 + b'S\t63\t4\n' * 256
    put('longest that runs', runs)
    # around the longest good text
    for n in range(33151, 33155):
        d = (FULL + b'S\t0\t0\n')[:n]
        put('len %d S' % n, d)
        put('len %d B' % n, (FULL + LB)[:n])
        put('len %d newline' % n, (FULL + b'\n\n\n')[:n])
        put('len %d ff' % n, (FULL + b'\xff\xff')[:n])
        put('len %d all one line' % n, b'B' * n)
        put('len %d newlines after B' % n, LB + b'\n' * (n - len(LB)))
    # past it: a last line that starts at byte 33,153
    for n in range(33312, 33316):
        need = n - len(FULL)
        for name, body in (('Q', b'Q' * need), ('S tabs', b'S' + b'\t' * (need - 1)), ('B', b'B' + b'0' * (need - 1)),
                           ('B field', b'B\t' + b'0' * (need - 2)), ('N', b'N\t' + b'0' * (need - 2)),
                           ('CR', b'\r' * need), ('S good, then more', (b'S\t0\t0' + b'\t0' * need)[:need])):
            put('len %d %s' % (n, name), FULL + body)
            put('len %d %s newline inside' % (n, name), FULL + body[:-1] + b'\n')
            put('len %d %s newline and more' % (n, name), FULL + body + b'\n' + LS * 3)
        put('len %d S lines' % n, (FULL + b'S\t0\t0\n' * 40)[:n])
        put('len %d S long lines' % n, (FULL + LS * 40)[:n])
    # the last line good but for its length, before the tables are full
    for k in (158, 159, 160, 161, 162, 163):
        put('line of %d' % k, LB + b'S\t0\t' + b'1' * (k - 4) + b'\n')
        put('line of %d, no newline' % k, LB + b'S\t0\t' + b'1' * (k - 4))
        put('line of %d, CR' % k, LB + b'Q' * (k - 1) + b'\r\n')
        put('line of %d after 255 S' % k, FULL[:-14] + b'S' * k)
        put('line of %d after 255 S, more' % k, FULL[:-14] + b'S\t' + b'0' * (k - 2) + b'\n' + LS)
    for val in CELL_VALUES:
        for count in (1, 2):
            for sides in range(3):
                put('cells %08x count %d sides %d' % (val, count, sides), cells_night(rng, val, count, sides).text())
    # cut anywhere in the longest
    for _ in range(30):
        n = rng.randrange(len(FULL))
        put('longest cut at %d' % n, FULL[:n])
    return out

# -------------------------------------------------------------- (e) huge

MEG10 = 10 * 1000 * 1000


def huge(rng):
    t = good_night(random.Random(5), 64, 64, 256, 'real').text()
    return [
        ('e:one line', b'B' + b'\t00000000' * (MEG10 // 9)),
        ('e:one line after a night', t + b'S' * MEG10),
        ('e:newlines', b'\n' * MEG10),
        ('e:newlines after a night', t + b'\n' * MEG10),
        ('e:good B lines', LB * (MEG10 // len(LB))),
        ('e:good S lines', b'S\t0\t0\n' * (MEG10 // 6)),
        ('e:good contacts', LK * (MEG10 // len(LK))),
        ('e:good nights', t * (MEG10 // len(t))),
    ]

# ------------------------------------------------------------------ main

def texts(n, seed, no_huge=False, only=None):
    """yields (label, bytes)"""
    rng = random.Random(seed)
    made = 0
    fixed = []
    if only in (None, 'd') and (n >= 500 or only == 'd'):
        fixed += sizes(rng)
    if only == 'e' or (only is None and n >= 500 and not no_huge):
        fixed += huge(rng)
    for item in fixed[:n]:
        yield item
        made += 1
    while made < n and only not in ('d', 'e'):
        k = only if only in ('a', 'b', 'c') else rng.choice('aaaaaabbbbbc')
        if k == 'a':
            yield 'a', (edge_night(rng) if rng.random() < 0.4 else good_night(rng)).text()
        elif k == 'b':
            yield 'b', damaged(rng)
        else:
            yield 'c', random_bytes(rng)
        made += 1


class Summary:
    def __init__(self):
        self.c = collections.Counter()

    def add(self, label, data, out):
        c = self.c
        c['texts ' + label[0]] += 1
        c['bytes'] += len(data)
        first = out.split(b'\n', 1)[0].split(b'\t')
        if first[0] == b'X':
            c['X reason %d' % int(first[2])] += 1
            c['%s: X' % label[0]] += 1
            if int(first[2]) == 3 and int(first[1]) == data.count(b'\n') + (0 if data.endswith(b'\n') else 1) + 1:
                c['X reason 3 at the end'] += 1
        elif first[0] == b'R':
            c['R %d' % int(first[1])] += 1
            c['%s: R' % label[0]] += 1
        else:
            c['%s: E' % label[0]] += 1
            kinds = [l.split(b'\t')[2] for l in data.split(b'\n') if l[:1] == b'S']
            k = 0
            for l in out.split(b'\n'):
                if l[:2] == b'A\t':
                    _, a, b = l.split(b'\t')
                    c['answer %2d' % int(a)] += 1
                    c['branch %d' % int(b)] += 1
                    c['kind %s answer %s' % (kinds[k].decode(), '0' if a == b'0' else 'refused')] += 1
                    if a == b'10':
                        c['kind %s answer 10' % kinds[k].decode()] += 1
                    k += 1
                elif l[:1] in (b'B', b'I'):
                    for f in l.split(b'\t')[1 if l[:1] == b'B' else 3:]:
                        u = int(f, 16)
                        if u & 0x7f800000 == 0x7f800000:
                            c['out NaN' if u & 0x7fffff else 'out infinity'] += 1
                        elif u == 0x80000000:
                            c['out minus zero'] += 1

    def __str__(self):
        return '\n'.join('%-28s %d' % kv for kv in sorted(self.c.items()))


def main(argv):
    no_huge = '--no-huge' in argv
    argv = [a for a in argv if a != '--no-huge']
    only = None
    if '--only' in argv:
        i = argv.index('--only')
        only = argv[i + 1]
        del argv[i:i + 2]
    n, seed, outdir = int(argv[1]), int(argv[2]), argv[3]
    os.makedirs(outdir, exist_ok=True)
    s = Summary()
    with open(os.path.join(outdir, 'LABELS'), 'w') as labels:
        for i, (label, data) in enumerate(texts(n, seed, no_huge, only)):
            out = run(data)
            with open(os.path.join(outdir, '%04d.txt' % i), 'wb') as f:
                f.write(data)
            with open(os.path.join(outdir, '%04d.out' % i), 'wb') as f:
                f.write(out)
            labels.write('%04d %s\n' % (i, label))
            s.add(label, data, out)
    print(s)


if __name__ == '__main__':
    main(sys.argv)
