#!/usr/bin/env python3
"""An independent judge of the text program of document 01 ("Exact rules for
the build"), written from that document and from the table "Readings of
document 01" in docs/DECISIONS.md, and from nothing else.

    judge.py < night.txt > output

Cells are kept as 32-bit patterns; a cell that no step stores to is printed
with the pattern that was read (K3, K9).  Numbers are Python floats that hold
binary32 values; each operation is done once in binary64 and rounded once to
binary32, which for + - * / of binary32 operands is the same as one rounding.
"""

import struct
import sys

# ------------------------------------------------------------------ binary32

_F = struct.Struct('<f')
_U = struct.Struct('<I')
INF = float('inf')


def rnd(x):
    """binary64 -> nearest binary32 value (ties to even), as a float."""
    try:
        return _F.unpack(_F.pack(x))[0]
    except OverflowError:            # finite, but rounds past the largest
        return INF if x > 0.0 else -INF


def to_bits(x):
    """the pattern of a binary32 value that is not NaN"""
    return _U.unpack(_F.pack(x))[0]


def of_bits(u):
    return _F.unpack(_U.pack(u))[0]


def finite_bits(u):
    return (u & 0x7f800000) != 0x7f800000


def finite(x):
    return x - x == 0.0              # fails for NaN and for both infinities


def add(a, b):
    return rnd(a + b)


def sub(a, b):
    return rnd(a - b)


def mul(a, b):
    return rnd(a * b)


def div(a, b):
    if b == 0.0:
        if a != a or a == 0.0:
            return float('nan')
        neg = (to_bits(a) >> 31) ^ (to_bits(b) >> 31)
        return -INF if neg else INF
    return rnd(a / b)


# -------------------------------------------------------------------- leaves

E = of_bits(0x1e3ce508)


def max0(x):
    return x if x > 0.0 else 0.0


def clamp(x, lim):
    if x < -lim:
        return -lim
    if x > lim:
        return lim
    return x


def inv(x):
    if -E < x and x < E:
        return 0.0
    return div(1.0, x)


def dot(a, b):
    return add(mul(a[0], b[0]), mul(a[1], b[1]))


def tangent_of(d):
    return (-d[1], d[0])


# -------------------------------------------------------------------- tables
#
# a body:    [x, y, w] patterns
# a contact: Contact, with 45 patterns in `cells`:
#            head 9, then for a and for b: normal 10, tangent 8

HEAD = ('dirx', 'diry', 'im1x', 'im1y', 'im2x', 'im2y', 'friction', 'k12', 'flag')
NORMAL = ('torque1', 'torque2', 'ii1', 'ii2', 'rhs', 'impulse', 'accumulator',
          'r', 'cfm', 'seed')
TANGENT = NORMAL[:8]
FLOOR = 65535


def at_head(name):
    return HEAD.index(name)


def at_normal(point, name):
    return 9 + 18 * point + NORMAL.index(name)


def at_tangent(point, name):
    return 9 + 18 * point + 10 + TANGENT.index(name)


class Contact:
    __slots__ = ('body1', 'body2', 'count', 'cells')

    def __init__(self, body1, body2, count, cells):
        self.body1 = body1
        self.body2 = body2
        self.count = count
        self.cells = cells


class Part:
    """the numbers of a normal or a tangent part"""
    __slots__ = NORMAL

    def __init__(self, cells, start, names):
        for i, name in enumerate(names):
            setattr(self, name, of_bits(cells[start + i]))


class Vels:
    """copies of the two velocities"""
    __slots__ = ('v1', 'w1', 'v2', 'w2')

    def __init__(self, row1, row2):
        n1 = [of_bits(u) for u in row1]
        n2 = [of_bits(u) for u in row2]
        self.v1, self.w1 = (n1[0], n1[1]), n1[2]
        self.v2, self.w2 = (n2[0], n2[1]), n2[2]

    def dvel(self, d, t1, t2, rhs):
        s = dot(d, self.v1)
        s = add(s, mul(t1, self.w1))
        s = sub(s, dot(d, self.v2))
        s = add(s, mul(t2, self.w2))
        return add(s, rhs)

    def push(self, d, im1, im2, part, l):
        self.v1 = (add(self.v1[0], mul(mul(d[0], im1[0]), l)),
                   add(self.v1[1], mul(mul(d[1], im1[1]), l)))
        self.w1 = add(self.w1, mul(part.ii1, l))
        self.v2 = (add(self.v2[0], mul(mul(d[0], im2[0]), -l)),
                   add(self.v2[1], mul(mul(d[1], im2[1]), -l)))
        self.w2 = add(self.w2, mul(part.ii2, l))


# -------------------------------------------------------------- block choice

def block_choice(r_a, r_b, cfm_a, cfm_b, k12, dvel_a, dvel_b, p, q):
    """-> (branch 1 to 5, new impulse of a, new impulse of b)"""
    k11 = inv(r_a)
    k22 = inv(r_b)
    b1 = sub(sub(dvel_a, mul(k11, p)), mul(k12, q))
    b2 = sub(sub(dvel_b, mul(k12, p)), mul(k22, q))
    kp11 = mul(k11, inv(cfm_a))
    kp22 = mul(k22, inv(cfm_b))
    det = sub(mul(kp11, kp22), mul(k12, k12))
    f = inv(det)
    # both
    x = mul(sub(mul(k12, b2), mul(kp22, b1)), f)
    y = mul(sub(mul(k12, b1), mul(kp11, b2)), f)
    if det > 0.0 and x >= 0.0 and y >= 0.0:
        return 1, x, y
    # a only
    x = mul(-b1, inv(kp11))
    if x >= 0.0 and add(b2, mul(k12, x)) >= 0.0:
        return 2, x, 0.0
    # b only
    y = mul(-b2, inv(kp22))
    if y >= 0.0 and add(b1, mul(k12, y)) >= 0.0:
        return 3, 0.0, y
    # none
    if b1 >= 0.0 and b2 >= 0.0:
        return 4, 0.0, 0.0
    return 5, p, q


# ---------------------------------------------------------------------- step

REST = (0, 0, 0)


def check_before(bodies, c, kind):
    """numbers 5 to 9, else 0"""
    sides = (c.body1, c.body2)
    # 5
    for b in sides:
        if not (b < len(bodies) or b == FLOOR):
            return 5
    if c.body1 == c.body2:
        return 5
    # 6, 7
    if c.count not in (1, 2):
        return 6
    if kind == 4 and c.count == 1:
        return 7
    # 8
    cells = c.cells
    for u in cells[:9 + 18 * c.count]:
        if not finite_bits(u):
            return 8
    for b in sides:
        if b != FLOOR:
            for u in bodies[b]:
                if not finite_bits(u):
                    return 8

    # 9
    def num(i):
        return of_bits(cells[i])

    for name in ('im1x', 'im1y', 'im2x', 'im2y', 'friction'):
        if num(at_head(name)) < 0.0:
            return 9
    for point in range(c.count):
        if num(at_normal(point, 'r')) < 0.0 or num(at_tangent(point, 'r')) < 0.0:
            return 9
        if num(at_normal(point, 'impulse')) < 0.0:
            return 9
        cfm = num(at_normal(point, 'cfm'))
        if not (0.0 < cfm <= 1.0):
            return 9
    for b, ims, ii in ((c.body1, ('im1x', 'im1y'), 'ii1'),
                       (c.body2, ('im2x', 'im2y'), 'ii2')):
        if b == FLOOR:
            for name in ims:
                if num(at_head(name)) != 0.0:
                    return 9
            for point in range(c.count):
                if num(at_normal(point, ii)) != 0.0:
                    return 9
                if num(at_tangent(point, ii)) != 0.0:
                    return 9
    return 0


def do_step(bodies, c, kind):
    """-> (answer, branch); stores into bodies and c.cells only if answer 0"""
    refusal = check_before(bodies, c, kind)
    if refusal:
        return refusal, 0

    cells = c.cells
    d = (of_bits(cells[0]), of_bits(cells[1]))
    im1 = (of_bits(cells[2]), of_bits(cells[3]))
    im2 = (of_bits(cells[4]), of_bits(cells[5]))
    friction = of_bits(cells[6])
    k12 = of_bits(cells[7])
    flag = of_bits(cells[8])
    tang = tangent_of(d)
    points = range(c.count)
    normals = [Part(cells, 9 + 18 * i, NORMAL) for i in points]
    tangents = [Part(cells, 9 + 18 * i + 10, TANGENT) for i in points]
    row1 = REST if c.body1 == FLOOR else bodies[c.body1]
    row2 = REST if c.body2 == FLOOR else bodies[c.body2]
    v = Vels(row1, row2)
    branch = 0
    store = []                       # (cell, number)

    if kind == 0:                    # warm start
        for i in points:
            v.push(d, im1, im2, normals[i], normals[i].impulse)
        for i in points:
            v.push(tang, im1, im2, tangents[i], tangents[i].impulse)

    elif kind == 1:                  # normal
        for i in points:
            n_ = normals[i]
            dv = v.dvel(d, n_.torque1, n_.torque2, n_.rhs)
            n = mul(n_.cfm, max0(sub(n_.impulse, mul(n_.r, dv))))
            v.push(d, im1, im2, n_, sub(n, n_.impulse))
            store.append((at_normal(i, 'impulse'), n))

    elif kind == 2:                  # friction
        for i in points:
            t_ = tangents[i]
            lim = mul(friction, normals[i].impulse)
            dv = v.dvel(tang, t_.torque1, t_.torque2, t_.rhs)
            n = clamp(sub(t_.impulse, mul(t_.r, dv)), lim)
            v.push(tang, im1, im2, t_, sub(n, t_.impulse))
            store.append((at_tangent(i, 'impulse'), n))

    elif kind == 3:                  # restitution
        for i in points:
            n_ = normals[i]
            dv = v.dvel(d, n_.torque1, n_.torque2, n_.seed)
            if n_.seed < 0.0 and add(n_.accumulator, n_.impulse) > 0.0:
                n = max0(sub(n_.impulse, mul(n_.r, dv)))
            else:
                n = n_.impulse
            v.push(d, im1, im2, n_, sub(n, n_.impulse))
            store.append((at_normal(i, 'impulse'), n))

    else:                            # normal pair
        a, b = normals
        p, q = a.impulse, b.impulse
        lin = sub(dot(d, v.v1), dot(d, v.v2))

        def pair_dvel(part):
            s = add(lin, mul(part.torque1, v.w1))
            s = add(s, mul(part.torque2, v.w2))
            return add(s, part.rhs)

        dvel_a = pair_dvel(a)
        dvel_b = pair_dvel(b)
        if flag > 0.5:
            branch, na, nb = block_choice(a.r, b.r, a.cfm, b.cfm, k12,
                                          dvel_a, dvel_b, p, q)
        else:
            branch = 6
            deg = v.dvel(d, a.torque1, a.torque2, a.rhs)
            na = mul(a.cfm, max0(sub(p, mul(a.r, deg))))
            seen = add(dvel_b, mul(k12, sub(na, p)))
            nb = mul(b.cfm, max0(sub(q, mul(b.r, seen))))
        x = sub(na, p)
        y = sub(nb, q)
        s1 = add(x, y)
        s2 = sub(-x, y)
        v.v1 = (add(v.v1[0], mul(mul(d[0], im1[0]), s1)),
                add(v.v1[1], mul(mul(d[1], im1[1]), s1)))
        v.w1 = add(v.w1, add(mul(a.ii1, x), mul(b.ii1, y)))
        v.v2 = (add(v.v2[0], mul(mul(d[0], im2[0]), s2)),
                add(v.v2[1], mul(mul(d[1], im2[1]), s2)))
        v.w2 = add(v.w2, add(mul(a.ii2, x), mul(b.ii2, y)))
        store.append((at_normal(0, 'impulse'), na))
        store.append((at_normal(1, 'impulse'), nb))

    # 10
    new1 = (v.v1[0], v.v1[1], v.w1)
    new2 = (v.v2[0], v.v2[1], v.w2)
    for body, new in ((c.body1, new1), (c.body2, new2)):
        if body != FLOOR:
            for z in new:
                if not finite(z):
                    return 10, 0
    for _, z in store:
        if not finite(z):
            return 10, 0

    for body, new in ((c.body1, new1), (c.body2, new2)):
        if body != FLOOR:
            bodies[body] = [to_bits(z) for z in new]
    for i, z in store:
        cells[i] = to_bits(z)
    return 0, branch


def call(bodies, contacts, steps):
    """the whole list, budget covering it.
    -> ('R', number) or ('A', answers, done, refused)"""
    for k, _ in steps:
        if k >= len(contacts):
            return ('R', 2)
    for _, kind in steps:
        if kind > 4:
            return ('R', 3)
    answers = [do_step(bodies, contacts[k], kind) for k, kind in steps]
    return ('A', answers, len(answers), sum(1 for a, _ in answers if a != 0))


# ---------------------------------------------------------------------- text

MAX_BODIES = 64
MAX_CONTACTS = 64
MAX_STEPS = 256

HEXDIGITS = frozenset(b'0123456789abcdef')
DIGITS = frozenset(b'0123456789')


class Bad(Exception):
    def __init__(self, line, reason):
        Exception.__init__(self, line, reason)
        self.line = line
        self.reason = reason


def lines_of(data):
    """the lines one after another, without byte 10; the last may lack it"""
    at = 0
    while at < len(data):
        end = data.find(b'\n', at)
        if end < 0:
            end = len(data)
        yield data[at:end]
        at = end + 1


def float_field(field):
    if len(field) == 8 and all(ch in HEXDIGITS for ch in field):
        return int(field, 16)
    return None


def number_field(field):
    if not 1 <= len(field) <= 5:
        return None
    if not all(ch in DIGITS for ch in field):
        return None
    if field[:1] == b'0' and len(field) != 1:
        return None
    n = int(field)
    return n if n <= 65535 else None


# how many numbers and then how many floats follow the letter
FORM = {b'B': (0, 3), b'C': (3, 9), b'N': (0, 10), b'T': (0, 8), b'S': (2, 0)}


def fields_of(letter, fields):
    numbers, floats = FORM[letter]
    if len(fields) != numbers + floats:
        return None
    out = [number_field(x) for x in fields[:numbers]]
    out += [float_field(x) for x in fields[numbers:]]
    return None if None in out else out


def read(data):
    """-> (bodies, contacts, steps); raises Bad"""
    bodies, contacts, steps = [], [], []
    # place: what may come.  'B': B C S;  1..4: the part after C that is
    # wanted next (N T N T);  'C': C S;  'S': S alone
    place = 'B'
    wanted = {1: b'N', 2: b'T', 3: b'N', 4: b'T'}
    number = 0
    for line in lines_of(data):
        number += 1
        if len(line) > 160:
            raise Bad(number, 1)
        fields = line.split(b'\t')
        letter = fields[0]
        if letter not in FORM:
            raise Bad(number, 2)
        if place in wanted:
            ok = letter == wanted[place]
        elif place == 'B':
            ok = letter in (b'B', b'C', b'S')
        elif place == 'C':
            ok = letter in (b'C', b'S')
        else:
            ok = letter == b'S'
        if not ok:
            raise Bad(number, 3)
        values = fields_of(letter, fields[1:])
        if values is None:
            raise Bad(number, 4)
        if letter == b'B':
            if len(bodies) == MAX_BODIES:
                raise Bad(number, 5)
            bodies.append(values)
        elif letter == b'C':
            if len(contacts) == MAX_CONTACTS:
                raise Bad(number, 5)
            contacts.append(Contact(values[0], values[1], values[2], values[3:]))
            place = 1
        elif letter == b'S':
            if len(steps) == MAX_STEPS:
                raise Bad(number, 5)
            steps.append((values[0], values[1]))
            place = 'S'
        else:
            contacts[-1].cells += values
            place = 'C' if place == 4 else place + 1
    if place in wanted:
        raise Bad(number + 1, 3)
    return bodies, contacts, steps


def run(data):
    data = bytes(data)
    try:
        bodies, contacts, steps = read(data)
    except Bad as bad:
        return b'X\t%d\t%d\n' % (bad.line, bad.reason)
    result = call(bodies, contacts, steps)
    if result[0] == 'R':
        return b'R\t%d\n' % result[1]
    _, answers, done, refused = result
    out = []
    for answer, branch in answers:
        out.append(b'A\t%d\t%d\n' % (answer, branch))
    for x, y, w in bodies:
        out.append(b'B\t%08x\t%08x\t%08x\n' % (x, y, w))
    for i, c in enumerate(contacts):
        if c.count in (1, 2):
            for point in range(c.count):
                out.append(b'I\t%d\t%d\t%08x\t%08x\n'
                           % (i, point, c.cells[at_normal(point, 'impulse')],
                              c.cells[at_tangent(point, 'impulse')]))
    out.append(b'E\t%d\t%d\n' % (done, refused))
    return b''.join(out)


if __name__ == '__main__':
    sys.stdout.buffer.write(run(sys.stdin.buffer.read()))
