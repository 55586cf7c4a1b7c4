#!/usr/bin/env python3
"""float_cases.py list: the fixed list of the program replay (crates/replay/stdin) for the calls 01 to 0b.
float_cases.py random SEED COUNT: COUNT seeded cases of the same calls. The answers come from a judge, not from here."""
import random
import struct
import sys

ONE = ('01', '02', '03', '04', '06', '0a', '0b')
TWO = ('05', '07', '08')
CALLS = ('01', '02', '03', '04', '05', '06', '07', '08', '09', '0a', '0b')
SIGN = 1 << 63


def word(u):
    return '%016x' % (u & (2**64 - 1))


def of(x):
    return struct.unpack('>Q', struct.pack('>d', x))[0]


def case(call, *bits):
    return ' '.join([call] + [word(b) for b in bits])


# zeros, subnormals, the least normal, halves and their neighbours, ends of exactness and of the types, the largest, infinities, nans
EDGES = [0, 1, 2, 0x000fffffffffffff, 0x0010000000000000, 0x0010000000000001, of(0.25), of(0.5) - 1, of(0.5), of(0.5) + 1, of(1.0) - 1, of(1.0), of(1.0) + 1, of(1.5), of(2.0),
         of(2.5) - 1, of(2.5), of(2.5) + 1, of(3.0), of(3.5), of(4.0), of(2.0**31), of(2.0**32), of(2.0**52 - 0.5), of(2.0**52), of(2.0**52 + 1), of(2.0**53) - 1, of(2.0**53),
         of(2.0**63) - 1, of(2.0**63), of(2.0**63) + 1, of(2.0**64) - 1, of(2.0**64), 0x7fefffffffffffff, 0x7ff0000000000000, 0x7ff0000000000001, 0x7ff8000000000000,
         0x7ff8000000000123, 0x7fffffffffffffff]
PAIRS = [(of(-1.0), of(3.0)), (of(1.0), of(-3.0)), (of(-7.5), of(2.0)), (of(7.5), of(-2.0)), (of(5.0), 0), (0, of(5.0)), (SIGN, of(5.0)), (of(5.0), 0x7ff0000000000000),
         (of(-5.0), 0x7ff0000000000000), (0x7ff0000000000000, of(2.0)), (of(1e300), of(1e-300)), (of(-2.0**-60), of(1.0)), (1, 2), (3, 2), (SIGN | 1, 2), (0, SIGN), (SIGN, 0), (0, 0),
         (SIGN, SIGN), (0x7ff8000000000000, of(-3.0)), (of(-3.0), 0xfff8000000000001), (0x7ff8000000000000, 0x7ff8000000000000), (0x7fefffffffffffff, 0xffefffffffffffff), (of(1.0), of(1.0))]
CLAMPS = [(of(x), of(lo), of(hi)) for x in (-7.0, -5.0, 0.0, 0.5, 5.0, 7.0) for lo, hi in ((-5.0, 5.0), (5.0, -5.0), (0.0, 1.0))]
CLAMPS += [(SIGN, 0, of(1.0)), (0, SIGN, SIGN), (0x7ff8000000000000, of(0.0), of(1.0)), (of(2.0), 0x7ff8000000000000, of(1.0)), (of(2.0), of(0.0), 0x7ff8000000000000),
           (of(2.0), 0x7ff8000000000000, 0x7ff8000000000000), (of(2.0), 0xfff0000000000000, 0x7ff0000000000000), (of(2.0), 0x7ff0000000000000, 0xfff0000000000000), (1, 2, 3)]


def value(r):
    t = r.randrange(9)
    if t == 0:
        return r.getrandbits(64)
    if t == 1:
        return r.choice((0, SIGN)) | r.getrandbits(r.randint(1, 52))
    if t == 2:
        return of(r.randint(-2**r.randint(1, 54), 2**r.randint(1, 54)) / 2.0)
    if t == 3:
        return r.choice((0, SIGN)) | ((r.randint(1, 2046) << 52) + r.randint(-2, 2))
    if t == 4:
        return of(r.choice((-1, 1)) * 2.0**r.choice((31, 32, 52, 53, 62, 63, 64))) + r.randint(-2, 2)
    if t == 5:
        return r.choice((0, SIGN)) | r.choice(EDGES)
    if t == 6:
        return r.choice((0, SIGN)) | (r.randint(1023 - 70, 1023 + 70) << 52) | r.getrandbits(52)
    if t == 7:
        return of(float(r.getrandbits(26)**2)) + r.randint(-1, 1)
    return of(float(r.randint(-2000, 2000)) / 8.0) + r.randint(0, 1)


def drawn(r, call):
    n = 1 if call in ONE else 2 if call in TWO else 3
    v = [value(r) for _ in range(n)]
    if n > 1 and r.random() < 0.3:
        v[1] = v[0] ^ r.choice((0, 1, SIGN))
    return case(call, *v)


def broken():
    x, y = word(of(2.0)), word(of(3.0))
    yield from ('', ' ', '0', '01', '1 ' + x, '00 ' + x, '0c ' + x, '0f ' + x, '70 ' + x, 'fe ' + x, 'ff ' + x, 'ff', '01' + x, '01  ' + x, '01 ' + x + ' ', ' 01 ' + x, '01\t' + x,
                '01 ' + x[:15], '01 ' + x + '0', '01 ' + x.replace('4', 'g'), '01 ' + x.replace('4', '/'), '01 ' + x.replace('4', ':'), '01 ' + x.replace('4', '`'), '0A ' + x, '0g ' + x,
                '01 3FF8000000000000', '01 3ff800000000000F', '0x ' + x, '01 ' + x + ' ' + y, '01 ' + x + '  ' + y, '01 ' + x + y, '05 ' + x, '05 ' + x + ' ' + y + ' ' + x,
                '05 ' + x + '\t' + y, '07 ' + x, '09 ' + x + ' ' + y, '09 ' + ' '.join([x] * 4), '0a', '0b ' + x + ' ' + y, '01 ' + x + '\r', '-1 ' + x, '01 -000000000000001', '01 +' + x[1:], '\x00' * 19)
    yield case('01', *[of(2.0)] * 8192)
    yield case('01', *[of(2.0)] * 8193)
    yield 'x' * 150000


def main():
    if sys.argv[1] == 'random':
        r = random.Random(int(sys.argv[2]))
        for k in range(int(sys.argv[3])):
            print(drawn(r, CALLS[k % len(CALLS)]))
        return
    out = []
    for call in ONE:
        for e in EDGES:
            out += [case(call, e), case(call, e | SIGN)]
    for call in TWO:
        out += [case(call, a, b) for a, b in PAIRS]
    out += [case('09', *v) for v in CLAMPS]
    r = random.Random(1)
    out += [drawn(r, call) for call in CALLS for _ in range(10)]
    for k, line in enumerate(broken()):
        out += [line, drawn(r, CALLS[k % len(CALLS)])]
    sys.stdout.write('\n'.join(out) + '\n01 ' + word(of(2.0)))


if __name__ == '__main__':
    main()
