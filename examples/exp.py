"""Job files of the exponential function in double precision.

    python3 examples/exp.py                     writes the files exp-*.job beside this script
    python3 examples/exp.py FIRST COUNT BITS    prints the job of COUNT doubles from FIRST upwards and eps = 2^-BITS,
                                                as in: python3 examples/exp.py 0x1.2p-1 32768 32; at least three
                                                doubles from FIRST on have to lie in one binade, as do their exponentials
    python3 examples/exp.py --check             prints how near to a breakpoint the listed arguments of the files are

Scaling. The doubles are (m + x)·2^e, with a whole m of 53 bits and x from 0 to N-1. F(x) = 2^k·exp((m + x)·2^e), with k
such that 2^53 <= F(x) < 2^54 for all x. The unit of F is half an ulp of the result: its whole numbers are the doubles
and the midpoints of two doubles, which are the breakpoints of all rounding modes. With M = 2^62 and the differences

    c0 = F(0),    c1 = F(1) - F(0),    c2 = F(2) - 2·F(1) + F(0)

the job's value is M·c0, its slope M·c1 and its curve M·c2, each rounded. Value and slope are taken modulo M.

Origin. The origin is how many doubles of FIRST's binade lie below FIRST. So origin + x is how many of them lie below the
double of x: its place in the binade. For a positive double of the binade that is the number of its 52 fraction bits, and for
a negative one 2^52 - 1 less that number.

Error. By Newton's formula F(x) = c0 + c1·x + c2·x(x-1)/2 + F'''(z)·x(x-1)(x-2)/6 for some z between 0 and N-1, and
0 < F''' = 2^(3e)·F < 2^(54+3e). Let rounding change M·c0, M·c1 and M·c2 by r0, r1 and r2, each at most 1/2. Then the
job's polynomial differs from M·F(x) by at most

    err = r0 + r1·N + r2·N^2/2 + 2^(116+3e)·N^3/6  <=  1/2 + N/2 + N^2/4 + 2^(116+3e)·N^3/6.

The window is eps·M + err + 1, with err rounded up: an argument is hard where the polynomial is less than that from a
multiple of M, on either side. So every double whose exponential is within eps half ulps of a breakpoint is listed, and
every listed one is within eps + 2·err/M.

Only whole numbers are computed with; floats hold the doubles themselves and the logarithms to print."""
import math
import pathlib
import sys

MODULUS = 1 << 62
POINT = 400  # a fixed-point number is a whole number times 2^-400
HALF = 1 << POINT - 1

# The first double, the count, and b of eps = 2^-b.
FILES = {
    "exp-cleared": ("0x1.2p-1", 1 << 15, 32),
    "exp-parts": ("0x1.20000001p-1", 1 << 15, 32),
    "exp-listed": ("0x1.4p-1", 1 << 15, 14),
    "exp-hard": ("0x1.83d4bcdeb8p+2", 1 << 15, 33),
    "exp-hardest": ("-0x1.ed318efcp-27", 1 << 20, 42),
    "exp-last": ("0x1.fffffffffc86cp+1", 14228, 12),
}


def split(double):
    """m and e such that double = m·2^e and |m| has 53 bits."""
    fraction, exponent = math.frexp(float.fromhex(double))
    return int(math.ldexp(fraction, 53)), exponent - 53


def place(m):
    """How many doubles of the binade of m·2^e lie below it."""
    return m - (1 << 52) if m > 0 else (1 << 53) - 1 + m


def scaled(m, e):
    """2^k·exp(m·2^e) in fixed point, from 2^53 to 2^54, and k. For |m·2^e| < 32 it is off by less than 2^-200."""
    total = term = 1 << POINT
    n = 0
    while term:
        n += 1
        term = (term * m >> -e) // n
        total += term
    k = POINT + 54 - total.bit_length()
    return total << k, k


def job(first, count, bits):
    """The seven numbers of the job."""
    m, e = split(first)
    if "0x" not in first or not -107 <= e <= -48:
        sys.exit("the first double must be hexadecimal, as 0x1.2p-1, and its size from 2^-55 to below 32")
    if not 1 <= count <= 1 << 20 or not 2 <= bits <= 62:
        sys.exit("the count must be from 1 to 2^20, and the bits from 2 to 62")
    far = max(2, count - 1)
    (f0, k), (f1, _), (f2, _), (_, last) = (scaled(m + x, e) for x in (0, 1, 2, far))
    if k != last or not 1 << 52 <= abs(m + far) <= 1 << 53:
        sys.exit("no power of two may lie between the doubles, of which three at least count, nor between their exponentials")
    exact = [MODULUS * c for c in (f0, f1 - f0, f2 - 2 * f1 + f0)]
    value, slope, curve = ((c + HALF) >> POINT for c in exact)
    r0, r1, r2 = (abs(c - (whole << POINT)) for c, whole in zip(exact, (value, slope, curve)))
    third = 1 << (POINT + 116 + 3 * e)
    err = r0 + r1 * count + r2 * count**2 // 2 + third * count**3 // 6
    within = (MODULUS >> bits) + (err >> POINT) + 2  # 1 to round up, 1 for what the series is off
    return place(m), MODULUS, value % MODULUS, slope % MODULUS, curve, count, within + 1


def text(numbers):
    names = ("origin", "modulus", "value", "slope", "curve", "count", "window")
    return "".join(f"{name}={number}\n" for name, number in zip(names, numbers))


def check(name, first, numbers):
    origin, modulus, value, slope, curve, count, window = numbers
    values = ((value + slope * x + curve * (x * (x - 1) // 2)) % modulus for x in range(count))
    hard = [x for x, v in enumerate(values) if v < window or modulus - v < window]
    print(f"{name}: {len(hard)} listed")
    m, e = split(first)
    for x in hard:
        f, _ = scaled(m + x, e)
        nearest = (f + HALF) >> POINT
        distance = math.log2(abs(f - (nearest << POINT))) - POINT
        kind = "midpoint" if nearest % 2 else "double"
        print(f"    {origin + x}: exp({math.ldexp(m + x, e).hex()}) is 2^{distance:.2f} half ulps from a {kind}")


if len(sys.argv) == 4:
    print(text(job(sys.argv[1], int(sys.argv[2]), int(sys.argv[3]))), end="")
elif len(sys.argv) > 1 and sys.argv[1:] != ["--check"]:
    sys.exit(__doc__)
else:
    for name, domain in FILES.items():
        if len(sys.argv) == 2:
            check(name, domain[0], job(*domain))
        else:
            pathlib.Path(__file__).with_name(name + ".job").write_bytes(text(job(*domain)).encode())
