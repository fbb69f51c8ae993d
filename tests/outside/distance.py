"""The steps without rounding a second way, in Python's whole numbers: each result as a sum over the samples, each sample times what its path
through the stages multiplies it by; and the steps with rounding, stage by stage by columns. Reads the lines that distance.cpp writes.
"""
import sys


def times(a, b):
    return a[0] * b[0] - a[1] * b[1], a[0] * b[1] + a[1] * b[0]


def pairs(words):
    numbers = [int(word) for word in words.split()]
    return list(zip(numbers[::2], numbers[1::2]))


def coefficient(n, table, place, k):
    """What sample k is multiplied by on its way to the place: at each stage 16,384, or the pair at the exponent, minus it for the second of two."""
    factor = (1, 0)
    for s in range(n):
        half = 1 << (n - 1 - s)
        second, i = divmod(k % (2 * half), half)
        if place & half:
            factor = times(factor, table[i << s])
            if second:
                factor = (-factor[0], -factor[1])
        else:
            factor = (16384 * factor[0], 16384 * factor[1])
    return factor


def unrounded(rows, samples):
    """The result at each place; rows[place] are the coefficients."""
    result = []
    for row in rows:
        products = [times(factor, sample) for factor, sample in zip(row, samples)]
        result.append((sum(re for re, _ in products), sum(im for _, im in products)))
    return result


def half_up(v, d):
    return (v + d // 2) // d


def rounded(n, table, samples):
    buf = list(samples)
    for s in range(n):
        r = len(buf) >> s
        for j in range(1 << s):
            for i in range(r // 2):
                a, b = buf[r * j + i], buf[r * j + i + r // 2]
                turned = times(table[i << s], (a[0] - b[0], a[1] - b[1]))
                buf[r * j + i] = half_up(a[0] + b[0], 2), half_up(a[1] + b[1], 2)
                buf[r * j + i + r // 2] = half_up(turned[0], 32768), half_up(turned[1], 32768)
    return buf


def main():
    bound = [0]
    for s in range(12):
        bound.append(46342 * bound[s] + 2 ** (15 * s + 14))
    known, lines, wrong = (None, None), 0, 0
    for line in sys.stdin:
        words = line.split(";")
        n, table, samples, result, exact = int(words[0]), *(pairs(part) for part in words[1:])
        if known[0] != table:
            places = range(1 << n)
            known = table, [[coefficient(n, table, place, k) for k in places] for place in places]
        whole = unrounded(known[1], samples)
        far = max(abs((r << 15 * n) - u) for point, unit in zip(result, whole) for r, u in zip(point, unit))
        tests = {
            "GMP's steps": whole == exact,
            "the rounded result": rounded(n, table, samples) == result,
            "the distance": far <= bound[n],
        }
        for what, good in tests.items():
            if not good:
                wrong += 1
                if wrong <= 20:
                    print(f"DIFFERENCE: {what}, N = {1 << n}, line {lines + 1}")
        lines += 1
    print(f"Python {sys.version.split()[0]}: {lines} transforms of at most 64 points compared; {wrong} differences")
    return 1 if wrong or not lines else 0


sys.exit(main())
