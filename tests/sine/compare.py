"""Compares the sine table of crates/sine with the whole numbers nearest to 16,384 times cosine and sine of 2 pi i / 4,096.

Run in the repository's root. Prints the smallest distance of a value to a tie, and ends with status 1 at the first difference.
"""
import re
import sys
from decimal import Decimal, ROUND_FLOOR, getcontext

SOURCE = "crates/sine/src/constant.rt"
POINTS = 4096
UNIT = 16384
DIGITS = 60

getcontext().prec = DIGITS + 10
SMALL = Decimal(10) ** -(DIGITS + 5)


def arctan_of_inverse(n):
    """arctan(1/n): the sum of (-1)^k / ((2k + 1) n^(2k + 1))."""
    total = Decimal(0)
    power = Decimal(1) / n
    k = 0
    while power > SMALL:
        term = power / (2 * k + 1)
        total += -term if k % 2 else term
        power /= n * n
        k += 1
    return total


def cosine_and_sine(angle):
    """The sums of (-1)^k angle^(2k) / (2k)! and (-1)^k angle^(2k + 1) / (2k + 1)!."""
    sums = [Decimal(0), Decimal(0)]
    term = Decimal(1)
    k = 0
    while abs(term) > SMALL:
        sums[k % 2] += -term if k // 2 % 2 else term
        k += 1
        term *= angle / k
    return sums


def constant():
    """The numbers of the constant, in their order."""
    with open(SOURCE, encoding="utf-8") as source:
        found = re.search(r"const SINE: \[i32; 4096\] = \[([^]]*)\];", source.read())
    return [int(number) for number in found.group(1).split(",") if number.strip()]


def main():
    numbers = constant()
    if len(numbers) != POINTS:
        print(f"{len(numbers)} numbers, not {POINTS}")
        return 1
    pi = 16 * arctan_of_inverse(5) - 4 * arctan_of_inverse(239)
    half = Decimal("0.5")
    closest = half
    for i in range(POINTS // 2):
        for part, value in enumerate(cosine_and_sine(2 * pi * i / POINTS)):
            exact = UNIT * value
            floor = exact.to_integral_value(ROUND_FLOOR)
            closest = min(closest, abs(exact - floor - half))
            nearest = int(floor) + (exact - floor > half)
            if numbers[2 * i + part] != nearest:
                print(f"pair {i}, {('real', 'imaginary')[part]} part: {numbers[2 * i + part]}, nearest to {exact:.10f} is {nearest}")
                return 1
    print(f"{POINTS} numbers are the nearest; the smallest distance to a tie is {closest:.10f}")
    return 0


sys.exit(main())
