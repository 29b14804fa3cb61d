#!/usr/bin/env python3
"""Writes `stdout`, what the program must print, by trial division and Python's own sets."""

import pathlib

END, SMALL = 1_000_000, 50
FIBONACCI = {0, 1, 2, 3, 5, 8, 13, 21, 34}


def primes_below(end):
    """Each number that none of the primes up to its square root divides."""
    primes = []
    for number in range(2, end):
        for prime in primes:
            if prime * prime > number:
                primes.append(number)
                break
            if number % prime == 0:
                break
        else:
            primes.append(number)
    return primes


def row(numbers):
    marks = "".join("#" if number in numbers else "." for number in range(SMALL))
    return f"{marks} {len(numbers):>3}"


def listed(numbers):
    return "{" + ", ".join(map(str, sorted(numbers))) + "}"


def lines():
    primes = primes_below(END)
    known = set(primes)
    yield f"Primes below {END}"
    yield f"  how many       {len(primes)}"
    yield f"  the first      {' '.join(map(str, primes[:10]))}"
    yield f"  the last       {' '.join(map(str, primes[-6:]))}"
    yield f"  the 10000th    {primes[9_999]}"
    yield f"  below 1000     {sum(prime < 1_000 for prime in primes)}"
    yield f"  pairs of twins {sum(prime + 2 in known for prime in primes)}"
    yield ""
    small = {prime for prime in primes if prime < SMALL}
    yield f"Below {SMALL}         0         10        20        30        40"
    yield f"  primes         {row(small)}"
    yield f"  Fibonacci      {row(FIBONACCI)}"
    yield f"  union          {row(small | FIBONACCI)}"
    yield f"  intersection   {row(small & FIBONACCI)}"
    yield f"  difference     {row(small - FIBONACCI)}"
    yield ""
    yield f"  intersection   {listed(small & FIBONACCI)}"
    yield f"  difference     {listed(small - FIBONACCI)}"


if __name__ == "__main__":
    text = "".join(line + "\n" for line in lines())
    (pathlib.Path(__file__).parent / "stdout").write_text(text)
