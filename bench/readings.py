"""The series that scripts of this folder measure, and stores of one stream of them."""

import math
import os
import subprocess
import time

from shared import HERE, fail


def waves(length):
    """Made up: so many hours of a house's power in watts, with a daily and a yearly wave. The times are the hours, from 1 on."""
    year, day = math.tau / 8760, math.tau / 24
    return [(t, round(500 + 200 * math.cos(t * year) - 150 * math.cos(t * day))) for t in range(1, length + 1)]


def codes(length):
    """Made up: so many hours in each of which a machine tells one of 200 codes. Which one looks random, and half of them come often."""
    known, x, told = [100 + k * 7919 % 9973 for k in range(200)], 1, []
    for t in range(1, length + 1):
        x = x * 16807 % 2147483647
        told.append((t, known[x // 8 % (100 if x % 8 else 200)]))
    return told


def primes(below):
    """The primes as times, each with the gap to the next as its value: times that are not one after the other."""
    prime = bytearray([1]) * below
    prime[0] = prime[1] = 0
    for p in range(2, math.isqrt(below) + 1):
        if prime[p]:
            prime[p * p::p] = bytes(len(range(p * p, below, p)))
    found = [p for p in range(below) if prime[p]]
    return [(p, after - p) for p, after in zip(found, found[1:])]


def nile():
    """The yearly flow of the Nile, which examples/README.md tells of."""
    with open(os.path.join(HERE, "examples/nile.commands")) as text:
        return [(int(row[2]), int(row[3])) for row in map(str.split, text) if row[0] == "append"]


def series(name):
    """A real series, which bench/README.md tells of: a time and a value a line."""
    with open(os.path.join(HERE, "bench/series", name)) as text:
        return [(int(t), int(v)) for t, v in map(str.split, text)]


def all_series():
    """Each series with its name."""
    return (
        ("Nile, 100 years", nile()),
        ("sunspots, 309 years", series("sunspots")),
        ("CO2, 2,225 weeks", series("co2")),
        ("waves, 8,760 hours", waves(8760)),
        ("gaps of primes to 10^5", primes(10**5)),
    )


def run(program, store, commands, before=()):
    """A run of the program: its wall time in seconds, and the lines of its report."""
    start = time.perf_counter()
    done = subprocess.run([*before, program, store], input="".join(commands).encode(), stdout=subprocess.PIPE, check=False)
    seconds = time.perf_counter() - start
    if done.returncode != 0:
        fail(f"the program ended with {done.returncode}")
    return seconds, done.stdout.decode().splitlines()


def stored(program, folder, target, values):
    """A new store with one stream of these values, and how many windows stand."""
    store = os.path.join(folder, f"{target.replace(' ', '-')}.store")
    if os.path.exists(store):
        os.remove(store)
    _, replies = run(program, store, [f"create s {target}\n", *(f"append s {t} {v}\n" for t, v in values)])
    words = replies[-1].split() if replies else []
    if words[:2] != ["ok", str(len(values))]:
        fail(f"the last append was replied {replies[-1:]}")
    return store, int(words[2])
