#!/usr/bin/env python3
"""Writes a command file: commands.py COUNT [SEED [FILE]]. Files of other numbers have other keys.

Of 100 commands 50 put, 30 get, 10 del, 5 putif and 5 putnew, on average. The 20,000 keys are drawn evenly: the key n is
`key` and the eight hexadecimal digits of n * 2654435761 mod 2^32, so the program's hash (each byte added to 31 times the
hash before it) spreads them over the buckets. Values have 100 bytes. Of the putif, half expect the value that the key
has, if it has one.
"""
import random
import sys

KEYS = 20_000
VALUE_BYTES = 100
VERBS = ["put"] * 50 + ["get"] * 30 + ["del"] * 10 + ["putif"] * 5 + ["putnew"] * 5


def key_of(number):
    return f"key{number * 2_654_435_761 % 2**32:08x}"


def value_of(number):
    return f"value{number:08d}".ljust(VALUE_BYTES, "v")


def commands(count, seed, file):
    chosen = random.Random(seed)
    held = {}
    for number in range(count):
        verb, key, value = chosen.choice(VERBS), key_of(file * KEYS + chosen.randrange(KEYS)), value_of(number)
        is_met = chosen.random() < 0.5
        if verb in ("get", "del"):
            yield f"{verb} {key}"
        elif verb == "putif":
            expected = held.get(key, value) if is_met else "other"
            yield f"putif {key} {expected} {value}"
        else:
            yield f"{verb} {key} {value}"
        if verb == "del":
            held.pop(key, None)
        elif verb == "put" or verb == "putnew" and key not in held:
            held[key] = value
        elif verb == "putif" and held.get(key) == expected:
            held[key] = value


def main(count, seed="1", file="0"):
    sys.stdout.writelines(f"{line}\n" for line in commands(int(count), int(seed), int(file)))


main(*sys.argv[1:])
