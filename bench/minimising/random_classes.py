#!/usr/bin/env python3
"""Prints a specification whose automaton has some 8,000 states with rows of random bytes: one rule, a series of classes that
are drawn from 400.

    bench/minimising/random_classes.py DENSITY    a class has this part of the 256 bytes: 0.5, say"""
import random
import sys

density = float(sys.argv[1])
random.seed(1)
for number in range(400):
    members = [byte for byte in range(1, 256) if random.random() < density] or [1]
    print(f"S{number} [" + "".join(f"\\{byte:03o}" for byte in members) + "]")
print("%%")
print("".join(f"{{S{random.randrange(400)}}}" for _ in range(8000)) + " ;")
