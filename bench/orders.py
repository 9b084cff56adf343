#!/usr/bin/env python3
"""orders.py THREADS STATEMENTS: in how many orders so many threads can take so many steps each if none has to wait, (T*S)! / (S!)^T, exactly."""
import sys
from math import factorial

threads, statements = int(sys.argv[1]), int(sys.argv[2])
orders = factorial(threads * statements) // factorial(statements) ** threads
print(f"{threads} threads of {statements} statements: {threads * statements}!/({statements}!)^{threads} = {orders:,} orders")
