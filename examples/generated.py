"""Prints the line of `gen NUMBER PEERS MESSAGES`, from the numbers alone.

    python3 generated.py 7 8 4096
"""
import sys


def line(number, peers, messages):
    """How many bytes the messages have, and the sum of all of them."""
    x, size, total = number, 0, 0
    for _ in range(messages):
        x = (x * 6364136223846793005 + 1442695040888963407) % 2**64
        length = (x >> 48) % 2**14
        size += length
        total += sum(((x >> 24) + j) % 256 for j in range(length))
    return f"gen number {number} peers {peers} messages {messages} bytes {size} sum {total}"


print(line(*map(int, sys.argv[1:])))
