#!/usr/bin/env python3
"""Writes atomics.fabric and atomics.report: every operation on every type, in each form (fi_atomic(3)).

The expected bytes are computed here (elements.py). The target's elements are all pairs with the operand's or, where an
operation compares, with the compare's.
"""
from elements import COUNT, TYPES, comparing, folding, lists, order_of, raw, values, write

KEY = 1


class Writer:
    def __init__(self):
        self.script = ["# Every operation on every type, in each form: written by atomics.py.", "fabric 1", "peers 1", "peer 0"]
        self.report = ["fabric 1 peers 1", "peer 0"]
        self.trace = ["trace"]
        self.ctx = 0

    def line(self, text, answer):
        self.script.append(text)
        self.report.append(f"{len(self.script)} {answer}")

    def alone(self, text, answer):
        self.line(text, answer)
        self.trace.append("D")

    def request(self, verb, rest, entry):
        """A request to the peer itself, and the wait for its completion."""
        self.ctx += 1
        self.line(f"{verb} {self.ctx} 0 {KEY} 0 {rest}", f"{verb} ok")
        self.line(f"wait {self.ctx}", f"wait {self.ctx} {entry}")
        self.trace.append("D S0 H0 T0 S0 H0 T0 R D")


def main():
    out = Writer()
    out.alone(f"reg {KEY} rw zero:128", "reg ok")
    for num, is_signed, bits in TYPES:
        full = (1 << bits) - 1
        order = order_of(is_signed, bits)
        olds, others, thirds = lists(bits)
        size = COUNT * bits // 8
        rest = "00" * (128 - size)
        got = f"FI_ATOMIC FI_READ len {size} bytes {raw(olds, bits)}"
        operations = {**folding(order, full), "FI_ATOMIC_WRITE": lambda t, b: b}

        def reset():
            out.alone(f"put {KEY} 0 hex:{raw(olds, bits)}{rest}", "put ok")

        def show(news):
            out.alone(f"show {KEY}", f"show {raw(news, bits)}{rest}")

        for op, f in operations.items():
            news = [f(t, b) for t, b in zip(olds, others)]
            reset()
            out.request("atomic", f"{op} {num} {values(others, order)}", "FI_ATOMIC FI_WRITE")
            show(news)
            reset()
            out.request("fetch", f"{op} {num} {values(others, order)}", got)
            show(news)
        reset()
        out.request("fetch", f"FI_ATOMIC_READ {num} *{COUNT}", got)
        show(olds)
        for op, f in comparing(order, full).items():
            reset()
            out.request("compare", f"{op} {num} {values(thirds, order)} {values(others, order)}", got)
            show([f(t, b, c) for t, b, c in zip(olds, thirds, others)])
    out.report += [" ".join(out.trace), "end done"]
    write("atomics.fabric", out.script)
    write("atomics.report", out.report)


main()
