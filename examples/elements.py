"""What fi_atomic(3) makes of an element, computed with Python's integers. Elements are bit patterns."""

TYPES = [(sign + str(bits), sign == "i", bits) for sign in "iu" for bits in (8, 16, 32, 64)]
# How many elements a request or a share has.
COUNT = 16


def signed(x, bits):
    return x - (1 << bits) if x >> (bits - 1) else x


def order_of(is_signed, bits):
    """The number that a bit pattern stands for."""
    return (lambda x: signed(x, bits)) if is_signed else (lambda x: x)


def lists(bits):
    """Three lists of elements: 0, the least and the greatest signed number, and -1, such that all pairs of them meet between the first two."""
    points = [0, 1 << (bits - 1), (1 << (bits - 1)) - 1, (1 << bits) - 1]
    olds = [t for t in points for _ in points]
    others = [b for _ in points for b in points]
    return olds, others, [points[(i + i // 4 + 1) % 4] for i in range(COUNT)]


def raw(xs, bits):
    return b"".join(x.to_bytes(bits // 8, "little") for x in xs).hex()


def values(xs, order):
    return ",".join(str(order(x)) for x in xs)


def truth(x):
    return 1 if x else 0


def folding(order, full):
    """What an element t becomes by b, of the operations that collectives have."""
    return {
        "FI_MIN": lambda t, b: min(t, b, key=order),
        "FI_MAX": lambda t, b: max(t, b, key=order),
        "FI_SUM": lambda t, b: (t + b) & full,
        "FI_PROD": lambda t, b: (t * b) & full,
        "FI_LOR": lambda t, b: truth(t or b),
        "FI_LAND": lambda t, b: truth(t and b),
        "FI_LXOR": lambda t, b: truth(t) ^ truth(b),
        "FI_BOR": lambda t, b: t | b,
        "FI_BAND": lambda t, b: t & b,
        "FI_BXOR": lambda t, b: t ^ b,
    }


def comparing(order, full):
    """The same of the operations that compare c, on the left, with t."""
    return {
        "FI_CSWAP": lambda t, b, c: b if c == t else t,
        "FI_CSWAP_NE": lambda t, b, c: b if c != t else t,
        "FI_CSWAP_LE": lambda t, b, c: b if order(c) <= order(t) else t,
        "FI_CSWAP_LT": lambda t, b, c: b if order(c) < order(t) else t,
        "FI_CSWAP_GE": lambda t, b, c: b if order(c) >= order(t) else t,
        "FI_CSWAP_GT": lambda t, b, c: b if order(c) > order(t) else t,
        "FI_MSWAP": lambda t, b, c: (b & c) | (t & ~c & full),
    }


def write(name, lines):
    with open(name, "w", encoding="ascii") as file:
        file.write("\n".join(lines) + "\n")
