"""Writes a script in which N receives are posted and N messages wait that none of them takes; then each comes that was
missing, for the last receive and the last message first. N is a power of two, at most 4,096.

    python3 full.py 4096 > full.fabric
"""
import sys


def lines(n):
    """The lines of the script."""
    yield from ("fabric 1", "peers 1", f"rx {n}", "peer 0")
    posted, waiting = range(n), range(n, 2 * n)
    yield from (f"trecv {tag} 0 {tag} 0 1" for tag in posted)
    yield from (f"tinject 0 {tag} text:a" for tag in waiting)
    yield from (f"tinject 0 {tag} text:a" for tag in reversed(posted))
    yield from (f"wait {tag}" for tag in reversed(posted))
    yield from (f"trecv {tag} 0 {tag} 0 1" for tag in reversed(waiting))
    yield from (f"wait {tag}" for tag in reversed(waiting))


print("\n".join(lines(int(sys.argv[1]))))
