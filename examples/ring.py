"""Prints a script in which messages go round a ring of peers, or the one report that it has, from the rules alone.

    python3 ring.py script 64
    python3 ring.py report 64

Each peer but the first takes four messages from the peer before it and then sends four to the peer behind it; the first one sends before it takes.
Of the four, the first completes only when it is matched (`level=match`), the third has a fence, so it waits for that, and the fourth is sent when
all have completed. The receiver posts no receive of the first before the second came, so the third can't have come before.

Why the report is the same in every order of turns: a peer is told of one thing at a time, and posts what is told next before it can come.
- The first and the second message come one behind the other, and only the second has a receive. The third and the fourth in the same way: only the
  fourth has one. So whether both come at once or apart, there is one completion, behind both.
- The reply to the first goes out behind the receives of the first and the fourth, and the third comes behind that reply.
- The peer before has nothing more to do with its messages when the fourth is sent, and nothing comes to it then that this peer could cause earlier.
- All that a peer does between two things that come to it is up to 7 lines, and a turn does up to 16 before it looks at what came.
"""
import sys

HEAD = """# Four messages go round a ring, the third of them behind a fence (examples/ring.py).
fabric 2
peers %d
"""
TAKING = """trecv 1 {before} 2 0 8
wait 1
trecv 2 {before} 1 0 8
wait 2
trecv 3 {before} 4 0 8
wait 3
trecv 4 {before} 3 0 8
wait 4
"""
SENDING = """tsend 5 {behind} 1 text:{peer}.1 level=match
tsend 6 {behind} 2 text:{peer}.2
tsend 7 {behind} 3 text:{peer}.3 fence
wait 6
wait 5
wait 7
tsend 8 {behind} 4 text:{peer}.4
wait 8
"""
# Two messages come, of which the second completes its receive. The first is matched by its receive, and completes it at once; its reply goes out.
TOOK = "D H{before} T{before} H{before} T{before} R D D R D D S{before} H{before} T{before} H{before} T{before} R D D R D"
# The first and the second go out, and the second completes. Their reply comes, the third goes out, and both complete. Then the fourth.
SENT = "D S{behind} D S{behind} R D D H{behind} T{behind} S{behind} R R D D D S{behind} R D"


def halves(peer, taking, sending):
    return (sending, taking) if peer == 0 else (taking, sending)


def names(peer, peers):
    return {"peer": peer, "before": (peer - 1) % peers, "behind": (peer + 1) % peers}


def script(peers):
    parts = [HEAD % peers]
    for peer in range(peers):
        parts.append("peer %d\n" % peer + "".join(halves(peer, TAKING, SENDING)).format(**names(peer, peers)))
    return "".join(parts)


def result(words, before):
    """What a line tells: the receives by their messages, the sends by their level alone."""
    if words[0] != "wait":
        return "ok"
    if words[1] in "5678":
        return words[1] + " FI_TAGGED FI_SEND"
    tag = {"1": 2, "2": 1, "3": 4, "4": 3}[words[1]]
    text = b"%d.%d" % (before, tag)
    return "%s FI_TAGGED FI_RECV from %d tag %d len %d bytes %s" % (words[1], before, tag, len(text), text.hex())


def report(peers):
    lines = ["fabric 2 peers %d" % peers]
    number = HEAD.count("\n")
    for peer in range(peers):
        place = names(peer, peers)
        lines.append("peer %d" % peer)
        number += 1
        for line in "".join(halves(peer, TAKING, SENDING)).format(**place).splitlines():
            number += 1
            words = line.split()
            lines.append("%d %s %s" % (number, words[0], result(words, place["before"])))
        lines.append("trace " + " ".join(halves(peer, TOOK, SENT)).format(**place))
    return "\n".join(lines) + "\nend done\n"


print({"script": script, "report": report}[sys.argv[1]](int(sys.argv[2])), end="")
