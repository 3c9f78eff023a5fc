#!/usr/bin/env python3
"""Makes the example plans beside this script, from the rules of the plan file alone (docs/RULES.md).

usage: make.py [FOLDER]     writes NAME.plan for each plan below, and damaged.card, a file that is none any more; without FOLDER, beside this
                            script
"""
import pathlib
import sys

NODE, ROUTER = 0, 1
ALL = (1 << 32) - 1


class Plan:
    """Devices in order, joined port to port."""

    def __init__(self, router_load, node_load):
        self.loads = (router_load, node_load)
        self.own = {}  # by identifier: loads of its own, in the same order
        self.events = ()
        self.master = None
        self.devices = []

    def add(self, role, ports, source=(), handler=()):
        self.devices.append({"role": role, "ports": ports, "source": mask(source), "handler": mask(handler),
                             "entries": [(255, 255, 0, 0)] * 8, "bars": [(0, 0)] * 8})
        return len(self.devices) - 1

    def node(self, source=(), handler=(), ports=1):
        return self.add(NODE, ports, source, handler)

    def router(self, ports):
        return self.add(ROUTER, ports)

    def join(self, a, b, near=15, far=15):
        """Joins port a = (device, port), with the permissions near, and port b, with the permissions far."""
        for (d, p), (e, q), permissions in ((a, b, near), (b, a, far)):
            assert self.devices[d]["entries"][p] == (255, 255, 0, 0) and p < self.devices[d]["ports"]
            self.devices[d]["entries"][p] = (e, q, permissions, 0)

    def let_in(self, a, interrupts=(), acknowledges=()):
        """Port a = (router, port) bars all but these."""
        d, p = a
        assert self.devices[d]["role"] == ROUTER and p < self.devices[d]["ports"]
        self.devices[d]["bars"][p] = (ALL - mask(interrupts), ALL - mask(acknowledges))

    def file(self):
        master = 0 if self.master is None else 1 + self.master
        fields = bytes([1, len(self.devices)]) + pair(self.loads) + four(mask(self.events)) + bytes([master])
        blocks = [sealed(fields + bytes(5) + b"".join(pair(self.own.get(k, (0, 0))) for k in range(32)))]
        for d, device in enumerate(self.devices):
            fields = bytes([2, d, device["role"], device["ports"]]) + four(device["source"]) + four(device["handler"])
            rows = b"".join(bytes(e) for e in device["entries"])
            blocks.append(sealed(fields + rows + b"".join(four(i) + four(a) for i, a in device["bars"])))
        return b"".join(blocks)


def mask(identifiers):
    return sum(1 << k for k in set(identifiers))


def two(n):
    return n.to_bytes(2, "little")


def four(n):
    return n.to_bytes(4, "little")


def pair(loads):
    """That of routers, and that of nodes; two zeros where an identifier takes the common loads."""
    router, node = loads
    return two(router) + two(node)


def sealed(fields):
    """A block: the fields, zeros, and the weighted check."""
    body = fields + bytes(510 - len(fields))
    return body + two(sum((i + 1) * b for i, b in enumerate(body)) % 65521)


def three():
    """A source, a router and a handler in a row."""
    plan = Plan(100, 200)
    a, r, b = plan.node(source=[5]), plan.router(2), plan.node(handler=[5])
    plan.join((a, 0), (r, 0))
    plan.join((r, 1), (b, 0))
    return plan


def ring():
    """Four routers in a ring, a node at each: a code can come round again."""
    plan = Plan(2000, 2400)
    routers = [plan.router(3) for _ in range(4)]
    for i, r in enumerate(routers):
        n = plan.node(source=[i], handler=[(i + 2) % 4])
        plan.join((r, 0), (n, 0))
    for i, r in enumerate(routers):
        plan.join((r, 1), (routers[(i + 1) % 4], 2))
    return plan


def tree():
    """A tree of seven routers with two nodes at each of its four leaves: six links between the farthest nodes (004, figure 1)."""
    plan = Plan(1000, 1200)
    root = plan.router(2)
    inner = [plan.router(3) for _ in range(2)]
    leaves = [plan.router(3) for _ in range(4)]
    for i, r in enumerate(inner):
        plan.join((root, i), (r, 0))
    for i, r in enumerate(leaves):
        plan.join((inner[i // 2], 1 + i % 2), (r, 0))
        for j in range(2):
            k = 2 * i + j
            n = plan.node(source=[k], handler=[(k + 4) % 8])
            plan.join((r, 1 + j), (n, 0))
    return plan


def torus():
    """A torus of three by three routers with a node at each: four links between the farthest nodes, ten on the longest way (004, figure 2)."""
    plan = Plan(1000, 1200)
    routers = [plan.router(5) for _ in range(9)]
    for i in range(9):
        n = plan.node(source=[i], handler=[(i + 4) % 9])
        plan.join((routers[i], 0), (n, 0))
    for row in range(3):
        for column in range(3):
            here = routers[3 * row + column]
            plan.join((here, 1), (routers[3 * row + (column + 1) % 3], 2))
            plan.join((here, 3), (routers[3 * ((row + 1) % 3) + column], 4))
    return plan


def full():
    """32 devices: eight routers in a ring with chords, three nodes at each; every identifier has its source and its handler."""
    plan = Plan(2000, 2400)
    routers = [plan.router(6) for _ in range(8)]
    for i in range(24):
        source = [i] + ([24 + i] if i < 8 else [])
        handler = [(i + 12) % 24] + ([24 + i - 12] if 12 <= i < 20 else [])
        n = plan.node(source=source, handler=handler)
        plan.join((routers[i // 3], i % 3), (n, 0))
    for i, r in enumerate(routers):
        plan.join((r, 3), (routers[(i + 1) % 8], 4))
    for i in range(4):
        plan.join((routers[i], 5), (routers[i + 4], 5))
    return plan


def loop():
    """A router with two of its ports joined to each other."""
    plan = Plan(100, 200)
    a, r, b = plan.node(source=[1]), plan.router(4), plan.node(handler=[1])
    plan.join((a, 0), (r, 0))
    plan.join((r, 1), (r, 2))
    plan.join((r, 3), (b, 0))
    return plan


def brief():
    """A source, a router and a handler in a row, with loads so short that a code times out."""
    plan = Plan(3, 5)
    a, r, b = plan.node(source=[5]), plan.router(2), plan.node(handler=[5])
    plan.join((a, 0), (r, 0))
    plan.join((r, 1), (b, 0))
    return plan


def mute():
    """A source that may not send, and a router with a port that leads nowhere."""
    plan = Plan(100, 200)
    a, r = plan.node(source=[5]), plan.router(2)
    plan.join((a, 0), (r, 0), near=14)
    return plan


def incident():
    """A triangle of routers. Five sources keep the way round by the third router busy, so a copy of interrupt 7 comes late."""
    plan = Plan(2000, 2400)
    routers = [plan.router(3), plan.router(3), plan.router(7)]
    for r, node in ((0, plan.node(source=[7])), (1, plan.node(handler=[7]))):
        plan.join((routers[r], 2), (node, 0))
    for i in range(3):
        plan.join((routers[i], 0), (routers[(i + 1) % 3], 1))
    for i in range(5):
        plan.join((routers[2], 2 + i), (plan.node(source=[8 + i]), 0))
    return plan


def mesh():
    """32 routers, all 256 ports joined: the busiest network there can be."""
    plan = Plan(1000, 1200)
    routers = [plan.router(8) for _ in range(32)]
    for i in range(32):
        for j in range(4):
            plan.join((routers[i], 2 * j), (routers[(i + j + 1) % 32], 2 * j + 1))
    return plan


def chain():
    """A source, thirty routers and a handler in a row: 31 links, as far apart as two devices can be. Each router passes on by its last port."""
    plan = Plan(2000, 4000)
    row = [plan.node(source=[5])] + [plan.router(8) for _ in range(30)] + [plan.node(handler=[5])]
    for i in range(31):
        plan.join((row[i], 7 if i else 0), (row[i + 1], 0))
    return plan


def never():
    """Four routers in a ring with none, one, two and three nodes, and loads of 1: every bit is gone before its code comes round again, so
    the code never stops. How many devices hold it tells where it is."""
    plan = Plan(1, 1)
    routers = [plan.router(2 + i) for i in range(4)]
    for i, r in enumerate(routers):
        plan.join((r, 0), (routers[(i + 1) % 4], 1))
        for j in range(i):
            n = plan.node(source=[len(plan.devices)])
            plan.join((r, 2 + j), (n, 0))
    return plan


def refused():
    """A source with no link and one that may not send interrupts, beside one that is heard by all and one that its router does not hear."""
    plan = Plan(100, 200)
    plan.node(source=[3, 30])
    r, b = plan.router(4), plan.node(handler=[3, 4, 5, 6])
    plan.join((r, 0), (b, 0))
    for port, k, near, far in ((1, 4, 14, 15), (2, 5, 15, 15), (3, 6, 15, 13)):
        plan.join((plan.node(source=[k]), 0), (r, port), near=near, far=far)
    return plan


def fading():
    """A source, two routers and a handler in a row, with loads of 1: the bit is gone behind the code, and the handler alone still holds it."""
    plan = Plan(1, 1)
    a, r, s, b = plan.node(source=[5]), plan.router(2), plan.router(2), plan.node(handler=[5])
    plan.join((a, 0), (r, 0))
    plan.join((r, 1), (s, 0))
    plan.join((s, 1), (b, 0))
    return plan


def twice():
    """Three routers, the third one reached both by the second and directly, over links that carry codes one way, with loads of 1: the
    copy by the longer way comes when the bit is gone again, and the handler is told twice."""
    plan = Plan(1, 1)
    a, b = plan.node(source=[5]), plan.node(handler=[5])
    first, second, third = plan.router(3), plan.router(2), plan.router(3)
    for near, far in (((a, 0), (first, 0)), ((first, 1), (second, 0)), ((first, 2), (third, 0)), ((second, 1), (third, 1)), ((third, 2), (b, 0))):
        plan.join(near, far, near=5, far=10)
    return plan


def straps(joined, cut=()):
    """Two routers, and four units with their first port at one and their second at the other, but for the links that are cut, each named by
    unit and port. The routers may be joined to each other."""
    plan = Plan(2000, 2400)
    routers = [plan.router(5), plan.router(5)]
    units = [plan.node(source=[i], handler=[(i + 2) % 4], ports=2) for i in range(4)]
    for i, unit in enumerate(units):
        for p, r in enumerate(routers):
            if (i, p) not in cut:
                plan.join((unit, p), (r, i))
    if joined:
        plan.join((routers[0], 4), (routers[1], 4))
    return plan


def strapped():
    """Cross-strapped: two routers that are joined, and four units on both."""
    return straps(joined=True)


def cut():
    """The same where the nominal link of the first unit is cut: it works on by the redundant one."""
    return straps(joined=True, cut=[(0, 0)])


def parted():
    """Two routers that are not joined, and four units on both, but for the nominal link of the third: its acknowledge gets to one router only,
    while the interrupt of a unit on both gets to both."""
    return straps(joined=False, cut=[(2, 0)])


def timed():
    """Three routers in a ring, a source, a handler and the master of time at one each, and a unit on two of them: Time-Codes and interrupts
    share the links."""
    plan = Plan(2000, 2400)
    source, first = plan.node(source=[5]), plan.router(3)
    handler, second, third = plan.node(handler=[5, 6]), plan.router(4), plan.router(4)
    master, unit = plan.node(), plan.node(source=[6], ports=2)
    for near, far in (((first, 1), (second, 0)), ((second, 1), (third, 0)), ((third, 1), (first, 2)), ((source, 0), (first, 0)),
                      ((master, 0), (second, 2)), ((handler, 0), (third, 2)), ((unit, 0), (second, 3)), ((unit, 1), (third, 3))):
        plan.join(near, far)
    plan.master = master
    return plan


def events():
    """Three science units that send event 9, and one of them event 10 as well, on two routers with two links between them. A recorder hears both
    events and confirms none. Beside these is 5, which the second unit requests and the computer, the master of time, acknowledges."""
    plan = Plan(1500, 1600)
    routers = [plan.router(4), plan.router(5)]
    units = [plan.node(source=[9]), plan.node(source=[5, 9]), plan.node(source=[9, 10])]
    recorder, computer = plan.node(handler=[9, 10]), plan.node(handler=[5])
    for p in range(2):
        plan.join((routers[0], p), (routers[1], p))
    for near, far in (((units[0], 0), (routers[0], 2)), ((units[1], 0), (routers[0], 3)), ((units[2], 0), (routers[1], 2)),
                      ((recorder, 0), (routers[1], 3)), ((computer, 0), (routers[1], 4))):
        plan.join(near, far)
    plan.events = [9, 10]
    plan.master = computer
    return plan


def causes():
    """A source and a unit with two links each, on two pairs of routers. Four ways lead to the second pair: the source's own link, by which it may
    not send, a link whose other end may not receive, one that can be stopped, and the unit, which passes nothing on."""
    plan = Plan(2000, 2400)
    source, first, second = plan.node(source=[5], ports=2), plan.router(3), plan.router(4)
    unit, near = plan.node(ports=2), plan.node(handler=[5])
    third, far, last = plan.router(3), plan.node(handler=[5]), plan.router(4)
    for one, other in (((source, 0), (first, 0)), ((first, 1), (second, 0)), ((second, 1), (last, 0)), ((second, 2), (unit, 0)),
                       ((second, 3), (near, 0)), ((third, 2), (last, 1)), ((last, 2), (unit, 1)), ((last, 3), (far, 0))):
        plan.join(one, other)
    plan.join((source, 1), (third, 0), near=14)
    plan.join((first, 2), (third, 1), far=13)
    return plan


def edge(guarded):
    """A unit that reports by 5, a computer that handles it and says by event 9 that it is alive, a recorder of that, and a spare of the computer,
    which can do the same and is not to; by 6 it says that something is wrong with it. Two routers at the edge may be guarded: each port to a
    unit lets in what that has business with, and nothing else."""
    plan = Plan(400, 500)
    routers = [plan.router(3), plan.router(3)]
    unit, computer = plan.node(source=[5]), plan.node(source=[9], handler=[5, 6])
    recorder, spare = plan.node(handler=[9]), plan.node(source=[6, 9], handler=[5])
    plan.join((routers[0], 0), (routers[1], 0))
    for near, far, interrupts, acknowledges in ((unit, (routers[0], 1), [5], []), (spare, (routers[0], 2), [6], []),
                                                (computer, (routers[1], 1), [9], [5, 6]), (recorder, (routers[1], 2), [], [])):
        plan.join((near, 0), far)
        if guarded:
            plan.let_in(far, interrupts, acknowledges)
    plan.events = [9]
    return plan


def babble():
    """The edge with no guard: whatever the spare sends gets everywhere."""
    return edge(guarded=False)


def guarded():
    """The same with the guard."""
    return edge(guarded=True)


def loads():
    """Four routers in a ring, two units and a computer at three of them, and loads as each identifier needs them. Event 0 is an alarm, which either
    unit may soon send again; 31 is housekeeping, with which the computer may take its time. 5 takes the common loads, and these are so short that
    its bits are gone when it comes round again: it never stops."""
    plan = Plan(2, 3)
    routers = [plan.router(3), plan.router(3), plan.router(3), plan.router(2)]
    nodes = [plan.node(source=[0, 31]), plan.node(source=[0, 5]), plan.node(handler=[0, 5, 31])]
    for i, r in enumerate(routers):
        plan.join((r, 0), (routers[(i + 1) % 4], 1))
    for r, n in zip(routers, nodes):
        plan.join((r, 2), (n, 0))
    plan.own = {0: (450, 500), 31: (20000, 24000)}
    plan.events = [0]
    return plan


def card(rescued):
    """Three routers in a ring: at the first a computer, which is the master of time, at each of the others a unit, and an instrument on both of these.
    Where the plan was rescued, the second router and the instrument are what the other blocks tell of them: routers with the ports that these are
    joined to, and without permissions. That the two are joined to each other no other block tells."""
    plan = Plan(2000, 2400)
    may = 0 if rescued else 15
    first, second, third = plan.router(3), plan.router(3 if rescued else 5), plan.router(4)
    computer, unit = plan.node(handler=[5, 6, 7]), plan.node(source=[5])
    instrument = plan.router(2) if rescued else plan.node(source=[6], handler=[7], ports=2)
    other = plan.node(source=[7])
    for near, far in (((computer, 0), (first, 0)), ((first, 2), (third, 1)), ((other, 0), (third, 3))):
        plan.join(near, far)
    for near, far in (((first, 1), (second, 0)), ((third, 0), (second, 1)), ((unit, 0), (second, 2)), ((third, 2), (instrument, 1))):
        plan.join(near, far, far=may)
    plan.let_in((third, 3), [7])
    if not rescued:
        plan.join((second, 3), (instrument, 0))
        plan.let_in((second, 2), [5])
    plan.master = computer
    return plan


def damaged():
    """The bytes of that card as it came back: the block of the second router is erased, and a bit of the instrument's is wrong."""
    file = bytearray(card(rescued=False).file())
    file[2 * 512:3 * 512] = bytes([255] * 512)
    file[6 * 512 + 4] ^= 128
    return bytes(file)


def mended():
    """What the rescue makes of it."""
    return card(rescued=True)


def idle():
    """One node, joined to nothing, and no source: the smallest file there is."""
    plan = Plan(1, 1)
    plan.node(handler=[5])
    return plan


if __name__ == "__main__":
    folder = pathlib.Path(sys.argv[1] if len(sys.argv) > 1 else pathlib.Path(__file__).parent)
    for make in (three, ring, tree, torus, full, loop, brief, mute, incident, mesh, chain, never, fading, twice, refused, strapped, cut, parted, timed, events, causes, babble, guarded, loads, mended, idle):
        (folder / f"{make.__name__}.plan").write_bytes(make().file())
    (folder / "damaged.card").write_bytes(damaged())
