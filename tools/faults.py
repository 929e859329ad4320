"""Five rules of the rig: for each, a run that goes wrong when the rule is broken, beside the same calls with the rule kept.

The rules are those of docs/RULES.md, as far as these runs go: every draw is made with number 1, which always wins, every node
has a neighbour, nobody nudges, and the air is a rack queue that never fills. A line "lost" is no call: the radio loses its oldest
message there.
"""
from collections import deque
from dataclasses import dataclass, field
from typing import NamedTuple

ANY_GRANT = "a grant of any round is counted"
NO_OWN_SLOT = "a grant leaves out the granter's own slot"
ANY_FAIL = "a fail of any round from the holder frees"
OLD_MARKS = "the marks of who granted are kept from the last round"
SLOT_1 = "deciding takes slot 1, whatever is taken"

KINDS = {1: "request", 2: "grant", 3: "reject", 4: "release", 5: "fail"}


class Message(NamedTuple):
    kind: int
    sender: int
    receiver: int
    round: int
    slot: int = 0
    slots: frozenset = frozenset()

    def __str__(self):
        text = f"{KINDS[self.kind]} {self.sender}>{self.receiver} round {self.round}"
        if self.kind == 2:
            text += " {" + row(sorted(self.slots)) + "}"
        return text + f" slot {self.slot}" * (self.kind == 4)


@dataclass
class Node:
    phase: str = "idle"
    slot: int = 0
    round: int = 0
    dated: int = 0
    granted: set = field(default_factory=set)
    taken: set = field(default_factory=set)
    heard: set = field(default_factory=set)
    holder: int = 0
    term: int = 0


def least_free(held):
    """The smallest slot from 1 that is not held."""
    slot = 1
    while slot in held:
        slot += 1
    return slot


class Rig:
    """A new rig over an empty queue; fault is the rule that is broken, or None."""

    def __init__(self, links, fault):
        self.count = 1 + max(max(link) for link in links)
        self.near = [[j for j in range(self.count) if (i, j) in links or (j, i) in links] for i in range(self.count)]
        self.nodes = [Node() for _ in range(self.count)]
        self.fault = fault
        self.air = deque()
        self.order = []

    def draw(self, k):
        node = self.nodes[k]
        if node.slot:
            return "refused 8"
        if node.phase in ("request", "grant"):
            return "refused 9"
        node.phase, node.round, node.taken = "request", node.round + 1, set()
        if self.fault != OLD_MARKS:
            node.granted = set()
        self.send_to_all(k, 1)
        return "1 asked"

    def deliver(self):
        if not self.air:
            return "0 nothing came"
        message = self.air.popleft()
        act = {1: self.on_request, 2: self.on_grant, 3: self.on_reject, 4: self.on_release, 5: self.on_fail}[message.kind]
        act(self.nodes[message.receiver], message)
        return f"{message.kind} {message}"

    def lose(self):
        return f"  {self.air.popleft()}"

    def send_to_all(self, k, kind):
        for j in self.near[k]:
            self.air.append(Message(kind, k, j, self.nodes[k].round, self.nodes[k].slot if kind == 4 else 0))

    def answer(self, message, kind, slot=0, slots=frozenset()):
        self.air.append(Message(kind, message.receiver, message.sender, message.round, slot, slots))

    def on_request(self, node, message):
        if node.phase in ("idle", "release"):
            node.phase, node.holder, node.term = "grant", message.sender, message.round
        if node.phase == "grant" and (node.holder, node.term) == (message.sender, message.round):
            own = {node.slot} if node.slot and self.fault != NO_OWN_SLOT else set()
            self.answer(message, 2, slots=frozenset(node.heard | own))
        else:
            self.answer(message, 3)

    def on_grant(self, node, message):
        if node.phase == "request" and (message.round == node.round or self.fault == ANY_GRANT):
            node.granted.add(message.sender)
            node.taken |= message.slots
            if node.granted >= set(self.near[message.receiver]):
                self.decide(message.receiver)
        elif node.slot and node.dated == message.round:
            self.answer(message, 4, slot=node.slot)
        else:
            self.answer(message, 5)

    def on_reject(self, node, message):
        if node.phase == "request" and message.round == node.round:
            node.phase = "idle"
            self.send_to_all(message.receiver, 5)

    def on_release(self, node, message):
        node.heard.add(message.slot)
        if (node.holder, node.term) == (message.sender, message.round):
            self.free(node)

    def on_fail(self, node, message):
        if node.holder == message.sender and (node.term == message.round or self.fault == ANY_FAIL):
            self.free(node)

    @staticmethod
    def free(node):
        if node.phase == "grant":
            node.phase = "release" if node.slot else "idle"

    def decide(self, k):
        node = self.nodes[k]
        node.phase, node.dated = "release", node.round
        node.slot = 1 if self.fault == SLOT_1 else least_free(node.taken)
        self.order.append(k)
        self.send_to_all(k, 4)

    def contend(self, a, b):
        return a != b and (b in self.near[a] or any(b in self.near[c] for c in self.near[a]))

    def rand(self):
        """RAND's slots for the order of deciding."""
        slots = [0] * self.count
        for k in self.order:
            slots[k] = least_free({slots[i] for i in range(self.count) if self.contend(i, k)})
        return slots

    def verdict(self):
        """What the checker says of the slots."""
        slots = [node.slot for node in self.nodes]
        for a in range(self.count):
            for b in range(a + 1, self.count):
                if self.contend(a, b) and slots[a] == slots[b] != 0:
                    return f"clash: {a} and {b}, slot {slots[a]}"
        return f"accepted, frame {max(slots)}"


PATH_2, PATH_3, PATH_4 = {(0, 1)}, {(0, 1), (1, 2)}, {(0, 1), (1, 2), (2, 3)}

# Fault, links, and events: D draws a node, M delivers so often, X loses so many messages.
RUNS = [
    (ANY_GRANT, PATH_4, "D0 D1 M5 D3 D1 M9"),
    (NO_OWN_SLOT, PATH_2, "D0 M3 D1 M2"),
    (ANY_FAIL, PATH_4, "D0 D1 M5 D1 M1 D3 M10"),
    (OLD_MARKS, PATH_3, "D0 M3 D2 D1 M6 D1 M3 X1 M2"),
    (SLOT_1, PATH_2, "D0 M3 D1 M2"),
]


def row(numbers):
    return " ".join(map(str, numbers))


def replay(links, fault, events):
    """The lines of a run: what is called and what comes of it, then how the run ends."""
    rig = Rig(links, fault)
    lines = []
    for event in events.split():
        kind, number = event[0], int(event[1:])
        if kind == "D":
            lines.append((f"draw {number}", rig.draw(number)))
        else:
            name, call = ("deliver", rig.deliver) if kind == "M" else ("lost", rig.lose)
            lines += [(name, call()) for _ in range(number)]
    lines.append(("slots", row(node.slot for node in rig.nodes)))
    lines.append(("order", row(rig.order)))
    lines.append(("RAND", row(rig.rand())))
    lines.append(("checker", rig.verdict()))
    return lines


def main():
    for fault, links, events in RUNS:
        print(f"{fault}\nmap {' '.join(f'{a}-{b}' for a, b in sorted(links))}, run {events}\n")
        print(f"{'':9} {'broken':32} kept")
        for (name, broken), (_, kept) in zip(replay(links, fault, events), replay(links, None, events)):
            print(f"{name:9} {broken:32} {kept}")
        print()


if __name__ == "__main__":
    main()
