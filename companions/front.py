"""What makes room where a change goes to the front of its queue: the adapter takes it back, and an operator is shown it
before."""
from __future__ import annotations

from dataclasses import dataclass

from companions.gate import Gate


@dataclass(frozen=True)
class Front:
    """The changes of the queue that are being landed, whether the change itself stands there, and the others that have
    to be taken back, each with its revision, from the front to the back. There are none where it stands first already.
    """
    landing: tuple[int, ...]
    stands: bool
    others: tuple[tuple[int, int], ...]


def front_of(gate: Gate, queue: str, change: int) -> Front:
    """By what the gate shows now. What is being landed stays, and so does all that the change needs of its queue."""
    items: list[list[str]] = next((it.items for it in gate.status().queues if it.name == queue), [])
    orders = {it.order for it in gate.orders()}
    stands = [int(it[1]) for it in items]
    stay = needed(gate, change, set(stands))
    others = [(int(it[1]), int(it[2])) for it in items if int(it[0]) not in orders and int(it[1]) not in stay]
    if change in stands and not {it for it, _ in others} & {*stands[:stands.index(change)]}:
        others = []
    landing = tuple(int(it[1]) for it in items if int(it[0]) in orders)
    return Front(landing, change in stands, tuple(others))


def needed(gate: Gate, change: int, stands: set[int]) -> set[int]:
    """A change, and all those of the queue that it needs, which have to stay before it."""
    found, left = {change}, [change]
    while left:
        known = gate.change(left.pop()) or {"needs": []}
        more = {it["change"] for it in known["needs"]} & stands - found
        found |= more
        left += more
    return found
