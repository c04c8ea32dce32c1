"""The way of each packet and control message through a run: which record put it, and which one took it or lost it.

What waits on a link, or as a control message, is followed as the trace says: what is put comes last, an event names a
place, and what a record took must be what waits there."""

from collections import defaultdict, deque
from dataclasses import dataclass
from enum import StrEnum

from .topology import Topology
from .trace import Control, Line, Packet, Record, Scattering, TraceFault, read_control, read_packet

CONTROLLER = "controller"


class End(StrEnum):
    """What becomes of something that was put. A packet that a take keeps has several ends."""

    TAKEN = "taken"
    IGNORED = "ignored"
    LOST = "lost"
    CUT = "cut"
    WAITING = "waiting"


@dataclass(frozen=True)
class Put:
    """A packet, or a control message where there is no link, from the node that put it to the node that it is for."""

    record: int
    line: int
    link: int | None
    item: Packet | Control
    words: list[str]
    tail: str
    head: str

    @property
    def kind(self) -> str:
        return self.item.kind if isinstance(self.item, Packet) else "control"


@dataclass(frozen=True)
class Arrow:
    """One end of something that was put, with the record and its line that made it, where one did."""

    put: Put
    end: End
    record: int | None = None
    line: int | None = None


@dataclass(frozen=True)
class Run:
    topology: Topology
    records: list[Record]
    nodes: list[str | None]  # per record the node that acts
    arrows: list[Arrow]
    crashes: dict[str, int]  # per node that crashed the record in which it did
    cuts: dict[int, int]  # per link that is cut the record that first cut it

    @property
    def lost(self) -> dict[int, Put]:
        """What was lost, by the record that lost it."""
        return {arrow.record: arrow.put for arrow in self.arrows if arrow.end is End.LOST}

    @property
    def has_controller(self) -> bool:
        return CONTROLLER in self.nodes or any(CONTROLLER in (arrow.put.tail, arrow.put.head) for arrow in self.arrows)


class Follower:
    """What waits, who has crashed and which links are cut, after some records."""

    def __init__(self, topology: Topology) -> None:
        self.topology = topology
        self.names = set(topology.nodes())
        self.waiting: dict[int | None, deque[Put]] = defaultdict(deque)  # per link; control messages at None
        self.crashes: dict[str, int] = {}
        self.cuts: dict[int, int] = {}
        self.arrows: list[Arrow] = []

    def follow(self, record: Record) -> str | None:
        """Takes a record over, and tells which node acts in it."""
        node = self.act(record)
        for line in record.all("put"):
            self.put_packet(record, line)
        for line in record.all("control"):
            self.put_control(record, line, node)
        return node

    def act(self, record: Record) -> str | None:
        match record.event:
            case ["take", link, place, *keep]:
                self.take(record, int(link), int(place), bool(keep))
                return self.topology.links[int(link)].head
            case ["control", "take", place, *keep]:
                return self.take(record, None, int(place), bool(keep))
            case ["lose", link, place]:
                self.lose(record, int(link), int(place))
            case ["control", "lose", place]:
                self.lose(record, None, int(place))
            case ["cut", link]:
                self.cut_link(record, int(link))
            case ["crash", name] if record.outcome == ["ok"]:
                self.crashes.setdefault(name, record.number)
                return name
            case ["decide", *_]:
                return CONTROLLER
            case [_, name, *_] if name in self.names:
                return name
        return None

    def take(self, record: Record, link: int | None, place: int, keep: bool) -> str | None:
        """Only a record that says what it took has taken something. Tells for whom it is that waits there."""
        queue = self.waiting[link]
        found = queue[place] if place < len(queue) else None
        took = record.first("tookcontrol" if link is None else "took")
        if took is not None:
            if found is None or found.words != took.words:
                raise TraceFault(f"event {record.number} took what does not wait there")
            end = End.IGNORED if record.outcome == ["ignored"] else End.TAKEN
            self.arrows.append(Arrow(found, end, record.number, took.place))
            if not keep:
                del queue[place]
        return found.head if found else None

    def lose(self, record: Record, link: int | None, place: int) -> None:
        if record.outcome == ["ok"]:
            self.arrows.append(Arrow(self.waiting[link][place], End.LOST, record.number, 0))
            del self.waiting[link][place]

    def cut_link(self, record: Record, link: int) -> None:
        """A cut link loses what waits, and from now on all that is put."""
        self.cuts.setdefault(link, record.number)
        self.arrows += [Arrow(put, End.CUT, record.number, 0) for put in self.waiting.pop(link, [])]

    def put_packet(self, record: Record, line: Line) -> None:
        link = int(line.words[0])
        ends = self.topology.links[link]
        self.wait(Put(record.number, line.place, link, read_packet(line.words[1:]), line.words, ends.tail, ends.head))

    def put_control(self, record: Record, line: Line, node: str | None) -> None:
        control = read_control(line.words)
        self.wait(Put(record.number, line.place, None, control, line.words, node or CONTROLLER, control.to))

    def wait(self, put: Put) -> None:
        if put.link in self.cuts:
            self.arrows.append(Arrow(put, End.CUT))
        else:
            self.waiting[put.link].append(put)

    def rest(self) -> list[Arrow]:
        """What still waits at the end."""
        return [Arrow(put, End.WAITING) for queue in self.waiting.values() for put in queue]


def follow(topology: Topology, records: list[Record]) -> Run:
    follower = Follower(topology)
    nodes = [follower.follow(record) for record in records]
    return Run(topology, records, nodes, follower.arrows + follower.rest(), follower.crashes, follower.cuts)
