"""Where everything stands: a column per node, a row per record of a window, and beside each dot its marks and figures.

Hosts stand at the outside, the halves of switches between them near the hosts below, the controller at the right end."""

from collections.abc import Iterable
from dataclasses import dataclass, replace
from enum import Enum
from statistics import mean

from .marks import Figures, Mark, marks_of
from .run import CONTROLLER, Arrow, Put, Run
from .topology import Switch, Topology
from .trace import Record, Scattering

LETTER = 7.3  # the width of a letter beside a dot
HEADER_LETTER = 8.2
LINE = 16  # the height of a line beside a dot
ROW = 26  # the height of a row with one line
DOT = 13  # how far below the top of its row a dot stands
WIDE = 120  # the space between columns where there are few
NARROW = 42
ROOM = 720  # what all columns together take where they can
BESIDE = 12  # the space between a dot and its marks
BEYOND = 2 * ROW  # how far beyond an edge of the window something stands that is not in it
LEAST_MARGIN = 40
LOSS = 0.6  # how far along its way something is lost


class Side(Enum):
    """On which side of its line a node has its marks. The figures stand on the other one."""

    LEFT = -1
    RIGHT = 1

    @property
    def other(self) -> "Side":
        return Side(-self.value)


@dataclass(frozen=True)
class Place:
    """A point on a row, and the side on which its marks stand."""

    x: float
    side: Side

    def moved(self, by: float) -> "Place":
        return Place(self.x + by, self.side)


@dataclass(frozen=True)
class Column:
    node: str
    kind: str  # host, half or controller
    place: Place

    @property
    def x(self) -> float:
        return self.place.x


@dataclass(frozen=True)
class Row:
    top: float
    height: float
    place: Place
    marks: list[Mark]
    figures: list[Mark]

    @property
    def dot(self) -> float:
        return self.top + DOT

    def texts(self) -> Iterable[tuple[Side, Mark]]:
        """All that stands beside the place, with its side."""
        yield from ((self.place.side, mark) for mark in self.marks)
        yield from ((self.place.side.other, figure) for figure in self.figures)


@dataclass(frozen=True)
class Scene:
    """The records of the window alone have rows; what came before or comes later stands beyond its edges."""

    run: Run
    window: range
    columns: dict[str, Column]
    rows: list[Row]
    width: float

    @property
    def records(self) -> list[Record]:
        return self.run.records[self.window.start : self.window.stop]

    @property
    def scatterings(self) -> list[Scattering]:
        """All that were stamped in the window, in the order of the run."""
        stamps = [(self.run.nodes[record.number], line) for record in self.records for line in record.all("stamp")]
        return list(dict.fromkeys(Scattering(int(line.words[0]), node) for node, line in stamps if node))

    @property
    def arrows(self) -> list[Arrow]:
        """Those that begin or end in the window."""
        return [arrow for arrow in self.run.arrows if arrow.put.record in self.window or arrow.record in self.window]

    def row(self, number: int) -> Row:
        return self.rows[number - self.window.start]

    def dot(self, number: int) -> float:
        """How far down the dot of a record stands, or would."""
        if number < self.window.start:
            return -BEYOND
        if number >= self.window.stop:
            return (self.rows[-1].top + self.rows[-1].height if self.rows else 0) + BEYOND
        return self.row(number).dot


def hosts_below(topology: Topology) -> dict[str, set[int]]:
    """Per switch the numbers of the hosts that it reaches downward."""
    below = {host: {number} for number, host in enumerate(topology.hosts)}
    for switch in sorted(topology.switches, key=lambda switch: switch.level):
        lower = [end for end, upper in topology.cables if upper == switch.name]
        below[switch.name] = set().union(*(below[end] for end in lower))
    return below


def ordered_switches(topology: Topology) -> list[Switch]:
    """From left to right: each near its hosts, and the higher the nearer to the middle."""
    middle = (len(topology.hosts) - 1) / 2
    centre = {name: mean(hosts) for name, hosts in hosts_below(topology).items()}
    left = [switch for switch in topology.switches if centre[switch.name] <= middle]
    right = [switch for switch in topology.switches if centre[switch.name] > middle]
    left.sort(key=lambda switch: (switch.level, centre[switch.name]))
    right.sort(key=lambda switch: (-switch.level, centre[switch.name]))
    return left + right


def ordered_nodes(run: Run) -> list[tuple[str, str, Side]]:
    """The nodes from left to right, with their kinds and the sides of their marks."""
    hosts = run.topology.hosts
    half = len(hosts) - len(hosts) // 2
    switches = ordered_switches(run.topology)
    nodes = [(host, "host", Side.LEFT) for host in hosts[:half]]
    nodes += [(node, "half", Side.RIGHT) for switch in switches for node in (switch.up, switch.down)]
    nodes += [(host, "host", Side.RIGHT) for host in hosts[half:]]
    if run.has_controller:
        nodes.append((CONTROLLER, "controller", Side.RIGHT))
    return nodes


def columns_of(run: Run) -> dict[str, Column]:
    """The columns, the first one at 0."""
    nodes = ordered_nodes(run)
    longest = max(len(part) for node, _, _ in nodes for part in node.split("."))
    space = max(NARROW, longest * HEADER_LETTER + 8, min(WIDE, ROOM / max(len(nodes) - 1, 1)))
    return {node: Column(node, kind, Place(number * space, side)) for number, (node, kind, side) in enumerate(nodes)}


def on_the_way(columns: dict[str, Column], tail: str, head: str) -> Place:
    """Where something ends that is lost between two nodes."""
    return Place(columns[tail].x + LOSS * (columns[head].x - columns[tail].x), Side.RIGHT)


def place_of(record: Record, run: Run, columns: dict[str, Column], lost: Put | None) -> Place:
    """The node that acts, or where something was lost or cut."""
    node = run.nodes[record.number]
    if node in columns:
        return columns[node].place
    if lost is not None:
        return on_the_way(columns, lost.tail, lost.head)
    if record.event[0] == "cut":
        link = run.topology.links[int(record.event[1])]
        return on_the_way(columns, link.tail, link.head)
    return Place(mean(column.x for column in columns.values()), Side.RIGHT)


def rows_of(run: Run, window: range, columns: dict[str, Column]) -> list[Row]:
    """The figures go by all records from the first on, so that they tell what rises in the window."""
    rows: list[Row] = []
    figures, lost, top = Figures(), run.lost, 0.0
    for record, node in zip(run.records[: window.stop], run.nodes):
        risen = figures.rise(record, node)
        if record.number < window.start:
            continue
        gone = lost.get(record.number)
        marks = marks_of(record, run, gone)
        height = ROW + LINE * max(len(marks) - 1, len(risen) - 1, 0)
        rows.append(Row(top, height, place_of(record, run, columns, gone), marks, risen))
        top += height
    return rows


def reach(mark: Mark) -> float:
    """How far a mark reaches from its place."""
    return BESIDE + len(mark.shown) * LETTER + 8


def margins(rows: list[Row], last: float) -> tuple[float, float]:
    """The room that the texts need to the left of 0 and to the right of the last column."""
    texts = [(row.place.x, side, reach(mark)) for row in rows for side, mark in row.texts()]
    left = max((reach - x for x, side, reach in texts if side is Side.LEFT), default=0)
    right = max((x + reach - last for x, side, reach in texts if side is Side.RIGHT), default=0)
    return max(left, LEAST_MARGIN), max(right, LEAST_MARGIN)


def scene_of(run: Run, window: range) -> Scene:
    columns = columns_of(run)
    rows = rows_of(run, window, columns)
    last = max(column.x for column in columns.values())
    left, right = margins(rows, last)
    moved = {node: replace(column, place=column.place.moved(left)) for node, column in columns.items()}
    return Scene(run, window, moved, [replace(row, place=row.place.moved(left)) for row in rows], left + last + right)
