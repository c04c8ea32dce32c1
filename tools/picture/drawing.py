"""The drawing of a scene as SVG, part by part, so that a browser never has too much at once."""

from collections import defaultdict
from dataclasses import dataclass
from html import escape
from math import hypot

from .run import Arrow, End
from .scene import BESIDE, DOT, LETTER, LINE, Column, Row, Scene, Side, on_the_way
from .trace import Packet, Record, Scattering, read_control, read_packet

PART = 2000  # records in a part
NUMBER_ENDS = 44  # where the numbers of the records end in the column of events
GUTTER = 200
GUTTER_LETTERS = 20
STUB = 46  # how far something goes at most that is never taken
FALLS = (12, 18, 24, 30)  # and how far it falls, one after the other, so that those of one record stand apart
GAPS = {End.TAKEN: 5, End.IGNORED: 0}  # between a dot and the tip of an arrow
ACROSS = ("crash", "cut", "down", "decide")

Point = tuple[float, float]
Way = tuple[Point, Point]


@dataclass(frozen=True)
class Part:
    """The records from `first` to before `end`."""

    first: int
    end: int
    top: float
    height: float
    gutter: str
    diagram: str


def number(value: float) -> str:
    return f"{value:.1f}".removesuffix(".0")


def attribute(name: str, value: object) -> str:
    """`kind` stands for the attribute `class`, and an underscore in a name for a hyphen."""
    name = "class" if name == "kind" else name.replace("_", "-")
    shown = number(value) if isinstance(value, float) else escape(str(value))
    return f' {name}="{shown}"'


def element(name: str, content: str | None = None, **attributes: object) -> str:
    words = "".join(attribute(key, value) for key, value in attributes.items() if value is not None)
    return f"<{name}{words}/>" if content is None else f"<{name}{words}>{content}</{name}>"


def text(kind: str, x: float, y: float, words: str, **attributes: object) -> str:
    return element("text", escape(words), kind=kind, x=x, y=y, **attributes)


class Drawing:
    def __init__(self, scene: Scene) -> None:
        self.scene = scene
        self.run = scene.run
        self.hosts = set(self.run.topology.hosts)
        self.lost = self.run.lost
        self.arrows = scene.arrows
        self.drawn: dict[int, list[str]] = defaultdict(list)  # per part the paths of its arrows
        for place, arrow in enumerate(self.arrows):
            self.draw(place, arrow)

    def draw(self, place: int, arrow: Arrow) -> None:
        """An arrow is drawn once, in the part where it ends. A stub stands for it in the part where it begins, if that is
        another one."""
        window = self.scene.window
        begins, ends = arrow.put.record, arrow.put.record if arrow.record is None else arrow.record
        if ends in window:
            self.drawn[self.part_of(ends)].append(self.path(f"arrow-{place}", arrow, arrow.end, self.way(arrow)))
        if begins in window and (ends not in window or self.part_of(begins) != self.part_of(ends)):
            self.drawn[self.part_of(begins)].append(self.path(f"stub-{place}", arrow, "far", self.stub(arrow)))

    def part_of(self, record: int) -> int:
        return (record - self.scene.window.start) // PART

    def parts(self) -> list[Part]:
        window = self.scene.window
        return [self.part(first) for first in window[::PART]] or [self.part(window.start)]

    def part(self, first: int) -> Part:
        records = self.scene.window[first - self.scene.window.start :][:PART]
        rows = [self.scene.row(record) for record in records]
        top = rows[0].top if rows else 0
        bottom = rows[-1].top + rows[-1].height + FALLS[-1] if rows else FALLS[-1]
        layers = [
            "".join(self.row_band(record, self.scene.width) for record in records),
            "".join(self.line_across(record) for record in records),
            "".join(self.life_line(column, top, bottom) for column in self.scene.columns.values()),
            "".join(self.drawn[self.part_of(first)]),
            "".join(self.record(self.run.records[record]) for record in records),
        ]
        gutter = "".join(self.gutter_row(record) for record in records)
        return Part(first, first + len(records), top, bottom - top, gutter, "".join(layers))

    def header(self) -> str:
        """The names of the nodes, a half's below that of its switch."""
        return "".join(self.name(column) for column in self.scene.columns.values())

    def name(self, column: Column) -> str:
        upper, _, lower = column.node.partition(".")
        if lower:
            words = text("switch", column.x, 17, upper) + text("side", column.x, 33, lower)
        else:
            words = text("only", column.x, 25, upper)
        return element("g", words, kind=f"name {column.kind}", data_node=column.node)

    def row_band(self, record: int, width: float) -> str:
        """What is clicked, and coloured when the record is chosen."""
        row = self.scene.row(record)
        return element("rect", kind="row", data_record=record, x=0, y=row.top, width=width, height=row.height)

    def gutter_row(self, record: int) -> str:
        event = " ".join(self.run.records[record].event)
        shown = event if len(event) <= GUTTER_LETTERS else f"{event[:GUTTER_LETTERS - 1]}…"
        y = self.scene.row(record).top + DOT + 4
        words = text("number", NUMBER_ENDS, y, str(record)) + text("event", NUMBER_ENDS + 10, y, shown)
        return self.row_band(record, GUTTER) + words

    def line_across(self, record: int) -> str:
        row = self.scene.row(record)
        kind = next((mark.kind for mark in row.marks if mark.kind in ACROSS), None)
        if kind is None:
            return ""
        return element("line", kind=f"across {kind}", x1=0, x2=self.scene.width, y1=row.dot, y2=row.dot)

    def life_line(self, column: Column, top: float, bottom: float) -> str:
        """The line of a node, broken from where it crashed."""
        crashed = self.run.crashes.get(column.node)
        crash = bottom if crashed is None else min(max(self.scene.dot(crashed), top), bottom)
        whole = element("line", kind=f"life {column.kind}", x1=column.x, x2=column.x, y1=top, y2=crash)
        if crash == bottom:
            return whole
        return whole + element("line", kind=f"life {column.kind} crashed", x1=column.x, x2=column.x, y1=crash, y2=bottom)

    def path(self, name: str, arrow: Arrow, end: str, way: Way) -> str:
        item = arrow.put.item
        scattering = item.scattering if isinstance(item, Packet) else None
        hosts = {arrow.put.tail, arrow.put.head} & self.hosts | (item.hosts if isinstance(item, Packet) else set())
        (x1, y1), (x2, y2) = way
        return element(
            "path",
            id=name,
            kind=f"arrow {arrow.put.kind} {end}",
            data_hosts=" ".join(sorted(hosts)) or None,
            data_scatterings=scattering.token if scattering else None,
            d=f"M{number(x1)} {number(y1)}L{number(x2)} {number(y2)}",
        )

    def start(self, arrow: Arrow) -> Point:
        return self.scene.columns[arrow.put.tail].x, self.scene.dot(arrow.put.record)

    def way(self, arrow: Arrow) -> Way:
        """From the record that put it to the one that took it; what was lost ends between the two nodes, and what nobody
        took or lost soon after it began."""
        if arrow.record is None:
            return self.stub(arrow)
        start, down = self.start(arrow), self.scene.dot(arrow.record)
        if arrow.end in GAPS:
            return start, shortened(start, (self.scene.columns[arrow.put.head].x, down), GAPS[arrow.end])
        return start, (on_the_way(self.scene.columns, arrow.put.tail, arrow.put.head).x, down)

    def stub(self, arrow: Arrow) -> Way:
        """A short way in the direction of the node that it is for."""
        x, y = self.start(arrow)
        step = max(-STUB, min(STUB, 0.5 * (self.scene.columns[arrow.put.head].x - x)))
        return (x, y), (x + step, y + FALLS[arrow.put.line % len(FALLS)])

    def record(self, record: Record) -> str:
        """The dot of the node that acts, the marks and the figures."""
        node = self.run.nodes[record.number]
        row = self.scene.row(record.number)
        dot = self.dot(record, row) if node in self.scene.columns else ""
        hosts, scatterings = self.belongings(record, node)
        return element(
            "g",
            dot + marks(row) + figures(row),
            kind="record",
            id=f"record-{record.number}",
            data_x=row.place.x,
            data_hosts=" ".join(sorted(hosts)) or None,
            data_scatterings=" ".join(sorted(scatterings)) or None,
        )

    @staticmethod
    def dot(record: Record, row: Row) -> str:
        outcome = record.outcome[0]
        kind = {"ok": record.event[0], "ignored": "ignored"}.get(outcome, "idle")
        return element("circle", kind=f"dot {kind}", cx=row.place.x, cy=row.dot, r=4)

    def hosts_at(self, link: str) -> set[str]:
        """The hosts at the ends of a link."""
        return set(self.run.topology.ends(int(link))) & self.hosts

    def belongings(self, record: Record, node: str | None) -> tuple[set[str], set[str]]:
        """The hosts and the scatterings that the record is about: those that its lines name, and the hosts at the ends of
        the links that they name."""
        moved = record.all("took") + record.all("put")
        lost = self.lost.get(record.number)
        items = [read_packet(line.words[1:]) for line in moved] + ([lost.item] if lost is not None else [])
        packets = [item for item in items if isinstance(item, Packet)]
        told = [item for item in items if not isinstance(item, Packet)]
        told += [read_control(line.words) for line in record.all("tookcontrol") + record.all("control")]
        links = [line.words[0] for line in moved + record.all("down") + record.all("dropped")]
        links += [link for message in told for link in message.links]
        stamps = [Scattering(int(line.words[0]), node) for line in record.all("stamp") if node]
        logged = [Scattering(int(line.words[1]), line.words[2]) for line in record.all("logged")]
        scatterings = stamps + logged + [packet.scattering for packet in packets if packet.scattering]
        hosts = {node} & self.hosts | {scattering.sender for scattering in scatterings}
        hosts |= {line.words[0] for line in record.all("noted")}
        hosts |= {name for message in told for name in message.nodes} & self.hosts
        hosts = hosts.union(*(packet.hosts for packet in packets), *map(self.hosts_at, links))
        return hosts, {scattering.token for scattering in scatterings}


def beside(row: Row, side: Side) -> tuple[float, str]:
    """Where text begins on this side of the place of a row, and which of its ends that is."""
    return row.place.x + side.value * BESIDE, "end" if side is Side.LEFT else "start"


def marks(row: Row) -> str:
    x, anchor = beside(row, row.place.side)
    lines = ((row.dot + 4 + LINE * place, mark) for place, mark in enumerate(row.marks))
    return "".join(text(f"mark {mark.kind}", x, y, mark.shown, text_anchor=anchor) for y, mark in lines)


def figures(row: Row) -> str:
    side = row.place.side.other
    drawn = []
    for place, figure in enumerate(row.figures):
        width = len(figure.shown) * LETTER + 8
        middle = row.place.x + side.value * (BESIDE + width / 2)
        top = row.dot - 8 + LINE * place
        box = element("rect", kind="box", x=middle - width / 2, y=top, width=width, height=15, rx=4)
        drawn.append(box + text(f"figure {figure.kind}", middle, top + 12, figure.shown))
    return "".join(drawn)


def shortened(start: Point, stop: Point, gap: float) -> Point:
    """A point so far before the stop."""
    across, down = stop[0] - start[0], stop[1] - start[1]
    rest = 1 - gap / max(hypot(across, down), gap, 1)
    return start[0] + rest * across, start[1] + rest * down
