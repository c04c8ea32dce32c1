"""The text of a trace, record by record. The lines stay words, as the program printed them."""

from dataclasses import dataclass

ANSWERS = ("ack", "recallack")


class TraceFault(Exception):
    """What the program wrote is no trace of this input."""



@dataclass(frozen=True)
class Scattering:
    """The messages of one send: its timestamp and its sender."""

    timestamp: int
    sender: str

    def __str__(self) -> str:
        return f"{self.timestamp} {self.sender}"

    @property
    def token(self) -> str:
        """The same as one word, for attributes of the page."""
        return f"{self.timestamp}.{self.sender}"


@dataclass(frozen=True)
class Packet:
    kind: str
    barriers: tuple[int, int]  # best effort, commit
    source: str | None = None
    receiver: str | None = None
    timestamp: int | None = None
    body: str | None = None

    @property
    def scattering(self) -> Scattering | None:
        """What it belongs to; an answer goes back to the sender of what it answers."""
        if self.source is None:
            return None
        return Scattering(self.timestamp, self.receiver if self.kind in ANSWERS else self.source)

    @property
    def hosts(self) -> set[str]:
        return {host for host in (self.source, self.receiver) if host}


@dataclass(frozen=True)
class Control:
    """A control message: to a node or to the controller, and its words."""

    to: str
    words: list[str]

    @property
    def nodes(self) -> set[str]:
        """The nodes that it names."""
        match self.words:
            case ["notice", _, *entries]:
                return {self.to, *(entry.split(":")[0] for entry in entries)}
            case [("done" | "gone"), node, _]:
                return {self.to, node}
        return {self.to}

    @property
    def links(self) -> list[str]:
        match self.words:
            case ["down", link, _] | ["freeze", link]:
                return [link]
            case ["drop", _, *links]:
                return links
        return []


@dataclass(frozen=True)
class Line:
    """A line of a record after the first two: its place in the record, its first word, and the words behind it."""

    place: int
    verb: str
    words: list[str]


@dataclass(frozen=True)
class Record:
    number: int
    text: list[str]
    event: list[str]
    outcome: list[str]
    lines: list[Line]

    def all(self, verb: str) -> list[Line]:
        return [line for line in self.lines if line.verb == verb]

    def first(self, verb: str) -> Line | None:
        return next(iter(self.all(verb)), None)


def read_packet(words: list[str]) -> Packet:
    """`beacon BE COMMIT`, or `KIND SRC DST TS BE COMMIT`, and of messages the body behind it."""
    kind, *rest = words
    if kind == "beacon":
        return Packet(kind, (int(rest[0]), int(rest[1])))
    source, receiver, timestamp, best, commit, *body = rest
    return Packet(kind, (int(best), int(commit)), source, receiver, int(timestamp), body[0] if body else None)


def read_control(words: list[str]) -> Control:
    """`to NODE WORD ..`."""
    return Control(words[1], words[2:])


def read_record(text: list[str]) -> Record:
    lines = [Line(place, verb, words) for place, (verb, *words) in enumerate(line.split(" ") for line in text)]
    event, outcome = lines[0], lines[1]
    return Record(int(event.words[0]), text, event.words[1:], outcome.words, lines[2:])


def read_trace(text: str) -> list[Record]:
    """All records between the line `trace N` and the line `end`."""
    lines = text.split("\n")
    if "end" not in lines:
        raise TraceFault("the program wrote no whole trace")
    lines = lines[1 : lines.index("end")]
    starts = [place for place, line in enumerate(lines) if line.startswith("event ")]
    return [read_record(lines[start:end]) for start, end in zip(starts, starts[1:] + [len(lines)])]
