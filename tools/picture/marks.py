"""What stands beside a record's dot, in the words of its trace lines: marks, and figures of barriers."""

from dataclasses import dataclass

from .run import Put, Run
from .trace import Control, Packet, Record, read_control, read_packet

LONGEST_BODY = 12
SIGNS = {
    "logged": "✓",
    "held": "◐",
    "repeat": "↻",
    "late": "✗",
    "discarded": "⊘",
    "recalled": "↶",
    "down": "▼",
    "crash": "✗",
    "cut": "✗",
}


@dataclass(frozen=True)
class Mark:
    """A line of text beside a dot. Its kind says how it looks."""

    kind: str
    text: str

    @property
    def shown(self) -> str:
        return f"{SIGNS[self.kind]} {self.text}" if self.kind in SIGNS else self.text


def short(body: str | None) -> str:
    if body is None or len(body) <= LONGEST_BODY:
        return body or ""
    return f"{body[:LONGEST_BODY]}…"


def barriers(pair: tuple[int, int]) -> str:
    return f"{pair[0]}|{pair[1]}"


def message(packet: Packet) -> str:
    """Timestamp, sender and body."""
    return f"{packet.scattering} {short(packet.body)}".rstrip()


def named(packet: Packet) -> str:
    """The same with the way that it goes, and its kind unless it is a plain message."""
    kind = "" if packet.kind == "plain" else f"{packet.kind} "
    way = f"{packet.timestamp} {packet.source}→{packet.receiver}"
    return f"{kind}{way} {short(packet.body)}".rstrip()


def about(item: Packet | Control) -> str:
    """A packet or a control message in a few words."""
    if isinstance(item, Control):
        return " ".join(item.words)
    if item.kind == "beacon":
        return f"beacon {barriers(item.barriers)}"
    return named(item)


def taken_marks(record: Record) -> list[Mark]:
    """What was taken: of a message that has a fate the fate, and where the record logs something the barriers it told."""
    control = record.first("tookcontrol")
    if control is not None:
        return [Mark("told", about(read_control(control.words)))]
    took = record.first("took")
    if took is None:
        return []
    packet = read_packet(took.words[1:])
    fate = record.first("fate")
    if record.outcome == ["ignored"]:
        return [Mark("ignored", f"ignored {about(packet)}")]
    if packet.kind == "beacon":
        return [Mark("heard", f"hears {barriers(packet.barriers)}")]
    marks = [fate_mark(fate.words, packet) if fate else Mark("told", named(packet))]
    if record.first("logged"):
        marks.append(Mark("heard", f"hears {barriers(packet.barriers)}"))
    return marks


def fate_mark(words: list[str], packet: Packet) -> Mark:
    fate, *number = words
    told = {"late": ", barrier ", "discarded": ", failed at "}.get(fate, " ")
    return Mark(fate, f"{fate} {message(packet)}" + "".join(f"{told}{word}" for word in number))


def logged_mark(words: list[str]) -> Mark:
    service, timestamp, sender, body = words
    return Mark("logged", f"logged {service} {timestamp} {sender} {short(body)}")


def down_mark(words: list[str], run: Run) -> Mark:
    link, commit = words
    return Mark("down", f"link {link} {ends(run, link)} down, commit {commit}")


def ends(run: Run, link: str) -> str:
    """The nodes at the ends of a link."""
    return "→".join(run.topology.ends(int(link)))


def event_marks(record: Record, run: Run) -> list[Mark]:
    """The events that are marks of their own, and those that did not happen."""
    if record.outcome[0] not in ("ok", "ignored"):
        return [Mark("idle", " ".join(record.outcome))]
    match record.event:
        case ["crash", node]:
            return [Mark("crash", f"{node} crashes")]
        case ["cut", link] if run.cuts.get(int(link)) == record.number:
            return [Mark("cut", f"link {link} {ends(run, link)} is cut")]
        case ["cut", link]:
            return [Mark("idle", f"link {link} was cut before")]
        case ["decide", *_]:
            return [Mark("decide", "decision")]
    return []


def noted_mark(words: list[str], record: Record) -> Mark:
    """A decision announces the host, and a host notes it."""
    verb = "announced" if record.event[0] == "decide" else "noted"
    return Mark("noted", f"{verb} {words[0]} from {words[1]}")


def marks_of(record: Record, run: Run, lost: Put | None) -> list[Mark]:
    """All marks of a record, in the order of its lines."""
    marks = event_marks(record, run)
    if lost is not None:
        marks.append(Mark("lost", f"lost {about(lost.item)}"))
    marks += [Mark("stamp", f"stamp {line.words[0]}") for line in record.all("stamp")]
    marks += taken_marks(record)
    marks += [down_mark(line.words, run) for line in record.all("down")]
    marks += [noted_mark(line.words, record) for line in record.all("noted")]
    marks += [Mark("dropped", f"dropped {line.words[0]} {ends(run, line.words[0])}") for line in record.all("dropped")]
    marks += [logged_mark(line.words) for line in record.all("logged")]
    marks += [Mark("unrouted", f"{line.words[0]} without a way") for line in record.all("unrouted")]
    return marks


class Figures:
    """What each node promised last, and above which timestamps a host's barriers must be, as far as the trace says so."""

    def __init__(self) -> None:
        self.promised: dict[str, tuple[int, int]] = {}

    def rise(self, record: Record, node: str | None) -> list[Mark]:
        """The figures that rise in this record."""
        figures = [Mark("passed", f"{service} above {timestamp}") for service, timestamp in self.passed(record)]
        put = record.first("put")
        if node is not None and put is not None:
            promise = read_packet(put.words[1:]).barriers
            best, commit = self.promised.get(node, (0, 0))
            if promise[0] > best or promise[1] > commit:
                self.promised[node] = promise
                figures.insert(0, Mark("promised", barriers(promise)))
        return figures

    @staticmethod
    def passed(record: Record) -> list[tuple[str, str]]:
        """Per service the last timestamp that was logged: what is logged lies below the barrier."""
        last = {line.words[0]: line.words[1] for line in record.all("logged")}
        return list(last.items())
