"""The page: the drawing, what its script needs to know of the run, and script and style written into it."""

import json
from dataclasses import dataclass
from html import escape
from pathlib import Path
from string import Template

from .drawing import GUTTER, Drawing, Part, element, number
from .run import Arrow
from .scene import Scene

HERE = Path(__file__).parent
PANEL = 340  # the width of the record's lines beside the drawing
SCROLL_BAR = 20


@dataclass(frozen=True)
class Count:
    """A number of things in words."""

    number: int
    thing: str

    def __str__(self) -> str:
        return f"{self.number} {self.thing}{'' if self.number == 1 else 's'}"


def asset(name: str) -> str:
    return (HERE / name).read_text(encoding="utf-8")


def as_script(value: object) -> str:
    """JSON that means the same in HTML and in XML."""
    text = json.dumps(value, separators=(",", ":"), ensure_ascii=True)
    return text.replace("&", "\\u0026").replace("<", "\\u003c").replace(">", "\\u003e")


def end_of(arrow: Arrow) -> list[object]:
    """Record and line that put it, record and line of its end, and the end."""
    return [arrow.put.record, arrow.put.line, arrow.record, arrow.line, str(arrow.end)]


def facts(drawing: Drawing, parts: list[Part]) -> dict[str, object]:
    return {
        "first": drawing.scene.window.start,
        "records": ["\n".join(record.text) for record in drawing.scene.records],
        "arrows": [end_of(arrow) for arrow in drawing.arrows],
        "parts": [[part.first, part.end, part.top, part.height] for part in parts],
    }


def option(value: str, shown: str) -> str:
    return element("option", escape(shown), value=value)


def later_part(place: int, part: Part) -> str:
    """The drawing of a part that is not shown yet, as text."""
    return f'<script type="image/svg+xml" id="part-{place}"><g>{part.gutter}</g><g>{part.diagram}</g></script>\n'


def counts(scene: Scene) -> str:
    """How much there is, and which of it the page has."""
    records, hosts = Count(len(scene.run.records), "record"), Count(len(scene.run.topology.hosts), "host")
    window = scene.window
    here = "" if len(window) == records.number else f", of which {window.start} to {window.stop - 1} are here"
    return f"{records}{here}, {hosts}"


def style(scene: Scene) -> str:
    beside = number(GUTTER + scene.width + PANEL + SCROLL_BAR)
    return asset("drawing.css") + "\n" + Template(asset("page.css")).substitute(beside=beside)


def page(title: str, scene: Scene) -> str:
    drawing = Drawing(scene)
    parts = drawing.parts()
    return Template(asset("page.html")).substitute(
        title=escape(title),
        counts=counts(scene),
        style=style(scene),
        script=asset("page.js"),
        first=scene.window.start,
        last=max(scene.window.stop - 1, scene.window.start),
        hosts="".join(option(host, host) for host in scene.run.topology.hosts),
        scatterings="".join(option(scattering.token, str(scattering)) for scattering in scene.scatterings),
        names=drawing.header(),
        gutter_width=GUTTER,
        width=number(scene.width),
        top=number(parts[0].top),
        height=number(parts[0].height),
        gutter=parts[0].gutter,
        diagram=parts[0].diagram,
        later="".join(later_part(place, part) for place, part in enumerate(parts) if place > 0),
        defs=asset("defs.svg"),
        facts=as_script(facts(drawing, parts)),
    )
