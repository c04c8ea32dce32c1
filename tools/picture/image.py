"""The drawing alone, as an SVG image for a document: no script, light colours, nothing hidden."""

import re

from .drawing import GUTTER, Drawing, element
from .page import asset
from .scene import Scene

HEADER = 42  # the height of the names
COLOURS = re.compile(r"^  --(\w+): (#[0-9a-f]+);$", re.MULTILINE)
SVG = "http://www.w3.org/2000/svg"


def colours() -> dict[str, str]:
    """The light ones, which stand first."""
    light = asset("page.css").partition("}")[0]
    return dict(COLOURS.findall(light))


def style() -> str:
    """The style of the drawing, each colour written out, since not all that shows images knows names of colours."""
    known = colours()
    return re.sub(r"var\(--(\w+)\)", lambda name: known[name[1]], asset("drawing.css"))


def image(scene: Scene) -> str:
    """The header, below it the numbers of the records and the first part of the drawing."""
    drawing = Drawing(scene)
    part = drawing.parts()[0]
    width, height = GUTTER + scene.width, HEADER + part.height
    page = colours()["page"]
    content = [
        element("style", style()),
        asset("defs.svg"),
        element("rect", x=0, y=0, width=width, height=height, fill=page),
        element("g", drawing.header(), kind="names", transform=f"translate({GUTTER} 0)"),
        element("g", part.gutter, transform=f"translate(0 {HEADER})"),
        element("g", part.diagram, transform=f"translate({GUTTER} {HEADER})"),
    ]
    return element("svg", "\n".join(content), xmlns=SVG, width=width, height=height) + "\n"
