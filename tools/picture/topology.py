"""The topology part of an input: which nodes there are, and where each link begins and ends."""

import tomllib
from dataclasses import dataclass

MARK = b"---"


@dataclass(frozen=True)
class Switch:
    name: str
    level: int

    @property
    def up(self) -> str:
        return f"{self.name}.up"

    @property
    def down(self) -> str:
        return f"{self.name}.down"


@dataclass(frozen=True)
class Link:
    """A link by the names of the nodes at its ends."""

    tail: str
    head: str


@dataclass(frozen=True)
class Topology:
    hosts: list[str]
    switches: list[Switch]
    cables: list[tuple[str, str]]  # the lower end first
    links: list[Link]

    def ends(self, link: int) -> tuple[str, ...]:
        """The two nodes that a link joins; none where there is no such link."""
        return (self.links[link].tail, self.links[link].head) if link < len(self.links) else ()

    def nodes(self) -> list[str]:
        return self.hosts + [half for switch in self.switches for half in (switch.up, switch.down)]


def build(hosts: list[str], switches: list[Switch], cables: list[tuple[str, str]]) -> Topology:
    """Cable by cable the link upward and the link downward, then the loop of each switch."""
    level = dict.fromkeys(hosts, 0) | {switch.name: switch.level for switch in switches}
    up = {host: host for host in hosts} | {switch.name: switch.up for switch in switches}
    down = {host: host for host in hosts} | {switch.name: switch.down for switch in switches}
    risen = [(a, b) if level[a] < level[b] else (b, a) for a, b in cables]
    links = []
    for lower, upper in risen:
        links += [Link(up[lower], up[upper]), Link(down[upper], down[lower])]
    links += [Link(switch.up, switch.down) for switch in switches]
    return Topology(hosts, switches, risen, links)


def star(count: int) -> Topology:
    hosts = [f"h{number}" for number in range(count)]
    return build(hosts, [Switch("s0", 1)], [(host, "s0") for host in hosts])


def from_plan(text: str) -> Topology:
    plan = tomllib.loads(text)
    switches = [Switch(name, int(level)) for name, level in map(str.split, plan["switches"])]
    cables = [(one, other) for one, other in map(str.split, plan["cables"])]
    return build(plan["hosts"], switches, cables)


def read_topology(data: bytes) -> Topology:
    """The topology of an input that the program has accepted."""
    lines = [line.removesuffix(b"\r") for line in data.split(b"\n")]
    first = lines[0].split()
    if first and first[0] == b"star":
        return star(int(first[1]))
    plan = b"\n".join(lines[: lines.index(MARK)])
    return from_plan(plan.decode())
