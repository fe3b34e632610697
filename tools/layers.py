"""Draws a graph as an SVG: layers by depth from left to right or downwards, each node in the shape of its kind, edges as smooth
lines.

An edge that goes over layers has a place in each of them, so it goes between the nodes there and not through them.
"""

import typing
from xml.sax.saxutils import escape

GAP, STEP, HALF, LETTER, MARGIN = 70, 58, 20, 7, 16
# Between places of a row, and between rows.
BESIDE, BELOW = 18, 34
# How long the tip of an edge is.
TIP = 7
SWEEPS = 24
STYLE = (
    "text{font:12px monospace;text-anchor:middle;fill:#1a1a1a}.small{font-size:10px;fill:#555}"
    ".node{fill:#f4f6fa;stroke:#3a4a63;stroke-width:1.3}.edge{fill:none;stroke:#3a4a63;stroke-width:1.1}"
    ".dashed{stroke-dasharray:5 4}"
)


class Node(typing.NamedTuple):
    """A node: its name, its shape (box, ellipse, double or hexagon), and lines of text, the first of them the name."""

    name: str
    shape: str
    lines: typing.List[str]


class Edge(typing.NamedTuple):
    start: str
    end: str
    dashed: bool


def depths(nodes, edges):
    """For each node the length of the longest way to it. Nodes stand behind those that lead to them."""
    before = {node.name: [] for node in nodes}
    for edge in edges:
        before[edge.end].append(edge.start)
    found = {}
    for node in nodes:
        found[node.name] = 1 + max((found[name] for name in before[node.name]), default=-1)
    return found


def layered(nodes, edges):
    """The layers, each a list of places, and each edge's way through them. A place is a name, or an edge and its layer."""
    depth = depths(nodes, edges)
    layers = [[] for _ in range(1 + max(depth.values(), default=0))]
    for node in nodes:
        layers[depth[node.name]].append(node.name)
    ways = []
    for edge in edges:
        between = [(edge, layer) for layer in range(depth[edge.start] + 1, depth[edge.end])]
        for place in between:
            layers[place[1]].append(place)
        ways.append([edge.start, *between, edge.end])
    return layers, ways


def sort_layers(layers, ways):
    """Puts each place near the middle of the places that it is joined to, there and back a number of times."""
    joined = {}
    for way in ways:
        for start, end in zip(way, way[1:]):
            joined.setdefault((start, 1), []).append(end)
            joined.setdefault((end, -1), []).append(start)
    for sweep in range(SWEEPS):
        side = 1 if sweep % 2 else -1
        height = {place: n - len(layer) / 2 for layer in layers for n, place in enumerate(layer)}
        for layer in layers:
            middle = {}
            for place in layer:
                others = joined.get((place, side), [])
                middle[place] = sum(height[other] for other in others) / len(others) if others else height[place]
            layer.sort(key=middle.get)
            height.update({place: n - len(layer) / 2 for n, place in enumerate(layer)})


def width(node):
    return max(len(line) for line in node.lines) * LETTER + (40 if node.shape == "hexagon" else 26)


def halves(layers, nodes):
    """Half of the width of each place: none where an edge only passes."""
    known = {node.name: node for node in nodes}
    return {place: width(known[place]) // 2 if place in known else 0 for layer in layers for place in layer}


def places_rightwards(layers, half):
    """Where each place is, and how wide and high the picture is: a layer is a column."""
    tallest = max((len(layer) for layer in layers), default=1)
    found, left = {}, MARGIN
    for layer in layers:
        wide = 2 * max((half[place] for place in layer), default=0)
        top = MARGIN + HALF + (tallest - len(layer)) * STEP // 2
        for n, place in enumerate(layer):
            found[place] = (left + wide // 2, top + n * STEP, half[place])
        left += wide + GAP
    return found, left - GAP + MARGIN, 2 * MARGIN + 2 * HALF + (tallest - 1) * STEP


def places_downwards(layers, half):
    """The same, where a layer is a row."""
    wide = [sum(2 * half[place] + BESIDE for place in layer) - BESIDE for layer in layers]
    widest, found = max(wide, default=0), {}
    for row, layer in enumerate(layers):
        left = MARGIN + (widest - wide[row]) // 2
        for place in layer:
            found[place] = (left + half[place], MARGIN + HALF + row * (2 * HALF + BELOW), half[place])
            left += 2 * half[place] + BESIDE
    return found, widest + 2 * MARGIN, 2 * MARGIN + len(layers) * (2 * HALF + BELOW) - BELOW


def outline(shape, x, y, half):
    if shape == "box":
        return f'<rect class="node" x="{x - half}" y="{y - HALF}" width="{2 * half}" height="{2 * HALF}"/>'
    if shape == "hexagon":
        corners = [(-half, 0), (14 - half, -HALF), (half - 14, -HALF), (half, 0), (half - 14, HALF), (14 - half, HALF)]
        points = " ".join(f"{x + dx},{y + dy}" for dx, dy in corners)
        return f'<polygon class="node" points="{points}"/>'
    outer = f'<ellipse class="node" cx="{x}" cy="{y}" rx="{half}" ry="{HALF}"/>'
    inner = f'<ellipse class="node" cx="{x}" cy="{y}" rx="{half - 3}" ry="{HALF - 3}"/>'
    return outer + inner if shape == "double" else outer


def drawn_node(node, x, y, half):
    first = y + 4 if len(node.lines) == 1 else y - 1
    text = f'<text x="{x}" y="{first}">{escape(node.lines[0])}</text>'
    small = [f'<text class="small" x="{x}" y="{y + 10}">{escape(line)}</text>' for line in node.lines[1:]]
    return outline(node.shape, x, y, half) + text + "".join(small)


def drawn_edge(way, where, dashed, down):
    """An edge from side to side, or from below to above."""

    def point(along, across):
        return f"{across},{along}" if down else f"{along},{across}"

    def on(place):
        """Where a place is along the edge and across it, and how far it reaches along the edge: a row is as high everywhere."""
        x, y, half = where[place]
        return (y, x, HALF) if down else (x, y, half)

    along, across, reach = on(way[0])
    along += reach
    path = f"M{point(along, across)}"
    for n, place in enumerate(way[1:], 2):
        to, over, reach = on(place)
        end = to - (reach + TIP if n == len(way) else reach)
        bend = (end - along) // 2
        path += f"C{point(along + bend, across)} {point(end - bend, over)} {point(end, over)}"
        if reach and n < len(way):
            path += f"L{point(to + reach, over)}"
        along, across = to + reach, over
    style = "edge dashed" if dashed else "edge"
    return f'<path class="{style}" d="{path}" marker-end="url(#tip)"/>'


def svg(nodes, edges, title, down=False):
    """The text of the picture. Nodes stand behind those that lead to them."""
    layers, ways = layered(nodes, edges)
    sort_layers(layers, ways)
    where, wide, high = (places_downwards if down else places_rightwards)(layers, halves(layers, nodes))
    tip = '<marker id="tip" viewBox="0 0 8 8" refX="1" refY="4" markerWidth="8" markerHeight="8" orient="auto">'
    lines = [
        f'<svg xmlns="http://www.w3.org/2000/svg" width="{wide}" height="{high}" viewBox="0 0 {wide} {high}">',
        f"<title>{escape(title)}</title>",
        f'<defs><style>{STYLE}</style>{tip}<path d="M0,0L8,4L0,8z" fill="#3a4a63"/></marker></defs>',
        f'<rect width="{wide}" height="{high}" fill="#ffffff"/>',
        *[drawn_edge(way, where, edge.dashed, down) for edge, way in zip(edges, ways)],
        *[drawn_node(node, *where[node.name]) for node in nodes],
        "</svg>",
    ]
    return "\n".join(lines) + "\n"
