"""The ways of a chain's arrows: out of a row, along a lane in the gutter between columns, into another row."""
from dataclasses import dataclass, field

from .scene import COLUMN, PAD, arrange

LANE, PORT, EDGE = 24, 8, 20
BAND, ABOVE = 12, 18
APART, BADGE = 6, 12


@dataclass
class Route:
    """An arrow of a link: the gutters and sides it uses, and in the end its points and where its number stands."""
    number: int
    link: object
    source: object
    target: object
    out_gutter: int
    in_gutter: int
    out_right: bool
    in_left: bool
    band: int = 0
    lanes: dict = field(default_factory=dict)
    points: list = None
    badge: tuple = None

    def halo(self):
        """The part outside the boxes, which is set off from what it crosses."""
        (sx, sy), (ex, ey) = self.points[0], self.points[-1]
        out, back = PAD + 2 if self.out_right else -PAD - 2, -PAD - 2 if self.in_left else PAD + 2
        return [(sx + out, sy)] + self.points[1:-1] + [(ex + back, ey)]


def plan_routes(scene, chain):
    """A route for each link that goes from a descriptor to an object: within a column, to the next, or over the top."""
    routes = []
    for number, link in enumerate(chain, 1):
        if link.kind == "wired":
            continue
        source, target = scene.spots[link.descriptor], scene.spots[link.to]
        step = target.column - source.column
        near = source.line == target.line and step in (-1, 0, 1)
        if near and step == -1:
            routes.append(Route(number, link, source, target, source.column, source.column, False, False))
        elif near:
            routes.append(Route(number, link, source, target, source.column + 1, source.column + 1, True, step == 1))
        else:
            routes.append(Route(number, link, source, target, source.column + 1, target.column, True, True))
    count_ports(routes)
    return routes


def count_ports(routes):
    """Tells each row how many arrows it must have room for."""
    for ends in port_sides(routes).values():
        for spot, _, _ in ends:
            spot.arrows = max(spot.arrows, len(ends))


def far(route):
    """Whether the route goes over the top of its target's row of boxes."""
    return route.out_gutter != route.in_gutter or route.source.line != route.target.line


def lanes(routes, gutter):
    """The routes that run in a gutter; near ones first, short ones nearest to the boxes that they leave."""
    inside = [route for route in routes if gutter in (route.out_gutter, route.in_gutter)]
    return sorted(inside, key=lambda route: (far(route), route.source.column != route.target.column, span(route),
                                             route.number))


def pack(intervals):
    """A lane for each interval, by its key: the first in which it overlaps no other. Also how many lanes that takes."""
    taken, found = [], {}
    for key, (low, high) in intervals.items():
        free = (n for n, lane in enumerate(taken) if all(high < other[0] or other[1] < low for other in lane))
        number = next(free, len(taken))
        if number == len(taken):
            taken.append([])
        taken[number].append((low, high))
        found[key] = number
    return found, len(taken)


def pack_bands(routes, lines):
    """Bands over the top for far routes, shared by those that are apart; the room above each row of boxes."""
    heights = []
    for line in range(lines):
        over = [route for route in routes if far(route) and route.target.line == line]
        found, count = pack({route.number: sorted((route.out_gutter, route.in_gutter)) for route in over})
        for route in over:
            route.band = found[route.number]
        heights.append(ABOVE + BAND * count if count else (0 if line == 0 else ABOVE))
    return heights


def pack_lanes(scene, routes, bands):
    """Lanes in the gutters, shared by routes that are apart; how wide each gutter is. The heights are known by then."""
    arrange(scene, 0, [0] * (scene.columns + 1), bands)
    widths = []
    for gutter in range(scene.columns + 1):
        found, count = pack({route.number: extent(scene, route, gutter) for route in lanes(routes, gutter)})
        for route in routes:
            if route.number in found:
                route.lanes[gutter] = found[route.number]
        inner = EDGE if 0 < gutter < scene.columns else 0
        widths.append(EDGE * 2 + LANE * (count - 1) if count else inner)
    return widths


def extent(scene, route, gutter):
    """From where to where a route runs in a gutter, with room for its number."""
    ends = [spot.centre for spot, where in ((route.source, route.out_gutter), (route.target, route.in_gutter))
            if where == gutter]
    ends += [band_height(scene, route)] if far(route) else []
    low, high = min(ends), max(ends)
    middle = (low + high) / 2
    return min(low - APART, middle - BADGE), max(high + APART, middle + BADGE)


def band_height(scene, route):
    return scene.row_tops[route.target.line] + 10 + BAND * route.band


def span(route):
    return abs(route.source.y - route.target.y)


def port_sides(routes):
    """The arrows' ends on each side of each row: (spot, link's number, out or in)."""
    sides = {}
    for route in routes:
        sides.setdefault((route.source.object, route.out_right), []).append((route.source, route.number, "out"))
        sides.setdefault((route.target.object, not route.in_left), []).append((route.target, route.number, "in"))
    return sides


def ports(routes):
    """Where on its row each arrow leaves and arrives, so that no two lie on one another."""
    offsets = {}
    for ends in port_sides(routes).values():
        for place, (_, number, way) in enumerate(ends):
            offsets[(number, way)] = (place - (len(ends) - 1) / 2) * PORT
    return offsets


def draw_routes(scene, routes):
    """Fills in points and badges, once the scene is arranged."""
    offsets = ports(routes)

    def lane(gutter, route):
        return scene.gutters[gutter] + EDGE + LANE * route.lanes[gutter]

    for route in routes:
        source, target, inner_width = route.source, route.target, COLUMN - 2 * PAD
        start = (source.x + (inner_width if route.out_right else 0), source.centre + offsets[(route.number, "out")])
        end = (target.x + (0 if route.in_left else inner_width), target.centre + offsets[(route.number, "in")])
        x = lane(route.out_gutter, route)
        if not far(route):
            route.points = [start, (x, start[1]), (x, end[1]), end]
            route.badge = (x, (start[1] + end[1]) / 2)
            continue
        band, inner = band_height(scene, route), lane(route.in_gutter, route)
        route.points = [start, (x, start[1]), (x, band), (inner, band), (inner, end[1]), end]
        route.badge = (x, (start[1] + band) / 2)
