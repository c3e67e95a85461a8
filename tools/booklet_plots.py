"""The drawings of a booklet that report_svg.py doesn't have: body plan, Bonjean curves, families of KN, and the sheet of GZ."""

from typing import NamedTuple

import report_lines
import report_svg

INK, FAINT = report_svg.INK, report_svg.FAINT
FONT = 'font-family="sans-serif" font-size="11"'
SPACING = 9.5  # of names at the right end, at the least


class Run(NamedTuple):
    """A line of a family: its name, and its corners, each a place and a value."""

    name: str
    corners: list


class Size(NamedTuple):
    """The pixels of a drawing and of its edges, and how many ticks an axis has at the most."""

    width: int
    height: int
    left: int
    right: int
    top: int
    bottom: int
    ticks: int


WHOLE, SMALL = Size(720, 400, 56, 60, 24, 44, 10), Size(300, 200, 54, 12, 26, 36, 5)


class Axes(NamedTuple):
    """The frame of a drawing, in the units of its axes, their titles, and its size."""

    left: float
    right: float
    low: float
    high: float
    across: str
    upwards: str
    size: Size = WHOLE

    def x(self, place):
        size = self.size
        return size.left + (place - self.left) / (self.right - self.left) * (size.width - size.left - size.right)

    def y(self, value):
        size = self.size
        return size.height - size.bottom - (value - self.low) / (self.high - self.low) * (size.height - size.top - size.bottom)

    def path(self, corners):
        return "M" + "L".join(f"{self.x(place):.2f} {self.y(value):.2f}" for place, value in corners)

    def parts(self):
        size = self.size
        foot, side, end = size.height - size.bottom, size.left, size.width - size.right
        for tick, text in report_svg.ticks_of(self.left, self.right, size.ticks):
            yield f'<path d="M{self.x(tick):.2f} {size.top}V{foot}" stroke="#eee"/>'
            yield f'<text x="{self.x(tick):.2f}" y="{foot + 14}" text-anchor="middle">{text}</text>'
        for tick, text in report_svg.ticks_of(self.low, self.high, size.ticks):
            yield f'<path d="M{side} {self.y(tick):.2f}H{end}" stroke="{"#888" if tick == 0 else "#ddd"}"/>'
            yield f'<text x="{side - 5}" y="{self.y(tick) + 4:.2f}" text-anchor="end">{text}</text>'
        yield f'<text x="{(side + end) / 2}" y="{size.height - 7}" text-anchor="middle">{self.across}</text>'
        if size is SMALL:
            yield f'<text x="{side}" y="16" font-weight="bold">{self.upwards}</text>'
        else:
            yield f'<text transform="translate(12 {(size.top + foot) / 2}) rotate(-90)" text-anchor="middle">{self.upwards}</text>'


def picture(width, height, parts, style="drawing"):
    head = f'<svg xmlns="http://www.w3.org/2000/svg" class="{style}" viewBox="0 0 {width} {height}" {FONT}>'
    return "".join([head, f'<rect width="{width}" height="{height}" fill="white"/>', *parts, "</svg>"])


def panel(curve, frame):
    """A curve of report_svg.py as a drawing of its own."""
    return picture(report_svg.WIDTH, report_svg.HEIGHT, report_svg.panel_of(curve, frame).parts(), "panel")


def small_panel(curve):
    """A curve of report_svg.py, small, with letters that can be read at a third of a page."""
    axes = Axes(*report_svg.frame_of([curve]), curve.across, curve.title, SMALL)
    found = [point for point in curve.points if point.ends is not None]
    line = axes.path([(point.place, sum(point.ends) / 2) for point in found])
    parts = [*axes.parts(), f'<path d="{line}" fill="none" stroke="{FAINT}" stroke-width="0.8"/>']
    for point in found:
        x, low, high = axes.x(point.place), axes.y(point.ends[0]), axes.y(point.ends[1])
        parts.append(f'<path d="M{x:.2f} {low:.2f}V{high:.2f}" stroke="{INK}" stroke-width="2"/>')
        parts.append(f'<circle cx="{x:.2f}" cy="{(low + high) / 2:.2f}" r="2.4" fill="{"white" if point.is_above else INK}" stroke="{INK}"/>')
    return picture(SMALL.width, SMALL.height, parts, "panel")


def middle(word, places=6):
    low, high = report_lines.figure_of(word, places)
    return (low + high) / 2


# ---- Body plan


def body_plan(stations):
    """The sections of the stations: those aft of the middle to the left, the others to the right."""
    points = [point for station in stations for point in station.kept]
    half, low, high = max(point.y for point in points), min(point.z for point in points), max(point.z for point in points)
    width, edge = 640, 24
    scale = (width / 2 - edge) / half
    height = (high - low) * scale + 2 * edge
    centre = (stations[0].x + stations[-1].x) / 2

    def spot(side, y, z):
        return f"{width / 2 + side * y * scale:.2f} {height - edge - (z - low) * scale:.2f}"

    parts = [f'<path d="M{width / 2} {edge / 2}V{height - edge / 2}" stroke="#888" stroke-dasharray="6 3"/>']
    parts.append(f'<path d="M{edge} {height - edge}H{width - edge}" stroke="#888"/>')
    for station in stations:
        side = -1 if station.x < centre else 1
        line = "L".join(spot(side, point.y, point.z) for point in station.kept)
        closed = f"M{spot(side, 0, station.kept[0].z)}L{line}L{spot(side, 0, station.kept[-1].z)}"
        parts.append(f'<path d="{closed}" fill="none" stroke="{INK}" stroke-width="0.8"/>')
    parts.append(f'<text x="{edge}" y="{height - 6}">stations aft of the middle</text>')
    parts.append(f'<text x="{width - edge}" y="{height - 6}" text-anchor="end">stations forward of it</text>')
    return picture(width, round(height), parts, "plan")


# ---- Families of curves


def spread(wanted):
    """Places near those that are wanted, in their order and no closer than the spacing: those that crowd are centred together."""
    groups = []
    for place in wanted:
        groups.append([place])
        while len(groups) > 1 and start_of(groups[-2]) + len(groups[-2]) * SPACING > start_of(groups[-1]):
            groups[-2:] = [groups[-2] + groups[-1]]
    return [start_of(group) + SPACING * at for group in groups for at in range(len(group))]


def start_of(group):
    return max(SPACING, sum(group) / len(group) - SPACING * (len(group) - 1) / 2)


def names_of(axes, runs):
    """The names of lines at their right ends, with a thin line to where the line ends."""
    runs = sorted(runs, key=lambda run: -run.corners[-1][1])
    ends = [(axes.x(run.corners[-1][0]), axes.y(run.corners[-1][1])) for run in runs]
    for run, (x, y), place in zip(runs, ends, spread([y for _, y in ends])):
        yield f'<path d="M{x + 3:.2f} {y:.2f}L{x + 14:.2f} {place:.2f}" stroke="#999" stroke-width="0.5"/>'
        yield f'<text x="{x + 16:.2f}" y="{place + 3.5:.2f}" font-size="9.5">{run.name}</text>'


def family(runs, across, upwards):
    """Lines through the middles of their intervals, each with its name at its right end."""
    places = [place for run in runs for place, _ in run.corners]
    values = [value for run in runs for _, value in run.corners]
    low, high = min(0, *values), max(values) or 1
    aside = (max(places) - min(places)) * 0.03 or max(1, abs(places[0]) * 0.05)
    axes = Axes(min(places) - aside, max(places) + aside / 3, low, high * 1.04, across, upwards)
    parts = list(axes.parts())
    for run in runs:
        parts.append(f'<path d="{axes.path(run.corners)}" fill="none" stroke="{INK}" stroke-width="0.9"/>')
        if len(run.corners) < 20:
            parts += [f'<circle cx="{axes.x(x):.2f}" cy="{axes.y(y):.2f}" r="1.8" fill="{INK}"/>' for x, y in run.corners]
    return picture(WHOLE.width, WHOLE.height, [*parts, *names_of(axes, runs)])


def cross_rows(lines):
    """KN by mass and degree, as words."""
    found = {}
    for words in lines:
        if words[0] == "cross":
            found.setdefault(int(words[1]), {})[int(words[2])] = words
    return found


def kn_over_displacement(rows):
    runs = []
    for degree in range(5, 91, 5):
        corners = [(mass / 1000, middle(rows[mass][degree][5])) for mass in sorted(rows) if degree in rows[mass]]
        if corners:
            runs.append(Run(f"{degree}°", corners))
    return family(runs, "displacement, t", "KN, m")


def kn_over_heel(rows):
    runs = [
        Run(f"{mass / 1000:g} t", [(degree, middle(words[5])) for degree, words in sorted(rows[mass].items())]) for mass in sorted(rows)
    ]
    return family(runs, "heel, degrees", "KN, m")


ROOM = 15  # from the number of a station to the next


def bonjean(lines):
    """The area of each station over the draft, drawn from the station's own place."""
    stations = {}
    for words in lines:
        if words[0] == "section":
            stations.setdefault((int(words[1]), int(words[2])), []).append((int(words[3]) / 1000, middle(words[5 - 1])))
    xs = [x / 1000 for _, x in stations]
    greatest = max(area for rows in stations.values() for _, area in rows) or 1
    length = (max(xs) - min(xs)) or 1
    scale = 0.12 * length / greatest
    drafts = [draft for rows in stations.values() for draft, _ in rows]
    axes = Axes(min(xs) - 0.02 * length, max(xs) + 0.14 * length, min(0, *drafts), max(drafts) * 1.12 or 1, "x of the station, m", "draft, m")
    parts, labelled = list(axes.parts()), -ROOM
    for (station, x), rows in sorted(stations.items()):
        corners = [(x / 1000 + area * scale, draft) for draft, area in sorted(rows)]
        foot, top = axes.path([(x / 1000, axes.low), (x / 1000, max(drafts))]), axes.y(max(drafts)) - 6
        parts.append(f'<path d="{foot}" stroke="#999" stroke-width="0.6"/>')
        parts.append(f'<path d="{axes.path(corners)}" fill="none" stroke="{INK}" stroke-width="0.9"/>')
        parts += [f'<circle cx="{axes.x(place):.2f}" cy="{axes.y(value):.2f}" r="1.6" fill="{INK}"/>' for place, value in corners]
        if axes.x(x / 1000) - labelled >= ROOM:
            labelled = axes.x(x / 1000)
            parts.append(f'<text x="{labelled:.2f}" y="{top:.2f}" font-size="9" text-anchor="middle">{station}</text>')
    bar = max((size for size in (1, 2, 5, 10, 20, 50, 100, 200, 500, 1000, 2000) if size <= greatest), default=greatest)
    start, end = axes.x(min(xs)), axes.x(min(xs) + bar * scale)
    y = WHOLE.height - WHOLE.bottom - 8
    parts.append(f'<path d="M{start:.2f} {y - 3}v6M{start:.2f} {y}H{end:.2f}m0 -3v6" stroke="{report_svg.ALERT}" fill="none"/>')
    parts.append(f'<text x="{end + 6:.2f}" y="{y + 4}" fill="{report_svg.ALERT}">{bar:g} m²</text>')
    return picture(WHOLE.width, WHOLE.height, parts)


# ---- The sheet of GZ


def gz_sheet(curves, title, rows):
    """The levers, the areas and the criteria on one sheet that stands alone; a row has the columns of the booklet's table."""
    frames = report_svg.frames_of(curves)
    names = [name for name in ("gz", "area", "gz_starboard", "area_starboard") if name in curves]
    width = 2 * report_svg.WIDTH
    top = 44
    parts = [f'<text x="16" y="28" font-size="17">{title}</text>']
    for at, name in enumerate(names):
        place = f"{at % 2 * report_svg.WIDTH} {top + at // 2 * report_svg.HEIGHT}"
        parts += [f'<g transform="translate({place})">', *report_svg.panel_of(curves[name], frames[report_svg.family_of(name)]).parts(), "</g>"]
    y = top + -(-len(names) // 2) * report_svg.HEIGHT + 18
    columns = (16, 60, 110, 440, 610, 730, 895)
    heads = ("", "Code", "criterion of the 2008 IS Code, part A", "attained", "required", "margin", "mark")
    for row, weight in [(heads, "bold"), *((row, "normal") for row in rows)]:
        parts += [f'<text x="{x}" y="{y}" font-size="11.5" font-weight="{weight}">{text}</text>' for x, text in zip(columns, row)]
        y += 19
    return picture(width, y, parts, "sheet")
