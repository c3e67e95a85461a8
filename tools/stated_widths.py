"""How wide figures may be, as docs/DEFINITIONS.md and the crates' specs state it, for check_report.py.

Bounds are in the units of the report. They are of the intervals behind printed figures, which may be wider by less than two
units of the last place.
"""

from fractions import Fraction

from exact_hull import GRID, UPRIGHT, spans_of

ROUNDING = Fraction(1, 2 ** 16)
MM, M2, M3, T = 10 ** 3, 10 ** 6, 10 ** 9, 10 ** 3


def turn_of(bracket):
    """The greater width of the spans of cosine and sine over a bracket."""
    return max(high - low for low, high in spans_of(bracket))


def width_of(figure):
    return figure.high - figure.low


def lever_width(hull, bracket, levels, need, centre):
    """Of KN, a lever or a separation in m, with two levels in grid units, the displaced volume, and how far off the centre lies in mm."""
    rise = Fraction(levels[1] - levels[0], GRID) * 8 * (hull.half_areas + 2 ** 17)
    moment = hull.reach(*levels) * (hull.volume_width(bracket, *levels) + rise)
    return (moment / need + centre * turn_of(bracket) + ROUNDING) / MM


def upright_widths(hull, levels, need):
    """The bounds of KB, BM and GM in m, with two levels in grid units and the displaced volume."""
    height = lever_width(hull, [UPRIGHT], levels, need, 0)
    radius = (hull.half_breadth ** 2 * hull.lid_width(*levels) / need + ROUNDING) / MM
    return {"KB": height, "BM": radius, "GM": height + radius}


def quotient_width(part, value, whole, least):
    """Of a quotient, by the bounds of both, its magnitude and the least end of what it is divided by."""
    return (part + abs(value) * whole + least * ROUNDING) / least


def hydro_widths(hull, job, draft, row, values):
    """The bounds of a hydro line's figures, by their names."""
    level, x, y, density = draft * GRID, hull.last_x, hull.half_breadth, Fraction(job.density, T)
    of_volume, of_area = hull.volume_width([UPRIGHT], level), hull.lid_width(level, level)
    volume, area = row["volume"].low * M3, row["area"].low * M2
    bounds = {"volume": of_volume / M3, "area": of_area / M2}
    bounds["displacement"] = width_of(row["volume"]) * density + ROUNDING
    bounds["TPC"] = width_of(row["area"]) * density / 100 + ROUNDING

    def quotient(name, part, whole, least):
        if row[name] is not None and least > 0:
            bounds[name] = quotient_width(part, values[name] * MM, whole, least) / MM

    quotient("LCB", x * of_volume, of_volume, volume)
    quotient("KB", hull.reach(level) * of_volume, of_volume, volume)
    quotient("LCF", x * of_area, of_area, area)
    quotient("BMT", y * y * of_area, of_volume, volume)
    if row["KMT"] is not None and row["KB"] is not None and row["BMT"] is not None:
        bounds["KMT"] = width_of(row["KB"]) + width_of(row["BMT"]) + ROUNDING / MM
    if row["LCF"] is not None and row["BML"] is not None and row["MCT"] is not None:
        far = max(abs(row["LCF"].low), abs(row["LCF"].high)) * MM
        part = 8 * ((x + far) ** 2 * of_area + far * row["area"].high * M2 * ROUNDING)
        quotient("BML", part, of_volume, volume)
        products = [mass * height for mass in row["displacement"][:2] for height in row["BML"][:2]]
        bounds["MCT"] = (max(products) - min(products)) / (100 * Fraction(job.length_bp, MM)) + ROUNDING
    return bounds
