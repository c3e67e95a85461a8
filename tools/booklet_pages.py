"""The pages of a booklet: each function gives the parts of one chapter as HTML, or nothing where the report has no lines for it."""

import html
import itertools

import booklet_criteria
import booklet_plots
import flood_pictures
import report_svg

FINDINGS = {"holds": "good", "fails": "bad", "unsure": "open", "pass": "good", "fail": "bad", "undecided": "open"}
HYDRO_HEADS = [
    "draft, mm", "volume, m³", "displacement, t", "LCB, m", "KB, m", "waterplane, m²", "LCF, m", "BMT, m", "BML, m", "KMT, m",
    "TPC, t/cm", "MCT, t·m/cm",
]
WIDE = 4  # drafts or displacements side by side in a table

CONVENTIONS = [
    "Origin: x = 0 as in the offsets; x runs from aft to fore. y runs from the centreplane, above 0 to starboard. z runs upwards from the base.",
    "LCG, LCB, LCF are from x = 0, KG, KB, KMT, KN from the base, in m. A draft is the height of the waterplane above the base.",
    "A level, in 1/1024 mm, is the distance from the keel point (base line and centreplane) to the waterplane, square to it; "
    "upright it is the draft. Here levels are given in mm too, rounded outwards.",
    "A lever above 0 turns the ship upright. Heel is in whole degrees, with all stations alike and without trim, in water without waves; "
    "free surfaces raise KG and are not moved besides.",
    "[low,high] says: the exact figure is at least low and at most high. What is exact is the figure of the body with flat facets between "
    "the offsets: between two points of a station the half-breadth is linear, between two stations there are triangles, "
    "each station is closed flat at its lowest and highest point.",
    "What an interval doesn't say: how far that body is from the ship with curved frames, whether the offsets and masses are those of the "
    "ship that was built, and anything of a degree, a draft, a displacement or a centre between those of the tables.",
    "Beside an interval stands a short form for reading: the digits that both ends share, cut after three places, or the number of three "
    "places to which both round where it lies between them. The interval counts.",
]


def text(value):
    return html.escape(str(value))


def chapter(name, *parts):
    return [f'<section><h2>{text(name)}</h2>', *parts, "</section>"]


def figure(word):
    """A figure of the report with its short form, or the dash of an absent one."""
    if word == "-":
        return "–"
    low, high = word[1:-1].split(",")
    return f'<b>{booklet_criteria.short(word)}</b> <i class="f">[{low},<wbr/>{high}]</i>'


def cell(value):
    value = str(value)
    return figure(value) if value.startswith("[") else text(value)


def table(heads, rows, style=""):
    body = "".join("<tr>" + "".join(f"<td>{item}</td>" for item in row) + "</tr>" for row in rows)
    head = "".join(f"<th>{item}</th>" for item in heads)
    return f'<table class="{style}"><thead><tr>{head}</tr></thead><tbody>{body}</tbody></table>'


def levels(words):
    """Two levels in 1/1024 mm, and in mm rounded outwards to 1/1000."""
    low, high = int(words[0]), int(words[1])
    least, greatest = low * 1000 // 1024, -(-high * 1000 // 1024)
    return f'<span class="levels">[{least / 1000:.3f},{greatest / 1000:.3f}] mm <i class="f">{low}, {high}</i></span>'


def named(lines, name):
    return [words for words in lines if words[0] == name]


def chunks(items, size):
    return [items[at:at + size] for at in range(0, len(items), size)]


# ---- The first page


def particulars(lines, stations):
    rows = [(f"{words[0]} line", text(" ".join(words))) for words in lines if words[0] in ("hullcert", "hull", "body")]
    body = next(iter(named(lines, "body")), None)
    if body:
        rows.append(("volume of the whole hull", f"{int(body[1]) / 6e9:,.3f} m³, rounded; six times it is {body[1]} mm³ exactly"))
    if stations:
        points = [point for station in stations for point in station.kept]
        first, last = stations[0].x, stations[-1].x
        half, low, high = max(point.y for point in points), min(point.z for point in points), max(point.z for point in points)
        rows += [
            ("stations, points", f"{len(stations)}, {len(points)} kept"),
            ("length", f"{(last - first) / 1000:.3f} m, from x = {first / 1000:.3f} to {last / 1000:.3f} m"),
            ("breadth", f"{2 * half / 1000:.3f} m"),
            ("depth", f"{(high - low) / 1000:.3f} m, from z = {low / 1000:.3f} to {high / 1000:.3f} m"),
        ]
    return table(("ship", ""), rows, "wide")


def job_rows(job):
    yield "density of the water", f"{job.get('density')} kg/m³"
    yield "length between perpendiculars", f"{job.get('length_bp', 0) / 1000:.3f} m"
    yield "version of the job", text(job.get("version"))


def front(lines, stations, job, sums, lack):
    verdict = booklet_criteria.verdict_of(lines)
    parts = []
    if lack:
        parts.append(f'<p class="verdict bad">{text(lack)}</p>')
    if verdict:
        parts.append(verdict_box(verdict))
    plan = ["<h3>Body plan</h3>", booklet_plots.body_plan(stations)] if stations else []
    tables = [particulars(lines, stations), *([table(("job", ""), job_rows(job), "wide")] if job else [])]
    parts += ['<div class="beside"><div>', *tables, "</div><div>", *plan, "</div></div>"] if plan else tables
    parts.append(table(("file", "bytes", "SHA-256"), [(text(name), count, f"<code>{digest}</code>") for name, count, digest in sums], "wide"))
    parts.append('<p class="note">Made by tools/booklet.py of hullcert. It draws and arranges; the figures are the report’s.</p>')
    parts += ["<h3>Conventions</h3>", "<ul>", *(f"<li>{text(line)}</li>" for line in CONVENTIONS), "</ul>"]
    return parts


# ---- Hydrostatics, Bonjean, cross curves


def hydrostatics(lines, stations):
    rows = named(lines, "hydro")
    if not rows:
        return []
    parts = []
    for places in (range(2, 7), range(7, 13)):
        heads = [HYDRO_HEADS[0], *(HYDRO_HEADS[at - 1] for at in places)]
        parts.append(table(heads, [[words[1], *(cell(words[at]) for at in places)] for words in rows], "figures"))
    parts.append('<p class="note">– : the figure is absent, since the interval of what it is divided by begins at 0 or below.</p>')
    curves = {name: curve for name, curve in report_svg.hydro_curves(lines, report_svg.tops_of(stations))}
    curves = {name: curve for name, curve in curves.items() if any(point.ends for point in curve.points)}
    panels = [booklet_plots.small_panel(curve) for curve in curves.values()]
    note = " ".join(report_svg.notes_of_curves(curves.values(), bool(stations)))
    parts += ['<div class="whole"><h3>Hydrostatic curves</h3><div class="panels">', *panels, f'</div><p class="note">{text(note)}</p></div>']
    return chapter("Hydrostatic table", *parts)


def bonjean(lines):
    rows = named(lines, "section")
    if not rows:
        return []
    drafts = sorted({int(words[3]) for words in rows})
    found = {(int(words[1]), int(words[3])): words for words in rows}
    places = sorted({(int(words[1]), int(words[2])) for words in rows})
    parts = [booklet_plots.bonjean(lines)]
    parts.append(
        '<p class="note">From each station’s place its area runs to the right, by the red scale. Points are the report’s figures; '
        "between them nothing is certified.</p>"
    )
    for at, title in ((4, "Area of the section below the draft, m²"), (5, "Its moment about the base, m³")):
        parts.append(f"<h3>{title}</h3>")
        for part in chunks(drafts, WIDE):
            heads = ["station", "x, mm", *(f"{draft} mm" for draft in part)]
            body = [
                [station, x, *(cell(found[station, draft][at]) if (station, draft) in found else "" for draft in part)]
                for station, x in places
            ]
            parts.append(table(heads, body, "figures" if at == 4 else "figures dense"))
    return chapter("Bonjean curves", *parts)


def cross(lines):
    rows = booklet_plots.cross_rows(lines)
    if not rows:
        return []
    parts = ["<h3>KN over heel</h3>", booklet_plots.kn_over_heel(rows)]
    if len(rows) > 1:
        parts += ["<h3>KN over displacement, at 5, 10, .., 90 degrees</h3>", booklet_plots.kn_over_displacement(rows)]
    parts.append(
        '<p class="note">Lines join the middles of the report’s intervals; between displacements and between whole degrees nothing is '
        "certified.</p>"
    )
    parts.append('<h3 class="page">KN in m</h3>')
    for masses in chunks(sorted(rows), WIDE):
        heads = ["heel", *(f"{mass} kg" for mass in masses)]
        body = [[f"{k}°", *(cell(rows[mass][k][5]) if k in rows[mass] else "" for mass in masses)] for k in range(0, 91, 5)]
        parts.append(table(heads, body, "figures"))
    parts.append('<p class="note">All degrees, with the levels of their waterplanes, stand in the report at the end.</p>')
    return chapter("Cross curves", *parts)


# ---- Loading and levers


def loading(lines, job):
    load, upright = next(iter(named(lines, "load")), None), next(iter(named(lines, "upright")), None)
    if load is None:
        return []
    parts, is_sided = [], len(load) == 5
    items = (job or {}).get("item", [])
    if items:
        heads = ["item", "mass, kg", "x, mm", *(["y, mm"] if is_sided else []), "z, mm", "free surface, kg·m"]
        body = [
            [text(item.get("name", "")), *(item.get(key, 0) for key in ("mass", "x", *(["y"] if is_sided else []), "z", "free_surface"))]
            for item in items
        ]
        sums = [sum(item.get(key, 0) for item in items) for key in ("mass", "free_surface")]
        parts.append(table(heads, [*body, ["<b>sum</b>", f"<b>{sums[0]}</b>", "", *([""] if is_sided else []), "", f"<b>{sums[1]}</b>"]], "numbers"))
    heads = ["mass, kg", "LCG, m", *(["TCG, m"] if is_sided else []), "KG with free surfaces, m"]
    parts.append(table(heads, [[text(load[1]), *map(cell, load[2:])]], "figures"))
    if upright:
        heads = ["floats upright between the levels", "KB, m", "BM, m", "GM, m"]
        parts.append(table(heads, [[levels(upright[1:3]), *map(cell, upright[3:])]], "figures"))
    return chapter("Loading", *parts)


SHOWN = {
    "interval": "at {0} degrees: {1}",
    "pair": "the levers at {0} and at {1} degrees",
    "leak": "opening {0} at {1} degrees: depth {2} m",
}


def verdict_box(verdict):
    call, rest = verdict[1], verdict[2:]
    said = {"pass": "every criterion holds", "fail": "a criterion doesn’t hold", "undecided": "the intervals are too wide to tell"}[call]
    if rest:
        side = rest.pop(1) + ", " if rest[1] in ("port", "starboard") else ""
        shown = SHOWN[rest[1]].format(*rest[2:]) if rest[1] in SHOWN else " ".join(rest[1:])
        said += f" – {rest[0]}, {side}{shown}"
    return f'<p class="verdict {FINDINGS[call]}">Verdict: <b>{call}</b> – {text(said)}</p>'


def criteria_table(rows):
    heads = ["", "2008 IS Code, part A", "criterion", "attained", "required", "margin", ""]
    body = [
        [
            f"{row.criterion}{f'<br/>{row.side}' if row.side else ''}",
            booklet_criteria.PARAGRAPHS[row.criterion],
            text(row.text),
            cell(row.attained) if row.attained else "–",
            text(f"at least {row.required}" if row.required[0].isdigit() else row.required),
            cell(row.margin) if row.margin else "–",
            f'<span class="{FINDINGS.get(row.mark, "")}">{row.mark}</span>',
        ]
        for row in rows
    ]
    return table(heads, body, "figures criteria")


NO_LEVERS = "The report has no levers: of C1 to C5 it tells the marks, and not what is attained."


def stability(lines, rows, note):
    arms, verdict = named(lines, "arm"), booklet_criteria.verdict_of(lines)
    if not arms:
        box = [verdict_box(verdict)] if verdict else []
        return chapter("Intact stability", *box, criteria_table(rows), f'<p class="note">{NO_LEVERS}</p>') if rows else []
    curves = {name: curve for name, curve in report_svg.arm_curves(lines) if curve.points}
    frames = report_svg.frames_of(curves)
    panels = [booklet_plots.panel(curve, frames[report_svg.family_of(name)]) for name, curve in curves.items()]
    parts = [verdict_box(verdict)] if verdict else []
    if rows:
        sides = " The mark in the last column is that of both sides together." if rows[0].side else ""
        parts += [criteria_table(rows), f'<p class="note">{text(note + sides)}</p>']
    parts += ['<div class="panels two">', *panels, f'</div><p class="note">{text(" ".join(report_svg.LIMITS))}</p>']
    sided = len(arms[0]) == 8
    figures = ["GZ to port, m", "area, m·rad", "GZ to starboard, m", "area, m·rad"] if sided else ["GZ, m", "area from upright, m·rad"]
    heads = ["heel", "levels: mm, and 1/1024 mm", *figures]
    body = [[f"{words[1]}°", levels(words[2:4]), *map(cell, words[4:])] for words in arms if int(words[1]) % 5 == 0]
    parts += ['<h3 class="page">Righting levers</h3>', table(heads, body, "figures")]
    parts.append('<p class="note">All degrees stand in the report at the end.</p>')
    return chapter("Intact stability", *parts)


# ---- Damage and floodable lengths


def case_names(job):
    """The name of each damage case, and what floods."""
    slabs = {part.get("name"): part for part in (job or {}).get("compartment", [])}
    for case in (job or {}).get("damage", []):
        parts = [slabs.get(name, {}) for name in case.get("flooded", [])]
        said = "; ".join(
            f"{part.get('name')}, x {part.get('from')} to {part.get('to')} mm, permeability {part.get('permeability')}/1000" for part in parts
        )
        yield case.get("name", ""), said


def damage_row(words, name, said):
    end = words[2:]
    if end[0] == "sinks":
        result = [f"sinks: of the whole hull {cell(end[1])} m³ are left", ""]
    elif end[0] == "nostart":
        result = [f"no waterline was found from the {text(end[1])} end", ""]
    else:
        result = [levels(end[:2]), levels(end[2:])]
    return [words[1], *([text(name), text(said)] if name or said else []), *result]


def damage(lines, stations, job):
    rows = named(lines, "damage")
    if not rows:
        return []
    names = list(case_names(job)) or [("", "")] * len(rows)
    heads = ["case", *(["name", "what floods"] if any(map(any, names)) else []), "draft at the first station (aft)", "draft at the last station"]
    body = [damage_row(words, *names[int(words[1]) - 1]) for words in rows if int(words[1]) <= len(names)]
    pictures = flood_pictures.pictures_of(rows, stations)
    frame = report_svg.frame_of(list(pictures.values()))
    notes = dict.fromkeys(note for picture in pictures.values() for note in picture.notes)
    return chapter(
        "Drafts of the damaged ship",
        "<p>The compartments of a case are open to the sea, as lost buoyancy; the ship is upright. What is balanced are moments along "
        "the ship.</p>",
        table(heads, body, "figures"),
        '<div class="panels two">',
        *(booklet_plots.panel(picture, frame) for picture in pictures.values()),
        f'</div><p class="note">{text(" ".join(notes))}</p>',
    )


REASONS = {
    "sinks": "the ship sinks", "nostart": "no waterline was found", "endofship": "reaches past an end of the ship",
    "over": "the margin line is under at station {0}", "touch": "the margin line may be under at station {0}",
}


def floodable(lines, stations, job):
    safe, later = named(lines, "safe"), {words[1]: words for words in named(lines, "next")}
    if not safe:
        return []
    body = []
    for words in safe:
        after = later.get(words[1])
        levels_of = [levels(words[3:5]), levels(words[5:7])] if len(words) > 3 else ["", ""]
        why = REASONS[after[3]].format(*after[4:5]) if after else ""
        length = "none" if words[2] == "-" else f"<b>{words[2]}</b>"
        body.append([words[1], length, *levels_of, after[2] if after else "", text(why)])
    plan = (job or {}).get("floodable", {})
    said = f"Permeability {plan['permeability']}/1000, step {plan['step']} mm, margin {job.get('margin', 76)} mm. " if plan else ""
    picture = flood_pictures.pictures_of([*safe, *later.values()], stations)["floodable"]
    return chapter(
        "Floodable lengths",
        f"<p>{text(said)}With the safe length about its centre open to the sea the margin line stays dry at every station.</p>",
        table(["centre, mm", "safe length, mm", "level aft", "level forward", "next length, mm", "why that isn’t safe"], body, "figures"),
        booklet_plots.panel(picture, report_svg.frame_of([picture])).replace('class="panel"', 'class="plan"'),
        f'<p class="note">{text(" ".join(picture.notes))}</p>',
    )


def whole_report(lines):
    groups = itertools.groupby(lines, key=lambda words: words[0] in ("hydro", "damage", "safe", "next", "verdict", "load", "upright", "end"))
    parts = []
    for is_wide, group in groups:
        said = "\n".join(" ".join(words) for words in group)
        parts.append(f'<pre class="{"one" if is_wide else "columns"}">{text(said)}</pre>')
    return chapter("The report", *parts)


def other_lines(lines):
    """Names of lines that no chapter shows, but the report at the end does."""
    known = "hullcert hull body hydro section cross load upright arm mark verdict damage safe next end".split()
    return sorted({words[0] for words in lines} - set(known))
