"""report.py MEASURED.tsv DOCS: writes what bench/ measured into DOCS/SPEED.md, between its two marks, and DOCS/speed.svg."""

import math
import pathlib
import sys

CHECKERS = {"mice": ("this library", "#1a5fb4"), "rust": ("Rust with sets", "#c64600"), "plain": ("plain C", "#26a269")}
BEGIN, END = "<!-- measured: begin -->", "<!-- measured: end -->"


def load(name):
    """{(group, workload): (size, {checker: least nanoseconds}, {checker: its times over this library's, sorted})}, in order."""
    rows = {}
    for line in pathlib.Path(name).read_text().splitlines():
        group, workload, size, *times = line.split("\t")
        rows.setdefault((group, workload, int(size)), []).append(dict(zip(CHECKERS, map(float, times))))
    return {(group, workload): (size, {c: min(t[c] for t in times) for c in CHECKERS},
                                {c: sorted(t[c] / t["mice"] for t in times) for c in CHECKERS})
            for (group, workload, size), times in rows.items()}


def figure(x):
    """Two or three figures that say something."""
    return f"{x:,.0f}" if x >= 100 else f"{x:.1f}" if x >= 10 else f"{x:.2f}"


def exponent(points):
    """The slope of the straight line that fits best through the points (size, time), both as logarithms."""
    xs, ys = [math.log(x) for x, _ in points], [math.log(y) for _, y in points]
    mx, my = sum(xs) / len(xs), sum(ys) / len(ys)
    return sum((x - mx) * (y - my) for x, y in zip(xs, ys)) / sum((x - mx) ** 2 for x in xs)


def ratio(sorted_ratios):
    """The median, and where the middle half of the rounds lies."""
    at = lambda part: sorted_ratios[round(part * (len(sorted_ratios) - 1))]
    return f"**{figure(at(.5))}** ({figure(at(.25))} to {figure(at(.75))})"


def tables(found):
    lines = ["| workload | words or bytes | this library, ns each | Rust with sets | plain C | Rust / this | C / this |",
             "|---|--:|--:|--:|--:|--:|--:|"]
    for (group, workload), (size, least, ratios) in found.items():
        if not group.startswith("growth"):
            each = [figure(least[c] / size) for c in CHECKERS] + [ratio(ratios[c]) for c in ("rust", "plain")]
            lines.append(f"| {group}: {workload} | {size:,} | " + " | ".join(each) + " |")
    lines += ["", "Growth of the time with the size, as an exponent (1: twice the size takes twice the time):", "",
              "| family | sizes | this library | Rust with sets | plain C |", "|---|---|--:|--:|--:|"]
    for family, points in families(found).items():
        sizes = [s for s, _ in points]
        slopes = [figure(exponent([(s, least[c]) for s, least in points])) for c in CHECKERS]
        lines.append(f"| {family} | {sizes[0]:,} to {sizes[-1]:,} | " + " | ".join(slopes) + " |")
    return lines


def families(found):
    grown = {}
    for (group, _), (size, least, _) in found.items():
        if group.startswith("growth"):
            grown.setdefault(group.removeprefix("growth: "), []).append((size, least))
    return grown


def picture(grown):
    """A panel for each family: time against size, both logarithmic, a line for each checker."""
    width, height, left, top = 420, 300, 70, 60
    inner_w, inner_h = width - 100, height - 90
    out = [f'<svg xmlns="http://www.w3.org/2000/svg" width="{2 * width}" height="{top + 2 * height}" '
           f'font-family="sans-serif" font-size="12">', f'<rect width="{2 * width}" height="{top + 2 * height}" fill="white"/>']

    def text(x, y, content, extra=""):
        out.append(f'<text x="{x:.1f}" y="{y:.1f}" {extra}>{content}</text>')

    text(20, 24, "Time of one call over the size of its input", 'font-size="16" font-weight="bold"')
    for k, (label, colour) in enumerate(CHECKERS.values()):
        x = 20 + 150 * k
        out.append(f'<line x1="{x}" y1="42" x2="{x + 24}" y2="42" stroke="{colour}" stroke-width="3"/>')
        text(x + 30, 46, label)

    for k, (family, points) in enumerate(grown.items()):
        x0, y0 = left + width * (k % 2), top + 30 + height * (k // 2)
        times = [t for _, least in points for t in least.values()]
        lo, hi = math.floor(math.log10(min(times))), math.ceil(math.log10(max(times)))
        first, last = math.log2(points[0][0]), math.log2(points[-1][0])
        at_x = lambda size: x0 + inner_w * (math.log2(size) - first) / (last - first)
        at_y = lambda ns: y0 + inner_h * (hi - math.log10(ns)) / (hi - lo)
        unit = "bytes" if "text" in family else "words"
        text(x0, y0 - 10, family, 'font-weight="bold"')
        for power in range(lo, hi + 1):
            y = at_y(10 ** power)
            name = next(f"{10 ** (power - e):g} {u}" for e, u in ((9, "s"), (6, "ms"), (3, "µs"), (0, "ns")) if power >= e or e == 0)
            out.append(f'<line x1="{x0}" y1="{y:.1f}" x2="{x0 + inner_w}" y2="{y:.1f}" stroke="#ddd"/>')
            text(x0 - 6, y + 4, name, 'text-anchor="end"')
        for size, _ in points:
            out.append(f'<line x1="{at_x(size):.1f}" y1="{y0}" x2="{at_x(size):.1f}" y2="{y0 + inner_h}" stroke="#eee"/>')
            text(at_x(size), y0 + inner_h + 16, f"{size:,}", 'text-anchor="middle" font-size="10"')
        text(x0 + inner_w / 2, y0 + inner_h + 34, f"{unit} of the input", 'text-anchor="middle"')
        text(0, 0, "time of a call", f'text-anchor="middle" transform="translate({x0 - 55},{y0 + inner_h / 2}) rotate(-90)"')
        for j, (checker, (_, colour)) in enumerate(CHECKERS.items()):
            line = [(at_x(size), at_y(least[checker])) for size, least in points]
            out.append(f'<polyline fill="none" stroke="{colour}" stroke-width="2" points="'
                       + " ".join(f"{x:.1f},{y:.1f}" for x, y in line) + '"/>')
            out += [f'<circle cx="{x:.1f}" cy="{y:.1f}" r="3" fill="{colour}"/>' for x, y in line]
            slope = figure(exponent([(size, least[checker]) for size, least in points]))
            text(x0 + 8 + 80 * j, y0 + 16, f"exponent {slope}", f'font-size="10" fill="{colour}"')
    return "\n".join(out + ["</svg>"]) + "\n"


def main():
    found, docs = load(sys.argv[1]), pathlib.Path(sys.argv[2])
    page = (docs / "SPEED.md").read_text()
    before, after = page.split(BEGIN)[0], page.split(END)[1]
    lines = tables(found)
    (docs / "SPEED.md").write_text(before + BEGIN + "\n\n" + "\n".join(lines) + "\n\n" + END + after)
    (docs / "speed.svg").write_text(picture(families(found)))
    print("\n".join(lines))


main()
