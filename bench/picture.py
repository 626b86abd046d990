"""The picture of bench/run: instructions a request against max_cells, both by their logarithms, as SVG."""

import math

WIDTH, HEIGHT = 800, 520
LEFT, RIGHT, TOP, BOTTOM = 92, 640, 64, 448
# colour, width and dashes of a line, and the mark at its points
STYLES = {
    "ours": ("#1d6b52", 3.5, "", '<circle cx="{x:.1f}" cy="{y:.1f}" r="5.5" fill="#1d6b52"/>'),
    "crate": ("#c2571a", 2, "7 5", '<path d="M{x:.1f} {y:.1f}m-3.2 -3.2h6.4v6.4h-6.4z" fill="#fbfaf6" stroke="#c2571a" stroke-width="1.8"/>'),
    "cpp": ("#3d5a9e", 2.5, "", '<path d="M{x:.1f} {y:.1f}m0 -6l5.5 9.5h-11z" fill="#3d5a9e"/>'),
}


def drawn(series, names, title):
    """The SVG text. series: for each program its (max_cells, instructions); names: how each is called at its line."""
    xs = sorted({x for points in series.values() for x, _ in points})
    ys = [y for points in series.values() for _, y in points]
    low, high = min(ys) / 1.3, max(ys) * 1.3
    across = lambda x: LEFT + 14 + (RIGHT - LEFT - 28) * math.log(x / xs[0]) / math.log(xs[-1] / xs[0])
    up = lambda y: BOTTOM - (BOTTOM - TOP) * math.log(y / low) / math.log(high / low)
    text = lambda x, y, words, more="": f'<text x="{x:.1f}" y="{y:.1f}" {more}>{words}</text>'
    out = [f'<svg xmlns="http://www.w3.org/2000/svg" viewBox="0 0 {WIDTH} {HEIGHT}" width="{WIDTH}" height="{HEIGHT}" '
           'font-family="sans-serif" font-size="14" fill="#333">', f"<title>{title}</title>",
           f'<rect width="{WIDTH}" height="{HEIGHT}" fill="#fbfaf6"/>', text(LEFT, 34, title, 'font-size="17" fill="#111"')]
    for power in range(math.ceil(math.log10(low)) - 1, math.floor(math.log10(high)) + 1):
        for digit in range(1, 10):
            y = digit * 10 ** power
            if low <= y <= high:
                out.append(f'<path d="M{LEFT} {up(y):.1f}H{RIGHT}" stroke="{"#bdb9ad" if digit == 1 else "#e6e2d6"}" stroke-width="1"/>')
                if digit in (1, 3):
                    out.append(text(LEFT - 8, up(y) + 5, f"{y:,}", 'text-anchor="end" font-size="12.5"'))
    for x in xs:
        out.append(f'<path d="M{across(x):.1f} {TOP}V{BOTTOM}" stroke="#e6e2d6" stroke-width="1"/>')
        out.append(text(across(x), BOTTOM + 20, f"{x:,}", 'text-anchor="middle" font-size="12.5"'))
    out.append(f'<rect x="{LEFT}" y="{TOP}" width="{RIGHT - LEFT}" height="{BOTTOM - TOP}" fill="none" stroke="#8a867b"/>')
    out.append(text((LEFT + RIGHT) / 2, BOTTOM + 48, "max_cells, the number of cells asked for", 'text-anchor="middle"'))
    out.append(text(LEFT, TOP - 10, "instructions a request", 'font-size="12.5" fill="#555"'))
    for name, points in series.items():
        colour, width, dashes, _ = STYLES[name]
        path = "L".join(f"{across(x):.1f} {up(y):.1f}" for x, y in points)
        out.append(f'<path d="M{path}" fill="none" stroke="{colour}" stroke-width="{width}" stroke-dasharray="{dashes or "none"}"/>')
    for name, points in series.items():
        out += [STYLES[name][3].format(x=across(x), y=up(y)) for x, y in points]
    # names beside the last points, from the top down, none nearer to the one above than a line of text
    place = 0
    for name in sorted(series, key=lambda name: -series[name][-1][1]):
        last = up(series[name][-1][1])
        place = max(last + 5, place + 20)
        out.append(f'<path d="M{across(xs[-1]) + 8:.1f} {last:.1f}L{RIGHT + 10} {place - 5:.1f}" stroke="{STYLES[name][0]}" stroke-width="1"/>')
        out.append(text(RIGHT + 14, place, names[name], f'fill="{STYLES[name][0]}" font-weight="bold"'))
    return "\n".join(out) + "\n</svg>\n"
