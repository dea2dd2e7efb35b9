"""Pictures of small features: the rings or lines on the tile's units, with numbered points and arrows in their direction."""

SIDE = 480
LEAST = 120
MARGIN = 40


def picture(feature, at, cause):
    paths = feature.paths()
    xs, ys = zip(*(point for path in paths for point in path))
    left, top, width, height = min(xs), min(ys), max(xs) - min(xs), max(ys) - min(ys)
    scale = SIDE / max(width, height, 1)
    across, down = max(scale, LEAST / max(width, 1)), max(scale, LEAST / max(height, 1))

    def place(point):
        return (point[0] - left) * across + MARGIN, (point[1] - top) * down + MARGIN

    wide, high = max(width * across + 2 * MARGIN, 560), height * down + 2 * MARGIN
    lines = [
        f'<svg xmlns="http://www.w3.org/2000/svg" width="{wide:.0f}" height="{high + 24:.0f}" font-family="sans-serif" font-size="13">',
        '<rect width="100%" height="100%" fill="#fff"/>',
        '<defs><marker id="on" viewBox="0 0 10 10" refX="5" refY="5" markerWidth="10" markerHeight="10" orient="auto"><path d="M0 0L10 5L0 10z" fill="#d55e00"/></marker></defs>',
    ]
    lines += grid(left, top, width, height, place)
    for path in paths:
        closed = path + path[:1] if feature.type == 3 else path
        lines += [arrow(place(a), place(b)) for a, b in zip(closed, closed[1:]) if a != b]
        lines += [dot(place(point)) for point in path]
        if len(path) <= 12:
            lines += [label(place(point), numbers(path, point), at % 2) for at, point in enumerate(dict.fromkeys(path))]
    if cause == "ZeroSegment":
        x, y = place(feature.position_at(at))
        lines.append(f'<circle cx="{x:.1f}" cy="{y:.1f}" r="10" fill="none" stroke="#d55e00" stroke-width="2"/>')
    stretched = "; stretched" if across != down and width and height else ""
    lines.append(
        f'<text x="{MARGIN}" y="{high + 8:.0f}">{width:,} by {height:,} units{stretched}; layer extent {feature.extent:,}</text>'
    )
    return "\n".join(lines + ["</svg>\n"])


def numbers(path, point):
    """The places of a point in its path, and where it is."""
    return " = ".join(str(at) for at, other in enumerate(path) if other == point) + f": {point[0]},{point[1]}"


def grid(left, top, width, height, place):
    """The lines of the units, or of tens, hundreds.. of them, where there would be too many."""
    step = 1
    while max(width, height) / step > 40:
        step *= 10
    lines = []
    for x in range(-(-left // step) * step, left + width + 1, step):
        (a, b), (_, c) = place((x, top)), place((x, top + height))
        lines.append(f'<path d="M{a:.1f} {b:.1f}V{c:.1f}" stroke="#ddd"/>')
    for y in range(-(-top // step) * step, top + height + 1, step):
        (a, b), (c, _) = place((left, y)), place((left + width, y))
        lines.append(f'<path d="M{a:.1f} {b:.1f}H{c:.1f}" stroke="#ddd"/>')
    return lines


def arrow(a, b):
    middle = (a[0] + b[0]) / 2, (a[1] + b[1]) / 2
    return f'<path d="M{a[0]:.1f} {a[1]:.1f}L{middle[0]:.1f} {middle[1]:.1f}L{b[0]:.1f} {b[1]:.1f}" stroke="#0072b2" fill="none" marker-mid="url(#on)"/>'


def dot(point):
    return f'<circle cx="{point[0]:.1f}" cy="{point[1]:.1f}" r="3" fill="#0072b2"/>'


def label(point, text, is_below):
    """Left of the point in the right half of the picture."""
    side, anchor = (-4, "end") if point[0] > MARGIN + SIDE / 2 else (4, "start")
    return f'<text x="{point[0] + side:.1f}" y="{point[1] + (18 if is_below else -8):.1f}" text-anchor="{anchor}">{text}</text>'
