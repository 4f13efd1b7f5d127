"""The plot of a batch's time over its length, as an SVG."""

MEBIBYTE = 1_048_576
# The lengths that the axis names, in MiB.
MEGABYTES = (2, 4, 8, 16)
# The plot's frame in its own units.
WIDTH, HEIGHT = 640, 380
LEFT, RIGHT, TOP, BOTTOM = 64, 500, 52, 326
STYLE = """  <style>
    text { font: 13px system-ui, sans-serif; fill: #333a44; }
    .title { font-size: 15px; font-weight: 600; }
    .grid { stroke: #8b94a1; stroke-opacity: .35; }
    .axis { stroke: #5d6672; }
    .line { fill: none; stroke-width: 2; }
    .tapebox { stroke: #1a66c2; fill: #1a66c2; }
    .indexed { stroke: #b4540a; fill: #b4540a; stroke-dasharray: 6 4; }
    .mark { stroke-dasharray: none; }
    .tapebox.line, .indexed.line { fill: none; }
    text.tapebox, text.indexed { stroke: none; }
    @media (prefers-color-scheme: dark) {
      text { fill: #d5dae1; }
      .axis { stroke: #9aa3af; }
      .tapebox { stroke: #6db1ff; fill: #6db1ff; }
      .indexed { stroke: #f0a35e; fill: #f0a35e; }
    }
  </style>
"""


def drawing(seconds):
    """The plot as an SVG: of each program its seconds over the bytes of the input. Its colours follow the reader's scheme, light or dark."""
    ways = {name: [(round(length / MEBIBYTE), value) for length, value in sorted(own.items())] for name, own in seconds.items()}
    most = max(value for way in ways.values() for _, value in way)
    step = next(step for step in (0.05, 0.1, 0.2, 0.5, 1, 2, 5) if most <= 6 * step)
    lines = int(most / step) + 1
    top = lines * step

    def x(megabytes):
        return LEFT + (RIGHT - LEFT) * megabytes / MEGABYTES[-1]

    def y(value):
        return BOTTOM - (BOTTOM - TOP) * value / top

    drawn = [
        f'<svg xmlns="http://www.w3.org/2000/svg" viewBox="0 0 {WIDTH} {HEIGHT}" width="{WIDTH}" height="{HEIGHT}" role="img">\n',
        "  <title>Processor seconds of a hostile day by its megabytes: tapebox and indexed</title>\n",
        STYLE,
        f'  <text class="title" x="{LEFT}" y="24">The hostile day: processor seconds by the input\'s megabytes</text>\n',
    ]
    for value in (step * count for count in range(lines + 1)):
        kind = "grid" if value else "axis"
        drawn.append(f'  <line class="{kind}" x1="{LEFT}" y1="{y(value):.1f}" x2="{RIGHT}" y2="{y(value):.1f}"/>\n')
        drawn.append(f'  <text x="{LEFT - 8}" y="{y(value) + 4:.1f}" text-anchor="end">{value:g}</text>\n')
    for megabytes in MEGABYTES:
        at = f"{x(megabytes):.1f}"
        drawn.append(f'  <line class="axis" x1="{at}" y1="{BOTTOM}" x2="{at}" y2="{BOTTOM + 5}"/>\n')
        drawn.append(f'  <text x="{at}" y="{BOTTOM + 21}" text-anchor="middle">{megabytes}</text>\n')
    drawn.append(f'  <text x="{(LEFT + RIGHT) / 2}" y="{BOTTOM + 42}" text-anchor="middle">megabytes (MiB) of input</text>\n')
    drawn.append(f'  <text transform="translate(18 {(TOP + BOTTOM) / 2}) rotate(-90)" text-anchor="middle">processor seconds</text>\n')
    ends = sorted(((y(way[-1][1]), name) for name, way in ways.items()), reverse=True)
    below = BOTTOM
    for end, name in ends:
        points = [(x(megabytes), y(value)) for megabytes, value in ways[name]]
        way = " ".join(f"{across:.1f},{down:.1f}" for across, down in points)
        drawn.append(f'  <polyline class="line {name}" points="{way}"/>\n')
        for across, down in points:
            drawn.append(f'  <circle class="mark {name}" cx="{across:.1f}" cy="{down:.1f}" r="3"/>\n')
        below = min(end + 4, below - 18)
        drawn.append(f'  <text class="{name}" x="{RIGHT + 12}" y="{below:.1f}">{name} {ways[name][-1][1]:.2f} s</text>\n')
    return "".join(drawn) + "</svg>\n"
