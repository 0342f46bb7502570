"""Draws the ratios of the calls by class as an SVG picture, with a mark at each aim."""

STYLE = """
  .back { fill: #ffffff } .text { fill: #1f2328 } .small { fill: #59636e }
  .grid { stroke: #d1d9e0 } .one { stroke: #818b98 } .aim { stroke: #1f2328 }
  .met { fill: #4c8dd6 } .missed { fill: #e08a3c } .open { fill: #9aa7b4 }
  @media (prefers-color-scheme: dark) {
    .back { fill: #0d1117 } .text { fill: #e6edf3 } .small { fill: #9198a1 }
    .grid { stroke: #2f3742 } .one { stroke: #6e7681 } .aim { stroke: #e6edf3 }
    .met { fill: #3f78b8 } .missed { fill: #b9671d } .open { fill: #6b7785 }
  }
  text { font-family: sans-serif }
"""
LEFT, PANEL, GAP, TOP, ROW, BAR, RIGHT = 170, 210, 34, 92, 24, 15, 20
# How wide the number at a bar is, and how far it stays from the bar's end and from an aim.
LABEL, SPACE = 27, 4


class Picture:
    """The parts of a picture, in the order in which they are drawn."""

    def __init__(self):
        self.parts = []

    def text(self, x, y, text, size=12, anchor="start", style="text"):
        self.parts.append('<text class="%s" x="%.1f" y="%.1f" font-size="%d" text-anchor="%s">%s'
                          '</text>' % (style, x, y, size, anchor, text))

    def line(self, x, y, x2, y2, style, width=1):
        self.parts.append('<line class="%s" x1="%.1f" y1="%.1f" x2="%.1f" y2="%.1f" '
                          'stroke-width="%s"/>' % (style, x, y, x2, y2, width))

    def bar(self, x, y, width, style, height=BAR):
        self.parts.append('<rect class="%s" x="%.1f" y="%.1f" width="%.1f" height="%d" rx="1"/>'
                          % (style, x, y, width, height))


def label_at(x, end, aim):
    """Where the number of a bar from x to `end` begins: within the bar at its end, or behind it, or
    before or behind the aim, whichever first has the room and does not cross the mark there."""
    places = [end - SPACE - LABEL, end + SPACE]
    if aim is not None:
        places += [aim - SPACE - LABEL, aim + SPACE]
    for at in places:
        crosses = aim is not None and at - SPACE < aim < at + LABEL + SPACE
        meets_end = at < end < at + LABEL
        if at >= x and not crosses and not meets_end:
            return at
    return end + SPACE


def draw_bar(picture, x, y, unit, most, bar):
    """The bar of a class, its number, and a mark at its aim. `bar`: a ratio, and an aim or none."""
    ratio, aim = bar
    style = "open" if aim is None else "met" if ratio <= aim else "missed"
    end, mark = x + min(ratio, most) * unit, None if aim is None else x + aim * unit
    picture.bar(x, y, end - x, style)
    picture.text(label_at(x, end, mark), y + BAR - 3,
                 "%.2f" % ratio + (" →" if ratio > most else ""), 11)
    if mark is not None:
        picture.line(mark, y - 3, mark, y + BAR + 3, "aim", 2)


def draw_panel(picture, x, call, bars, most):
    """One call: a bar for each class, and a mark at its aim. `bars`: ratios and aims, by class."""
    bottom, unit = TOP + ROW * len(bars), PANEL / most
    picture.text(x, TOP - 14, call, 13)
    steps = int(most * 2)
    for k in range(steps + 1):
        at = x + k / 2 * unit
        picture.line(at, TOP, at, bottom, "one" if k == 2 else "grid")
        picture.text(at, bottom + 16, "%g" % (k / 2), 11, "middle", "small")
    picture.text(x + PANEL / 2, bottom + 34, "time, in units of the C++ job", 11, "middle",
                 "small")
    for k, bar in enumerate(bars):
        draw_bar(picture, x, TOP + ROW * k + (ROW - BAR) / 2, unit, most, bar)


def draw_legend(picture):
    at = LEFT
    for style, text in (("met", "within its aim"), ("missed", "over its aim"), ("open", "no aim")):
        picture.bar(at, 47, 12, style, 12)
        picture.text(at + 18, 57, text, 11, style="small")
        at += 112
    picture.line(at + 6, 45, at + 6, 61, "aim", 2)
    picture.text(at + 14, 57, "aim", 11, style="small")
    picture.line(at + 62, 45, at + 62, 61, "one")
    picture.text(at + 70, 57, "as long as the C++ job", 11, style="small")


def chart(classes, panels):
    """`panels`: the name of each call, with a ratio and an aim or none for each of the classes."""
    width = LEFT + len(panels) * (PANEL + GAP) - GAP + RIGHT
    height = TOP + ROW * len(classes) + 48
    top = max(ratio for _, bars in panels for ratio, _ in bars)
    most = min(3.0, max(1.5, int(top * 2 + 1) / 2))
    picture = Picture()
    picture.text(16, 28, "How long a call takes, by class of sheets, n = 64", 16)
    draw_legend(picture)
    for k, name in enumerate(classes):
        picture.text(LEFT - 10, TOP + ROW * k + ROW / 2 + 4, name, 12, "end")
    for k, (call, bars) in enumerate(panels):
        draw_panel(picture, LEFT + k * (PANEL + GAP), call, bars, most)
    return ('<svg xmlns="http://www.w3.org/2000/svg" viewBox="0 0 %d %d" width="%d" height="%d" '
            'role="img">\n<title>Ratios of the calls to the C++ job, by class of sheets</title>\n'
            '<style>%s</style>\n<rect class="back" width="%d" height="%d"/>\n%s\n</svg>\n'
            % (width, height, width, height, STYLE, width, height, "\n".join(picture.parts)))
