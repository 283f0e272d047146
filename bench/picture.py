"""Draws ratios as a bar chart: an SVG file, which bench/run writes."""
import html, math, textwrap

WIDTH, MARGIN = 900, 16
# the ends of the scale; if the longest bar exceeds it, its figure is printed there
LEFT, RIGHT = 392, 846
HEAD, GROUP, BAR, GAP = 86, 30, 10, 8  # heights: above the rows, of a group's name, of a bar, and between two rows
LETTERS = 56  # the number of characters in a line of a row's name
LINE = 13  # the height of such a line
LIGHT, DARK = (168, 198, 232), (36, 84, 148)  # the shades of the first size and of the last
TICKS = [digit * 10.0 ** power for power in range(-4, 5) for digit in (1, 2, 5)]


def text(x, y, words, style=""):
    return f'<text x="{x:.1f}" y="{y:.1f}"{" " if style else ""}{style}>{html.escape(words, quote=False)}</text>'


def line(x1, y1, x2, y2, colour, width):
    return f'<line x1="{x1:.1f}" y1="{y1:.1f}" x2="{x2:.1f}" y2="{y2:.1f}" stroke="{colour}" stroke-width="{width}"/>'


def bar(x, y, width, colour):
    return f'<rect x="{x:.1f}" y="{y:.1f}" width="{width:.1f}" height="{BAR - 1}" fill="{colour}"/>'


def shade(number, count):
    """The colour of one of this number of sizes."""
    part = number / (count - 1) if count > 1 else 1
    return "#" + "".join(f"{round(light + (dark - light) * part):02x}" for light, dark in zip(LIGHT, DARK))


def scale_of(ratios):
    """The ticks that enclose the ratios and 1, and the position of a ratio: the scale is logarithmic, and 0 is at its beginning."""
    least, most = min([1, *filter(None, ratios)]), max([1, *ratios])
    first = max(tick for tick in TICKS if tick <= least)
    last = min(tick for tick in TICKS if tick >= most and tick > first)

    def place(ratio):
        return LEFT + (RIGHT - LEFT) * math.log(max(ratio, first) / first) / math.log(last / first)
    return [tick for tick in TICKS if first <= tick <= last], place


def draw_row(label, ratios, y, place):
    """A row's name and its bars, which extend from 1 to the ratios; and the row's height."""
    names, drawn = textwrap.wrap(label.replace("`", ""), LETTERS), []
    height = max(len(ratios) * BAR, len(names) * LINE)
    for number, name in enumerate(names):
        drawn.append(text(MARGIN, y + (height - len(names) * LINE) / 2 + (number + 1) * LINE - 3, name))
    top = y + (height - len(ratios) * BAR) / 2
    for number, ratio in enumerate(ratios):
        if ratio is None:
            continue
        end, middle = place(ratio), place(1)
        drawn.append(bar(min(end, middle), top + number * BAR, max(abs(end - middle), 1), shade(number, len(ratios))))
        beside = f'x="{end - 4:.1f}" text-anchor="end"' if ratio < 1 else f'x="{end + 4:.1f}"'
        drawn.append(f'<text {beside} y="{top + number * BAR + 8:.1f}" font-size="9" fill="#333">{ratio:.2f}</text>')
    return drawn, height + GAP


def draw_head(title, sizes):
    """The title, and the legend of the sizes."""
    drawn = [text(MARGIN, 26, title, 'font-size="16" font-weight="bold"'),
             text(MARGIN, 46, "Bars to the left of 1: less time than bdwgc. Bars to the right: more. The scale is logarithmic.", 'fill="#555"')]
    x = MARGIN
    for number, size in enumerate(sizes):
        drawn += [bar(x, 58, 24, shade(number, len(sizes))), text(x + 30, 66, f"{size:,}")]
        x += 96
    return [*drawn, text(x, 66, "objects")]


def draw_scale(ticks, place, bottom):
    """A line at each tick, and a bold one at 1."""
    drawn = []
    for tick in ticks:
        x, is_one = place(tick), tick == 1
        drawn.append(line(x, HEAD, x, bottom, "#222" if is_one else "#ddd", 1.5 if is_one else 1))
        drawn.append(text(x, HEAD - 5, f"{tick:g}", f'text-anchor="middle" font-size="11"{" font-weight=" + chr(34) + "bold" + chr(34) if is_one else ""}'))
    return drawn


def picture(title, sizes, groups):
    """The picture of groups, each with its name and its rows: the text of a row, and its ratio at each size, if it has one."""
    groups = [(name, [(label, ratios) for label, ratios in rows if set(ratios) != {None}]) for name, rows in groups]
    ticks, place = scale_of([ratio for _, rows in groups for _, ratios in rows for ratio in ratios if ratio is not None])
    drawn, y = [], HEAD
    for name, rows in groups:
        if rows:
            drawn.append(text(MARGIN, y + 20, name, 'font-weight="bold" font-size="13"'))
            y += GROUP
        for label, ratios in rows:
            row, height = draw_row(label, ratios, y, place)
            drawn, y = drawn + row, y + height
    head = (f'<svg xmlns="http://www.w3.org/2000/svg" viewBox="0 0 {WIDTH} {y + MARGIN:.0f}" width="{WIDTH}" height="{y + MARGIN:.0f}"'
            ' font-family="Helvetica, Arial, sans-serif" font-size="12">')
    return "\n".join([head, f"<title>{html.escape(title, quote=False)}</title>", f'<rect width="{WIDTH}" height="{y + MARGIN:.0f}" fill="#ffffff"/>',
                      *draw_head(title, sizes), *draw_scale(ticks, place, y), *drawn, "</svg>", ""])
