"""Rows as text: tables in columns, CSV, JSON or lines, and scripts by which gnuplot draws a series or a map as text.

    write("csv", ["type", "total"], [["THEFT", 463]], sys.stdout)
    series_plot(rows, 100, 30)                           # rows (bin, date, total), for a terminal of that size
    map_plot(rows, 100, 30)                              # rows (z, x, y, total)"""
import csv
import json

SHADES = ".:-=+*%#@"


def write(mode, names, rows, out):
    """Writes the rows, whose columns have these names, in a mode: column, csv, json or line."""
    {"column": write_columns, "csv": write_csv, "json": write_json, "line": write_lines}[mode](names, rows, out)


def write_columns(names, rows, out):
    texts = [[str(it) for it in row] for row in rows]
    widths = [max(map(len, column)) for column in zip(names, *texts)]
    are_numbers = [all(isinstance(it, int) for it in column) for column in zip(*rows)] or [False] * len(names)
    for row in [names, ["-" * width for width in widths], *texts]:
        cells = [it.rjust(width) if right else it.ljust(width) for it, width, right in zip(row, widths, are_numbers)]
        print("  ".join(cells).rstrip(), file=out)


def write_csv(names, rows, out):
    csv.writer(out, lineterminator="\n").writerows([names, *rows])


def write_json(names, rows, out):
    objects = [json.dumps(dict(zip(names, row)), ensure_ascii=False) for row in rows]
    print("[" + ",\n".join(objects) + "]", file=out)


def write_lines(names, rows, out):
    width = max(map(len, names))
    for number, row in enumerate(rows):
        print("\n" * (number > 0) + "\n".join(f"{name:>{width}} = {it}" for name, it in zip(names, row)), file=out)


def series_plot(rows, width, height):
    """A line over the intervals, of which six at most have their dates written below."""
    data = "\n".join(str(total) for _, _, total in rows)
    tics = ", ".join(f'"{rows[at][1]}" {at}' for at in range(0, len(rows), (len(rows) + 5) // 6))
    return f"""set terminal dumb {width} {height}
set xtics ({tics})
set yrange [0:*]
$rows << EOD
{data}
EOD
plot $rows using 0:1 with lines notitle
"""


def map_plot(rows, width, height):
    """A character for each tile, the last of SHADES for the greatest total, which is drawn over lesser ones."""
    most = max((row[3] for row in rows), default=1)
    shades = [SHADES[int((len(SHADES) - 1) * (row[3] / most) ** 0.5)] for row in rows]
    drawn = sorted(zip(rows, shades), key=lambda pair: pair[0][3])
    data = "\n".join(f'{x} {y} "{shade}"' for (_, x, y, _), shade in drawn)
    return f"""set terminal dumb {width} {height}
set format "%.0f"
set yrange [*:*] reverse
set offsets 1, 1, 1, 1
$rows << EOD
{data}
EOD
plot $rows using 1:2:3 with labels notitle
"""
