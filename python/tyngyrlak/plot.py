"""Pictures of runs and of the bench (matplotlib is needed).

    python -m tyngyrlak.plot night.log [PICTURE]                what the example night printed: temperature, energy and pressure over the run, and the
                                                                shell counts where it has them; also the table that the example shells prints
    python -m tyngyrlak.plot --ratios docs/PERFORMANCE.md [PICTURE]    the tables of times as a chart of ratios

PICTURE ends in .svg, .png or .pdf; without it the picture is beside the file, as FILE.svg. What cannot be read is one line, and nothing is drawn."""
import os
import re
import sys

BLUE, RUST, GREEN, GREY = "#2f6f9f", "#b5532b", "#4b7f52", "#666666"


class Unreadable(Exception):
    """A file in which there is nothing to draw."""


def read_log(text):
    """What a log says: the lines of progress as {unit: [values]} with the steps under "step"; the step's length in fs, or None; the shells as rows (from, to,
    pairs, per volume), and their unit."""
    progress, shells, unit, dt = {}, [], "the sheets' unit", None
    for line in text.splitlines():
        words = line.split()
        head = re.match(r"\d+ atoms, .* steps of (\S+) fs$", line)
        if head:
            dt = float(head.group(1))
        elif words[:1] == ["step"] and len(words) > 3 and words[1].isdigit():
            row = dict(zip(words[3::2], words[2::2]))
            progress.setdefault("step", []).append(int(words[1]))
            for name, value in row.items():
                progress.setdefault(name, []).append(float(value))
        elif line.rstrip().endswith("distances in A"):
            unit = "Å"
        elif len(words) == 5 and words[0] == str(len(shells)) and all(re.fullmatch(r"-?[0-9.]+(e-?\d+)?", w) for w in words):
            shells.append((float(words[1]), float(words[2]), int(words[3]), float(words[4])))
    steps = progress.get("step", [])
    return {k: v for k, v in progress.items() if len(v) == len(steps)}, dt, shells, unit


def _pyplot():
    try:
        import matplotlib
    except ImportError:
        raise SystemExit("pictures want matplotlib (Debian: python3-matplotlib)") from None
    matplotlib.use("Agg")
    # text stays text, and the same figures give the same file
    matplotlib.rcParams.update({"svg.fonttype": "none", "svg.hashsalt": "tyngyrlak", "font.size": 10, "axes.spines.top": False, "axes.spines.right": False})
    import matplotlib.pyplot as pyplot

    return pyplot


def _save(figure, picture):
    figure.savefig(picture, metadata={"Date": None} if picture.endswith(".svg") else None, dpi=120)
    _pyplot().close(figure)


def draw_log(text, picture, title):
    """A picture of a log: a panel for each of temperature, energy, pressure that it has, one for the shells."""
    progress, dt, shells, unit = read_log(text)
    panels = [p for p in (("K", "temperature (K)", BLUE), ("eV", "total energy (eV)", RUST), ("MPa", "pressure (MPa)", GREEN)) if p[0] in progress]
    if not panels and not shells:
        raise Unreadable("expected lines of progress (`step 200  94.4 K ..`) or a table of shells, found neither")
    plt = _pyplot()
    count = len(panels) + bool(shells)
    figure, axes = plt.subplots(count, 1, figsize=(8, 0.7 + 2.2 * count), squeeze=False, layout="constrained")
    figure.suptitle(title, fontsize=12)
    steps = progress.get("step", [])
    time = [s * dt / 1000 for s in steps] if dt else steps
    for at, (name, label, color) in enumerate(panels):
        a = axes[at][0]
        a.plot(time, progress[name], color=color, lw=1.3, marker="o" if len(steps) <= 60 else None, ms=3)
        a.set_ylabel(label)
        a.ticklabel_format(axis="y", useOffset=False)
        a.grid(color="#dddddd", lw=0.6)
        a.margins(x=0.02)
        if at + 1 < len(panels):
            a.tick_params(labelbottom=False)
        else:
            a.set_xlabel("time (ps)" if dt else "step")
    if shells:
        a = axes[-1][0]
        edges = [s[0] for s in shells] + [shells[-1][1]]
        a.stairs([s[3] for s in shells], edges, fill=True, color=BLUE, alpha=0.85)
        a.set_ylabel("pairs per shell volume\n(per %s³)" % ("Å" if unit == "Å" else "unit"))
        a.set_xlabel("distance (%s)" % unit)
        a.set_xlim(0, edges[-1])
        a.grid(axis="y", color="#dddddd", lw=0.6)
        a.set_axisbelow(True)
        a.set_title("%s pairs in %d shells" % (format(sum(s[2] for s in shells), ","), len(shells)), fontsize=10)
    _save(figure, picture)


def read_ratios(text):
    """The tables of a text in Markdown that have a column `ratio`: [(heading, [(line, ratio, asked or None)])]. Of a table with a column `atoms` the lines of
    the largest number are taken."""
    tables, heading, head = [], "", None
    for line in text.splitlines():
        if line.startswith("## "):
            heading = line[3:].strip()
        cells = [c.strip() for c in line.strip().strip("|").split("|")] if line.startswith("|") else None
        if cells is None:
            head = None
        elif head is None:
            head = cells
            if "ratio" in head and "unit" in head:
                tables.append((heading, []))
        elif "ratio" in head and "unit" in head and not set(line) <= set("|-: "):
            row = dict(zip(head, cells))
            asked = row.get("asked", "")
            tables[-1][1].append((cells[0], float(row["ratio"]), float(asked) if asked else None, int(row.get("atoms", "0") or 0)))
    picked = []
    for heading, rows in tables:
        most = max((r[3] for r in rows), default=0)
        picked.append((heading + (", %s atoms" % format(most, ",") if most else ""), [r[:3] for r in rows if r[3] == most]))
    return [t for t in picked if t[1]]


def draw_ratios(text, picture):
    """The ratios as bars on a scale of powers, 1 being the Rust original; a mark where a figure is asked."""
    tables = read_ratios(text)
    if not tables:
        raise Unreadable("expected tables with the columns `unit` and `ratio`, found none")
    plt = _pyplot()
    heights = [len(rows) for _, rows in tables]
    ratios = [x for _, rows in tables for _, r, asked in rows for x in (r, asked) if x is not None]
    size = (9, 1.2 + 0.27 * sum(heights) + 0.6 * len(tables))
    figure, axes = plt.subplots(len(tables), 1, figsize=size, squeeze=False, gridspec_kw={"height_ratios": heights}, layout="constrained")
    for (heading, rows), (a,) in zip(tables, axes):
        places = range(len(rows), 0, -1)
        for y, (name, ratio, asked) in zip(places, rows):
            a.barh(y, ratio - 1, left=1, height=0.62, color=BLUE if ratio <= 1 else RUST)
            # in a column of their own, where no mark is
            a.annotate("%.2f" % ratio, (1.015, y), xycoords=("axes fraction", "data"), va="center", annotation_clip=False)
            if asked is not None:
                a.plot([asked, asked], [y - 0.42, y + 0.42], color="black", lw=1.8, solid_capstyle="butt")
        a.annotate("ratio", (1.015, len(rows) + 0.85), xycoords=("axes fraction", "data"), color=GREY, annotation_clip=False)
        a.axvline(1, color=GREY, lw=1)
        a.set_xscale("log")
        a.set_xticks([0.05, 0.1, 0.2, 0.5, 1, 2, 3], ["0.05", "0.1", "0.2", "0.5", "1", "2", "3"])
        a.set_xlim(min(0.09, 0.8 * min(ratios)), max(4, 1.2 * max(ratios)))
        a.minorticks_off()
        a.set_yticks(list(places), [r[0] for r in rows])
        a.tick_params(axis="y", length=0)
        a.set_ylim(0.3, len(rows) + 0.7)
        a.grid(axis="x", color="#dddddd", lw=0.6)
        a.set_axisbelow(True)
        a.set_title(heading, fontsize=11, loc="left")
    axes[-1][0].set_xlabel("time of the library / time of the Rust original, no unit\nblue: the library is faster; black mark: at most this is asked")
    _save(figure, picture)


def main(words):
    ratios = words[:1] == ["--ratios"]
    files = words[1:] if ratios else words
    if not 1 <= len(files) <= 2 or any(f.startswith("-") for f in files):
        raise SystemExit("usage: python -m tyngyrlak.plot [--ratios] FILE [PICTURE]")
    name = files[0]
    picture = files[1] if len(files) == 2 else os.path.splitext(name)[0] + ".svg"
    if not picture.endswith((".svg", ".png", ".pdf")):
        raise SystemExit("%s: a picture ends in .svg, .png or .pdf" % picture)
    try:
        with open(name, encoding="utf-8") as f:
            text = f.read()
        if ratios:
            draw_ratios(text, picture)
        else:
            draw_log(text, picture, os.path.basename(name))
    except (OSError, UnicodeDecodeError, Unreadable) as e:
        raise SystemExit("%s: %s" % (name, e)) from None
    print("drawn in %s" % picture)


if __name__ == "__main__":
    main(sys.argv[1:])
