#!/usr/bin/env python3
"""Draws the stored transcripts and maps with tools/draw.py, and looks at each picture.

Usage: pictures.py             draws what examples/pictures and the rows of the sessions hold, and looks at it
       pictures.py --store     writes the pictures of examples/pictures anew

Each picture is well-formed XML. In one of a run each entry of the history stands once; no two marks of one lane or bar meet,
and no two bars. The pictures in examples/pictures are those that are drawn. Where a Chromium is on the path, it shows all of them:
no two texts meet, and none is wider than the bar that it begins in, nor than its picture. The last line says how many were drawn,
and whether they were shown; the status is 0 where all is so, or 1.
"""
import glob
import html
import importlib.util
import os
import re
import shutil
import subprocess
import sys
import tempfile
import xml.etree.ElementTree as tree

TOP = os.path.join(os.path.dirname(os.path.realpath(__file__)), "..")
SVG = "{http://www.w3.org/2000/svg}"


def load(path):
    spec = importlib.util.spec_from_file_location("draw", path)
    made = importlib.util.module_from_spec(spec)
    sys.dont_write_bytecode = True
    spec.loader.exec_module(made)
    return made


def box(it):
    return tuple(float(it.get(name)) for name in ("x", "y", "width", "height"))


def meet(a, b):
    return a[0] < b[0] + b[2] and b[0] < a[0] + a[2] and a[1] < b[1] + b[3] and b[1] < a[1] + a[3]


def marks_of(root):
    """Returns the square around each mark."""
    for group in root.iter(SVG + "g"):
        circle, rect = group.find(SVG + "circle"), group.find(SVG + "rect")
        if circle is not None:
            x, y, r = (float(circle.get(name)) for name in ("cx", "cy", "r"))
            yield (x - r, y - r, 2 * r, 2 * r)
        elif rect is not None:
            yield box(rect)


def faults(name, svg, entries):
    """Tells what is wrong with a picture."""
    try:
        root = tree.fromstring(svg)
    except tree.ParseError as why:
        yield f"{name}: no well-formed XML: {why}"
        return
    drawn = sorted(int(it.get("data-entry")) for it in root.iter() if it.get("data-entry"))
    if entries is not None and drawn != list(range(1, entries + 1)):
        yield f"{name}: entries {drawn} are drawn, of {entries}"
    for what, boxes in (("marks", list(marks_of(root))), ("bars", [box(it) for it in root.iter(SVG + "rect") if it.get("data-bar")])):
        pairs = sum(1 for at, one in enumerate(boxes) for other in boxes[:at] if meet(one, other))
        if pairs:
            yield f"{name}: {pairs} pairs of {what} meet"


def stored(draw):
    """Yields the pictures of the examples: the file that each belongs in, and what is drawn, with the number of entries."""
    for path in sorted(glob.glob(f"{TOP}/examples/pictures/*.txt")):
        with open(path, encoding="utf-8") as it:
            text = it.read()
        stem = path[:-len(".txt")]
        if text.startswith("map "):
            yield stem + ".svg", draw.draw_map(text), None
        else:
            yield stem + ".svg", draw.draw_run(text), len(draw.read_run(text).entries)
            yield stem + "_memory.svg", draw.draw_memory(text), None


def of_rows(draw):
    """Yields pictures of the transcripts and maps that rows of the program expect."""
    for path in sorted(glob.glob(f"{TOP}/crates/command_rows/data/*.rows")):
        with open(path, encoding="utf-8", errors="replace") as it:
            rows = it.read()
        for at, found in enumerate(re.finditer(r"^(?!  \|)(.*)\n((?:  \|.*\n)+)", rows, re.M)):
            if found[1].startswith("file "):
                # (what a command is given may be no transcript)
                continue
            text = "".join(line[3:] + "\n" for line in found[2].splitlines())
            name = f"{os.path.basename(path)}: {at}"
            if text.startswith("history\n") and "\nsummary " in text:
                yield name, draw.draw_run(text), len(draw.read_run(text).entries)
                yield name + " memory", draw.draw_memory(text), None
            elif re.match(r"map \S+ objects \d+\n", text):
                yield name, draw.draw_map(text), None


# What a page with all pictures finds in itself, as the browser lays out its texts (by a pixel and more).
LOOK = """
const apart = (a, b) => a.right - 1 < b.left + 1 || b.right - 1 < a.left + 1 || a.bottom - 1 < b.top + 1 || b.bottom - 1 < a.top + 1;
const found = [];
for (const one of document.querySelectorAll('div')) {
  const name = one.dataset.name, picture = one.querySelector('svg').getBoundingClientRect();
  const bars = [...one.querySelectorAll('[data-bar]')].map(it => it.getBoundingClientRect());
  const texts = [...one.querySelectorAll('text')].map(it => [it.textContent, it.getBoundingClientRect()]);
  texts.forEach(([words, box], at) => {
    const bar = bars.find(it => it.left <= box.left && box.left < it.right && it.top <= box.top && box.bottom <= it.bottom + 4);
    if (box.right > (bar || picture).right + 1) found.push(`${name}: ${words}: wider than its room`);
    texts.slice(0, at).filter(it => !apart(it[1], box)).forEach(it => found.push(`${name}: ${it[0]} and ${words} meet`));
  });
}
document.body.textContent = `${document.querySelectorAll('svg').length} shown\\n` + found.join('\\n');
"""


def browser():
    return next(filter(None, map(shutil.which, ("chromium", "chromium-browser", "google-chrome"))), None)


def shown(program, pictures):
    """Has a browser lay out all pictures, and tells what it finds."""
    parts = [f'<div data-name="{html.escape(name)}">{svg}</div>' for name, svg in pictures]
    page = f'<!DOCTYPE html><meta charset="utf-8"><body>{"".join(parts)}<script>{LOOK}</script></body>'
    with tempfile.TemporaryDirectory() as room:
        with open(f"{room}/all.html", "w", encoding="utf-8") as it:
            it.write(page)
        command = [program, "--headless", "--disable-gpu", "--no-sandbox", f"--user-data-dir={room}/user", "--dump-dom", f"file://{room}/all.html"]
        try:
            made = subprocess.run(command, capture_output=True, text=True, timeout=120)
        except subprocess.TimeoutExpired:
            return ["the browser did not end"]
    lines = [html.unescape(it) for it in re.sub(r"<[^>]*>", "", made.stdout).strip().splitlines()]
    if lines[:1] != [f"{len(pictures)} shown"]:
        return [f"the browser showed other than {len(pictures)} pictures: {lines[:1]}"]
    return lines[1:]


def main(words):
    if words in (["-h"], ["--help"]):
        print(__doc__, end="")
        return 0
    draw = load(f"{TOP}/tools/draw.py")
    told, pictures = [], []
    for path, svg, entries in stored(draw):
        pictures.append((os.path.basename(path), svg))
        told += faults(os.path.basename(path), svg, entries)
        if words == ["--store"]:
            with open(path, "w", encoding="utf-8") as it:
                it.write(svg)
        else:
            there = open(path, encoding="utf-8").read() if os.path.exists(path) else ""
            told += [] if there == svg else [f"{os.path.basename(path)} is another one"]
    for name, svg, entries in of_rows(draw):
        pictures.append((name, svg))
        told += faults(name, svg, entries)
    program = browser()
    if program:
        told += shown(program, pictures)
    for it in told:
        print(f"pictures.py: {it}")
    seen = "shown by a browser" if program else "no browser is here to show them"
    print(f"{len(pictures)} pictures, {seen}: {'all in order' if not told else f'{len(told)} faults'}")
    return 1 if told else 0


if __name__ == "__main__":
    sys.exit(main(sys.argv[1:]))
