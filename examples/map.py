#!/usr/bin/env python3
"""A graph: a map in as few colours as neighbours allow, as a table, and as an SVG picture in the file that is named."""

import sys

from pbcnf.tools.answers import best

PLACES = {"WA": (60, 130), "NT": (170, 60), "SA": (185, 160), "Q": (270, 80), "NSW": (300, 170), "V": (275, 220), "T": (290, 280)}
BORDERS = ["WA NT", "WA SA", "NT SA", "NT Q", "SA Q", "SA NSW", "SA V", "Q NSW", "NSW V"]
COLOURS = ["gold", "salmon", "skyblue", "palegreen"]

text = "min: " + " ".join(f"+{10 ** rank} any_{colour}" for rank, colour in enumerate(COLOURS)) + " ;\n"
for place in PLACES:
    text += " ".join(f"+1 {place}_{colour}" for colour in COLOURS) + " = 1 ;\n"
    text += "".join(f"+1 any_{colour} -1 {place}_{colour} >= 0 ;\n" for colour in COLOURS)
for one, other in map(str.split, BORDERS):
    text += "".join(f"+1 {one}_{colour} +1 {other}_{colour} <= 1 ;\n" for colour in COLOURS)

values = best(text).values
colour_of = {place: next(colour for colour in COLOURS if values[f"{place}_{colour}"]) for place in PLACES}
print("colours", len(set(colour_of.values())))
print("neighbours of one colour", sum(colour_of[one] == colour_of[other] for one, other in map(str.split, BORDERS)))
if len(sys.argv) > 1:
    lines = [f'<line x1="{PLACES[a][0]}" y1="{PLACES[a][1]}" x2="{PLACES[b][0]}" y2="{PLACES[b][1]}" stroke="grey"/>' for a, b in map(str.split, BORDERS)]
    dots = [f'<circle cx="{x}" cy="{y}" r="22" fill="{colour_of[place]}"/><text x="{x}" y="{y + 5}" text-anchor="middle">{place}</text>' for place, (x, y) in PLACES.items()]
    with open(sys.argv[1], "w", encoding="utf-8") as picture:
        picture.write("\n".join(['<svg xmlns="http://www.w3.org/2000/svg" viewBox="0 0 360 310">', *lines, *dots, "</svg>\n"]))
