#!/usr/bin/env python3
"""A packing: things into as few boxes as they go into, each drawn as a bar."""

from pbcnf.tools.answers import best

WEIGHTS = {"books": 9, "pans": 7, "shoes": 4, "lamp": 3, "tools": 8, "plates": 6, "toys": 5, "games": 4, "cables": 2}
BOXES, ROOM = range(5), 17

# What stands first is needed first, so it rather goes into the first boxes.
text = "min: " + " ".join(f"+1000 box{box}" for box in BOXES)
text += "".join(f" +{box * (len(WEIGHTS) - rank) ** 2} {thing}{box}" for box in BOXES for rank, thing in enumerate(WEIGHTS)) + " ;\n"
for thing in WEIGHTS:
    text += " ".join(f"+1 {thing}{box}" for box in BOXES) + " = 1 ;\n"
for box in BOXES:
    text += " ".join(f"+{weight} {thing}{box}" for thing, weight in WEIGHTS.items()) + f" -{ROOM} box{box} <= 0 ;\n"
for box in BOXES[1:]:
    # Boxes are taken in their order.
    text += f"+1 box{box - 1} -1 box{box} >= 0 ;\n"

packed = best(text)
for box in BOXES:
    things = [thing for thing in WEIGHTS if packed.values[f"{thing}{box}"]]
    if things:
        weight = sum(WEIGHTS[thing] for thing in things)
        print(f"box {box + 1} {'#' * weight:{ROOM}}| {weight:2} of {ROOM}: {', '.join(things)}")
print("boxes", sum(packed.values[f"box{box}"] for box in BOXES))
