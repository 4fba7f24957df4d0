#!/usr/bin/env python3
"""A timetable: lessons of teachers to classes in two rooms, with hours that teachers would rather have free."""

from pbcnf.tools.answers import best

HOURS, ROOMS = ["8h", "9h", "10h", "11h"], ["hall", "lab"]
LESSONS = {"maths": ("Kim", "1a"), "physics": ("Kim", "1b"), "music": ("Lea", "1a"), "sports": ("Max", "1b"), "art": ("Lea", "1b"), "latin": ("Max", "1a")}
RATHER_FREE = {("Kim", "8h"): 3, ("Kim", "11h"): 1, ("Lea", "8h"): 2, ("Lea", "10h"): 5, ("Max", "11h"): 4}
ROOM_OF = {"physics": "lab", "sports": "hall", "music": "hall"}

places = [(lesson, hour, room) for lesson in LESSONS for hour in HOURS for room in ROOMS if ROOM_OF.get(lesson, room) == room]
name = {place: "-".join(place) for place in places}
# What stands first rather comes first, and in the hall.
rank = {lesson: len(LESSONS) - at for at, lesson in enumerate(LESSONS)}
costs = {(lesson, hour, room): 20 * RATHER_FREE.get((LESSONS[lesson][0], hour), 0) + rank[lesson] * HOURS.index(hour) + (room == "lab") * rank[lesson] for lesson, hour, room in places}
text = "min: " + " ".join(f"+{costs[place]} {name[place]}" for place in places) + " ;\n"
for lesson in LESSONS:
    text += " ".join(f"+1 {name[place]}" for place in places if place[0] == lesson) + " = 1 ;\n"
for hour in HOURS:
    for what in [*ROOMS, *{word for words in LESSONS.values() for word in words}]:
        text += " ".join(f"+1 {name[place]}" for place in places if place[1] == hour and what in (place[2], *LESSONS[place[0]])) + " <= 1 ;\n"

found = best(text)
for hour in HOURS:
    taken = {room: " ".join((lesson, *LESSONS[lesson])) for lesson, at, room in places if at == hour and found.values[name[lesson, at, room]]}
    print(f"{hour:4}" + "".join(f"{room}: {taken.get(room, '-'):20}" for room in ROOMS).rstrip())
print("cost", found.value)
