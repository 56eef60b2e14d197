#!/usr/bin/env python3
"""Brings the names of definitions and lemmas to the spelling of today's Rattle: snake case, for all but types and modules.

usage: python3 tools/spell_names.py [--list]     at the top of the repository, once, after the kit's port.py

- In crates/ (.rt, .antt, .edit) and in the pages (README.md, docs/*.md), a name that begins in lower case and holds an upper-case letter
  becomes snake case: sumBelow is sum_below. A part of a name behind a dash is taken by itself, and one that begins in upper case is
  the name of a type and stays.
- A definition, field or constructor of specs/ whose name holds a dash gets underscores: on-first is on_first. A dash stays in the names of lemmas, where it joins two names.
- OTHER lists the names that would fall together with a name that is there already, each with the name that it gets.

With --list it changes nothing, and prints the names that change and those that would fall together.
"""

import os
import re
import sys

# A name, with its dashes.
WORD = re.compile(r"(?<![\w'\-.:])([a-z_][\w']*(?:-[\w']+)*)|(?<=[.:])([a-z_][\w']*(?:-[\w']+)*)")
DEFINED = re.compile(r"^\s*(?:pub |abbrev |unfoldable |pattern )*([a-z][\w']*(?:-[\w']+)+)(?= *:| *\{)", re.M)

OTHER = {
    "all-at-once": "all_at_once_of",
    "allDigits": "all_digits_of",
    "alongEdge": "along_edge_of",
    "arcOf": "arc_in",
    "beginsWith": "begins_with_of",
    "by-augmentation": "by_augmentation_of",
    "by-ends": "through_ends",
    "by-range": "by_range_of",
    "by-sharing": "by_sharing_of",
    "byEnds": "by_ends_of",
    "byFirst": "by_first_of",
    "byHalves": "by_halves_of",
    "bySecond": "by_second_of",
    "bySteps": "by_steps_of",
    "codeBetween": "code_between_of",
    "countBelow": "count_below_of",
    "countRow": "count_row_of",
    "countRows": "count_rows_of",
    "csvLine": "csv_line_of",
    "endsRun": "ends_run_of",
    "equalsEnd": "equals_end_of",
    "eventSet": "events_in_set",
    "feedLine": "feed_line_of",
    "first-at": "first_at_of",
    "first-room": "first_room_of",
    "fromEnd": "from_end_of",
    "greatestDistance": "greatest_distance_of",
    "greatestSet": "greatest_set_of",
    "hasRooms": "has_rooms_of",
    "isBetween": "is_between_of",
    "isDigit": "is_digit_of",
    "isTurned": "is_turned_of",
    "isWithin": "is_within_of",
    "joinedOf": "joined_from",
    "lineEnd": "line_end_of",
    "locationDistance": "location_distance_of",
    "networkLine": "network_line_text",
    "nodeDistance": "node_distance_of",
    "numbersOf": "numbers_in",
    "onEdge": "on_edge_of",
    "orElse": "or_else_of",
    "perimeterCount": "perimeter_count_of",
    "placeAmong": "place_among_of",
    "problemOf": "problem_in",
    "readBelow": "read_below_of",
    "sameBytes": "same_bytes_of",
    "sameLength": "same_length_of",
    "second-room": "second_room_of",
    "setRuns": "set_runs_of",
    "shortestRoute": "shortest_route_of",
    "someFrom": "some_from_of",
    "tableEdges": "table_edges_of",
    "takeArc": "take_arc_of",
    "takeNumber": "take_number_of",
    "takeNumbers": "take_numbers_of",
    "takeProblem": "take_problem_of",
    "takeThreshold": "take_threshold_of",
    "toEnd": "to_end_of",
    "tooLong": "too_long_of",
    "wholeFrom": "whole_from_of",
}


def files():
    for top in ("crates", "docs"):
        for folder, dirs, names in os.walk(top):
            dirs[:] = sorted(d for d in dirs if d != "out")
            for name in sorted(names):
                if name.endswith((".rt", ".antt", ".edit", ".md")):
                    yield os.path.join(folder, name)
    yield "README.md"


def read(path):
    with open(path, encoding="utf-8", newline="") as file:
        return file.read()


def snake(part):
    if not part[0].islower() and part[0] != "_":
        return part
    return re.sub(r"(?<=[a-z0-9'])([A-Z])", lambda m: "_" + m[1].lower(), part)


def respelled(name, defined):
    new = "-".join(snake(part) for part in name.split("-"))
    if name in defined:
        new = new.replace("-", "_")
    return OTHER.get(name, new)


def turned(text, change):
    return WORD.sub(lambda m: change.get(m[0], m[0]), text)


def main():
    texts = {path: read(path) for path in files()}
    defined = set()
    words = {}
    for path, text in texts.items():
        if "/specs/" in path:
            defined.update(DEFINED.findall(text))
        if path.endswith(".md"):
            continue
        for m in WORD.finditer(text):
            words.setdefault(m[1] or m[2], set()).add(path)
    new = {name: respelled(name, defined) for name in words}
    change = {name: to for name, to in new.items() if to != name}
    by = {}
    for name, to in new.items():
        by.setdefault(to, []).append(name)
    if "--list" in sys.argv:
        for name, to in sorted(change.items()):
            print(name, to)
        for to, names in sorted(by.items()):
            if len(names) > 1:
                print("together:", to, names, {n: len(words[n]) for n in names})
        return
    for path, text in texts.items():
        if path.endswith(".md"):
            # In a page a name with a dash may be plain prose, so there only what stands between backticks is turned.
            said = re.sub(r"`[^`\n]*`", lambda m: turned(m[0], change), text)
        else:
            said = turned(text, change)
        if said != text:
            with open(path, "w", encoding="utf-8", newline="") as file:
                file.write(said)


main()
