"""Stands in for the program's command `rewind`: its lines come from the file `table` of a folder, which is its first word, and its
others go to the file `calls` there. The table has the clocks of an even and an odd line, for each frame whether its field is long and how many lines it
has, and changes: a clock, a name and the value from that clock on."""
import json
import os
import sys

FOLDER, *WORDS = sys.argv[1:]


def beam(table, clock):
    """Clock, frame, line, clock of the line and LOF; the start of the frame behind the last one for later clocks."""
    even, odd = table["line"]
    at = 0
    for frame, (long, lines) in enumerate(table["fields"]):
        length = lines // 2 * (even + odd) + lines % 2 * even
        if clock < at + length:
            return (clock, frame, *place(table, clock - at), long)
        at += length
    return at, len(table["fields"]), 0, 0, table["fields"][-1][0]


def place(table, rest):
    """Line and clock so many clocks behind a frame's start."""
    line = 0
    while rest >= table["line"][line % 2]:
        rest -= table["line"][line % 2]
        line += 1
    return line, rest


def line_of(table, clock, present):
    at, frame, line, inside, long = beam(table, clock)
    value = {"dmacon": 0, "color00": 0, "sum": 0}
    for change, name, word in table["changes"]:
        if change <= at:
            value[name] = word
    told = f"{value['dmacon']:04x} {value['color00']:04x} {value['sum']}"
    return at, f"{at} {frame} {line} {inside} {long} {told} {present if present <= clock else 0}"


def main():
    with open(os.path.join(FOLDER, "calls"), "a") as file:
        file.write(" ".join(WORDS) + "\n")
    with open(os.path.join(FOLDER, "table")) as file:
        table = json.load(file)
    if "said" in table:
        sys.stdout.write(table["said"])
        sys.exit(table["status"])
    present = 0
    for clock in map(int, WORDS[5:]):
        present, line = line_of(table, clock, present)
        print(line)


main()
