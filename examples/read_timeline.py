#!/usr/bin/env python3
"""Reads a timeline that `timeline` printed and tells for each station its work, its utility work and its worst unit.

Usage: examples/read_timeline.py [FILE]. Without FILE the timeline is read from standard input.
"""
import csv, sys
from collections import defaultdict


def main():
    source = open(sys.argv[1], newline="") if len(sys.argv) > 1 else sys.stdin
    work, utility, worst = defaultdict(int), defaultdict(int), {}
    for row in csv.DictReader(source):
        station, over = int(row["station"]), int(row["utility"])
        work[station] += int(row["work"])
        utility[station] += over
        if over > worst.get(station, (0,))[0]:
            worst[station] = (over, row["unit"], row["model"])
    for station in sorted(work):
        line = f"station {station}: work {work[station]}, utility {utility[station]}"
        if station in worst:
            over, unit, model = worst[station]
            line += f", most at unit {unit} ({model}): {over}"
        print(line)
    print(f"all stations: work {sum(work.values())}, utility {sum(utility.values())}")


if __name__ == "__main__":
    main()
