#!/usr/bin/env python3
"""Reads a list of lines to solve, and joins what came of them into a table.

A list is a CSV file. Its first row is `file,cycle,line,words`, for `solve`, or `file,stations,line,words`, for `cycle`.
Each further row is a record, counted from 1. Files are named as seen from the folder of the list.

    rows.py plan LIST OUT     writes into the folder OUT what is to be run:
        list          the path of the list
        jobs/KEY      a record as lines of a name and a value, which one.sh reads
        keys          the key of each record, a line each
        chains        the numbers of the records of each chain, a line each
        plan.mk       the targets of the Makefile
    rows.py table LIST OUT    writes OUT/results.csv, a row for each record

A key is made of all that a result depends on: the record, what its files say, and the key of the record that it begins
from. So a record whose line has changed has another key, and is run anew. Exit codes: 0 done; 2 other words than these;
3 the list has a fault; 4 the list can't be read; 5 OUT can't be written.
"""
import csv
import hashlib
import os
import re
import sys

COMMANDS = {"cycle": "solve", "stations": "cycle"}
LEAST, MOST = 1, {"cycle": 10**18, "stations": 1024}
KINDS = ("straight", "u")
# Keys that the list itself gives, or one.sh.
TAKEN = ("cycle", "stations", "line", "cert", "out", "warm")
COLUMNS = ("file,tasks,cycle,line,lower,upper,status,stations,units,lemmas,bytes,solve_seconds,check_seconds,"
           "words").split(",")


class Fault(Exception):
    """A fault that ends the script: its exit code and its line."""


def number_fault(limit, text):
    """What is wrong with a cycle time or a number of stations, or None."""
    if re.fullmatch("[1-9][0-9]{0,18}", text) and LEAST <= int(text) <= MOST[limit]:
        return None
    return f"{limit} \"{text}\" isn't a number from {LEAST} to {MOST[limit]}"


def word_fault(word):
    """What is wrong with a further word, or None."""
    if not re.fullmatch("[a-z]+=.+", word):
        return f"the word \"{word}\" isn't KEY=VALUE"
    key = word.partition("=")[0]
    return f"the key {key} can't be among the words" if key in TAKEN else None


def text_fault(text):
    """What is wrong with the text of any field, or None."""
    if re.search("[\x00-\x1f\x7f]", text):
        return "a field has a line feed or another control character"
    if re.search("[\ud800-\udfff]", text):
        return "a field isn't UTF-8"
    return None


def fault_of(limit, fields):
    """What is wrong with a record, or None."""
    if len(fields) != 4:
        return f"{len(fields)} fields, not 4"
    file, number, kind, words = fields
    tests = [text_fault(it) for it in fields]
    tests.append(None if file else "no file")
    tests.append(number_fault(limit, number))
    tests.append(None if kind in KINDS else f"line \"{kind}\" isn't straight or u")
    tests.extend(word_fault(word) for word in words.split())
    return next((it for it in tests if it), None)


def read(path):
    """The list: whether it gives cycle times or stations, and its records."""
    records, limit = [], None
    try:
        with open(path, newline="", encoding="utf-8-sig", errors="surrogateescape") as lines:
            for fields in csv.reader(lines, strict=True):
                if not fields:
                    continue
                if limit is None:
                    limit = limit_of(path, fields)
                    continue
                fault = fault_of(limit, fields)
                if fault:
                    raise Fault(3, f"{path} record {len(records) + 1}: {fault}")
                records.append(dict(zip(("file", "limit", "line", "words"), fields)))
    except csv.Error as error:
        raise Fault(3, f"{path} record {len(records) + 1}: {error}") from error
    except OSError as error:
        raise Fault(4, f"{path}: {error.strerror}") from error
    if not records:
        raise Fault(3, f"{path}: no records")
    return limit, records


def limit_of(path, fields):
    """Which form the first row of a list tells."""
    for limit in COMMANDS:
        if fields == ["file", limit, "line", "words"]:
            return limit
    raise Fault(3, f"{path}: the first row is neither file,cycle,line,words nor file,stations,line,words")


def chains_of(path, limit, records):
    """The chains: lists of places in the list. One file at several cycle times is one chain, the longest first."""
    chains, seen = {}, {}
    for place, record in enumerate(records):
        words = " ".join(record["words"].split())
        group = (record["file"], record["line"], words) + ((record["limit"],) if limit == "stations" else ())
        same = seen.setdefault((group, record["limit"]), place)
        if same != place:
            raise Fault(3, f"{path} record {place + 1}: the same as record {same + 1}")
        chains.setdefault(group, []).append(place)
    return [sorted(chain, key=lambda it: -int(records[it]["limit"])) for chain in chains.values()]


def sum_of(path, known):
    """The sum of what a file says, or `none`; `known` has those that were taken before."""
    if path not in known:
        known[path] = "none"
        if os.path.isfile(path):
            try:
                with open(path, "rb") as it:
                    sum_now = hashlib.sha256()
                    while piece := it.read(1 << 20):
                        sum_now.update(piece)
                known[path] = sum_now.hexdigest()
            except OSError:
                pass
    return known[path]


def job_of(folder, limit, record, after, known):
    """The text of a job; `after` is the key of the job that it begins from, or None."""
    words = record["words"].split()
    if not any(it.startswith("helpers=") for it in words):
        words.append("helpers=0")
    apart = [it.partition("=")[2] for it in words if it.startswith("apart=")]
    lines = [f"command {COMMANDS[limit]}", f"file {record['file']}", f"limit {limit}={record['limit']}",
             f"line {record['line']}", f"words {' '.join(words)}"]
    lines.extend(f"sum {sum_of(os.path.join(folder, it), known)}" for it in [record["file"]] + apart)
    lines.extend([f"after {after}"] if after else [])
    return "".join(f"{it}\n" for it in lines)


def key_of(record, job):
    """The key of a job: a name that can be read, and a sum."""
    name = re.sub("[^A-Za-z0-9._-]", "_", os.path.basename(record["file"]))[-40:].lstrip(".")
    return f"{name}-{record['limit']}-{record['line']}-{hashlib.sha256(job.encode()).hexdigest()[:16]}"


def planned(path):
    """What a list gives; its records, each with its key, its job and the place that it begins from; and the chains."""
    limit, records = read(path)
    folder, known = os.path.dirname(os.path.abspath(path)), {}
    chains = chains_of(path, limit, records)
    for chain in chains:
        before = None
        for place in chain:
            record = records[place]
            after = records[before]["key"] if before is not None else None
            record["job"] = job_of(folder, limit, record, after, known)
            record["key"] = key_of(record, record["job"])
            record["after"] = before
            before = place
    return limit, records, chains


def write(path, text):
    """Writes a file under another name and renames it; one that says the same stays as it is."""
    try:
        with open(path, encoding="utf-8", errors="surrogateescape", newline="") as it:
            if it.read() == text:
                return
    except FileNotFoundError:
        pass
    with open(f"{path}.new", "w", encoding="utf-8", newline="") as it:
        it.write(text)
    os.replace(f"{path}.new", path)


def make_folders(out):
    """The folders of OUT, each one that can be written."""
    for folder in (out, *(os.path.join(out, it) for it in ("jobs", "certs", "rows", "work"))):
        os.makedirs(folder, exist_ok=True)
        if not os.access(folder, os.W_OK | os.X_OK):
            raise Fault(5, f"{folder}: can't be written")


def plan(path, out):
    """Writes what is to be run, the targets last."""
    _, records, chains = planned(path)
    make_folders(out)
    for record in records:
        write(os.path.join(out, "jobs", record["key"]), record["job"])
    write(os.path.join(out, "list"), f"{os.path.abspath(path)}\n")
    write(os.path.join(out, "keys"), "".join(f"{it['key']}\n" for it in records))
    write(os.path.join(out, "chains"), "".join(" ".join(str(it + 1) for it in chain) + "\n" for chain in chains))
    rules = [f"records := {' '.join(str(it + 1) for it in range(len(records)))}"]
    rules += [f"{place + 1}: {it['after'] + 1}" for place, it in enumerate(records) if it["after"] is not None]
    write(os.path.join(out, "plan.mk"), "".join(f"{it}\n" for it in rules))


def values_of(path):
    """What a file of names and values says; nothing where it isn't there or isn't whole."""
    try:
        with open(path, encoding="utf-8", errors="replace", newline="\n") as it:
            lines = it.read().split("\n")
    except OSError:
        return {}
    return dict(it.partition(" ")[::2] for it in lines[:-2]) if lines[-2:] == ["end", ""] else {}


def size_of(path):
    """The bytes of a file as text, or an empty text where there is none."""
    try:
        return str(os.path.getsize(path))
    except OSError:
        return ""


def result_of(out, record, records):
    """The values of a record: those of its run, those of its failure, or what it waits for."""
    key = record["key"]
    done = values_of(os.path.join(out, "rows", key))
    if done and size_of(os.path.join(out, "certs", f"{key}.cert")) == done.get("bytes"):
        return done
    failed = values_of(os.path.join(out, "rows", f"{key}.failed"))
    if failed:
        return failed
    before = record["after"]
    waits = before is not None and not os.path.exists(os.path.join(out, "rows", records[before]["key"]))
    return {"status": f"waits for record {before + 1}" if waits else "not run"}


def table(path, out):
    """Writes the table, in the order of the list, and tells how many records have a result."""
    limit, records, _ = planned(path)
    done = 0
    with open(os.path.join(out, "results.csv.new"), "w", encoding="utf-8", newline="") as it:
        rows = csv.DictWriter(it, COLUMNS, restval="", extrasaction="ignore", lineterminator="\n")
        rows.writeheader()
        for record in records:
            values = {**result_of(out, record, records), **record, limit: record["limit"]}
            done += values.get("code") in ("0", "1")
            rows.writerow(values)
    os.replace(os.path.join(out, "results.csv.new"), os.path.join(out, "results.csv"))
    print(f"{os.path.join(out, 'results.csv')}: {len(records)} records, {done} with a result")


def main():
    """Does what the words ask for."""
    jobs = {"plan": plan, "table": table}
    if len(sys.argv) != 4 or sys.argv[1] not in jobs:
        print("rows.py plan LIST OUT, or rows.py table LIST OUT", file=sys.stderr)
        return 2
    try:
        jobs[sys.argv[1]](*sys.argv[2:])
    except Fault as fault:
        print(fault.args[1], file=sys.stderr)
        return fault.args[0]
    except OSError as error:
        print(f"{error.filename or sys.argv[3]}: {error.strerror}", file=sys.stderr)
        return 5
    return 0


if __name__ == "__main__":
    sys.exit(main())
