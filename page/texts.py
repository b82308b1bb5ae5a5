"""Reads what the program takes and prints: its answers and faults by their exit codes, plans, pictures, sheets and the
page of its commands. All reading of such texts for the page of planners stands here.

What was read is made of lists, dictionaries and texts. A number stays the text that the program printed.
"""
import csv
import io
import re
import signal
import xml.etree.ElementTree

# The lines of answers: the name of each, and its form. Where a name stands twice, the first form that fits counts.
LINES = [(name, re.compile(form)) for name, form in [
    ("warm", r"warm (?P<taken>\d+) of (?P<old>\d+)"),
    ("seek", r"seek used (?P<used>\d+) of (?P<allowed>\d+) kept (?P<kept>\d+)"),
    ("optimal", r"optimal (?:(?P<what>cycle|product|utility) )?(?P<value>\d+)"),
    ("stopped", r"stopped by (?P<cause>units|size|memory)"),
    ("bounds", r"bounds (?P<lower>\d+) (?P<upper>\d+)"),
    ("at", r"stations (?P<stations>\d+) cycle (?P<cycle>\d+)"),
    ("idle", r"idle (?P<time>\d+)"),
    ("balance", r"balance (?P<stations>\d+)"),
    ("total_bound", r"total bound (?P<stations>\d+)"),
    ("infeasible", r"infeasible: task (?P<task>.+) time (?P<time>\d+)"),
    ("combined", r"combined tasks (?P<tasks>\d+) demand (?P<demand>\d+)"),
    ("sequence", r"sequence: (?P<models>.*)"),
    ("total_utility", r"total utility (?P<work>\d+)"),
    ("written", r"written (?P<file>.+)"),
    ("apart_left_out", r"apart left out"),
    ("accepted", r"accepted (?P<line>straight|u) cycle (?P<cycle>\d+) infeasible (?P<infeasible>\d+)"),
    ("accepted", r"accepted (?P<line>straight|u) cycle (?P<cycle>\d+)"
                 r" lower (?P<lower>\d+) upper (?P<upper>\d+) units (?P<units>\d+)"),
    ("accepted", r"accepted (?P<line>straight|u) stations (?P<stations>\d+)"
                 r" lower (?P<lower>\d+) upper (?P<upper>\d+) units (?P<units>\d+)"),
    ("accepted", r"accepted (?P<line>straight|u) product (?P<least>\d+) (?P<most>\d+)"
                 r" lower (?P<lower>\d+) upper (?P<upper>\d+) units (?P<units>\d+)"),
    ("accepted", r"accepted utility lower (?P<lower>\d+) upper (?P<upper>\d+) units (?P<units>\d+)"),
    ("version", r"line (?P<version>\S+)"),
]]
# The lines that an answer has for each station, gathered in lists.
STATION_LINES = [(name, re.compile(form)) for name, form in [
    ("utilities", r"station (?P<station>\d+) utility (?P<work>\d+)"),
    ("stations", r"station (?P<station>\d+)(?: (?P<side>back))?:(?: (?P<tasks>.*))?"),
]]
# The one line of a refusal, by its exit code.
REFUSALS = {
    2: ("usage", re.compile(r"usage: word (?P<word>\d+) (?P<fault>.+)")),
    3: ("input", re.compile(r"input: (?P<file>\S+) (?:(?P<place>record|line|unit) (?P<number>\d+) )?(?P<fault>.+)")),
    4: ("unread", re.compile(r"read fault: (?P<file>.+)")),
    6: ("memory", re.compile(r"(?P<fault>memory)")),
    7: ("refused", re.compile(r"(?P<fault>(?:refused|certificate): .+)")),
    8: ("steps", re.compile(r"(?P<fault>steps ended at (?P<steps>\d+))")),
}
# What the first bytes of a file tell of it. A byte-order mark and quotes may stand in front.
KINDS = [(name, re.compile(form, re.I)) for name, form in [
    ("certificate", rb"line balance certificate "),
    ("product", rb"line balance product "),
    ("sequence", rb"utility sequence certificate "),
    ("mix", rb'(?:\xef\xbb\xbf)?[\r\n]*"?tasks"?,'),
    ("table", rb'(?:\xef\xbb\xbf)?[\r\n]*"?task"?[,;\t]'),
]]
MARK = re.compile(rb'[\r\n]*"?[a-z]+"?([,;\t])', re.I)
SVG = "{http://www.w3.org/2000/svg}"
SHIFT = re.compile(r"translate\((-?\d+) (-?\d+)\)")
BOX = re.compile(r"M(\d+) ?(-?\d+)v(\d+)h(\d+)v-\d+z")
STATION_TITLE = re.compile(r"station (?P<station>\d+): ?(?P<tasks>.*), time (?P<time>\d+), idle (?P<idle>\d+)", re.S)


class Unread(Exception):
    """A text has another form than the program's texts have."""


def text_of(data):
    """Bytes as a text; what isn't UTF-8 is shown by a mark."""
    return data.decode("utf-8", "replace")


def lines_of(text):
    """The lines of a text, which end at LF alone."""
    return text[:-1].split("\n") if text.endswith("\n") else text.split("\n")


# Answers and refusals

def read_run(command, code, said):
    """What a run says that ended with this exit code, below 0 by a signal, and printed these bytes: `kind` is `answer`,
    a refusal's name, `unwritten`, `signal` or `strange`; `said` is the whole text."""
    text = text_of(said)
    found = {"code": code, "said": text}
    if code < 0:
        return {**found, "kind": "signal", "fault": f"the program was ended by {name_signal(-code)}"}
    if code == 5:
        return {**found, "kind": "unwritten", "fault": "a file or the output could not be written"}
    try:
        if code in (0, 1) or text.startswith("stopped by memory\n"):
            return {**found, "kind": "answer", **(read_plan(said) if command == "plan" else read_answer(text))}
        return {**found, **read_refusal(code, text)}
    except Unread as fault:
        return {**found, "kind": "strange", "fault": str(fault)}


def name_signal(number):
    """The name of a signal, such as SIGKILL."""
    try:
        return signal.Signals(number).name
    except ValueError:
        return f"signal {number}"


def read_answer(text):
    """The lines of an answer, each under its name; the lines of the stations in lists."""
    found = {}
    for line in lines_of(text):
        name, groups, many = read_line(line)
        if many:
            found.setdefault(name, []).append(groups)
        else:
            found[name] = groups
    return found


def read_line(line):
    """The name of an answer's line, what stands in it, and whether it is one of many."""
    for forms, many in ((STATION_LINES, True), (LINES, False)):
        for name, form in forms:
            fits = form.fullmatch(line)
            if fits:
                return name, {key: it for key, it in fits.groupdict().items() if it is not None}, many
    raise Unread(f"the program printed: {line}")


def read_refusal(code, text):
    """The one line of a refusal."""
    line = text.rstrip("\n")
    kind, form = REFUSALS.get(code, (None, None))
    fits = form and form.fullmatch(line)
    if not fits:
        raise Unread(f"the program ended with code {code}" + (f" and printed: {line}" if line else ""))
    found = {"kind": kind, **{key: it for key, it in fits.groupdict().items() if it is not None}}
    found.setdefault("fault", line)
    return found


def read_progress(line):
    """A line of progress: pairs of a key and a value."""
    words = line.split()
    return dict(zip(words[::2], words[1::2]))


def read_help(text):
    """The commands of the page of `--help`, and for each its keys with their range and default."""
    found, keys = {}, {}
    for line in text.split("\n\n")[0].splitlines()[1:]:
        command = re.match(r"[a-z-]+(?= )", line)
        if command:
            keys = found.setdefault(command[0], {})
        # An indented line that begins with the program's name is an example.
        if not line.startswith("    line "):
            for key, values, default in re.findall(r"\b([a-z]+)=(\S+)(?: \(([^)]*)\))?", line):
                keys[key] = {"range": values, "default": default}
    return found


# Sheets: plans, tables and mixes

def kind_of(data):
    """What a file is: `certificate`, `product`, `sequence`, `mix`, `table`, or else `text`, as of IN2 and ALB."""
    return next((name for name, form in KINDS if form.match(data)), "text")


def read_records(data):
    """The records of comma-separated values, or of semicolons or tabs, each with its number and its fields."""
    data = data[3:] if data.startswith(b"\xef\xbb\xbf") else data
    mark = MARK.match(data)
    text = io.StringIO(text_of(data), newline="")
    # A field may be as long as the file.
    csv.field_size_limit(1 << 30)
    rows = csv.reader(text, delimiter=mark[1].decode() if mark else ",")
    return [{"number": number, "fields": row} for number, row in enumerate((row for row in rows if row), 1)]


def read_lines(data):
    """The lines of a text, each with its number, in the form of records."""
    return [{"number": number, "fields": [line]} for number, line in enumerate(lines_of(text_of(data)), 1)]


def read_tasks(data):
    """The tasks of a table as `convert` writes it."""
    records = [it["fields"] + [""] * (4 - len(it["fields"])) for it in read_records(data)[1:]]
    return [{"task": task, "time": time, "after": after, "apart": apart} for task, time, after, apart in records]


def read_mix(data):
    """The models of a mix with their demands and their times, by the number of the task."""
    models = {}
    for kind, *fields in (it["fields"] for it in read_records(data)):
        if kind == "model":
            models[fields[0]] = {"model": fields[0], "demand": fields[1], "times": {}}
        elif kind == "time":
            models[fields[0]]["times"][fields[1]] = fields[2]
    return list(models.values())


def read_plan(data):
    """The heading and the rows of a plan."""
    heading, *rows = [it["fields"] for it in read_records(data)]
    return {"plan": {"heading": heading, "rows": rows}}


def balance_of_product(text):
    """A certificate of the balance alone that a certificate of a product has: `draw` and `plan` read no products. Its
    lower bound is 1, which needs no proof; all else is taken over."""
    lines = text.split("\n")
    said = dict(line.split(" ", 1) for line in lines[1:7])
    places = lines[8:8 + int(said["tasks"])]
    head = ["line balance certificate 2", lines[1], lines[2], f"cycle {said['cycle']}", "lower 1"]
    stations = lines[7].split(" ")[1]
    return "\n".join([*head, f"upper {stations}", f"balance {stations}", *places, "entries 0", "trail 0", "end", ""])


# Pictures

def read_picture(data):
    """The title and the size of a picture, its stations with what they are told to have, and the boxes of it that tell
    something where they are pointed at."""
    root = xml.etree.ElementTree.fromstring(data)
    stations, boxes = [], []
    gather(root, (0, 0), stations, boxes)
    lines = [it.text for it in root.findall(f"{SVG}text")]
    return {
        "title": root.findtext(f"{SVG}title"), "width": root.get("width"), "height": root.get("height"),
        "lines": lines[1:3], "stations": stations, "boxes": boxes,
    }


def gather(node, corner, stations, boxes):
    """Adds the stations and the boxes of a part of a picture, whose own corner stands there."""
    shift = SHIFT.fullmatch(node.get("transform", ""))
    if shift:
        corner = (corner[0] + int(shift[1]), corner[1] + int(shift[2]))
    title = node.findtext(f"{SVG}title")
    box = BOX.fullmatch(node.get("d", ""))
    if box and title:
        x, y, height, width = map(int, box.groups())
        boxes.append({"x": corner[0] + x, "y": corner[1] + y, "width": width, "height": height, "title": title})
    station = title and node.tag == f"{SVG}g" and STATION_TITLE.fullmatch(title)
    if station:
        stations.append(station.groupdict())
    for child in node:
        gather(child, corner, stations, boxes)
