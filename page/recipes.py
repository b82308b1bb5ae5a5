"""What the page may ask, and which runs of the program answer it.

A question comes as JSON: `ask` names a recipe, `files` has each file with its name and its bytes in base 64, `words`
the keys of the program with their values, `apart` pairs of task numbers, and `cycles` the cycle times of a curve. Words
that name files are the server's alone.
"""
import base64
import binascii
import os

import texts
from jobs import Refusal

MOST_POINTS = 60
MOST_WORD = 100
MOST_RECORDS = 1024
FILES = ("line", "mix", "cert")
WORDS = ("cycle", "line", "stations", "least", "most", "units", "seek", "helpers", "interval", "length")


# A question is read

def read_question(asked):
    """A question as it came, tested; raises Refusal."""
    if not isinstance(asked, dict) or asked.get("ask") not in RECIPES:
        raise Refusal(400, "there is no such question")
    files = {name: read_file(it) for name, it in members(asked, "files", FILES).items()}
    words = {key: read_word(it) for key, it in members(asked, "words", WORDS).items()}
    cycles = [read_word(it) for it in read_list(asked, "cycles")]
    if len(cycles) > MOST_POINTS:
        raise Refusal(400, f"a curve has at most {MOST_POINTS} points")
    pairs = read_list(asked, "apart")
    if not all(isinstance(it, list) and len(it) == 2 and all(type(task) is int for task in it) for it in pairs):
        raise Refusal(400, "apart has pairs of task numbers")
    recipe, needed = RECIPES[asked["ask"]]
    missing = [name for name in needed if name not in files]
    if missing:
        raise Refusal(400, f"the question needs a file: {missing[0]}")
    return recipe, {"files": files, "words": words, "cycles": cycles, "apart": pairs}


def members(asked, name, allowed):
    """The members of a part of a question, which may have these names alone."""
    part = asked.get(name, {})
    if not isinstance(part, dict) or not set(part) <= set(allowed):
        raise Refusal(400, f"{name} may have {', '.join(allowed)}")
    return part


def read_list(asked, name):
    """A part of a question that is a list."""
    part = asked.get(name, [])
    if not isinstance(part, list):
        raise Refusal(400, f"{name} is a list")
    return part


def read_word(word):
    """The value of a key. What it may be is the program's to say."""
    if not isinstance(word, str) or len(word) > MOST_WORD or not word.isprintable():
        raise Refusal(400, "a value is a short text")
    return word


def read_file(file):
    """A file's name and its bytes."""
    try:
        return file_name(file["name"]), base64.b64decode(file["bytes"], validate=True)
    except (KeyError, TypeError, AttributeError, binascii.Error, ValueError) as fault:
        raise Refusal(400, "a file has a name, and bytes in base 64") from fault


def file_name(name):
    """The last part of a file's name as it may stand in a command: no key of the program, and no option."""
    last = "".join(it if it.isprintable() else "?" for it in name.replace("\\", "/").split("/")[-1])[:MOST_WORD]
    return f"./{last}" if "=" in last or last.startswith("-") else last or "line"


def prepare(job):
    """Writes the files of a question into the job's folder."""
    for name, (outside, data) in job.asked["files"].items():
        job.write(name, data, outside)
    if job.asked["apart"]:
        lines = [f"{one},{two}\n" for one, two in job.asked["apart"]]
        job.write("pairs", "".join([*lines, "-1,-1\n"]).encode(), f"{stem(job)}-apart.txt")


def stem(job):
    """The outside name of what is asked about, without its ending."""
    files = job.asked["files"]
    return os.path.splitext(files.get("line", files.get("mix"))[0])[0]


# Words of the program

def keys(job, *names):
    """The words of these keys, as far as the question gives them a value."""
    words = job.asked["words"]
    return [f"{name}={words[name]}" for name in names if words.get(name)]


def apart(job):
    """The word that names the pairs, where there are some."""
    return ["apart=pairs"] if job.asked["apart"] else []


def asks_progress(job, command):
    """The word that asks for lines of progress, where the program knows it."""
    return ["progress=yes"] if job.program.knows(command, "progress") else []


def effort(job, command, *names):
    """What every search is given: what it is asked, its effort and whether progress is told."""
    return [*keys(job, *names), *keys(job, "line", "units", "seek", "helpers"), *asks_progress(job, command)]


# What is shown

def look(job):
    """What a file is, and what of it can be shown before anything is asked."""
    data = job.read("line")
    kind = texts.kind_of(data)
    job.tell("file", is_a=kind)
    if kind == "mix":
        look_at_mix(job, data)
    elif kind in ("table", "text"):
        look_at_line(job, data, kind)


def look_at_line(job, data, kind):
    """The tasks of a line; or its records beside a fault."""
    read = job.run("convert", "line", "table.csv", "to=csv")
    if is_answer(read):
        job.tell("tasks", tasks=texts.read_tasks(job.read("table.csv")))
    else:
        tell_records(job, texts.read_records(data) if kind == "table" else texts.read_lines(data), read)


def look_at_mix(job, data):
    """The models of a mix and the tasks of its combined instance; or its records beside a fault."""
    read = job.run("combine", "line", "combined.in2")
    if is_answer(read):
        job.run("convert", "combined.in2", "table.csv", "to=csv")
        job.tell("mix", models=texts.read_mix(data), tasks=texts.read_tasks(job.read("table.csv")))
    else:
        tell_records(job, texts.read_records(data), read)


def tell_records(job, records, read):
    """The records of a file with a fault: so many as a line may have, those around the fault."""
    first = max(0, int(read.get("number", 0)) - MOST_RECORDS // 2)
    job.tell("records", records=records[first:first + MOST_RECORDS])


def show_balance(job, line, cert):
    """The picture and the plan of the balance that a certificate has."""
    job.call("picture.svg", f"{stem(job)}.svg")
    if is_answer(job.run("draw", line, cert, "picture.svg", *apart(job))):
        job.tell("picture", file="picture.svg", **texts.read_picture(job.read("picture.svg")))
    plan = job.run("plan", line, cert, *apart(job))
    if is_answer(plan):
        job.write("plan.csv", plan["said"].encode(), f"{stem(job)}-plan.csv")


def show_product(job, cert):
    """The picture and the plan of the balance that a certificate of a product has."""
    balance = texts.balance_of_product(texts.text_of(job.read(cert)))
    job.write("balance.cert", balance.encode(), f"{stem(job)}-balance.cert")
    show_balance(job, "line", "balance.cert")


def is_answer(read):
    """Whether a run answered."""
    return read["kind"] == "answer"


def has_balance(read):
    """Whether a run answered with a balance, and so wrote or accepted a certificate of one."""
    return read["code"] in (0, 1) and is_answer(read) and "infeasible" not in {**read, **read.get("accepted", {})}


# The questions

def ask_stations(job):
    """The fewest stations. The quick balance goes first: its bounds stand until the search has better ones."""
    if is_answer(job.run("balance", "line", *keys(job, "cycle", "line"), *apart(job))):
        ask_search(job, "solve", "cycle")


def ask_search(job, command, *names):
    """What a search finds for the line, its balance, and what the check says of its certificate."""
    job.call("answer.cert", f"{stem(job)}.cert")
    found = job.run(command, "line", *effort(job, command, *names), *apart(job), "cert=answer.cert")
    if has_balance(found):
        show_balance(job, "line", "answer.cert")
    if found["code"] in (0, 1):
        job.run("check", "line", "answer.cert", *apart(job))


def ask_product(job):
    """The least product of stations and cycle time, its balance, and what the check says of its certificate."""
    job.call("answer.cert", f"{stem(job)}-product.cert")
    found = job.run("effic", "line", *effort(job, "effic", "least", "most"), *apart(job), "cert=answer.cert")
    if has_balance(found):
        show_product(job, "answer.cert")
        job.run("effic-check", "line", "answer.cert", *apart(job))


def ask_check(job):
    """What the check says of a certificate, and the balance of one that it accepts."""
    is_product = texts.kind_of(job.read("cert")) == "product"
    read = job.run("effic-check" if is_product else "check", "line", "cert", *apart(job))
    if has_balance(read):
        if is_product:
            show_product(job, "cert")
        else:
            show_balance(job, "line", "cert")


def ask_curve(job):
    """The fewest stations at each of some cycle times, each with what the check says of its certificate."""
    for cycle in job.asked["cycles"]:
        read = job.run("solve", "line", f"cycle={cycle}", *effort(job, "solve"), *apart(job), "cert=answer.cert")
        checked = job.run("check", "line", "answer.cert", *apart(job)) if read["code"] in (0, 1) else read
        job.tell("point", cycle=cycle, checked=checked["said"], **read)
        if not is_answer(read):
            return
        if not is_answer(checked):
            job.tell("fault", why=f"the check at cycle time {cycle}: {checked['fault']}")
            return


def ask_models(job):
    """A balance of the combined instance of a mix, and then the order of its models with the least utility work."""
    job.call("combined.in2", f"{stem(job)}.in2")
    job.call("answer.cert", f"{stem(job)}.cert")
    if not is_answer(job.run("combine", "mix", "combined.in2")):
        return
    found = job.run("solve", "combined.in2", *keys(job, "cycle"), *asks_progress(job, "solve"), "cert=answer.cert")
    if has_balance(found):
        show_balance(job, "combined.in2", "answer.cert")
        job.run("check", "combined.in2", "answer.cert")
        ask_sequence(job)


def ask_sequence(job):
    """The order of the models over the balance, what the check says of it, and its timeline."""
    job.call("answer.proof", f"{stem(job)}.proof")
    job.call("timeline.svg", f"{stem(job)}-timeline.svg")
    launch = keys(job, "interval", "length")
    found = job.run(
        "sequence", "mix", "answer.cert", *launch, *keys(job, "units", "seek"), *asks_progress(job, "sequence"),
        "out=answer.proof",
    )
    if not is_answer(found) or found["code"] not in (0, 1):
        return
    order = "\n".join([*found["sequence"]["models"].split(), ""])
    job.write("sequence.txt", order.encode(), f"{stem(job)}-sequence.txt")
    if is_answer(job.run("timeline-draw", "mix", "answer.cert", "sequence.txt", "timeline.svg", *launch)):
        job.tell("timeline", file="timeline.svg", **texts.read_picture(job.read("timeline.svg")))
    job.run("utility", "mix", "answer.cert", "sequence.txt", *launch)
    job.run("sequence-check", "mix", "answer.cert", "answer.proof", *launch)


# Each question: its recipe, and the files that it needs.
RECIPES = {
    "look": (look, ["line"]),
    "solve": (ask_stations, ["line"]),
    "cycle": (lambda job: ask_search(job, "cycle", "stations"), ["line"]),
    "effic": (ask_product, ["line"]),
    "check": (ask_check, ["line", "cert"]),
    "curve": (ask_curve, ["line"]),
    "models": (ask_models, ["mix"]),
}
