"""The tests of the page that need no browser: the reading of the program's texts, what the server refuses, and what it
bears: programs that end by a signal, files that can't be written, folders that vanish, callers that are slow."""
import concurrent.futures
import json
import os
import select
import shlex
import shutil
import signal
import tempfile

from common import TOP, Served, copy_examples, example, page_module, read_answer, refusal, run_program

texts = page_module("texts")
# A program that dies, waits, or loses its folder where it is asked for a cycle time in 1, 2 or 3 stations.
STAND_IN = """#!/bin/sh
case "$*" in
    cycle*stations=1\\ *) kill -KILL $$ ;;
    cycle*stations=2\\ *) echo 'lower 53 upper 70' >&2; exec sleep 600 ;;
    cycle*stations=3\\ *) rm -r "$PWD" ;;
esac
exec {program} "$@"
"""
# Runs in a copy of examples/: the words, the exit code, and what is read from the text, by the path to it.
RUNS = [
    ("solve fan.csv cycle=55 cert=fan.cert", 0, {"optimal.value": "3", "idle.time": "20", "stations.1.station": "2",
     "stations.0.tasks": "Set base; Mount motor; Fit blade"}),
    ("solve pump.in2 cycle=50 helpers=0 units=1000", 1,
        {"stopped.cause": "units", "bounds.lower": "12", "bounds.upper": "14"}),
    ("solve jackson.in2 cycle=6 cert=long.cert", 0, {"infeasible.task": "4", "infeasible.time": "7"}),
    ("solve lamp.csv cycle=60 line=u helpers=0", 0, {"optimal.value": "2", "stations.1.side": "back"}),
    ("balance three-stations.in2 cycle=7", 0, {"balance.stations": "3", "total_bound.stations": "2"}),
    ("cycle jackson.in2 stations=5 cert=five.cert", 0, {"optimal.what": "cycle", "optimal.value": "10"}),
    ("cycle pump.in2 stations=13 units=1 helpers=0", 1, {"stopped.cause": "units"}),
    ("effic fan.csv least=2 most=4 cert=fan.product", 0,
        {"optimal.what": "product", "at.stations": "2", "at.cycle": "74"}),
    ("effic pump.in2 least=8 most=16 units=1 helpers=0", 1, {"stopped.cause": "units"}),
    ("check fan.csv fan.cert", 0, {"accepted.lower": "3", "accepted.line": "straight"}),
    ("check jackson.in2 long.cert", 0, {"accepted.infeasible": "4"}),
    ("check jackson.in2 five.cert", 0, {"accepted.stations": "5", "accepted.upper": "10"}),
    ("effic-check fan.csv fan.product", 0, {"accepted.least": "2", "accepted.most": "4"}),
    ("combine bikes.csv bikes.in2", 0, {"combined.tasks": "30", "combined.demand": "10"}),
    ("solve bikes.in2 cycle=600 cert=bikes.cert", 0, {"optimal.value": "9"}),
    ("sequence bikes.csv bikes.cert interval=60 length=70 out=bikes.proof", 0, {"optimal.what": "utility"}),
    ("sequence bikes.csv bikes.cert interval=60 length=70 units=1", 1, {"stopped.cause": "units"}),
    ("sequence-check bikes.csv bikes.cert bikes.proof interval=60 length=70", 0, {"accepted.lower": "44"}),
    ("utility bikes.csv bikes.cert bikes.txt interval=60 length=70", 0,
     {"total_utility.work": "44", "utilities.2.work": "20", "utilities.8.station": "9"}),
    ("timeline-draw bikes.csv bikes.cert bikes.txt bikes.svg interval=60 length=70", 0, {"written.file": "bikes.svg"}),
    ("draw fan.csv fan.cert fan.svg", 0, {"written.file": "fan.svg"}),
    ("plan fan.csv fan.cert", 0, {"plan.heading.3": "task", "plan.rows.1.3": "Mount motor", "plan.rows.1.5": "20"}),
    ("convert fan.csv fan.in2 to=in2", 0, {"written.file": "fan.in2"}),
    ("--version", 0, {"version.version": "0.1.0"}),
    ("balance fan.csv cycle=0", 2, {"kind": "usage", "word": "2", "fault": "bad value"}),
    ("balance chain.in2", 3, {"kind": "input", "fault": "no cycle time"}),
    ("balance cart.csv cycle=6", 3, {"kind": "input", "place": "record", "number": "2", "fault": "unknown task Cut"}),
    ("balance short.in2 cycle=6", 3, {"kind": "input", "place": "line", "number": "3", "fault": "missing end"}),
    ("balance ring.csv cycle=6", 3, {"kind": "input", "fault": "cycle a; b"}),
    ("draw fan.csv fan.cert none/fan.svg", 5, {"kind": "unwritten"}),
    ("check jackson.in2 three-stations.cert", 7, {"kind": "refused", "fault": "refused: tasks 5 11"}),
    ("check chain.in2 chain.in2", 7, {"kind": "refused", "fault": "certificate: line 1 form"}),
    ("check three-stations.in2 three-stations.cert steps=14", 8, {"kind": "steps", "steps": "14"}),
]
# Texts that no run of an example makes: the command, the exit code, the text, and what is read from it.
TEXTS = [
    ("solve", 6, b"memory\n", {"kind": "memory"}),
    ("solve", 6, b"stopped by memory\nbounds 2 4\n",
        {"kind": "answer", "stopped.cause": "memory", "bounds.upper": "4"}),
    ("solve", -9, b"", {"kind": "signal", "fault": "the program was ended by SIGKILL"}),
    ("solve", 0, b"seek used 3 of 9 kept 1\nwarm 2 of 5\noptimal 2\nidle 0\n", {"seek.kept": "1", "warm.taken": "2"}),
    ("solve", 0, b"who knows\n", {"kind": "strange", "fault": "the program printed: who knows"}),
    ("solve", 42, b"", {"kind": "strange"}),
    ("effic", 1, b"stopped by size\nbounds 2 4\n", {"stopped.cause": "size"}),
]
# How many bytes a slow caller sends at most, one a second.
SLOW_BYTES = 20
MADE = {"cart.csv": "task,time,after\nWeld,3,Cut\n", "short.in2": "1\n1\n",
    "ring.csv": "task,time,after\na,1,b\nb,1,a\n"}


def at(found, path):
    """What stands in nested lists and dictionaries behind a path with points."""
    for part in path.split("."):
        found = found[int(part)] if isinstance(found, list) else found.get(part)
        if found is None:
            return None
    return found


def try_texts(program, notes):
    """Reads what the program prints, in all exit codes."""
    with tempfile.TemporaryDirectory() as room:
        folder = copy_examples(room)
        for name, text in MADE.items():
            with open(f"{folder}/{name}", "w", encoding="utf-8") as it:
                it.write(text)
        for words, code, wanted in RUNS:
            ended, said = run_program(program, words.split(), folder)
            notes.same(f"{words}: code", ended, code)
            read_and_compare(notes, words.split()[0], ended, said, wanted)
        for command in texts.read_help(run_program(program, ["--help"], folder)[1].decode()):
            ended, said = run_program(program, [command], folder)
            notes.same(f"{command} alone", (ended, texts.read_run(command, ended, said)["kind"]), (2, "usage"))
        for command in ("solve none cycle=5", "cycle none stations=2", "effic none least=1 most=2", "check none none",
                        "plan none none", "combine none out", "convert none out to=csv", "draw none none out"):
            ended, said = run_program(program, command.split(), folder)
            read = texts.read_run(command.split()[0], ended, said)
            notes.same(command, (ended, read["kind"], read.get("file")), (4, "unread", "none"))
        try_pictures(folder, notes)
    for command, code, said, wanted in TEXTS:
        read_and_compare(notes, command, code, said, wanted)


def read_and_compare(notes, command, code, said, wanted):
    """Reads a text of the program, and compares what is wanted of it."""
    read = texts.read_run(command, code, said)
    for path, value in {"said": said.decode(), "kind": "answer" if code in (0, 1) else read["kind"], **wanted}.items():
        notes.same(f"{command} {code} {said[:60]}: {path}", at(read, path), value)


def try_pictures(folder, notes):
    """Reads a picture, a plan's table and the kinds of files."""
    with open(f"{folder}/fan.svg", "rb") as it:
        read = texts.read_picture(it.read())
    wanted = {"station": "1", "tasks": "Set base; Mount motor; Fit blade", "time": "55", "idle": "0"}
    notes.same("the first station of a picture", read["stations"][0], wanted)
    notes.so("the boxes of a picture", any("Mount motor" in it["title"] for it in read["boxes"]), read["boxes"])
    kinds = {
        "fan.csv": "table", "pump.csv": "table", "jackson.in2": "text", "bikes.csv": "mix", "fan.cert": "certificate",
        "fan.product": "product", "bikes.proof": "sequence",
    }
    for name, kind in kinds.items():
        with open(f"{folder}/{name}", "rb") as it:
            notes.same(f"the kind of {name}", texts.kind_of(it.read()), kind)
    notes.same("progress", texts.read_progress("lower 2 upper 3 seconds 1.5\n"),
        {"lower": "2", "upper": "3", "seconds": "1.5"})


def try_refusals(served, notes):
    """What the server refuses, each with its status and its words."""
    host = f"this server is {served.host} and answers to no other name"
    keyless = (403, "the address lacks the key that ./line page printed")
    no_call, no_file = (404, "there is no such call"), (404, "the page has no such file")
    no_job = (404, "there is no such job: it was closed, or the server was started anew")
    foreign = (403, "another page may not call this server")
    for told, found, wanted in [
        ("no key", served.send(f"GET / HTTP/1.1\r\nHost: {served.host}\r\n\r\n".encode()), keyless),
        ("a wrong key", served.call("", key="x" * len(served.key)), keyless),
        ("a key that isn't ASCII", served.call("", key="\xe9"), keyless),
        ("no Host", served.send(f"GET /{served.key}/ HTTP/1.1\r\n\r\n".encode()), (403, host)),
        ("a foreign Host", served.call("", Host="plan.example"), (403, host)),
        ("localhost", served.call("", Host=f"localhost:{served.port}"), (403, host)),
        ("a foreign Origin", served.call("start", Origin="http://plan.example"), foreign),
        ("an Origin of a file", served.call("jobs", "POST", {}, Origin="null"), foreign),
        ("a name above", served.call("../serve"), no_call),
        ("two points alone", served.call(".."), no_file),
        ("a name above, in percent", served.call("%2e%2e/serve"), no_call),
        ("a file of the server", served.call("serve"), no_file),
        ("a job that isn't there", served.call("jobs/0"), no_job),
        ("a method that isn't there", served.call("start", "PUT"), (501, "Unsupported method ('PUT')")),
        ("no length", served.call("jobs", "POST"), (411, "the length of the body isn't told")),
        ("a length of 5,000 digits", served.call("jobs", "POST", **{"Content-Length": "9" * 5000}),
         (411, "the length of the body isn't told")),
        ("a body above 16 MiB", served.call("jobs", "POST", "x" * (16 << 20)),
            (413, "more than 16 MiB: too long for the page")),
        ("no JSON", served.call("jobs", "POST", **{"Content-Length": 0}), (400, "the body isn't JSON")),
        ("no question", served.call("jobs", "POST", {"ask": "all"}), (400, "there is no such question")),
        ("a question without its file", served.call("jobs", "POST", {"ask": "look"}),
            (400, "the question needs a file: line")),
        ("a key of the server's own", served.call("jobs", "POST", {"ask": "look", "words": {"cert": "a"}}),
         (400, "words may have cycle, line, stations, least, most, units, seek, helpers, interval, length")),
        ("a word of two lines", served.call("jobs", "POST", {"ask": "look", "words": {"cycle": "5\n"}}),
         (400, "a value is a short text")),
        ("61 points", served.call("jobs", "POST", {"ask": "curve", "cycles": ["1"] * 61}),
            (400, "a curve has at most 60 points")),
        ("bytes that aren't base 64", served.call("jobs", "POST",
            {"ask": "look", "files": {"line": {"name": "a", "bytes": "?"}}}),
         (400, "a file has a name, and bytes in base 64")),
    ]:
        notes.same(told, refusal(found), wanted)


def try_answers(served, notes):
    """A whole answer with its files, the heads of an answer, and 50 callers at once."""
    status, head, body = served.call("")
    notes.so("the page", status == 200 and b"<h1>line</h1>" in body, head)
    notes.so("a policy", "script-src 'self'" in head and "default-src 'none'" in head and "nosniff" in head, head)
    job = served.begin("solve", {"cycle": "55"}, {"line": ("../<b>fan</b>.csv", example("fan.csv")[1])},
        apart=[[1, 3]])[1]["job"]
    events = served.events(job)
    ran = {it["command"]: it for it in events if it["told"] == "ran"}
    notes.same("the runs of an answer", list(ran), ["balance", "solve", "draw", "plan", "check"])
    notes.same("what check says", ran["check"]["said"][:32], "accepted straight cycle 55 lower")
    notes.same("the name outside", events[-1]["files"]["plan.csv"], "b>-plan.csv")
    notes.same("the plan", served.call(f"jobs/{job}/plan.csv")[2].decode(), ran["plan"]["said"])
    notes.so("a picture may load nothing", "sandbox" in served.call(f"jobs/{job}/picture.svg")[1])
    gone = (404, "the job has no such file")
    for name in ("..", "line.", "table.csv"):
        notes.same(f"the file {name} of a job", refusal(served.call(f"jobs/{job}/{name}")), gone)
    served.call(f"jobs/{job}", "DELETE")
    notes.same("a job that was closed", served.call(f"jobs/{job}")[0], 404)
    with concurrent.futures.ThreadPoolExecutor(50) as pool:
        found = list(pool.map(lambda _: served.call("start")[0], range(50)))
    notes.same("50 callers at once", found, [200] * 50)


def try_too_many(served, notes):
    """More than 100 kept jobs."""
    line = {"line": example("fan.csv")}
    jobs = []
    for _ in range(100):
        status, said = served.begin("curve", files=line, cycles=[])
        notes.same("one of 100 jobs", status, 200)
        jobs.append(said.get("job"))
        served.events(jobs[-1])
    found = served.begin("curve", files=line)
    notes.same("the job above 100", found,
        (429, {"refused": "100 jobs are kept, and no more: close an answer, or start ./line page anew"}))
    for job in jobs:
        served.call(f"jobs/{job}", "DELETE")


def try_faults(served, notes):
    """A program that dies, that loses its folder, that is stopped; more jobs than processors."""
    line = {"line": example("fan.csv")}
    dead = served.events(served.begin("cycle", {"stations": "1"}, line)[1]["job"])
    notes.same("a program that dies", [it.get("fault") for it in dead if it["told"] == "ran"],
        ["the program was ended by SIGKILL"])
    lost = served.events(served.begin("cycle", {"stations": "3"}, line)[1]["job"])
    whys = [it["why"] for it in lost if it["told"] == "fault"]
    notes.same("a folder that vanishes", (whys, lost[-1]["told"]), (["the folder of this job is gone"], "end"))
    most = len(os.sched_getaffinity(0))
    jobs = [served.begin("cycle", {"stations": "2"}, line)[1]["job"] for _ in range(most)]
    status, said = served.begin("cycle", {"stations": "2"}, line)
    wanted = f"{most} jobs are running, and there are no more processors: stop one, or wait"
    notes.same("more jobs than processors", (status, said), (429, {"refused": wanted}))
    for job in jobs[:-1]:
        served.call(f"jobs/{job}/stop", "POST", {})
        told = [it["told"] for it in served.events(job)]
        notes.same("a job that is stopped", told[-2:], ["stopped", "end"])
    notes.same("the server lives on", served.call("start")[0], 200)


def try_end(served, number, notes):
    """Nothing is left where the server ends while a job runs."""
    status, left = served.end(number)
    notes.same(f"the end by {signal.Signals(number).name}", (status, left), (0, []))
    notes.same("what the server said meanwhile", served.process.stderr.read(), b"")


def try_slow(program, notes):
    """A caller that sends a byte a second is told to go, and others are served meanwhile."""
    with Served(program, LINE_PAGE_CALL_SECONDS="3") as served, served.connect() as slow:
        slow.settimeout(1)
        notes.same("a call beside a slow one", served.call("start")[0], 200)
        for _ in range(SLOW_BYTES):
            slow.sendall(b"a")
            if select.select([slow], [], [], 1)[0]:
                break
        try:
            found = refusal(read_answer(slow))
        except TimeoutError:
            found = "no answer"
        notes.same("a slow caller", found, (408, "the call took too long"))


def try_full(program, notes):
    """Files that the system refuses to write."""
    with Served(program, most_bytes=1 << 16) as served:
        status, said = served.begin("look", files={"line": ("long.csv", b"x" * (1 << 17))})
        notes.same("a disk that is full", (status, said),
            (507, {"refused": "the files of the job could not be written: File too large"}))
        notes.same("the server lives on a full disk", served.call("start")[0], 200)
        notes.same("the end on a full disk", served.end(), (0, []))


def try_script(program, notes):
    """`./line page` serves with the program that stands there."""
    with tempfile.TemporaryDirectory() as room:
        shutil.copy(f"{TOP}/line", f"{room}/line")
        for folder in ("page", "examples"):
            os.symlink(f"{TOP}/{folder}", f"{room}/{folder}")
        os.mkdir(f"{room}/tools")
        with open(f"{room}/tools/program", "w", encoding="utf-8") as it:
            it.write(f"#!/bin/sh\necho {shlex.quote(program)}\n")
        os.chmod(f"{room}/tools/program", 0o755)
        with Served(program, command=[f"{room}/line", "page"]) as served:
            said = json.loads(served.call("start")[2])
            notes.same("./line page", said["version"], run_program(program, ["--version"], room)[1].decode().strip())
            notes.same("the end of ./line page by Ctrl-C", served.end(signal.SIGINT), (0, []))
        ended = run_program(f"{room}/line", ["page", "0"], room)
        notes.same("a port that is none", ended, (2, b""))


def try_plain(program, notes):
    """All tests that need no browser."""
    try_texts(program, notes)
    with tempfile.TemporaryDirectory() as room:
        stand_in = f"{room}/line"
        with open(stand_in, "w", encoding="utf-8") as it:
            it.write(STAND_IN.format(program=shlex.quote(program)))
        os.chmod(stand_in, 0o755)
        with Served(program) as served:
            try_refusals(served, notes)
            try_answers(served, notes)
            try_too_many(served, notes)
            try_end(served, signal.SIGTERM, notes)
        with Served(stand_in) as served:
            try_faults(served, notes)
            try_end(served, signal.SIGINT, notes)
    try_slow(program, notes)
    try_full(program, notes)
    try_script(program, notes)
