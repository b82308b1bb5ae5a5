"""The jobs of the page: each has a private folder, runs the program in it, and tells step by step what came.

A job's events are dictionaries in a list that only grows, so whoever asks later is told the same from the start.
"""
import os
import secrets
import shlex
import shutil
import subprocess
import tempfile
import threading
import time

import texts

MOST_KEPT = 100
# How long a program that was asked to end may take, in seconds, before it is killed.
GRACE = 2


class Refusal(Exception):
    """What the server won't do: a status of HTTP, and why."""

    def __init__(self, status, why):
        super().__init__(why)
        self.status, self.why = status, why


class Stopped(Exception):
    """The job was stopped while it ran."""


class Program:
    """The program that answers: where it stands, and what it says of itself."""

    def __init__(self, path):
        self.path = path
        self.version = self.say("--version").strip()
        self.commands = texts.read_help(self.say("--help"))

    def say(self, word):
        """What the program prints for one word."""
        ran = subprocess.run([self.path, word], stdin=subprocess.DEVNULL, capture_output=True, check=True)
        return texts.text_of(ran.stdout)

    def knows(self, command, key):
        """Whether the page of commands names this key of the command."""
        return key in self.commands.get(command, {})


class Job:
    """A folder, the runs of the program in it, and what was told of them."""

    def __init__(self, program, folder, asked):
        self.id = secrets.token_hex(8)
        self.program, self.folder, self.asked = program, folder, asked
        self.events, self.changed = [], threading.Condition()
        self.begun = time.monotonic()
        self.ended = self.stopping = False
        self.process = self.thread = None
        # How a file of the folder is called outside: in commands that are shown, and when it is taken along.
        self.outside = {}

    def seconds(self):
        """How long the job has been going on."""
        return round(time.monotonic() - self.begun, 1)

    def tell(self, told, **what):
        """Adds an event. `end` is the last one."""
        with self.changed:
            self.events.append({"told": told, "seconds": self.seconds(), **what})
            self.ended = told == "end"
            self.changed.notify_all()

    def wait_for(self, number, seconds):
        """The events from this number on, waited for so long; and whether the job has ended."""
        with self.changed:
            self.changed.wait_for(lambda: len(self.events) > number or self.ended, seconds)
            return self.events[number:], self.ended

    def start(self, recipe):
        """Begins to do what the recipe says."""
        self.thread = threading.Thread(target=self.work, args=(recipe,), daemon=True)
        self.thread.start()

    def work(self, recipe):
        """Does what the recipe says, and tells how that ended. What the system refuses is one line."""
        try:
            recipe(self)
        except Stopped:
            self.tell("stopped")
        except OSError as fault:
            self.tell("fault", why=self.name_fault(fault))
        except Exception as fault:  # pylint: disable=broad-except
            # Whatever a recipe meets ends this job alone, and the page is told of it.
            self.tell("fault", why=f"{type(fault).__name__}: {fault}".splitlines()[0])
        self.tell("end", files=self.files())

    def name_fault(self, fault):
        """One line of what the system refused."""
        if not os.path.isdir(self.folder):
            return "the folder of this job is gone"
        return f"{fault.strerror or fault}: {os.path.basename(str(fault.filename or 'the program'))}"

    # Files

    def path(self, name):
        """Where a file of the folder stands; its name is the server's."""
        return os.path.join(self.folder, name)

    def write(self, name, data, outside=None):
        """Writes a file of the folder."""
        with open(self.path(name), "wb") as it:
            it.write(data)
        self.call(name, outside or name)

    def read(self, name):
        """The bytes of a file of the folder."""
        with open(self.path(name), "rb") as it:
            return it.read()

    def call(self, name, outside):
        """Says how a file is called outside. Only such a file may be fetched."""
        self.outside[name] = outside

    def files(self):
        """The files that there are to fetch, with their outside names."""
        return {name: it for name, it in self.outside.items() if os.path.exists(self.path(name))}

    # Runs

    def shown(self, words):
        """The command that does the same in a terminal."""
        return " ".join(["./line", *(shlex.quote(self.rename(word)) for word in words)])

    def rename(self, word):
        """A word with the outside name in place of the folder's."""
        key, mark, value = word.rpartition("=")
        return key + mark + self.outside.get(value, value)

    def run(self, *words):
        """Runs the program with these words, and tells of it. What it said is read and given back."""
        self.tell("run", command=words[0], shown=self.shown(words))
        begun = self.seconds()
        with self.changed:
            if self.stopping:
                raise Stopped
            # pylint: disable-next=consider-using-with
            self.process = subprocess.Popen(
                [self.program.path, *words], cwd=self.folder, stdin=subprocess.DEVNULL, stdout=subprocess.PIPE,
                stderr=subprocess.PIPE, start_new_session=True,
            )
        listener = threading.Thread(target=self.listen, args=(words[0], self.process.stderr), daemon=True)
        listener.start()
        said = self.process.stdout.read()
        code = self.process.wait()
        listener.join()
        self.process.stdout.close()
        if self.stopping and code < 0:
            raise Stopped
        # Without its folder a run can't have said what is so of the files.
        os.stat(self.folder)
        read = {"took": round(self.seconds() - begun, 1), **texts.read_run(words[0], code, said)}
        if read["kind"] == "usage":
            # The word at fault is behind the last one where one is missing.
            read["key"] = "".join(words[int(read["word"]):][:1]).partition("=")[0]
        self.tell("ran", command=words[0], files=self.files(), **read)
        return read

    def listen(self, command, stream):
        """Tells the lines of progress of a run as they come."""
        with stream:
            for line in stream:
                self.tell("progress", command=command, pairs=texts.read_progress(texts.text_of(line)))

    def stop(self):
        """Ends the run that is going on, and begins no other."""
        with self.changed:
            self.stopping = True
            process = self.process
        if process and process.poll() is None:
            process.terminate()
            threading.Thread(target=end_for_sure, args=(process,), daemon=True).start()

    def wait_to_end(self):
        """Waits until a job that was stopped has ended, so that it writes nothing more."""
        if self.thread:
            self.thread.join(2 * GRACE)


def end_for_sure(process):
    """Kills a process that doesn't end when it is asked to."""
    try:
        process.wait(GRACE)
    except subprocess.TimeoutExpired:
        process.kill()


class Jobs:
    """All jobs that are kept, with the folder that holds theirs."""

    def __init__(self, program):
        self.program = program
        self.folder = tempfile.mkdtemp(prefix="line-page-")
        self.kept, self.lock = {}, threading.Lock()
        self.most_running = len(os.sched_getaffinity(0))

    def begin(self, asked, recipe, prepare):
        """Begins a job, once its files are written. Raises Refusal where there are too many."""
        with self.lock:
            running = sum(not it.ended for it in self.kept.values())
            if running >= self.most_running:
                raise Refusal(429, f"{running} jobs are running, and there are no more processors: stop one, or wait")
            if len(self.kept) >= MOST_KEPT:
                why = f"{MOST_KEPT} jobs are kept, and no more: close an answer, or start ./line page anew"
                raise Refusal(429, why)
            job = Job(self.program, make_folder(self.folder), asked)
            self.kept[job.id] = job
        try:
            prepare(job)
        except BaseException:
            job.ended = True
            self.forget(job.id)
            raise
        job.start(recipe)
        return job

    def find(self, name):
        """The job of this name."""
        with self.lock:
            job = self.kept.get(name)
        if not job:
            raise Refusal(404, "there is no such job: it was closed, or the server was started anew")
        return job

    def forget(self, name):
        """Stops a job, and removes its folder."""
        job = self.find(name)
        job.stop()
        with self.lock:
            self.kept.pop(name, None)
        job.wait_to_end()
        shutil.rmtree(job.folder, ignore_errors=True)

    def close(self):
        """Stops all jobs, and removes all folders."""
        with self.lock:
            kept = list(self.kept.values())
        for job in kept:
            job.stop()
        for job in kept:
            job.wait_to_end()
        shutil.rmtree(self.folder, ignore_errors=True)


def make_folder(above):
    """A new private folder, as a refusal where the system has none."""
    try:
        return tempfile.mkdtemp(dir=above)
    except OSError as fault:
        raise Refusal(507, f"no folder could be made: {fault.strerror}") from fault
