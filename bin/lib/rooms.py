"""The crates of this repository, and rooms in which rt works on one of them. As a program: the kit's rt, with each library summed up once.

rt keeps all others out of a crate's folder and of the folders below it while it works there. A room is a folder of its
own with copies of the sources and links to the libraries, so that checks run side by side.
"""
import importlib.machinery
import importlib.util
import os
import re
import shutil
import subprocess
import sys
import tempfile
import threading
import time
from concurrent.futures import FIRST_COMPLETED, ThreadPoolExecutor, wait

TOP = os.path.dirname(os.path.dirname(os.path.dirname(os.path.abspath(__file__))))
PARTS = ("src", "specs", "proofs")
# What a check of one crate was seen to take, in bytes, at most.
CHECK = 3_500_000_000
# What a check of the gate takes of the memory, in bytes, with three others beside it: the programs take 4.6 and 6.3 GB, most others less than 3.
GATE_CHECK = 4_500_000_000
# Lines of sources and proofs that one processor proves in a second, as seen at 2.5 GHz.
PACE = 14
# Held while the kit's rt is read: several threads may ask for it at once.
KIT = threading.Lock()
# The kit's rt, as this file runs it where it is a program.
RT = (sys.executable, "-B", os.path.abspath(__file__))


def folder(name, top=TOP):
    return f"{top}/crates/{name}"


def listed(top=TOP):
    """The crates that stand in crates.txt, each with what it stands on, lowest first."""
    found = {}
    for line in open(f"{top}/crates.txt", encoding="utf-8"):
        name, colon, uses = line.partition("#")[0].partition(":")
        if colon:
            found[name.split()[0]] = uses.split()
    return found


def own(crates, name):
    """The crates of this repository that the crate names."""
    return [it for it in crates[name] if it in crates]


def below(crates, name):
    """All crates of this repository below the crate, lowest first."""
    found = set()
    todo = own(crates, name)
    while todo:
        it = todo.pop()
        if it not in found:
            found.add(it)
            todo += own(crates, it)
    return [it for it in crates if it in found]


def above(crates, names):
    """The crates above any of these, lowest first."""
    return [it for it in crates if it not in names and set(below(crates, it)) & set(names)]


def is_program(name, top=TOP):
    return os.path.isfile(f"{folder(name, top)}/src/main.rt")


def lines(name, top=TOP):
    """How many lines its sources, definitions and proofs have."""
    found = 0
    for part in PARTS:
        for at, _, files in os.walk(f"{folder(name, top)}/{part}"):
            for it in files:
                with open(f"{at}/{it}", "rb") as text:
                    found += text.read().count(b"\n")
    return found


def minutes(count):
    """About how many minutes so many lines take to be proved here."""
    return max(1, round(count / PACE / min(lanes(), 2.5) / 60))


def link_or_copy(source, target):
    try:
        os.link(source, target)
    except OSError:
        shutil.copy2(source, target)


def copy_parts(source, target):
    """Copies a crate's sources, definitions and proofs."""
    for part in PARTS:
        if os.path.isdir(f"{source}/{part}"):
            shutil.copytree(f"{source}/{part}", f"{target}/{part}")


def copy_kept(source, target):
    """Copies what checks kept: a check writes a module that it proves as a new file, so a link to the one that stands will do."""
    shutil.copytree(source, target, copy_function=lambda one, other: (link_or_copy if one.endswith(".oantt") else shutil.copy2)(one, other))


def write_texts(texts, target):
    """Writes texts of a crate in the place of those that stand in a copy of it, or beside them."""
    for path, text in texts.items():
        os.makedirs(os.path.dirname(f"{target}/{path}"), exist_ok=True)
        with open(f"{target}/{path}", "w", encoding="utf-8") as it:
            it.write(text)


class Room:
    """A folder with one crate and the libraries below it. Where it takes the crate's own out/ it gives it back at its end."""

    def __init__(self, name, top=TOP, takes_out=True, texts=None):
        self.name, self.top, self.takes_out, self.texts = name, top, takes_out, texts or {}
        self.room = tempfile.mkdtemp(prefix=f"boxoffice-{name}-")
        self.crate = f"{self.room}/crates/{name}"

    def __enter__(self):
        crates = listed(self.top)
        names = [*below(crates, self.name), self.name]
        with open(f"{self.room}/crates.txt", "w", encoding="utf-8") as it:
            for name in names:
                it.write(f"{name}: {' '.join(crates[name])}\n")
        for name in names:
            copy_parts(folder(name, self.top), f"{self.room}/crates/{name}")
        for name in names[:-1]:
            rlib = f"{folder(name, self.top)}/out/rlib"
            if os.path.isdir(rlib):
                shutil.copytree(rlib, f"{self.room}/crates/{name}/out/rlib", copy_function=link_or_copy)
        kept = f"{folder(self.name, self.top)}/out"
        if os.path.isdir(kept):
            if self.takes_out:
                os.rename(kept, f"{kept}.taken")
                shutil.move(f"{kept}.taken", f"{self.crate}/out")
            elif os.path.isdir(f"{kept}/incremental"):
                copy_kept(f"{kept}/incremental", f"{self.crate}/out/incremental")
        if os.path.isdir(f"{folder(self.name, self.top)}/data"):
            shutil.copytree(f"{folder(self.name, self.top)}/data", f"{self.crate}/data", copy_function=link_or_copy)
        write_texts(self.texts, self.crate)
        return self

    def rt(self, *words, **how):
        """Runs rt in the crate's folder of the room. Its status, and what it said."""
        ran = Running([*words], self.crate, **how)
        return ran.status, ran.said

    def __exit__(self, *_):
        kept = f"{folder(self.name, self.top)}/out"
        if self.takes_out and os.path.isdir(f"{self.crate}/out") and not os.path.exists(kept):
            shutil.move(f"{self.crate}/out", kept)
        shutil.rmtree(self.room, ignore_errors=True)


class Running:
    """One run of rt, or of another program, in a group of processes of its own, so that an interrupt ends it and nothing else."""

    alive = set()
    stopped = False

    def __init__(self, words, at, seconds=None, program=RT, begun=lambda process: None):
        how = {"stdin": subprocess.DEVNULL, "stdout": subprocess.PIPE, "stderr": subprocess.STDOUT}
        ran = subprocess.Popen([*program, *words], cwd=at, start_new_session=True, text=True, errors="replace", **how)
        Running.alive.add(ran)
        try:
            begun(ran.pid)
            self.said = ran.communicate(timeout=seconds)[0]
        except subprocess.TimeoutExpired:
            end(ran)
            self.said = ran.communicate()[0]
        except BaseException:
            end(ran)
            ran.wait()
            raise
        finally:
            Running.alive.discard(ran)
        self.status = ran.returncode


def end(ran):
    try:
        os.killpg(ran.pid, 15)
    except OSError:
        pass


def end_all():
    """Ends each run of rt that this process has begun."""
    Running.stopped = True
    for ran in list(Running.alive):
        end(ran)


def processors():
    return len(os.sched_getaffinity(0))


def free():
    """The free memory in bytes."""
    with open("/proc/meminfo", encoding="ascii") as it:
        return 1024 * int(re.search(r"MemAvailable:\s+(\d+)", it.read())[1])


def lanes():
    return max(1, min(processors(), int(0.9 * free() / CHECK)))


def gate_lanes():
    """How many checks the gate runs side by side, each by one process: as many as processors and memory allow."""
    rt = kit()
    most, room = getattr(rt, "processors", processors)(), getattr(rt, "free", free)()
    return max(1, min(most, room // GATE_CHECK))


def side_by_side(tasks, work, most=None):
    """Runs work(task, jobs) for each task once those that it waits for are done and gave true, those with the longest chain
    behind them first. `tasks` gives for each task what it waits for and how heavy it is. What each gave."""
    behind = {it: weight for it, (_, weight) in tasks.items()}
    for it in reversed(list(tasks)):
        for other in tasks[it][0]:
            behind[other] = max(behind[other], tasks[other][1] + behind[it])
    most = most or lanes()
    left, running, given = sorted(tasks, key=lambda it: -behind[it]), {}, {}
    with ThreadPoolExecutor(most) as pool:
        try:
            while left or running:
                while failed := [it for it in left if any(given.get(other) is False for other in tasks[it][0])]:
                    for it in failed:
                        left.remove(it)
                        given[it] = False
                ready = [it for it in left if all(other in given for other in tasks[it][0])]
                idle = most - len(running)
                for it in ready[:idle]:
                    left.remove(it)
                    jobs = max(1, idle // len(ready)) if len(ready) < idle else 1
                    running[pool.submit(work, it, jobs)] = it
                if running:
                    for done in wait(running, timeout=1, return_when=FIRST_COMPLETED).done:
                        given[running.pop(done)] = done.result()
        except BaseException:
            end_all()
            raise
    return given


def proved_functions(name, top=TOP):
    """The functions of a crate of which what checks kept has a proof, by their paths below the crate with dots."""
    kept = re.compile(rf"Rattle-{name}-proofs\.(.*)\.Statement\.oantt")
    found = (kept.fullmatch(it) for _, _, files in os.walk(f"{folder(name, top)}/out/incremental") for it in files)
    return {it[1] for it in found if it}


def checked(name, texts, jobs=1, top=TOP):
    """Checks a copy of a crate with these texts in the place of its own, over its libraries as they stand, which have to be built, and
    what earlier checks of it kept. Rattle's status, and what it said."""
    rtlib = kit().rtlib
    with tempfile.TemporaryDirectory(prefix=f"boxoffice-{name}-", ignore_cleanup_errors=True) as room:
        copy_parts(folder(name, top), room)
        write_texts(texts, room)
        if os.path.isdir(f"{folder(name, top)}/out/incremental"):
            copy_kept(f"{folder(name, top)}/out/incremental", f"{room}/kept")
        words = rtlib.Crate(folder(name, top), top, {}).words(["--jobs", str(jobs)], keeps=False)
        ran = Running(["check", *words, "--incremental", f"{room}/kept"], room, program=(rtlib.RATTLE,))
        return ran.status, ran.said


class Clock:
    """Lines with the time so far, from several threads."""

    def __init__(self, out):
        self.begun, self.out, self.turn = time.time(), out, threading.Lock()

    def since(self):
        took = int(time.time() - self.begun)
        return f"{took // 60}:{took % 60:02}"

    def say(self, text):
        with self.turn:
            print(f"{self.since():>6}  {text}", file=self.out, flush=True)


def kit():
    """The kit's rt as a module."""
    with KIT:
        return sys.modules["rt"] if "rt" in sys.modules else read_kit()


def read_kit():
    loader = importlib.machinery.SourceFileLoader("rt", os.path.realpath(shutil.which("rt")))
    made = importlib.util.module_from_spec(importlib.util.spec_from_loader("rt", loader))
    sys.modules["rt"] = made
    loader.exec_module(made)
    sum_once(made.rtlib)
    return made


def sum_once(rtlib):
    """Makes the kit's rt sum up a library once for each sum that is asked for. By itself it does so once for each way that leads down to
    the library: 40,000 times below web_callers, in over a minute."""
    stamp, asked = rtlib.Crate.stamp, threading.local()

    def stamp_once(crate):
        sums = getattr(asked, "sums", None)
        if sums is None:
            asked.sums = {}
            try:
                return stamp(crate)
            finally:
                asked.sums = None
        if crate.folder not in sums:
            sums[crate.folder] = stamp(crate)
        return sums[crate.folder]

    rtlib.Crate.stamp = stamp_once


def is_built(name, top=TOP):
    """Whether the library was proved as it stands, over the crates below it as they stand."""
    try:
        return kit().rtlib.Crate(folder(name, top), top, {}).is_built()
    except SystemExit:
        return False


if __name__ == "__main__":
    sys.exit(kit().main(sys.argv[1:]))
