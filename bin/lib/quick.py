"""Runs boxoffice where this machine hasn't proved it as its sources are now: compiles it without proof, which takes minutes, once.

bin/boxoffice starts it with the words that are for the program. It keeps what it compiles in out/quick/SUM/boxoffice, under a sum of the
sources, crates.txt and the kit, and removes all but the two that were used last. One process compiles, and others that need the same
program wait for it. A compile that fails or is interrupted leaves nothing. Where it fails, this says why and has bin/prove build the
program by its proof.
"""
import contextlib
import fcntl
import os
import shutil
import signal
import sys
import threading
import time

sys.dont_write_bytecode = True
sys.path.insert(0, os.path.dirname(os.path.abspath(__file__)))
import rooms
import unproved

NAME = "boxoffice"
KEPT = f"{rooms.TOP}/out/quick"
PROVED = f"{rooms.folder(NAME)}/out/{NAME}"
# What it was seen to take, at 2.7 GHz: seconds of a processor, and how many processors are used at once.
READING = [(150, 1)]
COMPILING = [(130, 1), (85, rooms.processors())]
# Of an order to a served shop (callgrind): 2.7 million instructions, and 0.53 million of the proved program.
SLOWER = "an order takes five times the instructions"
STOPS = (signal.SIGINT, signal.SIGTERM, signal.SIGHUP)
# Seconds between two lines on how far it is.
EACH = 15


def say(text):
    print(f"boxoffice: {text}", file=sys.stderr, flush=True)


def about(seconds):
    minutes = round(seconds / 60)
    return "less than a minute" if minutes < 1 else "about a minute" if minutes == 1 else f"about {minutes} minutes"


def used(process):
    """The seconds of a processor that a process took until now."""
    with open(f"/proc/{process}/stat", encoding="ascii", errors="replace") as it:
        ticks = it.read().rpartition(")")[2].split()[11:13]
    return sum(map(int, ticks)) / os.sysconf("SC_CLK_TCK")


def passed(parts, seconds):
    """The seconds in which an idle machine gives a process these seconds of a processor, for parts in turn."""
    found = 0
    for of_part, at_once in parts:
        found += min(seconds, of_part) / at_once
        seconds -= min(seconds, of_part)
    return found


def whole(parts):
    return passed(parts, sum(it for it, _ in parts))


class Progress(unproved.Watch):
    """Says each 15 seconds what is done and about how long the rest takes."""

    def __init__(self):
        self.clock, self.ended = rooms.Clock(sys.stderr), threading.Event()
        self.what, self.left = "it begins", lambda: whole(READING) + whole(COMPILING)

    def __enter__(self):
        self.says = threading.Thread(target=self.run, daemon=True)
        self.says.start()
        return self

    def run(self):
        while not self.ended.wait(EACH):
            with contextlib.suppress(OSError):
                # but where the process that it looks at has just ended
                self.clock.say(f"{self.what}: {about(self.left())} more")

    def __exit__(self, *_):
        self.ended.set()
        self.says.join()

    def begins(self, what, process, parts, then):
        """The process of this number begins something, behind which other work takes `then` seconds."""
        begun = time.time()

        def left():
            took = passed(parts, used(process))
            slower = max((time.time() - begun) / max(took, 1), 1)
            return (whole(parts) - took + then) * slower

        self.what, self.left = what, left

    def reads(self, process):
        self.begins("the sources are read", process, READING, whole(COMPILING))

    def compiles(self, process):
        self.begins("the program is compiled", process, COMPILING, 0)


class Turn:
    """Held by the process that compiles: a second one waits until it is given back, also by a process that was killed."""

    def __enter__(self):
        os.makedirs(KEPT, exist_ok=True)
        self.file = open(f"{KEPT}/lock", "a", encoding="ascii")
        if not self.taken():
            say("another one compiles the program, and this one waits for it")
            since = time.time()
            while not self.taken():
                time.sleep(0.5)
                if time.time() - since > EACH:
                    since = time.time()
                    say("it still waits for the one that compiles")
        return self

    def taken(self):
        try:
            fcntl.flock(self.file, fcntl.LOCK_EX | fcntl.LOCK_NB)
        except BlockingIOError:
            return False
        return True

    def __exit__(self, *_):
        self.file.close()


def of(total):
    return f"{KEPT}/{total}/{NAME}"


def touch(path):
    with contextlib.suppress(OSError):
        os.utime(path)


def keep_two():
    """Removes what was kept under a sum, but for the two that were used last."""
    kept = [f"{KEPT}/{it}" for it in os.listdir(KEPT) if os.path.exists(of(it))]
    for it in sorted(kept, key=os.path.getmtime)[:-2]:
        shutil.rmtree(it, ignore_errors=True)


def compile_it(program, total):
    new = f"{KEPT}/new"
    shutil.rmtree(new, ignore_errors=True)
    os.mkdir(new)
    try:
        with Progress() as watch:
            watch.clock.say(f"it is compiled, once, without proof: {about(watch.left())} on an idle machine")
            unproved.compiled(program, f"{new}/{NAME}", "-O1", watch)
        with open(f"{new}/proof", "w", encoding="ascii") as it:
            it.write(about(60 * minutes()))
        shutil.rmtree(f"{KEPT}/{total}", ignore_errors=True)
        os.rename(new, f"{KEPT}/{total}")
    finally:
        shutil.rmtree(new, ignore_errors=True)
    keep_two()


def compiled():
    """The path of the compiled program, which is compiled now where it isn't there."""
    program = unproved.of_crate(NAME)
    total = program.total()
    if not os.path.exists(of(total)):
        with Turn():
            if not os.path.exists(of(total)):
                compile_it(program, total)
    touch(f"{KEPT}/{total}")
    return of(total)


def is_proved():
    """Whether rt built the program by proof of what the files have now, though one of them is newer."""
    if not os.path.exists(PROVED):
        return False
    rt = unproved.rtlib()
    crate = rt.Crate(rooms.folder(NAME), rooms.TOP, {})
    return rt.text_of(f"{PROVED}.stamp") == crate.stamp() + rt.sum_of(PROVED)


def minutes():
    """About how many minutes bin/prove takes for what it hasn't proved yet."""
    names = [*rooms.below(rooms.listed(), NAME), NAME]
    return rooms.minutes(sum(rooms.lines(it) for it in names if not os.path.isdir(f"{rooms.folder(it)}/out/rlib")))


def run(program, *words):
    # Python ignores these, and what it starts would too.
    for it in (signal.SIGPIPE, signal.SIGXFSZ):
        signal.signal(it, signal.SIG_DFL)
    os.execv(program, [program, *words])


def stop(number, _):
    # a second one would break off what this one clears away
    for it in STOPS:
        signal.signal(it, signal.SIG_IGN)
    sys.exit(128 + number)


def main(words):
    for it in STOPS:
        if signal.getsignal(it) != signal.SIG_IGN:
            signal.signal(it, stop)
    try:
        if is_proved():
            touch(PROVED)
            run(PROVED, *words)
        program = compiled()
    except Exception as error:
        # whatever it is, there is the long way
        say(f"it can't be compiled without proof: {error if isinstance(error, unproved.Failed) else repr(error)}")
        say(f"bin/prove builds it by its proof instead: {about(60 * minutes())}")
        run(f"{rooms.TOP}/bin/boxoffice", "--proved", *words)
    say(f"compiled here, not proved here, and {SLOWER}; bin/prove {NAME} proves it, once, in {unproved.read(f'{os.path.dirname(program)}/proof').decode()}")
    run(program, *words)


if __name__ == "__main__":
    main(sys.argv[1:])
