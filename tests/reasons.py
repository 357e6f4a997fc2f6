#!/usr/bin/env python3
"""Lets calls of the system fail, and compares how the program ends, and the reason that it tells.

reasons.py PROGRAM

What is wrong is: no configuration, no recording, a folder in the place of either, of the store or of a CSV file, files that may not be read
or written, a file that may not grow, a file system that is full, and standard streams that are closed. After each the store is as it was,
or holds what was acknowledged, and a further `count` prints the whole report. `watch` ends as `count` does. On a store, a folder and a file
system that can only be read, `report`, `repeat`, `audit`, `window` and `compact` end as ever, and change neither bytes nor times. Of a recording
that is longer than what is read ahead, what is held is passed over, in a file by a seek and in a pipe, where none can be made, by reading: what is
new is counted, and one that became shorter is refused. Where no thread can be made, several workers count and store what one does.
Where this is run by root, what a user may not do is tried as another user, and file systems are mounted. What can't be tried is told.
What is expected comes from an independent count (model.py). Last line: reasons: N passed, M failed
"""

import os
import random
import resource
import shutil
import signal
import subprocess
import sys
import tempfile
import threading

# No folder is made in the checkout.
sys.dont_write_bytecode = True

import stores
from model import Count, recording, repeat, report, window_report
from trial import ALL_TIME, GAIN, GRID, ONE_GAUGE, as_text, other_lines, read, samples, write
from trial import Trial as Counted

RNG = random.Random(5)
RAWS = [RNG.randint(-8, 7) for _ in range(600)]
LONG = [RNG.randint(-8, 7) for _ in range(42000)]
NOBODY = 65534
# The commands that count.
WRITERS = ("count", "watch")
# The commands that only read the store, with their words.
READERS = (("report",), ("repeat",), ("audit",), ALL_TIME, ("compact",))
DOING = {2: "config", 6: "read fault", 7: "write fault", 8: "station fault"}


def reason(name, text, status):
    """What is told of a call that failed."""
    return "monitor: %s: %s\n%s\n" % (name, text, DOING[status])


def text_of(count):
    return report(["G1"], [Count(GRID, GAIN, RAWS[:count])], [])


def limit(size):
    """For a program: no file grows past this size, and a write that would is refused."""

    def apply():
        signal.signal(signal.SIGXFSZ, signal.SIG_IGN)
        resource.setrlimit(resource.RLIMIT_FSIZE, (size, size))

    return apply


def close(*streams):
    """For a program: these standard streams are closed."""

    def apply():
        for stream in streams:
            os.close(stream)

    return apply


def alone():
    """For a program: it can make no thread."""
    resource.setrlimit(resource.RLIMIT_NPROC, (1, 1))


def makes_threads(user=None):
    """Whether a program of this user makes threads all the same."""
    child = os.fork()
    if child == 0:
        if user is not None:
            os.setgroups([])
            os.setgid(user)
            os.setuid(user)
        alone()
        try:
            threading.Thread(target=int).start()
        except RuntimeError:
            os._exit(1)
        os._exit(0)
    return os.waitstatus_to_exitcode(os.waitpid(child, 0)[1]) == 0


def marks(folder):
    """The bytes and the times of change of a folder and of its files."""
    names = [os.path.join(folder, name) for name in sorted(os.listdir(folder))]
    times = [(os.stat(name).st_mtime_ns, os.stat(name).st_ctime_ns) for name in [folder, *names]]
    return times, [read(name) for name in names]


class Trial(Counted):
    def __init__(self, program, room):
        super().__init__("reasons")
        self.program, self.room = program, room

    def run(self, *words, before=None, user=None):
        others = {} if user is None else {"user": user, "group": user, "extra_groups": []}
        done = subprocess.run([self.program, *words], capture_output=True, preexec_fn=before, **others)
        return done.returncode, as_text(done.stdout), as_text(done.stderr)

    def fails(self, what, words, status, name, text, **how):
        self.check(what, self.run(*words, **how), (status, "", reason(name, text, status)))

    def enter(self, name):
        """A new folder with a configuration and a recording of 300 samples."""
        folder = os.path.join(self.room, name)
        os.makedirs(folder, exist_ok=True)
        os.chdir(folder)
        write("monitor.toml", ONE_GAUGE.encode())
        write("g1.sgrc", recording(RAWS[:300]))
        return folder

    def begin(self, name):
        """A new folder, with a store that holds them."""
        folder = self.enter(name)
        self.check("init", self.run("init"), (0, "", "init 1\n"))
        self.check("count", self.run("count")[:2], (0, text_of(300)))
        return folder

    def goes_on(self, what):
        """Nothing that was held is lost, and the rest is counted."""
        status, printed, told = self.run("report")
        (held,) = samples(printed) or [-1]
        self.check(what + ": report", (status, printed, told, held >= 300), (0, text_of(held), "", True))
        self.check(what + ": count", self.run("count")[:2], (0, text_of(600)))


def missing(trial):
    none = "No such file or directory"
    os.makedirs("empty")
    os.chdir("empty")
    for words in (("init",), ("count",), ("watch",), ("sheet",), *READERS):
        trial.fails("%s without a configuration" % words[0], words, 6, "monitor.toml", none)
    trial.fails("no table", ("table", "none\tthere"), 6, "none?there", none)
    trial.fails("no column", ("column", "none.csv", "a", "0" * 32, "1"), 6, "none.csv", none)
    trial.begin("no-recording")
    os.remove("g1.sgrc")
    for word in (*WRITERS, "audit", "sheet"):
        trial.fails("%s without a recording" % word, (word,), 6, "g1.sgrc", none)
    os.remove("monitor.store")
    trial.fails("init without a recording", ("init",), 6, "g1.sgrc", none)
    trial.check("no store was made", os.path.exists("monitor.store"), False)


def folders(trial):
    folder = "Is a directory"
    trial.begin("folders")
    os.remove("g1.sgrc")
    os.mkdir("g1.sgrc")
    store = read("monitor.store")
    for word in (*WRITERS, "audit", "sheet"):
        trial.fails("%s of a folder" % word, (word,), 6, "g1.sgrc", folder)
    trial.fails("table of a folder", ("table", "g1.sgrc"), 6, "g1.sgrc", folder)
    trial.fails("column of a folder", ("column", "g1.sgrc", "a", "0" * 32, "1"), 6, "g1.sgrc", folder)
    trial.check("the store as it was", read("monitor.store"), store)
    os.remove("monitor.store")
    trial.fails("init of a folder", ("init",), 6, "g1.sgrc", folder)
    os.mkdir("monitor.store")
    os.rmdir("g1.sgrc")
    write("g1.sgrc", recording(RAWS[:300]))
    for words in (("init",), ("count",), ("watch",), *READERS):
        trial.fails("%s with a folder for a store" % words[0], words, 8, "monitor.store", folder)
    os.remove("monitor.toml")
    os.mkdir("monitor.toml")
    for words in READERS:
        trial.fails("a folder for the configuration of %s" % words[0], words, 6, "monitor.toml", folder)


def limits(trial):
    """A file that may not grow."""
    text = "File too large"
    for word in WRITERS:
        trial.begin("limit-of-%s" % word)
        write("g1.sgrc", recording(RAWS))
        size = os.path.getsize("monitor.store")
        for more in (1, 40, 200, 3000):
            status, printed, told = trial.run(word, before=limit(size + more))
            due = (8, "", reason("monitor.store", text, 8))
            trial.check("%s with a limit of %d bytes more" % (word, more), (status, printed, other_lines(told)), due)
        trial.goes_on("after a limit of %s" % word)
    trial.enter("limit-of-init")
    trial.fails("init with a limit of no bytes", ("init",), 8, "monitor.store", text, before=limit(0))
    trial.check("init again", trial.run("init"), (0, "", "init 1\n"))
    os.remove("monitor.store")
    trial.fails("init with a limit of 20 bytes", ("init",), 8, "monitor.store", text, before=limit(20))
    trial.check("no store", trial.run("report"), (3, "", "store: not a store\n"))


def streams(trial):
    """Standard streams that are closed. The system gives a file that is opened then the number of one of them."""
    text = "Bad file descriptor"
    trial.begin("streams")
    trial.fails("table", ("table", "g1.sgrc"), 7, "standard output", text, before=close(1))
    for words in READERS:
        trial.fails(words[0], words, 7, "standard output", text, before=close(1))
    store = read("monitor.store")
    for closed in ((1,), (2,), (0, 1), (0, 2), (1, 2), (0, 1, 2)):
        for words in (("count",), ("watch",), ("init",), *READERS):
            trial.run(*words, before=close(*closed))
            trial.check("the store after %s without %s" % (words[0], closed), read("monitor.store"), store)
    write("g1.sgrc", recording(RAWS))
    trial.run("count", before=close(0, 1, 2))
    trial.goes_on("without streams")
    trial.begin("watched-without-streams")
    write("g1.sgrc", recording(RAWS))
    trial.run("watch", before=close(0, 1, 2))
    trial.goes_on("after a watch without streams")
    if os.path.exists("/dev/full"):
        with open("/dev/full", "w") as full:
            ends = [subprocess.run([trial.program, *words], stdout=full, stderr=subprocess.PIPE, text=True) for words in READERS]
        due = (7, reason("standard output", "No space left on device", 7))
        for words, done in zip(READERS, ends):
            trial.check("a full output of %s" % words[0], (done.returncode, done.stderr), due)


def feed(name, data):
    """Puts a pipe in a file's place, into which these bytes are written."""

    def write_all():
        # A reader that refuses what it reads goes before the end.
        try:
            write(name, data)
        except BrokenPipeError:
            pass

    os.remove(name)
    os.mkfifo(name)
    threading.Thread(target=write_all, daemon=True).start()


def long_recordings(trial):
    """Recordings that are longer than what is read ahead, of which most is held."""
    trial.enter("long")
    write("monitor.toml", ONE_GAUGE.replace("block = 4", "block = 1024").encode())
    write("g1.sgrc", recording([]))
    trial.check("init of a long recording", trial.run("init"), (0, "", "init 1\n"))
    for count in (40000, 40000, 41000):
        write("g1.sgrc", recording(LONG[:count]))
        due = report(["G1"], [Count(GRID, GAIN, LONG[:count])], [])
        trial.check("count of %d samples" % count, trial.run("count")[:2], (0, due))
    feed("g1.sgrc", recording(LONG))
    due = report(["G1"], [Count(GRID, GAIN, LONG)], [])
    trial.check("count of a pipe", trial.run("count")[:2], (0, due))
    feed("g1.sgrc", recording(LONG))
    trial.check("audit of a pipe", trial.run("audit"), (0, "audit G1 same\n", ""))
    fewer = (4, "", "recording G1: %d held, 30000 there\n" % len(LONG))
    feed("g1.sgrc", recording(LONG[:30000]))
    trial.check("count of a shorter pipe", trial.run("count"), fewer)
    os.remove("g1.sgrc")
    write("g1.sgrc", recording(LONG[:30000]) + bytes(3))
    for word in WRITERS:
        trial.check("%s of a shorter recording" % word, trial.run(word), fewer)


def threads(trial):
    """No thread can be made."""
    how = {"user": NOBODY} if os.geteuid() == 0 else {}
    if makes_threads(how.get("user")):
        print("reasons: skipped: threads can be made past a limit here")
        return
    folder = trial.enter("threads")
    write("monitor.toml", ONE_GAUGE.replace("block = 4", "block = 64").encode())
    write("g1.sgrc", recording(LONG))
    trial.check("init before threads", trial.run("init"), (0, "", "init 1\n"))
    new = read("monitor.store")
    due = report(["G1"], [Count(GRID, GAIN, LONG)], [])
    trial.check("one worker", trial.run("count", "--workers", "1")[:2], (0, due))
    store = read("monitor.store")
    for name in (folder, "monitor.store"):
        os.chown(name, how.get("user", -1), -1)
    for word in WRITERS:
        for workers in ("2", "8"):
            write("monitor.store", new)
            what = "%s by %s workers without a thread" % (word, workers)
            trial.check(what, trial.run(word, "--workers", workers, before=alone, **how)[:2], (0, due))
            trial.check("the store after " + what, read("monitor.store"), store)


def readers(trial, folder, what, **how):
    """The readers end as ever, and change nothing."""
    before = marks(folder)
    counts = [Count(GRID, GAIN, RAWS[:300])]
    copy = stores.copy(stores.Head(GRID, [GAIN], [b"\x11" * 16], [10000]), counts)
    texts = (text_of(300), repeat(["G1"], counts), "audit G1 same\n", window_report(["G1"], [(0, 300)], counts, []), as_text(copy))
    for words, due in zip(READERS, texts):
        trial.check("%s of %s" % (words[0], what), trial.run(*words, **how), (0, due, ""))
    trial.check("what is there of " + what, marks(folder), before)


def permissions(trial):
    """What a user may not do."""
    text = "Permission denied"
    how = {"user": NOBODY} if os.geteuid() == 0 else {}
    folder = trial.begin("permissions")
    os.chmod("monitor.store", 0o444)
    os.chmod(folder, 0o555)
    readers(trial, folder, "what can only be read", **how)
    for word in WRITERS:
        trial.fails("%s of a store that can only be read" % word, (word,), 8, "monitor.store", text, **how)
    trial.fails("init of a store that can only be read", ("init",), 8, "monitor.store", text, **how)
    os.chmod(folder, 0o755)
    os.remove("monitor.store")
    os.chmod(folder, 0o555)
    trial.fails("init in a folder that can only be read", ("init",), 8, "monitor.store", text, **how)
    os.chmod(folder, 0o755)
    os.chmod("g1.sgrc", 0)
    trial.fails("table of a secret recording", ("table", "g1.sgrc"), 6, "g1.sgrc", text, **how)
    trial.fails("sheet of a secret recording", ("sheet",), 6, "g1.sgrc", text, **how)
    trial.fails("init over a secret recording", ("init",), 6, "g1.sgrc", text, **how)
    os.chmod("monitor.toml", 0)
    for words in READERS:
        trial.fails("a secret configuration for %s" % words[0], words, 6, "monitor.toml", text, **how)


def mounts(trial):
    """A small file system that gets full, and one that can only be read."""
    disk = os.path.join(trial.room, "disk")
    os.makedirs(disk)
    mounted = subprocess.run(["mount", "-t", "tmpfs", "-o", "size=64k,mode=755", "none", disk], capture_output=True)
    if mounted.returncode != 0:
        print("reasons: skipped: no file system can be mounted here")
        return
    try:
        folder = trial.begin("disk/site")
        readers_only = ["mount", "-o", "remount,ro", disk]
        if subprocess.run(readers_only, capture_output=True).returncode == 0:
            readers(trial, folder, "a file system that can only be read")
            text = "Read-only file system"
            for word in WRITERS:
                trial.fails("%s on it" % word, (word,), 8, "monitor.store", text)
            subprocess.run(["mount", "-o", "remount,rw", disk], check=True)
        text = "No space left on device"
        write("g1.sgrc", recording(RAWS))
        fill(os.path.join(disk, "rest"))
        due = (8, "", reason("monitor.store", text, 8))
        for word in WRITERS:
            status, printed, told = trial.run(word)
            trial.check("%s on a full disk" % word, (status, printed, other_lines(told)), due)
        store = read("monitor.store")
        os.remove("monitor.store")
        fill(os.path.join(disk, "more"))
        trial.fails("init on a full disk", ("init",), 8, "monitor.store", text)
        os.remove(os.path.join(disk, "rest"))
        write("monitor.store", store)
        trial.goes_on("after a full disk")
    finally:
        os.chdir("/")
        subprocess.run(["umount", disk], check=True)


def fill(name):
    """A file that takes what is left of its file system."""
    with open(name, "wb", buffering=0) as out:
        try:
            while True:
                out.write(bytes(512))
        except OSError:
            pass


def main():
    with tempfile.TemporaryDirectory() as room:
        # Another user may run it there.
        os.chmod(room, 0o755)
        program = os.path.join(room, "program")
        shutil.copy(sys.argv[1], program)
        os.chmod(program, 0o755)
        trial = Trial(program, room)
        for part in (missing, folders, limits, streams, long_recordings, threads, permissions):
            os.chdir(room)
            part(trial)
        os.chdir(room)
        if os.geteuid() == 0:
            mounts(trial)
        else:
            print("reasons: skipped: file systems are mounted by root alone")
        os.chdir("/")
    return trial.end()


if __name__ == "__main__":
    sys.exit(main())
