"""Where the launcher builds and tests: held by one launcher at a time, with a log, and a folder that is gone afterwards."""
import concurrent.futures
import contextlib
import errno
import fcntl
import heapq
import os
import pathlib
import shutil
import signal
import subprocess
import sys
import threading
import time

from tree import TOP

OUT = TOP / "out"
SIGNALS = (signal.SIGINT, signal.SIGTERM, signal.SIGHUP)
DISK_IS_FULL = "the disk is full: building needs {} MB below {}"
# How long a command that is ended may take to end what it started, and to remove what it made for a while: a busy machine gives it
# little time.
SECONDS_TO_END = 10
# How nice those commands are for which nobody waits longest.
NICE = 4


class Trouble(Exception):
    """What ends the launcher: a line for whoever called it, and the status to end with."""

    def __init__(self, line, status=1):
        super().__init__(line)
        self.status = status


class Stopped(Exception):
    """A signal came, or nobody reads any more what is told."""


def processors():
    """How many processors the launcher may use."""
    return len(os.sched_getaffinity(0))


def tell(text, end="\n"):
    """Writes to standard error, and returns whether somebody may read it: it isn't a pipe whose reader has gone."""
    try:
        print(text, end=end, file=sys.stderr, flush=True)
    except OSError as error:
        # What is left in the stream can't be written as Python ends.
        os.dup2(os.open(os.devnull, os.O_WRONLY), sys.stderr.fileno())
        return not isinstance(error, BrokenPipeError)
    return True


def say(text):
    """Tells a line on standard error. Where nobody reads that any more, the work is stopped."""
    if not tell(f"rheap: {text}"):
        raise Stopped()


def print_out(text):
    """Prints a text, or ends where it can't be written."""
    try:
        print(text, flush=True)
    except OSError:
        os.dup2(os.open(os.devnull, os.O_WRONLY), sys.stdout.fileno())
        raise Trouble("write failed") from None


class Turns:
    """Lets as many commands run at once as there are processors. Of those that wait, the one of the least rank is next."""

    def __init__(self, places):
        self.places, self.waiting, self.count = places, [], 0
        self.changed = threading.Condition()

    @contextlib.contextmanager
    def one(self, rank):
        with self.changed:
            self.count += 1
            mine = rank, self.count
            heapq.heappush(self.waiting, mine)
            self.changed.wait_for(lambda: self.places and self.waiting[0] == mine)
            heapq.heappop(self.waiting)
            self.places -= 1
            self.changed.notify_all()
        try:
            yield
        finally:
            with self.changed:
                self.places += 1
                self.changed.notify_all()


def send(number, running):
    """Sends a signal to these commands, and to what they started in their sessions."""
    for ran in running:
        with contextlib.suppress(ProcessLookupError):
            os.killpg(ran.pid, number)


def give_way(ran, rank):
    """Has a command, and what it starts, give way to others where there are too few processors, as much as the launcher does itself;
    and more, but for rank 0. The system may share them among sessions first, each of which has a number of its own for that."""
    nice = min(os.nice(0) + (NICE if rank else 0), 19)
    if nice > 0:
        with contextlib.suppress(OSError):
            os.setpriority(os.PRIO_PROCESS, ran.pid, nice)
            pathlib.Path(f"/proc/{ran.pid}/autogroup").write_text(str(nice))


class Workshop:
    """A place to work in. `folder` is empty when it is entered, and gone when it is left; what the commands say is in `log`."""

    def __init__(self, log, megabytes):
        self.log, self.megabytes = log, megabytes
        # What a launcher that was killed has left running writes to another folder.
        self.folder = OUT / f"making.{os.getpid()}"
        self.turns = Turns(processors())
        self.running, self.guard, self.is_stopped = set(), threading.Lock(), False

    def __enter__(self):
        try:
            self.log.parent.mkdir(parents=True, exist_ok=True)
            self.lock = open(OUT / "lock", "w")
        except OSError as error:
            raise self.trouble_of(error) from None
        try:
            fcntl.flock(self.lock, fcntl.LOCK_EX | fcntl.LOCK_NB)
        except BlockingIOError:
            say("another ./rheap builds here; this one waits for it")
            fcntl.flock(self.lock, fcntl.LOCK_EX)
        try:
            self.clear()
            self.folder.mkdir()
            self.log.write_bytes(b"")
            self.need_disk()
        except BaseException as error:
            self.__exit__(type(error), error, None)
            raise
        return self

    def __exit__(self, kind, error, _):
        self.stop()
        self.clear()
        self.lock.close()
        if isinstance(error, OSError):
            raise self.trouble_of(error) from None

    def clear(self):
        """Removes the folder, and those of earlier launchers that were killed."""
        for it in OUT.glob("making.*"):
            shutil.rmtree(it, ignore_errors=True)

    def need_disk(self):
        """Ends where the disk has too little room to begin."""
        if shutil.disk_usage(OUT).free < self.megabytes * 1_000_000:
            raise Trouble(DISK_IS_FULL.format(self.megabytes, OUT))

    def trouble_of(self, error):
        """What an error of the system is told as."""
        if error.errno in (errno.ENOSPC, errno.EDQUOT):
            return Trouble(DISK_IS_FULL.format(self.megabytes, OUT))
        if str(error.filename or OUT).startswith(str(OUT)):
            return Trouble(f"what is built is kept in {OUT}, which can't be written: {error.strerror}")
        return Trouble(f"{error.filename}: {error.strerror}")

    def begin_again(self):
        """Lets commands begin once more, after all were stopped."""
        self.is_stopped = False

    def stop(self):
        """Ends all commands that run, and lets none begin. They are asked before they are killed: what `rt try` starts has a session of
        its own, and ends only if `rt try` ends it."""
        with self.guard:
            self.is_stopped = True
            running = list(self.running)
        send(signal.SIGTERM, running)
        until = time.monotonic() + SECONDS_TO_END
        while any(ran.poll() is None for ran in running) and time.monotonic() < until:
            time.sleep(0.02)
        send(signal.SIGKILL, running)

    def run(self, words, rank=0, output=None, **how):
        """Runs a command when it is its turn, and returns its status. What it says goes to the log, or to the file `output`. Those of
        rank 0 have more of the processors."""
        with self.turns.one(rank), open(output or self.log, "ab") as said:
            with self.guard:
                if self.is_stopped:
                    raise Stopped()
                ran = subprocess.Popen(
                    [str(it) for it in words], stdin=subprocess.DEVNULL, stdout=said, stderr=subprocess.STDOUT,
                    start_new_session=True, **how)
                self.running.add(ran)
            give_way(ran, rank)
            status = ran.wait()
            with self.guard:
                self.running.discard(ran)
                if self.is_stopped:
                    raise Stopped()
        return status

    def must(self, what, words, rank=0, **how):
        """Runs a command that has to succeed. `what` names what can't be made otherwise."""
        if self.run(words, rank, **how):
            raise self.failed(what)

    def failed(self, what, how="built"):
        """What is told where a command failed: the end of the log, and where all of it is."""
        lines = self.log.read_text(encoding="utf-8", errors="replace").split("\n")
        last = [line for line in lines if line.strip()][-5:]
        if shutil.disk_usage(OUT).free < 20_000_000 or any(os.strerror(errno.ENOSPC) in line for line in last):
            return Trouble(DISK_IS_FULL.format(self.megabytes, OUT))
        return Trouble("\n".join([*last, f"rheap: {what} could not be {how}; all that was said is in {self.log}"]))

    def each_of(self, works):
        """Does these works side by side, and returns what each gave once all have ended."""
        with concurrent.futures.ThreadPoolExecutor(max(len(works), 1)) as pool:
            futures = [pool.submit(work) for work in works]
        return [it.result() for it in futures]

    def all_of(self, tick, *works):
        """As `each_of`, on the main thread: calls `tick` some times a second meanwhile, and ends all once one has failed, or a signal
        came."""
        with ENDING.put_off(), concurrent.futures.ThreadPoolExecutor(max(len(works), 1)) as pool:
            try:
                futures = left = [pool.submit(work) for work in works]
                while left:
                    done, left = concurrent.futures.wait(left, 0.3, concurrent.futures.FIRST_COMPLETED)
                    ENDING.look()
                    for it in done:
                        it.result()
                    tick()
            except BaseException:
                self.stop()
                raise
        return [it.result() for it in futures]


def ignore_signals():
    """Lets what is in hand be done, whatever signal comes."""
    for it in SIGNALS:
        signal.signal(it, signal.SIG_IGN)


class Ending:
    """What a signal that ends a program does here: it stops the work in hand, which is cleared away then. While the main thread shares
    locks with others the signal is only noted, since an exception between taking a lock and releasing it would leave the other threads
    waiting for ever."""

    def __init__(self):
        self.came = self.is_put_off = False

    def take(self, *_):
        ignore_signals()
        self.came = True
        if not self.is_put_off:
            raise Stopped()

    def look(self):
        """Stops the work if a signal came."""
        if self.came:
            raise Stopped()

    @contextlib.contextmanager
    def put_off(self):
        """Signals are only noted until `look`, or until the end of this. One such part doesn't stand in another."""
        self.is_put_off = True
        try:
            yield
        finally:
            self.is_put_off = False
        self.look()


ENDING = Ending()


def end_by_signals():
    """Has the signals that end a program stop the work in hand. One that is ignored, as under nohup, stays so."""
    for it in SIGNALS:
        if signal.getsignal(it) is not signal.SIG_IGN:
            signal.signal(it, ENDING.take)
