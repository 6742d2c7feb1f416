"""How far a build is, and how long it still takes."""
import json
import sys
import time

from workshop import OUT, processors, say, tell

TIMES = OUT / "build_times"
# Seconds that a measured machine needs for the loop of `pace_of_machine`, which the steps' seconds go by.
LOOP_SECONDS = 0.21


def pace_of_machine():
    """How many times as long this machine takes as the measured one, by a short loop. Builds differ less between machines than the
    loop does: its root was nearest on those that were tried."""
    best = 9.0
    for _ in range(3):
        began = time.process_time()
        sum(at * at % 7 for at in range(1_000_000))
        best = min(best, time.process_time() - began)
    return (best / LOOP_SECONDS) ** 0.5


def minutes(seconds):
    """A time to be read, rounded to what can be known of it."""
    seconds = max(5, 5 * round(seconds / 5))
    return f"{seconds // 60}:{seconds % 60:02}"


def kept_times():
    """What earlier builds took here, by their names."""
    try:
        return json.loads(TIMES.read_text())
    except (OSError, ValueError):
        return {}


class Progress:
    """A line that is written anew each second on a terminal, and once for each step elsewhere. The steps are names with
    their seconds on the measured machine; those that an earlier build took here come before them."""

    def __init__(self, what, steps):
        self.what, self.name = what, f"{what} on {processors()}"
        kept = kept_times().get(self.name)
        pace = 1.0 if kept else pace_of_machine()
        self.steps = [(step, kept[step] if kept and step in kept else seconds * pace) for step, seconds in steps]
        self.at, self.took, self.told = 0, {}, ""
        self.began = self.step_began = time.monotonic()
        self.is_terminal = sys.stderr.isatty()

    def whole(self):
        """How many seconds all of it takes, as far as is known."""
        return sum(seconds for _, seconds in self.steps)

    def begin(self, step):
        """Says that this step has begun, and those before it are done."""
        names = [name for name, _ in self.steps]
        if step not in names[self.at + 1:]:
            return
        now = time.monotonic()
        self.took[names[self.at]] = now - self.step_began
        self.at, self.step_began = names.index(step), now
        if not self.is_terminal:
            say(f"{step}, about {minutes(self.left())} left")

    def left(self):
        """How many seconds are left: those of the later steps at the pace of those that are done, and what this one lacks."""
        due = sum(seconds for name, seconds in self.steps if name in self.took)
        pace = sum(self.took.values()) / due if due else 1.0
        now = pace * self.steps[self.at][1] - (time.monotonic() - self.step_began)
        return max(now, 2) + pace * sum(seconds for _, seconds in self.steps[self.at + 1:])

    def tick(self):
        """Writes the line anew, on a terminal."""
        line = f"rheap: {self.what}: {self.steps[self.at][0]}, about {minutes(self.left())} left"
        if self.is_terminal and line != self.told:
            self.told = line
            tell(f"\r\x1b[K{line}", end="")

    def end(self, is_done):
        """Clears the line, and keeps what the steps took where all are done."""
        if self.is_terminal:
            tell("\r\x1b[K", end="")
        if is_done:
            self.took[self.steps[self.at][0]] = time.monotonic() - self.step_began
            times = {**kept_times(), self.name: self.took}
            TIMES.write_text(json.dumps(times, indent=1, sort_keys=True) + "\n")
