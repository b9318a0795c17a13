"""What `paths` reads: which steps the goals of a function can cite, out of what the checker generates."""
import glob
import os
import re
import tempfile
from project import read, run_rt, stop

RECORD = re.compile(r"\s+pub record (\S+)")
FIELD = re.compile(r"\s+pub (\S+) : *(.*)")
GOAL = re.compile(r"\s+Named-(\S+) =")
PLACE = re.compile(r"\(c : (?:Lts\.)?([^\s()]+)")


class Steps:
    """What the generated files of a function say: the place before each place, the step that a place adds, and the place of
    each goal."""

    def __init__(self, text):
        self.before, self.step, self.goals = {}, {}, []
        lines, record = text.split("\n"), None
        for number, line in enumerate(lines):
            opened, field, goal = RECORD.match(line), FIELD.match(line), GOAL.match(line)
            if opened:
                record = opened.group(1)
            elif field and record:
                self.note(record, *field.groups())
            elif goal:
                place = PLACE.search(" ".join(lines[number:number + 3]))
                self.goals += [(goal.group(1), place.group(1))] if place else []

    def note(self, record, name, type):
        if name == "before":
            self.before[record] = re.split(r"\s", type.strip() or "?")[0].removeprefix("Lts.")
        elif record in self.before:
            self.step.setdefault(record, name)

    def back(self, place):
        """The steps behind a place, the nearest first, and the arguments at the end."""
        steps = []
        while place in self.before:
            steps += [self.step[place]] if place in self.step else []
            place = self.before[place]
        return [*steps, "args"]


def places(crate, function=None):
    """(function, [(goal, steps)]) for one function, in seconds, or for all that have files in proofs/, which takes a whole check."""
    with tempfile.TemporaryDirectory() as folder:
        only = ["--start", function.replace("/", "::")] if function else []
        said = run_rt(crate, "check", "--generated", folder, *only)
        root = f"{folder}/Rattle-{crate}-proofs/"
        views = sorted(glob.glob(glob.escape(root) + "**/Lts*/View.antt", recursive=True))
        if not os.path.isdir(root):
            stop(f"the checker wrote nothing for {crate}: {said.strip()[-400:]}")
        for view in views:
            steps = Steps(read(f"{os.path.dirname(view)}.antt") + read(view))
            yield os.path.dirname(os.path.dirname(view))[len(root):], [(goal, steps.back(place)) for goal, place in steps.goals]
