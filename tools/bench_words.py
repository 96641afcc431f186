"""The words of refusals, exchanges and steps, and what a task counts.

The words are those that docs/RULES.md states.
"""

MEANINGS = {
    1: "the check byte is wrong",
    2: "the image is not of the kind's length",
    3: "a tag on the line is programming",
    4: "the row is not a multiple of 8",
    5: "no tag answers the reset",
    6: "what came back is not what a tag sends",
    7: "the scratchpad differs from the data sent",
    8: "the row found differs from the row ordered",
    9: "no place is left for a number",
}

READING = ("read scratchpad", "read memory", "closing reset")
ORDER = ("write scratchpad", "read scratchpad", "copy scratchpad",
         "read memory", "closing reset")


def spaced(data):
    return bytes(data).hex(" ").upper()


def counted(count, one):
    """`1 step`, `638 steps`."""
    return f"{count} {one}" if count == 1 else f"{count} {one}s"


def steps_words(steps):
    return counted(steps, "step")


def refused_words(number):
    return f"refused with {number}, {MEANINGS[number]}"


def job_words(refused, unit, names):
    """A refused job: what it means, where it came, after how many steps."""
    words = f"{refused_words(refused.number)}; "
    if refused.exchange:
        words += f"in {unit} {refused.exchange}, "
        if names:
            words += f"{names[refused.exchange - 1]}, "
    words += (f"after {steps_words(refused.steps)}" if refused.steps
              else "before any step")
    if refused.index is not None:
        words += f"; first difference at index {refused.index}"
    return words


class Report:
    """The lines of the program, and what is counted while they are made."""

    def __init__(self):
        self.lines = []
        self.tasks = 0
        self.makings = 0
        self.calls = 0
        self.pulses = 0
        self.refusals = 0

    def say(self, line):
        self.lines.append(line)

    def begin(self, heading):
        self.task_calls = self.calls
        self.task_refusals = self.refusals
        self.say("")
        self.say(f"Task {self.tasks + 1}: {heading}.")

    def end(self, what):
        self.tasks += 1
        self.say(f"Done: {what}.")

    def end_calls(self, what):
        """With the calls of the task, and how many of them were refused."""
        calls = counted(self.calls - self.task_calls, "call")
        refused = (self.refusals - self.task_refusals) or "none"
        self.end(f"{what}; {calls}, {refused} refused")

    def sum_up(self):
        self.say("")
        self.say(f"All {self.tasks} tasks are done: {self.makings} makings,"
                 f" {self.calls} calls and {self.pulses} pulses;"
                 f" {self.refusals} refusals, each the expected one.")
