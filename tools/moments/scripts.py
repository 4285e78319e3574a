"""The script of a run, as it is for a run with a watcher."""

IRQS, MOST_MODULES = 64, 64


class Script:
    """The lines of a script, or of the empty one."""

    def __init__(self, name):
        self.lines = ["script 1"]
        if name:
            with open(name, encoding="utf-8", errors="surrogateescape", newline="\n") as file:
                self.lines = file.read().split("\n")
        self.events = [line.split(" ") for line in self.lines if line.startswith("at ")]

    def free_irq(self):
        """The greatest interrupt line that has no event, if there is one."""
        used = {int(number) for _, _, _, number in self.events}
        return max(set(range(IRQS)) - used, default=None)

    def ticks(self):
        """The ticks of the events."""
        return [int(tick) for _, tick, _, _ in self.events]

    def text_with(self, ticks, last, more):
        """The text of a script with a watcher of so many ticks: the events up to the tick `last` come later, those
        behind it are gone, and there are more of them; words are for modules of one number more."""
        others = [shifted_words(line) for line in self.lines[1:] if not line.startswith("at ")]
        events = [(int(tick) + ticks, f"{kind} {number}") for _, tick, kind, number in self.events if int(tick) <= last]
        events = sorted([*events, *more], key=lambda event: event[0])
        return "\n".join([self.lines[0], *others, *(f"at {tick} {text}" for tick, text in events)]) + "\n"


def shifted_words(line):
    """A line that is no event, with words for a module of one number more."""
    kind, _, rest = line.partition(" ")
    if kind != "args":
        return line
    number, blank, words = rest.partition(" ")
    return f"args {int(number) + 1}{blank}{words}" if int(number) < MOST_MODULES else ""
