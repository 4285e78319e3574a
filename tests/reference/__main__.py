"""An independent model of the machine: what `iop` writes for some modules, computed in Python.

    python3 -B tests/reference WORD...    does what `iop` does for these words; console on stdout, trace on stderr

It is written from docs/PROFILE.md and docs/FORMATS.md, and shares no line with the program but for the source of the test
module. It does no more than the tests need, and ends with 70 where it does not know what would happen.
`tests/commands tests/model` compares it with what the cases want.

What the command is told stands in these files:

    words.py         its words
    inputs.py        the files that it reads, and why it may not run
    script.py        the events and the words of a script
    generated.py     the module that it can make

The machine is one class, whose parts stand each in a file of its own:

    machine.py       its state and memory at the start, and its run to the end
    irx.py           the rules of a module's file
    loading.py       the way of a module: relocation, linking, its words, its removal
    threads.py       threads, the list of the ready ones and dispatch; thbase
    objects.py       semaphores, event flags and mailboxes; thsemap, thevent, thmsgbx
    pools.py         pools of memory; thvpool, thfpool
    deliveries.py    alarms, delays, interrupt lines and their handlers; thbase on the clock, intrman
    services.py      which services there are, and from where they may be called; loadcore, sysmem
    formatting.py    printf and Kprintf
    sysclib.py       memory, strings and numbers; sysclib
    processor.py     registers and instructions
    memory.py        RAM with its live stubs, and the blocks

A machine that stopped by its budget is saved, and another one goes on from there:

    snapshot.py      the way from a machine to the bytes of a file, and back
    parts.py         the parts of a snapshot, and how they are spelled
    held.py          the tests that they must pass
"""

import os
import struct
import sys
from typing import NamedTuple

from generated import generated
from held import MOST_CLOCK
from inputs import MOST_SNAPSHOT, Refused, read_file
from machine import BUDGET, Machine
from script import Script, read_script
from snapshot import BadSnapshot, restore, save
from words import read_words

UNKNOWN = 70
NOT_WRITTEN = 24


class Outcome(NamedTuple):
    """The console's bytes, the lines of the trace, the status, and the name and the bytes of the file that is kept."""
    console: bytes
    trace: list[str]
    status: int
    kept: tuple[str, bytes] | None = None


def module_files(options):
    """The word and the bytes of each module."""
    if options.generate:
        return [("generated", generated(options.generate))]
    return [(name, read_file(name)) for name in options.modules]


def restored(name):
    """The machine of a snapshot's file."""
    file = read_file(name, MOST_SNAPSHOT)
    try:
        return restore(file)
    except BadSnapshot as bad:
        raise Refused(25, f"bad snapshot {name}") from bad


def machine_for(options):
    """The machine that is to run."""
    if options.restore:
        return restored(options.restore)
    script = Script() if options.script is None else read_script(read_file(options.script))
    return Machine(module_files(options), script, options.size)


def outcome(words):
    """What comes of the words of a command."""
    try:
        options = read_words(words)
        machine = machine_for(options)
    except Refused as refused:
        return Outcome(b"", [f"iop: {refused.text}"], refused.status)
    status = machine.run(options.budget)
    dump = machine.dump(*options.dump) if options.dump else []
    is_kept = options.save and status == BUDGET and machine.clock < MOST_CLOCK
    kept = (options.save, save(machine)) if is_kept else None
    return Outcome(machine.console, machine.lines + dump, status, kept)


def keep(name, content):
    """Writes the file that is kept, and tells whether it could."""
    try:
        with open(name, "wb") as file:
            file.write(content)
    except OSError:
        return False
    return True


def main():
    try:
        console, trace, status, kept = outcome([os.fsencode(word) for word in sys.argv[1:]])
    except (IndexError, StopIteration, struct.error) as unknown:
        print(f"model: {type(unknown).__name__} {unknown}", file=sys.stderr)
        return UNKNOWN
    sys.stdout.buffer.write(console)
    sys.stderr.buffer.write("".join(line + "\n" for line in trace).encode())
    return NOT_WRITTEN if kept and not keep(*kept) else status


if __name__ == "__main__":
    sys.exit(main())
