"""The parts of a snapshot, as plain values and lists, and how they are spelled in its file."""

import struct
from typing import Any, Callable, NamedTuple

MAGIC = b"IOPSNAP1"
MIB = 0x100000

RUN, READY, WAIT, SUSPEND, BOTH, DORMANT = 1, 2, 4, 8, 12, 16  # states of threads
WITH_CPU = (READY, WAIT, SUSPEND, BOTH)
LINE, ALARM = 1, 2  # whose a handler is


class Unreadable(Exception):
    """The bytes are no spelling of parts."""


class Kernel(NamedTuple):
    """`running` is a thread's id or 0; `handler` is whose handler is active, and the number of that, or None."""
    clock: int
    interrupts: bool
    dispatching: bool
    running: int
    handler: tuple[int, int] | None


class Cpu(NamedTuple):
    """`pending` is the register that a load has still to bring, or 0, and `value` what it brings, or 0."""
    registers: tuple[int, ...]
    hi: int
    lo: int
    pc: int
    next: int
    slot: bool
    pending: int
    value: int


class Cpus(NamedTuple):
    """That of what executes, where something does; and the one that is kept of a thread, where a handler is active and a
    thread runs."""
    executing: Cpu | None
    kept: Cpu | None


class Thread(NamedTuple):
    id: int
    attr: int
    option: int
    entry: int
    stack: int
    size: int
    gp: int
    first: int
    priority: int
    state: int
    wait: int
    wait_id: int
    wakeups: int
    cpu: Cpu | None


class Semaphore(NamedTuple):
    id: int
    attr: int
    option: int
    initial: int
    most: int
    count: int
    waiters: list[int]


class FlagWaiter(NamedTuple):
    thread: int
    bits: int
    mode: int
    place: int


class EventFlag(NamedTuple):
    id: int
    attr: int
    option: int
    first: int
    bits: int
    waiters: list[FlagWaiter]


class BoxWaiter(NamedTuple):
    thread: int
    place: int


class Message(NamedTuple):
    address: int
    priority: int


class Mailbox(NamedTuple):
    id: int
    attr: int
    option: int
    waiters: list[BoxWaiter]
    messages: list[Message]


class Range(NamedTuple):
    start: int
    size: int


class PoolWaiter(NamedTuple):
    thread: int
    size: int


class VariablePool(NamedTuple):
    id: int
    attr: int
    option: int
    base: int
    size: int
    out: list[Range]
    waiters: list[PoolWaiter]


class FixedPool(NamedTuple):
    id: int
    attr: int
    option: int
    base: int
    size: int
    count: int
    out: list[int]
    waiters: list[int]


class Alarm(NamedTuple):
    number: int
    moment: int
    handler: int
    arg: int
    gp: int


class Delay(NamedTuple):
    number: int
    moment: int
    thread: int


class Line(NamedTuple):
    """`handler` is an address, an argument and a `$gp`, or None."""
    raised: bool
    enabled: bool
    handler: tuple[int, int, int] | None


class Next(NamedTuple):
    """What the next one of each kind is called; alarms and delays have one count."""
    thread: int
    semaphore: int
    event_flag: int
    mailbox: int
    variable_pool: int
    fixed_pool: int
    number: int


class Library(NamedTuple):
    name: bytes
    major: int
    table: int


class Stub(NamedTuple):
    at: int
    name: bytes
    major: int
    index: int
    target: int


class Loaded(NamedTuple):
    """The module that is being run."""
    number: int
    base: int
    length: int


class File(NamedTuple):
    name: bytes
    content: bytes


class Modules(NamedTuple):
    """The one that is being run, if there is one; the number of the next one; and those that are not yet loaded."""
    current: Loaded | None
    next: int
    left: list[File]


class Event(NamedTuple):
    tick: int
    line: int
    raises: bool


class WordsOf(NamedTuple):
    """Words for a module, by its number or by its name."""
    module: int | bytes
    words: list[bytes]


class Script(NamedTuple):
    events: list[Event]
    by_number: list[WordsOf]
    by_name: list[WordsOf]


class Snapshot(NamedTuple):
    """The parts in their order. Where no order is said, lists are by their first field."""
    mib: int
    kernel: Kernel
    cpus: Cpus
    threads: list[Thread]
    ready: list[int]  # by priority, then arrival
    semaphores: list[Semaphore]
    event_flags: list[EventFlag]
    mailboxes: list[Mailbox]
    variable_pools: list[VariablePool]
    fixed_pools: list[FixedPool]
    alarms: list[Alarm]
    delays: list[Delay]
    lines: list[Line]
    next: Next
    used: list[Range]
    libraries: list[Library]  # in the order in which they were registered
    stubs: list[Stub]
    modules: Modules
    script: Script
    ram: bytes


class Reader:
    """Reads a file from its beginning on."""

    def __init__(self, file):
        self.file, self.at = file, 0

    def bytes(self, length):
        part = self.file[self.at:self.at + length]
        if len(part) < length:
            raise Unreadable
        self.at += length
        return part

    def numbers(self, layout):
        return layout.unpack(self.bytes(layout.size))


class Form(NamedTuple):
    """How a value is read, and how it is spelled."""
    read: Callable[[Reader], Any]
    spell: Callable[[Any], bytes]


def number(code):
    """A number of a width."""
    layout = struct.Struct("<" + code)
    return Form(lambda file: file.numbers(layout)[0], layout.pack)


def record(kind, codes, *rest):
    """Numbers of these widths, and behind them what has a form of its own."""
    layout, count = struct.Struct("<" + codes), len(kind._fields) - len(rest)

    def spell(value):
        return layout.pack(*value[:count]) + b"".join(form.spell(part) for form, part in zip(rest, value[count:]))

    return Form(lambda file: kind(*file.numbers(layout), *(form.read(file) for form in rest)), spell)


def repeated(form, count):
    """So many of a form."""
    return Form(lambda file: [form.read(file) for _ in range(count)], lambda items: b"".join(map(form.spell, items)))


def listed(form):
    """A list: how many items it has, and these."""
    return Form(lambda file: repeated(form, COUNT.read(file)).read(file),
                lambda items: COUNT.spell(len(items)) + b"".join(map(form.spell, items)))


def present(is_there, form):
    """A form, or nothing."""
    return Form(lambda file: form.read(file) if is_there else None,
                lambda value: form.spell(value) if is_there else b"")


def raw(length):
    """So many bytes."""
    return Form(lambda file: file.bytes(length), bytes)


def read_head(file):
    if file.bytes(len(MAGIC)) != MAGIC:
        raise Unreadable
    return COUNT.read(file)


def read_handler(file):
    """Whose handler is active, and the number of that."""
    whose, its_number = file.numbers(HANDLER)
    if whose not in (0, LINE, ALARM):
        raise Unreadable
    return (whose, its_number) if whose else None


def read_thread(file):
    numbers = file.numbers(THREAD)
    thread = Thread(*numbers, None)
    return thread._replace(cpu=present(thread.state in WITH_CPU, CPU).read(file))


def read_line(file):
    raised, enabled, has_handler, *handler = file.numbers(LINE_LAYOUT)
    return Line(raised, enabled, tuple(handler) if has_handler else None)


def read_cpu(file):
    numbers = file.numbers(CPU_LAYOUT)
    return Cpu(numbers[:32], *numbers[32:])


def read_modules(file):
    is_there = file.numbers(struct.Struct("<?"))[0]
    return Modules(present(is_there, LOADED).read(file), COUNT.read(file), FILES.read(file))


def spell_modules(modules):
    current = b"\1" + LOADED.spell(modules.current) if modules.current else b"\0"
    return current + COUNT.spell(modules.next) + FILES.spell(modules.left)


HANDLER = struct.Struct("<BQ")
THREAD = struct.Struct("<13I")
LINE_LAYOUT = struct.Struct("<3?3I")
CPU_LAYOUT = struct.Struct("<36I?BI")

COUNT = ID = ADDRESS = number("I")
TEXT = Form(lambda file: file.bytes(COUNT.read(file)), lambda text: COUNT.spell(len(text)) + text)
LOADED = record(Loaded, "3I")
FILES = listed(record(File, "", TEXT, TEXT))
CPU = Form(read_cpu, lambda cpu: CPU_LAYOUT.pack(*cpu.registers, *cpu[1:]))
WORDS = listed(TEXT)

FORMS = {
    "mib": Form(read_head, lambda mib: MAGIC + COUNT.spell(mib)),
    "kernel": record(Kernel, "Q2?I", Form(read_handler, lambda handler: HANDLER.pack(*handler or (0, 0)))),
    "threads": listed(Form(read_thread, lambda thread: (
        THREAD.pack(*thread[:-1]) + present(thread.state in WITH_CPU, CPU).spell(thread.cpu)))),
    "ready": listed(ID),
    "semaphores": listed(record(Semaphore, "6I", listed(ID))),
    "event_flags": listed(record(EventFlag, "5I", listed(record(FlagWaiter, "4I")))),
    "mailboxes": listed(record(Mailbox, "3I", listed(record(BoxWaiter, "2I")), listed(record(Message, "IB")))),
    "variable_pools": listed(record(VariablePool, "5I", listed(record(Range, "2I")), listed(record(PoolWaiter, "2I")))),
    "fixed_pools": listed(record(FixedPool, "6I", listed(ADDRESS), listed(ID))),
    "alarms": listed(record(Alarm, "2Q3I")),
    "delays": listed(record(Delay, "2QI")),
    "lines": repeated(Form(read_line, lambda line: (
        LINE_LAYOUT.pack(*line[:2], line.handler is not None, *line.handler or (0, 0, 0)))), 64),
    "next": record(Next, "6IQ"),
    "used": listed(record(Range, "2I")),
    "libraries": listed(record(Library, "8sBI")),
    "stubs": listed(record(Stub, "I8sBHI")),
    "modules": Form(read_modules, spell_modules),
    "script": record(Script, "", listed(record(Event, "QB?")), listed(record(WordsOf, "I", WORDS)),
                     listed(record(WordsOf, "", TEXT, WORDS))),
}


def form_of(name, before):
    """The form of a part, of which the parts before it may decide."""
    if name == "cpus":
        runs, handles = before["kernel"].running != 0, before["kernel"].handler is not None
        return record(Cpus, "", present(runs or handles, CPU), present(runs and handles, CPU))
    if name == "ram":
        return raw(before["mib"] * MIB)
    return FORMS[name]


def spelled_parts(snapshot):
    """The spelling of each part, in their order."""
    parts = snapshot._asdict()
    return [form_of(name, parts).spell(part) for name, part in parts.items()]


def spell(snapshot):
    """The file of a snapshot."""
    return b"".join(spelled_parts(snapshot))


def read(file):
    """The snapshot of a file, which must be the spelling of it and nothing more."""
    reader, parts = Reader(file), {}
    for name in Snapshot._fields:
        parts[name] = form_of(name, parts).read(reader)
    snapshot = Snapshot(**parts)
    if spell(snapshot) != file:
        raise Unreadable
    return snapshot
