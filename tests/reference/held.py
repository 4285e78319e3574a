"""The twelve tests that a snapshot must pass, each over its parts as plain lists. No machine stands in a state that breaks
one of them."""

from itertools import pairwise

from memory import place_of
from parts import BOTH, DORMANT, LINE, READY, RUN, SUSPEND, WAIT

SLEEP, DELAY, SEMAPHORE, EVENT_FLAG, MAILBOX, VARIABLE_POOL, FIXED_POOL = range(1, 8)  # what a thread waits for

NEVER = 2**63
MOST_CLOCK = 2**63 + 2**62
MOST_NEXT_ID = 2**31
MOST_WAKEUPS = 0x7FFFFFFF
MOST_OBJECTS = 255  # of each kind, and of alarms
MOST_MESSAGES = 4096
MOST_LIBRARIES = 263
MOST_STUBS = 65536
MOST_NUMBER = 65  # of the module behind the last one
MOST_NAME = 255
MOST_FILE = 4_194_304
MOST_WORDS = 15
MOST_TEXT = 4028  # bytes of a module's name and words, with a zero behind each

KERNEL_END = 0x10000
JUMP, SECOND_WORD = 0x08000000, 0x24000000  # the words of a live stub, without where it goes and its index


def rise(numbers):
    return all(before < after for before, after in pairwise(numbers))


def rise_below(numbers, bound):
    """They rise from 1 on and are below a bound."""
    return rise([0, *numbers, bound])


def is_place(snapshot, at, length=4, width=4):
    """Whether a range is in RAM, and begins at a multiple of a width; of a word where nothing else is said."""
    return place_of(len(snapshot.ram), at, length, width) is not None


def in_units(length):
    return (length + 255) // 256 * 256


def objects_of(snapshot):
    """The objects that threads wait for, by their kinds of wait."""
    return {SEMAPHORE: snapshot.semaphores, EVENT_FLAG: snapshot.event_flags, MAILBOX: snapshot.mailboxes,
            VARIABLE_POOL: snapshot.variable_pools, FIXED_POOL: snapshot.fixed_pools}


def numbers(snapshot):
    """Ids and numbers rise and are below the next ones, and the clock is not at its end."""
    following, clock = snapshot.next, snapshot.kernel.clock
    alarms, delays = ([item.number for item in items] for items in (snapshot.alarms, snapshot.delays))
    kinds = [snapshot.threads, *objects_of(snapshot).values()]
    return (snapshot.mib in (2, 8) and clock < MOST_CLOCK
            and all(rise_below([item.id for item in items], bound) and 1 <= bound <= MOST_NEXT_ID
                    for items, bound in zip(kinds, following))
            and rise_below(alarms, following.number) and rise_below(delays, following.number)
            and not set(alarms) & set(delays)
            and 1 <= following.number <= clock + 1
            and handler_is_named(snapshot.kernel.handler, following.number))


def handler_is_named(handler, bound):
    """A handler that is active is that of a line that there is, or of an alarm that there was."""
    whose, number = handler or (LINE, 0)
    return number < 64 if whose == LINE else 1 <= number < bound


def processors(snapshot):
    """Each processor stands so as one may stand; only that of what executes in a delay slot."""
    executing, kept = snapshot.cpus
    resting = [kept] + [thread.cpu for thread in snapshot.threads]
    return (all(cpu_stands(cpu) for cpu in [executing, *resting] if cpu)
            and not any(cpu.slot for cpu in resting if cpu)
            and not any(thread.cpu.pending for thread in snapshot.threads if thread.state in (WAIT, BOTH)))


def cpu_stands(cpu):
    return (cpu.registers[0] == 0 and (cpu.slot or cpu.next == (cpu.pc + 4) % 2**32) and cpu.pending < 32
            and (cpu.pending != 0 or cpu.value == 0))


def threads(snapshot):
    """Each thread is one that can be made and run, and the loader's is there."""
    running = [thread.id for thread in snapshot.threads if thread.state == RUN]
    return (any(is_loaders(thread) for thread in snapshot.threads)
            and all(thread_stands(snapshot, thread) for thread in snapshot.threads)
            and running == ([snapshot.kernel.running] if snapshot.kernel.running else []))


def is_loaders(thread):
    return thread[:8] == (1, 0x02000000, 0, 0, 0xC000, 0x4000, 0, 8)


def thread_stands(snapshot, thread):
    return (thread.attr & ~0x03000000 == 0 and thread.entry % 4 == 0
            and 1 <= thread.first <= 126 and 1 <= thread.priority <= 126
            and thread.size % 256 == 0 and thread.size != 0
            and is_place(snapshot, thread.stack, thread.size, 256)
            and (thread.id == 1 or thread.stack >= KERNEL_END)
            and thread.wakeups <= MOST_WAKEUPS
            and thread.state in (RUN, READY, WAIT, SUSPEND, BOTH, DORMANT)
            and (SLEEP <= thread.wait <= FIXED_POOL if thread.state in (WAIT, BOTH) else thread.wait == 0)
            and (thread.wait_id == 0 or thread.wait > DELAY))


def objects(snapshot):
    """Semaphores, event flags and mailboxes are ones that can be made, and what is asked of them can be asked."""
    return (all(semaphore.attr in (0, 1) and semaphore.initial <= semaphore.most and semaphore.count <= semaphore.most
                for semaphore in snapshot.semaphores)
            and all(flag_stands(snapshot, flag) for flag in snapshot.event_flags)
            and all(box_stands(snapshot, box) for box in snapshot.mailboxes))


def flag_stands(snapshot, flag):
    return (flag.attr in (0, 2) and (flag.attr == 2 or len(flag.waiters) <= 1)
            and all(waiter.bits and (waiter.place == 0 or is_place(snapshot, waiter.place)) for waiter in flag.waiters))


def box_stands(snapshot, box):
    return (box.attr in (0, 1, 4, 5)
            and all(is_place(snapshot, waiter.place) for waiter in box.waiters)
            and (box.attr & 4 or all(message.priority == 0 for message in box.messages)))


def pools(snapshot):
    """Pools are ones that can be made, in RAM behind the kernel's area, and what is out of one is apart and in it."""
    return (all(variable_pool_stands(snapshot, pool) for pool in snapshot.variable_pools)
            and all(fixed_pool_stands(snapshot, pool) for pool in snapshot.fixed_pools))


def base_stands(snapshot, pool, length):
    return pool.attr in (0, 1) and pool.base >= KERNEL_END and is_place(snapshot, pool.base, length, 256)


def variable_pool_stands(snapshot, pool):
    in_pool = lambda size: size % 16 == 0 and 16 <= size <= pool.size
    ends = [pool.base] + [start + size for start, size in pool.out]
    starts = [start for start, _ in pool.out] + [pool.base + pool.size]
    return (16 <= pool.size <= 65536 and pool.size % 16 == 0 and base_stands(snapshot, pool, pool.size)
            and all(start % 16 == 0 and in_pool(size) for start, size in pool.out)
            and all(end <= start for end, start in zip(ends, starts))
            and all(in_pool(waiter.size) for waiter in pool.waiters))


def fixed_pool_stands(snapshot, pool):
    return (4 <= pool.size <= 65536 and pool.size % 4 == 0 and 1 <= pool.count <= 1024
            and base_stands(snapshot, pool, pool.size * pool.count)
            and rise(pool.out)
            and all(place in range(pool.base, pool.base + pool.size * pool.count, pool.size) for place in pool.out))


def limits(snapshot):
    """There are no more of each kind than there may be."""
    return (all(len(items) <= MOST_OBJECTS
                for items in (snapshot.threads, *objects_of(snapshot).values(), snapshot.alarms))
            and sum(len(box.messages) for box in snapshot.mailboxes) <= MOST_MESSAGES
            and len(snapshot.libraries) <= MOST_LIBRARIES and len(snapshot.stubs) <= MOST_STUBS)


def moments(snapshot):
    """No moment is behind the one that never comes, and no alarm is set twice."""
    alarms = [(alarm.handler, alarm.arg) for alarm in snapshot.alarms]
    return (all(item.moment <= NEVER for item in snapshot.alarms + snapshot.delays)
            and len(set(alarms)) == len(alarms))


def map_and_libraries(snapshot):
    """The used ranges are apart, in units, and the kernel's is the first; libraries are told apart, and have tables."""
    used = snapshot.used
    names = [(library.name, library.major) for library in snapshot.libraries]
    return (used[:1] == [(0, KERNEL_END)]
            and all(start % 256 == 0 and size % 256 == 0 and size != 0 for start, size in used)
            and all(before.start + before.size <= after.start for before, after in pairwise(used))
            and all(start + size <= len(snapshot.ram) for start, size in used)
            and len(set(names)) == len(names)
            and all(library.table % 4 == 0 and library.table + 20 <= len(snapshot.ram)
                    for library in snapshot.libraries))


def stubs(snapshot):
    """The live stubs are apart, each in RAM, which has their words."""
    return (all(before.at + 8 <= after.at for before, after in pairwise(snapshot.stubs))
            and all(stub_stands(snapshot.ram, stub) for stub in snapshot.stubs))


def stub_stands(ram, stub):
    return (stub.at % 4 == 0 and stub.at + 8 <= len(ram) and stub.target % 4 == 0 and stub.target < 2**28
            and word_at(ram, stub.at) == JUMP + stub.target // 4
            and word_at(ram, stub.at + 4) == SECOND_WORD + stub.index)


def word_at(ram, at):
    return int.from_bytes(ram[at:at + 4], "little")


def modules(snapshot):
    """A module is there exactly where the loader's thread is not dormant, and those behind it may be loaded."""
    current, following, left = snapshot.modules
    is_dormant = any(thread.id == 1 and thread.state == DORMANT for thread in snapshot.threads)
    return (following >= 1 and following + len(left) <= MOST_NUMBER
            and (not is_dormant and loaded_stands(snapshot, current) if current else is_dormant and not left)
            and all(may_be_loaded(snapshot.script, number, file) for number, file in enumerate(left, following)))


def loaded_stands(snapshot, current):
    return (1 <= current.number < snapshot.modules.next and current.base >= KERNEL_END and current.length >= 4
            and is_place(snapshot, current.base, in_units(current.length), 256))


def may_be_loaded(script, number, file):
    """Whether a module's file, its name and its words are not too long."""
    words = next((item.words for item in script.by_number if item.module == number), None)
    if words is None:
        words = next((item.words for item in script.by_name if item.module == file.name), [])
    return (is_utf8(file.name) and len(file.name) <= MOST_NAME and len(file.content) <= MOST_FILE
            and len(words) <= MOST_WORDS and sum(len(text) + 1 for text in [file.name, *words]) <= MOST_TEXT)


def is_utf8(name):
    try:
        name.decode()
    except UnicodeDecodeError:
        return False
    return True


def script(snapshot):
    """The events are in order, and each module has its words once."""
    events, by_number, by_name = snapshot.script
    return (all(before.tick <= after.tick for before, after in pairwise(events))
            and all(event.tick < NEVER and event.line < 64 for event in events)
            and all(len({item.module for item in items}) == len(items) for items in (by_number, by_name)))


def laws(snapshot):
    """What the kernel keeps between any two steps, and that no thread is to be dispatched now."""
    return lists_name_threads(snapshot) and nothing_is_overdue(snapshot) and may_dispatch(snapshot)


def lists_name_threads(snapshot):
    """A thread that is ready is once among the ready ones, one that waits is once where it waits, and no list names
    another."""
    priority = {thread.id: thread.priority for thread in snapshot.threads}
    waits = [(thread.wait, thread.wait_id, thread.id) for thread in snapshot.threads if thread.wait >= DELAY]
    waiters = [(DELAY, 0, delay.thread) for delay in snapshot.delays]
    for kind, items in objects_of(snapshot).items():
        plain = kind in (SEMAPHORE, FIXED_POOL)
        waiters += [(kind, item.id, waiter if plain else waiter.thread) for item in items for waiter in item.waiters]
    return (all(thread.id == snapshot.kernel.running for thread in snapshot.threads if thread.state == RUN)
            and sorted(snapshot.ready) == sorted(thread.id for thread in snapshot.threads if thread.state == READY)
            and all(priority[before] <= priority[after] for before, after in pairwise(snapshot.ready))
            and sorted(waits) == sorted(waiters))


def nothing_is_overdue(snapshot):
    """No thread waits for what is there."""
    return (not any(semaphore.count for semaphore in snapshot.semaphores if semaphore.waiters)
            and not any(holds(flag.bits, waiter) for flag in snapshot.event_flags for waiter in flag.waiters)
            and not any(box.messages for box in snapshot.mailboxes if box.waiters)
            and not any(waiter.size <= greatest_gap(pool) for pool in snapshot.variable_pools for waiter in pool.waiters)
            and not any(len(pool.out) < pool.count for pool in snapshot.fixed_pools if pool.waiters)
            and not any(thread.wakeups for thread in snapshot.threads if thread.wait == SLEEP))


def holds(bits, waiter):
    """Whether what a waiter asks of an event flag holds: one of its bits, or all of them."""
    return bits & waiter.bits != 0 if waiter.mode & 1 else bits & waiter.bits == waiter.bits


def greatest_gap(pool):
    """The length of the greatest range that is not out."""
    ends = [pool.base] + [start + size for start, size in pool.out]
    starts = [start for start, _ in pool.out] + [pool.base + pool.size]
    return max(start - end for end, start in zip(ends, starts))


def may_dispatch(snapshot):
    """Where no thread runs, dispatch is enabled, and without a handler interrupts are on; and the thread that runs is the
    one that should."""
    kernel = snapshot.kernel
    priority = {thread.id: thread.priority for thread in snapshot.threads}
    if not kernel.running and not (kernel.dispatching and (kernel.interrupts or kernel.handler)):
        return False
    if not kernel.interrupts or not kernel.dispatching or kernel.handler or not snapshot.ready:
        return True
    return kernel.running != 0 and priority.get(kernel.running, 0) <= priority[snapshot.ready[0]]


TESTS = {
    "numbers": numbers,
    "processors": processors,
    "threads": threads,
    "objects": objects,
    "pools": pools,
    "limits": limits,
    "moments": moments,
    "map and libraries": map_and_libraries,
    "stubs": stubs,
    "modules": modules,
    "script": script,
    "laws": laws,
}


def tests_broken(snapshot):
    """The names of the tests that a snapshot breaks."""
    return [name for name, test in TESTS.items() if not test(snapshot)]
