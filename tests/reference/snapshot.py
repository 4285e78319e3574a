"""Snapshots: a machine is saved into the bytes of a file, and restored from them. Their parts are those of parts.py."""

import parts
from deliveries import Alarm, Handler, Line
from held import tests_broken
from machine import Machine
from memory import Stub
from objects import EventFlag, Mailbox, Semaphore
from pools import FixedPool, VariablePool
from processor import Registers
from script import Event, Script
from threads import NUMBERS, Thread

STATES = {number: state for state, number in NUMBERS.items()}

# The kinds of objects, by the names of the parts that have them.
KINDS = {"semaphores": Semaphore, "event_flags": EventFlag, "mailboxes": Mailbox, "variable_pools": VariablePool,
         "fixed_pools": FixedPool}


class BadSnapshot(Exception):
    """The bytes are no snapshot: the names of the tests that they break, or `spelling` where they are no parts at all."""


def save(machine):
    """The bytes of the snapshot of a machine."""
    return parts.spell(snapshot_of(machine))


def restore(file):
    """The machine of which these bytes are the snapshot."""
    names = broken(file)
    if names:
        raise BadSnapshot(names)
    return machine_of(parts.read(file))


def broken(file):
    """The names of the tests that bytes break; none where they are a snapshot."""
    try:
        return tests_broken(parts.read(file))
    except parts.Unreadable:
        return ["spelling"]


def snapshot_of(machine):
    """The parts of a machine."""
    runs, handles = machine.running is not None, machine.handler is not None
    by_id = lambda kind: [machine.objects[kind][ident] for ident in sorted(machine.objects[kind])]
    stubs = sorted(machine.memory.live.items())
    delayed = [thread for thread in machine.threads.values() if thread.delay]
    return parts.Snapshot(
        mib=machine.memory.size // parts.MIB,
        kernel=parts.Kernel(machine.clock, machine.interrupts, machine.dispatching, machine.running or 0,
                            handler_of(machine.handler)),
        cpus=parts.Cpus(cpu_of(machine.cpu) if runs or handles else None,
                        cpu_of(machine.handler.kept) if runs and handles else None),
        threads=[thread_of(machine.threads[ident]) for ident in sorted(machine.threads)],
        ready=sorted(machine.ready, key=lambda ident: machine.threads[ident].priority),
        semaphores=[parts.Semaphore(*head_of(it), it.initial, it.most, it.count, it.waiters)
                    for it in by_id(Semaphore)],
        event_flags=[parts.EventFlag(*head_of(it), it.first, it.bits, [
            parts.FlagWaiter(waiter, *machine.threads[waiter].wants) for waiter in it.waiters])
            for it in by_id(EventFlag)],
        mailboxes=[parts.Mailbox(*head_of(it), [
            parts.BoxWaiter(waiter, machine.threads[waiter].wants) for waiter in it.waiters],
            [parts.Message(address, priority) for priority, address in it.messages])
            for it in by_id(Mailbox)],
        variable_pools=[parts.VariablePool(*head_of(it), it.base, it.size,
                                           [parts.Range(start, 16 * it.out[start]) for start in sorted(it.out)], [
            parts.PoolWaiter(waiter, machine.threads[waiter].wants) for waiter in it.waiters])
            for it in by_id(VariablePool)],
        fixed_pools=[parts.FixedPool(*head_of(it), it.base, it.size, len(it.places), sorted(it.out), it.waiters)
                     for it in by_id(FixedPool)],
        alarms=[parts.Alarm(it.number, it.moment, it.handler, it.arg, it.gp)
                for it in sorted(machine.alarms, key=lambda it: it.number)],
        delays=sorted(parts.Delay(number, moment, it.id) for it in delayed for moment, number in [it.delay]),
        lines=[parts.Line(it.raised, it.enabled, it.handler) for it in machine.irqs],
        next=parts.Next(machine.next_id, *(machine.next_object[kind] for kind in KINDS.values()), machine.next_number),
        used=[parts.Range(*it) for it in sorted(machine.blocks.used.items())],
        libraries=[parts.Library(*it) for it in machine.registry],
        stubs=[parts.Stub(at, *it.library, it.index, it.target) for at, it in stubs],
        modules=parts.Modules(machine.module and parts.Loaded(*machine.module), machine.next_module,
                              [parts.File(name.encode(), file) for name, file in machine.files]),
        script=parts.Script([parts.Event(*it) for it in machine.events],
                            [parts.WordsOf(*it) for it in machine.script.by_number.items()],
                            [parts.WordsOf(*it) for it in machine.script.by_name.items()]),
        ram=bytes(machine.memory.ram))


def head_of(thing):
    return thing.id, thing.attr, thing.option


def handler_of(handler):
    return handler and (parts.LINE if handler.of_line else parts.ALARM, handler.number)


def cpu_of(cpu):
    return parts.Cpu(tuple(cpu.r), cpu.hi, cpu.lo, cpu.pc, cpu.next, cpu.slot, *cpu.pending or (0, 0))


def thread_of(thread):
    state = NUMBERS[thread.state]
    return parts.Thread(thread.id, thread.attr, thread.option, thread.entry, thread.stack, thread.size, thread.gp,
                        thread.first, thread.priority, state, *thread.waits_for(), thread.wakeups,
                        cpu_of(thread.cpu) if state in parts.WITH_CPU else None)


def machine_of(snapshot):
    """The machine of parts."""
    kernel, (current, following, left) = snapshot.kernel, snapshot.modules
    machine = Machine([(file.name.decode(), file.content) for file in left], script_of(snapshot.script),
                      snapshot.mib * parts.MIB)
    machine.booted, machine.module, machine.next_module = True, current, following
    machine.clock, machine.interrupts, machine.dispatching = kernel.clock, kernel.interrupts, kernel.dispatching
    machine.running, machine.ready = kernel.running or None, list(snapshot.ready)
    machine.threads = {it.id: restored_thread(it) for it in snapshot.threads}
    restore_cpus(machine, snapshot)
    restore_objects(machine, snapshot)
    machine.alarms = [Alarm(*it) for it in snapshot.alarms]
    for delay in snapshot.delays:
        machine.threads[delay.thread].delay = delay.moment, delay.number
    for line, restored in zip(machine.irqs, snapshot.lines):
        line.raised, line.enabled, line.handler = restored
    machine.next_id, *next_objects, machine.next_number = snapshot.next
    machine.next_object = dict(zip(KINDS.values(), next_objects))
    machine.blocks.used = dict(snapshot.used)
    machine.registry = [tuple(it) for it in snapshot.libraries]
    machine.memory.live = {it.at: Stub((it.name, it.major), it.index, it.target) for it in snapshot.stubs}
    machine.memory.ram[:] = snapshot.ram
    return machine


def script_of(its_parts):
    script = Script()
    script.events = [Event(*it) for it in its_parts.events]
    script.by_number, script.by_name = dict(its_parts.by_number), dict(its_parts.by_name)
    return script


def registers_of(cpu):
    registers = Registers(cpu.pc)
    registers.r, registers.hi, registers.lo = list(cpu.registers), cpu.hi, cpu.lo
    registers.next, registers.slot = cpu.next, cpu.slot
    registers.pending = (cpu.pending, cpu.value) if cpu.pending else None
    return registers


def restore_cpus(machine, snapshot):
    """The registers of what executes, and of what a handler interrupted."""
    executing, kept = snapshot.cpus
    if executing:
        machine.cpu = registers_of(executing)
    if snapshot.kernel.handler:
        whose, number = snapshot.kernel.handler
        machine.handler = Handler(whose == parts.LINE, number, kept and registers_of(kept))


def restored_thread(it):
    thread = Thread(it.id, it.attr, it.option, it.entry, it.size, it.first, it.stack, it.gp)
    thread.priority, thread.wakeups, thread.state = it.priority, it.wakeups, STATES[it.state]
    thread.cpu = it.cpu and registers_of(it.cpu)
    return thread


def restore_objects(machine, snapshot):
    """The objects, and what their waiters ask of them."""
    for part, kind in KINDS.items():
        for it in getattr(snapshot, part):
            thing = machine.objects[kind][it.id] = RESTORED[kind](it)
            for waiter in it.waiters:
                ident, *wants = waiter if isinstance(waiter, tuple) else (waiter,)
                thread = machine.threads[ident]
                thread.object, thread.wants = thing, tuple(wants) if kind is EventFlag else wants[0] if wants else None
                thing.waiters.append(ident)


def restored_semaphore(it):
    semaphore = Semaphore(it.id, it.attr, it.option, it.initial, it.most)
    semaphore.count = it.count
    return semaphore


def restored_flag(it):
    flag = EventFlag(it.id, it.attr, it.option, it.first)
    flag.bits = it.bits
    return flag


def restored_mailbox(it):
    box = Mailbox(it.id, it.attr, it.option)
    box.messages = [(message.priority, message.address) for message in it.messages]
    return box


def restored_variable_pool(it):
    pool = VariablePool(it.id, it.attr, it.option, it.size, it.base)
    for start, size in it.out:
        first, count = (start - it.base) // 16, size // 16
        pool.units[first:first + count] = b"\1" * count
        pool.out[start] = count
    return pool


def restored_fixed_pool(it):
    pool = FixedPool(it.id, it.attr, it.option, it.size, it.count, it.base)
    pool.out = set(it.out)
    return pool


RESTORED = {Semaphore: restored_semaphore, EventFlag: restored_flag, Mailbox: restored_mailbox,
            VariablePool: restored_variable_pool, FixedPool: restored_fixed_pool}
