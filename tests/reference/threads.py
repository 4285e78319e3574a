"""Threads: which is ready and which runs, and the services of thbase on them."""

import struct

from memory import Fault
from objects import MOST_ID
from processor import Registers

# What a state of a thread is for ReferThreadStatus.
NUMBERS = {"run": 1, "ready": 2, "wait": 4, "suspend": 8, "both": 12, "dormant": 16}


class Thread:
    """`state` is one of run, ready, wait, suspend, both, dormant; `object` is what it waits for, if that is an object, and
    `wants` what it asks of it; `delay` is the moment and the number of its delay, if it waits for a time."""

    def __init__(self, ident, attr, option, entry, size, priority, stack, gp):
        self.id, self.attr, self.option, self.entry = ident, attr, option, entry
        self.size, self.first, self.stack, self.gp = size, priority, stack, gp
        self.priority, self.wakeups, self.state, self.cpu = priority, 0, "dormant", None
        self.object, self.wants, self.delay = None, None, None

    def waits_for(self):
        """The kind and the id of its wait."""
        if self.state not in ("wait", "both"):
            return 0, 0
        if self.object:
            return self.object.WAIT, self.object.id
        return (2 if self.delay else 1), 0


class Threads:
    """Of the machine: its threads, the list of the ready ones, and what the services of thbase do to them."""

    def end_running(self):
        self.threads[self.running].state = "dormant"
        self.running = None

    def make_ready(self, thread, first=False):
        thread.state = "ready"
        self.ready.insert(0 if first else len(self.ready), thread.id)

    def wake(self, thread, answer):
        thread.cpu.r[2] = answer % 2**32
        if thread.state == "both":
            thread.state = "suspend"
        else:
            self.make_ready(thread)

    def best(self):
        return min(self.ready, key=lambda i: self.threads[i].priority, default=None)

    def may_wait(self):
        return self.interrupts and self.dispatching

    def dispatch(self):
        best = self.best()
        if not self.may_wait() or self.handler or best is None:
            return False
        if self.running is not None:
            running = self.threads[self.running]
            if self.threads[best].priority >= running.priority:
                return False
            running.cpu = self.cpu
            self.make_ready(running, first=True)
        self.ready.remove(best)
        self.running = best
        self.threads[best].state = "run"
        self.cpu = self.threads[best].cpu
        self.trace(f"run {best}")
        return True

    def running_registers(self):
        """The registers of the thread that runs: those that are kept while a handler runs."""
        return self.handler.kept if self.handler else self.cpu

    def block(self):
        thread = self.threads[self.running]
        thread.state, thread.cpu, self.running = "wait", self.cpu, None

    def exit(self, delete):
        if self.running == 1:
            self.end_module(0)
            return None
        ident = self.running
        self.dispatching = self.interrupts = True
        self.end_running()
        if delete:
            self.blocks.free(self.threads.pop(ident).stack)
        return None

    def service(self, number):
        """A service of thbase: its answer, or None where the caller does not go on."""
        a, b, c = self.cpu.r[4:7]
        threads, me = self.threads, None if self.handler else self.running
        if number == 4:
            return self.create_thread(self.words_at(a, 5))
        if number in (12, 13):
            if not self.interrupts:
                return -102
            self.dispatching = number == 13
            return 0
        if number == 14 and not 1 <= b <= 126:
            return -403
        if number == 16:
            if a > 126 or a == 0 and self.handler:
                return -403
            return self.rotate(a or threads[me].priority)
        if number == 20:
            return me
        if number in (33, 34, 35, 37, 39, 40):
            return self.time_service(number, a, b, c)
        if number == 22:
            self.words_at(b, 12)
        if number == 24:
            return self.sleep()
        if number in (8, 9):
            return self.exit(number == 9)
        ident = me if a == 0 and me and number in (14, 22, 27) else a
        if ident == 0 or ident == 1 and number in (5, 6, 10) or ident == me and number in (10, 18, 25, 29, 31):
            return -406
        if ident not in threads:
            return -407
        return self.thread_service(number, threads[ident], b)

    def create_thread(self, at):
        attr, option, entry, size, priority = struct.unpack_from("<5I", self.memory.ram, at)
        if attr & ~0x03000000:
            return -401
        if entry % 4:
            return -402
        if not 1 <= priority <= 126:
            return -403
        if size < 256:
            return -404
        if len(self.threads) >= 255 or self.next_id > MOST_ID:
            return -400
        stack = self.blocks.alloc(1, size, 0)
        if not stack:
            return -400
        size = (size + 255) // 256 * 256
        self.memory.write(stack, b"\xff" * size)
        ident, self.next_id = self.next_id, self.next_id + 1
        self.threads[ident] = Thread(ident, attr, option, entry, size, priority, stack, self.cpu.r[28])
        return ident

    def thread_service(self, number, thread, word):
        if number in (5, 6) and thread.state != "dormant":
            return -414
        if number in (10, 14, 25, 27, 29) and thread.state == "dormant":
            return -413
        if number == 5:
            del self.threads[thread.id]
            self.blocks.free(thread.stack)
        elif number == 6:
            thread.priority, thread.wakeups = thread.first, 0
            thread.cpu = Registers(thread.entry, a0=word, gp=thread.gp, sp=thread.stack + thread.size - 16, ra=0x3000)
            self.make_ready(thread)
        elif number == 10:
            if thread.id == self.running:
                self.running = None
                self.dispatching = self.interrupts = True
            if thread.id in self.ready:
                self.ready.remove(thread.id)
            self.leave_object(thread)
            thread.state = "dormant"
        elif number == 14:
            thread.priority = word
            if thread.state == "ready":
                self.ready.remove(thread.id)
                self.ready.append(thread.id)
            if thread.object and thread.object.by_priority:
                thread.object.waiters.remove(thread.id)
                thread.object.waiters.append(thread.id)
        elif number == 18:
            if thread.state not in ("wait", "both"):
                return -416
            self.leave_object(thread)
            self.wake(thread, -418)
        elif number == 22:
            self.put_words(self.words_at(word, 12), thread.attr, thread.option, NUMBERS[thread.state], thread.entry,
                           thread.stack, thread.size, thread.gp, thread.first, thread.priority, *thread.waits_for(),
                           thread.wakeups)
        elif number == 25:
            if thread.waits_for()[0] == 1:
                self.wake(thread, 0)
            else:
                thread.wakeups = min(thread.wakeups + 1, 0x7FFFFFFF)
        elif number == 27:
            old, thread.wakeups = thread.wakeups, 0
            return old
        elif number == 29:
            if thread.id == self.running:
                if not self.dispatching:
                    return -417
                thread.cpu, self.running = self.running_registers(), None
            if thread.state == "ready":
                self.ready.remove(thread.id)
            thread.state = {"run": "suspend", "ready": "suspend", "wait": "both"}.get(thread.state, thread.state)
        elif number == 31:
            if thread.state == "suspend":
                self.make_ready(thread)
            elif thread.state == "both":
                thread.state = "wait"
            else:
                return -415
        else:
            raise Fault("service")
        return 0

    def rotate(self, priority):
        if self.running is not None and self.threads[self.running].priority == priority:
            if self.may_wait():
                thread = self.threads[self.running]
                self.cpu.r[2] = 0
                thread.cpu, self.running = self.running_registers(), None
                self.make_ready(thread)
                return 0 if self.handler else None
            return 0
        for ident in self.ready:
            if self.threads[ident].priority == priority:
                self.ready.remove(ident)
                self.ready.append(ident)
                break
        return 0

    def sleep(self):
        if not self.may_wait():
            return -417
        thread = self.threads[self.running]
        if thread.wakeups:
            thread.wakeups -= 1
            return 0
        self.block()
        return None
