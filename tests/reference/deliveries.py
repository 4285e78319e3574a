"""What comes at a moment or is raised: alarms, delays and interrupt lines, their handlers and their services."""

import struct
from itertools import takewhile
from typing import NamedTuple

from processor import Registers

NEVER = 2**63  # the moment that does not come


class Line:
    """An interrupt line; its handler is an address, an argument and a `$gp`."""

    def __init__(self):
        self.raised, self.enabled, self.handler = False, False, None


class Alarm:
    def __init__(self, number, moment, handler, arg, gp):
        self.number, self.moment, self.handler, self.arg, self.gp = number, moment, handler, arg, gp


class Handler(NamedTuple):
    """A handler that is active: whether it is a line's, else an alarm's; the number of that; and the registers that are
    kept of what it interrupted."""
    of_line: bool
    number: int
    kept: Registers


class Deliveries:
    """Of the machine: its alarms and lines, what is delivered next, and the services on them."""

    def number(self):
        number, self.next_number = self.next_number, self.next_number + 1
        return number

    def take_events(self):
        """Takes the events that are due, one after the other: each raises its line or lowers it."""
        due = list(takewhile(lambda event: event.tick <= self.clock, self.events))
        for event in due:
            self.irqs[event.line].raised = event.raises
        self.events = self.events[len(due):] if due else self.events

    def untaken(self):
        """The events that are to come, and which lines are raised."""
        return self.events, [line.raised for line in self.irqs]

    def put_back(self, events, raised):
        """What was untaken is so again."""
        self.events = events
        for line, was in zip(self.irqs, raised):
            line.raised = was

    def deliver(self):
        """Delivers what comes first, and tells whether something did."""
        if not self.interrupts or self.handler or self.running is not None and self.cpu.slot:
            return False
        for number, line in enumerate(self.irqs):
            if line.raised and line.enabled and line.handler:
                line.raised = line.enabled = False
                self.trace(f"line {number}")
                self.begin_handler(True, number, *line.handler)
                return True
        delays = [(*thread.delay, thread) for thread in self.threads.values() if thread.delay]
        due = [it for it in delays + [(alarm.moment, alarm.number, alarm) for alarm in self.alarms]
               if it[0] <= self.clock and it[0] < NEVER]
        if not due:
            return False
        _, number, first = min(due, key=lambda it: it[:2])
        if isinstance(first, Alarm):
            self.trace(f"alarm {number}")
            self.begin_handler(False, number, first.handler, first.arg, first.gp)
        else:
            self.trace(f"due {first.id}")
            self.wake_waiter(first, 0)
        return True

    def begin_handler(self, of_line, number, address, arg, gp):
        self.handler = Handler(of_line, number, self.cpu)
        self.cpu = Registers(address, a0=arg, gp=gp, sp=0xBFF0, ra=0x3010)

    def return_handler(self):
        of_line, number, kept = self.handler
        (self.line_handled if of_line else self.alarm_handled)(number, self.cpu.r[2])
        self.handler, self.interrupts, self.cpu = None, True, kept

    def line_handled(self, number, value):
        line = self.irqs[number]
        if value == 0:
            line.enabled = False
        elif line.handler:
            line.enabled = True

    def alarm_handled(self, number, value):
        if value == 0:
            self.alarms = [alarm for alarm in self.alarms if alarm.number != number]
        for alarm in self.alarms:
            if alarm.number == number:
                alarm.moment = min(alarm.moment + value, NEVER)

    def next_moment(self):
        """The least tick or moment that comes."""
        moments = [alarm.moment for alarm in self.alarms]
        moments += [thread.delay[0] for thread in self.threads.values() if thread.delay]
        moments += [event.tick for event in self.events[:1]]
        return min((moment for moment in moments if moment < NEVER), default=None)

    def time_service(self, number, a, b, c):
        """A service of thbase that looks at the clock."""
        moment = lambda ticks: min(self.clock + ticks, NEVER)
        if number == 33:
            if not self.may_wait():
                return -417
            self.threads[self.running].delay = moment(a * 4608 // 125), self.number()
            self.block()
            return None
        if number == 34:
            self.put_words(self.words_at(a, 2), self.clock % 2**32, self.clock >> 32)
        elif number == 35:
            ticks = struct.unpack_from("<Q", self.memory.ram, self.words_at(a, 2))[0]
            if any((alarm.handler, alarm.arg) == (b, c) for alarm in self.alarms):
                return -104
            if len(self.alarms) >= 255:
                return -400
            self.alarms.append(Alarm(self.number(), moment(ticks), b, c, self.cpu.r[28]))
        elif number == 37:
            left = [alarm for alarm in self.alarms if (alarm.handler, alarm.arg) != (a, b)]
            if len(left) == len(self.alarms):
                return -105
            self.alarms = left
        elif number == 39:
            ticks = a * 4608 // 125
            self.put_words(self.words_at(b, 2), ticks % 2**32, ticks >> 32)
        else:
            at, seconds, rest = self.words_at(a, 2), self.words_at(b, 1), self.words_at(c, 1)
            micros = struct.unpack_from("<Q", self.memory.ram, at)[0] * 125 // 4608
            self.put_words(seconds, micros // 1_000_000 % 2**32)
            self.put_words(rest, micros % 1_000_000)
        return 0

    def interrupt_service(self, number):
        """A service of intrman."""
        a, b, c, d = self.cpu.r[4:8]
        if number == 17:
            place, on = self.words_at(a, 1), self.interrupts
            self.put_words(place, int(on))
            self.interrupts = False
            return 0 if on else -102
        if number == 8 and not self.interrupts:
            return -102
        if number in (8, 9, 18):
            self.interrupts = number == 9 or number == 18 and a != 0
            return 0
        if number == 23:
            return int(self.handler is not None)
        place = self.words_at(b, 1) if number == 7 and b else None
        if a >= 64:
            return -101
        line = self.irqs[a]
        if number == 4:
            if line.handler:
                return -104
            line.handler = c, d, self.cpu.r[28]
        elif number == 5:
            if not line.handler:
                return -105
            line.handler, line.enabled = None, False
        elif number == 6:
            line.enabled = True
        else:
            was, line.enabled = line.enabled, False
            if place is not None:
                self.put_words(place, a)
            return 0 if was else -103
        return 0
