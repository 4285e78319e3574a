"""What threads wait for: semaphores, event flags and mailboxes, and their services."""

import struct

MOST_ID = 2**31 - 1


class Object:
    """A semaphore, an event flag, a mailbox or a pool of memory."""

    def __init__(self, ident, attr, option, by_priority):
        self.id, self.attr, self.option, self.by_priority = ident, attr, option, by_priority
        self.waiters = []


class Semaphore(Object):
    WAIT = 3

    def __init__(self, ident, attr, option, initial, most):
        super().__init__(ident, attr, option, attr == 1)
        self.initial, self.most, self.count = initial, most, initial


class EventFlag(Object):
    WAIT = 4

    def __init__(self, ident, attr, option, bits):
        super().__init__(ident, attr, option, False)
        self.first, self.bits = bits, bits

    def holds(self, bits, mode):
        return self.bits & bits != 0 if mode & 1 else self.bits & bits == bits

    def clear_by(self, mode):
        if mode & 16:
            self.bits = 0


class Mailbox(Object):
    WAIT = 5

    def __init__(self, ident, attr, option):
        super().__init__(ident, attr, option, attr & 1 != 0)
        self.messages = []  # (priority, address)

    def next(self):
        """The message that is received next: the first of the least priority."""
        return min(self.messages, key=lambda m: m[0])


class Objects:
    """Of the machine: its semaphores, event flags and mailboxes, and what the services do to them."""

    def has_room(self, kind):
        """Whether one more object of the kind may be made."""
        return len(self.objects[kind]) < 255 and self.next_object[kind] <= MOST_ID

    def make_object(self, kind, *words):
        if not self.has_room(kind):
            return -400
        ident = self.next_object[kind]
        self.next_object[kind] += 1
        self.objects[kind][ident] = kind(ident, *words)
        return ident

    def wait_for(self, thing, wants=None):
        thing.waiters.append(self.running)
        thread = self.threads[self.running]
        thread.object, thread.wants = thing, wants
        self.block()

    def leave_object(self, thread):
        if thread.object:
            thread.object.waiters.remove(thread.id)
        thread.object = thread.delay = None

    def waiters_of(self, thing):
        """The threads that wait for it, in the order in which they are chosen."""
        waiters = [self.threads[i] for i in thing.waiters]
        return sorted(waiters, key=lambda t: t.priority) if thing.by_priority else waiters

    def wake_waiter(self, thread, answer):
        self.leave_object(thread)
        self.wake(thread, answer)

    def delete_object(self, kind, ident):
        thing = self.objects[kind].pop(ident)
        for thread in self.waiters_of(thing):
            self.wake_waiter(thread, -425)
        return 0

    def semaphore_service(self, number):
        """A service of thsemap: its answer, or None where the caller does not go on."""
        a, b = self.cpu.r[4], self.cpu.r[5]
        if number == 4:
            attr, option, initial, most = struct.unpack_from("<4I", self.memory.ram, self.words_at(a, 4))
            if attr > 1:
                return -401
            if initial > most:
                return -420
            return self.make_object(Semaphore, attr, option, initial, most)
        place = self.words_at(b, 6) if number == 11 else None
        if number == 8 and not self.may_wait():
            return -417
        if a not in self.objects[Semaphore]:
            return -408
        semaphore = self.objects[Semaphore][a]
        if number == 5:
            return self.delete_object(Semaphore, a)
        if number == 6:
            if semaphore.waiters:
                self.wake_waiter(self.waiters_of(semaphore)[0], 0)
            elif semaphore.count >= semaphore.most:
                return -420
            else:
                semaphore.count += 1
        elif number == 11:
            self.put_words(place, semaphore.attr, semaphore.option, semaphore.initial, semaphore.most, semaphore.count,
                           len(semaphore.waiters))
        elif semaphore.count:
            semaphore.count -= 1
        elif number == 9:
            return -419
        else:
            return self.wait_for(semaphore)
        return 0

    def event_flag_service(self, number):
        """A service of thevent."""
        a, b, mode, at = self.cpu.r[4:8]
        if number == 4:
            attr, option, bits = struct.unpack_from("<3I", self.memory.ram, self.words_at(a, 3))
            return self.make_object(EventFlag, attr, option, bits) if attr in (0, 2) else -401
        place = self.words_at(b, 5) if number == 13 else self.words_at(at, 1) if number in (10, 11) and at else None
        if number == 10 and not self.may_wait():
            return -417
        if a not in self.objects[EventFlag]:
            return -409
        flag = self.objects[EventFlag][a]
        if number == 5:
            return self.delete_object(EventFlag, a)
        if number == 6:
            flag.bits |= b
            for thread in self.waiters_of(flag):
                bits, how, to = thread.wants
                if flag.holds(bits, how):
                    if to:
                        self.put_words(self.memory.place(to, 4, 4), flag.bits)
                    flag.clear_by(how)
                    self.wake_waiter(thread, 0)
        elif number == 8:
            flag.bits &= b
        elif number == 13:
            self.put_words(place, flag.attr, flag.option, flag.first, flag.bits, len(flag.waiters))
        elif b == 0:
            return -423
        elif flag.attr == 0 and flag.waiters:
            return -422
        elif flag.holds(b, mode):
            if place is not None:
                self.put_words(place, flag.bits)
            flag.clear_by(mode)
        elif number == 11:
            return -421
        else:
            return self.wait_for(flag, (b, mode, at))
        return 0

    def mailbox_service(self, number):
        """A service of thmsgbx."""
        a, b = self.cpu.r[4:6]
        if number == 4:
            attr, option = struct.unpack_from("<2I", self.memory.ram, self.words_at(a, 2))
            return self.make_object(Mailbox, attr, option) if attr in (0, 1, 4, 5) else -401
        place = self.words_at(a, 1) if number in (8, 9) else self.words_at(b, 5) if number == 11 else None
        if number == 8 and not self.may_wait():
            return -417
        ident = b if number in (8, 9) else a
        if ident not in self.objects[Mailbox]:
            return -410
        box = self.objects[Mailbox][ident]
        if number == 5:
            return self.delete_object(Mailbox, ident)
        if number == 6:
            return self.send(box, b)
        if number == 11:
            self.put_words(place, box.attr, box.option, len(box.waiters), len(box.messages),
                           box.next()[1] if box.messages else 0)
        elif box.messages:
            message = box.next()
            box.messages.remove(message)
            self.put_words(place, message[1])
        elif number == 9:
            return -424
        else:
            return self.wait_for(box, a)
        return 0

    def send(self, box, message):
        if box.waiters:
            thread = self.waiters_of(box)[0]
            self.put_words(self.memory.place(thread.wants, 4, 4), message)
            self.wake_waiter(thread, 0)
            return 0
        if sum(len(other.messages) for other in self.objects[Mailbox].values()) >= 4096:
            return -400
        priority = self.memory.load((message + 4) % 2**32, 1) if box.attr & 4 else 0
        box.messages.append((priority, message))
        return 0
