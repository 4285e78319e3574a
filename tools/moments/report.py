"""What is told of a moment."""

from memory import place_of
from moments.places import instruction_text, is_service, modules_in_memory, place_text
from moments.runs import kind_of, lines_before_end

TICKS_OF_A_MILLISECOND = 36864
MOST_LINES, MOST_ROWS = 8, 4

# The registers that are told, and their numbers.
REGISTERS = {"a0": 4, "a1": 5, "a2": 6, "a3": 7, "sp": 29, "ra": 31}


class Report:
    """Tells of moments of a run on standard output."""

    def __init__(self, searches, irx, work, symbols):
        self.searches, self.irx, self.work, self.symbols = searches, irx, work, symbols
        self.run = searches.run

    def place(self, moment, address):
        """What stands at an address at a moment, if something does."""
        return place_text(address, modules_in_memory(moment.lines, self.run.command), self.symbols)

    def show_address(self, moment, address):
        """Shows an address: the instruction, and what stands there."""
        text = "no word of memory"
        if place_of(self.run.command.ram, address, 4, 4) is not None:
            word = self.run.bytes_at(moment.number, address, 4)
            text = f"{int.from_bytes(word, 'little'):08x} {instruction_text(self.irx, word, address, self.work)}"
        print(f"address   {address:08x}: {text}")
        print("place    ", self.place(moment, address) or "no module")

    def show_next(self, moment, found):
        """Shows who ran, and the instruction that is next."""
        print("who      ", who_ran(lines_before_end(moment), found.is_thread, self.run.command.began))
        if found.address is None:
            print("address   not told")
            return
        self.show_address(moment, found.address)
        if found.registers and is_service(found.address):
            print("called   ", self.place(moment, found.registers[31] - 8) or "no module")
        show_registers(found.registers)

    def show(self, moment):
        """Shows the instruction that is next at a moment."""
        self.show_next(moment, self.searches.next_at(moment))

    def show_fault(self, moment, address):
        """Shows the instruction that faulted at an address, and where nothing stands the jump that led there."""
        self.show_next(moment, self.searches.next_known(moment, address))
        if self.place(moment, address):
            return
        jump = self.searches.jump_before(moment)
        if jump.address is not None:
            print("behind the jump")
            self.show_address(moment, jump.address)
            show_registers(jump.registers)


def show_registers(registers):
    if registers:
        print("registers", " ".join(f"{name} {registers[number]:08x}" for name, number in REGISTERS.items()))


def show_lines(lines):
    print("\n".join(lines[-MOST_LINES:]))


def show_moment(moment, number=None):
    """Shows a moment, and of how many instructions it is the last with the one that is next."""
    instruction = "" if number is None else f", instruction {number}"
    print(f"moment    tick {moment.tick}, {moment.tick / TICKS_OF_A_MILLISECOND:.4f} ms{instruction}")


def show_bytes(start, before, after):
    """Shows the rows of a range that are not the same."""
    pairs = [pair for pair in zip(rows(start, before), rows(start, after)) if pair[0] != pair[1]]
    for old, new in pairs[:MOST_ROWS]:
        print(f"before    {old}\nafter     {new}")
    if len(pairs) > MOST_ROWS:
        print(f"          and {len(pairs) - MOST_ROWS} rows more")


def rows(start, dump):
    return [f"{start + n:08x}: {dump[n:n + 16].hex()}" for n in range(0, len(dump), 16)]


def who_ran(lines, is_thread, began):
    """Who ran behind these lines, or before any thread was taken to run; whether it was a thread is known where an
    interrupt was delivered."""
    last = max((n for n, line in enumerate(lines) if kind_of(line) == "run"), default=None)
    thread = f"thread {lines[last].split(' ')[2]}" if last is not None else began
    handlers = [line.split(" ", 1)[1] for line in lines[last or 0:] if kind_of(line) in ("line", "alarm")]
    if is_thread or not handlers:
        return thread
    handler = f"the handler of {handlers[-1]}"
    return f"{handler}, or {thread} behind it" if is_thread is None else handler
