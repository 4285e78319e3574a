"""The watcher: the instructions of a module, and of the handlers that it leaves.

It is no part of the run, and stands before it. It copies its handler to where nothing stands, and is removed.
"""

from typing import NamedTuple

from moments.places import MODULE_RETURN, THREAD_RETURN

# Where the handler stands, which ends below the registers that it stores.
HANDLER, REGISTERS = 0x3100, 0x3800

MAIN = """
    .name when
    .entry main
main:
    lui $t0, %hi(handler)
    addiu $t0, $t0, %lo(handler)
    addiu $t1, $0, {handler}
    addiu $t2, $0, {handler_end}
copy:
    lw $t3, 0($t0)
    addiu $t0, $t0, 4
    sw $t3, 0($t1)
    addiu $t1, $t1, 4
    bne $t1, $t2, copy
     nop
    addiu $a0, $0, {irq}
    addiu $a2, $0, {handler}
    syscall 0x204               ; RegisterIntrHandler
    addiu $a0, $0, {irq}
    syscall 0x206               ; EnableIntr
    jr $ra
     addiu $v0, $0, 1           ; the watcher is removed
handler:
"""
RETURN = ["jr $ra", "addu $v0, $0, $0"]
RETURN_AND_ENABLE = ["jr $ra", "addiu $v0, $0, 1"]
AFTER_THE_RETURN = 1  # the instruction at the handlers' return
BREAK = 13
MARK = b"\x01"

# How many words a round of the filler's loops fills; the ticks of a round, before a loop, and outside of the loops.
FILLED = 8
ROUND_TICKS, LOOP_TICKS, FILLER_TICKS = FILLED + 3, 4, 3 + len(RETURN) + AFTER_THE_RETURN


class Handler(NamedTuple):
    """The instructions of a handler, and how many ticks it takes with all that it leads to."""
    code: list
    ticks: int


def source_of(handler, irq):
    """The source of the watcher that leaves a handler."""
    words = sum(not line.endswith(":") for line in handler.code)
    return MAIN.format(handler=HANDLER, handler_end=HANDLER + 4 * words, irq=irq) + "\n".join(handler.code) + "\n"


def constant(register, number):
    return [f"lui {register}, {number >> 16}", f"ori {register}, {register}, {number & 0xFFFF}"]


def parts_of(ranges, ticks):
    """Ranges, each with the bytes from a word to the next one, in parts for which fillers do not take more ticks."""
    part, left = [], ticks - FILLER_TICKS
    for start, end, stride in ranges:
        while start < end:
            rounds = min((left - LOOP_TICKS) // ROUND_TICKS, (end - start) // (FILLED * stride))
            if rounds < 1:
                if not part:
                    return
                yield part
                part, left = [], ticks - FILLER_TICKS
                continue
            part.append((start, start + FILLED * stride * rounds, stride))
            start, left = part[-1][1], left - LOOP_TICKS - ROUND_TICKS * rounds
    if part:
        yield part


def filler(ranges):
    """Makes a break of each word of these ranges, and of two returns."""
    code = [f"addiu $t0, $0, {BREAK}", f"sw $t0, {THREAD_RETURN}($0)", f"sw $t0, {MODULE_RETURN}($0)"]
    ticks = FILLER_TICKS
    for n, (start, end, stride) in enumerate(ranges):
        code += [*constant("$t1", start), *constant("$t2", end), f"fill{n}:"]
        code += [f"sw $t0, {place * stride}($t1)" for place in range(FILLED)]
        code += [f"addiu $t1, $t1, {FILLED * stride}", f"bne $t1, $t2, fill{n}", "nop"]
        ticks += LOOP_TICKS + ROUND_TICKS * ((end - start) // (FILLED * stride))
    return Handler(code + RETURN, ticks)


def saver(address):
    """Makes a jump of the instruction at an address, to code that stores the registers; its last instruction faults."""
    stores_at = HANDLER + 4 * 8  # behind the 8 instructions of `code`
    code = [*constant("$t0", address), *constant("$t1", 0x08000000 | stores_at >> 2), "sw $t1, 0($t0)", "sw $0, 4($t0)",
            *RETURN]
    stores = [f"sw ${number}, {REGISTERS + 4 * number}($0)" for number in range(32)]
    return Handler([*code, *stores, "break 0"], len(code) + AFTER_THE_RETURN + 2 + len(stores))


def end_of_saver(handler):
    """The place of the instruction of a saver that faults."""
    return HANDLER + 4 * (len(handler.code) - 1)


def range_looker(start, wanted, is_value):
    """Faults where a range has other bytes than these, or where it has them; the ticks are those where it does not."""
    code = [*constant("$t0", start), "addu $t2, $0, $0"]
    for place, byte in enumerate(wanted):
        code += [f"lbu $t1, {place}($t0)", "nop", f"xori $t1, $t1, {byte}", "or $t2, $t2, $t1"]
    code += ["beq $t2, $0, found" if is_value else "bne $t2, $0, found", "nop", *RETURN_AND_ENABLE]
    return Handler([*code, "found:", "break 0"], len(code) + AFTER_THE_RETURN)


def mark_printer():
    """Prints the mark, which stands behind it."""
    code = [*constant("$a0", HANDLER + 4 * 5), "syscall 0x10e", *RETURN_AND_ENABLE]
    return Handler([*code, f".word {MARK[0]}"], len(code) + AFTER_THE_RETURN)
