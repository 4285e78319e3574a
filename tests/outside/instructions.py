#!/usr/bin/env python3
"""Words of every instruction of the R3000, and their texts by objdump in this project's notation.

    instructions.py words FILE          writes words with operands by chance, always the same
    instructions.py compare LIST DUMP   compares the listing of `irx list --raw` with objdump's

The last line of compare is 'N passed, M failed': an instruction passes where all its lines are equal.
"""

import random
import re
import struct
import sys

# How many words there are of each instruction.
EACH = 200

# The address of the first word.
BASE = 0x10000

# Where the fields of a word stand: the lowest bit, and the number of bits.
FIELDS = {"rs": (21, 5), "rt": (16, 5), "rd": (11, 5), "sa": (6, 5), "code": (6, 20), "simm": (0, 16),
          "uimm": (0, 16), "branch": (0, 16), "jump": (0, 26)}

# The instructions of the MIPS I manual: the operands as they are written, and for each name the bits that tell it.
FUNCTION, BY_RT, OPCODE = (lambda n: n), (lambda n: 1 << 26 | n << 16), (lambda n: n << 26)
TABLE = [
    (FUNCTION, "rd,rt,sa", {"sll": 0x00, "srl": 0x02, "sra": 0x03}),
    (FUNCTION, "rd,rt,rs", {"sllv": 0x04, "srlv": 0x06, "srav": 0x07}),
    (FUNCTION, "rs", {"jr": 0x08, "mthi": 0x11, "mtlo": 0x13}),
    (FUNCTION, "rd,rs", {"jalr": 0x09}),
    (FUNCTION, "code", {"syscall": 0x0C, "break": 0x0D}),
    (FUNCTION, "rd", {"mfhi": 0x10, "mflo": 0x12}),
    (FUNCTION, "rs,rt", {"mult": 0x18, "multu": 0x19, "div": 0x1A, "divu": 0x1B}),
    (FUNCTION, "rd,rs,rt", {"add": 0x20, "addu": 0x21, "sub": 0x22, "subu": 0x23, "and": 0x24, "or": 0x25,
                            "xor": 0x26, "nor": 0x27, "slt": 0x2A, "sltu": 0x2B}),
    (BY_RT, "rs,branch", {"bltz": 0x00, "bgez": 0x01, "bltzal": 0x10, "bgezal": 0x11}),
    (OPCODE, "jump", {"j": 0x02, "jal": 0x03}),
    (OPCODE, "rs,rt,branch", {"beq": 0x04, "bne": 0x05}),
    (OPCODE, "rs,branch", {"blez": 0x06, "bgtz": 0x07}),
    (OPCODE, "rt,rs,simm", {"addi": 0x08, "addiu": 0x09, "slti": 0x0A, "sltiu": 0x0B}),
    (OPCODE, "rt,rs,uimm", {"andi": 0x0C, "ori": 0x0D, "xori": 0x0E}),
    (OPCODE, "rt,uimm", {"lui": 0x0F}),
    (OPCODE, "rt,simm(rs)", {"lb": 0x20, "lh": 0x21, "lwl": 0x22, "lw": 0x23, "lbu": 0x24, "lhu": 0x25, "lwr": 0x26,
                             "sb": 0x28, "sh": 0x29, "swl": 0x2A, "sw": 0x2B, "swr": 0x2E}),
]
FORMS = {name: form for _, form, names in TABLE for name in names}


def words():
    """The words, instruction by instruction. Bits that an instruction does not use are 0."""
    chance = random.Random(3000)
    for place, _, names in TABLE:
        for name, number in names.items():
            for _ in range(EACH):
                word = place(number)
                for field in re.findall(r"\w+", FORMS[name]):
                    lowest, bits = FIELDS[field]
                    word |= chance.getrandbits(bits) << lowest
                yield word
def number(field, text):
    """An operand that objdump wrote, in this project's notation: see `spelled`."""
    if field in ("sa", "code"):
        return str(int(text, 16))
    if field == "uimm":
        return f"0x{int(text, 16):04x}"
    if field in ("branch", "jump"):
        return f"{int(text, 16):08x}"
    return text


def spelled(name, operands):
    """An instruction that objdump wrote, in this project's notation. These are all the differences:

    - Shift amounts and codes are decimal here and hexadecimal there. The bits of an immediate have four digits here.
      The target of a branch or a jump has eight digits here, and 0x there.
    - A code of `break` is one number here. There it is two, of ten bits each, and the second is left out where it is 0.
      There a code that is 0 is left out.
    - `div` and `divu` have a first operand $0 there.
    - `sub` and `subu` from $0 are `neg` and `negu` there, also where no aliases are asked for.
    - `jalr` into $31 has one operand there.
    """
    if name in ("neg", "negu"):
        return spelled({"neg": "sub", "negu": "subu"}[name], [operands[0], "$0", operands[1]])
    if name in ("div", "divu"):
        operands = operands[1:]
    if name in ("break", "syscall") and not operands:
        operands = ["0x0"]
    if name == "break":
        upper, lower = (operands + ["0x0"])[:2]
        operands = [hex(int(upper, 16) << 10 | int(lower, 16))]
    if name == "jalr" and len(operands) == 1:
        operands = ["$31"] + operands
    return name + " " + ",".join(map(number, FORMS[name].split(","), operands))


def dumped(lines):
    """The lines of objdump's listing that have a word: the name, and the line in this project's notation."""
    for line in lines:
        parts = re.fullmatch(r" *([0-9a-f]+):\t([0-9a-f]{8}) \t(\S+)(?:\t(\S+))?\n", line)
        if parts:
            place, word, name, operands = parts.groups()
            yield f"{int(place, 16):08x}: {word} {spelled(name, operands.split(',') if operands else [])}"


def compare(ours, theirs):
    """Compares two listings of the words, and tells where they differ."""
    names = [name for name in FORMS for _ in range(EACH)]
    if not len(names) == len(ours) == len(theirs):
        print(f"of {len(names)} words {len(ours)} are listed here and {len(theirs)} by objdump")
        print(f"0 passed, {len(FORMS)} failed")
        return False
    failed = set()
    for name, our, their in zip(names, ours, theirs):
        if our != their:
            failed.add(name)
            print(f"here:    {our}\nobjdump: {their}")
    print(f"{len(FORMS) - len(failed)} passed, {len(failed)} failed")
    return not failed


def main(verb, *files):
    if verb == "words":
        with open(files[0], "wb") as file:
            file.write(b"".join(struct.pack("<I", word) for word in words()))
        return 0
    with open(files[0]) as ours, open(files[1]) as theirs:
        return 0 if compare(ours.read().splitlines(), list(dumped(theirs))) else 1


if __name__ == "__main__":
    if len(sys.argv) < 3:
        sys.exit(__doc__)
    sys.exit(main(*sys.argv[1:]))
