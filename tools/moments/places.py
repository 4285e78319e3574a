"""What stands at an address: modules, functions and lines, services, instructions."""

import os
import re
from functools import cache
from typing import NamedTuple

from moments import TOP
from moments.runs import fail, output_of
from services import LIBRARIES

ADDR2LINE = "mipsel-linux-gnu-addr2line"
SEGMENT = 0x20000000

# The kernel's area (docs/PROFILE.md): where its libraries' services begin and end, and the three returns.
SERVICES, LIBRARY_BYTES, SERVICE_BYTES = 0x4000, 0x400, 0x10
SERVICES_END = SERVICES + LIBRARY_BYTES * len(LIBRARIES)
THREAD_RETURN, HANDLER_RETURN, MODULE_RETURN = 0x3000, 0x3010, 0x3020
RETURNS = {THREAD_RETURN: "the return of a thread", HANDLER_RETURN: "the return of a handler",
           MODULE_RETURN: "the return of a module"}

# Where `irx list --raw` begins.
LISTED_AT = 0x10000


class Module(NamedTuple):
    """A module in memory: its number and name in the command, the latter empty where the command is not known, and
    where its image is."""
    number: int
    name: str
    base: int
    length: int

    @property
    def end(self):
        return self.base + self.length


def loaded_by(line, command=None):
    """The module that a line of the trace tells to be loaded, if it does. Where the command is known it has a name."""
    found = re.match(r"\d+ load (\d+) ok ([0-9a-f]+) ([0-9a-f]+)", line)
    if not found:
        return None
    number = int(found[1])
    name = command.name_of(number) if command else ""
    return Module(number, name, int(found[2], 16), int(found[3], 16))


def take_line(modules, line, command=None):
    """Adds the module that a line of the trace tells to be loaded to those in memory, by their numbers, or takes away
    the one that it tells to be removed."""
    module = loaded_by(line, command)
    if module:
        modules[module.number] = module
    removed = re.match(r"\d+ result (\d+) \S+ removed", line)
    if removed:
        modules.pop(int(removed[1]), None)


def modules_in_memory(lines, command):
    """The modules that are in memory behind these lines."""
    modules = {}
    for line in lines:
        take_line(modules, line, command)
    return list(modules.values())


@cache
def function_and_line(file, place):
    """What a linked file tells of a place."""
    return output_of(ADDR2LINE, "-f", "-s", "-e", file, f"{place:x}").splitlines()[:2]


class Symbols:
    """The functions and lines of modules, by their linked files: [NAME=]ELF. A module whose name is not known is called
    by its number."""

    def __init__(self, words):
        self.by_name = dict(word.split("=", 1) for word in words if "=" in word)
        self.by_order = [word for word in words if "=" not in word]
        for file in [*self.by_name.values(), *self.by_order]:
            output_of(ADDR2LINE, "-e", file)

    def file_of(self, module):
        name = module.name or str(module.number)
        stem = os.path.basename(name).removesuffix(".irx")
        named = self.by_name.get(name) or self.by_name.get(stem)
        in_order = self.by_order[module.number - 1] if module.number <= len(self.by_order) else None
        return named or in_order

    def text(self, module, place):
        """The function and the line of a place of a module, behind a colon, or nothing."""
        file = self.file_of(module)
        if not file:
            return ""
        name, line = function_and_line(file, place)
        return f": {name}" if line.startswith("??") else f": {name}, {line.split(' ')[0]}"


@cache
def service_names():
    """The names of services, by library and number, as the headers for C have them."""
    names = {}
    for library in LIBRARIES:
        with open(os.path.join(TOP, "examples/c/libiop", f"{library}.S"), encoding="utf-8") as file:
            found = re.findall(r"import (\w+), (\d+)", file.read())
        names.update({(library, int(number)): name for name, number in found})
    return names


def is_service(address):
    return SERVICES <= address % SEGMENT < SERVICES_END


def service_text(address):
    """The service that stands at an address."""
    library, place = divmod(address % SEGMENT - SERVICES, LIBRARY_BYTES)
    library, number = LIBRARIES[library], place // SERVICE_BYTES
    name = service_names().get((library, number))
    return f"service {number} of {library}" + (f", {name}" if name else "")


def module_at(address, modules):
    return next((it for it in modules if it.base <= address % SEGMENT < it.end), None)


def place_text(address, modules, symbols):
    """What stands at an address, if something does: the module and the place in it, with function and line; or what the
    kernel has."""
    place = address % SEGMENT
    if place in RETURNS:
        return RETURNS[place]
    if is_service(address):
        return service_text(address)
    module = module_at(address, modules)
    if not module:
        return None
    place -= module.base
    name = f", {module.name}," if module.name else ""
    return f"module {module.number}{name} at {place:08x}{symbols.text(module, place)}"


def instruction_text(irx, word, address, work):
    """The text of an instruction that stands at an address, as `irx list` has it."""
    path = os.path.join(work, "word")
    with open(path, "wb") as file:
        file.write(word)
    text = output_of(irx, "list", "--raw", path).split(" ", 2)[2].strip()
    # (a branch tells its target by the place where the word is listed)
    target = re.search(r"(?<=,)0x[0-9a-f]{8}$", text) if text[0] == "b" else None
    return f"{text[:target.start()]}0x{int(target[0], 16) + address - LISTED_AT:08x}" if target else text
