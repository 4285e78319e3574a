"""What tools/when is made of; tools/timeline uses places.py, too.

    runs.py        the words of ./iop, and its runs, which end at any moment
    scripts.py     the script of a run, as it is for a run with a watcher
    handlers.py    the watcher: the instructions of a module, and of the handlers that it leaves
    watcher.py     runs with a watcher, which tell what is next at a moment, and the registers
    looks.py       runs with a watcher that looks time and again, which make a search shorter
    steps.py       instructions that are executed here, where no watcher comes
    searches.py    which instruction is next at a moment, by watchers and by steps
    places.py      what stands at an address: modules, functions and lines, services, instructions
    report.py      what is told of a moment
    questions.py   the questions that are asked of a run

The processor, the libraries' names and the rules of addresses are those of the model in tests/reference.
"""

import os
import sys

TOP = os.path.dirname(os.path.dirname(os.path.dirname(os.path.realpath(__file__))))
sys.path.insert(0, os.path.join(TOP, "tests/reference"))
