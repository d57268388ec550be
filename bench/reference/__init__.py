"""An interpreter of the guest machine, written from the description of the machine alone and apart from disco's own sources.

`private_report` runs guests each alone. `Monitor` runs them as the monitor does, as far as its report tells.
"""

from .devices import DiskFile, Input
from .frames import AdmissionFault, Machine
from .machine import Coverage, Guest, Start, Watcher
from .monitor import Monitor, NeverGoesOn, private_report
from .moves import Collapse, Migrate, PageMove, Policy, Replicate
from .openness import Openness
from .plan import Ask, Fail, Item, Run

__all__ = [
    "AdmissionFault",
    "Ask",
    "Collapse",
    "Coverage",
    "DiskFile",
    "Fail",
    "Guest",
    "Input",
    "Item",
    "Machine",
    "Migrate",
    "Monitor",
    "NeverGoesOn",
    "Openness",
    "PageMove",
    "Policy",
    "Replicate",
    "Run",
    "Start",
    "Watcher",
    "private_report",
]
