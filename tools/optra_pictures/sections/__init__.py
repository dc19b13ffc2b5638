"""The parts of a report, in order. Each is a function of the report that gives a section, or None where it has nothing to say.

A text that comes later (of an audit, of payments, of compressed times) is one module more here, which
reads what it needs from the report, and one name more in the list.
"""
from .diagrams import diagrams
from .evidence import evidence
from .improved import improved
from .lost import lost
from .operators import operators
from .timetable import timetable
from .trains import trains
from .verdict import verdict

SECTIONS = [verdict, improved, operators, trains, lost, evidence, diagrams, timetable]
