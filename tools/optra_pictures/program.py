"""Calls of a built `optra`."""
import csv
import itertools
import os
import shutil
import subprocess
from collections import namedtuple

from .faults import Refused

# What `check` said: whether the certificate is valid, with this revenue and bound, and its line; and the legs that it lists.
Check = namedtuple("Check", "is_valid revenue bound line legs")
REFUSED = 3


class Program:
    """A built program, for the tables of one network and its bids."""

    def __init__(self, path, net, bids, stops):
        self.path = shutil.which(path)
        if self.path is None:
            raise Refused(f"there is no program {path}; --program says where it is, or its folder stands in PATH")
        self.tables = ["--net", net, "--bids", bids, "--stops", stops]

    def run(self, *words):
        try:
            return subprocess.run([os.path.abspath(self.path), *words], capture_output=True)
        except OSError as error:
            raise Refused(f"can't run {self.path}: {error.strerror}") from error

    def plan(self, options, plan_path, cert_path):
        """Puts a printed plan and its certificate under two paths."""
        ran = self.run("plan", *self.tables, *options, "--cert", cert_path)
        if ran.returncode not in (0, 1):
            raise Refused(fault_of(ran))
        try:
            with open(plan_path, "wb") as file:
                file.write(ran.stdout)
        except OSError as error:
            raise Refused(f"can't write {plan_path}: {error.strerror}") from error

    def check(self, cert_path):
        """What `check` says of a certificate."""
        ran = self.run("check", *self.tables, "--cert", cert_path)
        if ran.returncode not in (0, 4):
            raise Refused(fault_of(ran))
        line = ran.stdout.decode("utf-8", "replace").strip()
        fields = line.split(",")
        if ran.returncode != 0 or fields[:2] != ["verdict", "yes"]:
            return Check(False, None, None, line, [])
        return Check(True, int(fields[2]), int(fields[3]), line, certified_legs(cert_path))


def certified_legs(path):
    """The bid numbers, tracks, departures, actions and dwells of a valid certificate's legs, which stand behind its first three records."""
    with open(path, newline="", encoding="utf-8") as file:
        records = itertools.takewhile(lambda record: record[0] == "leg", itertools.islice(csv.reader(file), 3, None))
        return [(int(number), track, int(depart), action, int(dwell)) for _, number, track, depart, _, action, dwell in records]


def printed_legs(plan):
    """The same of a plan."""
    numbers = {name: number for number, name in enumerate(plan.bids, start=1)}
    return [(numbers[train.bid], leg.track, leg.depart, leg.action, leg.dwell) for train in plan.trains for leg in train.legs]


def is_shown_by(check, plan):
    """Whether a check is of a valid certificate with a plan's sums and trains."""
    return check.is_valid and (check.revenue, check.bound) == (plan.revenue, plan.bound) and check.legs == printed_legs(plan)


def fault_of(ran):
    """The line of a call that failed, and what helps."""
    line = ran.stderr.decode("utf-8", "replace").strip().split("\n")[0] or f"it ended with status {ran.returncode}"
    return f"optra says: {line}{'; tools/lint tells every fault of the tables' if ran.returncode == REFUSED else ''}"
