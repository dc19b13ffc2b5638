"""A case as pictures and pages need it: the network, a plan of its bids, and why the others aren't served."""
from collections import namedtuple

from optra_tables.values import clock_minute

from . import lines, losers as why, meetings, plans, tables, walks
from .faults import Refused

Case = namedtuple("Case", "net plan losers ways map")


def read_case(folder, bids_path, stops_path, plan_path, asked=None):
    """Reads tables and a plan, and refuses what doesn't fit together."""
    try:
        net = tables.read_net(folder)
        bids = tables.read_bids(net, bids_path, stops_path)
        plan = plans.read_plan(net, bids, plan_path, asked)
    except (ValueError, IndexError, KeyError) as error:
        raise Refused(f"the tables or the plan can't be read together: {error!r}") from error
    return case_of(net, plan, plan_path)


def read_improved(case, path):
    """Another plan of a case's bids under the same bound, and refuses what is none."""
    try:
        plan = plans.read_plan(case.net, case.plan.bids, path)
    except (ValueError, IndexError, KeyError) as error:
        raise Refused(f"the tables and the improved plan can't be read together: {error!r}") from error
    fault = meetings.first_fault(case.net, plan)
    if fault:
        raise Refused(f"{path} is no plan of these tables: {fault}")
    if plan.bound != case.plan.bound or plan.revenue < case.plan.revenue:
        raise Refused(f"{path} improves another plan: its revenue is {plan.revenue} and its bound {plan.bound}, of the plan they are "
                      f"{case.plan.revenue} and {case.plan.bound}")
    return plan


def case_of(net, plan, path):
    """The case of a plan that was read; one whose trains are in conflict, or that calls itself optimal and isn't, is refused."""
    fault = meetings.first_fault(net, plan)
    if fault:
        raise Refused(f"{path} is no plan of these tables: {fault}")
    ways = walks.Ways(net)
    lost = why.losers_of(ways, plan)
    fitting = [loser.bid.name for loser in lost if loser.case == why.FITS]
    if fitting and plan.bound == plan.revenue:
        raise Refused(f"{path} is no plan of these tables: it calls itself optimal, and {fitting[0]} fits beside its trains")
    return Case(net, plan, lost, ways, lines.Map(net))


def hours_of(text):
    """The first and the last minute of hours as 6:00-9:00; None where none are given."""
    if text is None:
        return None
    found = [clock_minute(part) for part in text.split("-")]
    if len(found) != 2 or None in found or not found[0] < found[1] <= tables.LAST_MINUTE + 1:
        raise Refused(f"{text!r} are no hours as 6:00-9:00 are")
    return tuple(found)
