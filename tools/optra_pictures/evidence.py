"""What `optra_evidence` printed: what each bid's place is worth at most, by the certificate alone."""
from collections import namedtuple

from .faults import Refused
from .tables import number, records

# Of a served bid the worth of its train and the most that trains without it earn; of a lost one its base and the most that trains with it
# earn, None where none can serve it. The margin is what the plan's trains earn above that.
Figure = namedtuple("Figure", "bid bidder is_served worth most margin")
Evidence = namedtuple("Evidence", "revenue bound figures")


def signed(text, path):
    return -number(text[1:], path) if text.startswith("-") else number(text, path)


def figure_of(record, path):
    if len(record) != 8 or record[0] != "bid" or record[4] not in ("served", "lost") or (record[6] == "none") != (record[7] == "none")\
            or record[4:7:2] == ["served", "none"]:
        raise Refused(f"{path} isn't what optra_evidence prints")
    _, _, bid, bidder, outcome, worth, most, margin = record
    is_none = most == "none"
    return Figure(bid, bidder, outcome == "served", signed(worth, path), None if is_none else signed(most, path),
                  None if is_none else signed(margin, path))


def read_evidence(path):
    """The figures of a text."""
    found = records(path)
    if not found or len(found[0]) != 4 or found[0][:2] != ["verdict", "yes"]:
        raise Refused(f"{path} isn't evidence from a valid certificate")
    return Evidence(number(found[0][2], path), number(found[0][3], path), [figure_of(record, path) for record in found[1:]])


def is_of(evidence, plan):
    """Whether figures are of a plan: of its sums, its bids and its trains."""
    values = {train.bid: train.value for train in plan.trains}
    bids = [(bid.name, bid.bidder, bid.name in values, values.get(bid.name, bid.base)) for bid in plan.bids.values()]
    return ((evidence.revenue, evidence.bound) == (plan.revenue, plan.bound)
            and [(figure.bid, figure.bidder, figure.is_served, figure.worth) for figure in evidence.figures] == bids)
