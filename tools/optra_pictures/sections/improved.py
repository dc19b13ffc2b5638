"""The plan beside an improved one under the same bound."""
from ..page import Column, Section, facts, name, paragraph, table, tag
from ..program import is_shown_by
from ..svg import escaped
from ..words import clock, count, money

COLUMNS = [Column("Bid", None), Column("Operator", None), Column("In the plan", "time"), Column("Worth there", "number"),
           Column("In the improved plan", "time"), Column("Worth in it", "number"), Column("Change", "number")]


def improved(report):
    better = report.improved
    if better is None:
        return None
    plan = report.case.plan
    rows = changes(plan, better)
    told = paragraph("Another choice of trains under the same bound, from the same certificate's tree, as <code>optra_improve</code> makes one. ", checked(report))
    kept = paragraph("Every train runs as in the plan.") if not rows else table(
        f"{count(len(rows), 'bid')} of which the train is another, in the order of the bids", COLUMNS, rows)
    return Section("improved", "Improved plan", told + facts(numbers(plan, better)) + kept)


def checked(report):
    """What shows the improved plan."""
    check = report.improved_check
    if check is None:
        return "No certificate of it was looked at for this page."
    if not is_shown_by(check, report.improved):
        return tag("strong", "Its certificate doesn't show it: ") + tag("code", escaped(check.line)) + "."
    return f"<code>optra check</code> confirms its certificate, leg by leg: {tag('code', escaped(check.line))}."


def numbers(plan, better):
    pairs = [("Revenue of the plan", money(plan.revenue)), ("Revenue of the improved plan", money(better.revenue)), ("Bound of both", money(plan.bound)),
             ("Trains of the plan", f"{len(plan.trains):,}"), ("Trains of the improved plan", f"{len(better.trains):,}")]
    if plan.bound > plan.revenue:
        pairs.append(("Closed of the gap", f"{(better.revenue - plan.revenue) * 100 / (plan.bound - plan.revenue):.0f} %"))
    return pairs


def changes(plan, better):
    """The rows of the bids that have another train, or none in one of the two."""
    before, after = ({train.bid: train for train in each.trains} for each in (plan, better))
    return [row_of(bid, before.get(bid.name), after.get(bid.name)) for bid in plan.bids.values()
            if legs_of(before.get(bid.name)) != legs_of(after.get(bid.name))]


def legs_of(train):
    return train and train.legs


def row_of(bid, old, new):
    change = (new.value if new else 0) - (old.value if old else 0)
    return [name(bid.name), name(bid.bidder), times(old), worth(old), times(new), worth(new), money(change)]


def times(train):
    return f"{clock(train.legs[0].depart)} to {clock(train.legs[-1].arrive)}" if train else "no train"


def worth(train):
    return money(train.value) if train else "-"
