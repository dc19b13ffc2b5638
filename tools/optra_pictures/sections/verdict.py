"""How good the plan is, and what shows it."""
from .. import losers as why
from ..page import Section, bullets, facts, name, paragraph, tag
from ..program import is_shown_by
from ..svg import escaped
from ..words import count, listed, money, share_above


def verdict(report):
    plan = report.case.plan
    parts = [box(report), facts(numbers(report)), evidence(report)]
    if plan.bound > plan.revenue:
        parts.append(about_gap(report))
    return Section("verdict", "Verdict", "\n".join(parts))


def is_wrong(report):
    """Whether a certificate was looked at that isn't one of this plan."""
    return report.check is not None and not is_shown_by(report.check, report.case.plan)


def box(report):
    plan = report.case.plan
    if is_wrong(report):
        return tag("div", paragraph(tag("strong", "The certificate doesn't show this plan."), " Nothing is known of how good it is."),
                   class_="verdict wrong")
    if plan.bound == plan.revenue:
        return tag("div", paragraph(tag("strong", "Optimal."), f" No other choice of trains earns more than these {money(plan.revenue)}."),
                   class_="verdict")
    share = share_above(plan.revenue, plan.bound)
    more = f", which is {tag('strong', share + ' more')}" if share else ""
    return tag("div", paragraph(tag("strong", "A gap."), f" These trains earn {money(plan.revenue)}. No choice of trains earns above "
                                f"{money(plan.bound)}{more}."), class_="verdict gap")


def numbers(report):
    plan = report.case.plan
    share = share_above(plan.revenue, plan.bound) or "no per cent of nothing"
    pairs = [("Bids", f"{len(plan.bids):,}"), ("Trains", f"{len(plan.trains):,}"), ("Without a train", f"{len(report.case.losers):,}"),
             ("Revenue", money(plan.revenue)), ("Bound", money(plan.bound)), ("Gap", "none" if plan.bound == plan.revenue else share),
             ("Cases looked into", f"{plan.nodes:,}")]
    return pairs


def evidence(report):
    """What the verdict rests on."""
    check, plan = report.check, report.case.plan
    if check is None:
        told = ("No certificate was looked at for this page, so the bound is what the printed plan says. "
                "<code>optra check</code> of the plan's certificate shows it.")
    elif not check.is_valid:
        told = f"<code>optra check</code> says no of the certificate: {tag('code', escaped(check.line))}."
    elif is_wrong(report):
        told = (f"The certificate is valid, and of other trains or other sums than this plan: {tag('code', escaped(check.line))}; this "
                f"plan has the revenue {plan.revenue} and the bound {plan.bound}.")
    else:
        told = (f"<code>optra check</code> confirms the certificate: {tag('code', escaped(check.line))}. The trains that it lists are those "
                "on this page, leg by leg. Whoever doubts it can check the same file again, with the tables and the bids.")
    return paragraph(told) + paragraph("That the trains keep all rules and that no choice earns above the bound, a certificate shows that "
                                       "the proved program confirms. All else on this page is worked out by a script beside it, and is "
                                       "there to be read: why bids lose, what they would be worth alone, and the pictures.")


def about_gap(report):
    """What a gap means, and what the page itself found."""
    fitting = [loser for loser in report.case.losers if loser.case == why.FITS]
    told = ["The trains are free of conflict all the same. The best choice earns something from the revenue to the bound; which one it is, "
            "isn't known. So that a bid below has to lose isn't proved.",
            "What narrows a gap stands in docs/guides/manager.md, When there is a gap."]
    if fitting:
        names = listed([name(loser.bid.name) for loser in fitting])
        worth = money(max(loser.place.value for loser in fitting))
        told.insert(0, f"This plan can be bettered at once: {count(len(fitting), 'bid')} without a train would fit beside those that run "
                       f"({names}), worth up to {worth}.")
    return bullets(told)
