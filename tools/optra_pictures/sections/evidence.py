"""Evidence for each bid: why it lost, by how much, and what can't help; how safe its place is where it runs."""
from ..page import Column, Section, bullets, name, paragraph, table
from ..words import count, money

COLUMNS = [Column("Operator", None), Column("Bid", None), Column("Outcome", None), Column("Worth, or base", "number"),
           Column("Most with it, or without it", "number"), Column("Below the revenue by", "number"), Column("What this shows", "why")]


def evidence(report):
    found = report.evidence
    if found is None:
        return None
    decided = sum(is_decided(figure) for figure in found.figures)
    which = "the improved plan" if report.evidence_of is report.improved else "the plan"
    told = paragraph(f"What <code>optra_evidence</code> printed for the certificate of {which}, which earns {money(found.revenue)}: of a bid that lost, "
                     "what any choice of trains with it earns at most; of one that runs, what any choice without it earns at most. Both are "
                     "proved from the certificate alone.")
    limits = bullets(["All else is as it is: the other bids, the tables, and this bid's own windows and rates.",
                      "That a bid wins once it is raised by the margin isn't claimed: the figure is an upper limit, and the truth may be lower.",
                      "A margin of 0 or less decides nothing."])
    order = list(dict.fromkeys(figure.bidder for figure in found.figures))
    figures = sorted(found.figures, key=lambda figure: order.index(figure.bidder))
    return Section("evidence", "Evidence for each bid",
                   told + limits + table(f"{count(decided, 'bid')} of {len(figures):,} decided, by operator", COLUMNS, [row_of(figure) for figure in figures]))


def is_decided(figure):
    return figure.margin is None or figure.margin > 0


def row_of(figure):
    return [name(figure.bidder), name(figure.bid), "runs" if figure.is_served else "lost", money(figure.worth),
            "-" if figure.most is None else money(figure.most), "-" if figure.margin is None else money(figure.margin), shown(figure)]


def shown(figure):
    """What the figures of a bid show, in a sentence."""
    if figure.margin is None:
        return "No choice of trains serves it, whatever it offers."
    if figure.margin <= 0:
        return "Not decided: a best choice may serve it, and one may leave it out."
    by = money(figure.margin)
    if figure.is_served:
        return f"Every best choice serves it, and still does where its base is lowered by less than {by}."
    return f"No best choice serves it, and none does where its base is raised by less than {by}."
