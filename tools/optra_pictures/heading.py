"""What a picture says above its plot: how good the plan is, what is drawn and what isn't."""
from . import losers as why, rules, svg
from .words import clock, count, listed, money, share_above, wrapped


def verdict_of(plan):
    """How good a plan is, in a sentence."""
    if plan.bound == plan.revenue:
        return f"Optimal: no other choice of trains earns more than these {money(plan.revenue)}."
    share = share_above(plan.revenue, plan.bound)
    more = f", which is {share} more" if share else ""
    return f"A gap: these trains earn {money(plan.revenue)}, and no choice of trains earns above {money(plan.bound)}{more}."


def counts_of(chart):
    """How many bids run, and how many of these on the line."""
    plan = chart.plan
    here = sum(train.bid in chart.drawn for train in plan.trains)
    return f"{count(len(plan.trains), 'train')} for {count(len(plan.bids), 'bid')}, {here} of them in this picture."


def off_picture(chart):
    """What isn't drawn, in sentences."""
    plan, frame = chart.plan, chart.frame
    told = []
    stations = [station for station in chart.net.stations if station not in frame.order]
    if stations:
        told.append(f"Stations off this line: {listed(stations)}.")
    trains = [train.bid for train in plan.trains if train.bid not in chart.drawn]
    if trains:
        told.append(f"Trains that aren't in this picture: {listed(trains)}.")
    return told + lost_off_picture(chart)


def lost_off_picture(chart):
    """The bids without a train that aren't drawn, and why."""
    told = []
    alone = [loser.bid.name for loser in chart.losers if loser.case in why.ALONE]
    undecided = [loser.bid.name for loser in chart.losers if loser.walk is None and loser.case == why.UNDECIDED]
    elsewhere = [loser.bid.name for loser in chart.losers if loser.walk and loser.case not in why.ALONE
                 and loser.bid.name not in chart.drawn]
    for names, what in ((elsewhere, "Bids without a train that aren't in this picture"), (alone, "Bids that can't run even alone"),
                        (undecided, "Bids without a train, of too many ways to look at")):
        if names:
            told.append(f"{what}: {listed(names)}.")
    return told


def turns_of(chart):
    """The trains of the picture that run to and fro, in a sentence."""
    turning = [(train.bid, rules.runs_to_and_fro(train.legs)) for train in chart.plan.trains
               if train.bid in chart.drawn]
    told = [f"{name} (more than once at {listed(stations, 3)})" for name, stations in turning if stations]
    return [f"To and fro: {listed(told, 4)}."] if told else []


def heading_of(chart, x):
    """The lines above the plot."""
    made = [svg.text(x, 24, chart.title, font_size=16, font_weight="bold", fill="#111111")]
    characters = int((chart.frame.width - 2 * x) / 6.3)
    first = [verdict_of(chart.plan), counts_of(chart)]
    for line in wrapped(first, characters) + wrapped(off_picture(chart) + turns_of(chart), characters):
        made.append(svg.text(x, 26 + 18 * len(made), line, fill="#333333"))
    return made


def summary_of(chart):
    """The picture in words, for who doesn't see it."""
    frame = chart.frame
    lost = [loser.bid.name for loser in chart.losers if loser.bid.name in chart.drawn]
    told = [f"A diagram of trains from {frame.line[0]} to {frame.line[-1]}, {clock(frame.first)} to {clock(frame.last)}.",
            verdict_of(chart.plan), counts_of(chart)]
    if lost:
        told.append(f"Bids that aren't served, drawn as they would run alone: {listed(lost, 20)}.")
    return " ".join(told + off_picture(chart) + turns_of(chart))
