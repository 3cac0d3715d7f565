#!/usr/bin/env python3
"""Families of problems, each made from a size and a number, in the format of docs/FORMAT.md.

usage: bench/families.py FAMILY SIZE NUMBER
       bench/families.py

With three words it prints the text of that problem; with none, the families, and what each is about. A text depends on
nothing but its family, its size and its number, and is the same everywhere and always: measured figures are compared by it.
"""

import sys


class Draws:
    """Numbers drawn one by one from a first number, by the same rule as the texts of `qyas gen`."""

    def __init__(self, number):
        self.state = number

    def next(self):
        """The next number, from 0 to 32,767."""
        self.state = (self.state * 1_103_515_245 + 12_345) % 2**31
        return self.state // 65_536

    def between(self, low, high):
        """The next number, brought between low and high."""
        return low + self.next() % (high - low + 1)

    def list(self, count, low, high):
        """The next so many numbers, brought between low and high."""
        return [self.between(low, high) for _ in range(count)]


class Problem:
    """A problem that grows: variables in the order in which they are set, and rows."""

    def __init__(self, sense, question):
        self.sense = sense
        self.question = question
        self.objective = []
        self.rows = []
        self.uncertainty = []
        self.order = []
        self.universal = []
        self.binaries = []
        self.generals = []
        self.highs = []

    def binary(self, name, price=0):
        """A binary variable of the planner, with its price in the objective."""
        self.binaries.append(name)
        return self._variable(name, price)

    def whole(self, name, high, price=0):
        """A whole variable of the planner, from 0 to high."""
        self.generals.append(name)
        self.highs.append((name, high))
        return self._variable(name, price)

    def flow(self, name, high, price=0):
        """A continuous variable of the planner, from 0 to high."""
        self.highs.append((name, high))
        return self._variable(name, price)

    def event(self, name, high=1, price=0):
        """A whole variable of the other side, from 0 to high."""
        self.universal.append(name)
        return self.binary(name, price) if high == 1 else self.whole(name, high, price)

    def _variable(self, name, price):
        self.order.append(name)
        if price:
            self.objective.append((price, name))
        return name

    def row(self, label, terms, relation, right):
        """A row that the planner keeps: terms are pairs of a number and a variable."""
        self.rows.append((label, terms, relation, right))

    def uncertain(self, label, terms, relation, right):
        """A row that the other side keeps."""
        self.uncertainty.append((label, terms, relation, right))

    def text(self):
        """The text of the problem."""
        lines = [f"\\ {self.question}", self.sense, "worth: " + _sum(self.objective), "SUBJECT TO"]
        lines += map(_row, self.rows)
        if self.uncertainty:
            lines += ["UNCERTAINTY SUBJECT TO", *map(_row, self.uncertainty)]
        if self.highs:
            lines += ["BOUNDS", *(f"{name} <= {high}" for name, high in self.highs)]
        for heading, names in (
            ("GENERALS", self.generals),
            ("BINARIES", self.binaries),
            ("ALL", self.universal),
            ("ORDER", self.order),
        ):
            if names:
                lines += [heading, " ".join(names)]
        return "\n".join([*lines, "END", ""])


def _term(number, name):
    sign = "-" if number < 0 else "+"
    return f"{sign} {name}" if abs(number) == 1 else f"{sign} {abs(number)} {name}"


def _sum(terms):
    return " ".join(_term(number, name) for number, name in terms).removeprefix("+ ")


def _row(row):
    label, terms, relation, right = row
    return f"{label}: {_sum(terms)} {relation} {right}"


def each(number, names):
    """The same number before each name."""
    return [(number, name) for name in names]


def generated(size, number):
    """The problem of `qyas gen NUMBER SIZE`, of which every third variable is the other side's. Whole variables: `size`."""
    draws = Draws(number)
    problem = Problem("MAXIMIZE", f"The problem of qyas gen {number} {size}")
    names = [f"x{at}" for at in range(1, size + 1)]
    universal = names[2::3]
    for name in names:
        variable = problem.event if name in universal else problem.binary
        variable(name, price=draws.between(1, 9))
    for row in range(1, size + 1):
        drawn = [(draws.next(), name) for name in names]
        terms = [(1 + draw // 2 % 5, name) for draw, name in drawn if draw % 2 == 1]
        theirs = sum(number for number, name in terms if name in universal)
        if terms:
            problem.row(f"row{row}", terms, "<=", theirs + (sum(number for number, _ in terms) - theirs) // 2)
    if universal:
        problem.uncertain("half", each(1, universal), "<=", (len(universal) + 1) // 2)
    return problem


def facility(size, number):
    """Which of `size` sites to open before it is seen which of them fail, at most two; then what they have is shipped, and
    what a customer lacks is bought dearly. Whole variables: two a site."""
    draws = Draws(number)
    problem = Problem("MINIMIZE", "Which sites should be opened, before it is seen which fail, so that shipping costs least at worst?")
    sites, customers = range(1, size + 1), range(1, size + 1)
    rooms = {site: draws.between(12, 20) for site in sites}
    needs = {customer: draws.between(3, 8) for customer in customers}
    opened = {site: problem.binary(f"open{site}", draws.between(15, 30)) for site in sites}
    failed = {site: problem.event(f"fail{site}") for site in sites}
    shipped = {
        (site, customer): problem.flow(f"ship{site}_{customer}", needs[customer], draws.between(1, 6))
        for site in sites
        for customer in customers
    }
    bought = {customer: problem.flow(f"buy{customer}", needs[customer], draws.between(12, 18)) for customer in customers}
    for customer in customers:
        sent = [shipped[site, customer] for site in sites]
        problem.row(f"need{customer}", each(1, [*sent, bought[customer]]), ">=", needs[customer])
    for site in sites:
        sent = each(1, [shipped[site, customer] for customer in customers])
        problem.row(f"open_room{site}", [*sent, (-rooms[site], opened[site])], "<=", 0)
        problem.row(f"left_room{site}", [*sent, (rooms[site], failed[site])], "<=", rooms[site])
    problem.uncertain("failures", each(1, failed.values()), "<=", 2)
    return problem


def network(size, number):
    """Which links between `size` places in a ring with chords to lease before it is seen which are cut, at most two; then
    two loads are routed together to the last place, and what isn't brought is paid for. Whole variables: three a place."""
    draws = Draws(number)
    problem = Problem("MINIMIZE", "Which links should be leased, before it is seen which are cut, so that routing costs least at worst?")
    ring = [(place, place % size + 1) for place in range(1, size + 1)]
    chords = [(place, (place + size // 2 - 1) % size + 1) for place in range(1, size // 2 + 1)]
    links = [(f"{low}_{high}", low, high, draws.between(4, 8)) for low, high in ring + chords]
    needs = {1: draws.between(3, 6), 2: draws.between(3, 6)}
    leased = {name: problem.binary(f"lease{name}", draws.between(4, 9)) for name, *_ in links}
    cut = {name: problem.event(f"cut{name}") for name, *_ in links}
    there, back = {}, {}
    for name, _, _, room in links:
        price = draws.between(1, 4)
        there[name] = problem.flow(f"there{name}", room, price)
        back[name] = problem.flow(f"back{name}", room, price)
    missing = {place: problem.flow(f"missing{place}", need, draws.between(15, 25)) for place, need in needs.items()}
    for place in range(1, size):
        terms = [(1, missing[place])] if place in missing else []
        for name, low, high, _ in links:
            if place in (low, high):
                out, into = (there[name], back[name]) if place == low else (back[name], there[name])
                terms += [(1, out), (-1, into)]
        problem.row(f"place{place}", terms, "=", needs.get(place, 0))
    for name, _, _, room in links:
        used = each(1, [there[name], back[name]])
        problem.row(f"leased{name}", [*used, (-room, leased[name])], "<=", 0)
        problem.row(f"whole{name}", [*used, (room, cut[name])], "<=", room)
    problem.uncertain("cuts", each(1, cut.values()), "<=", 2)
    return problem


def projects(size, number):
    """Which of `size` projects to pick under a budget before shocks cut it, at most a third of them; then the budget is
    rescued by loans. Whole variables: two and a half a project."""
    draws = Draws(number)
    problem = Problem("MAXIMIZE", "Which projects should be picked, before it is seen which shocks cut the budget, so that they earn most at worst?")
    spent = []
    for project in range(1, size + 1):
        cost = draws.between(3, 9)
        spent.append((cost, problem.binary(f"pick{project}", cost + draws.between(1, 9))))
    budget = sum(cost for cost, _ in spent) * 2 // 3
    shocks = [(draws.between(1, 6), problem.event(f"shock{project}")) for project in range(1, size + 1)]
    for loan in range(1, size // 2 + 1):
        amount = draws.between(2, 6)
        spent.append((-amount, problem.binary(f"loan{loan}", -amount - draws.between(0, 4))))
    problem.row("budget", spent + shocks, "<=", budget)
    problem.uncertain("shocks", each(1, [name for _, name in shocks]), "<=", size // 3)
    return problem


def patrol(size, number):
    """In each of `size` periods guards are sent to two places before it is seen where raids come, and what is raided
    without a guard is lost. Guards and raids are few over all periods. Whole variables: six a period."""
    draws = Draws(number)
    problem = Problem("MINIMIZE", "Where should guards be sent in each period, before it is seen where raids come, so that least is lost at worst?")
    guards, raids = [], []
    for period in range(1, size + 1):
        places = [f"{period}{place}" for place in "ab"]
        sent = [problem.binary(f"guard{place}", draws.between(1, 3)) for place in places]
        raided = [problem.event(f"raid{place}") for place in places]
        lost = [problem.binary(f"loss{place}", draws.between(6, 15)) for place in places]
        for place, guard, raid, loss in zip(places, sent, raided, lost):
            problem.row(f"raid{place}", [(1, raid), (-1, guard), (-1, loss)], "<=", 0)
        guards += sent
        raids += raided
    problem.row("guards", each(1, guards), "<=", size)
    problem.uncertain("raids", each(1, raids), "<=", size // 2 + 1)
    return problem


def inventory(size, number):
    """In each of `size` periods pieces are ordered, up to 3, before it is seen by how much demand surges; what isn't sold is
    kept at a price. Whole variables: two a period."""
    draws = Draws(number)
    problem = Problem("MINIMIZE", "How much should be ordered in each period, before its demand is seen, so that all is met at least cost at worst?")
    orders, surges = [], []
    budget = size // 2 + 1
    stock = budget
    for period in range(1, size + 1):
        # A piece is kept from its period to the end, for 1 in each, unless a surge takes it.
        kept = size - period + 1
        orders.append(problem.whole(f"order{period}", 3, draws.between(3, 8) + kept))
        surges.append(problem.event(f"surge{period}", 2, -kept))
        stock -= draws.between(1, 2)
        problem.row(f"season{period}", each(1, orders) + each(-1, surges), ">=", -stock)
    problem.uncertain("surges", each(1, surges), "<=", budget)
    return problem


def jobs(size, number):
    """`size` jobs come one by one, and each is put on one of two machines before it is seen whether it takes longer, as at
    most two do; overtime is paid for at the end. Whole variables: two a job."""
    draws = Draws(number)
    problem = Problem("MINIMIZE", "On which machine should each job run, before it is seen whether it takes longer, so that overtime costs least at worst?")
    hours = draws.list(size, 3, 9)
    delays = draws.list(size, 2, 6)
    swift, late = [], []
    for job in range(1, size + 1):
        swift.append(problem.binary(f"swift{job}", draws.between(1, 3)))
        late.append(problem.event(f"late{job}"))
    room = sum(hours) // 2
    for machine, price in ("swift", 4), ("plain", 3):
        load = [(-1, problem.flow(f"overtime_{machine}", sum(hours) + sum(delays), price))]
        for job, (here, slow, delay) in enumerate(zip(swift, late, delays), start=1):
            extra = problem.flow(f"delay_{machine}{job}", delay)
            # The delay where the job is late and on this machine.
            sign, beyond = (1, delay) if machine == "swift" else (-1, 0)
            problem.row(f"late_{machine}{job}", [(delay, slow), (sign * delay, here), (-1, extra)], "<=", beyond)
            load += [(1, extra), (sign * hours[job - 1], here)]
        problem.row(f"hours_{machine}", load, "<=", room if machine == "swift" else room - sum(hours))
    problem.uncertain("delays", each(1, late), "<=", 2)
    return problem


def lot_sizes(size, number):
    """In each of `size` periods a machine is set up or not, and makes a lot of up to 12, before it is seen whether demand
    surges, as it does in at most half of them; what isn't sold is kept at a price. Whole variables: three a period."""
    draws = Draws(number)
    problem = Problem("MINIMIZE", "When should how much be made, before it is seen whether demand surges, so that all is met at least cost at worst?")
    lots, surges = [], []
    stock, most = 0, 12
    for period in range(1, size + 1):
        kept = size - period + 1
        setup = problem.binary(f"setup{period}", draws.between(8, 20))
        lots.append((1, problem.whole(f"lot{period}", most, kept)))
        surge = draws.between(2, 5)
        surges.append((-surge, problem.event(f"surge{period}", 1, -surge * kept)))
        stock -= draws.between(2, 6)
        problem.row(f"made{period}", [lots[-1], (-most, setup)], "<=", 0)
        problem.row(f"season{period}", lots + surges, ">=", -stock)
    problem.uncertain("surges", each(1, [name for _, name in surges]), "<=", size // 2)
    return problem


def unit_commitment(size, number):
    """In each of `size` periods three power units are started or kept running before it is seen whether the load surges, as
    it does in at most half of them; then they give power, and what lacks is shed dearly. Whole variables: seven a period."""
    draws = Draws(number)
    problem = Problem("MINIMIZE", "Which power units should run in each period, before its load is seen, so that it is met at least cost at worst?")
    units = "abc"
    rooms = {unit: draws.between(5, 10) for unit in units}
    keep = {unit: draws.between(3, 8) for unit in units}
    start = {unit: draws.between(4, 12) for unit in units}
    price = {unit: draws.between(1, 4) for unit in units}
    periods = range(1, size + 1)
    loads = {period: draws.between(6, 14) for period in periods}
    surges = {period: draws.between(3, 8) for period in periods}
    running, surging = {}, {}
    for period in periods:
        for unit in units:
            running[unit, period] = problem.binary(f"run_{unit}{period}", keep[unit])
        for unit in units:
            started = problem.binary(f"start_{unit}{period}", start[unit])
            before = [(-1, running[unit, period - 1])] if period > 1 else []
            problem.row(f"start_{unit}{period}", [(1, running[unit, period]), *before, (-1, started)], "<=", 0)
        surging[period] = problem.event(f"surge{period}")
    for period in periods:
        given = []
        for unit in units:
            power = problem.flow(f"power_{unit}{period}", rooms[unit], price[unit])
            problem.row(f"room_{unit}{period}", [(1, power), (-rooms[unit], running[unit, period])], "<=", 0)
            given.append((1, power))
        shed = problem.flow(f"shed{period}", loads[period] + surges[period], 20)
        problem.row(f"load{period}", [*given, (1, shed), (-surges[period], surging[period])], ">=", loads[period])
    problem.uncertain("surges", each(1, surging.values()), "<=", size // 2)
    return problem


def pool(size, number):
    """How much to keep ready before it is seen which of `size` places need help, at most a third of them; then the rest is
    hired at once. Whole variables: one a place, and two."""
    draws = Draws(number)
    problem = Problem("MINIMIZE", "How much should be kept ready, before it is seen which places need help, so that it costs least at worst?")
    needs = draws.list(size, 2, 9)
    few = size // 3
    most = sum(sorted(needs)[-few:])
    ready = problem.whole("ready", most, 3)
    surges = [(need, problem.event(f"surge{place}")) for place, need in enumerate(needs, start=1)]
    hired = problem.whole("hired", most, 5)
    problem.row("needs", [*surges, (-1, ready), (-1, hired)], "<=", 0)
    problem.uncertain("surges", each(1, [name for _, name in surges]), "<=", few)
    return problem


def bids(size, number):
    """In each of `size` rounds a bid is made or not, and then a counter-bid, which takes from the same budget and drives up
    what is paid. Whole variables: two a round."""
    draws = Draws(number)
    problem = Problem("MAXIMIZE", "Which bids should be made in turn, if counter-bids take from the same budget, so that they earn most at worst?")
    taken = []
    for at in range(1, size + 1):
        taken.append((draws.between(2, 9), problem.binary(f"bid{at}", draws.between(3, 12))))
        taken.append((draws.between(1, 4), problem.event(f"counter{at}", 1, -draws.between(1, 3))))
    problem.row("budget", taken, "<=", sum(cost for cost, _ in taken) * 2 // 3)
    return problem


def gate(size, number):
    """`size` idle stages, and then a door that has to be set as its bolt is, before the bolt is seen: this can't be done,
    and nothing before it matters. Whole variables: two a stage, and two."""
    draws = Draws(number)
    problem = Problem("MAXIMIZE", "Is there a way through the gate, if its door is set before its bolt is seen?")
    idle = []
    for stage in range(1, size + 1):
        problem.binary(f"step{stage}", draws.between(1, 9))
        idle.append(problem.event(f"wind{stage}"))
    door = problem.binary("door")
    bolt = problem.event("bolt")
    problem.row("match", [(1, door), (-1, bolt)], "=", 0)
    problem.uncertain("winds", each(1, [*idle, bolt]), "<=", 1)
    return problem


def blocks(size, number):
    """`size` stages of six jobs, which are taken before it is seen whether the stage loses all of its slots but one. Whole
    variables: seven a stage."""
    draws = Draws(number)
    problem = Problem("MAXIMIZE", "Which jobs should be taken in each stage, if it may lose all of its slots but one afterwards?")
    for stage in range(1, size + 1):
        taken = [problem.binary(f"job{stage}_{job}", draws.between(1, 9)) for job in range(1, 7)]
        lost = problem.event(f"loss{stage}")
        problem.row(f"slots{stage}", [*each(1, taken), (5, lost)], "<=", 6)
    return problem


def near(size, number):
    """Which of `size` loads to take before it is seen which of them gain a grain, at most two; the loads that fit but for
    one grain in ten thousand million don't fit. Whole variables: two a load."""
    draws = Draws(number)
    problem = Problem("MAXIMIZE", "Which loads should be taken, before it is seen which of them gain a grain, so that they surely fit?")
    heavy = 10_000_000_000
    loads, grains = [], []
    for load in range(1, size + 1):
        loads.append((heavy + draws.between(0, 4), problem.binary(f"load{load}", draws.between(1, 9))))
    for load in range(1, size + 1):
        grains.append(problem.event(f"grain{load}"))
    problem.row("room", loads + each(1, grains), "<=", heavy * (size // 2) + size // 2 + 2)
    problem.uncertain("grains", each(1, grains), "<=", 2)
    return problem


FAMILIES = {
    made.__name__.replace("_", "-"): made
    for made in (
        generated,
        facility,
        network,
        projects,
        patrol,
        inventory,
        jobs,
        lot_sizes,
        unit_commitment,
        pool,
        bids,
        gate,
        blocks,
        near,
    )
}


def text_of(family, size, number):
    """The text of a family's problem of this size and number."""
    return FAMILIES[family](size, number).text()


def main(words):
    """Prints what the words ask for; the exit status."""
    match words:
        case []:
            for family, made in FAMILIES.items():
                print(f"{family}: {' '.join(made.__doc__.split())}")
        case [family, size, number] if family in FAMILIES and size.isdecimal() and number.isdecimal():
            print(text_of(family, int(size), int(number)), end="")
        case _:
            print(__doc__, file=sys.stderr)
            return 2
    return 0


if __name__ == "__main__":
    sys.exit(main(sys.argv[1:]))
