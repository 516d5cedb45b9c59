"""Instances of version_solving that grow: for each family a maker, and what makes its instances hard.

An instance is as the program solver_answers reads it: the demands of the root, for each name its candidates with their
demands, and the ranges.
"""
import random


class Ranges:
    """The ranges of an instance, each once."""

    def __init__(self, count):
        self.count, self.rows, self.places = count, [], {}

    def demand(self, name, allowed, needed=True):
        allowed = tuple(sorted(allowed))
        if (name, allowed) not in self.places:
            self.places[name, allowed] = len(self.rows)
            self.rows.append([int(i in set(allowed)) for i in range(self.count)])
        return [name, self.places[name, allowed], needed]


def late(names, candidates):
    """Free names, and then two that need different candidates of a third: a search without learning tries each choice of the free ones."""
    ranges = Ranges(candidates)
    every = range(candidates)
    one, other, third = names, names + 1, names + 2
    packages = [[[] for _ in every] for _ in range(names)]
    packages += [[[ranges.demand(third, [allowed])] for _ in every] for allowed in (0, 1)] + [[[], []]]
    return [ranges.demand(name, every) for name in [*range(names), one, other]], packages, ranges.rows


def chain(names, candidates):
    """Each candidate needs the same one of the next name, and the root wants the last one of the last name."""
    ranges = Ranges(candidates)
    packages = [[[ranges.demand(name + 1, [i])] if name + 1 < names else [] for i in range(candidates)] for name in range(names)]
    return [ranges.demand(0, range(candidates)), ranges.demand(names - 1, [candidates - 1])], packages, ranges.rows


def plugins(names, candidates, majors, seed):
    """A core with major versions, and plugins whose candidates each follow one or two of these, and some of another plugin."""
    r, ranges = random.Random(seed), Ranges(candidates)
    group = [[i for i in range(candidates) if i * majors // candidates == major] for major in range(majors)]
    packages = [[[] for _ in range(candidates)]]
    for plugin in range(names):
        packages.append([])
        for i in range(candidates):
            major = i * majors // candidates
            allowed = group[major] + (group[max(0, major - 1)] if r.random() < .3 else [])
            demands = [ranges.demand(0, set(allowed), r.random() < .8)]
            if plugin and r.random() < .5:
                demands.append(ranges.demand(1 + r.randrange(plugin), group[major], r.random() < .5))
            packages[-1].append(demands)
    root = [ranges.demand(0, [i for major in r.sample(range(majors), 2) for i in group[major]])]
    every = set(range(candidates))
    root += [ranges.demand(1 + plugin, every - set(group[r.randrange(majors)])) for plugin in range(names)]
    return root, packages, ranges.rows


def mixed(names, candidates, demands, width, seed):
    """Each candidate has demands of names and ranges by chance, as its neighbours have them."""
    r, ranges = random.Random(seed), Ranges(candidates)

    def drawn(name):
        for other in r.sample(range(names), min(demands, names)):
            if other != name:
                first = r.randrange(candidates)
                yield ranges.demand(other, range(first, min(candidates, first + width)), r.random() < .7)

    packages = []
    for name in range(names):
        packages.append([])
        for _ in range(candidates):
            is_new = not packages[-1] or r.random() < .2
            packages[-1].append(list(drawn(name)) if is_new else packages[-1][-1])
    root = [ranges.demand(name, range(candidates)) for name in r.sample(range(names), max(1, names // 4))]
    return root, packages, ranges.rows


def neighbours(names, seed, candidates=8):
    """Each version, of one major version each, needs two other packages in the same major version or one beside it; the root wants new versions,
    and of one package an old one. What each pair of packages allows each other rules that out, without any choice."""
    r, ranges = random.Random(seed), Ranges(candidates)

    def near(name, major):
        allowed = [candidates - it for it in {max(1, major - r.randint(0, 1)), min(candidates, major + 1)}]
        return [ranges.demand(other, allowed) for other in r.sample(range(names), 2) if other != name]

    packages = [[near(name, major) for major in range(candidates, 0, -1)] for name in range(names)]
    wrong = names // 2
    wishes = sorted(set(r.sample(range(names), names // 4)) - {wrong})
    return [*(ranges.demand(name, range(candidates - 3)) for name in wishes), ranges.demand(wrong, [candidates - 1])], packages, ranges.rows


def clauses(case):
    """The instance as clauses of a satisfiability solver: the number of variables, and the clauses. A variable says that a candidate is
    selected, and others that one before it is, so that at most one of a name is."""
    root, packages, rows = case
    place, found = {}, []

    def variable(*key):
        return place.setdefault(key, len(place) + 1)

    def demanded(head, demand):
        name, range_, needed = demand
        allowed = [i for i, _ in enumerate(packages[name]) if rows[range_][i]]
        if needed:
            found.append(head + [variable(name, i) for i in allowed])
        found.extend(head + [-variable(name, i)] for i in set(range(len(packages[name]))) - set(allowed))

    for demand in root:
        demanded([], demand)
    for name, candidates in enumerate(packages):
        for i, own in enumerate(candidates):
            if i + 1 < len(candidates):
                found += [[-variable(name, i), variable("to", name, i)], [-variable("to", name, i), -variable(name, i + 1)]]
            if i + 2 < len(candidates):
                found.append([-variable("to", name, i), variable("to", name, i + 1)])
            for demand in own:
                demanded([-variable(name, i)], demand)
    return len(place), found
