"""Sites with their least costs: small ones that look random, contested ones, and many triples of users side by side."""
import itertools
import math
import re
from collections import Counter

# A number in no range: who has it on a host is pinned there.
PIN = 7
# Up to so many numbers every set of them is tried.
FEW_NUMBERS = 12


def cheapest(costs):
    """For each row of costs a column, no two the same, so that the costs add up to the least: row by row along shortest paths,
    with potentials (Kuhn and Munkres). There are as many columns as rows, or more. Rows and columns count from 1 in it."""
    of_row, of_column = [0] * (len(costs) + 1), [0] * (len(costs[0]) + 1)
    owner = [0] * len(of_column)
    for row in range(1, len(of_row)):
        owner[0], column = row, 0
        slack, before, seen = [math.inf] * len(owner), [0] * len(owner), [False] * len(owner)
        while owner[column]:
            seen[column] = True
            here = owner[column]
            left = [it for it in range(1, len(owner)) if not seen[it]]
            for it in left:
                distance = costs[here - 1][it - 1] - of_row[here] - of_column[it]
                if distance < slack[it]:
                    slack[it], before[it] = distance, column
            nearest = min(left, key=slack.__getitem__)
            by = slack[nearest]
            for it in range(len(owner)):
                if seen[it]:
                    of_row[owner[it]] += by
                    of_column[it] -= by
                else:
                    slack[it] -= by
            column = nearest
        while column:
            owner[column] = owner[before[column]]
            column = before[column]
    columns = {row: column - 1 for column, row in enumerate(owner) if column and row}
    return [columns[row] for row in range(1, len(of_row))]


class Kind:
    """The users or the groups of a site: what is admissible, and what it costs. A mapping has the number of each name.

    pool are the numbers that free names may have; rows the (name, number) of the account files of all hosts, owners those of
    the files. The group users, which is pinned at its number on each of so many hosts, is in neither, and costs nothing."""

    def __init__(self, name, pool, rows, owners, files, pinned):
        self.name, self.pool, self.files, self.pinned = name, pool, files, pinned
        self.rows, self.owners = Counter(rows), Counter(owners)
        self.seen = list(dict.fromkeys(name for name, _ in rows))
        self.pins = {name: number for name, number in rows if number == PIN}
        self.free = sorted(set(self.seen) - set(self.pins))
        # Names that need no numbers but these, and the numbers that no names but these need.
        self.parts = [(self.free, pool)]

    def totals(self):
        return self.files, sum(self.rows.values()) + self.pinned

    def mapping_in(self, answer):
        """The mapping in a merge's answer; none if it is not admissible."""
        mapping = {name: number for name, number in self.named_in(answer).items() if name != "users"}
        return mapping if self.is_admissible(mapping) else None

    def named_in(self, answer):
        """The map in a merge's answer, as it stands there."""
        lines = re.findall(rf"^\|{self.name} (\S+) (\d+)$", answer.partition("file certificate\n")[0], re.M)
        return {name: int(number) for name, number in lines}

    def is_admissible(self, mapping):
        if sorted(mapping) != sorted(self.seen) or len(set(mapping.values())) < len(mapping):
            return False
        kept = all(mapping[name] == number for name, number in self.pins.items())
        return kept and all(mapping[name] in self.pool for name in self.free)

    def cost(self, mapping):
        """How many fields of files, and how many rows, a mapping changes."""
        of_all = (sum(counts.values()) for counts in (self.owners, self.rows))
        return tuple(many - kept for many, kept in zip(of_all, self.kept(mapping)))

    def least(self):
        """The least cost of all admissible mappings: each part has the numbers that keep the most."""
        kept = [self.most_kept(*part) for part in self.parts] + [self.kept(self.pins)]
        of_all = (sum(counts.values()) for counts in (self.owners, self.rows))
        return tuple(many - sum(some) for many, some in zip(of_all, zip(*kept)))

    def most_kept(self, names, numbers):
        """The most that names keep with distinct numbers."""
        return self.tried(names, numbers) if len(numbers) <= FEW_NUMBERS else self.solved(names, numbers)

    def solved(self, names, numbers):
        """The same by potentials: files count for more than all rows do."""
        scale = sum(self.rows.values()) + 1
        costs = [[-(self.owners[name, it] * scale + self.rows[name, it]) for it in numbers] for name in names]
        return self.kept({name: numbers[place] for name, place in zip(names, cheapest(costs))})

    def tried(self, names, numbers):
        """The same name by name, for each set of numbers that those so far may have."""
        best = {0: (0, 0)}
        for name in names:
            after = {}
            for taken, (files, rows) in best.items():
                for place, number in enumerate(numbers):
                    if not taken >> place & 1:
                        with_it = taken | 1 << place
                        kept = files + self.owners[name, number], rows + self.rows[name, number]
                        after[with_it] = max(kept, after.get(with_it, kept))
            best = after
        return max(best.values())

    def kept(self, mapping):
        """How many fields of files, and how many rows, the names of a mapping keep."""
        return tuple(sum(counts[pair] for pair in mapping.items()) for counts in (self.owners, self.rows))

    def is_filled(self, mapping):
        """Whether those who get a number that they have nowhere get, one after the other, the smallest that nobody has."""
        waiting = [name for name in self.free if not self.rows[name, mapping[name]]]
        left = sorted(set(self.pool) - {number for name, number in mapping.items() if name not in waiting})
        return [mapping[name] for name in waiting] == left[: len(waiting)]

    def refusal(self):
        """The fault line where two names are pinned, or where more names are free than there are numbers; else nothing."""
        if len(self.pins) > 1:
            first, second, *_ = (name for name in self.seen if name in self.pins)
            return f"unify: 23 PinClash {self.name} {PIN} {first} {second}\n"
        if len(self.free) > len(self.pool):
            return f"unify: 24 PoolTooSmall {self.name} regular {len(self.free)} {len(self.pool)}\n"
        return None


class Site:
    """Hosts with users and groups.

    users and groups have for each host the (name, number) of its rows, without the group users, which has 100; owners has
    for each host the user's and the group's row of each file."""

    def __init__(self, user_pool, group_pool, users, groups, owners):
        self.user_pool, self.group_pool = user_pool, group_pool
        self.users, self.groups, self.owners = users, groups, owners

    def bundle(self):
        """The bundle that has the site merged."""
        return "run merge\n" + "".join(self.host(place) for place in range(len(self.users)))

    def host(self, place):
        limits = f"|UID_MIN 1001\n|UID_MAX {self.user_pool[-1]}\n|GID_MIN 1001\n|GID_MAX {self.group_pool[-1]}\n"
        users = [f"|{name}:x:{number}:100::/:/bin/sh\n" for name, number in self.users[place]]
        groups = [f"|{name}:x:{number}:\n" for name, number in self.groups[place]]
        files = [f"|./{file} uid={user[1]} gid={group[1]}\n" for file, (user, group) in enumerate(self.owners[place])]
        heads = [f"host h{place}\nfile login.defs\n{limits}file passwd\n", "file group\n|users:x:100:\n", "file mtree\n"]
        return "".join(head + "".join(lines) for head, lines in zip(heads, (users, groups, files)))

    def kinds(self):
        users, groups, owners = (sum(lists, []) for lists in (self.users, self.groups, self.owners))
        of_groups = [group for _, group in owners if group[0] != "users"]
        yield Kind("user", self.user_pool, users, [user for user, _ in owners], len(owners), 0)
        yield Kind("group", self.group_pool, groups, of_groups, len(owners), len(self.groups))

    def refusal(self):
        """The fault line of a site that is refused, else nothing."""
        return next((line for kind in self.kinds() if (line := kind.refusal())), None)


def some_site(chance):
    """Two to four hosts with two to six users and three groups, and pools that have about as many numbers."""
    names = chance.randint(2, 6)
    hosts = range(chance.randint(2, 4))
    pools = range(1001, 1001 + names + chance.randint(-1, 1)), range(1001, 1004)
    users = [some_rows(chance, "user", names, pools[0]) for _ in hosts]
    groups = [some_rows(chance, "group", 3, pools[1]) for _ in hosts]
    owners = [some_owners(chance, *rows) for rows in zip(users, groups)]
    return Site(*pools, users, groups, owners)


def some_rows(chance, kind, names, pool):
    """Some of so many names, with distinct numbers of the pool, or now and then the one that pins."""
    rows = {}
    for name in range(names):
        number = PIN if chance.random() < 0.04 else chance.choice(pool)
        if chance.random() < 0.75:
            rows.setdefault(number, f"{kind}{name}")
    return [(name, number) for number, name in rows.items()]


def some_owners(chance, users, groups):
    """Up to three files of each user, of one group."""
    owners = []
    for user in users:
        group = chance.choice(groups + [("users", 100)])
        owners += chance.randint(0, 3) * [(user, group)]
    return owners


def contested_sites(chance):
    """Eight hosts with ten users each, or eight of the ten: ten sites of each of four kinds. Then one of each kind with 64 hosts and
    thirty users, or twenty-four of the thirty. A row owns no file, up to two or up to nine; where numbers are for a part of the
    users, up to two."""
    for wanted, most_files in 10 * [(10, 0), (10, 2), (10, 9), (8, 2)]:
        yield contested_site(chance, 8, 10, wanted, most_files)
    for wanted, most_files in [(30, 0), (30, 2), (30, 9), (24, 2)]:
        yield contested_site(chance, 64, 30, wanted, most_files)


def contested_site(chance, hosts, names, wanted, most_files):
    """Hosts with so many of the users that are wanted there, who all have the same numbers, on each host in an order of its own."""
    pool = range(1001, 1001 + names)
    users = [list(zip((f"user{name}" for name in chance.sample(range(names), wanted)), pool)) for _ in range(hosts)]
    owners = [[(row, ("users", 100)) for row in rows for _ in range(chance.randint(0, most_files))] for rows in users]
    return Site(pool, range(1001, 1002), users, hosts * [[]], owners)


class Triples(Site):
    """Triples of users side by side, each with three numbers of its own. On each of three hosts the users of a triple have its
    numbers, each user another one than on the other two hosts, and own so many files: there are nine counts for a triple."""

    def __init__(self, counts):
        self.triples = [[f"{name}{place}" for name in ("ann", "ben", "cat")] for place in range(len(counts))]
        users = [[], [], []]
        owners = [[], [], []]
        for place, files in enumerate(counts):
            for host, user in itertools.product(range(3), range(3)):
                row = self.triples[place][user], 1001 + 3 * place + (user + host) % 3
                users[host].append(row)
                owners[host] += files[3 * host + user] * [(row, ("users", 100))]
        super().__init__(range(1001, 1001 + 3 * len(counts)), range(1001, 1002), users, [[], [], []], owners)

    def kinds(self):
        users, groups = super().kinds()
        users.parts = [(names, self.user_pool[3 * place : 3 * place + 3]) for place, names in enumerate(self.triples)]
        return users, groups


def all_triples():
    """Every way in which the users of a triple may own 0, 1 or 2 files on each host, 729 of them in a site."""
    for first in itertools.product(range(3), repeat=3):
        yield Triples([first + rest for rest in itertools.product(range(3), repeat=6)])
