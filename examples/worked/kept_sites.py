"""Sites with a keep text: names and numbers that stay as they are on each host, and the least costs of the others."""
from sites import Kind, Site

REGULAR_FIRST = 1001


class KeptKind(Kind):
    """The users or the groups of a site of which some names are kept. What Kind knows is of the names that are not.

    rows has for each host the (name, number) of its rows, owned for each file its row or its number alone; group users and its
    files are among them. ranges are the (low, high) that are listed, unowned has for each host the numbers that are to stay
    since its files have them without an account."""

    def __init__(self, name, pool, rows, owned, names, ranges, unowned):
        every = sum(rows, [])
        numbers = {it: [number for other, number in every if other == it] for it, _ in every}
        in_range = lambda number: any(low <= number <= high for low, high in ranges)
        self.kept_names = {it for it, had in numbers.items() if it in names or all(map(in_range, had))}
        self.reserved = [(low, high, f"range {low} {high}") for low, high in ranges]
        for host, here in enumerate(rows):
            self.reserved += [(number, number, f"name h{host} {it}") for it, number in here if it in self.kept_names]
        for host, numbers_there in enumerate(unowned):
            self.reserved += [(it, it, f"unowned h{host}") for it in dict.fromkeys(numbers_there) if not in_range(it)]
        left = [[row for row in here if row[0] not in self.kept_names] for here in rows]
        owners = [it for it in owned if isinstance(it, tuple) and it[0] not in self.kept_names]
        super().__init__(name, [it for it in pool if not self.reserver(it)], sum(left, []), owners, len(owners), 0)
        # A number out of the ranges of a host pins; the first that a name has there is its pin, where all agree.
        self.pinned_on = {it: [] for it in self.seen}
        for host, here in enumerate(left):
            for it, number in here:
                if number not in pool:
                    self.pinned_on[it].append((host, number))
        self.pins = {it: places[0][1] for it, places in self.pinned_on.items() if places}
        self.free = sorted(set(self.seen) - set(self.pins))
        self.parts = [(self.free, self.pool)]

    def reserver(self, number):
        return next((who for low, high, who in self.reserved if low <= number <= high), None)

    def mapping_in(self, answer):
        mapping = self.named_in(answer)
        return mapping if self.is_admissible(mapping) else None

    def refusal(self):
        """The first fault line of the kind, else nothing."""
        for it, places in self.pinned_on.items():
            if other := next((host for host, number in places if number != places[0][1]), None):
                return f"unify: 22 PinDisagrees {self.name} {it} h{places[0][0]} h{other}\n"
        for it, number in self.pins.items():
            if who := self.reserver(number):
                return f"unify: 47 PinReserved {self.name} {number} {it} {who}\n"
        for number in sorted(self.pins.values()):
            if len(names := [it for it, pin in self.pins.items() if pin == number]) > 1:
                return f"unify: 23 PinClash {self.name} {number} {names[0]} {names[1]}\n"
        if len(self.free) > len(self.pool):
            return f"unify: 24 PoolTooSmall {self.name} regular {len(self.free)} {len(self.pool)}\n"
        return None

    def number_under(self, mapping, owner):
        """The number that a file of this owner has under a mapping."""
        return owner if isinstance(owner, int) else mapping.get(owner[0], owner[1])


class KeptSite(Site):
    """A site with a keep text: the names and the ranges that are listed of users and of groups, and whether numbers without an
    account stay. A file has for its user and for its group a row of its host, or a number alone that is no account's."""

    def __init__(self, user_pool, group_pool, users, groups, owners, names, ranges, unowned):
        super().__init__(user_pool, group_pool, users, groups, owners)
        self.names, self.ranges, self.unowned = names, ranges, unowned

    def keep_text(self):
        kinds = [(kind, *lists) for kind, *lists in zip(("user", "group"), self.names, self.ranges)]
        lines = [f"|{kind} {name}\n" for kind, names, _ in kinds for name in names]
        lines += [f"|unowned {kind}s\n" for kind, stay in zip(("user", "group"), self.unowned) if stay]
        return "".join(lines + [f"|{kind}s {low} {high}\n" for kind, _, ranges in kinds for low, high in ranges])

    def bundle(self):
        return super().bundle().replace("run merge\n", "run merge hosts\nfile keep\n" + self.keep_text(), 1)

    def host(self, place):
        owners = [tuple(("", it) if isinstance(it, int) else it for it in file) for file in self.owners[place]]
        return Site(self.user_pool, self.group_pool, {place: self.users[place]}, {place: self.groups[place]}, {place: owners}).host(place)

    def kinds(self):
        files = sum(self.owners, [])
        groups = [[("users", 100), *here] for here in self.groups]
        alone = [[[file[kind] for file in here if isinstance(file[kind], int)] for here in self.owners] for kind in (0, 1)]
        unowned = [numbers if stay else [] for numbers, stay in zip(alone, self.unowned)]
        lists = (self.users, groups), zip(*files) if files else ((), ()), self.names, self.ranges, unowned
        for name, pool, rows, owned, *others in zip(("user", "group"), (self.user_pool, self.group_pool), *lists):
            yield KeptKind(name, pool, rows, list(owned), *others)

    def answer(self, users, groups, mappings):
        """What the answer has of each host by these mappings: its plan, and then, in an order of their own, its passwd and group."""
        plans, own = "", ""
        gid = groups.number_under(mappings[1], ("users", 100))
        for place, files in enumerate(self.owners):
            plans += f"file plan.h{place}\n|unify plan 1 h{place}\n"
            for number, owner in enumerate(files):
                old = [it if isinstance(it, int) else it[1] for it in owner]
                new = [kind.number_under(mapping, it) for kind, mapping, it in zip((users, groups), mappings, owner)]
                if old != new:
                    path = str(number)
                    plans += "|{} {} {} {} {} {}\n".format(*old, *new, len(path), path)
            plans += "|end\n"
            own += f"file passwd.h{place}\n"
            own += "".join(f"|{it[0]}:x:{users.number_under(mappings[0], it)}:{gid}::/:/bin/sh\n" for it in self.users[place])
            own += f"file group.h{place}\n|users:x:{gid}:\n"
            own += "".join(f"|{it[0]}:x:{groups.number_under(mappings[1], it)}:\n" for it in self.groups[place])
        return plans + own


def some_kept_site(chance):
    """Two or three hosts with people, whose numbers are in the pool, and services, whose numbers are below it and pin, and a keep
    text that lists some names, the services' range or a part of it, and numbers of the pool, and often numbers without an account."""
    hosts = range(chance.randint(2, 3))
    people = chance.randint(2, 4)
    pools = range(REGULAR_FIRST, REGULAR_FIRST + people + chance.randint(0, 3)), range(REGULAR_FIRST, REGULAR_FIRST + 4)
    names, ranges = ([], []), ([], [])
    for kind, word in enumerate(("user", "group")):
        if chance.random() < 0.75:
            ranges[kind].append((1, chance.choice((4, 9, 9, 9))))
        if chance.random() < 0.25:
            low = chance.choice(pools[kind])
            ranges[kind].append((low, low + chance.randint(0, 1)))
        names[kind].extend(f"{word}{it}" for it in range(people) if chance.random() < 0.12)
        names[kind].extend(f"{word}svc{it}" for it in range(3) if chance.random() < 0.25)
        if chance.random() < 0.15:
            names[kind].append("nobody-here")
    if chance.random() < 0.1:
        names[1].append("users")
    unowned = [chance.random() < 0.4 for _ in names]
    users, groups = ([some_rows(chance, word, people, pools[kind]) for _ in hosts] for kind, word in enumerate(("user", "group")))
    may_stand = [[*pools[kind], 5, 20] if stay else [] for kind, stay in enumerate(unowned)]
    owners = [some_owners(chance, *rows, ranges, may_stand) for rows in zip(users, groups)]
    return KeptSite(*pools, users, groups, owners, names, ranges, unowned)


def some_rows(chance, word, people, pool):
    """Some people and some of three services, with distinct numbers."""
    rows = {}
    for name in range(people):
        if chance.random() < 0.75:
            rows.setdefault(chance.choice(pool), f"{word}{name}")
    for name in range(3):
        if chance.random() < 0.6:
            rows.setdefault(chance.choice((name + 1, name + 1, chance.randint(1, 9))), f"{word}svc{name}")
    return [(name, number) for number, name in rows.items()]


def some_owners(chance, users, groups, ranges, may_stand):
    """Up to two files of each user, of one group; and now and then files of numbers that are no account's, and are listed or may
    stand without one."""
    rows = users, [*groups, ("users", 100)]
    listed = []
    for kind in (0, 1):
        taken = {number for _, number in rows[kind]}
        some = [it for low, high in ranges[kind] for it in range(low, high + 1)] + may_stand[kind]
        listed.append([it for it in some if it not in taken])
    owners = []
    for user in users:
        owners += chance.randint(0, 2) * [(user, chance.choice(rows[1]))]
    if listed[0]:
        owners += chance.randint(0, 2) * [(chance.choice(listed[0]), chance.choice(rows[1]))]
    if listed[1] and users:
        owners += chance.randint(0, 2) * [(chance.choice(users), chance.choice(listed[1]))]
    return owners
