"""Makes random documents, as lists of lines: small networks, and every line and command that docs/FORMATS.md has.

A document is made from a `random.Random` alone, so a seed makes the same document again.
"""

PERCENTAGES = (0, 1, 25, 33, 50, 50, 50, 51, 60, 75, 99, 100)
CAPACITIES = (1, 2, 3, 5, 10, 10, 10, 15, 20, 100)
DEVICE_VARIABLES = ("power", "firmware", "config", "routing")
LINK_VARIABLES = ("power", "iface")


def random_document(random):
    """The lines of a document that is free of faults, without line ends."""
    return DocumentMaker(random).lines()


def crowded_document(random):
    """The lines of a document on whose few groups many applications work at once."""
    return CrowdMaker(random).lines()


def wide_document(random):
    """The lines of a document whose groups may have more devices, and whose scripts more rows, than one proposal has."""
    return WideMaker(random).lines()


class Net:
    """The names of a group that is being made."""

    def __init__(self, name):
        self.name = name
        self.tors, self.switches, self.links = [], [], []

    def devices(self):
        return self.tors + self.switches


class DocumentMaker:
    def __init__(self, random):
        self.random = random
        self.is_wild = self.chance(0.35)
        self.has_open_values = self.chance(0.3)
        self.has_healths = self.chance(0.3)
        self.has_wire_lines = self.chance(0.6)
        self.has_deep_queue = self.chance(0.03)
        self.has_delays = not self.is_wild and self.chance(0.3)

    def chance(self, probability):
        return self.random.random() < probability

    def pick(self, items):
        return self.random.choice(items)

    def lines(self):
        lines = ["statesman 1"]
        names = ["dc1", "dc2", "up", "a1"]
        count = self.pick((1, 1, 1, 2, 2, 3)) if not self.chance(0.02) else self.pick((0, 4, 5))
        nets = []
        for number in range(count):
            net = Net(names[number] if number < len(names) else "G%d" % number)
            nets.append(net)
            lines += self.group_lines(net)
        if self.has_delays:
            lines += [self.delay_line(net) for net in nets for _ in range(self.random.randint(2, 9))]
        elif self.has_wire_lines:
            lines += [self.wire_line(net) for net in nets for _ in range(self.random.randint(0, 8))]
        apps = self.applications()
        for app in apps:
            lines.append("app " + app)
            if nets:
                lines += self.command_lines(nets)
        if apps and self.chance(0.5):
            for _ in range(self.random.randint(1, 4)):
                lines.append("order " + " ".join(self.pick(apps) for _ in range(self.random.randint(1, 9))))
        return self.dressed(lines) if self.chance(0.25) else lines

    def applications(self):
        return ["up", "te", "mitigate-1", "A_b-9", "x" * 32][:self.pick((1, 1, 2, 2, 2, 3, 3, 4, 5))]

    # A group.

    def group_lines(self, net):
        random = self.random
        net.tors = ["t%d" % number for number in range(1, 1 + self.pick((2, 2, 2, 3, 3, 4, 1, 0)))]
        net.switches = ["a%d" % number for number in range(1, 1 + self.pick((0, 1, 2, 2, 2, 3, 3, 4)))]
        if self.chance(0.04):
            net.switches += ["s%d" % number for number in range(6)]
        lines = ["device %s tor" % name for name in net.tors] + ["device %s switch" % name for name in net.switches]
        if self.chance(0.3):
            random.shuffle(lines)
        tail = self.link_lines(net) + self.promise_lines(net)
        if self.has_open_values:
            tail += self.open_lines(net)
        if self.has_healths:
            entities = net.devices() + net.links
            tail += ["health %s %d" % (name, self.health(net, name))
                     for name in random.sample(entities, random.randint(0, min(3, len(entities))))]
        if self.chance(0.1):
            tail = self.shuffled_where_declared(tail)
        return ["group " + net.name] + lines + tail

    def link_lines(self, net):
        """A fabric of ToRs and switches with some links left out, and some further ones anywhere."""
        pairs = [(tor, switch) for tor in net.tors for switch in net.switches if self.chance(0.8)]
        devices = net.devices()
        if len(devices) > 1:
            further = self.pick((0, 0, 0, 1, 1, 2, 3)) + (2 if len(net.switches) > 5 else 0)
            pairs += [tuple(self.random.sample(devices, 2)) for _ in range(further)]
        same = self.pick(CAPACITIES) if self.chance(0.5) else None
        lines = []
        for first, second in pairs:
            name = "l%d" % (len(net.links) + 1)
            net.links.append(name)
            if self.chance(0.3):
                first, second = second, first
            ends = [net.name + "/" + end if self.chance(0.05) else end for end in (first, second)]
            capacity = same or (self.pick(CAPACITIES) if self.chance(0.97) else self.random.randint(1, 1000000))
            lines.append("link %s %s %s %d" % (name, ends[0], ends[1], capacity))
        return lines

    def promise_lines(self, net):
        pairs = [(first, second) for place, first in enumerate(net.tors) for second in net.tors[:place]]
        self.random.shuffle(pairs)
        lines = []
        for first, second in pairs[:self.random.randint(0, len(pairs)) if self.chance(0.3) else len(pairs)]:
            if self.chance(0.5):
                first, second = second, first
            lines.append("promise %s %s %d" % (first, second, self.percentage()))
        return lines

    def percentage(self):
        return self.pick(PERCENTAGES) if self.chance(0.8) else self.random.randint(0, 100)

    def open_lines(self, net):
        lines = []
        entities = net.devices() + net.links
        for name in self.random.sample(entities, self.random.randint(0, min(4, len(entities)))):
            for variable in self.some(self.variables(net, name)):
                lines.append("open %s.%s=%d" % (name, variable, self.value(variable)))
        return lines

    def shuffled_where_declared(self, lines):
        """Mixed lines in which each name still stands behind its declaration: links first, then the rest."""
        links = [line for line in lines if line.startswith("link")]
        rest = [line for line in lines if not line.startswith("link")]
        self.random.shuffle(rest)
        return links + rest

    def variables(self, net, name):
        return LINK_VARIABLES if name in net.links else DEVICE_VARIABLES

    def some(self, variables):
        return self.random.sample(variables, self.random.randint(1, len(variables)))

    def value(self, variable):
        if variable in ("power", "routing"):
            return 1 if self.chance(0.7) else 0
        if self.chance(0.05):
            return self.pick((0, 4294967295, 1000000000))
        return self.random.randint(0, 3)

    def health(self, net, name):
        if name in net.links:
            return 1 if self.chance(0.6) else 0
        return 5 if self.chance(0.5) else self.random.randint(0, 5)

    def wire_line(self, net):
        word = self.pick(("drop", "repeat", "hold"))
        kind = self.pick(("command", "report"))
        number = self.random.randint(1, 14)
        if word == "drop":
            return "drop %s %s %d" % (net.name, kind, number)
        to_turn = number + self.random.randint(1 if word == "hold" else 0, 5)
        if self.chance(0.02):
            to_turn = 4294967295
        return "%s %s %s %d %d" % (word, net.name, kind, number, to_turn)

    def delay_line(self, net):
        """Among the first messages, and by a few turns: so a message of one entity arrives in the turn of another."""
        word, kind = self.pick(("hold", "hold", "hold", "repeat")), self.pick(("command", "report"))
        number = self.random.randint(1, 6)
        return "%s %s %s %d %d" % (word, net.name, kind, number, number + self.random.randint(1, 3))

    # An application.

    def command_lines(self, nets):
        if self.has_deep_queue and self.chance(0.6):
            net = self.pick(nets)
            if net.devices():
                return [self.propose(net) for _ in range(self.random.randint(30, 90))]
        if self.has_delays:
            return [line for _ in range(self.random.randint(0, 5)) for line in self.delayed_work(self.pick(nets))]
        return [self.command(self.pick(nets)) for _ in range(self.random.randint(0, 24))]

    def delayed_work(self, net):
        """A proposal for several entities, and single rounds and polls behind it."""
        devices = net.devices()
        if not devices:
            return []
        some = self.random.sample(devices, self.random.randint(1, min(3, len(devices))))
        rows = " ".join("%s.%s=%d" % (name, self.pick(("firmware", "config")), self.random.randint(0, 3)) for name in some)
        lines = ["propose %s %s" % (net.name, rows), "await " + net.name]
        for _ in range(self.random.randint(1, 6)):
            lines.append(self.pick(("settle %s 1" % net.name, "settle %s 2" % net.name, "poll %s %s" % (net.name, self.pick(some)))))
        return lines if self.chance(0.8) else lines + [self.command(net)]

    def command(self, net):
        entities = net.devices() + net.links
        if not entities:
            return self.pick(("await %s", "settle %s 1")) % net.name
        fails = 14 if self.is_wild else 1
        word = self.random.choices(
            ("propose", "await", "settle", "lock", "unlock", "read", "readat", "fail", "poll"),
            (30, 12, 22, 9, 7, 4, 5, fails, 9))[0]
        name = self.pick(entities)
        if word == "propose":
            return self.propose(net)
        if word == "await":
            return "await " + net.name
        if word == "settle":
            return "settle %s %d" % (net.name, self.pick((1, 1, 2, 2, 3, 4, 64)))
        if word in ("lock", "unlock"):
            name = self.pick(net.devices()[-2:]) if self.chance(0.8) and net.devices() else name
            return "%s %s %s %s" % (word, net.name, name, self.pick(("low", "low", "high")))
        variable = self.pick(self.variables(net, name))
        if word == "read":
            return "read %s %s.%s" % (net.name, name, variable)
        if word == "readat":
            version = self.random.randint(0, 6) if self.chance(0.95) else 4294967295
            return "readat %s %d %s.%s" % (net.name, version, name, variable)
        if word == "poll":
            return "poll %s %s" % (net.name, name)
        return self.fail(net, name)

    def fail(self, net, name):
        words = ["fail", net.name, name, str(self.health(net, name))]
        if self.chance(0.6):
            words += ["%s=%d" % (variable, self.value(variable)) for variable in self.some(self.variables(net, name))]
        return " ".join(words)

    def propose(self, net):
        entities = net.devices() + net.links
        pairs = [(name, variable) for name in entities for variable in self.variables(net, name)]
        if self.chance(0.6):
            switches = net.switches or net.devices()
            pairs = [pair for pair in pairs if pair[0] in switches]
        count = self.pick((1, 1, 1, 1, 2, 2, 3, 4, 6)) if self.chance(0.97) else 16
        rows = ["%s.%s=%d" % (name, variable, self.value(variable))
                for name, variable in self.random.sample(pairs, min(count, len(pairs)))]
        return "propose %s %s" % (net.name, " ".join(rows))

    # What says nothing.

    def dressed(self, lines):
        """The same document with lines that are skipped, and other blanks between its tokens."""
        dressed = []
        for line in lines:
            if self.chance(0.1):
                dressed.append(self.pick(("", "  \t", "# a note", "\t#", "#", "  # app te", "\r")))
            if self.chance(0.3):
                line = self.pick(("", " ", "\t", "  ")) + line.replace(" ", self.pick(("  ", "\t", " \t "))) \
                    + self.pick(("", " ", "\t"))
            dressed.append(line + self.pick(("", "", "", "\r")))
        return dressed


class CrowdMaker(DocumentMaker):
    """Each application does one piece of work after the other, and waits for what it asked for."""

    def applications(self):
        return ["up", "te"] + ["app%d" % number for number in range(self.random.randint(0, 6))]

    def command_lines(self, nets):
        lines = []
        for _ in range(self.random.randint(2, 8)):
            net = self.pick(nets)
            if net.devices():
                lines += self.pick((self.upgrade, self.upgrade, self.engineering, self.watching, self.failing))(net)
        return lines

    def upgrade(self, net):
        lines = [self.propose(net) for _ in range(self.random.randint(1, 3))]
        lines.append("await " + net.name)
        if self.chance(0.7):
            lines.append("settle %s %d" % (net.name, self.pick((1, 1, 2, 3))))
        return lines + self.watching(net)

    def engineering(self, net):
        name, priority = self.pick(net.devices()[-2:]), self.pick(("low", "low", "high"))
        lines = ["lock %s %s %s" % (net.name, name, priority), self.propose(net)]
        lines += ["await " + net.name] if self.chance(0.8) else []
        return lines + ["unlock %s %s %s" % (net.name, name, priority)]

    def watching(self, net):
        lines = []
        for _ in range(self.random.randint(1, 3)):
            name = self.pick(net.devices() + net.links)
            variable = self.pick(self.variables(net, name))
            lines.append(self.pick((
                "read %s %s.%s" % (net.name, name, variable),
                "readat %s %d %s.%s" % (net.name, self.random.randint(0, 12), name, variable))))
        return lines

    def failing(self, net):
        name = self.pick(net.devices() + net.links)
        return [self.fail(net, name)] + ["poll %s %s" % (net.name, name)] * self.random.randint(0, 2)


class WideMaker(DocumentMaker):
    """Further switches, most of them beside all promises, so that many may change at once; firmware is what most rows are of."""

    def applications(self):
        return ["up", "te", "mitigate-1"][:self.pick((0, 1, 1, 2, 2, 3))]

    def group_lines(self, net):
        lines = super().group_lines(net)
        further = ["w%d" % number for number in range(1, 1 + self.pick((0, 6, 14, 15, 16, 17, 18, 24, 33)))]
        declared = net.devices()
        for name in further:
            lines.append("device %s switch" % name)
            if declared and self.chance(0.1):
                net.links.append("l%d" % (len(net.links) + 1))
                lines.append("link %s %s %s %d" % (net.links[-1], self.pick(declared), name, self.pick(CAPACITIES)))
            if self.chance(0.15):
                lines.append("open %s.firmware=%d" % (name, self.random.randint(1, 3)))
            if self.has_open_values and self.chance(0.06):
                lines.append("open %s.power=0" % name)
            if self.has_healths and self.chance(0.08):
                lines.append("health %s %d" % (name, self.random.randint(0, 4)))
        net.switches += further
        return lines

    def command_lines(self, nets):
        return [self.command(self.pick(nets)) for _ in range(self.random.randint(0, 20))]

    def command(self, net):
        if not net.devices():
            return "await %s" % net.name
        word = self.random.choices(("propose", "await", "settle", "lock", "other"), (10, 3, 5, 2, 2))[0]
        if word == "propose":
            return self.propose(net)
        if word == "await":
            return "await %s" % net.name
        if word == "settle":
            return "settle %s %d" % (net.name, self.pick((1, 1, 2)))
        if word == "lock":
            return "lock %s %s %s" % (net.name, self.pick(net.devices()), self.pick(("low", "low", "high")))
        return super().command(net)

    def propose(self, net):
        """Up to 16 rows, of one variable for each device or of several."""
        variables = self.pick((("firmware",), ("firmware",), ("firmware", "config"), ("firmware", "config", "power", "routing")))
        names = [name for name in net.switches if name.startswith("w")] if self.chance(0.6) else []
        pairs = [(name, variable) for name in names or net.devices() for variable in variables]
        some = self.random.sample(pairs, min(len(pairs), self.pick((1, 2, 4, 8, 14, 15, 16, 16))))
        return "propose %s %s" % (net.name, " ".join("%s.%s=%d" % (*pair, self.value(pair[1])) for pair in some))
