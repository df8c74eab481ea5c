"""Breaks one line of a document, or two, in the ways in which a writer might; some of what comes out is free of faults all the same."""

ODD_TOKENS = (
    "0", "1", "2", "6", "64", "65", "100", "101", "007", "00", "-1", "+1", "1.", "1000000", "1000001", "4294967295",
    "4294967296", "9999999999", "42949672950", "18446744073709551617", "1e3",
    "a", "t1", "a1", "l1", "t9", "dc1", "dc9", "up", "te", "x" * 32, "x" * 33, "1a", "_a", "-a", "a_", "a-", "a.b", "a#b", "T1",
    "dc1/t1", "dc1/t9", "dc9/t1", "dc2/t1", "/t1", "dc1/", "dc1/1a", "1a/t1", "dc1/t1/t1", "/", "a1/a1",
    "tor", "switch", "Tor", "command", "report", "reports", "low", "high", "LOW",
    "a1.firmware=2", "a1.power=2", "a1.power=0", "a1.routing=4294967296", "a1.firmware=4294967296", "a1.firmware=", "a1.firmware",
    "a1.=1", "a1=3", "a1", ".firmware=2", "a1.firmware=2=3", "a1.config=01", "a1.iface=1", "l1.iface=7", "l1.firmware=1", "l1.power=3",
    "t9.power=1", "1a.power=1", "a1.a1.power=1", "a1.Power=1", "a1.power", "l1.iface", "a1.power=-1", "a1.power =1", "l1.routing",
    "power=1", "power=2", "firmware=9", "iface=1", "firmware=", "=1", "power", "config=4294967296", "routing=1",
    "#", "#x", "=", ".", "statesman",
)

ODD_LINES = (
    "statesman 1", "statesman 2", "statesman", "STATESMAN 1", "group dc1", "group dc9", "group", "device t1 tor", "device z9 switch",
    "link z8 t1 t2 5", "link z7 t1 t1 5", "link z6 a1 t1 0", "promise t1 t2 50", "promise t2 t1 10", "promise t1 a1 5", "promise t1 t1 5",
    "open a1.firmware=7", "open a1.power=0", "health a1 4", "health l1 1", "health a1 6", "health l1 2",
    "drop dc1 command 1", "repeat dc1 report 2 1", "repeat dc1 report 2 2", "hold dc1 report 2 2", "hold dc1 command 4294967295 1",
    "app up", "app zz", "app", "await dc1", "settle dc1 0", "settle dc1 64", "settle dc1 65", "poll dc1 t1", "read dc1 t1.power",
    "readat dc1 0 t1.power", "fail dc1 t1 5", "fail dc1 t1 5 power=1 power=1", "fail dc1 l1 2", "fail dc1 a1 0 firmware=2 iface=1",
    "lock dc1 t1 low", "unlock dc1 t1 high", "order up", "order zz", "order", "propose dc1", "# group dc1", "#", "", "group dc1 # more",
    "propose dc1 " + " ".join(["t1.power=1"] * 17),
    "propose dc1 t1.power=1 t1.firmware=1 t1.config=1 t1.routing=1 t2.power=1 t2.firmware=1 t2.config=1 t2.routing=1 "
    "a1.power=1 a1.firmware=1 a1.config=1 a1.routing=1 a2.power=1 a2.firmware=1 a2.config=1 a2.routing=1 l1.power=1",
    "propose dc1 t1.power=1 t1.firmware=1 t1.config=1 t1.routing=1 t2.power=1 t2.firmware=1 t2.config=1 t2.routing=1 "
    "a1.power=1 a1.firmware=1 a1.config=1 a1.routing=1 a2.power=1 a2.firmware=1 a2.config=1 a2.routing=1 l1.power=2",
)

IN_GROUP = ("device", "link", "open", "health", "drop", "repeat", "hold")

ODD_CHARACTERS = "\x00\x01\x07\x0b\x0c\r\x1f\x7f\x80\xff\xe9\t ~!#=./-"


def broken(random, lines):
    """The lines with one of them broken; one time in eight with two."""
    lines = list(lines)
    for _ in range(1 if random.random() < 0.875 else 2):
        lines = random.choices(WAYS, WEIGHTS)[0](random, lines)
    return lines


def place_of(random, lines):
    return random.randrange(len(lines)) if lines else 0


def with_line(lines, place, line):
    return lines[:place] + [line] + lines[place + 1:]


def other_token(random, lines):
    place = place_of(random, lines)
    tokens = lines[place].split()
    if not tokens:
        return lines
    tokens[random.randrange(len(tokens))] = random.choice(ODD_TOKENS)
    return with_line(lines, place, " ".join(tokens))


def token_of_another_line(random, lines):
    place = place_of(random, lines)
    tokens, others = lines[place].split(), random.choice(lines).split()
    if not tokens or not others:
        return lines
    tokens[random.randrange(len(tokens))] = random.choice(others)
    return with_line(lines, place, " ".join(tokens))


def changed_character(random, lines):
    place = place_of(random, lines)
    line = lines[place]
    at = random.randint(0, len(line))
    drop = random.randint(0, 1)
    odd = random.choice(ODD_CHARACTERS + "aA1_") if random.random() < 0.8 else ""
    return with_line(lines, place, line[:at] + odd + line[at + drop:])


def fewer_tokens(random, lines):
    place = place_of(random, lines)
    tokens = lines[place].split()
    if tokens:
        del tokens[random.randrange(len(tokens))]
    return with_line(lines, place, " ".join(tokens))


def more_tokens(random, lines):
    place = place_of(random, lines)
    tokens = lines[place].split()
    further = random.choice(ODD_TOKENS + tuple(tokens))
    tokens.insert(random.randint(0, len(tokens)), further)
    return with_line(lines, place, " ".join(tokens))


def swapped_tokens(random, lines):
    place = place_of(random, lines)
    tokens = lines[place].split()
    if len(tokens) > 2:
        first, second = random.sample(range(1, len(tokens)), 2)
        tokens[first], tokens[second] = tokens[second], tokens[first]
    return with_line(lines, place, " ".join(tokens))


def line_again(random, lines):
    place = place_of(random, lines)
    again = random.randint(0, len(lines))
    return lines[:again] + [lines[place]] + lines[again:]


def line_left_out(random, lines):
    place = place_of(random, lines)
    return lines[:place] + lines[place + 1:]


def line_moved(random, lines):
    place = place_of(random, lines)
    rest = lines[:place] + lines[place + 1:]
    there = random.randint(0, len(rest))
    return rest[:there] + [lines[place]] + rest[there:]


def odd_line(random, lines):
    """A line of the list: mostly behind a line with the same first word, or where there is none behind one with which it might stand."""
    odd = random.choice(ODD_LINES)
    first = odd.split()[:1]
    alike = [place for place, line in enumerate(lines, 1) if line.split()[:1] == first]
    if first and first[0] in IN_GROUP and not alike:
        alike = [place for place, line in enumerate(lines, 1) if line.split()[:1] == ["promise"]]
    place = random.choice(alike) if alike and random.random() < 0.85 else random.randint(0, len(lines))
    return lines[:place] + [odd] + lines[place:]


def same_name_again(random, lines):
    """A name of a line in the place of another of that line, or with a group before it: loops, bad pairs, foreign ends."""
    places = [place for place, line in enumerate(lines) if line.split()[:1] and line.split()[0] in ("link", "promise")]
    if not places:
        return lines
    place = random.choice(places)
    tokens = lines[place].split()
    ends = (2, 3) if tokens[0] == "link" else (1, 2)
    if len(tokens) <= ends[1]:
        return lines
    near, far = random.sample(ends, 2)
    way = random.randrange(4)
    if way == 0:
        tokens[far] = tokens[near]
    elif way == 1:
        tokens[near] = random.choice(("dc1/", "dc2/", "dc9/", "1a/")) + tokens[near]
    elif way == 2:
        tokens[near] = random.choice(("a1", "t1", "t2", "l1"))
    else:
        return lines[:place + 1] + [" ".join(tokens[:ends[0]] + [tokens[ends[1]], tokens[ends[0]]] + tokens[ends[1] + 1:])] + lines[place + 1:]
    return with_line(lines, place, " ".join(tokens))


def number_at_its_end(random, lines):
    """Another number in the place of one: about the ends of the ranges."""
    places = [(place, at) for place, line in enumerate(lines) for at, token in enumerate(line.split()) if token.isdigit()]
    if not places:
        return lines
    place, at = random.choice(places)
    tokens = lines[place].split()
    number = int(tokens[at])
    tokens[at] = str(random.choice((0, number - 1, number + 1, 1, 2, 5, 6, 64, 65, 100, 101, 1000000, 1000001, "00", "01", 1 << 32)))
    return with_line(lines, place, " ".join(tokens))


def commands_to_the_limit(random, lines):
    """So many of a line that the limit of commands or of wire lines is met, or is almost met."""
    places = [place for place, line in enumerate(lines) if line.split()[:1] and line.split()[0] in ("await", "drop", "read", "group", "app")]
    if not places:
        return lines
    place = random.choice(places)
    tokens = lines[place].split()
    if tokens[0] in ("group", "app"):
        count = random.choice((14, 15, 16, 17, 28, 29, 30, 31, 32))
        return lines[:place] + ["%s n%d" % (tokens[0], number) for number in range(count)] + lines[place:]
    count = random.choice((1000, 1010, 1020, 1023, 1024, 1025))
    return lines[:place] + [lines[place]] * count + lines[place + 1:]


def cut_short(random, lines):
    return lines[:random.randint(0, len(lines))] if random.random() < 0.3 else lines


WAYS = (other_token, token_of_another_line, changed_character, fewer_tokens, more_tokens, swapped_tokens, line_again,
        line_left_out, line_moved, odd_line, cut_short, same_name_again, number_at_its_end, commands_to_the_limit)
WEIGHTS = (16, 6, 6, 4, 4, 4, 4, 4, 4, 14, 2, 8, 6, 1)


def bytes_of(random, lines):
    """The text of the lines; now and then its last LF is left out, or a line end is a CR alone."""
    text = "".join(line + "\n" for line in lines)
    if random.random() < 0.05:
        text = text[:-1]
    if random.random() < 0.02:
        text = text.replace("\n", "\r\n")
    if random.random() < 0.01:
        text += random.choice(("\r", " ", "#", "\t\r", "\r\r", "\x80"))
    return text.encode("latin-1")
