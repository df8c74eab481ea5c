"""Documents at the limits of docs/FORMATS.md, and one past each, and small ones that chance seldom makes. Each has a name."""

NETWORK = (
    "group dc1", "device t1 tor", "device t2 tor", "device a1 switch", "device a2 switch",
    "link l1 t1 a1 10", "link l2 t1 a2 10", "link l3 t2 a1 10", "link l4 t2 a2 10", "promise t1 t2 50",
)


def text_of(*lines):
    return "".join(line + "\n" for line in ("statesman 1",) + lines).encode()


def edge_documents():
    """Pairs of a name and a text."""
    yield "nothing", b""
    yield "one LF", b"\n"
    yield "a CR alone", b"\r"
    yield "notes alone", b"# a\n\n\t\n"
    yield "a note without LF", b"# a"
    yield "header without LF", b"statesman 1"
    yield "header between blanks", b"\t statesman \t 1 \r\n"
    yield "header and no group", text_of()
    yield "header with a further token", b"statesman 1 1\n"
    yield "a bad byte before the header", b"\n\x80\nstatesman 1\n"
    yield "a bad byte in a note", b"# \x7f\nstatesman 1\n"
    yield "CR inside a line", b"statesman\r1\n"
    yield "two CR at a line's end", b"statesman 1\r\r\n"
    yield "an application and no group", text_of("app up")
    yield "order without applications", text_of("order up")
    yield "a wire line without groups", text_of("drop dc1 command 1")
    yield "a group without devices", text_of("group g", "app a", "await g", "settle g 64", "order a a a")
    for line in ("hold dc1 report 2 2", "hold dc1 report 2 3", "repeat dc1 report 2 2", "repeat dc1 report 2 1", "drop dc1 report 0",
                 "open a1.power=0", "health a1 4", "health l1 2", "link l5 t1 dc2/t1 5", "link l5 t1 dc1/a1 5", "link l5 t1 t1 5",
                 "promise t2 t1 5", "promise t1 a1 5", "promise t1 t1 5"):
        yield line, text_of(*NETWORK, line)
        yield line + ", twice", text_of(*NETWORK, line, line)
    yield "a busy report of a device that is switched off", text_of(
        *NETWORK[:9], "hold dc1 command 1 2", "app up", "propose dc1 a1.power=0 a2.firmware=2", "await dc1", "settle dc1 1", "poll dc1 a1", "settle dc1 2")
    yield "a journal that takes back what can be set", text_of(
        *NETWORK, "app up", "journal dc1", "1 submit up a1.firmware=2 : queued 1", "2 check : receipt 1 accepted 1", "3 withdraw a1 : kept")
    for count in (16, 17):
        yield "%d groups" % count, text_of(*("group g%d" % number for number in range(count)))
    for count in (32, 33):
        yield "%d applications" % count, text_of(*("app a%d" % number for number in range(count)))
    for count in (1024, 1025):
        yield "%d commands" % count, text_of(*NETWORK, "app up", *["read dc1 a1.power"] * count)
        yield "%d wire lines" % count, text_of(*NETWORK, *["drop dc1 command 3"] * count, "app up", "poll dc1 a1")
    for count in (512, 513):
        yield "%d devices" % count, text_of("group g", *("device d%d switch" % number for number in range(count)))
    for count in (64, 65):
        yield "%d ToRs" % count, text_of("group g", *("device d%d tor" % number for number in range(count)))
    for count in (4096, 4097):
        links = ("link l%d d1 d2 1000000" % number for number in range(count))
        yield "%d links" % count, text_of("group g", "device d1 tor", "device d2 tor", *links, "promise d1 d2 100")
    tors = ["d%d" % number for number in range(64)]
    pairs = ["promise %s %s 0" % (first, second) for place, first in enumerate(tors) for second in tors[:place]]
    yield "2016 promises", text_of("group g", *("device %s tor" % tor for tor in tors), *pairs)
    rows = ["%s.%s=1" % (name, word) for name in ("t1", "t2", "a1", "a2") for word in ("power", "firmware", "config", "routing")]
    for last in ("l1.power=1", "l1.power=2", "t1.power=1", "t9.power=1", "l1.firmware=1", "l1.iface=x"):
        yield "16 rows, then %s" % last, text_of(*NETWORK, "app up", "propose dc1 " + " ".join(rows + [last]))
    yield "16 rows", text_of(*NETWORK, "app up", "propose dc1 " + " ".join(rows), "settle dc1 1")
    for count in (64, 65, 66, 129):
        lines = ["propose dc1 a1.config=%d" % number for number in range(count)]
        yield "%d proposals at once" % count, text_of(*NETWORK, "app up", *lines, "settle dc1 2")
    for count in (1048576, 1048577):
        head = text_of(*NETWORK)
        yield "%d bytes" % count, head + b"#" * (count - len(head) - 1) + b"\n"
    yield "a journal of almost 200000 entries", full_journal(195)
    yield "a journal of exactly 200000 entries", full_journal(195, 151)
    yield "a journal that one poll meets full", full_journal(195, 152)
    yield "a full journal", full_journal(400)
    yield "a full journal, and two applications", full_journal(400) + b"app te\npropose dc1 t1.firmware=2\nawait dc1\nsettle dc1 1\n"
    yield "two applications that fill a journal", full_journal(200) + b"app te\n" + b"settle dc1 64\n" * 200
    yield "a full journal in the second group", full_journal(400).replace(b"group dc1", b"group g0\ngroup dc1", 1)


def full_journal(settles, polls=0):
    """Each `settle` enters 64 rounds of 4 turns with 4 entries each: the proposal changes all devices, and they can't take anything.

    Before them stand the proposal, its check, 4 failures and 4 polls; a poll enters 2 entries. The first round withdraws the 4
    changes. So 195 leave room for 151 polls.
    """
    devices = ("t1", "t2", "a1", "a2")
    return text_of(
        *NETWORK[:5], "app up", "propose dc1 %s" % " ".join(device + ".config=2" for device in devices), "await dc1",
        *("fail dc1 %s 0" % device for device in devices), *("poll dc1 %s" % device for device in devices),
        *["settle dc1 64"] * settles, *["poll dc1 t1"] * polls)
