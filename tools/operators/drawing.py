"""Draws a group in Graphviz's DOT: a document as it opens, or a printed run as an entry leaves it. The program goes through the run up to
that entry and says what is unsettled and what the target is; nothing is judged here."""

from operators.asking import BadInput, answer_of, shown
from operators.documents import read_document
from operators.reports import read_report
from operators.runs import Messages, holders_after, journals_of
from operators.sentences import sentence, side_of
from operators.texts import did_you_mean, worded_lines


class State:
    """What is shown of a group: a few words for each entity, and what is unsettled, in the least side of a refusal or asked for."""

    def __init__(self):
        self.words, self.unsettled, self.side, self.asked, self.title = {}, [], [], [], ""

    def say(self, entity, text):
        self.words.setdefault(entity, []).append(text)


def drawings(options, data):
    """The lines of a graph for each group."""
    is_run = any(words[0] == "journal" for _, words in worded_lines(data))
    answer_of(options.program, ["replay" if is_run else "check"], options.file, data)
    if options.entry is not None and not is_run:
        raise BadInput("%s: has no journal, and so no entry %d" % (shown(options.file), options.entry))
    document = read_document(data)
    if options.group and options.group not in document.groups:
        raise BadInput("%s: no group '%s'%s" % (shown(options.file), options.group, did_you_mean(options.group, document.groups)))
    if options.entry is not None and options.group is None and len(document.groups) > 1:
        raise BadInput("%s: --entry is of one group, so name it by --group: %s" % (shown(options.file), ", ".join(document.groups)))
    for group in document.groups.values():
        if options.group in (None, group.name):
            yield from lines_of_group(group, state_behind(options, data, group) if is_run else opening_of(group))


def opening_of(group):
    state = State()
    for (entity, variable), value in group.opened.items():
        state.say(entity, "opens with %s = %d" % (variable, value))
    for entity, health in group.health.items():
        state.say(entity, "health %s" % health)
    return state


def state_behind(options, data, group):
    """How a group stands behind an entry of its journal."""
    entries = journals_of(options.file, data)[group.name]
    number = len(entries) if options.entry is None else options.entry
    if not 0 <= number <= len(entries):
        raise BadInput("%s: no entry %d: the journal of group %s has %d" % (shown(options.file), number, group.name, len(entries)))
    state, entries = opening_of(group), entries[:number]
    state.title = title_of(entries, state)
    report = read_report("the report", answer_of(options.program, ["replay"], options.file, cut_behind(data, group.name, number)))
    told = next(each for each in report["groups"] if each["name"] == group.name)
    for row in told["targets"]:
        entity, _, what = row.partition(".")
        state.say(entity, "target %s" % what.replace("=", " = "))
    for entity in told["unsettled"]:
        state.say(entity, "unsettled")
    for (entity, priority), application in holders_after(entries).items():
        state.say(entity, "%s lock: %s" % (priority, application))
    state.unsettled = told["unsettled"]
    if told["promises"]:
        state.title += "\npromises that hold in the network: %d of %d" % (told["now"], told["promises"])
    return state


def title_of(entries, state):
    """The last entry as a sentence; of a refusal for a promise the side is kept, and of a decided proposal its entities."""
    if not entries:
        return "before the first entry"
    messages = Messages()
    for entry in entries:
        messages.take(entry)
    last = entries[-1]
    if last.event[0] == "check" and last.reply[0] == "receipt":
        state.asked = [row.partition(".")[0] for row in messages.proposals[last.reply[1]][2:]]
        state.side = side_of(last.reply[3:]) if last.reply[2] == "refused" else []
    return "entry %d: %s" % (last.number, sentence(last, messages))


def cut_behind(data, name, number):
    """The lines of a printed run up to an entry of a group; those of the other journals behind it are left out."""
    group, kept = None, 0
    for line, words in worded_lines(data):
        if words[0] == "journal":
            group = words[1]
        if group is None or (group == name and (words[0] == "journal" or int(words[0]) <= number)):
            kept = line
        elif group == name:
            break
    return b"".join(line + b"\n" for line in data.split(b"\n")[:kept])


def lines_of_group(group, state):
    yield "graph %s {" % quoted(group.name)
    yield "  node [shape=box];"
    if state.title:
        yield "  label=%s;" % quoted(state.title)
    for promise in group.promises:
        yield "  // promise %s %s %s" % (*promise.ends, promise.percentage)
    for name, kind in group.devices.items():
        yield "  %s [%s];" % (quoted(name), ", ".join(["role=" + kind, *looks(state, name, label_of(state, name), kind == "tor")]))
    for name, link in group.links.items():
        known = ["name=" + quoted(name), "capacity=" + link.capacity]
        text = "\n".join(["%s, %s" % (name, link.capacity), *state.words.get(name, [])])
        yield "  %s -- %s [%s];" % (quoted(link.ends[0]), quoted(link.ends[1]), ", ".join([*known, *looks(state, name, text, False)]))
    yield "}"


def label_of(state, name):
    return "\n".join([name, *state.words.get(name, [])])


def looks(state, name, text, is_tor):
    """How an entity is drawn: thick where it is a ToR, dashed while it is unsettled, grey in the side of a refusal, red where it was asked for."""
    yield "label=" + quoted(text)
    styles = ["dashed"] if name in state.unsettled else []
    if name in state.side:
        styles.append("filled")
        yield "fillcolor=lightgrey"
    if styles:
        yield "style=" + quoted(",".join(styles))
    if is_tor:
        yield "penwidth=2"
    if name in state.asked:
        yield "color=red"


def quoted(text):
    return '"%s"' % text.replace("\\", "\\\\").replace('"', '\\"').replace("\n", "\\n")
