#!/usr/bin/env python3
"""Opens a page of the journal player in a headless Chromium, and tries it by its keys.

    python3 tools/check_player.py run.html [--pictures FOLDER] [--size 1280x800]

It needs Debian's package `chromium` and nothing else. Each line says what was tried. The status is 0 where all of it is well. With --pictures it
leaves a picture of the page as it opens, and one of the first refusal, in light and in dark. What a page should show at an entry is found here
from the page's data, and not asked of the page's script.
"""

import argparse
import json
import pathlib
import re
import sys

from browser import Browser

MOST_STEPS = 400
MOST_REFUSALS = 2000
MOST_TOLD = 6
MOST_KNOWN = 40
FIELDS = ("untold", "known", "low", "high", "is", "told", "health", "target", "seen", "stamp")

# Whether a box lies outside of the picture, or upon another.
OVERLAP = """() => {
  const boxes = [...document.querySelectorAll("#net .box")].map(box => box.getBoundingClientRect());
  const room = document.getElementById("net").getBoundingClientRect();
  const isOutside = x => x.left < room.left || x.right > room.right || x.top < room.top || x.bottom > room.bottom;
  const areUpon = (x, y) => x.left < y.right && y.left < x.right && x.top < y.bottom && y.top < x.bottom;
  return boxes.some((x, i) => isOutside(x) || boxes.some((y, k) => k < i && areUpon(x, y)));
}"""

# Steps, each with the layout that it asks for.
STEPS = """count => {
  for (let i = 0; i < count; i++) { go(group.first + i * 7 % (group.last - group.first + 1)); document.body.getBoundingClientRect(); }
}"""

# How many of each kind are drawn and can be seen.
COUNTS = 'kinds => kinds.map(kind => [...document.querySelectorAll("#net " + kind)].filter(node => node.getClientRects().length).length)'

# How the parts of a picture look, each look once: fills, frames, lines, what lies around them, and marks.
LOOKS = """place => {
  const looks = new Set();
  const take = (kind, selector, ...keys) => {
    for (const node of document.querySelectorAll(`${place} ${selector}`)) {
      const style = getComputedStyle(node), look = keys.map(key => style[key]);
      if (look[0] !== "none" && node.getClientRects().length) looks.add([kind, ...look].join(" "));
    }
  };
  take("fill", ".box", "fill");
  take("frame", ".box", "stroke", "strokeDasharray");
  take("line", ".link", "stroke", "strokeDasharray");
  take("around", ".halo, .band", "stroke", "strokeDasharray");
  take("shade", ".shade", "fill");
  take("mark", ".badge circle", "fill", "stroke");
  for (const node of document.querySelectorAll(`${place} :is(.badge text, .sign)`)) if (node.textContent && node.getClientRects().length) looks.add("sign " + node.textContent);
  return [...looks];
}"""

# How many failed links of a cut are drawn in the colour of what is lost.
RED_LINKS = """() => {
  const probe = document.body.appendChild(document.createElement("i"));
  probe.style.color = "var(--lost)";
  const red = getComputedStyle(probe).color;
  probe.remove();
  return [...document.querySelectorAll("#net .link.failed.out")].filter(link => getComputedStyle(link).stroke === red).length;
}"""

# The lowest contrast of a text that can be seen with what lies behind it, and that text.
CONTRAST = """() => {
  const canvas = document.createElement("canvas").getContext("2d", { willReadFrequently: true });
  const rgba = text => { canvas.clearRect(0, 0, 1, 1); canvas.fillStyle = text; canvas.fillRect(0, 0, 1, 1); return [...canvas.getImageData(0, 0, 1, 1).data]; };
  const light = ([r, g, b]) => {
    const [x, y, z] = [r, g, b].map(v => v / 255).map(v => v <= .03928 ? v / 12.92 : ((v + .055) / 1.055) ** 2.4);
    return .2126 * x + .7152 * y + .0722 * z;
  };
  const ground = node => {
    for (; node; node = node.parentElement) { const color = rgba(getComputedStyle(node).backgroundColor); if (color[3] === 255) return color; }
    return [255, 255, 255, 255];
  };
  const fill = (holder, kind, part) => { const owner = holder.closest(kind); return owner && rgba(getComputedStyle(owner.querySelector(part)).fill); };
  const found = [];
  const take = (text, ink, behind) => { const [x, y] = [light(rgba(ink)), light(behind)]; found.push([(Math.max(x, y) + .05) / (Math.min(x, y) + .05), text.trim().slice(0, 40)]); };
  const walk = document.createTreeWalker(document.body, NodeFilter.SHOW_TEXT);
  for (let node = walk.nextNode(); node; node = walk.nextNode()) {
    const holder = node.parentElement, style = getComputedStyle(holder);
    if (!node.textContent.trim() || !holder.getClientRects().length || style.visibility === "hidden" || holder.closest("script, title, option, .bar")) continue;
    if (!(holder instanceof SVGElement)) take(node.textContent, style.color, ground(holder));
    else take(node.textContent, style.fill, fill(holder, ".badge", "circle") || fill(holder, ".device", ".box") || ground(holder.closest("section, aside, footer")));
  }
  return found.sort((x, y) => x[0] - y[0])[0];
}"""

# What can be reached by a key and has no name.
NAMELESS = """() => [...document.querySelectorAll("button, select, input, summary, [tabindex], svg[role]")].filter(node => node.getClientRects().length
  && !(node.textContent.trim() || node.title || node.getAttribute("aria-label") || node.getAttribute("aria-labelledby"))).length"""

# Sets the list of entries to a kind and an entity, and says how many it counts.
FILTER = """(kind, entity) => {
  const set = (id, value, event) => { const node = document.getElementById(id); if (!node) return; node.value = value; node.dispatchEvent(new Event(event)); };
  set("want-kind", kind, "change");
  set("want-entity", entity, "input");
  (document.getElementById("rows") || document.body).focus();
  return ((document.getElementById("counted") || {}).textContent || "").split(" ")[0];
}"""

# The parts of a printed page that lie upon one another.
UPON_ANOTHER = """() => {
  const parts = ["sentence", "line", "net", "legend", "more", "panel-now", "panel-receipts", "panel-promises", "lanes"];
  const boxes = parts.map(id => document.getElementById(id).getBoundingClientRect());
  const areUpon = (x, y) => x.width && y.width && x.left < y.right - 1 && y.left < x.right - 1 && x.top < y.bottom - 1 && y.top < x.bottom - 1;
  return boxes.flatMap((x, i) => boxes.flatMap((y, k) => k < i && areUpon(x, y) ? [parts[k] + " " + parts[i]] : []));
}"""

# How the page stands: its colouring, and where each device and link is drawn in which look.
STANDS = """() => [document.documentElement.className, document.documentElement.dataset.theme, document.getElementById("legend").open,
  ...[...document.querySelectorAll("#net :is(.device, .link)")].map(node => [node.getAttribute("transform"), node.getAttribute("d"), node.getAttribute("class")].join(" ")).sort()].join()"""

# Whether a line beside the picture or in the head is cut in a narrow window.
CUT_LINES = """() => document.documentElement.scrollWidth > innerWidth
  || [...document.querySelectorAll("#numbers, #said, #said *")].some(node => getComputedStyle(node).display !== "inline" && (node.scrollWidth > node.clientWidth + 1 || node.scrollHeight > node.clientHeight + 1))"""

# What the browser says to a page that would fetch something: the rule that forbids it, or nothing.
FETCH = """() => new Promise(tell => {
  addEventListener("securitypolicyviolation", event => tell(event.effectiveDirective), { once: true });
  setTimeout(() => tell(""), 1000);
  new Image().src = "https://localhost:9/picture.png";
})"""


class Group:
    """A group of the page's data."""

    def __init__(self, data):
        self.name, self.first, self.total = data["name"], data["first"], data["total"]
        self.devices, self.links, self.promises, self.entries = data["devices"], data["links"], data["promises"], data["entries"]
        self.opening = data["opening"]
        self.names = [part["name"] for part in self.devices + self.links]
        self.last = self.first + len(self.entries)

    def opened(self):
        """Each entity's state before the first entry, of the keys that are looked at here."""
        return [{key: self.opening["states"][kind].get(key) for key in FIELDS} for kind in self.opening["of"]]

    def gone_through(self):
        """Each entry with its number, and the states behind it."""
        states = self.opened()
        for number, entry in enumerate(self.entries, self.first + 1):
            for change in entry.get("set", []):
                states[change["entity"]].update((key, change[key]) for key in FIELDS if key in change)
            yield number, entry, states

    def failures(self, entity, number):
        """The entries up to a number in which an entity failed."""
        return [n for n, entry in enumerate(self.entries[:number - self.first], self.first + 1) if words(entry)[:2] == ["fail", self.names[entity]]]

    def failure_told(self, entity, number):
        """The entry of the failure that a report tells of which was made at an entry: the newest failure before it, also before the page."""
        before = [cause["entry"] for cause in self.causes("failed", entity)]
        return max((n for n in before + self.failures(entity, self.last) if n < number), default=None)

    def causes(self, key, entity):
        return [cause for cause in self.opening.get("causes", {}).get(key, []) if cause["entity"] == entity]

    def whole(self, entity):
        return 5 if entity < len(self.devices) else 1

    def about(self, entity):
        """The entries that are about an entity, or after which its state is another."""
        return {number for number, entry in enumerate(self.entries, self.first + 1)
                if entity in entry.get("on", []) or any(change["entity"] == entity for change in entry.get("set", []))}


def words(entry):
    return entry["line"].split(" ")


def reasons(told, name):
    """What stands in brackets behind a name."""
    return told.partition(name + " (")[2].partition(")")[0]


def is_late(state):
    return state["is"] != "up" and state["known"] in ("waiting", "blocked")


class Trial:
    """What was tried on a page."""

    def __init__(self, browser):
        self.browser, self.bad, self.drawn, self.apps = browser, 0, set(), []

    def want(self, name, test):
        print("%s %s" % ("ok  " if test else "BAD ", name))
        self.bad += not test

    # What holds of a group.

    def group(self, place, group):
        self.browser.key(str(place + 1) if place < 9 else "]")
        shown = self.browser.value('(document.querySelector("#groups [aria-selected=true], #groups option:checked") || {}).textContent')
        self.want("%s: its tab, or its line in the list of groups" % group.name, shown == group.name)
        self.drawing(group)
        self.browser.key("End")
        is_last = not group.entries or self.browser.text("line") == "%d %s" % (group.last, group.entries[-1]["line"])
        self.want("%s: the last entry" % group.name, self.browser.value("+slide.value") == group.last and is_last)
        is_told = self.browser.value('!document.getElementById("notice").hidden')
        self.want("%s: what is left out is told" % group.name, is_told == (group.total != len(group.entries)))
        self.steps(group)
        self.known(group)
        if group.first:
            self.begun(group)
        self.refusals(group)
        self.list(group)
        self.marks(group)

    def drawing(self, group):
        browser = self.browser
        drawn = browser.value('[...document.querySelectorAll("#net .device title, #net .reach title")].map(t => t.textContent.split(":")[0])')
        self.want("%s: each device and link is drawn once" % group.name, sorted(drawn) == sorted(group.names))
        self.want("%s: all boxes lie in the picture, none upon another" % group.name, not browser.called(OVERLAP))
        labels = browser.value('[...document.querySelectorAll("#net .name")].map(t => t.textContent)')
        self.want("%s: no two names look equal" % group.name, len(set(labels)) == len(group.devices))

    def steps(self, group):
        browser, name = self.browser, group.name
        browser.key("Home")
        lines, sentences, are_marked = [], [], self.are_marked(group, group.opened())
        for number, entry, states in group.gone_through():
            if len(lines) == MOST_STEPS:
                break
            browser.key("ArrowRight")
            lines.append((browser.text("line"), "%d %s" % (number, entry["line"])))
            are_marked = self.are_marked(group, states) and are_marked
            if words(entry)[0] == "fail" and words(entry)[2] == "0":
                sentences.append(browser.text("sentence"))
        self.want("%s: each entry once, in order" % name, all(told == wanted for told, wanted in lines))
        self.want("%s: a lock, a change that is not told, a target that is not reached has its mark, on links too" % name, are_marked)
        self.want("%s: who fails is said to fail" % name, all("fail" in sentence and "of itself: health" not in sentence for sentence in sentences))
        self.legend(group)

    def are_marked(self, group, states):
        """Whether as many marks are drawn as entities have them: on devices, and on links."""
        self.drawn.update(self.browser.called(LOOKS, "#net"))
        tests = (lambda state: state["low"] is not None or state["high"] is not None, lambda state: state["untold"], lambda state: state["known"] == "blocked")
        parts = states[:len(group.devices)], states[len(group.devices):]
        wanted = [sum(test(state) for state in part) for part in parts for test in tests] + [sum(is_late(state) for state in parts[1])]
        kinds = ["%s .badge.%s" % (place, kind) for place in (".device", ".marks") for kind in ("lock", "untold", "stuck")]
        return self.browser.called(COUNTS, kinds + [".band:is(.waiting, .blocked)"]) == wanted

    def legend(self, group):
        """Each look of what was drawn stands in the legend, also of what is chosen."""
        browser = self.browser
        for entity in (0, len(group.names) - 1) if group.names else ():
            browser.value("choose(%d)" % entity)
            self.drawn.update(browser.called(LOOKS, "#net"))
        browser.key("Escape")
        self.want("%s: the legend has all that is drawn" % group.name, self.drawn <= set(browser.called(LOOKS, "#legend")))

    def refusals(self, group):
        self.browser.key("Home")
        for number, entry, states in group.gone_through():
            if "refused" in entry and number <= MOST_REFUSALS:
                self.browser.key("f")
                self.refusal(group, number, entry, states)

    def refusal(self, group, number, entry, states):
        browser, refused, name = self.browser, entry["refused"], group.name
        is_good = browser.text("line").startswith("%d " % number) and "is refused" in browser.text("sentence")
        self.want("%s: the refusal at %d" % (name, number), is_good and ("promise" not in refused or self.is_cut(refused)))
        self.want("%s: who would change and who bars it are framed at %d" % (name, number), self.are_framed(group, entry, refused))
        self.drawn.update(browser.called(LOOKS, "#net"))
        if "promise" not in refused:
            return
        self.want("%s: why what is gone does not count is told at %d" % (name, number), self.are_explained(group, refused, states, number))
        failed = [link for link in refused["out"] if states[len(group.devices) + link]["is"] == "failed"]
        self.want("%s: a failed link in the cut is red at %d" % (name, number), browser.called(RED_LINKS) == len(failed))
        if refused["need"] == 0:
            self.want("%s: what 0 percent promise is told at %d" % (name, number), "a way" in browser.text("sentence"))

    def is_cut(self, refused):
        counts = self.browser.called(COUNTS, [".shade", ".link.left", ".link.out"])
        is_told = "need %d, left %d" % (refused["need"], refused["has"]) in self.browser.text("more")
        return is_told and counts == [len(refused[refused["part"]]), len(refused["left"]), len(refused["out"])]

    def are_framed(self, group, entry, refused):
        devices = len(group.devices)
        asked = refused["changes"] if "promise" in refused else entry.get("on", [])
        bars = group.promises[refused["promise"]]["ends"] if "promise" in refused else [refused["of"]]
        wanted = [sum((e < devices) == is_device for e in part) for part in (asked, bars) for is_device in (True, False)]
        return self.browser.called(COUNTS, [".halo.asked", ".band.asked", ".halo.pair", ".band.pair"]) == wanted

    def are_explained(self, group, refused, states, number):
        """Whether each of what is gone has its reason: of what is known to have failed, the entry of the failure that its known report tells."""
        told, gone = self.browser.text("why"), refused["gone"][:MOST_TOLD]
        return all("%s (" % group.names[e] in told for e in gone) and (told != "") == (gone != []) and all(
            self.failure_words(group, e, states[e]) in reasons(told, group.names[e]) for e in gone if self.is_known_failed(group, e, states[e]))

    def begun(self, group):
        """Of a page that begins behind entries: who set what keeps an entity from being counted on, and which entry failed it."""
        browser = self.browser
        browser.key("Home")
        is_named = True
        for entity, state in enumerate(group.opened()):
            sets = {cause["var"]: cause for cause in group.causes("set", entity)}
            barring = [k for k, value in enumerate(state["target"]) if value != state["seen"][k]]
            off = [k for k in (0, 3) if state["target"][k:k + 1] == state["seen"][k:k + 1] == [0]]
            failed = [cause["entry"] for cause in group.causes("failed", entity) if self.is_known_failed(group, entity, state) and cause["entry"] < state["told"]]
            if state["known"] != "sure" and (barring + off or failed):
                browser.value("choose(%d)" % entity)
                told = browser.text("not")
                wanted = [" by %s, version %d" % (self.apps[sets[k]["app"]], sets[k]["version"]) for k in barring + off if k in sets]
                is_told = "causes" in group.opening or not off or not state["stamp"]
                is_named = is_named and is_told and all(words in told for words in wanted + ["failed, entry %d" % entry for entry in failed])
        browser.key("Escape")
        self.want("%s: who set what the page begins with, and which entry failed it" % group.name, is_named)

    def is_known_failed(self, group, entity, state):
        return state["health"] is not None and state["health"] < group.whole(entity)

    def failure_words(self, group, entity, state):
        """How its failure is told of an entity that is known to have failed."""
        failure = group.failure_told(entity, state["told"])
        text = ", entry %d" % failure if failure else " at the opening" if state["told"] == 0 or group.first == 0 else " before this page"
        return "failed" + text + (": health %d of %d" % (state["health"], group.whole(entity)) if state["health"] else "")

    def known(self, group):
        """Of each entity that is looked at, since which entry it is known so and with which health, and which failure that is."""
        browser, states = self.browser, group.opened()
        for _, _, states in group.gone_through():
            pass
        browser.key("End")
        is_since = is_failure = True
        for entity, state in enumerate(states[:MOST_KNOWN]):
            browser.value("choose(%d)" % entity)
            since = "entry %d" % state["told"] if state["told"] else "the opening"
            health = ", by a report that hides its health" if state["health"] is None else ": health %d of %d" % (state["health"], group.whole(entity))
            is_since = is_since and browser.text("since") == "Known since %s%s." % (since, health)
            if state["known"] != "sure" and self.is_known_failed(group, entity, state):
                is_failure = is_failure and self.failure_words(group, entity, state) in browser.text("not")
        browser.key("Escape")
        self.want("%s: since which entry each is known, and its health" % group.name, is_since)
        self.want("%s: the failure that is known of each is named" % group.name, is_failure)

    def list(self, group):
        """The list of all entries, as it is filtered, and moved in by its keys."""
        browser = self.browser
        browser.key("Home", "a")
        kinds = {"refused": lambda entry: "refused" in entry, "failures": lambda entry: words(entry)[0] == "fail", "": lambda entry: True}
        about = {"": set(range(group.first + 1, group.last + 1)), **{name: group.about(0) for name in group.names[:1]}}
        is_good = True
        for kind, test in kinds.items():
            for name, numbers in about.items():
                wanted = [number for number, entry in enumerate(group.entries, group.first + 1) if test(entry) and number in numbers]
                is_good = self.is_listed(kind, name, wanted) and is_good
        browser.value('(document.getElementById("want-all") || document.body).click()')
        self.want("%s: the list of entries, by kind and by entity" % group.name, is_good)

    def is_listed(self, kind, name, wanted):
        browser = self.browser
        is_good = browser.called(FILTER, kind, name) == str(len(wanted))
        browser.key("Home")
        browser.value('(document.getElementById("rows") || document.body).focus()')
        for number in wanted[:3]:
            browser.key("ArrowDown")
            row = browser.value('(document.querySelector("#rows [aria-selected=true]") || {}).textContent') or ""
            is_good = is_good and browser.value("+slide.value") == number and row.startswith(str(number))
        return is_good

    def marks(self, group):
        """Each mark on the time line says of which entry it is."""
        titles = self.browser.value('[...document.querySelectorAll("#lanes .mark")].map(mark => (mark.querySelector("title") || {}).textContent || "")')
        is_marked = any(words(entry)[0] == "fail" or " : receipt " in entry["line"] for entry in group.entries)
        self.want("%s: each mark on the time line says whose it is" % group.name, (titles != []) == is_marked and all(title.startswith("Entry ") for title in titles))

    # What holds of the page as a whole.

    def page(self, page, groups):
        browser = self.browser
        title = browser.value("document.title")
        self.want("the title names the groups", all(group.name in title for group in groups[:2]))
        self.want("each button, field and picture has a name", browser.called(NAMELESS) == 0)
        browser.key("Tab", "Tab")
        outline = browser.value("(({ outlineWidth, outlineStyle }) => [parseFloat(outlineWidth), outlineStyle])(getComputedStyle(document.activeElement))")
        self.want("what has the keys can be seen", outline[0] >= 2 and outline[1] != "none")
        rules = browser.value('[...document.styleSheets].flatMap(sheet => [...sheet.cssRules]).map(rule => rule.conditionText || "")')
        self.want("less motion is heeded", any("prefers-reduced-motion" in rule for rule in rules))
        self.contrasts()
        if groups and groups[0].entries:
            self.link(page, groups[0])
            self.printing(groups[0])
        self.narrow(page, groups)

    def contrasts(self):
        for theme in ("light", "dark"):
            self.browser.called("theme", theme)
            for key in ("End", "f"):
                self.browser.key(key)
                ratio, text = self.browser.called(CONTRAST)
                self.want("contrast in %s: at least 4.5 (%.2f at %r)" % (theme, ratio, text), ratio >= 4.5)

    def link(self, page, group):
        """The link that is copied opens the page at the entry."""
        browser = self.browser
        browser.value('Object.defineProperty(navigator, "clipboard", { value: { writeText: async text => { window.copied = text; } } })')
        browser.value('document.activeElement.blur(); theme("dark")')
        browser.key("1", "End", "c")
        copied = browser.value('window.copied || ""')
        self.want("the link to an entry", copied.endswith("#%s/%d/dark" % (group.name, group.last)))
        browser.open(copied or page.as_uri())
        is_there = browser.value("+slide.value") == group.last and browser.value("document.documentElement.dataset.theme") == "dark"
        self.want("the link opens that entry", is_there)
        self.want("the keys tell of the link", "#group/entry/theme" in browser.text("keys"))

    def printing(self, group):
        """At the last entry and at a refusal: one sheet, in light, on which no part lies upon another; then the page is as it was."""
        browser = self.browser
        sheets, upon = [], []
        for keys in (["End"], ["Home", "f"]):
            browser.key(*keys)
            before = browser.called(STANDS)
            sheets.append(len(re.findall(rb"/Type\s*/Page\b", browser.printed())))
            browser.ask("Emulation.setEmulatedMedia", media="print")
            browser.value('window.dispatchEvent(new Event("beforeprint"))')
            upon += browser.called(UPON_ANOTHER)
            theme = browser.value("document.documentElement.dataset.theme")
            browser.ask("Emulation.setEmulatedMedia", media="")
            browser.value('window.dispatchEvent(new Event("afterprint"))')
            upon += ["dark"] * (theme != "light") + ["page"] * (browser.called(STANDS) != before)
        self.want("printed: one sheet (%s)" % " and ".join(map(str, sheets)), sheets == [1, 1])
        self.want("printed: in light, and no part upon another%s" % "".join(", " + one for one in upon), upon == [])

    def narrow(self, page, groups):
        """In a narrow window: nothing is cut, the sentence comes first, the legend is folded."""
        browser, is_open = self.browser, 'document.querySelector("details#legend") && document.querySelector("details#legend").open'
        was_open = browser.value(is_open)
        browser.size(390, 844)
        browser.open(page.as_uri())
        top = 'document.getElementById("%s").getBoundingClientRect().top'
        self.want("narrow: the legend is folded, and in a wide window it is not", was_open is True and browser.value(is_open) is False)
        self.want("narrow: the sentence stands above the picture", browser.value("%s < %s" % (top % "sentence", top % "picture")))
        self.want("narrow: the head is no higher than a fifth of the window", browser.value('document.querySelector("header").offsetHeight <= innerHeight / 5'))
        is_cut = browser.called(CUT_LINES)
        browser.key("f")
        self.want("narrow: no line is cut", not is_cut and not browser.called(CUT_LINES))
        self.want("many groups stand in a list box", (len(groups) > 6) == browser.value('document.querySelector("#groups select") !== null'))

    def fetching(self, page):
        """The page asks for nothing, and could not."""
        asked = {params["request"]["url"].split("#")[0] for params in self.browser.heard("Network.requestWillBeSent")}
        self.want("nothing is fetched", {url for url in asked if not url.startswith("data:")} <= {page.as_uri(), "about:blank"})
        self.want("its own rules forbid the page to fetch", self.browser.called(FETCH) == "img-src")


def step_time(browser, count=100):
    """How long a step takes of the processor time of the page's thread, in milliseconds."""
    begin = browser.thread_time()
    browser.called(STEPS, count)
    return (browser.thread_time() - begin) * 1000 / count


def pictures(browser, folder, name, run):
    """The page as it opens, and its first refusal, in both colourings."""
    folder.mkdir(parents=True, exist_ok=True)
    for theme in ("light", "dark"):
        browser.called("theme", theme)
        browser.key("1", "Home")
        browser.picture(folder / ("%s-%s.png" % (name, theme)))
        if any("refused" in entry for group in run["groups"][:1] for entry in group["entries"]):
            browser.key("f")
            browser.picture(folder / ("%s-refusal-%s.png" % (name, theme)))


def main():
    options = argparse.ArgumentParser(description=__doc__, formatter_class=argparse.RawDescriptionHelpFormatter)
    options.add_argument("page", help="the page")
    options.add_argument("--pictures", help="a folder for pictures")
    options.add_argument("--size", default="1280x800", help="width and height of the window")
    asked = options.parse_args()
    page = pathlib.Path(asked.page).resolve()
    browser = Browser(*(int(number) for number in asked.size.split("x")))
    trial = Trial(browser)
    browser.open(page.as_uri())
    run = json.loads(browser.text("run"))
    groups, trial.apps = [Group(data) for data in run["groups"]], run["apps"]
    for place, group in enumerate(groups):
        trial.group(place, group)
    if asked.pictures:
        pictures(browser, pathlib.Path(asked.pictures), page.stem, run)
    browser.value('tab = "now"; showTabs()')
    print("     %.1f ms of processor time for each entry shown" % step_time(browser))
    browser.key("a")
    print("     %.1f ms beside the list of entries" % step_time(browser))
    trial.page(page, groups)
    trial.want("nothing on the console", not browser.errors())
    for error in browser.errors():
        print(error)
    trial.fetching(page)
    browser.close()
    sys.exit(1 if trial.bad else 0)


if __name__ == "__main__":
    main()
