"""Compares the pages with the examples: `python3 tools/check_pages.py`.

In README.md and docs/GUIDE.md a block that begins with `$ ./statesman WORDS <examples/NAME`, or without an input, has to go on with
what the stored run of crates/statesman_examples prints for it, and with `| jq WORDS` behind it with what jq makes of that. A block with a line
`$ python3 tools/NAME.py WORDS` is typed, all of its commands in one folder, where `./statesman` is the program that is there; each has to print what
stands behind it, its output and then its errors. Every other fenced block has to be lines of an example, of that stored run or of
crates/st_event/DESIGN.md, which has the rules, one behind the other. Each example has to stand in the stored run, and in docs/GUIDE.md in a row
with its first lines; `--gallery` prints these rows. Those of examples/calls, which no page tells of, have to stand in the stored run alone. The
files that docs/CLAIMS.md lists as what to read have to have the lines that it says, and import none but those above them. The definitions and
functions that docs/DEFINITIONS.md names have to stand in their files. Prints what differs; the exit status is then 1. Where there is no
program the blocks that are typed are left out, and the status is 2 if nothing else differs.
"""

import argparse
import os
import re
import shlex
import shutil
import subprocess
import sys

sys.dont_write_bytecode = True

from operators.typed_commands import Folder, add_program, is_there  # noqa: E402

REPOSITORY = os.path.dirname(os.path.dirname(os.path.abspath(__file__)))
RUNS = os.path.join(REPOSITORY, "crates", "statesman_examples")
GUIDE = os.path.join("docs", "GUIDE.md")
PAGES = ("README.md", GUIDE)
RULES = os.path.join("crates", "st_event", "DESIGN.md")
DEFINITIONS = os.path.join("docs", "DEFINITIONS.md")
CLAIMS = os.path.join("docs", "CLAIMS.md")
RECIPE = re.compile(r"\$ ./statesman ([^<|]*[^<| ]) <examples/(\S+) \| jq (.*)$")
RUN = re.compile(r"\$ ./statesman ([^<|]*[^<| ])(?: <examples/(\S+))?$")
TYPED = "$ python3 tools/"
IMPORT = re.compile(r"use Rattle\.(st_\w+\.specs\.(?!declared)\w+)")
KINDS = "header byte word count name unknown twice number value cross loop pair limit".split()


def lines_of(*path):
    with open(os.path.join(*path), encoding="utf-8") as file:
        return file.read().split("\n")


def stored_outputs():
    """The lines that each run of the stored run prints, without its exit status, by the run as it is typed."""
    outputs = {}
    for block in "\n".join(lines_of(RUNS, "stdout")).split("\n\n"):
        if block:
            typed, *printed, _ = block.strip("\n").split("\n")
            outputs[typed.removeprefix("$ ./statesman ")] = printed
    return outputs


def blocks_of(page):
    """The blocks of a page, fenced ones and indented ones, each with whether it is fenced."""
    blocks, block, is_fenced = [], None, False
    for line in lines_of(REPOSITORY, page):
        if line.startswith("```"):
            if is_fenced:
                blocks.append((True, block))
            block, is_fenced = None if is_fenced else [], not is_fenced
        elif is_fenced:
            block.append(line)
        elif line.startswith("    "):
            if block is None:
                block = []
                blocks.append((False, block))
            block.append(line[4:])
        else:
            block = None
    return blocks


def names_in(folder):
    """The documents of a folder of the examples, as the stored run names them."""
    names = os.listdir(os.path.join(RUNS, "data", folder))
    return sorted(os.path.join(folder, name) for name in names if name.endswith(".txt"))


def stands_in(block, lines):
    return any(lines[at:at + len(block)] == block for at in range(len(lines)))


def recipe_fault(words, stored, shown):
    """What is wrong with a line that hands a stored output to jq, or None: its words, that output's lines, the lines that are shown."""
    if stored is None:
        return "no stored run to hand to jq"
    done = subprocess.run(["jq", *shlex.split(words)], input="\n".join(stored), capture_output=True, text=True)
    if done.stdout.split("\n")[:-1] != shown:
        return "jq prints otherwise: %s" % (done.stdout or done.stderr).strip()
    wanted = 1 if "-e" in shlex.split(words) and shown[-1] in ("false", "null") else 0
    return None if done.returncode == wanted else "jq ends with status %d" % done.returncode


def recipes():
    """The lines of the pages that hand a run to jq, each with the page, the run as it is typed, jq's words and what is shown of it."""
    for page in PAGES:
        for is_fenced, block in blocks_of(page):
            recipe = RECIPE.match(block[0])
            if recipe:
                words, name, jq_words = recipe.groups()
                yield page, "%s <%s" % (words, name), jq_words, block[1:]


def row_of(name):
    """The row of an example in the gallery: its name, its command and what its first lines say."""
    said = []
    for line in lines_of(RUNS, "data", name):
        run = re.match(r"# \./statesman (\S+)", line)
        if run or not line.startswith("#"):
            break
        said.append(line.removeprefix("#").strip())
    return "| `%s` | `%s` | %s |" % (name, run.group(1) if run else "?", " ".join(said))


def gallery():
    """The rows of all examples but those of a kind of fault, which have a table of their own."""
    return [row_of(name) for name in names_in("") if not is_of_a_kind(name)]


def is_of_a_kind(name):
    return re.fullmatch(r"fault_(%s)\.txt" % "|".join(KINDS), name) is not None


def has_jq():
    return shutil.which("jq") is not None


def readings():
    """The steps of what docs/CLAIMS.md asks to read: each its files, and how many lines it says that these have."""
    for line in lines_of(REPOSITORY, CLAIMS):
        cells = [cell.strip() for cell in line.split("|")]
        if len(cells) == 6 and cells[1].isdigit():
            files, crate = [], None
            for name in re.findall(r"`(\w+)`", cells[3]):
                if name.startswith("st_"):
                    crate = name
                else:
                    files.append("%s.specs.%s" % (crate, name))
            yield files, int(cells[4])


def misread():
    """Of what docs/CLAIMS.md asks to read, the counts that are wrong and the files that lack one which they import."""
    above = set()
    for files, count in readings():
        found = 0
        for file in files:
            lines = lines_of(REPOSITORY, "crates", file.replace(".", os.sep) + ".antt")[:-1]
            found += len(lines)
            for line in lines:
                used = IMPORT.match(line)
                if used and used.group(1) not in above:
                    yield "%s: %s imports %s, which does not stand above it" % (CLAIMS, file, used.group(1))
            above.add(file)
        if found != count:
            yield "%s: %d lines, not %d, of %s .." % (CLAIMS, found, count, files[0])


def words_of_entry(entry, label):
    """The words in backticks behind a label of an entry, up to the next label."""
    found = re.search(r"\*%s:\*(.*?)(?=\*\w+:\*|\n\n|\Z)" % label, entry, re.S)
    return re.findall(r"`([^`]+)`", found.group(1)) if found else []


def sources_of(crates, part, file):
    """The text of a file in a part of these crates, as far as they have it."""
    paths = [os.path.join(REPOSITORY, "crates", crate, part, file) for crate in crates]
    return "\n".join("\n".join(lines_of(path)) for path in paths if os.path.isfile(path))


def unknown_words(name, entry, crates):
    """Of an entry of docs/DEFINITIONS.md, the definitions and the functions that do not stand where it says."""
    here = crates
    for word in words_of_entry(entry, "Spec"):
        here = [word] if word.startswith("st_") else here
        if re.fullmatch(r"[A-Z]\w+\.\w+(\.\w+)?", word):
            module, definition = word.split(".")[:2]
            if not re.search(r"\b%s\b" % definition, sources_of(here, "specs", module + ".antt")):
                yield "%s: %s: no definition %s" % (DEFINITIONS, name, word)
    here, text = crates, ""
    for word in words_of_entry(entry, "Code"):
        here = [word] if word.startswith("st_") else here
        if word.endswith(".rt"):
            text = sources_of(here, "src", word)
        elif not word.startswith("st_") and not all(re.search(r"\b%s\b" % part, text) for part in word.split("::")):
            yield "%s: %s: no %s in that file" % (DEFINITIONS, name, word)


def undefined():
    """What docs/DEFINITIONS.md cites and is not there, and the entries that cite no code."""
    for section in "\n".join(lines_of(REPOSITORY, DEFINITIONS)).split("\n## ")[1:]:
        crates = re.findall(r"`(st_\w+)`", section.split("\n")[0])
        for entry in section.split("\n### ")[1:]:
            name = entry.split("\n")[0]
            yield from unknown_words(name, entry, crates)
            if "*Spec:*" in entry and "*Code:*" not in entry:
                yield "%s: %s: no code is named" % (DEFINITIONS, name)


def is_typed(block):
    return any(line.startswith(TYPED) for line in block)


def typed_differences(program, page, block):
    """The commands of a block of which something else comes than stands behind them."""
    with Folder(program) as folder:
        for part in "\n".join(block).removeprefix("$ ").split("\n$ "):
            command, *printed = part.split("\n")
            came = folder.run(command)
            if (came.output + came.errors).splitlines() != printed:
                yield "%s: not what is printed: $ %s" % (page, command)


def differing_blocks(outputs, names, program):
    texts = [lines_of(RUNS, "data", name) for name in names] + [lines_of(RUNS, "stdout"), lines_of(REPOSITORY, RULES)]
    for page in PAGES:
        for is_fenced, block in blocks_of(page):
            run = RUN.match(block[0])
            if is_typed(block):
                yield from typed_differences(program, page, block) if program else ()
            elif run and len(block) > 1:
                if outputs.get(" <".join(filter(None, run.groups()))) != block[1:]:
                    yield "%s: not what is printed: %s" % (page, block[0])
            elif is_fenced and not any(stands_in(block, lines) for lines in texts):
                yield "%s: lines of no example: %s .." % (page, block[0])


def failing_recipes(outputs):
    for page, typed, words, shown in recipes():
        fault = recipe_fault(words, outputs.get(typed), shown)
        if fault:
            yield "%s: jq %s: %s" % (page, words, fault)


def missing_examples(outputs, names):
    lines = lines_of(REPOSITORY, GUIDE)
    rows = {line for line in lines if re.match(r"\| `\w+\.txt` \|", line)}
    for row in sorted(rows.symmetric_difference(gallery())):
        yield "%s: %s: %s" % (GUIDE, "no first lines of an example" if row in rows else "lacks this row", row)
    for name in names:
        if not any(typed.endswith("<" + name) for typed in outputs):
            yield "%s is run by no stored run" % name
        if is_of_a_kind(name) and not any(line.startswith("| `%s` |" % name[len("fault_"):-len(".txt")]) for line in lines):
            yield "%s: lacks the kind of %s" % (GUIDE, name)


def differences(program):
    outputs, names, calls = stored_outputs(), names_in(""), names_in("calls")
    yield from differing_blocks(outputs, names, program)
    if has_jq():
        yield from failing_recipes(outputs)
    yield from missing_examples(outputs, names)
    for name in calls:
        if not any(typed.endswith("<" + name) for typed in outputs):
            yield "%s is run by no stored run" % name
    yield from misread()
    yield from undefined()


def main():
    parser = argparse.ArgumentParser(prog="check_pages", description=__doc__, formatter_class=argparse.RawDescriptionHelpFormatter)
    parser.add_argument("--gallery", action="store_true", help="print the rows of the table of examples, and compare nothing")
    add_program(parser)
    options = parser.parse_args()
    if options.gallery:
        print("\n".join(gallery()))
        return 0
    program = options.program if is_there(options.program) else None
    found = list(differences(program))
    for line in found:
        print(line)
    if not has_jq():
        print("jq is not there (Debian: apt-get install jq), so %d lines for it are not tried" % len(list(recipes())))
    print("%d differ" % len(found))
    return 1 if found else 0 if program else 2


if __name__ == "__main__":
    sys.exit(main())
