"""Draws the crates of crates.txt for docs/ARCHITECTURE.md (`crates.sh` says more)."""
import collections
import difflib
import functools
import os
import re
import sys
import textwrap

PAGE, PROVED = "docs/ARCHITECTURE.md", "docs/PROVED.md"
BEGIN, END = "<!-- made by bench/crates.sh -->\n", "<!-- up to here -->\n"
WIDTH = 160


def crates_of():
    """Each crate in the order of crates.txt, with those of the repository that it uses."""
    with open("crates.txt", encoding="utf-8") as text:
        lines = [it.partition(":") for it in text if ":" in it and not it.startswith("#")]
    uses = {name.strip(): words.split() for name, _, words in lines}
    return {name: [it for it in words if it in uses] for name, words in uses.items()}


def program_of(uses):
    """The crates that the program is built of."""
    found = ["modemkit"]
    for crate in found:
        found += [it for it in uses[crate] if it not in found]
    return found


def words_of(crate):
    """The first sentence of the documentation at the front of a crate."""
    found = [it for it in (f"crates/{crate}/src/lib.rt", f"crates/{crate}/src/main.rt") if os.path.exists(it)]
    if not found:
        sys.exit(f"{crate} has neither src/lib.rt nor src/main.rt")
    with open(found[0], encoding="utf-8") as text:
        first = re.match(r"(//! .*\n)+", text.read())
    if not first:
        sys.exit(f"{found[0]} doesn't begin with words on the crate")
    paragraph = " ".join(it.removeprefix("//! ").strip() for it in first[0].splitlines())
    return re.match(r".*?\.(?= |$)|.*", paragraph)[0]


def drawing_of(uses):
    built = program_of(uses)

    @functools.cache
    def layer(crate):
        return 1 + max(map(layer, uses[crate]), default=0)

    above = collections.defaultdict(list)
    for crate in uses:
        # (of equals the last)
        above[max(reversed(uses[crate]), key=layer, default=None)].append(crate)

    def rows(crate):
        yield "  " * (layer(crate) - 1) + (crate if crate in built else f"({crate})"), words_of(crate)
        for it in above[crate]:
            yield from rows(it)

    drawn = [row for crate in above[None] for row in rows(crate)]
    width = 2 + max(len(name) for name, _ in drawn)
    text = f"{len(uses)} crates in {max(map(layer, uses))} layers, {len(built)} of them in the program:\n\n"
    for name, words in drawn:
        first, *rest = textwrap.wrap(words, WIDTH - 4 - width)
        text += f"    {name:{width}}{first}\n" + "".join(f"    {'':{width}}{it}\n" for it in rest)
    return text


def rowless(uses, path):
    """The crates with definitions that no first column of a page's tables names."""
    with open(path, encoding="utf-8") as text:
        firsts = [it.split("|")[1] for it in text if it.startswith("| `")]
    named = {name for first in firsts for name in re.findall(r"`(\w+)`", first)}
    return [it for it in uses if it not in named and os.path.isdir(f"crates/{it}/specs")]


def main(words):
    if words not in ([], ["--check"], ["--write"]):
        sys.exit("words: [--check | --write]")
    uses = crates_of()
    made = drawing_of(uses)
    if not words:
        print(made, end="")
        return 0
    with open(PAGE, encoding="utf-8") as text:
        page = text.read()
    before, _, rest = page.partition(BEGIN)
    was, mark, behind = rest.partition(END)
    if not mark:
        sys.exit(f"{PAGE} has no place for the drawing")
    made = f"\n{made}\n"
    if words == ["--write"]:
        with open(PAGE, "w", encoding="utf-8") as text:
            text.write(before + BEGIN + made + END + behind)
        return 0
    wrong = list(difflib.unified_diff(was.splitlines(), made.splitlines(), PAGE, "bench/crates.sh", "", "", 0, ""))
    wrong += [f"{path} has no row for {it}" for path in (PAGE, PROVED) for it in rowless(uses, path)]
    print("".join(f"{it}\n" for it in wrong), end="")
    return 1 if wrong else 0


if __name__ == "__main__":
    sys.exit(main(sys.argv[1:]))
