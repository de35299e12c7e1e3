"""Makes the man pages of the program from its manuals.

    man.py TOP FOLDER DATE      writes FOLDER/man1/modemkit-qmicli.1 and the others, of the manuals in TOP/docs
"""

import os
import re
import sys

# a page: its section, its manual, what it is about and how the program is called
PAGES = {
    "modemkit-qmicli": (1, "QMICLI", "asks a QMI modem", "modemkit qmicli SETTING.. COMMAND"),
    "modemkit-mbimcli": (1, "MBIMCLI", "asks an MBIM modem", "modemkit mbimcli SETTING.. COMMAND"),
    "modemkit-modem-sim": (1, "MODEM-SIM", "a simulated modem for tests", "modemkit modem-sim [SETTING..]"),
    "modemkit-dissect": (1, "DISSECT", "shows a captured stream in lines", "modemkit dissect [SETTING..] CAPTURE"),
    "modemkit-rig": (1, "RIG", "runs a proxy's core with many clients and with each alone", "modemkit rig [SETTING..]"),
    "modemkit-qmi-proxy": (8, "QMI-PROXY", "lets programs share a QMI modem", "modemkit qmi-proxy -d PATH [SETTING..]"),
    "modemkit-qmi-proxies": (8, "QMI-PROXIES", "one QMI proxy for up to eight modems", "modemkit qmi-proxies [SETTING..] PATH.."),
    "modemkit-mbim-proxy": (8, "MBIM-PROXY", "lets programs share an MBIM modem", "modemkit mbim-proxy -d PATH [SETTING..]"),
    "modemkit-devices": (7, "DEVICES", "device nodes and the installation of modemkit", ""),
    "modemkit-errors": (7, "ERRORS", "what the numbers of errors mean", ""),
    "modemkit-sms": (7, "SMS", "short messages as text", ""),
}
# the headings of columns that say what a row is about, and of those with the line that a tool prints
MAIN = ("Meaning", "What it says", "When", "At a node it means", "Request", "Command", "Answer", "Unit", "Name")
LINES = ("Line on stderr", "Line")
OVERVIEW = "modemkit"
SYNOPSIS = [page[3] for page in PAGES.values() if page[3]]
OF_MANUAL = {page[1]: (name, page[0]) for name, page in PAGES.items()}


def escape(text):
    """The text as roff takes it."""
    text = text.replace("\\", "\\e").replace("-", "\\-").replace("'", "\\(aq").replace("`", "\\(ga").replace("^", "\\(ha").replace("~", "\\(ti")
    # what isn't ASCII, by its code point
    return "".join(char if ord(char) < 128 else f"\\[u{ord(char):04X}]" for char in text)


def reference(manual):
    """A manual by its page; a document that has none by its place in the repository."""
    if manual not in OF_MANUAL:
        return escape(f"docs/{manual}.md")
    page, section = OF_MANUAL[manual]
    return f"\\fB{escape(page)}\\fR({section})"


def inline(text):
    """A paragraph's text, with code in bold, stress in italics and links as references."""
    parts = re.split(r"(`[^`]+`|\*\*[^*]+\*\*|\*[^*]+\*|\[[^\]]*\]\([^)]*\))", text)
    out = []
    for part in parts:
        if part.startswith("`"):
            out.append(f"\\fB{escape(part[1:-1])}\\fR")
        elif part.startswith("*"):
            out.append(f"\\fI{escape(part.strip('*').replace('`', ''))}\\fR")
        elif part.startswith("["):
            name = re.fullmatch(r"\[[^\]]*\]\((?:docs/)?([A-Z-]+)\.md\)", part)
            out.append(reference(name[1]))
        else:
            out.append(escape(part))
    text = "".join(out).strip()
    return "\\&" + text if text[:1] in (".", "'") else text


def filled(text):
    """The lines of a paragraph, each short enough for a source."""
    lines = []
    for word in inline(text).split(" "):
        if lines and len(lines[-1]) + 1 + len(word) <= 78:
            lines[-1] += " " + word
        else:
            lines.append("\\&" + word if word[:1] in (".", "'") else word)
    return lines


def cells_of(line):
    return [cell.strip() for cell in re.split(r"(?<!\\)\|", line.strip().strip("|"))]


class Page:
    def __init__(self):
        self.lines = []

    def paragraph(self, text):
        self.lines += [".PP", *filled(text)]

    def code(self, lines):
        self.lines += [".PP", ".RS 4", ".nf"]
        self.lines += ["\\&" + escape(line) if line[:1] in (".", "'") else escape(line) for line in lines]
        self.lines += [".fi", ".RE"]

    def item(self, mark, text):
        self.lines += [f".IP {mark} 3", *filled(text)]

    def table(self, head, rows):
        for row in rows:
            row += [""] * (len(head) - len(row))
            tag, rest = row[0], list(zip(head[1:], row[1:]))
            said = [(name, cell) for name, cell in rest if cell]
            # the line that is printed, what the row is about, and its other cells in brackets (none, in a table of two columns)
            line = [cell for name, cell in said if name in LINES]
            main = [cell for name, cell in said if name in MAIN or len(head) == 2]
            other = [f"{name[0].lower() + name[1:]}: {cell}" if name else cell for name, cell in said if not (name in LINES or name in MAIN or len(head) == 2)]
            text = ": ".join(line + main)
            if other:
                text = f"{text} ({'; '.join(other)})" if text else "; ".join(other)
            if len(inline(tag)) > 78:
                self.lines += [".PP", *filled(tag), ".RS 7", *filled(text), ".RE"]
            elif tag:
                self.lines += [".TP", inline(tag), *(filled(text) if text else ["\\&"])]
            else:
                self.lines += [".IP", *filled(text)]

    def block(self, lines):
        """Headings, tables, lists, code and paragraphs, one after another."""
        at = 0
        while at < len(lines):
            line = lines[at]
            if not line.strip() or line.startswith("<!--"):
                at += 1
            elif line.startswith("## "):
                self.lines.append(".SH " + escape(line[3:].upper()))
                at += 1
            elif line.startswith("### "):
                self.lines.append(".SS " + escape(line[4:]))
                at += 1
            elif line.startswith("```"):
                end = lines.index("```", at + 1)
                self.code(lines[at + 1 : end])
                at = end + 1
            elif line.startswith("    "):
                end = at
                while end < len(lines) and (lines[end].startswith("    ") or not lines[end].strip()):
                    end += 1
                code = [text[4:] for text in lines[at:end]]
                while not code[-1].strip():
                    code.pop()
                self.code(code)
                at = end
            elif line.startswith("|"):
                end = at
                while end < len(lines) and lines[end].startswith("|"):
                    end += 1
                self.table(cells_of(line), [cells_of(row) for row in lines[at + 2 : end]])
                at = end
            else:
                start = re.match(r"- |\d+\. ", line)
                text = line[start.end() :] if start else line
                at += 1
                while at < len(lines) and lines[at].strip() and not re.match(r"- |\d+\. |\||#|<!--|```", lines[at]):
                    text += " " + lines[at].strip()
                    at += 1
                if not start:
                    self.paragraph(text)
                elif start[0] == "- ":
                    self.item("\\(bu", text)
                else:
                    self.item(start[0].strip(), text)


def begin(name, section, about, synopsis, date):
    lines = [f'.TH {escape(name.upper())} {section} "{date}" "modemkit" "modemkit"', ".SH NAME", f"{escape(name)} \\- {escape(about)}"]
    if synopsis:
        lines.append(".SH SYNOPSIS")
    for at, line in enumerate(synopsis):
        words = line.split(" ")
        lines += [".br"] * bool(at) + [f"\\fB{escape(' '.join(words[:2]))}\\fR {escape(' '.join(words[2:]))}".strip()]
    return lines


def see_also(lines, names):
    lines.append(".SH SEE ALSO")
    lines += [f".BR {escape(name)} ({section})" + ("," if at + 1 < len(names) else "") for at, (name, section) in enumerate(names)]


def write(folder, name, section, lines):
    os.makedirs(f"{folder}/man{section}", exist_ok=True)
    # a heading or a list with its own paragraph needs no empty one before it
    tidy = []
    for at, line in enumerate(lines):
        if line == ".PP" and tidy and tidy[-1].startswith((".SH", ".SS")):
            continue
        tidy.append(line)
    with open(f"{folder}/man{section}/{name}.{section}", "w") as file:
        file.write("\n".join(tidy) + "\n")


def main(top, folder, date):
    everything = sorted([(OVERVIEW, 1)] + [(name, page[0]) for name, page in PAGES.items()], key=lambda it: (it[1], it[0]))
    for name, (section, manual, about, synopsis) in PAGES.items():
        with open(f"{top}/docs/{manual}.md") as file:
            lines = file.read().split("\n")
        lines = re.sub(r"<!--.*?-->", "", "\n".join(lines), flags=re.S).split("\n")
        page = Page()
        page.lines = begin(name, section, about, [synopsis] if synopsis else [], date) + [".SH DESCRIPTION"]
        page.block([line for line in lines if not line.startswith("# ")])
        see_also(page.lines, [it for it in everything if it[0] != name])
        write(folder, name, section, page.lines)

    page = Page()
    page.lines = begin(OVERVIEW, 1, "programs that talk to cellular modems", SYNOPSIS, date) + [".SH DESCRIPTION"]
    page.paragraph("One program with several tools. The first word says which; each has a page of its own:")
    page.table(["", ""], [[f"`{name}`({section})", about] for name, (section, _, about, _) in PAGES.items()])
    see_also(page.lines, [it for it in everything if it[0] != OVERVIEW])
    write(folder, OVERVIEW, 1, page.lines)


if __name__ == "__main__":
    main(*sys.argv[1:])
