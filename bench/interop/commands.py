#!/usr/bin/env python3
"""Prints the commands of a section of a document, in its order: `commands.py DOCUMENT HEADING`. Without HEADING it prints the headings of
the sections that have any, a line each.

They are the lines of its indented blocks, a here-document being one with its command, and of its text the pieces in backquotes that are a
command or an option with its words, or a setting `KEY = VALUE`, `KEY: VALUE` or `KEY=VALUE`. A block that is a file and no commands, as a
configuration, is one piece. In a manual page they are the lines from `.nf` to `.fi`. After each command comes what `# ...` at the end of its line says, or
nothing. A zero byte ends each of both.
"""
import pathlib
import re
import sys

IN_TEXT = re.compile(
    r"(dnsprim [a-z]+|dnsprim COMMAND|btrfs|cp|cd|chmod|setcap|systemctl|nsupdate|rndc|nsd-control|knotc|keymgr|ss|rt|man|server|examples/[\w-]+"
    r"|\./[a-z]+|--dns-[\w-]+|[a-z_]+ =|[a-z][a-z-]*:) \S|dnsprim --[a-z]+$|\./(install|package)$|[a-z-]+=\S|UNDER=\S|policy\.\w+\("
)
A_FILE = re.compile(r"\S+:$|\S+ .*\{$")


def headings(lines):
    """The lines of each section, by its heading, in the form of Markdown."""
    found, heading = {}, None
    for line in lines:
        if line.startswith("#"):
            heading = line.lstrip("#").strip()
            found[heading] = []
        elif heading is not None:
            found[heading].append(line)
    return found


def of_manual(lines):
    """A manual page in the form of Markdown: its headings, and its blocks of lines as they are."""
    is_block = False
    for line in lines:
        is_block = line.startswith(".nf") or is_block and not line.startswith(".fi")
        if line.startswith(".SH"):
            yield "# " + line[4:].strip('"')
        elif is_block and not line.startswith(".nf"):
            yield "    " + line.replace("\\-", "-")


def in_text(paragraph):
    pieces = re.findall(r"`([^`]*)`", re.sub(r"\s+", " ", " ".join(paragraph)))
    return [(it, "") for it in pieces if IN_TEXT.match(it)]


def in_block(block):
    if block and A_FILE.match(block[0]):
        yield "\n".join(block), ""
        return
    lines = iter(block)
    for line in lines:
        command, _, comment = re.fullmatch(r"(.*?)(\s+# (.*))?", line).groups(default="")
        end = re.search(r"<<(\w+)", command)
        for below in lines if end else []:
            command += "\n" + below
            if below == end[1]:
                break
        yield command, comment


def commands(section):
    paragraph, block = [], []
    for line in [*section, "", "the end"]:
        if line.startswith("    ") and not paragraph:
            block.append(line[4:])
        elif line.strip():
            yield from in_block(block)
            block = []
            paragraph.append(line)
        else:
            yield from in_text(paragraph)
            paragraph = []


def main(document, heading=None):
    lines = pathlib.Path(document).read_text().splitlines()
    sections = headings(of_manual(lines) if document.endswith(".8") else lines)
    if heading is None:
        sys.stdout.write("".join(f"{it}\n" for it, section in sections.items() if any(commands(section))))
    else:
        sys.stdout.write("".join(f"{command}\0{comment}\0" for command, comment in commands(sections.get(heading, []))))


main(*sys.argv[1:])
