#!/usr/bin/env python3
"""Makes of the program's own help what a package has of it: program_pages.py man|completion|changelog|version PROGRAM

man         a manual page: the words with their forms and what they do, as `tapebox --help` tells them, and the statuses of docs/OPERATING.md
completion  what bash completes: the words, and the options of each
changelog   CHANGELOG.md in Debian's form; --version VERSION names the newest otherwise
version     the version that `tapebox --version` tells

Statuses: 0 if it is printed; 1 if the program can't be run or tells no word, or CHANGELOG.md does not begin with the program's version; 2 if the
words are others.
"""

import argparse
import datetime
import re
import subprocess
import sys
import textwrap
from pathlib import Path

ROOT = Path(__file__).resolve().parent.parent
# How a word is used, one of its options, and the version.
FORM = re.compile(r"^tapebox ([a-z]+)( .*)?$", re.MULTILINE)
OPTION = re.compile(r"\[(--[\w-]+)(?: ([^\]]+))?\]")
VERSION = re.compile(r"\Atapebox ([\d.]+)(?:,|$)", re.MULTILINE)
# A version's heading, and an item below it.
ENTRY = re.compile(r"^## ([\d.]+) \((\d{4}-\d\d-\d\d)\)\n(.*?)(?=^## |\Z)", re.MULTILINE | re.DOTALL)
STATUS = re.compile(r"^\| (\d+) \| (.+?) \| .+ \|$", re.MULTILINE)
# The columns of Debian's changelog.
WIDTH = 78
LINK = re.compile(r"\[([^]]+)\]\([^)]+\)")


def fail(text):
    """Says what is wrong, and ends the script."""
    sys.exit(f"program_pages.py: {text}")


class Pages:
    """What the program tells of itself, and what the repository's pages tell of it."""

    def __init__(self, path):
        self.path = path
        self.help = self.told("--help")
        found = VERSION.match(self.told("--version"))
        self.forms = dict.fromkeys(word for word, _ in FORM.findall(self.help))
        if not found or not self.forms:
            fail(f"{path}: it tells no version or no word")
        self.version = found.group(1)
        # The form of each word, which is the first line of its help, and the rest.
        self.forms = {word: self.told(word, "--help").rstrip("\n").split("\n", 1) for word in self.forms}
        self.changes = ENTRY.findall((ROOT / "CHANGELOG.md").read_text(encoding="utf-8"))
        if not self.changes or self.changes[0][0] != self.version:
            fail(f"CHANGELOG.md: its newest version is not {self.version}, which the program has")

    def told(self, *words):
        """What the program writes on these words."""
        try:
            done = subprocess.run([self.path, *words], stdin=subprocess.DEVNULL, capture_output=True, text=True, check=False)
        except OSError as fault:
            fail(f"{self.path}: {fault.strerror}")
        if done.returncode:
            fail(f"{self.path} {' '.join(words)}: status {done.returncode}")
        return done.stdout

    def statuses(self):
        """The program's statuses, each with the cases in which it ends so."""
        part = (ROOT / "docs" / "OPERATING.md").read_text(encoding="utf-8").split("\n## Statuses\n")[1].split("\n## ")[0]
        cases = {}
        for status, case in STATUS.findall(part):
            cases.setdefault(int(status), []).append(LINK.sub(r"\1", case).replace("`", ""))
        return cases


def roff(text):
    """A text as it stands in a manual page."""
    text = text.replace("\\", "\\e").replace("-", "\\-")
    return re.sub(r"(?m)^(?=[.'])", r"\\&", text)


def form_of(form):
    """A form of use: what is typed as it is in bold, what stands for something else in italics."""
    return re.sub(r"[A-Z]{2,}(?:\.toml)?|\bN\b", lambda word: rf"\fI{word.group()}\fP", roff(form))


def man(pages):
    """The manual page."""
    date = pages.changes[0][1]
    head = pages.help.split("\n\n")[0]
    lines = [f'.TH TAPEBOX 1 "{date}" "tapebox {pages.version}" "User Commands"', ".SH NAME", r"tapebox \- consolidated trade tape processor"]
    lines.append(".SH SYNOPSIS")
    for word, (form, *_) in pages.forms.items():
        lines += [rf"\fBtapebox {word}\fP{form_of(form.removeprefix(f'tapebox {word}'))}", ".br"]
    lines[-1:] = [".SH DESCRIPTION", *(roff(line) + "\n.br" for line in head.split("\n"))]
    lines.append(".SH WORDS")
    for word, (form, *does) in pages.forms.items():
        lines += [".TP", rf"\fB{word}\fP{form_of(form.removeprefix(f'tapebox {word}'))}", *(roff(text) for text in does)]
    lines.append(".SH EXIT STATUS")
    for status, cases in pages.statuses().items():
        lines += [".TP", f"\\fB{status}\\fP", *("\n.br\n".join(roff(case) + "." for case in cases).split("\n"))]
    lines += [".SH FILES", ".TP", r"\fI/etc/tapebox/DAY.toml\fP", "A day that the units tapebox\\-live@DAY and tapebox\\-watch@DAY run."]
    lines += [".TP", r"\fI/usr/share/tapebox\fP", "Samples, and tools that send a day, relay, show, split, import or draw one; each has \\-\\-help."]
    lines += [".TP", r"\fI/usr/share/doc/tapebox\fP", "The pages: README.md, and docs with FORMATS.md, OPERATING.md, RULES.md and others."]
    return "\n".join(lines) + "\n"


def completion(pages):
    """What bash completes."""
    cases = []
    for word, (form, *_) in pages.forms.items():
        options = OPTION.findall(form)
        cases.append(f'        {word}) options="{" ".join([*(option for option, _ in options), "--help"])}" ;;')
    values = {option: values.split("|") for form, *_ in pages.forms.values() for option, values in OPTION.findall(form) if "|" in values}
    given = [f'        {option}) choices="{" ".join(each)}" ;;' for option, each in values.items()]
    return f"""# What bash completes of tapebox, made of the program's own help.
_tapebox() {{
    local current=${{COMP_WORDS[COMP_CWORD]}} options="" choices=""
    if [ "$COMP_CWORD" -eq 1 ]; then
        mapfile -t COMPREPLY < <(compgen -W "{" ".join(pages.forms)} --help --version" -- "$current")
        return
    fi
    case ${{COMP_WORDS[1]}} in
{chr(10).join(cases)}
    esac
    case ${{COMP_WORDS[COMP_CWORD - 1]}} in
{chr(10).join(given)}
    esac
    if [ -n "$choices" ]; then
        mapfile -t COMPREPLY < <(compgen -W "$choices" -- "$current")
    elif [[ $current == -* ]]; then
        mapfile -t COMPREPLY < <(compgen -W "$options" -- "$current")
    fi
}}
complete -o default -F _tapebox tapebox
"""


def changelog(pages, newest, maintainer):
    """The changes in Debian's form."""
    entries = []
    for at, (version, date, items) in enumerate(pages.changes):
        day = datetime.datetime.fromisoformat(f"{date}T12:00:00+00:00").strftime("%a, %d %b %Y %H:%M:%S +0000")
        changes = "\n".join(textwrap.fill(item, WIDTH, initial_indent="  * ", subsequent_indent="    ") for item in re.findall(r"(?m)^- (.+)$", items))
        entries.append(f"tapebox ({newest if at == 0 else version}) unstable; urgency=medium\n\n{changes}\n\n -- {maintainer}  {day}\n")
    return "\n".join(entries)


def main():
    parser = argparse.ArgumentParser(description=__doc__, formatter_class=argparse.RawDescriptionHelpFormatter)
    parser.add_argument("page", choices=["man", "completion", "changelog", "version"])
    parser.add_argument("program", metavar="PROGRAM")
    parser.add_argument("--version", help="the newest version of the changelog")
    words = parser.parse_args()
    pages = Pages(words.program)
    if words.page == "changelog":
        control = (ROOT / "packaging" / "control").read_text(encoding="utf-8")
        maintainer = re.search(r"(?m)^Maintainer: (.+)$", control).group(1)
        print(changelog(pages, words.version or pages.version, maintainer), end="")
    elif words.page == "version":
        print(pages.version)
    else:
        print({"man": man, "completion": completion}[words.page](pages), end="")


if __name__ == "__main__":
    main()
