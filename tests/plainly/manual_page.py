"""What a manual page says, beside the helps of the program."""
import os
import re

from program import ask

# How man shows a page of so many columns, with words as they stand.
WIDTH = 80
MAN = ["man", "--warnings", "--no-hyphenation", "--no-justification", "-l"]
# Characters that stand for themselves in commands, as a page writes them. The backslash is the last.
ROFF = ((r"\-", "-"), (r"\(aq", "'"), (r"\(ga", "`"), (r"\&", ""), (r"\e", "\\"))


def page_of(path):
    """A page as man shows it, and what man warns of; its status is not 0 where it can't."""
    page, warnings, status = ask([*MAN, path], env={**os.environ, "LC_ALL": "C", "MANWIDTH": str(WIDTH)})
    return page.decode(), warnings.decode(), status


def plain(text):
    """The words of a text. Capitals, headings, labels, brackets of values and ends of lines are layout."""
    return re.sub(r" $", "", re.sub(r"[ \t]+", " ", re.sub(r"[<>\\]", "", text))).lower()


def helps(program):
    """Each help, by the name of its command or topic; the program's own has none."""
    own = ask([program, "--help"])[0].decode()
    names = re.findall(r"^  ([a-z]+)  ", own, re.M) + re.findall(r"onuctl help ([a-z]+)", own)
    return {"": own, **{name: ask([program, "help", name])[0].decode() for name in names}}


def parts_of(page):
    """The words of a page, and those of each subsection by the first word of its heading. What stands outside has none."""
    whole, parts, part = "", {}, ""
    for line in page.splitlines():
        if re.match("[^ ]", line):
            part = ""
        elif re.match("   [^ ]", line):
            part = line.split()[0]
        parts[part] = parts.get(part, "") + plain(" " + line)
        whole += plain(" " + line)
    return whole, parts


def lacking_lines(page, program):
    """The lines of the helps whose words a page lacks: outside the subsections and in that of the help's name, or anywhere where it has none."""
    whole, parts = parts_of(page)
    for name, text in helps(program).items():
        for line in lacking_of(text, parts.get(name, "") + parts[""] if name else whole):
            yield f"onuctl {'help ' + name if name else '--help'}: {line}"


def lacking_of_one(page, text):
    """The lines of a help whose words the page of this help alone lacks."""
    return lacking_of(text, parts_of(page)[0])


def lacking_of(text, within):
    for line in text.splitlines():
        words = re.sub("^ (usage|example): ", " ", plain(" " + line))
        if not re.fullmatch("( [a-z]+:)?", words) and words not in within:
            yield line


def examples_of(text):
    """The blocks of commands among a page's examples, from what the page is written in. A folded line is joined."""
    section = re.search(r"^\.SH EXAMPLES\n(.*?)(?=^\.SH |\Z)", text, re.M | re.S)
    for block in re.findall(r"^\.nf\n(.*?)^\.fi$", section[1] if section else "", re.M | re.S):
        for roff, character in ROFF:
            block = block.replace(roff, character)
        yield re.sub(r" \\\n +", " ", block)
