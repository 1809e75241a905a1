"""The pages of the lesson: each chapter of docs/TUTORIAL.md as HTML, with a run beside the text that one may change."""
import base64
import html
import os
import re

BESIDE = "../playground.html"
# The commands of the tutorial that the module has: the words of a command line, and what the module calls them.
COMMANDS = {
    "awreg replay": "replay", "awreg check": "check", "awreg play": "play", "awreg play --fair": "play-fair",
    "awshow trace": "trace", "awshow rest": "rest", "awshow data": "data", "awshow schedule": "schedule",
    "awshow schedule --fair": "schedule-fair", "awshow outcomes --all": "outcomes-all",
    "awshow find serial": "find-serial", "awshow find points": "find-points", "awshow verify": "verify",
    "awshow why": "why",
}
# Both programs have these.
COMMANDS |= {words.replace("awreg", "awshow"): name for words, name in COMMANDS.items() if words.startswith("awreg")}
# A text that the playground shows: a schedule, a report or a workload.
TEXT = re.compile(r"(?:#.*\n|\n)*(?:processes \d|awreg report|front = )")
PICTURE = re.compile(r"!\[([^]]*)\]\(([^)]+)\)")
INLINE = re.compile(r"`([^`]+)`|\[([^]]+)\]\(([^)]+)\)|\*\*([^*]+)\*\*|\*([^*]+)\*")


def fragment(text):
    """The part of the playground's address that holds a text."""
    return "#text=" + base64.urlsafe_b64encode(text.encode()).decode().rstrip("=")


def split(text):
    """The chapters by their numbers, each with its title and its lines, and the lines of the answers."""
    chapters, answers, lines = {}, [], []
    for line in text.split("\n"):
        found = re.fullmatch(r"## (\d+)\. (.*)", line)
        if found or line == "## Answers":
            lines = answers
            if found:
                lines = []
                chapters[int(found[1])] = (found[2], lines)
        else:
            lines.append(line)
    return chapters, answers


class Chapter:
    """What a chapter needs of the tree: the texts of its files, and which files of the lesson it names."""

    def __init__(self, top):
        self.top = top
        self.files = []

    def read(self, path):
        with open(f"{self.top}/{path}", encoding="utf-8") as file:
            return file.read()

    # ---------- within a paragraph

    def inline(self, text):
        """A paragraph's text as HTML."""
        parts, at = [], 0
        for found in INLINE.finditer(text):
            parts += [html.escape(text[at:found.start()], quote=False), self.span(found)]
            at = found.end()
        return "".join(parts) + html.escape(text[at:], quote=False)

    def span(self, found):
        code, label, target, strong, slanted = found.groups()
        if code:
            return self.code(code)
        if label:
            return self.link(label, target)
        word = "strong" if strong else "em"
        return f"<{word}>{self.inline(strong or slanted)}</{word}>"

    def code(self, words):
        """Code; a playground with a text is a link that opens that text beside."""
        shown = f"<code>{html.escape(words, quote=False)}</code>"
        if not words.startswith("tools/playground"):
            return shown
        path = words.split()[-1]
        text = self.read(path) if path.startswith("examples/") and os.path.exists(f"{self.top}/{path}") else None
        if text is None:
            return shown
        return self.beside(text, f"<code>{html.escape(path, quote=False)}</code>")

    def beside(self, text, shown):
        return f'<a class="beside" target="run" href="{BESIDE}{fragment(text)}">{shown}</a>'

    def link(self, label, target):
        """A link, if what it leads to is in the folder: a page of a run is. Else its text alone."""
        shown = self.inline(label)
        if not target.startswith("pages/"):
            return shown
        self.files.append(target)
        return f'<a href="{html.escape(target)}">{shown}</a>'

    # ---------- blocks

    def block(self, lines):
        """A block of code: a text that the playground shows, commands with what they print, or else as it stands."""
        text = "\n".join(lines) + "\n"
        shown = f"<pre>{html.escape(text, quote=False)}</pre>"
        if TEXT.match(text):
            return f'<div class="block">{shown}<p class="turns">{self.beside(text, "Open it beside")}</p></div>'
        return self.console(lines) if text.startswith("$ ") else shown

    def console(self, lines):
        """Commands, each with a button if the module has them."""
        parts = []
        for line in lines:
            if line.startswith("$ "):
                parts.append([line])
            else:
                parts[-1].append(line)
        return "".join(self.command(part) for part in parts)

    def command(self, lines):
        shown = f"<pre>{html.escape(chr(10).join(lines) + chr(10), quote=False)}</pre>"
        run = self.runnable(lines[0][2:])
        if run is None:
            return f'<div class="block">{shown}</div>'
        path, steps = run
        return (f'<div class="block" data-steps="{" ".join(steps)}" data-text="{html.escape(self.read(path))}">{shown}'
                f'<p class="turns"><button type="button" class="act">Run it</button></p></div>')

    def runnable(self, line):
        """The file that a command line reads, and the commands of the module that it is; None if it has others."""
        first, *later = line.split(" | ")
        found = re.fullmatch(r"(.*) < (examples/\S+)", first)
        words = [found[1], *later] if found else []
        if not words or not all(word in COMMANDS for word in words):
            return None
        return found[2], [COMMANDS[word] for word in words]

    def table(self, lines):
        def cells(line):
            return [self.inline(cell.strip()) for cell in line.strip().strip("|").split("|")]
        head, _, *rows = lines
        tops = "".join(f"<th>{cell}</th>" for cell in cells(head))
        body = "".join("<tr>" + "".join(f"<td>{cell}</td>" for cell in cells(row)) + "</tr>" for row in rows)
        return f"<table><thead><tr>{tops}</tr></thead><tbody>{body}</tbody></table>"

    def items(self, lines, mark):
        """A list: an item begins with its mark, and goes on where a line is indented."""
        found = [[]]
        for line in lines:
            if re.match(mark, line):
                found.append([])
            found[-1].append(re.sub(rf"^(?:{mark}|\s+)", "", line))
        return "".join(f"<li>{self.inline(' '.join(item))}</li>" for item in found if item)

    def paragraph(self, lines):
        picture = PICTURE.fullmatch(" ".join(lines))
        if picture:
            self.files.append(picture[2])
            return f'<p class="picture"><img src="{html.escape(picture[2])}" alt="{html.escape(picture[1])}"></p>'
        if lines[0].startswith("|"):
            return self.table(lines)
        if lines[0].startswith("- "):
            return f'<ul>{self.items(lines, "- ")}</ul>'
        if re.match(r"\d+\. ", lines[0]):
            return f'<ol>{self.items(lines, chr(92) + "d+" + chr(92) + ". ")}</ol>'
        if all(line.startswith("    ") for line in lines):
            return f'<pre>{html.escape(chr(10).join(line[4:] for line in lines) + chr(10), quote=False)}</pre>'
        return f'<p>{self.inline(" ".join(lines))}</p>'

    def body(self, lines):
        """The blocks of a chapter as HTML."""
        made, held, fenced = [], [], False
        for line in [*lines, ""]:
            if line == "```":
                if fenced:
                    made.append(self.block(held))
                elif held:
                    made.append(self.paragraph(held))
                held, fenced = [], not fenced
            elif fenced or line:
                held.append(line)
            elif held:
                made.append(self.paragraph(held))
                held = []
        return "\n".join(made)


def first_text(lines):
    """The first text of a chapter that the playground shows, or none."""
    blocks = re.findall(r"^```\n(.*?)^```$", "\n".join(lines), re.M | re.S)
    return next((block for block in blocks if TEXT.match(block)), None)


def answer_of(chapter, answers, number):
    """The answer to a chapter's question, to be opened."""
    found = re.search(rf"^{number}\. (.*?)(?=^\d+\. |\Z)", "\n".join(answers), re.M | re.S)
    if not found:
        return ""
    text = " ".join(found[1].split())
    return f"<details><summary>Answer to question {number}</summary><p>{chapter.inline(text)}</p></details>"


def pages(top, template):
    """The pages by their names, and the other files that they show, by their paths below docs."""
    chapter = Chapter(top)
    chapters, answers = split(chapter.read("docs/TUTORIAL.md"))
    made = {}
    for number, (title, lines) in chapters.items():
        # A lesson begins with clicks, over a text in which nothing has happened.
        text = first_text(lines) if number > 1 else None
        list_of = "".join(f'<option value="{other}.html"{" selected" if other == number else ""}>{other}. '
                          f'{html.escape(name, quote=False)}</option>' for other, (name, _) in chapters.items())
        next_one = f'<a class="act" href="{number + 1}.html">Next: {number + 1}. ' \
                   f'{html.escape(chapters[number + 1][0], quote=False)}</a>' if number + 1 in chapters else ""
        parts = {"title": f"{number}. {html.escape(title, quote=False)}", "chapters": list_of, "next": next_one,
                 "body": chapter.body(lines) + answer_of(chapter, answers, number),
                 "run": BESIDE + (fragment(text) if text else "")}
        made[f"{number}.html"] = re.sub(r"<!-- (\w+) -->", lambda found: parts[found[1]], template)
    return made, sorted(set(chapter.files)), {number: title for number, (title, _) in chapters.items()}
