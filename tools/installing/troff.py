"""Text of manual pages, as troff reads it."""
from pathlib import Path

ROOT = Path(__file__).resolve().parent.parent.parent


def escaped(text):
    text = text.replace("\\", "\\e").replace("-", "\\-").replace("'", "\\(aq").replace("`", "\\(ga")
    return "\\&" + text if text.startswith((".", "\\(aq")) else text


def bold(text):
    return "\\fB" + escaped(text) + "\\fR"


def head(name, chapter, about):
    """The head of a page, with what it is about."""
    return '.TH "%s" %d "" "linsjoar %s"\n.SH NAME\n%s \\- %s' % (
        escaped(name.upper()), chapter, (ROOT / "VERSION").read_text().strip(), escaped(name), escaped(about[0].lower() + about[1:]))
