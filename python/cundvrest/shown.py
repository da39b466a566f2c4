"""What can be shown. Control characters, halves of pairs and the two that are no characters would end a picture, or
speak to a terminal: a text that has one is refused (text.py), and wherever else one could come from, a file's name or
a note of a program, it is replaced before it is shown."""
import html
import re

HIDDEN = re.compile('[\x00-\x08\x0b-\x1f\x7f-\x9f\ud800-\udfff\ufffe\uffff]')       # tab and line feed are not
REPLACED = '\ufffd'


def printable(text):
    """The text with each such character replaced."""
    return HIDDEN.sub(REPLACED, text)


def one_line(text):
    """The same, on one line and without tabs: for names of files."""
    return re.sub('[\t\n]', REPLACED, printable(text))


def escaped(text):
    """The same, for SVG and HTML."""
    return html.escape(printable(text))
