"""An explanation: sentences, lines of the plan and tables, each with who says so, for a terminal and for a page."""
import textwrap
from dataclasses import dataclass, field

from .shown import escaped

# who says so
PROVED = 'proved'               # a proved function said it
CONFIRMED = 'confirmed'         # found by search, and a proved function said yes to it
FOUND = 'found'                 # found by search, worded by this package
MEANING = {PROVED: 'said by a proved function', CONFIRMED: 'found by search, then confirmed by a proved function',
           FOUND: 'found by search and worded by this package, not proved'}
WIDTH = 100


@dataclass
class Shown:
    """A line of the plan with marks under parts of it, (column, width), and a remark. `sign` is - or + in a change."""
    label: str
    text: str
    marks: list = field(default_factory=list)
    remark: str = ''
    sign: str = ''


@dataclass
class Change:
    """A change that was tried: what it is, its lines, the plan with it, and what the proved check said of that."""
    words: str
    lines: list
    plan: object
    number: int
    place: int


@dataclass
class Block:
    kind: str                   # says: a sentence; lines: a list of Shown; steps: rows of a table
    content: object
    by: str = ''


@dataclass
class Explanation:
    """What a refusal, or the answer to a question, means. `focus` are the operations to look at; `run` is a full run
    that goes wrong, with `confirmed` for the proved trace function's yes; `said_by` has, for each of PROVED, CONFIRMED
    and FOUND, what of all this it is true of."""
    number: int
    place: int
    headline: str
    where: str = ''             # FILE:LINE:COLUMN
    verdict: str = ''
    blocks: list = field(default_factory=list)
    changes: list = field(default_factory=list)
    last: list = field(default_factory=list)        # sentences after the changes
    said_by: dict = field(default_factory=dict)
    focus: list = field(default_factory=list)
    run: list = None
    confirmed: bool = False
    missing: object = None                          # an order that is asked for: a Broken or an OutOfTurn
    lead: list = field(default_factory=list)        # links that lead to the circle
    circle: list = field(default_factory=list)
    order: object = field(default=None, repr=False)

    def __post_init__(self):
        self.verdict = self.verdict or f'refused {self.number} {self.place}'
        self.claim(PROVED, self.verdict)

    def claim(self, by, what):
        self.said_by.setdefault(by, []).append(what)

    def says(self, text, by=''):
        self.blocks.append(Block('says', text, by))

    def lines(self, *shown, by=''):
        self.blocks.append(Block('lines', list(shown), by))

    def steps(self, rows, by=''):
        self.blocks.append(Block('steps', rows, by))

    def try_change(self, change):
        """Shows a change that was tried."""
        self.changes.append(change)
        if len(self.changes) == 1:
            self.claim(CONFIRMED, 'what the plan with the change gets, by the proved check')

    # ---- a terminal
    def text(self, colour=False):
        def paint(code, text):
            return f'\033[{code}m{text}\033[0m' if colour and text else text
        where = paint('1', f'{self.where}: ') if self.where else ''
        out = [f'{where}{paint("1;31", self.verdict)}: {paint("1", self.headline)}', '']
        for block in self.blocks:
            out += self._block(block, paint) + ['']
        for change in self.changes:
            out += [*textwrap.wrap(change.words, WIDTH), *_code(change.lines, paint), '']
        for text in self.last:
            out += [*textwrap.wrap(text, WIDTH), '']
        for by in MEANING:
            if by in self.said_by and len(self.said_by) > 1:
                out += textwrap.wrap(f'{by + ":":11}' + '; '.join(self.said_by[by]), WIDTH, subsequent_indent=' ' * 11)
        return '\n'.join(out).rstrip() + '\n'

    @staticmethod
    def _block(block, paint):
        if block.kind == 'says':
            return textwrap.wrap(block.content, WIDTH)
        if block.kind == 'lines':
            return _code(block.content, paint)
        return ['    ' + line for line in _table(block.content)]

    def __str__(self):
        return self.text()

    # ---- a page
    def html(self):
        """A section for a page; the page has the style."""
        e = escaped
        out = [f'<h2>{e(self.verdict.capitalize())}</h2><p class="head">{e(self.headline)}</p>']
        for block in self.blocks:
            badge = f'<span class="by {block.by}" title="{MEANING[block.by]}">{block.by}</span>' if block.by else ''
            if block.kind == 'says':
                out.append(f'<p>{e(block.content)}{" " + badge if badge else ""}</p>')
            elif block.kind == 'lines':
                out.append(_code_html(block.content) + badge)
            else:
                rows = ''.join('<tr>' + ''.join(f'<td>{e(str(cell))}</td>' for cell in row) + '</tr>'
                               for row in block.content)
                out.append(f'<table class="steps">{rows}</table>{badge}')
        badge = f' <span class="by {CONFIRMED}" title="{MEANING[CONFIRMED]}">{CONFIRMED}</span>'
        for change in self.changes:
            out.append(f'<p>{e(change.words)}{badge}</p>{_code_html(change.lines)}')
        out += [f'<p>{e(text)}</p>' for text in self.last]
        if len(self.said_by) > 1:
            rows = ''.join(f'<tr><td><span class="by {by}">{by}</span></td><td>{MEANING[by]}:</td>'
                           f'<td>{e("; ".join(self.said_by[by]))}</td></tr>' for by in MEANING if by in self.said_by)
            out.append(f'<table class="sources">{rows}</table>')
        return '\n'.join(out)

    _repr_html_ = html


def _code(shown, paint):
    """Lines with their labels, marks below and remarks after those."""
    width = max(len(s.label) for s in shown)
    out = []
    for s in shown:
        line = f'  {s.label:>{width}} {s.sign or "|"} {s.text}'.rstrip()
        out.append(paint({'-': '31', '+': '32'}[s.sign], line) if s.sign else line)
        if s.marks:
            under = ''
            for column, length in sorted(s.marks):
                under = under.ljust(column - 1) + '^' * length
            out.append(f'  {"":>{width}} | ' + paint('31', f'{under} {s.remark}'.rstrip()))
        elif s.remark:
            out[-1] += f'   {s.remark}'
    return out


def _code_html(shown):
    e, out = escaped, []
    width = max(len(s.label) for s in shown)
    for s in shown:
        text, at = '', 0
        for column, length in sorted(s.marks):
            text += e(s.text[at:column - 1]) + f'<b>{e(s.text[column - 1:column - 1 + length])}</b>'
            at = column - 1 + length
        text += e(s.text[at:])
        kind = {'-': ' class="out"', '+': ' class="in"'}.get(s.sign, '')
        remark = f'   <i>{e(s.remark)}</i>' if s.remark else ''
        out.append(f'<span{kind}>{s.label:>{width}} {s.sign or "|"} {text}{remark}</span>')
    return '<pre>' + ''.join(out) + '</pre>'


def _table(rows):
    widths = [max(len(str(row[k])) for row in rows) for k in range(len(rows[0]))]
    return ['  '.join(str(cell).ljust(width) for cell, width in zip(row, widths)).rstrip() for row in rows]
