"""Why a program is refused: its first fault, with code, card and column, written from the language's rules alone.

refusal(cards) gives None for a program that is good, else (code, card, column).  The tokens are taken one by one by a small
machine with a stack of what is open; a token that it cannot take is P2 where it could with other blanks round it, else P3."""
from __future__ import annotations

import string
from typing import Callable, List, NamedTuple, NoReturn, Optional, Sequence, Set, Tuple

Place = Tuple[int, int]             # card and column
Piece = List[Tuple[str, Place]]     # characters, each with its place
Fault = Tuple[str, int, int]        # code, card and column

LETTERS, DIGITS = set(string.ascii_letters), set(string.digits)
NAMED = LETTERS | DIGITS | set('._')
SIGNS = ('**', '(', ')', '<', '>', ',', '=', ':', '*', '/', '+', '-', '|', '.', '$', '@', '~', '?', '&')
UNARY = set('+-$.@~?&*')
BINARY = {'**', '*', '/', '+', '-', '.', '$', '|'}


class Refused(Exception):
    def __init__(self, code: str, place: Place) -> None:
        self.fault: Fault = (code, *place)


def refuse(code: str, place: Place) -> NoReturn:
    raise Refused(code, place)


# ---- cards: each character stands with its place ----------------------------------------------------------------

def is_end_line(card: str) -> bool:
    return card[:3] == 'END' and (len(card) == 3 or card[3] in ' ;')


def read_cards(cards: Sequence[str]) -> Tuple[List[Piece], Piece]:
    """(the joined lines of statements, the END line's rest), as lists of (character, place)"""
    lines: List[Piece] = []
    for n, card in enumerate(cards, 1):
        placed = [(ch, (n, i)) for i, ch in enumerate(card, 1)]
        if card[:1] == '*':
            continue
        if card[:1] == '-':
            word = card[1:].split(' ')[0].upper()
            if word not in ('LIST', 'UNLIST', 'EJECT'):
                refuse('S3', (n, 1))
        elif card[:1] in ('+', '.'):
            if not lines:
                refuse('S2', (n, 1))
            lines[-1] += [(' ', (n, 1))] + placed[1:]
        elif is_end_line(card):
            return lines, placed[3:]
        else:
            lines.append(placed)
    refuse('S1', (len(cards) + 1, 1))


def pieces(line: Piece) -> List[Piece]:
    """Cut at each `;` outside literals."""
    out: List[Piece] = [[]]
    quote = ''
    for ch, place in line:
        if quote:
            quote = '' if ch == quote else quote
        elif ch in '\'"':
            quote = ch
        if ch == ';' and not quote:
            out.append([])
        else:
            out[-1].append((ch, place))
    return [p for p in out if any(ch != ' ' for ch, _ in p)]


# ---- tokens -----------------------------------------------------------------------------------------------------

class Token(NamedTuple):
    kind: str           # 'name', 'constant', 'label', 'S', 'F', or the sign itself
    place: Place
    before: bool        # whether a blank, or the statement's edge, is there
    after: bool


def tokens(piece: Piece, at: int) -> List[Token]:
    """The tokens from there on."""
    text = ''.join(ch for ch, _ in piece)
    out: List[Token] = []
    depth, own, colon = 0, 0, False                 # `own`: what the goto has open
    while True:
        begun = at
        while at < len(text) and text[at] == ' ':
            at += 1
        if at == len(text):
            return out
        before, start, ch = at > begun or not out, at, text[at]
        if colon and own == 1 and out[-1].kind == '(' and ch in LETTERS | DIGITS:
            kind = 'label'
            while at < len(text) and text[at] not in ' )':
                at += 1
        elif ch in LETTERS:
            while at < len(text) and text[at] in NAMED:
                at += 1
            word = text[start:at]
            kind = word if colon and own == 0 and word in ('S', 'F') else 'name'
        elif ch in DIGITS:
            kind = 'constant'
            while at < len(text) and text[at] in DIGITS:
                at += 1
            if int(text[start:at]) >= 2 ** 63:
                refuse('P1', piece[start][1])
        elif ch in '\'"':
            kind, at = 'constant', text.find(ch, at + 1) + 1
            if at == 0:
                refuse('P1', piece[start][1])
        else:
            kind = next((s for s in SIGNS if text.startswith(s, at)), '')
            if not kind:
                refuse('P3', piece[start][1])
            at += len(kind)
        if len(out) == 1000 or kind in '(<' and depth == 100:
            refuse('P6', piece[start][1])
        change = (kind in ('(', '<')) - (kind in (')', '>'))
        depth, own = max(0, depth + change), max(0, own + change) if colon else 0
        colon = colon or kind == ':'
        out.append(Token(kind, piece[start][1], before, at == len(text) or text[at] == ' '))


# ---- the grammar ------------------------------------------------------------------------------------------------

class Walk:
    """Where a statement is.  `state` says what is due:
    'start'    the subject, or a goto
    'operand'  an element
    'prefixed' an element that touches what is before
    'word'     an identifier, behind unary `&` or `*`
    'name'     behind an identifier: a bracket may touch it
    'first'    behind the subject
    'behind'   behind an operand
    'object'   behind `=`: an element, a goto or nothing
    'empty'    behind `(` or `,` of a call: an element, `,` or `)`
    'goto'     behind `:` or an outcome's target: a target or an outcome
    'due'      behind an outcome: its target
    'target', 'target-end', 'done'   in a target's parentheses, before them closing, behind the last target
    `open` has what is open: 'group', 'call', 'item'."""

    def __init__(self) -> None:
        self.state, self.has_equals, self.in_subject = 'start', False, True
        self.open: Tuple[str, ...] = ()
        self.targets: Tuple[str, ...] = ()      # the outcomes that were given
        self.in_computed = False                # within `($ ..)` of a goto

    def copy(self) -> Walk:
        new = Walk.__new__(Walk)
        new.__dict__.update(self.__dict__)
        return new

    def after_operand(self) -> str:
        if self.open:
            return 'behind'
        return 'target-end' if self.in_computed else 'first' if self.in_subject else 'behind'

    def take(self, t: Token) -> Optional[Walk]:
        """the walk behind this token, or None"""
        new = self.copy()
        return new if new.step(t) else None

    def step(self, t: Token) -> bool:
        taking: Callable[[Token], bool] = getattr(self, 'at_' + self.state.replace('-', '_'))
        return taking(t)

    def go(self, state: str) -> bool:
        self.state = state
        return True

    # elements
    def element(self, t: Token) -> bool:
        if t.kind == 'name':
            return self.go('name')
        if t.kind == 'constant':
            return self.go(self.after_operand())
        if t.kind == '(':
            self.open += ('group',)
            return self.go('operand')
        if t.kind in UNARY and not t.after:
            return self.go('word' if t.kind in '&*' else 'prefixed')
        return False

    at_prefixed = at_operand = element

    def at_word(self, t: Token) -> bool:
        return t.kind == 'name' and self.go(self.after_operand())

    def at_empty(self, t: Token) -> bool:
        return self.close_call(t) or self.element(t)

    def close_call(self, t: Token) -> bool:
        if t.kind == ',':
            return self.go('empty')
        if t.kind == ')':
            self.open = self.open[:-1]
            return self.go(self.after_operand())
        return False

    def at_name(self, t: Token) -> bool:
        if t.kind == '(' and not t.before:
            self.open += ('call',)
            return self.go('empty')
        if t.kind == '<' and not t.before:
            self.open += ('item',)
            return self.go('operand')
        self.state = self.after_operand()
        return self.step(t)

    # behind operands
    def at_behind(self, t: Token) -> bool:
        if self.open and self.open[-1] == 'call' and self.close_call(t):
            return True
        if self.open and t.kind == {'group': ')', 'item': '>', 'call': None}[self.open[-1]]:
            self.open = self.open[:-1]
            return self.go(self.after_operand())
        if t.kind in BINARY and t.before and t.after:
            return self.go('operand')
        return not self.open and self.begin_rest(t) or t.before and self.element(t)

    def begin_rest(self, t: Token) -> bool:
        """`=` or a goto, outside of all parentheses"""
        if t.kind == '=' and not self.has_equals and t.before and t.after:
            self.has_equals = True
            return self.go('object')
        return t.kind == ':' and t.before and self.go('goto')

    def at_first(self, t: Token) -> bool:
        if self.begin_rest(t):
            return True
        self.in_subject = False
        return t.before and self.element(t)

    def at_start(self, t: Token) -> bool:
        return t.kind == ':' and t.before and self.go('goto') or self.element(t)

    def at_object(self, t: Token) -> bool:
        self.in_subject = False
        return t.kind == ':' and t.before and self.go('goto') or self.element(t)

    # gotos
    def at_goto(self, t: Token) -> bool:
        if t.kind in ('S', 'F') and t.kind not in self.targets:
            self.targets += (t.kind,)
            return self.go('due')
        if t.kind == '(' and not self.targets:
            self.targets = ('S', 'F')
            return self.go('target')
        return False

    def at_due(self, t: Token) -> bool:
        return t.kind == '(' and self.go('target')

    def at_target(self, t: Token) -> bool:
        if t.kind == 'label':
            return self.go('target-end')
        if t.kind == '$' and not t.after:
            self.in_computed = True
            return self.go('prefixed')
        return False

    def at_target_end(self, t: Token) -> bool:
        if t.kind == ')':
            self.in_computed = False
            return self.go('done' if len(self.targets) == 2 else 'goto')
        return False

    def at_done(self, t: Token) -> bool:
        return False

    def may_end(self) -> bool:
        if self.state in ('start', 'done', 'object'):
            return True
        if self.state == 'goto':
            return bool(self.targets)
        return not self.open and not self.in_computed and self.state in ('name', 'first', 'behind')


def fits(walk: Walk, t: Token) -> bool:
    """whether the token could be taken with other blanks round it"""
    return any(walk.take(Token(t.kind, t.place, b, a)) for b in (False, True) for a in (False, True))


def lacks_variable(taken: List[Token], i: int) -> bool:
    """whether the element that begins with token i of those is known to be no variable"""
    if i >= len(taken):
        return False
    if taken[i].kind == 'name':
        return i + 1 < len(taken) and taken[i + 1].kind in '(<' and not taken[i + 1].before
    return taken[i].kind != '$'


def walked(piece: Piece, out: List[Token]) -> None:
    """Takes the tokens; refuses at the leftmost fault."""
    walk = Walk()
    taken: List[Token] = []
    fault = None
    wanting = []                                # the tokens at which a variable has to begin
    for t in out:
        new = walk.take(t)
        if new is None:
            fault = ('P2' if fits(walk, t) else 'P3', t.place)
            break
        was = walk.state if walk.state != 'name' else walk.after_operand()
        if t.kind in ('.', '@') and new.state == 'prefixed' or t.kind in ('.', '$') and was == 'behind' and new.state == 'operand':
            wanting.append(len(taken) + 1)
        if t.kind == '=':
            item = len(taken) > 1 and taken[0].kind == 'name' and taken[1].kind == '<'
            keyword = taken[0].kind == '&' and len(taken) == 2
            if lacks_variable(taken, 0) and not item and not keyword:
                wanting.append(0)
        walk = new
        taken.append(t)
    for i in sorted(wanting):
        if i == 0 or lacks_variable(taken, i):
            refuse('P5', taken[i].place)
    if fault:
        refuse(*fault)
    if not walk.may_end():
        card, column = [place for ch, place in piece if ch != ' '][-1]
        refuse('P3', (card, column + 1))


def refuse_first(cards: Sequence[str]) -> None:
    lines, rest = read_cards(cards)
    labels: Set[str] = set()
    for line in lines:
        for piece in pieces(line):
            at, text = 0, ''.join(ch for ch, _ in piece)
            if text[0] != ' ':
                label = text.split(' ')[0]
                if text[0] not in LETTERS | DIGITS:
                    refuse('P3', piece[0][1])
                if label in labels or label in ('RETURN', 'FRETURN'):
                    refuse('P4', piece[0][1])
                if label == 'END':
                    refuse('P7', piece[0][1])
                labels.add(label)
                at = len(label)
            walked(piece, tokens(piece, at))
    text = ''.join(ch for ch, _ in rest).split(';')[0]
    if text.strip(' ') and text.strip(' ') not in labels | {'END'}:
        refuse('P7', rest[len(text) - len(text.lstrip(' '))][1])


def refusal(cards: Sequence[str]) -> Optional[Fault]:
    try:
        refuse_first(cards)
    except Refused as refused:
        return refused.fault
    return None


def verdict(cards: Sequence[str]) -> str:
    found = refusal(cards)
    return 'parsed' if found is None else 'REFUSED %s CARD %d COLUMN %d' % found
