//! The reading of SNOBOL4 programs in plain Rust, for comparison with `crates/sno_*`: std alone, no contract and no proof.
//!
//! Reads the cards of a program from standard input, makes its statements and their trees, and says `parsed`, or at which
//! place the program is refused (and not why). What it reads is what `crates/sno_syntax` reads, and what it makes is the
//! same: a program that outlives its cards, so each name, label and literal of a tree is a text of its own. Tokens are
//! slices of the joined cards, in one list that is used again for each statement, and places are found by one segment a
//! card. `jobs.rs` runs what it reads.

use std::collections::HashMap;
use std::hint::black_box;
use std::io::{self, Read};
use std::process::ExitCode;

const LONGEST_CARD: usize = 200;
const MOST_TOKENS: usize = 1_000;
const MOST_OPEN: usize = 100;

#[derive(Clone, Copy, PartialEq)]
pub enum Mark {
    Power,
    Star,
    Slash,
    Plus,
    Minus,
    Bar,
    Dot,
    Dollar,
    At,
    Tilde,
    Question,
    Ampersand,
}

#[derive(Clone, Copy)]
enum Kind<'a> {
    Identifier(&'a [u8]),
    Literal(&'a [u8]),
    Integer(i64),
    Mark(Mark),
    Open,
    Close,
    Less,
    Greater,
    Comma,
    Equals,
    Colon,
    /// `S`, or else `F`.
    Outcome(bool),
    Label(&'a [u8]),
}

#[derive(Clone, Copy)]
struct Token<'a> {
    kind: Kind<'a>,
    offset: usize,
    blank_before: bool,
    blank_after: bool,
}

#[derive(Clone, Copy)]
pub enum Operator {
    Alternation,
    Concatenation,
    Minus,
    Plus,
    Over,
    Times,
    Power,
    Immediate,
    Conditional,
}

impl Operator {
    fn of(mark: Mark) -> Option<Operator> {
        match mark {
            Mark::Power => Some(Operator::Power),
            Mark::Star => Some(Operator::Times),
            Mark::Slash => Some(Operator::Over),
            Mark::Plus => Some(Operator::Plus),
            Mark::Minus => Some(Operator::Minus),
            Mark::Bar => Some(Operator::Alternation),
            Mark::Dot => Some(Operator::Conditional),
            Mark::Dollar => Some(Operator::Immediate),
            Mark::At | Mark::Tilde | Mark::Question | Mark::Ampersand => None,
        }
    }

    fn precedence(self) -> u8 {
        match self {
            Operator::Alternation => 1,
            Operator::Concatenation => 2,
            Operator::Minus | Operator::Plus => 3,
            Operator::Over => 4,
            Operator::Times => 5,
            Operator::Power => 6,
            Operator::Immediate | Operator::Conditional => 7,
        }
    }

    fn is_right_associative(self) -> bool {
        matches!(self, Operator::Alternation | Operator::Concatenation | Operator::Power)
    }

    fn needs_variable(self) -> bool {
        matches!(self, Operator::Immediate | Operator::Conditional)
    }
}

/// A name, label or literal of a tree. It is a text of its own, since the program outlives its cards.
pub type Text = Box<[u8]>;

// Nothing here goes over the trees once they are made.
#[allow(dead_code)]
pub enum Expression {
    Identifier(Text),
    Literal(Text),
    Integer(i64),
    Keyword(Text),
    Unevaluated(Text),
    Group(Box<Expression>),
    Call(Text, Vec<Option<Expression>>),
    Item(Text, Box<Expression>),
    Unary(Mark, Box<Expression>),
    Binary(Operator, Box<Expression>, Box<Expression>),
}

impl Expression {
    fn is_variable(&self) -> bool {
        matches!(self, Expression::Identifier(_) | Expression::Unary(Mark::Dollar, _))
    }
}

#[allow(dead_code)]
pub enum Target {
    Label(Text),
    Computed(Expression),
}

#[allow(dead_code)]
pub enum Object {
    Nothing,
    Null,
    Value(Expression),
}

#[derive(Default)]
#[allow(dead_code)]
pub struct Goto {
    pub always: Option<Target>,
    pub success: Option<Target>,
    pub failure: Option<Target>,
}

#[allow(dead_code)]
pub struct Statement {
    pub subject: Option<Expression>,
    pub pattern: Option<Expression>,
    pub object: Object,
    pub goto: Option<Box<Goto>>,
}

/// The statements' text: each line joined with its continuations, and where each card's part of it begins.
#[derive(Default)]
pub struct Joined {
    text: Vec<u8>,
    /// The offset and the number of each card; column 1 is its first character.
    segments: Vec<(usize, usize)>,
    /// The offset behind each joined line.
    ends: Vec<usize>,
}

impl Joined {
    fn place(&self, refused: Refused) -> (usize, usize) {
        let (offset, further) = match refused {
            Refused::At(offset) => (offset, 0),
            Refused::Behind(offset) => (offset, 1),
        };
        let index = self.segments.partition_point(|(begin, _)| *begin <= offset) - 1;
        let (begin, card) = self.segments[index];
        (card, offset - begin + 1 + further)
    }
}

/// What comes first on the cards, or the card that is refused.
pub struct Cards {
    joined: Joined,
    /// What stands behind END, and its card.
    pub end: (Vec<u8>, usize),
}

fn is_control(rest: &[u8]) -> bool {
    let name = rest.split(|byte| *byte == b' ').next().unwrap_or(b"");
    [b"LIST".as_slice(), b"UNLIST", b"EJECT"].iter().any(|known| name.eq_ignore_ascii_case(known))
}

fn is_end(line: &[u8]) -> bool {
    line.starts_with(b"END") && matches!(line.get(3), None | Some(b' ' | b';'))
}

pub fn join(cards: &[u8]) -> Result<Cards, (usize, usize)> {
    let mut joined = Joined::default();
    let mut begun = false;
    let mut card = 0;
    for line in cards.split_inclusive(|byte| *byte == b'\n') {
        let line = line.strip_suffix(b"\n").unwrap_or(line);
        card += 1;
        if line.len() > LONGEST_CARD || !is_printable(line) {
            return Err((card, 1));
        }
        match line.first() {
            Some(b'*') => continue,
            Some(b'-') if is_control(&line[1..]) => continue,
            Some(b'-') => return Err((card, 1)),
            Some(b'+' | b'.') if !begun => return Err((card, 1)),
            Some(b'+' | b'.') => {
                joined.segments.push((joined.text.len(), card));
                joined.text.push(b' ');
                joined.text.extend_from_slice(&line[1..]);
            }
            _ => {
                if begun {
                    joined.ends.push(joined.text.len());
                }
                if is_end(line) {
                    let rest = line[3..].split(|byte| *byte == b';').next().unwrap_or(b"");
                    return Ok(Cards { joined, end: (rest.to_vec(), card) });
                }
                begun = true;
                joined.segments.push((joined.text.len(), card));
                joined.text.extend_from_slice(line);
            }
        }
    }
    Err((card + 1, 1))
}

/// The ends of the pieces of a line: each `;` outside literals, and its own end.
fn next_cut(text: &[u8], from: usize, end: usize) -> usize {
    let mut literal = None;
    for (offset, byte) in text[from..end].iter().enumerate() {
        match literal {
            None if *byte == b';' => return from + offset,
            None if matches!(byte, b'\'' | b'"') => literal = Some(*byte),
            Some(quote) if quote == *byte => literal = None,
            _ => {}
        }
    }
    end
}

/// The offset of the character at which a text is refused, or behind which it ends too early.
enum Refused {
    At(usize),
    Behind(usize),
}

fn run(text: &[u8], from: usize, end: usize, belongs: impl Fn(u8) -> bool) -> usize {
    let length = text[from..end].iter().position(|byte| !belongs(*byte)).unwrap_or(end - from);
    from + length
}

fn mark_of(first: u8, second: Option<u8>) -> Option<Mark> {
    Some(match first {
        b'*' if second == Some(b'*') => Mark::Power,
        b'*' => Mark::Star,
        b'/' => Mark::Slash,
        b'+' => Mark::Plus,
        b'-' => Mark::Minus,
        b'|' => Mark::Bar,
        b'.' => Mark::Dot,
        b'$' => Mark::Dollar,
        b'@' => Mark::At,
        b'~' => Mark::Tilde,
        b'?' => Mark::Question,
        b'&' => Mark::Ampersand,
        _ => return None,
    })
}

// Without a way out in the middle, so that it looks at many bytes at once.
fn is_printable(text: &[u8]) -> bool {
    text.iter().fold(true, |is_good, byte| is_good & matches!(byte, b' '..=b'~'))
}

/// The tokens of a text, into a list that is used again for each statement.
fn lex<'a>(text: &'a [u8], from: usize, end: usize, tokens: &mut Vec<Token<'a>>) -> Result<(), Refused> {
    tokens.clear();
    let (mut open, mut inside) = (0_usize, 0_usize);
    let (mut in_goto, mut at_target, mut blank_before) = (false, false, true);
    let mut at = from;
    while at < end {
        let first = text[at];
        if first == b' ' {
            blank_before = true;
            at += 1;
            continue;
        }
        let next = text[..end].get(at + 1).copied();
        let (kind, behind) = match first {
            _ if at_target && first.is_ascii_alphanumeric() => {
                let behind = run(text, at, end, |byte| byte != b' ' && byte != b')');
                (Kind::Label(&text[at..behind]), behind)
            }
            b'A'..=b'Z' | b'a'..=b'z' => {
                let behind = run(text, at, end, |byte| byte.is_ascii_alphanumeric() || byte == b'.' || byte == b'_');
                match &text[at..behind] {
                    b"S" if in_goto && inside == 0 => (Kind::Outcome(true), behind),
                    b"F" if in_goto && inside == 0 => (Kind::Outcome(false), behind),
                    name => (Kind::Identifier(name), behind),
                }
            }
            b'0'..=b'9' => {
                let behind = run(text, at, end, |byte| byte.is_ascii_digit());
                let value = text[at..behind].iter().try_fold(0_i64, |value, byte| {
                    value.checked_mul(10)?.checked_add(i64::from(byte - b'0'))
                });
                (Kind::Integer(value.ok_or(Refused::At(at))?), behind)
            }
            b'\'' | b'"' => {
                let behind = run(text, at + 1, end, |byte| byte != first);
                if behind == end || !is_printable(&text[at..behind]) {
                    return Err(Refused::At(at));
                }
                (Kind::Literal(&text[at + 1..behind]), behind + 1)
            }
            b'(' => (Kind::Open, at + 1),
            b')' => (Kind::Close, at + 1),
            b'<' => (Kind::Less, at + 1),
            b'>' => (Kind::Greater, at + 1),
            b',' => (Kind::Comma, at + 1),
            b'=' => (Kind::Equals, at + 1),
            b':' => (Kind::Colon, at + 1),
            _ => {
                let mark = mark_of(first, next).ok_or(Refused::At(at))?;
                (Kind::Mark(mark), at + if mark == Mark::Power { 2 } else { 1 })
            }
        };
        let is_open = matches!(kind, Kind::Open | Kind::Less);
        if tokens.len() == MOST_TOKENS || is_open && open == MOST_OPEN {
            return Err(Refused::At(at));
        }
        at_target = matches!(kind, Kind::Open) && in_goto && inside == 0;
        match kind {
            Kind::Open | Kind::Less => {
                open += 1;
                inside += usize::from(in_goto);
            }
            Kind::Close | Kind::Greater => {
                open = open.saturating_sub(1);
                inside = inside.saturating_sub(1);
            }
            Kind::Colon => in_goto = true,
            _ => {}
        }
        let blank_after = behind == end || text[behind] == b' ';
        tokens.push(Token { kind, offset: at, blank_before, blank_after });
        blank_before = false;
        at = behind;
    }
    Ok(())
}

/// A statement's tokens, how far they are read, and the leftmost place that needs a variable and has none.
struct Parser<'a, 't> {
    tokens: &'t [Token<'a>],
    at: usize,
    misfit: Option<usize>,
}

/// The tokens do not fit at the parser's place.
struct Unfit;

impl<'a> Parser<'a, '_> {
    fn peek(&self) -> Option<Token<'a>> {
        self.tokens.get(self.at).copied()
    }

    fn note(&mut self, at: usize) {
        self.misfit = Some(self.misfit.map_or(at, |other| other.min(at)));
    }

    fn identifier_that_touches(&mut self) -> Result<&'a [u8], Unfit> {
        match self.peek() {
            Some(Token { kind: Kind::Identifier(name), blank_before: false, .. }) => {
                self.at += 1;
                Ok(name)
            }
            _ => Err(Unfit),
        }
    }

    fn element(&mut self, needs_variable: bool) -> Result<Expression, Unfit> {
        let begin = self.at;
        let token = self.peek().ok_or(Unfit)?;
        let element = match token.kind {
            Kind::Identifier(name) => {
                self.at += 1;
                match self.peek() {
                    Some(Token { kind: Kind::Open, blank_before: false, .. }) => {
                        if needs_variable {
                            self.note(begin);
                        }
                        self.at += 1;
                        Expression::Call(name.into(), self.arguments()?)
                    }
                    Some(Token { kind: Kind::Less, blank_before: false, .. }) => {
                        if needs_variable {
                            self.note(begin);
                        }
                        self.at += 1;
                        let key = self.expression(0)?;
                        match self.peek() {
                            Some(Token { kind: Kind::Greater, .. }) => self.at += 1,
                            _ => return Err(Unfit),
                        }
                        Expression::Item(name.into(), Box::new(key))
                    }
                    _ => Expression::Identifier(name.into()),
                }
            }
            Kind::Literal(text) => {
                self.at += 1;
                Expression::Literal(text.into())
            }
            Kind::Integer(value) => {
                self.at += 1;
                Expression::Integer(value)
            }
            Kind::Open => {
                self.at += 1;
                let inner = self.expression(0)?;
                self.close()?;
                Expression::Group(Box::new(inner))
            }
            Kind::Mark(mark) if !token.blank_after => self.unary(mark)?,
            _ => return Err(Unfit),
        };
        if needs_variable && !element.is_variable() {
            self.note(begin);
        }
        Ok(element)
    }

    fn unary(&mut self, mark: Mark) -> Result<Expression, Unfit> {
        if matches!(mark, Mark::Power | Mark::Slash | Mark::Bar) {
            return Err(Unfit);
        }
        self.at += 1;
        match mark {
            Mark::Ampersand => Ok(Expression::Keyword(self.identifier_that_touches()?.into())),
            Mark::Star => Ok(Expression::Unevaluated(self.identifier_that_touches()?.into())),
            _ => {
                if self.peek().is_none_or(|token| token.blank_before) {
                    return Err(Unfit);
                }
                let operand = self.element(matches!(mark, Mark::Dot | Mark::At))?;
                Ok(Expression::Unary(mark, Box::new(operand)))
            }
        }
    }

    fn close(&mut self) -> Result<(), Unfit> {
        match self.peek() {
            Some(Token { kind: Kind::Close, .. }) => {
                self.at += 1;
                Ok(())
            }
            _ => Err(Unfit),
        }
    }

    fn arguments(&mut self) -> Result<Vec<Option<Expression>>, Unfit> {
        let mut arguments = Vec::new();
        loop {
            match self.peek().ok_or(Unfit)?.kind {
                Kind::Comma | Kind::Close => arguments.push(None),
                _ => arguments.push(Some(self.expression(0)?)),
            }
            match self.peek().ok_or(Unfit)?.kind {
                Kind::Comma => self.at += 1,
                Kind::Close => {
                    self.at += 1;
                    return Ok(arguments);
                }
                _ => return Err(Unfit),
            }
        }
    }

    /// The binary operator that comes next, and whether it has a mark.
    fn operator(&self) -> Option<(Operator, bool)> {
        let token = self.peek()?;
        if !token.blank_before {
            return None;
        }
        match token.kind {
            Kind::Mark(mark) if token.blank_after => Some((Operator::of(mark)?, true)),
            Kind::Mark(Mark::Power | Mark::Slash | Mark::Bar) => None,
            Kind::Mark(_) | Kind::Identifier(_) | Kind::Literal(_) | Kind::Integer(_) | Kind::Open => {
                Some((Operator::Concatenation, false))
            }
            _ => None,
        }
    }

    /// An expression whose operators have this precedence at least.
    fn expression(&mut self, least: u8) -> Result<Expression, Unfit> {
        let left = self.element(false)?;
        self.behind(left, least)
    }

    fn behind(&mut self, mut left: Expression, least: u8) -> Result<Expression, Unfit> {
        while let Some((operator, has_mark)) = self.operator() {
            let precedence = operator.precedence();
            if precedence < least {
                break;
            }
            if has_mark {
                self.at += 1;
                if self.peek().is_none_or(|token| !token.blank_before) {
                    return Err(Unfit);
                }
            }
            let first = self.element(operator.needs_variable())?;
            let right = self.behind(first, if operator.is_right_associative() { precedence } else { precedence + 1 })?;
            left = Expression::Binary(operator, Box::new(left), Box::new(right));
        }
        Ok(left)
    }

    fn target(&mut self) -> Result<Target, Unfit> {
        match self.peek() {
            Some(Token { kind: Kind::Open, .. }) => self.at += 1,
            _ => return Err(Unfit),
        }
        let target = match self.peek().ok_or(Unfit)?.kind {
            Kind::Label(label) => {
                self.at += 1;
                Target::Label(label.into())
            }
            Kind::Mark(Mark::Dollar) => Target::Computed(self.element(false)?),
            _ => return Err(Unfit),
        };
        self.close()?;
        Ok(target)
    }

    fn goto(&mut self) -> Result<Goto, Unfit> {
        let mut goto = Goto::default();
        if let Some(Token { kind: Kind::Open, .. }) = self.peek() {
            goto.always = Some(self.target()?);
            return Ok(goto);
        }
        while let Some(Token { kind: Kind::Outcome(is_success), .. }) = self.peek() {
            let place = if is_success { &mut goto.success } else { &mut goto.failure };
            if place.is_some() {
                return Err(Unfit);
            }
            self.at += 1;
            *place = Some(self.target()?);
        }
        if goto.success.is_none() && goto.failure.is_none() {
            return Err(Unfit);
        }
        Ok(goto)
    }

    fn is_next(&self, holds: impl Fn(Token<'a>) -> bool) -> bool {
        self.peek().is_some_and(holds)
    }

    fn statement(&mut self) -> Result<Statement, Unfit> {
        let is_colon = |token: Token| matches!(token.kind, Kind::Colon) && token.blank_before;
        let is_equals = |token: Token| matches!(token.kind, Kind::Equals) && token.blank_before && token.blank_after;
        let mut statement = Statement { subject: None, pattern: None, object: Object::Nothing, goto: None };
        if self.peek().is_some() && !self.is_next(is_colon) {
            let subject = self.element(false)?;
            if self.is_next(|token| token.blank_before) && !self.is_next(is_colon) && !self.is_next(is_equals) {
                statement.pattern = Some(self.expression(0)?);
            }
            if self.is_next(is_equals) {
                let is_keyword = matches!(subject, Expression::Keyword(_)) && statement.pattern.is_none();
                let is_item = matches!(subject, Expression::Item(..));
                if !is_keyword && !is_item && !subject.is_variable() {
                    self.note(0);
                }
                self.at += 1;
                statement.object = if self.peek().is_none() || self.is_next(is_colon) {
                    Object::Null
                } else {
                    Object::Value(self.expression(0)?)
                };
            }
            statement.subject = Some(subject);
        }
        if self.is_next(is_colon) {
            self.at += 1;
            statement.goto = Some(Box::new(self.goto()?));
        }
        if self.peek().is_some() { Err(Unfit) } else { Ok(statement) }
    }
}

/// The offset of the last character that is no blank.
fn last_of(text: &[u8], from: usize, end: usize) -> usize {
    text[from..end].iter().rposition(|byte| *byte != b' ').map_or(from, |last| from + last)
}

#[allow(dead_code)]
pub struct Program {
    pub statements: Vec<Statement>,
    pub labels: HashMap<Text, usize>,
    pub start: Option<usize>,
}

fn label_of(text: &[u8]) -> Result<Option<&[u8]>, Unfit> {
    let label = text.split(|byte| *byte == b' ').next().unwrap_or(b"");
    match label.first() {
        None => Ok(None),
        Some(first) if !first.is_ascii_alphanumeric() => Err(Unfit),
        Some(_) if [b"END".as_slice(), b"RETURN", b"FRETURN"].contains(&label) => Err(Unfit),
        Some(_) => Ok(Some(label)),
    }
}

fn read_statement<'a>(
    text: &'a [u8],
    from: usize,
    end: usize,
    labels: &mut HashMap<Text, usize>,
    index: usize,
    tokens: &mut Vec<Token<'a>>,
) -> Result<Statement, Refused> {
    let label = label_of(&text[from..end]).map_err(|Unfit| Refused::At(from))?;
    if label.is_some_and(|label| labels.insert(label.into(), index).is_some()) {
        return Err(Refused::At(from));
    }
    lex(text, from + label.map_or(0, <[u8]>::len), end, tokens)?;
    let mut parser = Parser { tokens, at: 0, misfit: None };
    let answer = parser.statement();
    let (at, misfit) = (parser.at, parser.misfit);
    let refused = |at: usize| match tokens.get(at) {
        Some(token) => Refused::At(token.offset),
        None => Refused::Behind(last_of(text, from, end)),
    };
    match (misfit, answer) {
        (Some(at), _) => Err(refused(at)),
        (None, Err(Unfit)) => Err(refused(at)),
        (None, Ok(statement)) => Ok(statement),
    }
}

pub fn read(cards: &Cards) -> Result<Program, (usize, usize)> {
    let joined = &cards.joined;
    let (mut statements, mut labels, mut tokens) = (Vec::new(), HashMap::new(), Vec::new());
    let mut from = 0;
    for &end in &joined.ends {
        loop {
            let cut = next_cut(&joined.text, from, end);
            if joined.text[from..cut].iter().any(|byte| *byte != b' ') {
                let index = statements.len();
                let statement = read_statement(&joined.text, from, cut, &mut labels, index, &mut tokens)
                    .map_err(|refused| joined.place(refused))?;
                statements.push(statement);
            }
            if cut == end {
                break;
            }
            from = cut + 1;
        }
        from = end;
    }
    let (rest, card) = &cards.end;
    let words: Vec<&[u8]> = rest.split(|byte| *byte == b' ').filter(|word| !word.is_empty()).collect();
    let start = match words[..] {
        [] | [b"END"] => None,
        [label] if labels.contains_key(label) => labels.get(label).copied(),
        _ => return Err((*card, 4 + rest.iter().position(|byte| *byte != b' ').unwrap_or(0))),
    };
    Ok(Program { statements, labels, start })
}

fn main() -> ExitCode {
    let mut cards = Vec::new();
    if let Err(error) = io::stdin().lock().read_to_end(&mut cards) {
        eprintln!("{error}");
        return ExitCode::from(2);
    }
    let answer = join(&cards);
    drop(cards);
    match answer.as_ref().map_err(|place| *place).and_then(read) {
        Ok(program) => {
            black_box(&program);
            println!("parsed");
            ExitCode::SUCCESS
        }
        Err((card, column)) => {
            println!("REFUSED CARD {card} COLUMN {column}");
            ExitCode::FAILURE
        }
    }
}
