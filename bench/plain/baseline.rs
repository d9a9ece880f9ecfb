//! The work of `snomon` in plain Rust, for comparison: std alone, no contract and no proof.
//!
//! Written for speed: names are numbers, and are hashed eight bytes at a time; line ends are looked for as many at a time, and a
//! line is tested without a way out. An account's groups are a set of bits, and what a check reads of a list's entries lies in
//! eight bytes of each. A user is found by halving, and no group of a list is looked at twice. Numbers are written by hand.
//!
//! Jobs run by `jobs.rs`, which is a part of this program.
//!
//! Reads a whole deck from standard input, writes the printouts and the catalogue, and tells of the first refusal as
//! `snomon` does; it takes no options. `docs/reference/deck.md` has the rules that both follow.

use std::collections::HashMap;
use std::fmt;
use std::hash::{BuildHasherDefault, Hasher};
use std::io::{self, BufWriter, Read, Write};
use std::process::ExitCode;

#[path = "jobs.rs"]
mod plain_jobs;
use plain_jobs::Text;

/// The longest line, in characters, in the catalogue section and elsewhere.
const CATALOGUE_LINE: usize = 5_000;
const LINE: usize = 200;
/// The longest record, in characters.
const RECORD: usize = 1_024;
const RECORDS: usize = 100_000;
const SETS: usize = 1_000;
const NAMED_ENTRIES: usize = 100;
const FURTHER_GROUPS: usize = 16;

const CARDS: [&[u8]; 14] = [
    b"$ACCOUNTS",
    b"$CATALOGUE",
    b"$SET",
    b"$STREAM",
    b"$CREATE",
    b"$DELETE",
    b"$SETACL",
    b"$ENDACL",
    b"$SHOWACL",
    b"$LIST",
    b"$CATALOG",
    b"$JOB",
    b"$DRAIN",
    b"$STOP",
];

/// The list of a data set that `$CREATE` makes.
const NEW_LIST: &[u8] = b"user::rwx,group::---,other::---";

#[derive(Clone, Copy)]
enum Code {
    BadName,
    BadCharacter,
    LineTooLong,
    AccountTwice,
    TooManyGroups,
    NameTaken,
    SetFull,
    CatalogueFull,
    BadText,
    UnknownCard,
    BadCard,
    OutOfPlace,
    Truncated,
}

impl fmt::Display for Code {
    fn fmt(&self, f: &mut fmt::Formatter<'_>) -> fmt::Result {
        f.write_str(match self {
            Code::BadName => "T1 BAD NAME",
            Code::BadCharacter => "T3 BAD CHARACTER",
            Code::LineTooLong => "T4 LINE TOO LONG",
            Code::AccountTwice => "C1 ACCOUNT TWICE",
            Code::TooManyGroups => "C2 TOO MANY GROUPS",
            Code::NameTaken => "K1 NAME TAKEN",
            Code::SetFull => "K3 SET FULL",
            Code::CatalogueFull => "K4 CATALOGUE FULL",
            Code::BadText => "K5 BAD TEXT",
            Code::UnknownCard => "E1 UNKNOWN CARD",
            Code::BadCard => "E2 BAD CARD",
            Code::OutOfPlace => "E3 OUT OF PLACE",
            Code::Truncated => "E4 TRUNCATED",
        })
    }
}

/// The lines of a deck that are still to come, and the number of the last one given out.
struct Lines<'a> {
    rest: &'a [u8],
    number: usize,
}

impl<'a> Lines<'a> {
    /// The next line, of at most `limit` characters. At the end of the deck the number is that of the line missed.
    fn next(&mut self, limit: usize) -> Result<&'a [u8], Code> {
        self.next_with(limit, |_| false)
    }

    /// The next line, in which tabs are good where `has_tabs` says so of it.
    fn next_with(
        &mut self,
        limit: usize,
        has_tabs: impl FnOnce(&[u8]) -> bool,
    ) -> Result<&'a [u8], Code> {
        self.number += 1;
        if self.rest.is_empty() {
            return Err(Code::Truncated);
        }
        let line = match line_end(self.rest) {
            Some(end) => {
                let line = &self.rest[..end];
                self.rest = &self.rest[end + 1..];
                line.strip_suffix(b"\r").unwrap_or(line)
            }
            None => std::mem::take(&mut self.rest),
        };
        if line.len() > limit {
            return Err(Code::LineTooLong);
        }
        let is_printable = |byte: &u8| (b' '..=b'~').contains(byte);
        if line
            .iter()
            .fold(true, |good, byte| good & is_printable(byte))
            || has_tabs(line) && line.iter().all(|byte| *byte == b'\t' || is_printable(byte))
        {
            Ok(line)
        } else {
            Err(Code::BadCharacter)
        }
    }

    /// The next line that is not blank.
    fn next_filled(&mut self, limit: usize) -> Result<&'a [u8], Code> {
        loop {
            let line = self.next(limit)?;
            if words(line).next().is_some() {
                return Ok(line);
            }
        }
    }
}

/// Where the first LF stands, by words of eight bytes.
fn line_end(text: &[u8]) -> Option<usize> {
    const ONES: u64 = u64::from_ne_bytes([1; 8]);
    let words = text.chunks_exact(8);
    let rest = words.remainder();
    for (i, word) in words.enumerate() {
        let differences = word_of(word) ^ (ONES * u64::from(b'\n'));
        let zeros = differences.wrapping_sub(ONES) & !differences & (ONES << 7);
        if zeros != 0 {
            return Some(8 * i + zeros.trailing_zeros() as usize / 8);
        }
    }
    let end = rest.iter().position(|&byte| byte == b'\n')?;
    Some(text.len() - rest.len() + end)
}

/// Eight bytes as a number, the first the lowest.
fn word_of(bytes: &[u8]) -> u64 {
    u64::from_le_bytes(bytes.try_into().expect("they are eight"))
}

/// A map by names, which are short: std's own hash is made for keys that an enemy may choose, and is slow.
type Names<'a, T> = HashMap<&'a [u8], T, BuildHasherDefault<NameHasher>>;

#[derive(Default)]
struct NameHasher(u64);

impl NameHasher {
    fn mix(&mut self, word: u64) {
        self.0 = (self.0.rotate_left(5) ^ word).wrapping_mul(0x517c_c1b7_2722_0a95);
    }
}

impl Hasher for NameHasher {
    fn write(&mut self, bytes: &[u8]) {
        let mut words = bytes.chunks_exact(8);
        for word in &mut words {
            self.mix(word_of(word));
        }
        let last = words
            .remainder()
            .iter()
            .fold(0, |last, byte| last << 8 | u64::from(*byte));
        self.mix(last);
    }

    fn write_usize(&mut self, length: usize) {
        self.mix(length as u64);
    }

    fn write_i64(&mut self, number: i64) {
        self.mix(number as u64);
    }

    fn write_isize(&mut self, variant: isize) {
        self.mix(variant as u64);
    }

    fn finish(&self) -> u64 {
        self.0.rotate_left(26)
    }
}

fn words(line: &[u8]) -> impl Iterator<Item = &[u8]> {
    line.split(|&byte| byte == b' ')
        .filter(|word| !word.is_empty())
}

fn name(word: &[u8]) -> Result<&[u8], Code> {
    let well_formed = word.len() <= 31
        && word.first().is_some_and(u8::is_ascii_alphabetic)
        && word
            .iter()
            .all(|byte| byte.is_ascii_alphanumeric() || b"._-".contains(byte));
    if well_formed {
        Ok(word)
    } else {
        Err(Code::BadName)
    }
}

/// A number for each name, so that two are compared at once.
#[derive(Default)]
struct Numbers<'a> {
    by_name: Names<'a, u32>,
}

impl<'a> Numbers<'a> {
    fn of(&mut self, name: &'a [u8]) -> u32 {
        let next = self.by_name.len() as u32;
        *self.by_name.entry(name).or_insert(next)
    }
}

fn count(word: &[u8]) -> Option<usize> {
    if word.len() > 19 || !word.iter().all(u8::is_ascii_digit) {
        return None;
    }
    std::str::from_utf8(word).ok()?.parse().ok()
}

/// Entry types in the order in which a list is printed.
#[derive(Clone, Copy, PartialEq, Eq, PartialOrd, Ord)]
enum Tag {
    UserObj,
    User,
    GroupObj,
    Group,
    Mask,
    Other,
}

const READ: u8 = 4;
const WRITE: u8 = 2;
const EXECUTE: u8 = 1;

/// Why a text is no permission list; the numbers are those of entries, from 1.
enum ListFault {
    BadTag(usize),
    BadQualifier(usize),
    BadPerms(usize),
    Missing(&'static str),
    Twice(usize),
    NoMask,
    TooMany(usize),
}

impl fmt::Display for ListFault {
    fn fmt(&self, f: &mut fmt::Formatter<'_>) -> fmt::Result {
        match self {
            ListFault::BadTag(n) => write!(f, "A1 BAD TAG ENTRY {n}"),
            ListFault::BadQualifier(n) => write!(f, "A2 BAD QUALIFIER ENTRY {n}"),
            ListFault::BadPerms(n) => write!(f, "A3 BAD PERMS ENTRY {n}"),
            ListFault::Missing(entry) => write!(f, "A4 MISSING {entry}"),
            ListFault::Twice(n) => write!(f, "A5 TWICE ENTRY {n}"),
            ListFault::NoMask => write!(f, "A6 NO MASK"),
            ListFault::TooMany(n) => write!(f, "A7 TOO MANY ENTRY {n}"),
        }
    }
}

#[derive(Clone, Copy)]
struct Entry<'a> {
    tag: Tag,
    /// Empty where the entry has no qualifier.
    name: &'a [u8],
    perms: u8,
}

impl<'a> Entry<'a> {
    /// Reads one entry, the `number`th of its list.
    fn parse(text: &'a [u8], number: usize) -> Result<Entry<'a>, ListFault> {
        let mut fields = text.split(|&byte| byte == b':').map(<[u8]>::trim_ascii);
        let word = fields.next().unwrap_or_default();
        if ![
            &b"user"[..],
            b"u",
            b"group",
            b"g",
            b"mask",
            b"m",
            b"other",
            b"o",
        ]
        .contains(&word)
        {
            return Err(ListFault::BadTag(number));
        }
        let is_lone = matches!(word, b"mask" | b"m" | b"other" | b"o");
        let (qualifier, perms) = match (fields.next(), fields.next(), fields.next()) {
            (Some(qualifier), Some(perms), None) => (qualifier, perms),
            (Some(perms), None, _) if is_lone => (&b""[..], perms),
            _ => return Err(ListFault::BadPerms(number)),
        };
        if !qualifier.is_empty() && (is_lone || name(qualifier).is_err()) {
            return Err(ListFault::BadQualifier(number));
        }
        let tag = match (word[0], qualifier.is_empty()) {
            (b'u', true) => Tag::UserObj,
            (b'u', false) => Tag::User,
            (b'g', true) => Tag::GroupObj,
            (b'g', false) => Tag::Group,
            (b'm', _) => Tag::Mask,
            _ => Tag::Other,
        };
        Ok(Entry {
            tag,
            name: qualifier,
            perms: perms_of(perms).ok_or(ListFault::BadPerms(number))?,
        })
    }

    fn key(&self) -> (Tag, &'a [u8]) {
        (self.tag, self.name)
    }

    fn is_named(&self) -> bool {
        !self.name.is_empty()
    }

    /// Writes the entry but for its permissions.
    fn write_head(&self, out: &mut impl Write) -> io::Result<()> {
        out.write_all(match self.tag {
            Tag::UserObj | Tag::User => b"user:",
            Tag::GroupObj | Tag::Group => b"group:",
            Tag::Mask => b"mask:",
            Tag::Other => b"other:",
        })?;
        out.write_all(self.name)?;
        out.write_all(b":")
    }

    fn write(&self, out: &mut impl Write) -> io::Result<()> {
        self.write_head(out)?;
        write_perms(self.perms, out)
    }
}

fn perms_of(text: &[u8]) -> Option<u8> {
    let mut perms = 0;
    for byte in text {
        let bit = match byte {
            b'r' => READ,
            b'w' => WRITE,
            b'x' => EXECUTE,
            b'-' => continue,
            _ => return None,
        };
        if perms & bit != 0 {
            return None;
        }
        perms |= bit;
    }
    Some(perms)
}

fn write_perms(perms: u8, out: &mut impl Write) -> io::Result<()> {
    for (bit, letter) in [(READ, b'r'), (WRITE, b'w'), (EXECUTE, b'x')] {
        out.write_all(&[if perms & bit != 0 { letter } else { b'-' }])?;
    }
    Ok(())
}

/// What a check reads of an entry for a name.
#[derive(Clone, Copy)]
struct Grant {
    /// The name's number.
    number: u32,
    perms: u8,
    /// The entry's index: a list has at most 104.
    index: u8,
}

/// A permission list: valid, and in the order in which it is printed.
struct Acl<'a> {
    entries: Vec<Entry<'a>>,
    /// Those of the named users, in the order of their numbers.
    users: Vec<Grant>,
    /// Those of the named groups, in the order of the entries.
    groups: Vec<Grant>,
    /// The permissions of the owning group, of the mask where there is one, and of all others.
    group_perms: u8,
    mask: Option<u8>,
    other_perms: u8,
}

impl<'a> Acl<'a> {
    fn parse_short(text: &'a [u8], numbers: &mut Numbers<'a>) -> Result<Acl<'a>, ListFault> {
        Acl::of_pieces(text.split(|&byte| byte == b','), numbers)
    }

    fn parse_long(lines: &[&'a [u8]], numbers: &mut Numbers<'a>) -> Result<Acl<'a>, ListFault> {
        let without_comment =
            |line: &&'a [u8]| line.split(|&byte| byte == b'#').next().unwrap_or_default();
        let is_filled = |line: &&[u8]| !line.trim_ascii().is_empty();
        Acl::of_pieces(lines.iter().map(without_comment).filter(is_filled), numbers)
    }

    fn of_pieces(
        pieces: impl Iterator<Item = &'a [u8]>,
        numbers: &mut Numbers<'a>,
    ) -> Result<Acl<'a>, ListFault> {
        let mut given = Vec::with_capacity(NAMED_ENTRIES + 4);
        for piece in pieces {
            match Entry::parse(piece, given.len() + 1) {
                Ok(entry) => given.push(entry),
                // An entry before this one may be one too many, which is then told first.
                Err(fault) => return Err(first_surplus(&given).unwrap_or(fault)),
            }
        }
        let mut entries = given.clone();
        entries.sort_unstable_by_key(Entry::key);
        let is_twice = |pair: &[Entry<'_>]| pair[0].key() == pair[1].key();
        let named = entries.iter().filter(|entry| entry.is_named()).count();
        if named > NAMED_ENTRIES || entries.windows(2).any(is_twice) {
            return Err(first_surplus(&given).expect("an entry is one too many"));
        }
        let perms_at = |tag| {
            entries
                .iter()
                .find(|entry| entry.tag == tag)
                .map(|entry| entry.perms)
        };
        let mask = perms_at(Tag::Mask);
        perms_at(Tag::UserObj).ok_or(ListFault::Missing("user::"))?;
        let group_perms = perms_at(Tag::GroupObj).ok_or(ListFault::Missing("group::"))?;
        let other_perms = perms_at(Tag::Other).ok_or(ListFault::Missing("other::"))?;
        if named > 0 && mask.is_none() {
            return Err(ListFault::NoMask);
        }
        let mut grants = |tag| -> Vec<Grant> {
            let grant = |(index, entry): (usize, &Entry<'a>)| Grant {
                number: numbers.of(entry.name),
                perms: entry.perms,
                index: index as u8,
            };
            let is_of = |(_, entry): &(usize, &Entry<'a>)| entry.tag == tag;
            entries
                .iter()
                .enumerate()
                .filter(is_of)
                .map(grant)
                .collect()
        };
        let (mut users, groups) = (grants(Tag::User), grants(Tag::Group));
        users.sort_unstable_by_key(|user| user.number);
        Ok(Acl {
            entries,
            users,
            groups,
            group_perms,
            mask,
            other_perms,
        })
    }

    fn write_short(&self, out: &mut impl Write) -> io::Result<()> {
        for (i, entry) in self.entries.iter().enumerate() {
            if i > 0 {
                out.write_all(b",")?;
            }
            entry.write(out)?;
        }
        Ok(())
    }

    /// Writes an entry a line, each after a blank, with what the mask leaves of those that it limits.
    fn write_long(&self, out: &mut impl Write) -> io::Result<()> {
        let mask = self.mask.unwrap_or(READ | WRITE | EXECUTE);
        for entry in &self.entries {
            out.write_all(b" ")?;
            entry.write(out)?;
            let is_limited = matches!(entry.tag, Tag::User | Tag::GroupObj | Tag::Group);
            if is_limited && entry.perms & !mask != 0 {
                out.write_all(b"\t#effective:")?;
                write_perms(entry.perms & mask, out)?;
            }
            out.write_all(b"\n")?;
        }
        Ok(())
    }
}

/// The first entry that stands twice, or is the 101st named one.
fn first_surplus(entries: &[Entry<'_>]) -> Option<ListFault> {
    let mut named = 0;
    entries.iter().enumerate().find_map(|(i, entry)| {
        named += usize::from(entry.is_named());
        if entries[..i].iter().any(|other| other.key() == entry.key()) {
            Some(ListFault::Twice(i + 1))
        } else if named > NAMED_ENTRIES {
            Some(ListFault::TooMany(i + 1))
        } else {
            None
        }
    })
}

/// How a data set may be written.
#[derive(Clone, Copy)]
enum Mode {
    Seq,
    Append,
}

impl Mode {
    fn of(word: &[u8]) -> Option<Mode> {
        match word {
            b"SEQ" => Some(Mode::Seq),
            b"APPEND" => Some(Mode::Append),
            _ => None,
        }
    }

    fn word(self) -> &'static str {
        match self {
            Mode::Seq => "SEQ",
            Mode::Append => "APPEND",
        }
    }
}

/// The versions of a catalogue's text: the second has a mode on each `$SET` card.
#[derive(Clone, Copy)]
enum Version {
    One,
    Two,
}

struct DataSet<'a> {
    name: &'a [u8],
    owner: &'a [u8],
    group: &'a [u8],
    mode: Mode,
    /// The numbers of the owner and of the group.
    owner_number: u32,
    group_number: u32,
    acl: Acl<'a>,
    records: Records<'a>,
}

/// Records: pieces of the deck, as long as no job has written one that is none.
enum Records<'a> {
    Loaded(Vec<&'a [u8]>),
    Written(Vec<Text<'a>>),
}

impl<'a> Records<'a> {
    fn len(&self) -> usize {
        match self {
            Records::Loaded(records) => records.len(),
            Records::Written(records) => records.len(),
        }
    }

    fn get(&self, index: usize) -> Option<Text<'a>> {
        match self {
            Records::Loaded(records) => records.get(index).map(|record| Text::Slice(record)),
            Records::Written(records) => records.get(index).cloned(),
        }
    }

    fn truncate(&mut self, length: usize) {
        match self {
            Records::Loaded(records) => records.truncate(length),
            Records::Written(records) => records.truncate(length),
        }
    }

    fn push(&mut self, text: &Text<'a>) {
        match (&mut *self, text) {
            (Records::Loaded(records), Text::Slice(record)) => records.push(record),
            (Records::Loaded(records), Text::Shared(_)) => {
                let mut written: Vec<_> =
                    records.iter().map(|record| Text::Slice(record)).collect();
                written.push(text.clone());
                *self = Records::Written(written);
            }
            (Records::Written(records), _) => records.push(text.clone()),
        }
    }

    /// Writes each record a line, after a blank where `INDENTED` says so.
    fn write<const INDENTED: bool>(&self, out: &mut impl Write) -> io::Result<()> {
        match self {
            Records::Loaded(records) => {
                for record in records {
                    write_record::<INDENTED>(record, out)?;
                }
            }
            Records::Written(records) => {
                for record in records {
                    write_record::<INDENTED>(record.bytes(), out)?;
                }
            }
        }
        Ok(())
    }
}

#[inline(always)]
fn write_record<const INDENTED: bool>(record: &[u8], out: &mut impl Write) -> io::Result<()> {
    if INDENTED {
        out.write_all(b" ")?;
    }
    out.write_all(record)?;
    out.write_all(b"\n")
}

impl DataSet<'_> {
    /// The index of the entry that denies a request to an account; none where it is granted. The entries are in canonical
    /// order.
    fn denied_by(&self, account: &Account<'_>, request: u8) -> Option<usize> {
        let lacks = |perms: u8| perms & request != request;
        let if_lacking = |perms, index| lacks(perms).then_some(index);
        let Acl {
            entries,
            users,
            groups,
            group_perms,
            mask,
            other_perms,
        } = &self.acl;
        let (others, owning_group) = (entries.len() - 1, 1 + users.len());
        if account.number == self.owner_number {
            return if_lacking(entries[0].perms, 0);
        }
        let if_masked = || mask.and_then(|mask| if_lacking(mask, others - 1));
        if let Ok(user) = users.binary_search_by_key(&account.number, |user| user.number) {
            let user = users[user];
            return if_lacking(user.perms, user.index.into()).or_else(if_masked);
        }
        let mut first = None;
        if account.is_in(self.group_number) {
            if !lacks(*group_perms) {
                return if_masked();
            }
            first = Some(owning_group);
        }
        for group in groups.iter().filter(|group| account.is_in(group.number)) {
            if !lacks(group.perms) {
                return if_masked();
            }
            first = first.or(Some(group.index.into()));
        }
        first.or_else(|| if_lacking(*other_perms, others))
    }

    /// Writes the name, the owner, the group and the number of records.
    fn write_head(&self, out: &mut impl Write) -> io::Result<()> {
        self.write_names(out)?;
        write_count(self.records.len(), out)
    }

    fn write_names(&self, out: &mut impl Write) -> io::Result<()> {
        for word in [self.name, self.owner, self.group] {
            out.write_all(word)?;
            out.write_all(b" ")?;
        }
        Ok(())
    }

    fn write(&self, out: &mut impl Write) -> io::Result<()> {
        out.write_all(b"$SET ")?;
        self.write_names(out)?;
        out.write_all(self.mode.word().as_bytes())?;
        out.write_all(b" ")?;
        write_count(self.records.len(), out)?;
        self.acl.write_short(out)?;
        out.write_all(b"\n")?;
        self.records.write::<false>(out)
    }
}

/// The data sets in order, found by their names.
#[derive(Default)]
struct Catalogue<'a> {
    sets: Vec<DataSet<'a>>,
    places: Names<'a, usize>,
    /// How many jobs were served.
    jobs: usize,
}

impl<'a> Catalogue<'a> {
    fn find(&mut self, name: &[u8]) -> Option<&mut DataSet<'a>> {
        self.places.get(name).map(|&place| &mut self.sets[place])
    }

    /// Whether a set of this name can be put last.
    fn room_for(&self, name: &[u8]) -> Result<(), Code> {
        if self.places.contains_key(name) {
            Err(Code::NameTaken)
        } else if self.sets.len() == SETS {
            Err(Code::CatalogueFull)
        } else {
            Ok(())
        }
    }

    fn push(&mut self, set: DataSet<'a>) {
        self.places.insert(set.name, self.sets.len());
        self.sets.push(set);
    }

    /// Takes a set out; the others keep their order.
    fn remove(&mut self, name: &[u8]) {
        if let Some(removed) = self.places.remove(name) {
            self.sets.remove(removed);
            for place in self.places.values_mut() {
                *place -= usize::from(*place > removed);
            }
        }
    }
}

/// A list as a `$SETACL` card gives it: on the card, or in the lines after it.
enum AclText<'a> {
    Short(&'a [u8]),
    Long(Vec<&'a [u8]>),
}

impl<'a> AclText<'a> {
    fn parse(&self, numbers: &mut Numbers<'a>) -> Result<Acl<'a>, ListFault> {
        match self {
            AclText::Short(text) => Acl::parse_short(text, numbers),
            AclText::Long(lines) => Acl::parse_long(lines, numbers),
        }
    }
}

/// What a command asks of the data set that it names.
enum Act<'a> {
    Create(Mode),
    Delete,
    SetAcl(AclText<'a>),
    ShowAcl,
    List,
}

enum Request<'a> {
    /// A command that names a data set.
    Of(Act<'a>, &'a [u8]),
    Catalog,
    Job(Box<plain_jobs::Job<'a>>),
    /// Jobs run when they are loaded, so nothing is left to be done.
    Drain,
}

struct Command<'a> {
    account: &'a [u8],
    request: Request<'a>,
}

/// Someone who may ask.
struct Account<'a> {
    number: u32,
    primary: &'a [u8],
    primary_number: u32,
    /// A bit for each number of a name, up to the greatest of these groups: whether the account is in the group.
    groups: Vec<u64>,
}

impl Account<'_> {
    fn is_in(&self, group: u32) -> bool {
        let word = self.groups.get(group as usize / 64).copied().unwrap_or(0);
        word >> (group % 64) & 1 == 1
    }
}

#[derive(Default)]
struct Deck<'a> {
    numbers: Numbers<'a>,
    accounts: Names<'a, Account<'a>>,
    catalogue: Catalogue<'a>,
    commands: Vec<Command<'a>>,
}

impl<'a> Deck<'a> {
    /// Takes the lines up to `$STOP`; what stood before a refusal stays.
    fn read(&mut self, lines: &mut Lines<'a>) -> Result<(), Code> {
        section_card(lines.next_filled(LINE)?, b"$ACCOUNTS")?;
        let version = loop {
            let line = lines.next_filled(LINE)?;
            if line.starts_with(b"$") {
                break catalogue_card(line)?;
            }
            self.add_account(line)?;
        };
        loop {
            let line = lines.next_filled(CATALOGUE_LINE)?;
            if words(line).next() != Some(b"$SET") {
                section_card(line, b"$STREAM")?;
                break;
            }
            self.add_set(version, line, lines)?;
        }
        loop {
            let line = lines.next_filled(LINE)?;
            match command(line, lines)? {
                Some(command) => self.commands.push(command),
                None => return section_card(line, b"$STOP"),
            }
        }
    }

    fn add_account(&mut self, line: &'a [u8]) -> Result<(), Code> {
        if words(line).count() < 2 {
            return Err(Code::BadCard);
        }
        let mut names = words(line).map(name).collect::<Result<Vec<_>, _>>()?;
        let account = names.remove(0);
        if self.accounts.contains_key(account) {
            return Err(Code::AccountTwice);
        }
        if names.len() > 1 + FURTHER_GROUPS {
            return Err(Code::TooManyGroups);
        }
        let number = self.numbers.of(account);
        let mut groups = Vec::new();
        for name in &names {
            let group = self.numbers.of(name) as usize;
            groups.resize(groups.len().max(group / 64 + 1), 0);
            groups[group / 64] |= 1 << (group % 64);
        }
        let known = Account {
            number,
            primary: names[0],
            primary_number: self.numbers.of(names[0]),
            groups,
        };
        self.accounts.insert(account, known);
        Ok(())
    }

    fn add_set(
        &mut self,
        version: Version,
        line: &'a [u8],
        lines: &mut Lines<'a>,
    ) -> Result<(), Code> {
        let [_, set, owner, group, mode, records] = match version {
            Version::One => words_of(line)
                .map(|[card, set, owner, group, records]| {
                    [card, set, owner, group, b"SEQ".as_slice(), records]
                })
                .ok_or(Code::BadText)?,
            Version::Two => words_of(line).ok_or(Code::BadText)?,
        };
        for word in [set, owner, group] {
            name(word).map_err(|_| Code::BadText)?;
        }
        let mode = Mode::of(mode).ok_or(Code::BadText)?;
        let records = count(records).ok_or(Code::BadText)?;
        if records > RECORDS {
            return Err(Code::SetFull);
        }
        self.catalogue.room_for(set)?;
        let acl = Acl::parse_short(lines.next(CATALOGUE_LINE)?, &mut self.numbers)
            .map_err(|_| Code::BadText)?;
        let mut taken = Vec::with_capacity(records);
        for _ in 0..records {
            let record = lines.next(CATALOGUE_LINE)?;
            if record.len() > RECORD {
                return Err(Code::BadText);
            }
            taken.push(record);
        }
        self.catalogue.push(DataSet {
            name: set,
            owner,
            group,
            mode,
            owner_number: self.numbers.of(owner),
            group_number: self.numbers.of(group),
            acl,
            records: Records::Loaded(taken),
        });
        Ok(())
    }
}

/// The command of a line, with the lines that belong to it; none where the line is another card.
fn command<'a>(line: &'a [u8], lines: &mut Lines<'a>) -> Result<Option<Command<'a>>, Code> {
    let mut rest = words(line);
    let act = match rest.next() {
        Some(b"$CREATE") => return create_command(line).map(Some),
        Some(b"$DELETE") => Act::Delete,
        Some(b"$SHOWACL") => Act::ShowAcl,
        Some(b"$LIST") => Act::List,
        Some(b"$SETACL") => return set_acl_command(line, lines).map(Some),
        Some(b"$CATALOG") => {
            let [_, account] = words_of(line).ok_or(Code::BadCard)?;
            let account = name(account)?;
            return Ok(Some(Command {
                account,
                request: Request::Catalog,
            }));
        }
        Some(b"$JOB") => return job_command(line, lines).map(Some),
        _ => return Ok(drain_command(line)),
    };
    let [_, account, set] = words_of(line).ok_or(Code::BadCard)?;
    Ok(Some(Command {
        account: name(account)?,
        request: Request::Of(act, name(set)?),
    }))
}

#[inline(never)]
fn job_command<'a>(line: &'a [u8], lines: &mut Lines<'a>) -> Result<Command<'a>, Code> {
    let job = plain_jobs::job(line, lines)?;
    Ok(Command {
        account: job.account,
        request: Request::Job(Box::new(job)),
    })
}

#[inline(never)]
fn drain_command(line: &[u8]) -> Option<Command<'_>> {
    (line == b"$DRAIN").then_some(Command {
        account: b"",
        request: Request::Drain,
    })
}

fn create_command(line: &[u8]) -> Result<Command<'_>, Code> {
    let (account, set, mode) = match words_of(line) {
        Some([_, account, set]) => (account, set, Mode::Seq),
        None => {
            let [_, account, set, mode] = words_of(line).ok_or(Code::BadCard)?;
            (account, set, Mode::of(mode).ok_or(Code::BadCard)?)
        }
    };
    Ok(Command {
        account: name(account)?,
        request: Request::Of(Act::Create(mode), name(set)?),
    })
}

fn set_acl_command<'a>(line: &'a [u8], lines: &mut Lines<'a>) -> Result<Command<'a>, Code> {
    let mut after_card = words(line).skip(1);
    let (Some(account), Some(set)) = (after_card.next(), after_card.next()) else {
        return Err(Code::BadCard);
    };
    let (account, set) = (name(account)?, name(set)?);
    let text = match after_card.next() {
        // The rest of the line, from the fourth word on.
        Some(word) => AclText::Short(&line[word.as_ptr() as usize - line.as_ptr() as usize..]),
        None => AclText::Long(long_list(lines)?),
    };
    Ok(Command {
        account,
        request: Request::Of(Act::SetAcl(text), set),
    })
}

/// The lines up to `$ENDACL`.
fn long_list<'a>(lines: &mut Lines<'a>) -> Result<Vec<&'a [u8]>, Code> {
    let mut taken = Vec::new();
    loop {
        let line = lines.next_with(LINE, |line| !line.starts_with(b"$"))?;
        if !line.starts_with(b"$") {
            taken.push(line);
            continue;
        }
        let mut words = words(line);
        return if words.next() != Some(b"$ENDACL") {
            Err(Code::OutOfPlace)
        } else if words.next().is_some() {
            Err(Code::BadCard)
        } else {
            Ok(taken)
        };
    }
}

impl<'a> Catalogue<'a> {
    /// Does what a known account asks, and writes what comes of it.
    fn serve(
        &mut self,
        command: &Command<'a>,
        account: &Account<'a>,
        numbers: &mut Numbers<'a>,
        out: &mut impl Write,
    ) -> io::Result<()> {
        match &command.request {
            Request::Catalog => self.write_names(account, out),
            Request::Job(job) => plain_jobs::serve(job, account, self, out),
            Request::Drain => Ok(()),
            &Request::Of(Act::Create(mode), name) => match self.room_for(name) {
                Err(code) => writeln!(out, "REFUSED {code}"),
                Ok(()) => {
                    let Ok(acl) = Acl::parse_short(NEW_LIST, numbers) else {
                        unreachable!("it is a list")
                    };
                    self.push(DataSet {
                        name,
                        owner: command.account,
                        group: account.primary,
                        mode,
                        owner_number: account.number,
                        group_number: account.primary_number,
                        acl,
                        records: Records::Loaded(Vec::new()),
                    });
                    out.write_all(b"DONE\n")
                }
            },
            Request::Of(act, name) => {
                let Some(set) = self.find(name) else {
                    return out.write_all(b"DENIED NO DATA SET\n");
                };
                let is_owner = account.number == set.owner_number;
                match act {
                    Act::Create(_) => unreachable!("it is served above"),
                    Act::Delete | Act::SetAcl(_) if !is_owner => {
                        out.write_all(b"DENIED NOT OWNER\n")
                    }
                    Act::Delete => {
                        self.remove(name);
                        out.write_all(b"DONE\n")
                    }
                    Act::SetAcl(text) => match text.parse(numbers) {
                        Err(fault) => writeln!(out, "REFUSED {fault}"),
                        Ok(acl) => {
                            set.acl = acl;
                            out.write_all(b"DONE\n")
                        }
                    },
                    Act::ShowAcl if is_owner => write_list(set, out),
                    Act::ShowAcl => match set.denied_by(account, EXECUTE) {
                        Some(index) => write_denial(&set.acl.entries[index], out),
                        None => write_list(set, out),
                    },
                    Act::List => match set.denied_by(account, READ) {
                        Some(index) => write_denial(&set.acl.entries[index], out),
                        None => write_records(set, out),
                    },
                }
            }
        }
    }

    fn write_names(&self, account: &Account<'_>, out: &mut impl Write) -> io::Result<()> {
        let mut names = 0;
        for set in &self.sets {
            if set.denied_by(account, EXECUTE).is_none() {
                out.write_all(b" ")?;
                set.write_head(out)?;
                names += 1;
            }
        }
        out.write_all(b"NAMES ")?;
        write_count(names, out)
    }
}

/// Writes a number and the line's end, without the machinery of formats.
fn write_count(count: usize, out: &mut impl Write) -> io::Result<()> {
    let mut digits = *b"00000000000000000000\n";
    let mut first = digits.len() - 1;
    let mut rest = count;
    loop {
        first -= 1;
        digits[first] = b'0' + (rest % 10) as u8;
        rest /= 10;
        if rest == 0 {
            return out.write_all(&digits[first..]);
        }
    }
}

fn write_denial(entry: &Entry<'_>, out: &mut impl Write) -> io::Result<()> {
    out.write_all(b"DENIED BY ")?;
    entry.write_head(out)?;
    out.write_all(b"\n")
}

fn write_list(set: &DataSet<'_>, out: &mut impl Write) -> io::Result<()> {
    for part in [&b"OWNER "[..], set.owner, b" GROUP ", set.group, b"\n"] {
        out.write_all(part)?;
    }
    set.acl.write_long(out)?;
    out.write_all(b"ENTRIES ")?;
    write_count(set.acl.entries.len(), out)
}

fn write_records(set: &DataSet<'_>, out: &mut impl Write) -> io::Result<()> {
    set.records.write::<true>(out)?;
    out.write_all(b"RECORDS ")?;
    write_count(set.records.len(), out)
}

/// Writes the first line of a command's printout.
fn write_command(command: &Command<'_>, out: &mut impl Write) -> io::Result<()> {
    let (card, set) = match &command.request {
        Request::Job(..) | Request::Drain => return Ok(()),
        Request::Catalog => ("CATALOG", None),
        Request::Of(Act::Create(_), set) => ("CREATE", Some(set)),
        Request::Of(Act::Delete, set) => ("DELETE", Some(set)),
        Request::Of(Act::SetAcl(_), set) => ("SETACL", Some(set)),
        Request::Of(Act::ShowAcl, set) => ("SHOWACL", Some(set)),
        Request::Of(Act::List, set) => ("LIST", Some(set)),
    };
    out.write_all(card.as_bytes())?;
    out.write_all(b" ")?;
    out.write_all(command.account)?;
    if let Some(set) = set {
        out.write_all(b" ")?;
        out.write_all(set)?;
    }
    out.write_all(b"\n")
}

/// Tells whether a line is the card that is due, alone on its line.
fn section_card(line: &[u8], due: &[u8]) -> Result<(), Code> {
    let mut words = words(line);
    match words.next() {
        Some(card) if !CARDS.contains(&card) => Err(Code::UnknownCard),
        Some(card) if card != due => Err(Code::OutOfPlace),
        _ if words.next().is_some() => Err(Code::BadCard),
        _ => Ok(()),
    }
}

/// The version that the card `$CATALOGUE` of a line says.
fn catalogue_card(line: &[u8]) -> Result<Version, Code> {
    if matches!(words_of(line), Some([b"$CATALOGUE", b"2"])) {
        return Ok(Version::Two);
    }
    section_card(line, b"$CATALOGUE").map(|()| Version::One)
}

/// The words of a line, where there are `N`.
fn words_of<const N: usize>(line: &[u8]) -> Option<[&[u8]; N]> {
    let mut words = words(line);
    let mut taken = [&b""[..]; N];
    for word in &mut taken {
        *word = words.next()?;
    }
    words.next().is_none().then_some(taken)
}

fn main() -> io::Result<ExitCode> {
    let mut text = Vec::new();
    io::stdin().lock().read_to_end(&mut text)?;
    let mut lines = Lines {
        rest: &text,
        number: 0,
    };
    let mut deck = Deck::default();
    let refused = deck.read(&mut lines).err();

    let mut out = BufWriter::new(io::stdout().lock());
    for command in &deck.commands {
        write_command(command, &mut out)?;
        match deck.accounts.get(command.account) {
            Some(account) => deck
                .catalogue
                .serve(command, account, &mut deck.numbers, &mut out)?,
            None if matches!(command.request, Request::Drain) => {}
            None => writeln!(out, "REFUSED M2 NO ACCOUNT")?,
        }
    }
    if let Some(code) = refused {
        out.flush()?;
        eprintln!("snomon: line {}: {code}", lines.number);
        return Ok(ExitCode::from(1));
    }
    writeln!(out, "$CATALOGUE 2")?;
    for set in &deck.catalogue.sets {
        set.write(&mut out)?;
    }
    out.flush()?;
    Ok(ExitCode::SUCCESS)
}
