//! "Chains": their form, the checks 7, 9, 10, 11, and hop words.

use crate::refusal::Reason;
use crate::register::{Kind, Sizes};

/// The most hops of a chain.
pub const MAX_HOPS: usize = 16;

/// A chain by its form alone: any capital counts as a field letter, and there
/// may be any number of hops.
#[derive(Clone, Copy, Debug, PartialEq, Eq)]
pub struct ChainForm<'a> {
    /// What stands before the `u`, as `M[A[` of `M[A[u]]`, and spaces.
    opening: &'a [u8],
    hops: usize,
}

impl<'a> ChainForm<'a> {
    /// Takes a chain off the front of a text, and gives what is left behind it.
    /// No space stands in it, as in a chain that is handed in by itself.
    pub fn take(text: &'a [u8]) -> Option<(ChainForm<'a>, &'a [u8])> {
        ChainForm::take_with(text, |rest| rest)
    }

    /// The same with free spaces behind each of its tokens, as in a rules text.
    pub fn take_spaced(text: &'a [u8]) -> Option<(ChainForm<'a>, &'a [u8])> {
        ChainForm::take_with(text, skip_spaces)
    }

    fn take_with(
        text: &'a [u8],
        skip: impl Fn(&'a [u8]) -> &'a [u8],
    ) -> Option<(ChainForm<'a>, &'a [u8])> {
        let mut rest = text;
        let mut hops = 0;
        while let [b'A'..=b'Z', behind @ ..] = rest {
            rest = skip(skip(behind).strip_prefix(b"[")?);
            hops += 1;
        }
        let opening = &text[..text.len() - rest.len()];
        rest = skip(rest.strip_prefix(b"u")?);
        for _ in 0..hops {
            rest = skip(rest.strip_prefix(b"]")?);
        }
        Some((ChainForm { opening, hops }, rest))
    }

    /// The letters from the outside in.
    pub fn letters(&self) -> impl DoubleEndedIterator<Item = u8> + use<'a> {
        let letters = self.opening.iter().filter(|byte| byte.is_ascii_uppercase());
        letters.copied()
    }

    /// The number of hops.
    pub fn hops(&self) -> usize {
        self.hops
    }

    /// The outermost letter and the chain in its brackets; none for `u`.
    pub fn split_outermost(&self) -> Option<(u8, ChainForm<'a>)> {
        let (outermost, rest) = self.opening.split_first()?;
        let inner = rest.iter().position(u8::is_ascii_uppercase);
        let opening = &rest[inner.unwrap_or(rest.len())..];
        let hops = self.hops - 1;
        Some((*outermost, ChainForm { opening, hops }))
    }

    /// 9 does not apply: every letter names a field.
    pub fn is_named(&self, sizes: &Sizes) -> bool {
        self.letters().all(|letter| sizes.field(letter).is_some())
    }

    /// Every field but the outermost is a reference field.
    pub fn is_well_kinded(&self, sizes: &Sizes) -> bool {
        self.letters()
            .skip(1)
            .all(|letter| letter_kind(letter, sizes) == Kind::Reference)
    }

    /// The kind of the outermost letter, `u` being a reference.
    pub fn kind(&self, sizes: &Sizes) -> Kind {
        self.letters()
            .next()
            .map_or(Kind::Reference, |letter| letter_kind(letter, sizes))
    }

    /// The hop word of a chain that passed 9 and 11.
    pub fn word(&self, sizes: &Sizes) -> Word {
        let mut word = Word::EMPTY;
        for letter in self.letters().rev() {
            word.push(sizes.field(letter).expect("9 has passed"));
        }
        word
    }
}

/// What is left of a text behind the spaces that it begins with.
pub(crate) fn skip_spaces(text: &[u8]) -> &[u8] {
    let mut rest = text;
    while let [b' ', behind @ ..] = rest {
        rest = behind;
    }
    rest
}

/// The kind of the field that a letter names; 9 has passed.
pub(crate) fn letter_kind(letter: u8, sizes: &Sizes) -> Kind {
    sizes.kind(sizes.field(letter).expect("9 has passed"))
}

/// Reads a single chain, which comes without byte 10 and is checked by 7, 9, 10, 11.
pub fn read_chain(text: &[u8], sizes: &Sizes) -> Result<Word, Reason> {
    let Some((chain, b"")) = ChainForm::take(text) else {
        return Err(Reason::NoSuchLine);
    };
    if !chain.is_named(sizes) {
        return Err(Reason::NoSuchField);
    }
    if !chain.is_well_kinded(sizes) {
        return Err(Reason::WrongKind);
    }
    if chain.hops() > MAX_HOPS {
        return Err(Reason::TooManyHops);
    }
    Ok(chain.word(sizes))
}

/// A hop word: the fields of a chain from the inside out, at most 16.
#[derive(Clone, Copy, Debug, PartialEq, Eq)]
pub struct Word {
    /// 0 behind the last hop.
    hops: [u8; MAX_HOPS],
    length: u8,
}

impl Word {
    /// The word of `u`.
    pub const EMPTY: Word = Word {
        hops: [0; MAX_HOPS],
        length: 0,
    };

    /// The word of these fields; there are at most 16.
    pub fn new(fields: &[u8]) -> Word {
        let mut word = Word::EMPTY;
        word.hops[..fields.len()].copy_from_slice(fields);
        word.length = fields.len() as u8;
        word
    }

    fn push(&mut self, field: usize) {
        self.hops[usize::from(self.length)] = field as u8;
        self.length += 1;
    }

    /// The fields from the inside out.
    pub fn fields(&self) -> &[u8] {
        &self.hops[..usize::from(self.length)]
    }

    /// The letters from the inside out, as `AAM` for `M[A[A[u]]]`.
    pub fn letters(&self, sizes: &Sizes) -> Vec<u8> {
        self.fields()
            .iter()
            .map(|&field| sizes.letter(usize::from(field)))
            .collect()
    }
}
