//! A line of a rules text taken apart, as far as it has one of the forms. The
//! library decides; this only finds the place to point at.

use crate::misfit::{Misfit, Wanted};

/// What stands between two places of a line.
#[derive(Clone, Copy, Debug, PartialEq, Eq)]
pub struct Part {
    /// What it is.
    pub sort: PartSort,
    /// Its first byte.
    pub start: usize,
    /// The byte behind it.
    pub end: usize,
    /// Of a group how deep it stands, of an operator which of its expression it is,
    /// both from 1.
    pub count: usize,
}

impl Part {
    /// Whether it is a chain.
    pub fn is_chain(&self) -> bool {
        matches!(self.sort, PartSort::Chain | PartSort::Target)
    }
}

/// The parts of a line that a refusal may be about.
#[derive(Clone, Copy, Debug, PartialEq, Eq)]
pub enum PartSort {
    /// The letter of the field that is written or looped on.
    Written,
    /// The chain in `remote F[C]`.
    Target,
    /// A term of a test, or of what is written.
    Chain,
    /// The same as a number.
    Number,
    /// `+`, `-` or `+=`.
    Sum,
    /// `<?`
    Smaller,
    /// The opening bracket of a group.
    Group,
    /// The end of a test.
    TestEnd,
}

/// A line, and how far it has been taken apart.
pub struct Scan<'a> {
    line: &'a [u8],
    at: usize,
    /// What has to stand where it does not fit.
    wanted: Wanted,
    /// The parts so far.
    pub parts: Vec<Part>,
}

impl<'a> Scan<'a> {
    fn new(line: &'a [u8]) -> Scan<'a> {
        Scan {
            line,
            at: 0,
            wanted: Wanted::Line,
            parts: Vec::new(),
        }
    }

    /// Takes a whole line apart; where it has no form, the furthest place that
    /// fits one.
    pub fn line(line: &'a [u8]) -> Result<Scan<'a>, Misfit> {
        let forms: [fn(&mut Scan<'a>) -> bool; 4] =
            [Scan::keyword, Scan::open_loop, Scan::tested, Scan::action];
        let scans = forms.map(|form| Scan::by(line, form));
        let furthest = scans.iter().filter_map(|scan| scan.as_ref().err()).max();
        let furthest = furthest.copied().unwrap_or_default();
        scans.into_iter().find_map(Result::ok).ok_or(furthest)
    }

    /// The same for a chain that stands alone.
    pub fn chain_alone(line: &'a [u8]) -> Result<Scan<'a>, Misfit> {
        let scan = Scan::by(line, |scan| scan.chain(PartSort::Chain))?;
        let wanted = Wanted::Chain;
        match line.iter().position(|&byte| byte == b' ') {
            Some(at) => Err(Misfit { at, wanted }),
            None => Ok(scan),
        }
    }

    /// Whether this is a number.
    pub fn is_number(bytes: &'a [u8]) -> bool {
        Scan::by(bytes, Scan::number).is_ok()
    }

    fn by(line: &'a [u8], form: impl FnOnce(&mut Scan<'a>) -> bool) -> Result<Scan<'a>, Misfit> {
        let mut scan = Scan::new(line);
        let fits = form(&mut scan);
        let spaces = line.iter().rev().take_while(|byte| **byte == b' ');
        let end = line.len() - spaces.count();
        let Scan { at, wanted, .. } = scan;
        match fits {
            true if at == end && end == line.len() => Ok(scan),
            true => Err(Misfit {
                at: at.min(end),
                wanted: scan.behind(),
            }),
            false => Err(Misfit { at, wanted }),
        }
    }

    /// What has to stand behind the last part.
    fn behind(&self) -> Wanted {
        match self.parts.last().map(|part| part.sort) {
            Some(PartSort::Chain | PartSort::Number) => Wanted::End,
            _ => Wanted::Line,
        }
    }

    /// What has to stand where something was not taken.
    fn wants(&mut self, wanted: Wanted, taken: bool) -> bool {
        if !taken {
            self.wanted = wanted;
        }
        taken
    }

    fn keyword(&mut self) -> bool {
        self.any(&["step", "end", "done"])
    }

    fn open_loop(&mut self) -> bool {
        self.word("loop ") && self.written()
    }

    fn tested(&mut self) -> bool {
        self.word("if ") && self.test() && self.action()
    }

    fn test(&mut self) -> bool {
        self.expression() && self.test_sign() && self.expression() && self.test_end()
    }

    fn test_sign(&mut self) -> bool {
        let taken = self.sign(&["<", "==", "!="]);
        self.wants(Wanted::Test, taken)
    }

    fn test_end(&mut self) -> bool {
        let taken = self.part(PartSort::TestEnd, |scan| scan.any(&[":"]));
        self.wants(Wanted::Test, taken)
    }

    fn action(&mut self) -> bool {
        match self.line.get(self.at) {
            Some(b'r') => self.remote(),
            _ => self.local(),
        }
    }

    fn local(&mut self) -> bool {
        self.written()
            && ["[", "u"].iter().all(|sign| self.sign(&[sign]))
            && self.closing()
            && self.sign(&[":="])
            && self.expression()
    }

    fn remote(&mut self) -> bool {
        let begun = self.word("remote ")
            && self.written()
            && self.sign(&["["])
            && self.chain(PartSort::Target)
            && self.closing();
        let sum = self.line.get(self.at) == Some(&b'+');
        begun
            && match sum {
                true => self.part(PartSort::Sum, |scan| scan.any(&["+="])),
                false => self.sign(&["<?=", "+="]),
            }
            && self.expression()
    }

    /// The square bracket that closes one.
    fn closing(&mut self) -> bool {
        let taken = self.sign(&["]"]);
        self.wants(Wanted::Square, taken)
    }

    fn written(&mut self) -> bool {
        self.part(PartSort::Written, Scan::capital)
    }

    /// Operands and the operators between them; groups may stand in each other as
    /// deep as they like.
    fn expression(&mut self) -> bool {
        let (mut open, mut operators) = (0, 0);
        loop {
            while self.line.get(self.at) == Some(&b'(') {
                open += 1;
                self.counted(PartSort::Group, open, "(");
            }
            if !self.term() {
                return false;
            }
            while open > 0 && self.line.get(self.at) == Some(&b')') {
                open -= 1;
                self.sign(&[")"]);
            }
            operators += 1;
            match &self.line[self.at..] {
                [b'<', b'?', b'=', ..] | [b'+', b'=', ..] => break,
                [b'<', b'?', ..] => self.counted(PartSort::Smaller, operators, "<?"),
                [b'+', ..] => self.counted(PartSort::Sum, operators, "+"),
                [b'-', ..] => self.counted(PartSort::Sum, operators, "-"),
                _ => break,
            }
        }
        self.wants(Wanted::Closing, open == 0)
    }

    fn term(&mut self) -> bool {
        match self.line.get(self.at) {
            Some(b'-' | b'0'..=b'9') => {
                let taken = self.part(PartSort::Number, Scan::number);
                self.wants(Wanted::Digits, taken)
            }
            Some(b'u' | b'A'..=b'Z') => self.chain(PartSort::Chain),
            _ => self.wants(Wanted::Operand, false),
        }
    }

    fn chain(&mut self, sort: PartSort) -> bool {
        let mut closing = false;
        let taken = self.part(sort, |scan| {
            let mut depth = 0;
            while scan.capital() {
                depth += 1;
                scan.spaces();
                if !scan.sign(&["["]) {
                    return false;
                }
            }
            closing = scan.any(&["u"]);
            closing
                && (0..depth).all(|_| {
                    scan.spaces();
                    scan.any(&["]"])
                })
        });
        let wanted = if closing {
            Wanted::Square
        } else {
            Wanted::Chain
        };
        self.wants(wanted, taken)
    }

    /// Digits, or metres: digits, a point and two digits.
    fn number(&mut self) -> bool {
        let minus = self.any(&["-"]);
        let start = self.at;
        let taken = self.digits() && (self.line.get(self.at) != Some(&b'.') || self.decimals());
        let digits = &self.line[start..self.at];
        if taken && minus && digits.iter().all(|byte| matches!(byte, b'0' | b'.')) {
            self.at = start;
            return false;
        }
        taken
    }

    /// Digits without a leading zero.
    fn digits(&mut self) -> bool {
        let zero = self.line.get(self.at) == Some(&b'0');
        let begun = self.digit();
        while begun && !zero && self.digit() {}
        begun
    }

    fn decimals(&mut self) -> bool {
        self.any(&["."]) && self.digit() && self.digit()
    }

    fn digit(&mut self) -> bool {
        let digit = self.line.get(self.at).is_some_and(u8::is_ascii_digit);
        self.at += usize::from(digit);
        digit
    }

    fn capital(&mut self) -> bool {
        let capital = self.line.get(self.at).is_some_and(u8::is_ascii_uppercase);
        self.at += usize::from(capital);
        capital
    }

    /// Takes one of these texts, or the longest beginning of one.
    fn any(&mut self, texts: &[&str]) -> bool {
        let rest = &self.line[self.at..];
        if let Some(text) = texts.iter().find(|text| rest.starts_with(text.as_bytes())) {
            self.at += text.len();
            return true;
        }
        let fitting = |text: &&str| text.bytes().zip(rest).take_while(|(a, b)| a == *b).count();
        self.at += texts.iter().map(fitting).max().unwrap_or(0);
        false
    }

    /// A word with the space that it keeps, and further spaces.
    fn word(&mut self, word: &str) -> bool {
        let start = self.at;
        let taken = self.sign(&[word]);
        if self.line[start..self.at] == *word.trim_end().as_bytes() {
            self.wanted = Wanted::Space;
        }
        taken
    }

    /// One of these signs or words, and the spaces behind it.
    fn sign(&mut self, signs: &[&str]) -> bool {
        let taken = self.any(signs);
        if taken {
            self.spaces();
        }
        taken
    }

    fn spaces(&mut self) {
        while self.line.get(self.at) == Some(&b' ') {
            self.at += 1;
        }
    }

    fn part(&mut self, sort: PartSort, take: impl FnOnce(&mut Scan<'a>) -> bool) -> bool {
        let start = self.at;
        let taken = take(self);
        let end = self.at;
        let count = 0;
        self.parts.push(Part {
            sort,
            start,
            end,
            count,
        });
        if taken {
            self.spaces();
        }
        taken
    }

    /// A sign that stands here, with its count.
    fn counted(&mut self, sort: PartSort, count: usize, sign: &str) {
        self.part(sort, |scan| scan.any(&[sign]));
        if let Some(part) = self.parts.last_mut() {
            part.count = count;
        }
    }
}
