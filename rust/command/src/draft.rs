//! A rules text line by line, each line with its number in the text as it was given,
//! so that lines can be mended and taken out.

/// A line of a draft.
#[derive(Clone, Debug, PartialEq, Eq)]
pub struct Line {
    /// Its number in the text, counted from 1.
    pub number: u64,
    /// Its bytes, with the line break where it has one.
    pub bytes: Vec<u8>,
}

impl Line {
    /// Its bytes without the line break.
    pub fn content(&self) -> &[u8] {
        self.bytes.strip_suffix(b"\n").unwrap_or(&self.bytes)
    }

    /// What it opens or closes.
    pub fn role(&self) -> Role {
        match self.content() {
            b"step" => Role::Step,
            b"end" => Role::End,
            b"done" => Role::Done,
            line if line.starts_with(b"loop ") => Role::Loop,
            _ => Role::Other,
        }
    }
}

/// What a line opens or closes.
#[derive(Clone, Copy, Debug, PartialEq, Eq)]
pub enum Role {
    /// It opens a step.
    Step,
    /// It closes a step.
    End,
    /// It opens a loop.
    Loop,
    /// It closes a loop.
    Done,
    /// Neither.
    Other,
}

/// What is open before a line: the lines that opened it.
#[derive(Clone, Copy, Debug, Default, PartialEq, Eq)]
pub struct Open {
    /// The step.
    pub step: Option<u64>,
    /// The loop.
    pub looped: Option<u64>,
}

/// The lines of a text. Their places count from 1, as the library's line numbers do.
#[derive(Clone, Debug)]
pub struct Draft {
    lines: Vec<Line>,
    behind: u64,
}

impl Draft {
    /// The lines of a text.
    pub fn of(text: &[u8]) -> Draft {
        let lines = text.split_inclusive(|&byte| byte == b'\n');
        let line = |(number, bytes): (u64, &[u8])| Line {
            number,
            bytes: bytes.to_vec(),
        };
        let lines: Vec<Line> = (1..).zip(lines).map(line).collect();
        let behind = lines.len() as u64 + 1;
        Draft { lines, behind }
    }

    /// The text as it stands now.
    pub fn text(&self) -> Vec<u8> {
        self.lines
            .iter()
            .flat_map(|line| line.bytes.clone())
            .collect()
    }

    /// The lines in their order.
    pub fn lines(&self) -> &[Line] {
        &self.lines
    }

    /// The line at a place; none behind the last.
    pub fn line(&self, place: u64) -> Option<&Line> {
        self.lines.get(place.checked_sub(1)? as usize)
    }

    /// The number, in the text as it was given, of the line at a place.
    pub fn number(&self, place: u64) -> u64 {
        self.line(place).map_or(self.behind, |line| line.number)
    }

    /// Whether the last line has no line break.
    pub fn ends_open(&self) -> bool {
        self.lines
            .last()
            .is_some_and(|line| !line.bytes.ends_with(b"\n"))
    }

    /// What is open before a place.
    pub fn open_before(&self, place: u64) -> Open {
        let mut open = Open::default();
        for line in self.before(place) {
            match line.role() {
                Role::Step => open.step = Some(line.number),
                Role::End => open.step = None,
                Role::Loop => open.looped = Some(line.number),
                Role::Done => open.looped = None,
                Role::Other => {}
            }
        }
        open
    }

    fn before(&self, place: u64) -> &[Line] {
        let end = (place as usize).saturating_sub(1).min(self.lines.len());
        &self.lines[..end]
    }

    /// Whether the next line behind a place that opens or closes something is of this
    /// role.
    pub fn goes_on_with(&self, place: u64, role: Role) -> bool {
        let mut roles = self.lines[place as usize..].iter().map(Line::role);
        roles.find(|role| *role != Role::Other) == Some(role)
    }

    /// Puts a line before a place.
    pub fn insert(&mut self, place: u64, content: &str) {
        let line = Line {
            number: self.number(place),
            bytes: format!("{content}\n").into_bytes(),
        };
        self.lines.insert(place as usize - 1, line);
    }

    /// Puts another line at a place.
    pub fn replace(&mut self, place: u64, content: &[u8]) {
        if let Some(line) = self.lines.get_mut(place as usize - 1) {
            line.bytes = [content, b"\n"].concat();
        }
    }

    /// Takes the line at a place out.
    pub fn remove(&mut self, place: u64) {
        self.lines.remove(place as usize - 1);
    }

    /// Keeps the lines that are wanted.
    pub fn retain(&mut self, wanted: impl FnMut(&Line) -> bool) {
        self.lines.retain(wanted);
    }

    /// Takes the returns of Windows out of every line.
    pub fn strip_returns(&mut self) {
        for line in &mut self.lines {
            if line.bytes.ends_with(b"\r\n") {
                line.bytes.truncate(line.bytes.len() - 2);
                line.bytes.push(b'\n');
            }
        }
    }
}
