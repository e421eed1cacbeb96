//! Text in columns: words that wrap, and colour where the output is a terminal.

/// How a word is shown in colour. Without colour nothing is lost: the words say it too.
#[derive(Clone, Copy, Debug, PartialEq, Eq)]
pub enum Style {
    Plain,
    Zero,
    One,
    Faulty,
    Good,
    Bad,
    Faint,
}

impl Style {
    /// The style of something that says a bit.
    pub fn of_bit(bit: u8) -> Style {
        match bit {
            0 => Style::Zero,
            1 => Style::One,
            _ => Style::Plain,
        }
    }

    /// What to write before it on a terminal: blue and yellow are told apart by all eyes.
    fn escape(self) -> &'static str {
        match self {
            Style::Plain => "",
            Style::Zero => "\x1b[94m",
            Style::One => "\x1b[33m",
            Style::Faulty => "\x1b[31m",
            Style::Good => "\x1b[1;32m",
            Style::Bad => "\x1b[1;31m",
            Style::Faint => "\x1b[2m",
        }
    }
}

/// Text in its style, if there is to be colour.
pub fn painted(text: &str, style: Style, colour: bool) -> String {
    match colour && style != Style::Plain {
        true => format!("{}{text}\x1b[0m", style.escape()),
        false => text.into(),
    }
}

/// A line of a cell before it is wrapped.
#[derive(Clone, Debug, Default)]
pub struct Line(Vec<(String, Style)>);

impl Line {
    pub fn of(text: &str, style: Style) -> Line {
        Line::default().and(text, style)
    }

    /// The same with more words behind it.
    pub fn and(mut self, text: &str, style: Style) -> Line {
        let words = text.split_whitespace();
        self.0.extend(words.map(|word| (word.to_string(), style)));
        self
    }
}

/// Lines of a cell as they stand in a column: each padded to its width.
pub fn wrapped(lines: &[Line], width: usize, colour: bool) -> Vec<String> {
    let mut all = Vec::new();
    for line in lines {
        let mut row = Row::default();
        for (word, style) in line
            .0
            .iter()
            .flat_map(|(word, style)| pieces(word, *style, width))
        {
            if !row.has_room(&word, width) {
                all.push(std::mem::replace(&mut row, Row::hanging()).padded(width));
                if !row.has_room(&word, width) {
                    row = Row::default();
                }
            }
            row.add(&word, style, colour);
        }
        all.push(row.padded(width));
    }
    all
}

/// How far a wrapped line is set in.
const INDENT: usize = 2;

/// A word in pieces that fit a column.
fn pieces(word: &str, style: Style, width: usize) -> Vec<(String, Style)> {
    let letters: Vec<char> = word.chars().collect();
    let parts = letters.chunks(width);
    parts.map(|part| (part.iter().collect(), style)).collect()
}

#[derive(Default)]
struct Row {
    text: String,
    /// How many columns it takes, without what colours it.
    taken: usize,
    words: usize,
}

impl Row {
    fn hanging() -> Row {
        Row {
            text: " ".repeat(INDENT),
            taken: INDENT,
            words: 0,
        }
    }

    fn has_room(&self, word: &str, width: usize) -> bool {
        let gap = usize::from(self.words > 0);
        self.taken + gap + word.chars().count() <= width
    }

    fn add(&mut self, word: &str, style: Style, colour: bool) {
        if self.words > 0 {
            self.text.push(' ');
            self.taken += 1;
        }
        self.text.push_str(&painted(word, style, colour));
        self.taken += word.chars().count();
        self.words += 1;
    }

    fn padded(self, width: usize) -> String {
        self.text + &" ".repeat(width.saturating_sub(self.taken))
    }
}
