//! The lines of a page with their numbers, so that an error can name one.

/// What was read, or what is wrong at which line.
pub type Read<T> = Result<T, String>;

pub struct Line {
    /// Counted from 1.
    pub number: usize,
    pub text: String,
}

impl Line {
    pub fn error(&self, what: &str) -> String {
        format!("line {}: {what}: {}", self.number, self.text)
    }

    /// The text without its indentation, which must be two spaces for each level.
    pub fn at_depth(&self, depth: usize) -> Read<&str> {
        let text = self.text.trim_start_matches(' ');
        if self.text.len() - text.len() != 2 * depth {
            return Err(self.error("wrong indentation"));
        }
        Ok(text)
    }
}

pub struct Lines<'a> {
    lines: Vec<&'a str>,
    next: usize,
}

impl<'a> Lines<'a> {
    pub fn of(text: &'a str) -> Lines<'a> {
        Lines { lines: text.lines().collect(), next: 0 }
    }

    /// Whether the next line starts with these words.
    pub fn starts_with(&self, words: &str) -> bool {
        self.lines.get(self.next).is_some_and(|line| line.starts_with(words))
    }

    pub fn next(&mut self) -> Read<Line> {
        let Some(text) = self.lines.get(self.next) else {
            return Err(format!("line {}: the page ends too early", self.next + 1));
        };
        self.next += 1;
        Ok(Line { number: self.next, text: text.to_string() })
    }

    /// The next line of a table, with the lines that continue it: those are indented by four.
    pub fn next_wrapped(&mut self) -> Read<Line> {
        let mut line = self.next()?;
        while self.starts_with("    ") {
            let more = self.next()?;
            line.text = format!("{} {}", line.text, &more.text[4..]);
        }
        Ok(line)
    }

    pub fn expect(&mut self, wanted: &str) -> Read<()> {
        let line = self.next()?;
        if line.text != wanted {
            return Err(line.error(&format!("not {wanted:?}")));
        }
        Ok(())
    }

    /// The lines up to the text of a section.
    pub fn open(&mut self, title: &str) -> Read<()> {
        self.expect("")?;
        self.expect(&format!("## {title}"))?;
        self.expect("")?;
        self.expect("```")
    }

    pub fn finish(&mut self) -> Read<()> {
        if self.next < self.lines.len() {
            return Err(self.next()?.error("after the end"));
        }
        Ok(())
    }
}
