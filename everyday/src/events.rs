//! Event bytes by step, from a text: `at 100 1`, `every 50 timer0`, `from 200 to 260 external`, `1000*0 1 3*timer1+external`.
//! Steps are numbered from 0, as in the library's lists. What meets in one step is joined.

const NAMES: [(&str, u8); 6] =
    [("external", 1), ("decrementer", 2), ("timer0", 4), ("timer1", 8), ("timer2", 16), ("timer3", 32)];

/// The byte of all of them.
pub const ALL: u8 = 63;

#[derive(Default)]
pub struct Events {
    spans: Vec<Span>,
    /// The last step that any span up to this one has: sorted, like the spans, so that a search finds what is over.
    over: Vec<u64>,
    every: Vec<(u64, u8)>,
    /// Where the next line of bytes goes on.
    listed: u64,
}

/// The steps `from` to `to`, both with this byte.
#[derive(Clone, Copy)]
struct Span {
    from: u64,
    to: u64,
    byte: u8,
}

/// What is wrong in a line, and in which column of it, from 1.
struct Wrong {
    column: usize,
    sentence: String,
}

impl Events {
    /// All lines of these texts; before each stands what messages call it.
    pub fn read(texts: &[(String, String)]) -> Result<Events, String> {
        let mut events = Events::default();
        for (source, text) in texts {
            events.add_text(source, text)?;
        }
        events.settle();
        Ok(events)
    }

    /// One byte in the steps `from` to `to`.
    pub fn steady(from: u64, to: u64, byte: u8) -> Events {
        let mut events = Events { spans: vec![Span { from, to, byte }], ..Events::default() };
        events.settle();
        events
    }

    fn add_text(&mut self, source: &str, text: &str) -> Result<(), String> {
        for (k, line) in text.trim_start_matches('\u{FEFF}').lines().enumerate() {
            self.add_line(line)
                .map_err(|wrong| format!("{source}, line {}, column {}: {}", k + 1, wrong.column, wrong.sentence))?;
        }
        Ok(())
    }

    fn add_line(&mut self, line: &str) -> Result<(), Wrong> {
        let text = line.split('#').next().unwrap_or("");
        let words = words(text);
        let end = text.trim_end().chars().count() + 1;
        match words.first() {
            None => Ok(()),
            Some(&(_, "at")) => self.add_at(&words, end),
            Some(&(_, "every")) => self.add_every(&words, end),
            Some(&(_, "from")) => self.add_from(&words, end),
            Some(first) if first.1.starts_with(|letter: char| letter.is_ascii_digit()) => self.add_list(&words),
            Some(first) if event(*first).is_ok() => self.add_list(&words),
            Some(first) => {
                wrong(*first, &format!("'{}' begins no line; a line begins with at, every, from, or an event", first.1))
            }
        }
    }

    fn add_at(&mut self, words: &[Word], end: usize) -> Result<(), Wrong> {
        let shape = "'at STEP EVENT'";
        let from = step(get(words, 1, end, shape)?)?;
        let byte = event(get(words, 2, end, shape)?)?;
        only(words, 3, shape)?;
        self.spans.push(Span { from, to: from, byte });
        Ok(())
    }

    fn add_every(&mut self, words: &[Word], end: usize) -> Result<(), Wrong> {
        let shape = "'every STEPS EVENT'";
        let period = get(words, 1, end, shape)?;
        let steps = step(period)?;
        let byte = event(get(words, 2, end, shape)?)?;
        only(words, 3, shape)?;
        if steps == 0 {
            return wrong(period, "every 0 steps is no period; write 1 or more");
        }
        self.every.push((steps, byte));
        Ok(())
    }

    fn add_from(&mut self, words: &[Word], end: usize) -> Result<(), Wrong> {
        let shape = "'from STEP to STEP EVENT'";
        let from = step(get(words, 1, end, shape)?)?;
        let link = get(words, 2, end, shape)?;
        if link.1 != "to" {
            return wrong(link, &format!("'{}' stands where {shape} has 'to'", link.1));
        }
        let last = get(words, 3, end, shape)?;
        let to = step(last)?;
        let byte = event(get(words, 4, end, shape)?)?;
        only(words, 5, shape)?;
        if to < from {
            return wrong(last, &format!("{to} comes before {from}; write the smaller step first"));
        }
        self.spans.push(Span { from, to, byte });
        Ok(())
    }

    fn add_list(&mut self, words: &[Word]) -> Result<(), Wrong> {
        for &(column, word) in words {
            let (times, name) = match word.split_once('*') {
                Some((times, name)) => (step((column, times))?, (column + times.len() + 1, name)),
                None => (1, (column, word)),
            };
            let byte = event(name)?;
            let next =
                self.listed.checked_add(times).ok_or(Wrong { column, sentence: "the list is too long".into() })?;
            if times > 0 {
                self.spans.push(Span { from: self.listed, to: next - 1, byte });
            }
            self.listed = next;
        }
        Ok(())
    }

    /// Spans of one byte that meet are joined, so that at most 63 have a step in common; then they are sorted.
    fn settle(&mut self) {
        self.spans.sort_by_key(|span| (span.byte, span.from));
        let mut joined: Vec<Span> = Vec::new();
        for span in self.spans.drain(..).filter(|span| span.byte != 0) {
            match joined.last_mut() {
                Some(last) if last.byte == span.byte && span.from <= last.to.saturating_add(1) => {
                    last.to = last.to.max(span.to)
                }
                _ => joined.push(span),
            }
        }
        joined.sort_by_key(|span| span.from);
        self.spans = joined;
        let mut most = 0;
        for span in &self.spans {
            most = most.max(span.to);
            self.over.push(most);
        }
    }

    /// Whether there may be one in a step from `step` on.
    pub fn has_from(&self, step: u64) -> bool {
        !self.every.is_empty() || self.over.last().is_some_and(|&last| last >= step)
    }

    /// The bytes of `steps` steps from `start` on, without zeros at the end.
    pub fn list(&self, start: u64, steps: u32, list: &mut Vec<u8>) {
        list.clear();
        if steps == 0 {
            return;
        }
        let last = start.saturating_add(u64::from(steps) - 1);
        let first = self.over.partition_point(|&to| to < start);
        for span in self.spans[first..].iter().take_while(|span| span.from <= last) {
            if span.to >= start {
                for at in span.from.max(start)..=span.to.min(last) {
                    put(list, (at - start) as usize, span.byte);
                }
            }
        }
        for &(period, byte) in self.every.iter().filter(|&&(_, byte)| byte != 0) {
            let mut next = start.max(1).div_ceil(period).checked_mul(period);
            while let Some(at) = next.filter(|&at| at <= last) {
                put(list, (at - start) as usize, byte);
                next = at.checked_add(period);
            }
        }
    }
}

fn put(list: &mut Vec<u8>, at: usize, byte: u8) {
    if list.len() <= at {
        list.resize(at + 1, 0);
    }
    list[at] |= byte;
}

/// A byte by its names.
pub fn shown(byte: u8) -> String {
    let names: Vec<&str> = NAMES.iter().filter(|&&(_, bit)| byte & bit != 0).map(|&(name, _)| name).collect();
    names.join("+")
}

/// A word of a line, with its column from 1.
type Word<'a> = (usize, &'a str);

fn words(text: &str) -> Vec<Word<'_>> {
    let mut words = Vec::new();
    let mut start = None;
    for (column, (at, letter)) in text.char_indices().enumerate() {
        match (letter.is_whitespace(), start) {
            (false, None) => start = Some((column + 1, at)),
            (true, Some((column, from))) => {
                words.push((column, &text[from..at]));
                start = None;
            }
            _ => {}
        }
    }
    if let Some((column, from)) = start {
        words.push((column, &text[from..]));
    }
    words
}

fn wrong<T>(at: Word, sentence: &str) -> Result<T, Wrong> {
    Err(Wrong { column: at.0, sentence: sentence.into() })
}

fn get<'a>(words: &[Word<'a>], k: usize, end: usize, shape: &str) -> Result<Word<'a>, Wrong> {
    words.get(k).copied().ok_or(Wrong { column: end, sentence: format!("the line ends too early; write {shape}") })
}

fn only(words: &[Word], length: usize, shape: &str) -> Result<(), Wrong> {
    match words.get(length) {
        Some(&extra) => wrong(extra, &format!("'{}' is too much; write {shape}", extra.1)),
        None => Ok(()),
    }
}

fn step(word: Word) -> Result<u64, Wrong> {
    crate::numbers::count(word.1).or_else(|sentence| wrong(word, &sentence))
}

/// A byte as it stands in a line.
pub fn byte(text: &str) -> Result<u8, String> {
    event((1, text)).map_err(|wrong| wrong.sentence)
}

/// Values from 0 to 63 and names, joined by `+`.
fn event(word: Word) -> Result<u8, Wrong> {
    let mut byte = 0;
    let mut column = word.0;
    for name in word.1.split('+') {
        let value = name.parse::<u8>().ok().filter(|&value| value < 64);
        match value.or(NAMES.iter().find(|(known, _)| *known == name).map(|&(_, bit)| bit)) {
            Some(bits) => byte |= bits,
            None => {
                let names: Vec<&str> = NAMES.iter().map(|&(name, _)| name).collect();
                let sentence =
                    format!("'{name}' is no event; write a value from 0 to 63, or {} joined by +", names.join(", "));
                return wrong((column, name), &sentence);
            }
        }
        column += name.chars().count() + 1;
    }
    Ok(byte)
}

#[cfg(test)]
mod tests {
    use super::*;

    fn list(text: &str, start: u64, steps: u32) -> Vec<u8> {
        let events = Events::read(&[("text".into(), text.into())]).unwrap();
        let mut list = Vec::new();
        events.list(start, steps, &mut list);
        list
    }

    fn problem(text: &str) -> String {
        Events::read(&[("text".into(), text.into())]).err().unwrap()
    }

    #[test]
    fn each_form_gives_its_bytes() {
        assert_eq!(list("at 2 1\nat 2 timer0", 0, 10), [0, 0, 5]);
        assert_eq!(list("every 3 4", 0, 10), [0, 0, 0, 4, 0, 0, 4, 0, 0, 4]);
        assert_eq!(list("every 3 4", 4, 3), [0, 0, 4]);
        assert_eq!(list("from 1 to 2 external+decrementer # both ends", 0, 10), [0, 3, 3]);
        assert_eq!(list("2*0 1\n3*timer3", 1, 3), [0, 1, 32]);
        assert_eq!(list("\u{FEFF}external+4", 0, 3), [5]);
        assert!(list("1000*0", 0, 1000).is_empty());
        assert!(list("", 0, 1000).is_empty());
    }

    #[test]
    fn far_steps_and_long_lists_cost_nothing() {
        assert_eq!(list("1000G*0 1", 1_000_000_000_000, 5), [1]);
        assert_eq!(list("at 18446744073709551615 1", u64::MAX - 1, 2), [0, 1]);
        assert_eq!(list("every 18446744073709551615 1", u64::MAX, 1), [1]);
    }

    #[test]
    fn chunks_join_to_the_whole() {
        let text = "every 7 4\nfrom 3 to 40 1\nat 90 2\n50*0 3*8\nevery 1 16";
        let whole = list(text, 0, 100);
        let mut joined = Vec::new();
        for start in (0..100).step_by(9) {
            let steps = 9.min(100 - start);
            let mut part = list(text, start, steps as u32);
            part.resize(steps as usize, 0);
            joined.extend(part);
        }
        assert_eq!(whole, joined);
    }

    #[test]
    fn wrong_lines_are_named_by_line_and_column() {
        assert_eq!(problem("at 1 1\nat 5"), "text, line 2, column 5: the line ends too early; write 'at STEP EVENT'");
        assert!(problem("  at 1 64").starts_with("text, line 1, column 8: '64' is no event"));
        assert!(problem("at 1 external+tmer0").starts_with("text, line 1, column 15: 'tmer0' is no event"));
        assert!(problem("from 9 to 3 1").starts_with("text, line 1, column 11: 3 comes before 9"));
        assert!(problem("every 0 1").starts_with("text, line 1, column 7: every 0"));
        assert!(problem("from 1 till 3 1").starts_with("text, line 1, column 8: 'till'"));
        assert!(problem("at 1 1 1").starts_with("text, line 1, column 8: '1' is too much"));
        assert!(problem("3*ab").starts_with("text, line 1, column 3: 'ab'"));
        assert!(problem("2 x*1").starts_with("text, line 1, column 3: 'x' is no count"));
        assert!(problem("att 1 1").starts_with("text, line 1, column 1: 'att' begins no line"));
        assert!(problem("at 1 +5").starts_with("text, line 1, column 6: '' is no event"));
    }
}
