//! Makes a case on which two readers differ smaller, while they still differ.

use crate::compare::{difference, Case, Question};
use crate::glb::{assemble, fix_length, pad, split, JSON};
use reader::Answers;
use std::time::{Duration, Instant};

/// The smallest case found in that time.
pub fn shrink(left: &dyn Answers, right: &dyn Answers, case: Case, limit: Duration) -> Case {
    let mut search = Search { left, right, best: case, until: Instant::now() + limit };
    search.drop_questions();
    loop {
        let before = weight(&search.best);
        search.cut_chunks();
        search.cut_values();
        search.simplify_numbers();
        search.shorten_buffer();
        search.cut_text();
        search.cut_bytes();
        search.lower_question();
        search.clear_words();
        search.clear_bytes();
        if weight(&search.best) == before || search.late() {
            return search.best;
        }
    }
}

/// What gets less: the file's length, the bytes that say something, the words.
fn weight(case: &Case) -> (usize, usize, u64) {
    let telling = case.file.iter().filter(|&&byte| byte != 0 && byte != b' ').count();
    let words = case.words.iter().flat_map(|words| words.iter()).map(|&word| u64::from(word)).sum();
    (case.file.len(), telling, words)
}

struct Search<'a> {
    left: &'a dyn Answers,
    right: &'a dyn Answers,
    best: Case,
    until: Instant,
}

impl Search<'_> {
    fn late(&self) -> bool {
        Instant::now() > self.until
    }

    /// Keeps the case if the readers still differ on it.
    fn keep(&mut self, case: Case) -> bool {
        let kept = !self.late() && difference(self.left, self.right, &case).1.is_some();
        if kept {
            self.best = case;
        }
        kept
    }

    /// Keeps the file if the readers still differ on it, over the same question or a lower one.
    fn keep_file(&mut self, file: Vec<u8>) -> bool {
        let case = Case { file, ..self.best.clone() };
        let lower = case.questions.first().map_or(Vec::new(), |&question| lower(question));
        self.keep(case.clone())
            || lower.into_iter().any(|question| self.keep(Case { questions: vec![question], ..case.clone() }))
    }

    /// The question gets lower numbers.
    fn lower_question(&mut self) {
        while let Some(&question) = self.best.questions.first() {
            let mut lower = lower(question).into_iter();
            if !lower.any(|question| self.keep(Case { questions: vec![question], ..self.best.clone() })) {
                return;
            }
        }
    }

    /// One question alone, or none where the check differs.
    fn drop_questions(&mut self) {
        let questions = self.best.questions.clone();
        if self.keep(Case { questions: Vec::new(), words: None, ..self.best.clone() }) {
            return;
        }
        for question in questions {
            if self.keep(Case { questions: vec![question], ..self.best.clone() }) {
                return;
            }
        }
    }

    /// Chunks after the first go; their data get shorter.
    fn cut_chunks(&mut self) {
        let mut at = 1;
        while !self.late() && at < split(&self.best.file).len() {
            let mut chunks = split(&self.best.file);
            chunks.remove(at);
            at += usize::from(!self.keep_file(rebuild(&chunks)));
        }
        for at in 1..split(&self.best.file).len() {
            if self.late() {
                return;
            }
            let mut step = split(&self.best.file)[at].1.len() / 8 * 4;
            while step >= 4 && !self.late() {
                let mut chunks = split(&self.best.file);
                let length = chunks[at].1.len();
                chunks[at].1.truncate(length.saturating_sub(step));
                if length < step || !self.keep_file(rebuild(&chunks)) {
                    step = step / 8 * 4;
                }
            }
        }
    }

    /// The JSON text, if there is one.
    fn text(&self) -> Vec<u8> {
        split(&self.best.file).first().map_or(Vec::new(), |(_, text)| text.clone())
    }

    /// The file with another JSON text, its padding put right, and its second chunk cut to a length.
    fn keep_text(&mut self, mut text: Vec<u8>, second: usize) -> bool {
        let mut chunks = split(&self.best.file);
        while text.last() == Some(&b' ') {
            text.pop();
        }
        pad(&mut text, b' ');
        chunks[0].1 = text;
        if let Some((_, data)) = chunks.get_mut(1) {
            data.truncate(second);
        }
        let file = rebuild(&chunks);
        file.len() <= self.best.file.len() && file != self.best.file && self.keep_file(file)
    }

    /// Whole members and elements of the text go, the outer ones first.
    fn cut_values(&mut self) {
        let mut at = 0;
        while at < self.text().len() && !self.late() {
            let mut text = self.text();
            if at > 0 && matches!(text[at - 1], b'[' | b'{' | b',') {
                let mut end = value_end(&text, at);
                let mut start = at;
                match text.get(end) {
                    Some(b',') => end += 1,
                    _ if text[at - 1] == b',' => start -= 1,
                    _ => {}
                }
                text.drain(start..end);
                if self.keep_text(text, usize::MAX) {
                    at = start;
                    continue;
                }
            }
            at += 1;
        }
    }

    /// Numbers of the text become 0, 1 or 4.
    fn simplify_numbers(&mut self) {
        let mut at = 0;
        while at < self.text().len() && !self.late() {
            for simple in [b'0', b'1', b'4'] {
                let mut text = self.text();
                let end = digits_end(&text, at);
                let spelled = end - at > 1 || end > at && text[at] > simple;
                if spelled {
                    text.splice(at..end, [simple]);
                    self.keep_text(text, usize::MAX);
                }
            }
            at = digits_end(&self.text(), at).max(at + 1);
        }
    }

    /// The second chunk gets shorter, and with it the number in the text that is its length.
    fn shorten_buffer(&mut self) {
        let mut step = usize::MAX;
        while step >= 4 && !self.late() {
            let chunks = split(&self.best.file);
            let Some((_, data)) = chunks.get(1) else { return };
            step = step.min(data.len() / 4 * 4);
            let shorter = data.len() - step;
            let text = self.text();
            let lengths: Vec<String> = (data.len().saturating_sub(3)..=data.len()).map(|n| n.to_string()).collect();
            let mut kept = false;
            for at in 0..text.len() {
                let end = digits_end(&text, at);
                if !kept && lengths.iter().any(|length| length.as_bytes() == &text[at..end]) {
                    let mut text = text.clone();
                    text.splice(at..end, shorter.to_string().into_bytes());
                    kept = self.keep_text(text, shorter);
                }
            }
            step = if kept { step } else { step / 8 * 4 };
        }
    }

    /// Pieces of the JSON text go, the long ones first; the padding is put right.
    fn cut_text(&mut self) {
        let mut size = self.text().len() / 2;
        while size >= 1 && !self.late() {
            let mut at = 0;
            while at + size <= self.text().len() && !self.late() {
                let mut text = self.text();
                text.drain(at..at + size);
                at += if self.keep_text(text, usize::MAX) { 0 } else { size };
            }
            size /= 2;
        }
    }

    /// Pieces of the file go, whatever they are; the header's length is put right, or left.
    fn cut_bytes(&mut self) {
        let mut size = self.best.file.len() / 2;
        while size >= 1 && !self.late() {
            let mut at = 0;
            while at + size <= self.best.file.len() && !self.late() {
                let mut shorter = self.best.file.clone();
                shorter.drain(at..at + size);
                let mut fixed = shorter.clone();
                fix_length(&mut fixed);
                let kept = self.keep_file(fixed) || self.keep_file(shorter);
                at += if kept { 0 } else { size };
            }
            size /= 2;
        }
    }

    /// Bytes become 0 or a space.
    fn clear_bytes(&mut self) {
        for at in 12..self.best.file.len() {
            for filler in [0, b' '] {
                if !self.late() && self.best.file[at] != 0 && self.best.file[at] != b' ' {
                    let mut file = self.best.file.clone();
                    file[at] = filler;
                    self.keep_file(file);
                }
            }
        }
    }

    /// Words of tables handed in become 0 or 1, half or one less.
    fn clear_words(&mut self) {
        let Some(words) = self.best.words.clone() else { return };
        for place in (0..words.len()).filter(|&place| words[place] > 0) {
            for value in [0, 1, words[place] / 2, words[place] - 1] {
                let mut words = self.best.words.clone().expect("they are there");
                if value < words[place] {
                    words[place] = value;
                    self.keep(Case { words: Some(words), ..self.best.clone() });
                }
            }
        }
    }
}

/// Questions with one number halved or one less.
fn lower(question: Question) -> Vec<Question> {
    let less = |number: u32| [number / 2, number.saturating_sub(1)].into_iter().filter(move |&other| other < number);
    match question {
        Question::Component(a, e, c) => less(a)
            .map(|a| Question::Component(a, e, c))
            .chain(less(e).map(|e| Question::Component(a, e, c)))
            .chain(less(c).map(|c| Question::Component(a, e, c)))
            .collect(),
        Question::View(view) => less(view).map(Question::View).collect(),
        Question::Walk(scene, room) => less(scene)
            .map(|scene| Question::Walk(scene, room))
            .chain(less(room as u32).map(|room| Question::Walk(scene, room as usize)))
            .collect(),
    }
}

/// Where the member or element that starts here ends: at a comma or closing bracket of its own level.
fn value_end(text: &[u8], start: usize) -> usize {
    let (mut level, mut in_string, mut hidden) = (0, false, false);
    for (at, &byte) in text.iter().enumerate().skip(start) {
        match byte {
            _ if hidden => hidden = false,
            b'\\' => hidden = in_string,
            b'"' => in_string = !in_string,
            _ if in_string => {}
            b'[' | b'{' => level += 1,
            b',' | b']' | b'}' if level == 0 => return at,
            b']' | b'}' => level -= 1,
            _ => {}
        }
    }
    text.len()
}

/// Where the digits that start here end.
fn digits_end(text: &[u8], start: usize) -> usize {
    start + text[start..].iter().take_while(|byte| byte.is_ascii_digit()).count()
}

/// A file of these chunks.
fn rebuild(chunks: &[(u32, Vec<u8>)]) -> Vec<u8> {
    let mut file = assemble(&chunks[0].1, &chunks[1..]);
    if chunks[0].0 != JSON {
        file[16..20].copy_from_slice(&chunks[0].0.to_le_bytes());
    }
    file
}
