//! What two readers answer to the same questions.

use crate::recipes::BOUNDS;
use crate::rng::Rng;
use reader::{Answers, Words, WORDS};
use std::fmt;

/// A question over tables.
#[derive(Clone, Copy, Debug)]
pub enum Question {
    /// Accessor, element, component.
    Component(u32, u32, u32),
    View(u32),
    /// Scene, and the room of the list.
    Walk(u32, usize),
}

/// A file, the tables that the questions are asked over (the file's own where there are none), and the questions.
#[derive(Clone)]
pub struct Case {
    pub file: Vec<u8>,
    pub words: Option<Box<Words>>,
    pub questions: Vec<Question>,
}

/// A question that two readers answer differently.
pub struct Difference {
    pub question: String,
    pub left: String,
    pub right: String,
}

impl fmt::Display for Difference {
    fn fmt(&self, f: &mut fmt::Formatter) -> fmt::Result {
        writeln!(f, "  question    {}", self.question)?;
        writeln!(f, "  library     {}", self.left)?;
        write!(f, "  independent {}", self.right)
    }
}

/// What stands in words and lists before a call, so that one that is not written shows.
const UNWRITTEN: u32 = 0xA5A5_A5A5;

/// Verdict, item and tables of a file.
pub fn checked(answers: &dyn Answers, file: &[u8]) -> (u32, u32, Box<Words>) {
    let mut words = Box::new([UNWRITTEN; WORDS]);
    let (verdict, item) = answers.check(file, &mut words);
    (verdict, item, words)
}

/// The number of an answer, and the whole answer in words; for a walk also the whole list and what lies behind it.
pub fn answer(answers: &dyn Answers, file: &[u8], words: &Words, question: Question) -> (u32, String) {
    match question {
        Question::Component(accessor, element, component) => {
            let (number, value) = answers.component(file, words, accessor, element, component);
            (number, format!("number {number} value {value}"))
        }
        Question::View(view) => {
            let (number, start, length) = answers.view(file, words, view);
            (number, format!("number {number} start {start} length {length}"))
        }
        Question::Walk(scene, room) => {
            let mut list = vec![UNWRITTEN as u16; room + 2];
            let (number, count) = answers.walk(words, scene, &mut list[..room]);
            (number, format!("number {number} count {count} list {list:?}"))
        }
    }
}

/// The first thing of a case on which the two differ, and the right one's verdict and numbers up to there.
pub fn difference(left: &dyn Answers, right: &dyn Answers, case: &Case) -> (Vec<u32>, Option<Difference>) {
    let (verdict, item, words) = checked(right, &case.file);
    let (left_verdict, left_item, left_words) = checked(left, &case.file);
    if (left_verdict, left_item) != (verdict, item) {
        let show = |verdict, item| format!("verdict {verdict} item {item}");
        let difference =
            Difference { question: "check".into(), left: show(left_verdict, left_item), right: show(verdict, item) };
        return (vec![verdict], Some(difference));
    }
    if let Some(place) = (0..WORDS).find(|&place| left_words[place] != words[place]) {
        let question = format!("word {place} of the tables");
        let difference = Difference { question, left: left_words[place].to_string(), right: words[place].to_string() };
        return (vec![verdict], Some(difference));
    }
    let asked = case.words.as_ref().unwrap_or(&words);
    let mut numbers = vec![verdict];
    for &question in &case.questions {
        let (_, left) = answer(left, &case.file, asked, question);
        let (number, right) = answer(right, &case.file, asked, question);
        numbers.push(number);
        if left != right {
            return (numbers, Some(Difference { question: format!("{question:?}"), left, right }));
        }
    }
    (numbers, None)
}

/// Questions for these tables, most of them inside the counts.
pub fn questions(words: &Words, rng: &mut Rng) -> Vec<Question> {
    let mut questions = Vec::new();
    let accessors = index_below(words[2], 128);
    for _ in 0..10 {
        let accessor = index(accessors, rng);
        let record = 528 + 16 * (accessor as usize).min(127);
        let element = index(words[record + 4] as usize, rng);
        let kind = words[record + 5] as usize;
        let components = *[0, 1, 2, 3, 4, 4, 9, 16].get(kind).unwrap_or(&0);
        questions.push(Question::Component(accessor, element, index(components, rng)));
    }
    for _ in 0..3 {
        questions.push(Question::View(index(index_below(words[1], 64), rng)));
    }
    for _ in 0..3 {
        let room = *rng.pick(&[0, 1, 2, 3, 5, 8, 127, 128, 129, 200]);
        questions.push(Question::Walk(index(index_below(words[4], 8), rng), room));
    }
    questions
}

fn index_below(count: u32, capacity: usize) -> usize {
    (count as usize).min(capacity)
}

/// An index that is mostly below the count.
fn index(count: usize, rng: &mut Rng) -> u32 {
    let index = match rng.below(20) {
        0 => count,
        1 => *rng.pick(&BOUNDS),
        2 => count.saturating_sub(1),
        _ if count == 0 => 0,
        _ => rng.below(count),
    };
    index as u32
}

/// Changes one to four words of the tables, mostly such as are in use.
pub fn corrupt(words: &mut Words, rng: &mut Rng) {
    for _ in 0..rng.from_to(1, 4) {
        let record = |start: usize, size: usize, count: u32, capacity: usize, rng: &mut Rng| {
            let count = index_below(count, capacity).max(1);
            start + size * rng.below(count) + rng.below(size)
        };
        let place = match rng.below(9) {
            0 => rng.below(9),
            1 | 2 => record(16, 8, words[1], 64, rng),
            3 | 4 => record(528, 16, words[2], 128, rng),
            5 => record(2576, 2, words[3], 128, rng),
            6 => record(2832, 1, words[3], 128, rng),
            7 if rng.percent(50) => record(2960, 2, words[4], 8, rng),
            7 => record(2976, 1, words[3], 128, rng),
            _ => rng.below(WORDS),
        };
        let old = words[place];
        words[place] = match rng.below(8) {
            0 => old.wrapping_add(1),
            1 => old.wrapping_sub(1),
            2 => u32::from(old == 0),
            3 => old.wrapping_add(4),
            4 => words[rng.below(WORDS)],
            5 => rng.below(16) as u32,
            6 => *rng.pick(&[5120, 5121, 5122, 5123, 5125, 5126, 34_962, 65_537, 131_072]),
            _ => *rng.pick(&BOUNDS) as u32,
        };
    }
}
