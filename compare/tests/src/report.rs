//! What is printed: a difference, the histogram of verdicts, one line for a file.

use crate::compare::{answer, checked, Case, Difference, Question};
use reader::{Answers, Words};

/// A difference with its smallest case, the file in hexadecimal.
pub fn print_difference(case: &Case, difference: &Difference) {
    println!("DISAGREEMENT\n{difference}");
    println!("  file        {} bytes", case.file.len());
    for row in case.file.chunks(32).take(128) {
        let hex: Vec<String> = row.iter().map(|byte| format!("{byte:02x}")).collect();
        let text: String = row.iter().map(|&byte| if (32..127).contains(&byte) { byte as char } else { '.' }).collect();
        println!("    {:<96}{text}", hex.join(" "));
    }
    if case.file.len() > 4096 {
        println!("    and so on");
    }
    if let Some(words) = &case.words {
        let named: Vec<String> = words
            .iter()
            .enumerate()
            .filter(|(_, &word)| word != 0)
            .map(|(place, word)| format!("{place}={word}"))
            .collect();
        println!("  tables      {}", named.join(" "));
    }
}

/// How often each verdict was given and each number of a reading, view or walk (0, 60 to 67).
pub struct Histogram {
    pub verdicts: [u64; 48],
    pub numbers: [u64; 68],
}

/// Prints it, and the verdicts that are rare.
pub fn print_histogram(histogram: &Histogram) {
    let Histogram { verdicts, numbers } = histogram;
    println!("files by verdict:");
    for row in (0..48).collect::<Vec<_>>().chunks(8) {
        let cells: Vec<String> = row.iter().map(|&rule| format!("{rule:>3}: {:<7}", verdicts[rule])).collect();
        println!("  {}", cells.join(" "));
    }
    println!("readings, views and walks by number:");
    let cells: Vec<String> =
        [0, 60, 61, 62, 63, 64, 65, 66, 67].map(|number| format!("{number}: {}", numbers[number])).to_vec();
    println!("  {}", cells.join("  "));
    let rare: Vec<String> =
        (0..48).filter(|&rule| rule != 30 && verdicts[rule] < 50).map(|rule| rule.to_string()).collect();
    println!("rule 30 cannot be broken: a byteStride that keeps 23, like an element size, is a multiple of every component size");
    if rare.is_empty() {
        println!("every other verdict was given at least 50 times");
    } else {
        println!("given fewer than 50 times: {}", rare.join(" "));
    }
}

/// The questions that `line` asks of every file.
const QUESTIONS: [Question; 10] = [
    Question::Component(0, 0, 0),
    Question::Component(0, 1, 0),
    Question::Component(0, 2, 1),
    Question::Component(1, 0, 0),
    Question::Component(1, 3, 2),
    Question::Component(0, u32::MAX, 0),
    Question::View(0),
    Question::View(1),
    Question::Walk(0, 16),
    Question::Walk(1, 2),
];

/// One line for a file, as tools/glb_cases.py has it: verdict, item, the five counts, six components (number, value), two
/// views (number, start, length), two walks (number, count, nodes).
pub fn line(answers: &dyn Answers, file: &[u8]) -> String {
    let (verdict, item, words) = checked(answers, file);
    let counts: Vec<String> = words[..5].iter().map(u32::to_string).collect();
    let mut parts = vec![format!("{verdict} {item}"), counts.join(" ")];
    parts.extend(QUESTIONS.iter().map(|&question| numbers(answers, file, &words, question)));
    parts.join(" | ")
}

/// The numbers of an answer, of a walk only the nodes that were found.
fn numbers(answers: &dyn Answers, file: &[u8], words: &Words, question: Question) -> String {
    if let Question::Walk(scene, room) = question {
        let mut list = vec![0; room];
        let (number, count) = answers.walk(words, scene, &mut list);
        let nodes: String = list[..count as usize].iter().map(|node| format!(" {node}")).collect();
        return format!("{number} {count}{nodes}");
    }
    let words: Vec<String> =
        answer(answers, file, words, question).1.split(' ').skip(1).step_by(2).map(str::to_string).collect();
    words.join(" ")
}
