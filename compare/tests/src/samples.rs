//! Sample models: both readers' answers, as a table.

use crate::compare::{checked, difference, Case, Question};
use crate::glb::split;
use reader::{Answers, Tables};
use std::path::Path;
use std::process::ExitCode;

/// Prints a row for each file; fails if the readers differ on one.
pub fn compare(left: &dyn Answers, right: &dyn Answers, names: &[String]) -> ExitCode {
    println!("{:<44} {:>9} {:>8} {:>8} {:>10}  agree", "file", "JSON", "library", "reader", "components");
    let mut differing = 0;
    let mut accepted = 0;
    for name in names {
        let Ok(file) = std::fs::read(name) else {
            eprintln!("{name}: cannot be read");
            return ExitCode::from(2);
        };
        let (row, verdict, agree) = row(left, right, name, file);
        println!("{row}");
        differing += usize::from(!agree);
        accepted += usize::from(verdict == 0);
    }
    println!("{} files, {accepted} accepted, {differing} with a disagreement", names.len());
    if differing == 0 {
        ExitCode::SUCCESS
    } else {
        ExitCode::FAILURE
    }
}

/// A file's row, its verdict, and whether the readers agree on verdict, item, tables, every component, view and scene.
fn row(left: &dyn Answers, right: &dyn Answers, name: &str, file: Vec<u8>) -> (String, u32, bool) {
    let json = split(&file).first().map_or(0, |(_, text)| text.len());
    let (left_verdict, left_item, _) = checked(left, &file);
    let (verdict, item, words) = checked(right, &file);
    let questions = all_questions(&Tables::from_words(&words));
    let components = questions.iter().filter(|question| matches!(question, Question::Component(..))).count();
    let found = difference(left, right, &Case { file, words: None, questions }).1;
    let short = Path::new(name).file_stem().map_or_else(String::new, |stem| stem.to_string_lossy().into_owned());
    let agree = found.is_none();
    let note = found.map_or("yes".to_string(), |difference| format!("NO\n{difference}"));
    let row = format!(
        "{short:<44} {json:>9} {left_verdict:>4}/{left_item:<3} {verdict:>4}/{item:<3} {components:>10}  {note}"
    );
    (row, verdict, agree)
}

/// Every component of every accessor (of the first million elements: one without a view can have billions), every view,
/// every scene.
fn all_questions(tables: &Tables) -> Vec<Question> {
    let components = [0, 1, 2, 3, 4, 4, 9, 16];
    let mut questions = Vec::new();
    for accessor in 0..tables.accessors {
        let record = &tables.accessor_records[accessor as usize];
        for element in 0..record.count.min(1_000_000) {
            let count = components[record.element_type as usize];
            questions.extend((0..count).map(|component| Question::Component(accessor, element, component)));
        }
    }
    questions.extend((0..tables.views).map(Question::View));
    questions.extend((0..tables.scenes).map(|scene| Question::Walk(scene, 128)));
    questions
}
