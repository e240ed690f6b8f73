//! The tests test themselves: a reader with a fault is told from a right one soon, by a small file.

use differ::compare::{checked, corrupt, difference, questions, Case};
use differ::mutate::make;
use differ::rng::Rng;
use differ::shrink::shrink;
use reader::{Answers, Independent, Words};
use std::time::Duration;

/// The independent reader with one slip.
#[derive(Clone, Copy, Debug, PartialEq)]
enum Faulty {
    ItemAlways0,
    TablesNotCleared,
    FlagOfTargetLost,
    UnsignedShorts,
    SparseEntryOfElement0Lost,
    ViewFromBufferStart,
    ListWrittenOnRefusal,
    CountOnRefusal,
    ListCleared,
    LastChildFirst,
}

impl Answers for Faulty {
    fn check(&self, file: &[u8], words: &mut Words) -> (u32, u32) {
        let before = *words;
        let (verdict, item) = Independent.check(file, words);
        if *self == Faulty::TablesNotCleared && verdict != 0 {
            *words = before;
        }
        if *self == Faulty::FlagOfTargetLost {
            words[16 + 5] = 0;
        }
        (verdict, if *self == Faulty::ItemAlways0 { 0 } else { item })
    }

    fn component(&self, file: &[u8], words: &Words, accessor: u32, element: u32, component: u32) -> (u32, i64) {
        let mut words = *words;
        let has_sparse = 528 + 16 * (accessor as usize % 128) + 7;
        if *self == Faulty::SparseEntryOfElement0Lost && element == 0 {
            words[has_sparse] = 0;
        }
        let (number, value) = Independent.component(file, &words, accessor, element, component);
        (number, if *self == Faulty::UnsignedShorts && value < -128 { value + 65_536 } else { value })
    }

    fn view(&self, file: &[u8], words: &Words, view: u32) -> (u32, u64, u64) {
        let (number, start, length) = Independent.view(file, words, view);
        (number, if *self == Faulty::ViewFromBufferStart && number == 0 { u64::from(words[5]) } else { start }, length)
    }

    fn walk(&self, words: &Words, scene: u32, list: &mut [u16]) -> (u32, u32) {
        let (number, count) = Independent.walk(words, scene, list);
        match self {
            Faulty::ListWrittenOnRefusal if number == 65 && !list.is_empty() => list[0] = 0,
            Faulty::CountOnRefusal if number == 65 => return (number, list.len() as u32),
            Faulty::ListCleared => list[count as usize..].fill(0),
            Faulty::LastChildFirst => list[..count as usize].reverse(),
            _ => {}
        }
        (number, count)
    }
}

/// The first case on which the faulty reader differs.
fn find(faulty: Faulty) -> Option<Case> {
    (0..3000).find_map(|seed| {
        let mut rng = Rng::new(seed);
        let made = make(&mut rng);
        let own = checked(&Independent, &made.file).2;
        let mut changed = checked(&Independent, &made.base).2;
        corrupt(&mut changed, &mut rng);
        let cases = [
            Case { questions: questions(&own, &mut rng), file: made.file, words: None },
            Case { questions: questions(&changed, &mut rng), file: made.base, words: Some(changed) },
        ];
        cases.into_iter().find(|case| difference(&faulty, &Independent, case).1.is_some())
    })
}

#[test]
fn every_fault_is_found_and_shrunk() {
    let faults = [
        Faulty::ItemAlways0,
        Faulty::TablesNotCleared,
        Faulty::FlagOfTargetLost,
        Faulty::UnsignedShorts,
        Faulty::SparseEntryOfElement0Lost,
        Faulty::ViewFromBufferStart,
        Faulty::ListWrittenOnRefusal,
        Faulty::CountOnRefusal,
        Faulty::ListCleared,
        Faulty::LastChildFirst,
    ];
    for faulty in faults {
        let case = find(faulty).unwrap_or_else(|| panic!("{faulty:?} was not found"));
        let small = shrink(&faulty, &Independent, case.clone(), Duration::from_secs(5));
        assert!(difference(&faulty, &Independent, &small).1.is_some());
        assert!(small.file.len() <= case.file.len());
        println!("{faulty:?}: {} bytes, shrunk to {}", case.file.len(), small.file.len());
    }
}
