//! The generator: its good files are accepted, and every recipe breaks its own rule often enough.

use differ::compare::checked;
use differ::generate::{good, Wanted};
use differ::recipes::{break_bytes, break_glb, wanted};
use differ::rng::Rng;
use reader::Independent;

#[test]
fn good_files_are_accepted() {
    for seed in 0..2000 {
        let mut rng = Rng::new(seed);
        let file = good(&mut rng, Wanted::default()).bytes(&mut rng);
        let (verdict, item, _) = checked(&Independent, &file);
        assert_eq!((verdict, item), (0, 0), "seed {seed}");
    }
}

#[test]
fn recipes_break_their_rule() {
    // No file breaks rule 30.
    for rule in (1..=47).filter(|&rule| rule != 30) {
        let broken = (0..200).filter(|&seed| {
            let mut rng = Rng::new(seed);
            let mut glb = good(&mut rng, wanted(rule));
            break_glb(rule, &mut glb, &mut rng);
            let mut file = glb.bytes(&mut rng);
            break_bytes(rule, &mut file, &mut rng);
            checked(&Independent, &file).0 == rule
        });
        let count = broken.count();
        assert!(count >= 30, "rule {rule}: {count} of 200");
    }
}
