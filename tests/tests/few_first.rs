//! A lister asks for few readings first: its lists are those of one call for all, byte for byte.

use spireyerba::Refusal::{ListingWanted, PanelWanted};
use spireyerba::{services, Lister};
use spireyerba_tests::both;
use spireyerba_tests::compare::over_seeds;
use spireyerba_tests::heard;
use spireyerba_tests::seeded::parsable::{graph_of, heard_case, utterance_of, AMBIGUOUS, MANY_SYMBOLS, SPARSE};

/// One lister over many utterances and graphs, so that lists of any length follow on each other.
#[test]
fn lists_are_those_of_one_call() {
    let (mut few, mut many, mut full) = (0, 0, 0);
    over_seeds(0..400, |rng| {
        let shape = rng.pick(&[&AMBIGUOUS, &MANY_SYMBOLS, &SPARSE]);
        let (grammar, first) = heard_case(rng, &[shape]);
        let others = (0..6).map(|number| match number % 2 {
            0 => utterance_of(rng, &grammar, shape).into(),
            _ => graph_of(rng, &grammar, shape).into(),
        });
        let inputs: Vec<spireyerba::Heard> = [first].into_iter().chain(others).collect();
        let block = grammar.to_block().expect("an accepted grammar");
        let mut lister = Lister::new(&grammar).expect("an accepted grammar");
        for heard in &inputs {
            let wanted = rng.pick(&[1, 15, 16, 17, 40, 255, 256]);
            let heard_block = heard.to_block(&block).expect("what is accepted");
            let expected = both::list(services::listing, &block, &heard_block, wanted);
            let length = heard::reading_length(&grammar, heard);
            let found = lister.find(heard, wanted).expect("an accepted listing");
            let blocks = found.readings().map(|reading| {
                let mut block = reading.to_block(&grammar).expect("a reading of the library's");
                block.resize(length, 0);
                block
            });
            assert_eq!(blocks.collect::<Vec<_>>(), expected, "{grammar:?} {heard:?}");
            match expected.len() {
                0..16 => few += 1,
                count if count < wanted as usize => many += 1,
                _ => full += 1,
            }
        }
    });
    assert!(few > 300 && many > 50 && full > 300, "{few} lists of few, {many} of more, {full} full ones");
}

/// A number that is refused is refused whatever the list before it was like.
#[test]
fn numbers_that_are_refused() {
    over_seeds(1_000..1_050, |rng| {
        let (grammar, heard) = heard_case(rng, &[&SPARSE]);
        let mut lister = Lister::new(&grammar).expect("an accepted grammar");
        for wanted in [256, 1] {
            assert!(lister.list(&heard, wanted).is_ok());
            for wrong in [0, 257, u32::MAX] {
                assert_eq!(lister.list(&heard, wrong), Err(ListingWanted));
            }
        }
        if heard.longest() <= 12 {
            let mut panel = lister.panel();
            assert!(panel.list(&heard, 16).is_ok());
            assert_eq!(panel.list(&heard, 17), Err(PanelWanted));
            assert_eq!(panel.list(&heard, 257), Err(ListingWanted));
        }
    });
}
