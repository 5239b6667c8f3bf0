//! What tests need that hold the library and the second implementation to the same examples.

use crate::compare::conversions::Service;
use crate::{grammar, heard};
use spireyerba::Refusal;

pub type Listing = fn(&[u8], &[u8], u32, &mut [u32], &mut [u8]) -> Result<usize, Refusal>;
pub type Check = fn(&[u8], &[u8], &[u8]) -> Result<(), Refusal>;
pub type Specimen = fn(&[u8], u32, &mut [u8]) -> Result<bool, Refusal>;

/// The services of one implementation that meet what was heard, and the specimen, which does not.
pub struct Services {
    pub utterance_to_block: Service<u32, u8>,
    pub utterance_to_sheet: Service<u8, u32>,
    pub listing: Listing,
    pub check: Check,
    pub specimen: Specimen,
}

pub const LIBRARY: Services = {
    use spireyerba::services::{check, listing, specimen, utterance_to_block, utterance_to_sheet};
    Services { utterance_to_block, utterance_to_sheet, listing, check, specimen }
};
pub const SECOND: Services = {
    use crate::conversions::{utterance_to_block, utterance_to_sheet};
    use crate::{check::check, listing::listing, specimen::specimen};
    Services { utterance_to_block, utterance_to_sheet, listing, check, specimen }
};

/// The functions of a page with these names, as tests of what stands first for the library and of what stands second for the
/// second implementation.
#[macro_export]
macro_rules! tests_of_both {
    ($library:expr, $second:expr; $($name:ident)+) => {
        mod library {
            use super::*;
            $(#[test] fn $name() { super::$name($library); })+
        }
        mod second_implementation {
            use super::*;
            $(#[test] fn $name() { super::$name($second); })+
        }
    };
}

/// The readings of a listing in which everything is exact. What both slices hold afterwards is as for any listing.
pub fn list(listing: Listing, grammar: &[u8], heard: &[u8], wanted: u32) -> Vec<Vec<u8>> {
    let under = grammar::from_block(grammar).expect("an accepted grammar");
    let heard_value = heard::from_block(&under, heard).expect("an accepted utterance or graph");
    let (work_len, out_len) = heard::listing_lengths(&under, &heard_value, wanted);
    let (mut work, mut out) = (vec![7; work_len], vec![0xa5; out_len]);
    let found = listing(grammar, heard, wanted, &mut work, &mut out).expect("an accepted listing");
    assert!(work.iter().all(|&number| number == 0), "the work table is zero afterwards");
    let mut readings: Vec<Vec<u8>> = out.chunks_exact(out_len / wanted as usize).map(<[u8]>::to_vec).collect();
    let behind = readings.split_off(found);
    assert!(behind.iter().flatten().all(|&byte| byte == 0xa5), "what stands behind the readings is as it was");
    readings
}
