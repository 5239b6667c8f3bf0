//! The services of the proved library over lent slices, as include/spireyerba.h has them.
//!
//! Each function takes any bytes and any numbers, and either answers or refuses. An answer leaves its result at the front
//! of `out`, everything behind it as it was, and all of `work` zero, whatever both held before; a refusal changes nothing.
//! Only [`next`] goes on with what `work` holds and leaves an open listing in it.
//! All of this is proved, for every input. The library allocates nothing and keeps nothing: calls may run at once on any
//! threads. 64 KiB of stack suffice (measured, not proved).
//!
//! A *block* is packed bits, a *sheet* the same as plain 32-bit numbers; the header says field by field what they hold.
//! [`Grammar`](crate::Grammar), [`Utterance`](crate::Utterance) and [`Reading`](crate::Reading) are made from them and
//! turn into them, and [`limits`](crate::limits) says how long they are. [`listing`], [`panel_listing`], [`open`], [`next`],
//! [`check`] and [`chance`] take the block of a word graph ([`Graph`](crate::Graph)) as well as that of an utterance of slots;
//! to every other function a graph is a block of another kind, [`UtteranceKind`](Refusal::UtteranceKind).
//!
//! To refuse *for the blocks* is to refuse the grammar's with 1 to 7, [`GrammarEnd`](Refusal::GrammarEnd) to
//! [`GrammarFill`](Refusal::GrammarFill); then that of what was heard with 11 to 16, [`UtteranceEnd`](Refusal::UtteranceEnd) to
//! [`UtteranceFill`](Refusal::UtteranceFill), and where a graph is taken with [`EdgePlaces`](Refusal::EdgePlaces) and
//! [`EdgeRepeat`](Refusal::EdgeRepeat).

#![expect(unsafe_code, reason = "the library has a C interface")]

use crate::Refusal;

extern "C" {
    fn spireyerba_grammar_to_block(sheet: *const u32, sheet_len: usize, out: *mut u8, out_len: usize) -> i32;
    fn spireyerba_grammar_to_sheet(block: *const u8, block_len: usize, out: *mut u32, out_len: usize) -> i32;
    fn spireyerba_office_to_block(sheet: *const u32, sheet_len: usize, out: *mut u8, out_len: usize) -> i32;
    fn spireyerba_utterance_to_block(
        grammar: *const u8,
        grammar_len: usize,
        sheet: *const u32,
        sheet_len: usize,
        out: *mut u8,
        out_len: usize,
    ) -> i32;
    fn spireyerba_utterance_to_sheet(
        grammar: *const u8,
        grammar_len: usize,
        block: *const u8,
        block_len: usize,
        out: *mut u32,
        out_len: usize,
    ) -> i32;
    fn spireyerba_check(
        grammar: *const u8,
        grammar_len: usize,
        utterance: *const u8,
        utterance_len: usize,
        reading: *const u8,
        reading_len: usize,
    ) -> i32;
    fn spireyerba_chance(
        grammar: *const u8,
        grammar_len: usize,
        utterance: *const u8,
        utterance_len: usize,
        reading: *const u8,
        reading_len: usize,
        shares: *const u32,
        shares_len: usize,
        chance: *mut f64,
    ) -> i32;
    fn spireyerba_specimen(grammar: *const u8, grammar_len: usize, length: u32, out: *mut u8, out_len: usize) -> i32;
    fn spireyerba_next_phrase(
        grammar: *const u8,
        grammar_len: usize,
        length: u32,
        first: u32,
        out: *mut u8,
        out_len: usize,
    ) -> i32;
    fn spireyerba_listing(
        grammar: *const u8,
        grammar_len: usize,
        utterance: *const u8,
        utterance_len: usize,
        wanted: u32,
        work: *mut u32,
        work_len: usize,
        out: *mut u8,
        out_len: usize,
    ) -> i32;
    fn spireyerba_panel_listing(
        grammar: *const u8,
        grammar_len: usize,
        utterance: *const u8,
        utterance_len: usize,
        wanted: u32,
        work: *mut u32,
        work_len: usize,
        out: *mut u8,
        out_len: usize,
    ) -> i32;
    fn spireyerba_open(
        grammar: *const u8,
        grammar_len: usize,
        utterance: *const u8,
        utterance_len: usize,
        place: *mut Place,
        work: *mut u32,
        work_len: usize,
    ) -> i32;
    fn spireyerba_next(
        grammar: *const u8,
        grammar_len: usize,
        utterance: *const u8,
        utterance_len: usize,
        place: *mut Place,
        work: *mut u32,
        work_len: usize,
        out: *mut u8,
        out_len: usize,
    ) -> i32;
    fn spireyerba_cost_ranges(
        grammar: *const u8,
        grammar_len: usize,
        low: *const u8,
        low_len: usize,
        high: *const u8,
        high_len: usize,
        work: *mut u32,
        work_len: usize,
        least: *mut u32,
        greatest: *mut u32,
    ) -> i32;
    fn spireyerba_word_margins(
        grammar: *const u8,
        grammar_len: usize,
        utterance: *const u8,
        utterance_len: usize,
        work: *mut u32,
        work_len: usize,
        out: *mut u32,
        out_len: usize,
    ) -> i32;
}

/// What an exported function returns: 0 or more is its answer, less is minus a refusal's number.
fn answer(code: i32) -> Result<usize, Refusal> {
    let refusal = |_| Refusal::from_number(code.unsigned_abs()).expect("the library refuses with no other number");
    usize::try_from(code).map_err(refusal)
}

/// A conversion of the library that takes no grammar.
type Conversion<I, O> = unsafe extern "C" fn(*const I, usize, *mut O, usize) -> i32;

/// Calls one of them.
fn convert_by<I, O>(function: Conversion<I, O>, input: &[I], out: &mut [O]) -> Result<usize, Refusal> {
    // SAFETY: the slices are borrowed until the call returns, `out` for it alone.
    answer(unsafe { function(input.as_ptr(), input.len(), out.as_mut_ptr(), out.len()) })
}

/// A conversion of the library under a grammar.
type ConversionUnder<I, O> = unsafe extern "C" fn(*const u8, usize, *const I, usize, *mut O, usize) -> i32;

/// Calls one of them.
fn convert_under_by<I, O>(
    function: ConversionUnder<I, O>,
    grammar: &[u8],
    input: &[I],
    out: &mut [O],
) -> Result<usize, Refusal> {
    let (grammar_len, input_len, out_len) = (grammar.len(), input.len(), out.len());
    // SAFETY: the slices are borrowed until the call returns, `out` for it alone.
    answer(unsafe { function(grammar.as_ptr(), grammar_len, input.as_ptr(), input_len, out.as_mut_ptr(), out_len) })
}

/// A listing of the library: of so many readings, or of the next at a place.
type Listing<A> = unsafe extern "C" fn(*const u8, usize, *const u8, usize, A, *mut u32, usize, *mut u8, usize) -> i32;

/// Calls one of them.
fn list_by<A>(
    function: Listing<A>,
    grammar: &[u8],
    utterance: &[u8],
    asked: A,
    work: &mut [u32],
    out: &mut [u8],
) -> Result<usize, Refusal> {
    // SAFETY: the slices and the place are borrowed until the call returns, `work`, `out` and the place for it alone.
    answer(unsafe {
        function(
            grammar.as_ptr(),
            grammar.len(),
            utterance.as_ptr(),
            utterance.len(),
            asked,
            work.as_mut_ptr(),
            work.len(),
            out.as_mut_ptr(),
            out.len(),
        )
    })
}

/// Packs a grammar's sheet.
///
/// Takes the sheet: S, W, R, then five numbers for each rule, which are 0, head, weight, first and second symbol for a pair
/// rule, and 1, head, weight, word and 0 for a word rule. With a sixth number for each, its mark, which is 1 for a helper's
/// rule and else 0, the block is one with marks. Answers the bytes written to `out`, at most
/// [`GRAMMAR_BLOCK_MAX`](crate::limits::GRAMMAR_BLOCK_MAX).
///
/// Refuses with [`SheetCount`](Refusal::SheetCount) for fewer than three numbers, then with
/// [`GrammarRange`](Refusal::GrammarRange), then with `SheetCount` unless there are 3 + 5R or 3 + 6R numbers; then, rule by
/// rule and field by field, with [`SheetValue`](Refusal::SheetValue), [`GrammarSymbol`](Refusal::GrammarSymbol),
/// [`GrammarWord`](Refusal::GrammarWord) or [`GrammarRepeat`](Refusal::GrammarRepeat); last with
/// [`OutputShort`](Refusal::OutputShort).
///
/// ```
/// // two phrases make a phrase, at weight 1; the word is a phrase, at weight 0
/// let sheet = [1, 1, 2, 0, 0, 1, 0, 0, 1, 0, 0, 0, 0];
/// let mut out = [0xff; 12];
/// assert_eq!(spireyerba::services::grammar_to_block(&sheet, &mut out), Ok(9));
/// assert_eq!(out, [0x10, 0x40, 0x40, 0x40, 0x00, 0x09, 0x00, 0x00, 0x00, 0xff, 0xff, 0xff]);
/// ```
pub fn grammar_to_block(sheet: &[u32], out: &mut [u8]) -> Result<usize, Refusal> {
    convert_by(spireyerba_grammar_to_block, sheet, out)
}

/// Unpacks a grammar's block, with or without marks.
///
/// Takes the block, and answers the numbers of its sheet that were written to `out`, at most
/// [`GRAMMAR_SHEET_MAX`](crate::limits::GRAMMAR_SHEET_MAX). Packed again, they are the block.
///
/// Refuses with 1 to 7, [`GrammarEnd`](Refusal::GrammarEnd) to [`GrammarFill`](Refusal::GrammarFill), then with
/// [`OutputShort`](Refusal::OutputShort).
pub fn grammar_to_sheet(block: &[u8], out: &mut [u32]) -> Result<usize, Refusal> {
    convert_by(spireyerba_grammar_to_sheet, block, out)
}

/// Packs an office's sheet, as a grammar in normal form with marks.
///
/// Takes the sheet: S, W, R, then for each rule head, weight, item count, and for each item 0 for a symbol or 1 for a word, and
/// its number. A body is one word, or two to six items ([`MAX_ITEMS`](crate::limits::MAX_ITEMS)). Answers the bytes written to
/// `out`, at most [`GRAMMAR_BLOCK_MAX`](crate::limits::GRAMMAR_BLOCK_MAX).
///
/// The rules of the block are the office's, with their numbers and weights, and then those of helper symbols, of weight 0 and
/// marked. A word in a longer body becomes a helper symbol, one for each word in the whole grammar; a body of three or more
/// items becomes a chain of helpers: the head joins the first item with a helper, that one the second with the next, and the
/// last joins the final two. Helpers are numbered from S as they are met, a rule's words before its chain. The derivations of
/// the block's grammar match the office's one to one, with equal weight; [`MarkedGrammar::shown`](crate::MarkedGrammar::shown)
/// leaves the helpers' nodes out of one.
///
/// Refuses, number by number, with [`SheetCount`](Refusal::SheetCount) where one is missing,
/// [`GrammarRange`](Refusal::GrammarRange), [`GrammarSymbol`](Refusal::GrammarSymbol), [`SheetValue`](Refusal::SheetValue),
/// [`ItemCount`](Refusal::ItemCount), [`ItemAlone`](Refusal::ItemAlone) at the 0 of a body's only item,
/// [`GrammarWord`](Refusal::GrammarWord), or behind a rule with [`GrammarRepeat`](Refusal::GrammarRepeat); then with
/// `SheetCount` where numbers are left over, with [`OfficeSize`](Refusal::OfficeSize), and with
/// [`OutputShort`](Refusal::OutputShort).
///
/// ```
/// // one rule: a phrase is word 0, at weight 0
/// let mut out = [0xff; 7];
/// assert_eq!(spireyerba::services::office_to_block(&[1, 1, 1, 0, 0, 1, 1, 0], &mut out), Ok(6));
/// assert_eq!(out, [0x40, 0x40, 0x40, 0x30, 0x00, 0x00, 0xff]);
/// ```
pub fn office_to_block(sheet: &[u32], out: &mut [u8]) -> Result<usize, Refusal> {
    convert_by(spireyerba_office_to_block, sheet, out)
}

/// Packs an utterance's sheet under a grammar.
///
/// Takes the grammar's block and the sheet: n, then for each slot its count, and word and cost of each candidate, words
/// ascending. The cost [`NOT_HEARD`](crate::limits::NOT_HEARD) is packed like any other. Answers the bytes written to
/// `out`, at most [`UTTERANCE_BLOCK_MAX`](crate::limits::UTTERANCE_BLOCK_MAX).
///
/// Refuses with 1 to 7 for the grammar; then, field by field, with [`UtteranceRange`](Refusal::UtteranceRange),
/// [`UtteranceWord`](Refusal::UtteranceWord), [`UtteranceOrder`](Refusal::UtteranceOrder),
/// [`SheetValue`](Refusal::SheetValue), or [`SheetCount`](Refusal::SheetCount) where a number is missing, and at the end
/// where some are left over; last with [`OutputShort`](Refusal::OutputShort).
pub fn utterance_to_block(grammar: &[u8], sheet: &[u32], out: &mut [u8]) -> Result<usize, Refusal> {
    convert_under_by(spireyerba_utterance_to_block, grammar, sheet, out)
}

/// Unpacks an utterance's block under a grammar.
///
/// Takes both blocks, and answers the numbers of the utterance's sheet that were written to `out`, at most
/// [`UTTERANCE_SHEET_MAX`](crate::limits::UTTERANCE_SHEET_MAX). Packed again, they are the utterance's block.
///
/// Refuses with 1 to 7 for the grammar; then with 11 to 16, [`UtteranceEnd`](Refusal::UtteranceEnd) to
/// [`UtteranceFill`](Refusal::UtteranceFill); then with [`OutputShort`](Refusal::OutputShort).
pub fn utterance_to_sheet(grammar: &[u8], block: &[u8], out: &mut [u32]) -> Result<usize, Refusal> {
    convert_under_by(spireyerba_utterance_to_sheet, grammar, block, out)
}

/// Checks a reading of an utterance or of a word graph under a grammar.
///
/// Takes the three blocks, and answers that the reading passes: it is the reading of a derivation, with its true weight. A
/// derivation has symbol 0 as its head, spans all slots, or a path from place 0 to the last place, and uses only words that
/// are [offered](crate::Candidate::is_offered). Nothing is written. A reading of a graph, as [`listing`] writes it, is cut to
/// its own length first, [`graph_reading_length`](crate::limits::graph_reading_length) of its number of edges.
///
/// Refuses for the blocks, then with [`ReadingEnd`](Refusal::ReadingEnd), [`ReadingKind`](Refusal::ReadingKind) (for slots not
/// 3, for a graph not 6) or [`ReadingSlots`](Refusal::ReadingSlots); then, after all fields are read and in this order, with
/// [`ReadingWalk`](Refusal::ReadingWalk), [`ReadingWeight`](Refusal::ReadingWeight), [`ReadingFill`](Refusal::ReadingFill). A
/// graph's reading of n edges has all its fields if it has bits for n word rules and n − 1 pair rules: with another mix of rules
/// it is no walk.
///
/// ```
/// use spireyerba::{services::check, Refusal};
///
/// let grammar = [0x10, 0x40, 0x40, 0x40, 0x00, 0x09, 0x00, 0x00, 0x00];
/// // three places, and one edge over both steps, at cost 7
/// let graph = [0x51, 0x81, 0x00, 0x80, 0x00, 0xe0];
/// let reading = [0x60, 0x40, 0x00, 0x01, 0xe0, 0x00, 0x00];
/// assert_eq!(check(&grammar, &graph, &reading[..6]), Ok(()));
/// assert_eq!(check(&grammar, &graph, &reading), Err(Refusal::ReadingFill));
/// ```
pub fn check(grammar: &[u8], utterance: &[u8], reading: &[u8]) -> Result<(), Refusal> {
    // SAFETY: the slices are borrowed until the call returns.
    let passes = answer(unsafe {
        spireyerba_check(
            grammar.as_ptr(),
            grammar.len(),
            utterance.as_ptr(),
            utterance.len(),
            reading.as_ptr(),
            reading.len(),
        )
    })?;
    debug_assert_eq!(passes, 0, "the answer of a reading that passes");
    Ok(())
}

/// Works out the chance of a reading of an utterance or of a word graph: the product of the shares of its nodes' rules.
///
/// Takes the three blocks and the share of each of the grammar's rules, 1 to [`MAX_SHARE`](crate::limits::MAX_SHARE), of so
/// many, and writes the product to `chance`: 1.0 times each share over 1,024, which is exact, in the order of the walk, every
/// product rounded to the nearest float. With m nodes and P the exact product of their whole shares, the float times 2 to the
/// power 10 m differs from P by at most m P / 2 to the power 52. A chance of one node is exact.
///
/// Refuses as [`check`] does, then with [`SharesCount`](Refusal::SharesCount), then with [`ShareRange`](Refusal::ShareRange).
/// Then `chance` is as it was.
///
/// ```
/// use spireyerba::{services::chance, Refusal};
///
/// let grammar = [0x10, 0x40, 0x40, 0x40, 0x00, 0x09, 0x00, 0x00, 0x00];
/// let utterance = [0x21, 0x08, 0x00, 0x00, 0x80, 0x00, 0x08, 0x00, 0x00, 0x80, 0x00, 0x00];
/// let reading = [0x31, 0x00, 0x00, 0x00, 0xd5, 0x80];
/// let mut product = 0.0;
/// // half of all phrases are two phrases: three of the seven nodes
/// assert_eq!(chance(&grammar, &utterance, &reading, &[512, 1024], &mut product), Ok(()));
/// assert_eq!(product, 0.125);
/// assert_eq!(chance(&grammar, &utterance, &reading, &[512], &mut product), Err(Refusal::SharesCount));
/// ```
pub fn chance(
    grammar: &[u8],
    utterance: &[u8],
    reading: &[u8],
    shares: &[u32],
    chance: &mut f64,
) -> Result<(), Refusal> {
    // SAFETY: the slices are borrowed until the call returns, `chance` for it alone.
    let written = answer(unsafe {
        spireyerba_chance(
            grammar.as_ptr(),
            grammar.len(),
            utterance.as_ptr(),
            utterance.len(),
            reading.as_ptr(),
            reading.len(),
            shares.as_ptr(),
            shares.len(),
            chance,
        )
    })?;
    debug_assert_eq!(written, 0, "the answer of a chance that is written");
    Ok(())
}

/// Finds the least word string of a wanted length that a grammar derives.
///
/// Takes the grammar's block and the length, and answers whether there is such a string. If so, the least is written to
/// `out`, a word number a byte: two strings compare word number by word number from the left. If not, nothing is written.
///
/// Refuses with 1 to 7 for the grammar, then with [`SpecimenLength`](Refusal::SpecimenLength), then with
/// [`SpecimenOutput`](Refusal::SpecimenOutput).
///
/// ```
/// // word 1 is a phrase, and so is word 0
/// let grammar = [0x10, 0x40, 0x80, 0x50, 0x00, 0x06, 0x00, 0x00, 0x00];
/// let mut out = [0xff; 2];
/// assert_eq!(spireyerba::services::specimen(&grammar, 1, &mut out), Ok(true));
/// assert_eq!(out, [0, 0xff]);
/// assert_eq!(spireyerba::services::specimen(&grammar, 2, &mut out), Ok(false));
/// ```
pub fn specimen(grammar: &[u8], length: u32, out: &mut [u8]) -> Result<bool, Refusal> {
    // SAFETY: the slices are borrowed until the call returns, `out` for it alone.
    let written =
        answer(unsafe { spireyerba_specimen(grammar.as_ptr(), grammar.len(), length, out.as_mut_ptr(), out.len()) })?;
    debug_assert!(written == 0 || written == length as usize, "the answer is the length or 0");
    Ok(written != 0)
}

/// Hands out the phrases of a length, the word strings that a grammar derives, one a call and each once, the least first.
///
/// Takes the grammar's block and a length of at most [`MAX_PHRASE`](crate::limits::MAX_PHRASE). A `first` call finds the
/// least phrase, whatever `out` holds. A later call finds the least above the string at the front of `out`, which may be any
/// bytes. Answers whether there is such a phrase. If so, it is written to the front of `out`, a word number a byte. If not,
/// that is the end, and nothing is written.
///
/// Refuses with 1 to 7 for the grammar, then with [`SpecimenLength`](Refusal::SpecimenLength), then with
/// [`SpecimenOutput`](Refusal::SpecimenOutput), first and later calls alike.
///
/// ```
/// use spireyerba::services::next_phrase;
/// // word 1 is a phrase, and so is word 0
/// let grammar = [0x10, 0x40, 0x80, 0x50, 0x00, 0x06, 0x00, 0x00, 0x00];
/// let mut out = [0xff];
/// assert_eq!(next_phrase(&grammar, 1, true, &mut out), Ok(true));
/// assert_eq!(out, [0]);
/// assert_eq!(next_phrase(&grammar, 1, false, &mut out), Ok(true));
/// assert_eq!(out, [1]);
/// assert_eq!(next_phrase(&grammar, 1, false, &mut out), Ok(false));
/// ```
pub fn next_phrase(grammar: &[u8], length: u32, first: bool, out: &mut [u8]) -> Result<bool, Refusal> {
    // SAFETY: the slices are borrowed until the call returns, `out` for it alone.
    let code = unsafe {
        spireyerba_next_phrase(grammar.as_ptr(), grammar.len(), length, first.into(), out.as_mut_ptr(), out.len())
    };
    let written = answer(code)?;
    debug_assert!(written == 0 || written == length as usize, "the answer is the length or 0");
    Ok(written != 0)
}

/// Lists the readings of least weight of an utterance or of a word graph under a grammar, the least first.
///
/// Takes both blocks and the number `wanted`, at most [`MAX_READINGS`](crate::limits::MAX_READINGS); as scratch memory
/// `work`, which may hold anything, of at least [`work_length`](crate::limits::work_length) numbers; and `out`, of at
/// least `wanted` times L bytes, where L is [`reading_length`](crate::limits::reading_length). For a graph of P places both
/// are as for P − 1 slots, and L is [`graph_reading_length`](crate::limits::graph_reading_length) of P − 1 edges. Answers m,
/// the number of readings found and written one after another, L bytes each, zeros behind a reading of a shorter path. If m
/// is less than `wanted` there are no more; it is 0 if the grammar derives nothing of what was heard. A word of cost
/// [`NOT_HEARD`](crate::limits::NOT_HEARD) is not offered and so in no reading; if a slot has no other, m is 0. All of `work`
/// is zero afterwards, also beyond the length needed.
///
/// Where weights are equal the lower sum of the costs of its words comes first, then the lower rule number, then the tree with
/// fewer slots in its left part (in a graph the one whose left part ends at a lower place), then the lesser left part by this
/// same order, weight and costs included, then the lesser
/// right part.
///
/// Refuses for the blocks, then with [`ListingWanted`](Refusal::ListingWanted), [`ListingWork`](Refusal::ListingWork),
/// [`ListingOutput`](Refusal::ListingOutput).
///
/// ```
/// let grammar = [0x10, 0x40, 0x40, 0x40, 0x00, 0x09, 0x00, 0x00, 0x00];
/// let utterance = [0x21, 0x08, 0x00, 0x00, 0x80, 0x00, 0x08, 0x00, 0x00, 0x80, 0x00, 0x00];
/// let (mut work, mut out) = ([0; 320], [0; 48]);
/// // one symbol, four slots, two rules: five readings of six bytes each
/// assert_eq!(spireyerba::services::listing(&grammar, &utterance, 8, &mut work, &mut out), Ok(5));
/// assert_eq!(out[..6], [0x31, 0x00, 0x00, 0x00, 0xd5, 0x80]);
/// ```
pub fn listing(
    grammar: &[u8],
    utterance: &[u8],
    wanted: u32,
    work: &mut [u32],
    out: &mut [u8],
) -> Result<usize, Refusal> {
    list_by(spireyerba_listing, grammar, utterance, wanted, work, out)
}

/// Lists as [`listing`] does, within the limits of a panel for plan desks.
///
/// Takes what [`listing`] takes, of at most [`PANEL_MAX_SLOTS`](crate::limits::PANEL_MAX_SLOTS) slots, or
/// [`PANEL_MAX_PLACES`](crate::limits::PANEL_MAX_PLACES) places of a word graph, and at most
/// [`PANEL_MAX_READINGS`](crate::limits::PANEL_MAX_READINGS) for `wanted`. Within these limits its answer is that of [`listing`],
/// and it leaves the same numbers in `work` and the same bytes in `out`. A `work` of
/// [`PANEL_WORK_MAX`](crate::limits::PANEL_WORK_MAX) numbers and an `out` of
/// [`PANEL_OUTPUT_MAX`](crate::limits::PANEL_OUTPUT_MAX) bytes always suffice.
///
/// Refuses for the blocks, then with [`PanelSlots`](Refusal::PanelSlots), [`ListingWanted`](Refusal::ListingWanted),
/// [`PanelWanted`](Refusal::PanelWanted), [`ListingWork`](Refusal::ListingWork), [`ListingOutput`](Refusal::ListingOutput).
///
/// ```
/// use spireyerba::{services::panel_listing, Refusal};
///
/// let grammar = [0x10, 0x40, 0x40, 0x40, 0x00, 0x09, 0x00, 0x00, 0x00];
/// let utterance = [0x21, 0x08, 0x00, 0x00, 0x80, 0x00, 0x08, 0x00, 0x00, 0x80, 0x00, 0x00];
/// let (mut work, mut out) = ([0; 640], [0; 96]);
/// assert_eq!(panel_listing(&grammar, &utterance, 16, &mut work, &mut out), Ok(5));
/// assert_eq!(panel_listing(&grammar, &utterance, 17, &mut work, &mut out), Err(Refusal::PanelWanted));
/// assert_eq!(panel_listing(&grammar, &utterance, 257, &mut work, &mut out), Err(Refusal::ListingWanted));
/// ```
pub fn panel_listing(
    grammar: &[u8],
    utterance: &[u8],
    wanted: u32,
    work: &mut [u32],
    out: &mut [u8],
) -> Result<usize, Refusal> {
    list_by(spireyerba_panel_listing, grammar, utterance, wanted, work, out)
}

/// Where an open listing is between two calls. [`open`] and [`next`] write it; it is lent as it was left.
#[derive(Clone, Copy, Debug, Default, PartialEq, Eq, Hash)]
#[repr(C)]
pub struct Place {
    /// The readings that were handed out.
    pub handed: u32,
    /// 1 if the listing was opened; with any other number [`next`] takes its table as it stands and looks for nothing.
    pub opened: u32,
}

/// What [`next`] answers.
#[derive(Clone, Copy, Debug, PartialEq, Eq, Hash)]
pub enum Next {
    /// There is no further reading; nothing has changed.
    NoMore = 0,
    /// One more reading was handed out.
    Reading = 1,
    /// As many as can be listed, [`MAX_READINGS`](crate::limits::MAX_READINGS), were handed out before; nothing has changed.
    Full = 2,
}

/// Opens a listing of an utterance or of a word graph under a grammar, whose readings [`next`] hands out one by one.
///
/// Takes both blocks, a `place`, and the table `work`, which keeps the listing from call to call: of at least
/// [`work_length`](crate::limits::work_length) numbers for [`MAX_READINGS`](crate::limits::MAX_READINGS) readings, for a graph of
/// P places as for P − 1 slots. Place and table may hold anything. Afterwards none was handed out, and all of `work` is zero.
///
/// Refuses for the blocks, then with [`ListingWork`](Refusal::ListingWork).
///
/// ```
/// use spireyerba::services::{next, open, Next, Place};
///
/// let grammar = [0x10, 0x40, 0x40, 0x40, 0x00, 0x09, 0x00, 0x00, 0x00];
/// let utterance = [0x21, 0x08, 0x00, 0x00, 0x80, 0x00, 0x08, 0x00, 0x00, 0x80, 0x00, 0x00];
/// let (mut place, mut work, mut out) = (Place::default(), [7; 10_240], [0; 6]);
/// open(&grammar, &utterance, &mut place, &mut work)?;
/// // five readings of six bytes each
/// for handed in 1..=5 {
///     assert_eq!(next(&grammar, &utterance, &mut place, &mut work, &mut out), Ok(Next::Reading));
///     assert_eq!(place, Place { handed, opened: 1 });
/// }
/// assert_eq!(out, [0x31, 0x00, 0x00, 0x00, 0xc7, 0x80]);
/// assert_eq!(next(&grammar, &utterance, &mut place, &mut work, &mut out), Ok(Next::NoMore));
/// # Ok::<(), spireyerba::Refusal>(())
/// ```
pub fn open(grammar: &[u8], utterance: &[u8], place: &mut Place, work: &mut [u32]) -> Result<(), Refusal> {
    // SAFETY: the slices are borrowed until the call returns, `place` and `work` for it alone.
    let opened = answer(unsafe {
        spireyerba_open(
            grammar.as_ptr(),
            grammar.len(),
            utterance.as_ptr(),
            utterance.len(),
            place,
            work.as_mut_ptr(),
            work.len(),
        )
    })?;
    debug_assert_eq!(opened, 0, "the answer of a listing that is open");
    Ok(())
}

/// Hands out one more reading of an open listing.
///
/// Takes the blocks, the place and the table as the call before left them, and `out`, of at least as many bytes as one reading
/// has in a [`listing`]. After k readings it writes the one that is next in the listing to the front of `out`, zeros behind
/// that of a shorter path, and `handed` is k + 1; or it answers that there is no more, or, after
/// [`MAX_READINGS`](crate::limits::MAX_READINGS), that the listing is full. These two answers, like a refusal, change nothing.
/// The first call looks for the least tree of each symbol over each span, and each later one for few more: at most 2n − 1 trees
/// come to the table, n being the slots, or P − 1.
///
/// With a place or a table that was altered, or with other blocks, a call ends all the same, and what it hands out passes
/// [`check`]: what the table spells at the rank that is asked for is handed out if it passes. Where `opened` is not 1, and in a
/// first call where the first ranks in `work` are not zeros, nothing is looked for and the table is taken as it stands.
///
/// Refuses for the blocks, then with [`ListingWork`](Refusal::ListingWork) as [`open`] does, with
/// [`ListingOutput`](Refusal::ListingOutput) for one reading; and last of all with [`AlteredWalk`](Refusal::AlteredWalk): the walk
/// that altered numbers spell is not a reading that passes, as where a place was never opened and the table is zeros.
///
/// ```
/// use spireyerba::{services::{next, Place}, Refusal};
///
/// let grammar = [0x10, 0x40, 0x40, 0x40, 0x00, 0x09, 0x00, 0x00, 0x00];
/// let utterance = [0x21, 0x08, 0x00, 0x00, 0x80, 0x00, 0x08, 0x00, 0x00, 0x80, 0x00, 0x00];
/// let (mut place, mut work, mut out) = (Place::default(), [0; 10_240], [0; 6]);
/// let never_opened = next(&grammar, &utterance, &mut place, &mut work, &mut out);
/// assert_eq!(never_opened, Err(Refusal::AlteredWalk));
/// ```
pub fn next(
    grammar: &[u8],
    utterance: &[u8],
    place: &mut Place,
    work: &mut [u32],
    out: &mut [u8],
) -> Result<Next, Refusal> {
    Ok(match list_by(spireyerba_next, grammar, utterance, place, work, out)? {
        0 => Next::NoMore,
        1 => Next::Reading,
        _ => Next::Full,
    })
}

/// What [`cost_ranges`] says of the first reading for the low costs.
#[derive(Clone, Copy, Debug, PartialEq, Eq, Hash)]
pub enum FirstReading {
    /// There is none, under no choice of costs.
    Nothing = 0,
    /// Under some choice of costs another reading is strictly lighter.
    Outweighed = 1,
    /// Under every choice of costs it has least weight.
    Stands = 2,
}

/// Says how the first weight can vary where costs are known within ranges, and whether the first reading can be outweighed.
///
/// Takes a grammar's block and two blocks of utterances of slots, alike but for their costs, of which none falls from `low` to
/// `high`; [`NOT_HEARD`](crate::limits::NOT_HEARD) stands in both or in neither. A choice gives each word of each slot a cost
/// from its low to its high one. Writes the least and the greatest first weight over all choices, both of them reached, to
/// `least` and `greatest`, unless there is no derivation: then both are as they were. The table `work`, which may hold anything,
/// has at least [`work_length`](crate::limits::work_length) numbers for one reading, and is all zeros afterwards.
///
/// Refuses for the blocks, `low` before `high`, then with [`RangesDisagree`](Refusal::RangesDisagree), then with
/// [`ListingWork`](Refusal::ListingWork).
///
/// ```
/// use spireyerba::services::{cost_ranges, FirstReading};
///
/// let grammar = [0x10, 0xc1, 0x00, 0xa0, 0x00, 0x01, 0xa8, 0x00, 0x29, 0x40, 0x00, 0xdc, 0x00, 0x03, 0x60, 0x00, 0x3c];
/// // two slots of two words each: all costs 0, and at most 9 3 and 2 9
/// let low = [0x20, 0x90, 0x00, 0x00, 0x80, 0x00, 0x28, 0x00, 0x03, 0x00, 0x00];
/// let high = [0x20, 0x90, 0x00, 0x12, 0x80, 0x01, 0xa8, 0x00, 0x0b, 0x00, 0x09];
/// let (mut work, mut least, mut greatest) = ([0; 36], 0, 0);
/// let first = cost_ranges(&grammar, &low, &high, &mut work, &mut least, &mut greatest);
/// assert_eq!((first, least, greatest), (Ok(FirstReading::Outweighed), 4, 9));
/// ```
pub fn cost_ranges(
    grammar: &[u8],
    low: &[u8],
    high: &[u8],
    work: &mut [u32],
    least: &mut u32,
    greatest: &mut u32,
) -> Result<FirstReading, Refusal> {
    // SAFETY: the slices are borrowed until the call returns, `work`, `least` and `greatest` for it alone.
    let code = unsafe {
        spireyerba_cost_ranges(
            grammar.as_ptr(),
            grammar.len(),
            low.as_ptr(),
            low.len(),
            high.as_ptr(),
            high.len(),
            work.as_mut_ptr(),
            work.len(),
            least,
            greatest,
        )
    };
    Ok(match answer(code)? {
        0 => FirstReading::Nothing,
        1 => FirstReading::Outweighed,
        _ => FirstReading::Stands,
    })
}

/// Says which words are worth listening to again: by how little the cost of each must fall for another reading to come first.
///
/// Takes the blocks of a grammar and of an utterance of slots. An entry is of an offered word that the first reading does not
/// use in its slot, four numbers: the least amount, 1 to its cost, by which that cost alone must fall for some reading to be
/// strictly lighter than the first; the slot; the word; and the weight that the lighter reading has now. A word whose cost
/// cannot fall so far, or that no reading uses there, has none. Writes the entries to the front of `out`, ascending by amount,
/// slot and word, and answers how many there are: 0 also if there is no reading. `out` has at least
/// [`margins_length`](crate::limits::margins_length) numbers for the words of all slots, those not heard included. The table
/// `work`, which may hold anything, has at least [`work_length`](crate::limits::work_length) numbers for one reading, and is all
/// zeros afterwards.
///
/// Refuses for the blocks, then with [`ListingWork`](Refusal::ListingWork), then with [`OutputShort`](Refusal::OutputShort).
///
/// ```
/// let grammar = [0x10, 0xc1, 0x00, 0xa0, 0x00, 0x01, 0xa8, 0x00, 0x29, 0x40, 0x00, 0xdc, 0x00, 0x03, 0x60, 0x00, 0x3c];
/// // words 0 and 1 at costs 4 and 7, then 2 and 3 at costs 3 and 2: the first reading is 0 2, of weight 13
/// let utterance = [0x20, 0x90, 0x00, 0x08, 0x80, 0x03, 0xa8, 0x00, 0x0f, 0x00, 0x02];
/// let (mut work, mut out) = ([0; 36], [0; 16]);
/// assert_eq!(spireyerba::services::word_margins(&grammar, &utterance, &mut work, &mut out), Ok(2));
/// assert_eq!(out[..8], [2, 0, 1, 14, 2, 1, 3, 14]);
/// ```
pub fn word_margins(grammar: &[u8], utterance: &[u8], work: &mut [u32], out: &mut [u32]) -> Result<usize, Refusal> {
    // SAFETY: the slices are borrowed until the call returns, `work` and `out` for it alone.
    answer(unsafe {
        spireyerba_word_margins(
            grammar.as_ptr(),
            grammar.len(),
            utterance.as_ptr(),
            utterance.len(),
            work.as_mut_ptr(),
            work.len(),
            out.as_mut_ptr(),
            out.len(),
        )
    })
}
