//! Runs for which no seed is needed.
use super::Case;
use crate::paper::runs::ROW;
use crate::walks::{all_settings, ALPHABET, PROPS};
use original::glyphs::Glyph;
use original::terms::Setup;

pub fn plain() -> Setup {
    Setup { mask: 1, ..Setup::default() }
}

pub fn glyphs(ids: &[u32]) -> Vec<Glyph> {
    ids.iter().map(|&id| [id, 1, 0, 0x0101]).collect()
}

/// K11 to K14.
pub fn cards() -> Vec<Case> {
    let grows = [2, 0, 0, 4, 2, 2, 2, 2];
    let deletes = [2, 0, 0, 2, 2, 0];
    let card = |book: &[u16], allowance, depth| {
        let text = glyphs(&[1, 2, 3]);
        let case = Case::new(plain(), book.to_vec(), [&[], &text], vec![1, 0], &[0, 1, 2], 3);
        Case { allowance, depth, ..case }
    };
    vec![
        card(&grows, 1, 1),
        card(&grows, 0, 1),
        card(&deletes, 1, 1),
        card(&grows, 1, 0),
        card(&grows, 0, 0),
    ]
}

/// Texts that grow to the limit exactly and no further: Full at the top, and
/// Full below, after which positions are still repaired. And one that has the limit's
/// length, loses a glyph, grows to the limit again and is finished there: the last
/// three places are its positions.
pub fn at_the_limit() -> Vec<Case> {
    // 0: 2 into 2, 2. 1: 2, 1 with records (0, 0), (0, 0), (0, 0).
    let book = [2, 0, 0, 4, 2, 2, 2, 2, 3, 0, 0, 12, 2, 0, 1, 1, 0, 3, 0, 0, 0, 0, 0, 0];
    let mut book = book.to_vec();
    book[11] = (book.len() - 12) as u16;
    let text = |length: usize| glyphs(&[vec![2], vec![1; length - 1]].concat());
    let whole = text(ROW - 1);
    let top =
        Case::new(plain(), book.clone(), [&[], &whole], vec![0, 0, 0, 0, 0, 0], &[0, 1, 3], 5);
    let lower = text(ROW - 2);
    let below = Case::new(plain(), book, [&lower[..0], &lower], vec![0, 1, 1, 0], &[0, 1, 3], 5);
    // 0: 2 into 2, 2. 1: 3 into nothing.
    let book = vec![2, 0, 0, 4, 2, 2, 2, 2, 2, 0, 0, 2, 3, 0];
    let last = [&glyphs(&vec![1; ROW - 3])[..], &glyphs(&[2, 3, 1])];
    let finished = Case::new(plain(), book, last, vec![1, 1, 0, 0], &[0, 1, 2], 3);
    let all = [top, below, finished].into_iter();
    all.map(|case| Case { allowance: 9, depth: 3, ..case }).collect()
}

/// Cells in neither part that would decide if they were looked at, where their
/// words are 1: a chain asks for 1 behind its glyph, and what is done has another
/// id. And Deep below after a text grew, which leaves more to come than there was.
pub fn beside_the_text() -> Vec<Case> {
    // 0: 2 where 1 stands before it, with record (0, 1). 1: 2 into 3.
    let back = [3, 0, 0, 8, 2, 1, 1, 0, 0, 1, 0, 1, 1, 0, 0, 2, 2, 3];
    // 0: 2 into 3, 3, 3. 1: 3 with record (0, 0).
    let grows = [2, 0, 0, 5, 2, 3, 3, 3, 3, 3, 0, 0, 7, 3, 0, 0, 0, 1, 0, 0];
    let over = |done: u32, book: &[u16], records: &[u16]| {
        let text = [&glyphs(&[done])[..], &glyphs(&[2, 4])];
        let case = Case::new(plain(), book.to_vec(), text, records.to_vec(), &[0], 1);
        Case { allowance: 3, depth: 2, ..case }
    };
    let deep = Case { depth: 1, ..over(5, &grows, &[0, 0, 0, 1]) };
    vec![over(1, &back, &[0, 0]), over(5, &back, &[0, 0]), deep]
}

/// What a chain looks for 7 in.
#[derive(Clone, Copy)]
enum Part {
    Back,
    Input,
    Ahead,
}

/// A chain over 5 and 7, which turns 5 into 6, with each glyph of an alphabet
/// between the two: in each direction, under all settings, lookups and masks.
pub fn chains() -> impl Iterator<Item = Case> {
    let setups = all_settings().filter(|setup| !setup.gpos);
    let setups = setups.flat_map(|setup| [1, 2, 0].map(|mask| Setup { mask, ..setup.clone() }));
    setups.flat_map(|setup| {
        let parts = [Part::Back, Part::Input, Part::Ahead].into_iter();
        let lookups = parts.flat_map(|part| PROPS.map(|props| (part, props)));
        lookups.flat_map(move |(part, props)| {
            let setup = setup.clone();
            let glyphs = ALPHABET.into_iter().flat_map(|between| [0, 1].map(|n| (between, n)));
            glyphs.map(move |(between, syllable)| chain(&setup, part, props, between, syllable))
        })
    })
}

/// The cursor glyph's syllable is the one that is tested.
fn chain(setup: &Setup, part: Part, props: u32, between: Glyph, syllable: u32) -> Case {
    let (five, seven) = ([5, 1, syllable << 16, 0x0101], [7, 1, 1 << 16, 0x0101]);
    let lists: &[u16] = match part {
        Part::Back => &[1, 7, 0, 0],
        Part::Input => &[0, 1, 7, 0],
        Part::Ahead => &[0, 0, 1, 7],
    };
    // First id, the three lists, one record: lookup 1 at the cursor.
    let body = [&[5][..], lists, &[1, 0, 1]].concat();
    let head = [3, props as u16, (props >> 16) as u16, body.len() as u16];
    let book = [&head[..], &body, &[1, 0, 0, 2, 5, 6]].concat();
    let (done, coming) = match part {
        Part::Back => (vec![seven, between], vec![five]),
        Part::Input | Part::Ahead => (vec![], vec![five, between, seven]),
    };
    let case = Case::new(setup.clone(), book, [&done, &coming], vec![0, 0], &[0], 1);
    Case { allowance: 9, depth: 2, ..case }
}
