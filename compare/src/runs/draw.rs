//! Books of lookups, texts and matches, drawn so that every clause decides often.
use super::Case;
use crate::paper::runs::ROW;
use crate::random::Random;
use original::glyphs::Glyph;
use original::terms::Setup;

/// Few ids, so that lookups act; the last differs from the first above 16 bits.
const IDS: [u32; 6] = [1, 2, 3, 4, 5, 0x1_0001];

fn id(random: &mut Random, few: u64) -> u16 {
    1 + random.below(few) as u16
}

/// How a book is drawn.
pub struct Style {
    /// How many ids there are.
    pub few: u64,
    pub lookups: u64,
    /// One in how many of kind 2 deletes.
    pub deletes: u64,
    /// How many records a chain may have.
    pub records: u64,
    pub props: u32,
    /// Chains whose records name later lookups, so that levels stand in one
    /// another; the last lookups are of kinds 1 and 2.
    pub ladder: bool,
}

pub fn style(random: &mut Random) -> Style {
    let lookups = match random.below(40) {
        0 => 256,
        1 => 60,
        _ => 2 + random.below(11),
    };
    Style {
        few: random.pick(&[1, 1, 2, 2, 3, 4]),
        lookups,
        deletes: random.pick(&[1, 2, 2, 4]),
        records: random.pick(&[1, 2, 3, 3, 4, 4, 16]),
        props: random.pick(&[0, 0, 0, 8, 8, 4, 0x100, 0x10, 0x1_0010]),
        ladder: random.one_in(3),
    }
}

pub fn pairs(random: &mut Random, count: u64, reach: u64, lookups: u64) -> Vec<u16> {
    let lookup = |random: &mut Random| match random.one_in(24) {
        true => random.pick(&[lookups, lookups + 1, 255, 256, 0xFFFF]) as u16,
        false => random.below(lookups.max(1)) as u16,
    };
    (0..count).flat_map(|_| [random.below(reach) as u16, lookup(random)]).collect()
}

fn list(body: &mut Vec<u16>, values: &[u16], by: usize) {
    body.push((values.len() / by) as u16);
    body.extend(values);
}

fn draw_lookup(random: &mut Random, style: &Style, place: u64) -> Vec<u16> {
    let few = style.few;
    let rung = style.ladder && place + 3 < style.lookups;
    let kind = match style.ladder {
        true if rung => 3,
        true => random.pick(&[1, 2, 2]),
        false => random.pick(&[1, 2, 2, 3, 3, 3]),
    };
    let props =
        if random.one_in(3) { random.pick(&[0, 2, 4, 8, 0xE, 0x100, 0x10]) } else { style.props };
    let mut body = vec![id(random, few)];
    match kind {
        1 => body.push(id(random, few)),
        2 => {
            let count = match random.one_in(style.deletes) {
                true => 0,
                false => random.pick(&[1, 2, 2, 2, 3, 3, 4, 8]),
            };
            let ids: Vec<u16> = (0..count).map(|_| id(random, few)).collect();
            list(&mut body, &ids, 1);
        }
        _ => {
            let mut some = |one_in: u64, most: u64| -> Vec<u16> {
                let count = if random.one_in(one_in) { random.below(most) } else { 0 };
                (0..count).map(|_| id(random, few)).collect()
            };
            let most = if rung { 3 } else { 5 };
            let (back, input, ahead) = (some(6, 3), some(1, most), some(6, 3));
            list(&mut body, &back, 1);
            list(&mut body, &input, 1);
            list(&mut body, &ahead, 1);
            let count = 1 + random.below(style.records);
            let mut records = pairs(random, count, input.len() as u64 + 2, style.lookups);
            if rung {
                // The next one at once, then others that come later.
                for (i, pair) in records.chunks_mut(2).enumerate() {
                    let later = random.below(style.lookups - place - 1);
                    let next = if i == 0 && !random.one_in(4) { 0 } else { later };
                    pair[1] = (place + 1 + next) as u16;
                }
            }
            list(&mut body, &records, 2);
        }
    }
    let head = [kind, props as u16, (props >> 16) as u16, body.len() as u16];
    [&head[..], &body].concat()
}

pub fn draw_book(random: &mut Random, style: &Style) -> Vec<u16> {
    let mut book = vec![];
    for place in 0..style.lookups {
        let lookup = draw_lookup(random, style, place);
        if book.len() + lookup.len() > 4096 {
            break;
        }
        book.extend(lookup);
    }
    book
}

/// Mostly glyphs that a chain gets past.
fn glyph(random: &mut Random, few: u64, calm: bool) -> Glyph {
    let id = match random.one_in(30) {
        true => random.pick(&IDS),
        false => id(random, few).into(),
    };
    if calm {
        return [id, 1, 0x0001_0000, 0x0101];
    }
    if random.one_in(60) {
        let words = [random.next() as u32, random.next() as u32];
        return [id, words[0], words[1], random.pick(&[0x0101, 0x0100_0101, 0x0203_0101])];
    }
    let flags = random.pick(&[0, 0, 0, 0, 0, 0, 0, 1, 1, 3, 5, 9, 0x10]);
    let props = random.pick(&[0, 0, 0, 2, 4, 8, 8, 0x108, 0x208, 0x10, 0x40]);
    let syllable = random.pick(&[1, 1, 1, 1, 1, 0, 2]);
    let mask = random.pick(&[1, 1, 1, 1, 1, 1, 1, 3, 2, 0xFFFF_FFF8]);
    let ligature = match random.one_in(6) {
        true => random.pick(&[
            0x0100_0202,
            0x0101_0101,
            0x0102_0101,
            0x0201_0100,
            0x0900_0101,
            0xFF11_0307,
        ]),
        false => 0x0101,
    };
    [id, mask, flags << 24 | syllable << 16 | props, ligature]
}

fn text(random: &mut Random, few: u64, count: usize) -> Vec<Glyph> {
    let calm = random.one_in(2);
    let mut text: Vec<Glyph> = (0..count).map(|_| glyph(random, few, calm)).collect();
    // Now and then more numbers of ligatures than the original can hold.
    if random.one_in(40) {
        text.iter_mut().for_each(|glyph| glyph[3] = random.next() as u32);
    }
    text
}

/// How long what is done and what comes is.
fn counts(random: &mut Random) -> [usize; 2] {
    match random.below(300) {
        0..=8 => {
            // Near the limit, with room for some growths.
            let whole = ROW - random.pick(&[0, 1, 2, 3, 4, 5, 7, 9, 14]);
            let done = random.pick(&[0, 1, 500, whole - 1, whole - 5]).min(whole - 1);
            [done, whole - done]
        }
        9..=30 => [random.below(8) as usize, 40 + random.below(50) as usize],
        31..=60 => [random.below(4) as usize, 10 + random.below(20) as usize],
        _ => [random.below(5) as usize, 1 + random.below(9) as usize],
    }
}

/// Rising places from 0 on, and an end behind the last.
fn places(random: &mut Random, coming: usize) -> (Vec<usize>, usize) {
    let most = match coming > 30 {
        true => random.pick(&[2, 5, 40, 56, 60, 62, 63, 64, 64]),
        false => random.pick(&[1, 2, 2, 3, 3, 4, 5, 8]),
    };
    let mut places = vec![0];
    let gap = random.pick(&[1, 1, 1, 2, 3]);
    loop {
        let next = places[places.len() - 1] + 1 + random.below(gap) as usize;
        if next >= coming || places.len() == most {
            break;
        }
        places.push(next);
    }
    let end = match random.below(4) {
        0 => random.near(&[places[places.len() - 1] as u64 + 1, coming as u64], 0) as usize,
        1 => {
            places[places.len() - 1]
                + 1
                + random.below((coming - places[places.len() - 1]) as u64) as usize
        }
        _ => places[places.len() - 1] + 1,
    };
    (places, end)
}

/// Several cases over one book: texts, matches and records.
pub fn draw_case(random: &mut Random, setup: &Setup, few: u64, lookups: u64, book: &[u16]) -> Case {
    let [before, after] = counts(random);
    let (done, coming) = (text(random, few, before), text(random, few, after));
    let (places, end) = places(random, after);
    let count = random.pick(&[0, 1, 1, 2, 2, 3, 4, 5, 8, 16]);
    let reach = match places.len() {
        1..=8 => places.len() as u64 + 1,
        _ => random.pick(&[2, 8, places.len() as u64 + 1]),
    };
    let records = pairs(random, count, reach, lookups);
    let mut case = Case::new(setup.clone(), book.to_vec(), [&done, &coming], records, &places, end);
    case.matched.total = random.next() as u16; // a run doesn't look at it
    case
}

pub fn draw_setup(random: &mut Random) -> Setup {
    let switches = random.below(8);
    Setup {
        gpos: false,
        auto_zwnj: switches & 1 != 0,
        auto_zwj: switches & 2 != 0,
        per_syllable: switches & 4 != 0,
        mask: random.pick(&[1, 1, 1, 1, 3, 0, u32::MAX]),
        props: 0,
        sets: random.pick(&[&[][..], &[0, 1, 1, 2], &[0, 2, 0, 3, 1, 1]]).to_vec(),
    }
}
