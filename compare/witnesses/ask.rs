// What the table asks, in Rust: a function makes a call of the library and says its answer in words. `run` gives a program the functions
// that its witnesses name; a function begins in the first column and ends there.

// ---- allowances, digests, books

fn charged(c: allowance::Charged) -> String {
    let answer = if c.charge.is_ok() { "Taken" } else { "Exhausted" };
    format!("{answer}, {} and {} left", c.left.work, c.left.bytes)
}

fn lookups(words: &[u16]) -> String {
    let Some(index) = book_index::index_of(words) else {
        return "doesn't read".to_string();
    };
    let lookup = |k| match book::find_in(words, &index.starts, index.count, k) {
        Some(book::Entry::One { props, from, to }) => format!("props {props}, {from} to {to}"),
        Some(book::Entry::Many { props, from, ids }) => {
            format!("props {props}, {from} to {:?}", &words[ids.from..ids.to])
        }
        Some(book::Entry::Chain { props, parts }) => {
            let records = &words[parts.records.from..parts.records.to];
            format!("props {props}, a chain on {}, records {records:?}", parts.first)
        }
        None => "missing".to_string(),
    };
    (0..index.count).map(lookup).collect::<Vec<_>>().join("; ")
}

// ---- glyphs

fn written(words: &mut [u32], i: usize, g: glyph::Glyph) -> String {
    glyph::write(words, i, g);
    format!("{words:?}")
}

fn copied(from: &[u32], n: usize) -> String {
    let mut to = vec![0; from.len()];
    glyph::copy(&mut to, 0, from, 0, n);
    format!("{to:?}")
}

fn tell(m: verdict::Matcher, first: &[u32], this: &[u32]) -> String {
    let sign = verdict::Sign { test: verdict::Test::Equal, value: 7 };
    let told = explain_glyph::tell(m, &[], sign, glyph::read(first, 0), glyph::read(this, 0), &[]);
    let seen = told.seen;
    format!(
        "{:?} {:?}, {:?} {:?}, {:?}, {:?}",
        seen.skip, seen.why, seen.may, seen.how, seen.verdict, told.turn
    )
}

// ---- matches

fn matcher(
    gpos: bool,
    zwnj: bool,
    zwj: bool,
    syllables: bool,
    context: bool,
    mask: u32,
    props: u32,
) -> verdict::Matcher {
    let table = verdict::Table::from(gpos);
    verdict::matcher_of(verdict::Settings { table, zwnj, zwj, syllables }, context, mask, props)
}

fn terms(
    gpos: bool,
    zwnj: bool,
    zwj: bool,
    syllables: bool,
    mask: u32,
    props: u32,
) -> matching::Terms {
    let table = verdict::Table::from(gpos);
    matching::Terms { settings: verdict::Settings { table, zwnj, zwj, syllables }, mask, props }
}

fn input(m: matching::InputMatch) -> String {
    format!("{:?}, {}", m.answer, slots(m.count, m.positions))
}

fn slots(count: usize, positions: [u16; 64]) -> String {
    let used = count.min(64);
    let more =
        if positions[used..].iter().all(|&p| p == 0) { "" } else { " and an unused slot filled" };
    format!("{count} at {:?}{more}", &positions[..used])
}

// ---- the tape

fn tape(bytes: &[u8]) -> String {
    tape_in_reads(&[bytes])
}

// Each piece comes in a read of its own.
fn tape_in_reads(pieces: &[&[u8]]) -> String {
    host::READY.with(|ready| *ready.borrow_mut() = pieces.iter().map(|p| p.to_vec()).collect());
    bench_tape::main(host::HostRuntime);
    host::WRITTEN.with(|written| String::from_utf8_lossy(&written.borrow()).replace('\n', " "))
}

fn tape_to_full_device(pieces: &[&[u8]]) -> String {
    host::FULL.with(|full| full.set(true));
    tape_in_reads(pieces)
}

fn empty_lines(n: usize) -> String {
    let answers = tape(&vec![b'\n'; n]);
    format!("{} times FF", answers.matches("FF ").count())
}

fn feed(piece: &[u8], room: usize) -> String {
    let mut kept = tape_feed::KeptLine::new();
    let mut out = vec![0; room];
    let fed = kept.feed(piece, 0, &mut out, 0);
    format!("place {}, {:?}", fed.at, String::from_utf8_lossy(&out[..fed.written]))
}

// What is kept of a line that begins after another.
fn kept(line: &[u8], next: &[u8]) -> String {
    let mut kept = tape_feed::KeptLine::new();
    line.iter().for_each(|&b| kept.push(b));
    kept.clear();
    next.iter().for_each(|&b| kept.push(b));
    String::from_utf8_lossy(kept.bytes()).into_owned()
}

fn decoded(text: &[u8]) -> String {
    let mut words = [0; 8];
    let n = stored::decode(text, &mut words);
    format!("{:?}", &words[..n])
}

// The places where lines are replayed, each of as many words as its first says.
fn replayed(words: &[u32]) -> String {
    #[derive(Debug, Default)]
    struct Places(Vec<usize>);
    impl stored::Tally for Places {
        fn replay_line(&mut self, words: &[u32], at: usize) -> usize {
            self.0.push(at);
            at + words[at] as usize
        }
    }
    let places: Places = stored::replay(words, words.len());
    format!("{:?}", places.0)
}

// Words put into a line of dots.
fn put(words: &[u8], length: usize, at: usize) -> String {
    let mut line = vec![b'.'; length];
    let end = explain_line::put(&mut line, at, words);
    format!("end {end}, {}", String::from_utf8_lossy(&line))
}

// ---- runs

// A row that begins with these words.
fn begins(words: &[u32], length: usize) -> Vec<u32> {
    let mut row = words.to_vec();
    row.resize(length, 0);
    row
}

// The words of a run's row.
fn row_words() -> usize {
    glyph::WORDS * glyph::LIMIT
}

// A run's row that ends with these words, and then has another length.
fn ends(words: &[u32], length: usize) -> Vec<u32> {
    let mut row = vec![0; row_words() - words.len()];
    row.extend(words);
    row.resize(length, 0);
    row
}

fn matched(answer: matching::InputAnswer, count: usize, places: &[u16]) -> matching::InputMatch {
    let mut positions = [0; 64];
    positions[..places.len()].copy_from_slice(places);
    matching::InputMatch { answer, count, positions }
}

fn run(
    mut rows: [Vec<u32>; 2],
    d: usize,
    idx: usize,
    sets: &[u16],
    book: &[u16],
    records: &[u16],
    m: matching::InputMatch,
    given: run::Given,
    allowance: u32,
    depth: usize,
) -> String {
    let before = rows.clone();
    let [done, coming] = &mut rows;
    let answer =
        run_calls::run(done, coming, d, idx, sets, book, records, m, given, allowance, depth);
    ran(answer, before, rows)
}

fn run_of_structs(
    mut rows: [Vec<u32>; 2],
    d: usize,
    idx: usize,
    sets: &[u16],
    book: &[u16],
    records: &[u16],
    m: matching::InputMatch,
    given: run::Given,
    allowance: u32,
    depth: usize,
) -> String {
    let before = rows.clone();
    let [done, coming] = &mut rows;
    let record = |pair: &[u16]| run_record_structs::Record { sequence: pair[0], lookup: pair[1] };
    let records: Vec<_> = records.chunks(2).map(record).collect();
    let answer = run_record_structs::run(
        done, coming, d, idx, sets, book, &records, m, given, allowance, depth,
    );
    ran(answer, before, rows)
}

// A plain glyph is shown by its id, any other by its four words.
fn ran(
    a: Result<run_calls::RunAnswer, run::RunRefusal>,
    before: [Vec<u32>; 2],
    after: [Vec<u32>; 2],
) -> String {
    let changed = if before == after { "no word" } else { "words" };
    let a = match a {
        Err(why) => return format!("refused for its {why:?}, {changed} changed"),
        Ok(a) => a,
    };
    let ending = a.ending;
    let [done, coming] = after;
    let (done, coming) = (done.split_at(4 * a.d), coming[..row_words()].split_at(4 * a.idx));
    let show =
        |g: &[u32]| if g[1..] == [1, 0, 0x101] { g[0].to_string() } else { format!("{g:?}") };
    let mut text: Vec<String> = done.0.chunks(4).chain(coming.1.chunks(4)).map(show).collect();
    if text.is_empty() || text.len() > 8 {
        text = vec![format!("of {} glyphs", text.len())];
    }
    let left =
        if done.1.iter().chain(coming.0).all(|&word| word == 0) { "" } else { ", cells left" };
    let (spent, d, idx, text) = (a.spent, a.d, a.idx, text.join(" "));
    format!(
        "{ending:?}, spent {spent}, d {d}, idx {idx}, {}, text {text}{left}",
        slots(a.count, a.positions)
    )
}

// ---- the desk

// A run as in K11, with the number of the match that is handed in.
fn desk_run(
    coming: &[u32],
    book: &[u16],
    records: &[u16],
    number: u8,
    allowance: u32,
    depth: usize,
) -> String {
    let count = coming.len() / 4;
    let idx = glyph::LIMIT - count;
    let mut positions = [0; 64];
    for (k, place) in (idx..glyph::LIMIT).enumerate() {
        positions[k] = place as u16;
    }
    let m = desk::matches::Matched { number, total: 0, end: glyph::LIMIT, count, positions };
    let switches = desk::nestings::Switches { zwnj: false, zwj: false, syllables: false, mask: 1 };
    let (mut done, mut coming) = (vec![0; row_words()], ends(coming, row_words()));
    let r = desk::nestings::cb_run(
        &mut done,
        &mut coming,
        0,
        idx,
        &[],
        book,
        records,
        m,
        switches,
        allowance,
        depth,
    );
    format!(
        "{}, spent {}, d {}, idx {}, {}",
        r.number,
        r.spent,
        r.d,
        r.idx,
        slots(r.count, r.positions)
    )
}

fn desk_union(mut masks: [u64; 3], more: [u64; 3]) -> String {
    desk::digests::cb_digest_union(&mut masks, &more);
    format!("{masks:?}")
}

fn desk_input(coming: &[u32], values: &[u32]) -> String {
    let lookup = desk::walks::Lookup {
        gpos: false,
        zwnj: false,
        zwj: false,
        syllables: false,
        mask: 1,
        props: 0,
    };
    let m =
        desk::matches::cb_match_input(&[], 0, coming, coming.len() / 4, 0, lookup, &[], 0, values);
    format!("{}, end {}, total {}, {}", m.number, m.end, m.total, slots(m.count, m.positions))
}
