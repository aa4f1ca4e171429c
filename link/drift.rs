//! Checks that include/conchibaru.h and bindings/rust/src say the same as crates/desk/src and the rooms whose enums have numbers: every call with each
//! argument's name and type in order, every struct with its fields, every number that has a name. Each of the three is read into one
//! normal form.
//!
//!     drift HEADER CRATE-FOLDER DESK-FOLDER [FOLDER-OF-A-ROOM]..
//!
//! It also tries itself: each word of a declaration, in each of the three, is changed alone, and the change must be noticed.
use std::collections::{BTreeMap, BTreeSet};
use std::fs;

/// What a file declares: `fn cb_x(row: *const u32, row_len: usize) -> cb_said`, `struct cb_said { number: u8, .. }` by name, and
/// numbers by names as `MAY_SKIP_YES`.
#[derive(Clone, Default, PartialEq)]
struct Said {
    items: BTreeMap<String, String>,
    numbers: BTreeMap<String, u64>,
}

type Words = Vec<String>;

fn words(text: &str) -> Words {
    let chars: Vec<char> = text.chars().collect();
    let mut out = Words::new();
    let mut i = 0;
    while i < chars.len() {
        let rest: String = chars[i..chars.len().min(i + 2)].iter().collect();
        let end = |close: &str, from: usize| {
            let tail: String = chars[from..].iter().collect();
            tail.find(close).map_or(chars.len(), |at| from + tail[..at].chars().count() + close.len())
        };
        if rest == "//" {
            i = end("\n", i);
        } else if rest == "/*" {
            i = end("*/", i + 2);
        } else if chars[i] == '"' {
            let close = end("\"", i + 1);
            out.push(chars[i..close].iter().collect());
            i = close;
        } else if is_word(chars[i]) || (chars[i] == '\'' && chars.get(i + 1).is_some_and(|&c| is_word(c))) {
            let start = i;
            i += 1;
            while i < chars.len() && is_word(chars[i]) {
                i += 1;
            }
            out.push(chars[start..i].iter().collect());
        } else if rest == "::" || rest == "->" || rest == "=>" || rest == "==" {
            out.push(rest);
            i += 2;
        } else {
            if !chars[i].is_whitespace() {
                out.push(chars[i].to_string());
            }
            i += 1;
        }
    }
    out
}

fn is_word(c: char) -> bool {
    c.is_alphanumeric() || c == '_'
}

fn is_name(word: &str) -> bool {
    word.starts_with(|c: char| c.is_alphabetic() || c == '_')
}

/// `MaySkip` as `may_skip`.
fn snake(name: &str) -> String {
    let mut out = String::new();
    for c in name.chars() {
        if c.is_uppercase() && !out.is_empty() {
            out.push('_');
        }
        out.extend(c.to_lowercase());
    }
    out
}

fn number(word: &str) -> Option<u64> {
    word.parse().ok()
}

/// Reads words one after another. None is an answer too: what can't be read has drifted.
struct Reader<'a> {
    words: &'a [String],
    at: usize,
    /// Words of what was compared, for the trials.
    read: Vec<usize>,
}

impl<'a> Reader<'a> {
    fn new(words: &'a [String]) -> Self {
        Self { words, at: 0, read: Vec::new() }
    }
    fn peek(&self, ahead: usize) -> &'a str {
        self.words.get(self.at + ahead).map_or("", |word| word)
    }
    fn next(&mut self) -> &'a str {
        let word = self.peek(0);
        self.read.push(self.at);
        self.at += 1;
        word
    }
    fn take(&mut self, word: &str) -> bool {
        let there = self.peek(0) == word;
        if there {
            self.next();
        }
        there
    }
    fn need(&mut self, word: &str) -> Option<()> {
        self.take(word).then_some(())
    }
    fn name(&mut self) -> Option<&'a str> {
        let word = self.next();
        is_name(word).then_some(word)
    }
    fn starts(&self, form: &[&str]) -> bool {
        form.iter().enumerate().all(|(k, word)| self.peek(k) == *word)
    }
    /// Words of a form that was seen to start here.
    fn skip(&mut self, n: usize) {
        self.read.extend(self.at..self.at + n);
        self.at += n;
    }
    /// Passes over a word that is nothing of ours.
    fn pass(&mut self) {
        self.at += 1;
    }
}

// ---- Rust and Rattle

fn plain_type(name: &str) -> String {
    match name {
        "u8" | "u16" | "u32" | "u64" | "usize" | "bool" => name.to_string(),
        _ => format!("cb_{}", snake(name)),
    }
}

/// A type, and whether it is a slice, which C takes as a pointer and a length.
fn rust_type(r: &mut Reader) -> Option<(String, bool)> {
    let (pointer, lent) = if r.take("&") {
        if r.peek(0).starts_with('\'') {
            r.pass();
        }
        (if r.take("mut") { "*mut " } else { "*const " }, true)
    } else if r.take("*") {
        (if r.take("mut") { "*mut " } else { r.need("const").map(|()| "*const ")? }, false)
    } else {
        ("", false)
    };
    if r.take("[") {
        let of = plain_type(r.name()?);
        if lent && r.take("]") {
            return Some((format!("{pointer}{of}"), true));
        }
        r.need(";")?;
        let n = number(r.next())?;
        r.need("]")?;
        return Some((format!("{pointer}[{of}; {n}]"), false));
    }
    let of = plain_type(r.name()?);
    (!lent).then(|| (format!("{pointer}{of}"), false))
}

/// `name: type, ..` up to the closing word; a slice's length gets the slice's name and `_len`.
fn rust_fields(r: &mut Reader, close: &str) -> Option<Vec<String>> {
    let mut out = Vec::new();
    while !r.take(close) {
        if r.peek(0) == "pub" {
            r.pass();
        }
        let name = r.name()?;
        r.need(":")?;
        let (of, slice) = rust_type(r)?;
        out.push(format!("{name}: {of}"));
        if slice {
            out.push(format!("{name}_len: usize"));
        }
        if r.peek(0) == "," && r.peek(1) == close {
            r.pass(); // says nothing
        } else if !r.take(",") {
            r.need(close)?;
            break;
        }
    }
    Some(out)
}

fn rust_fn(r: &mut Reader, said: &mut Said) -> Option<()> {
    let name = r.name()?;
    if r.peek(0) == "<" {
        while r.peek(0) != "(" && r.at < r.words.len() {
            r.pass();
        }
    }
    r.need("(")?;
    let arguments = rust_fields(r, ")")?;
    let back = if r.take("->") { rust_type(r)?.0 } else { "()".to_string() };
    add(said, name.to_string(), format!("fn {name}({}) -> {back}", arguments.join(", ")))
}

fn rust_struct(r: &mut Reader, said: &mut Said) -> Option<()> {
    let name = plain_type(r.name()?);
    r.need("{")?;
    let fields = rust_fields(r, "}")?;
    add(said, name.clone(), format!("struct {name} {{ {} }}", fields.join(", ")))
}

fn add(said: &mut Said, name: String, item: String) -> Option<()> {
    said.items.insert(name, item).is_none().then_some(())
}

/// `Enum::Variant` as the header's name without CB_.
fn number_name(of: &str, variant: &str) -> String {
    format!("{}_{}", snake(of), snake(variant)).to_uppercase()
}

/// `#[derive(..)]`, which lays nothing out.
fn pass_derives(r: &mut Reader) {
    while r.starts(&["#", "[", "derive", "("]) {
        while r.peek(0) != "]" && r.at < r.words.len() {
            r.pass();
        }
        r.pass();
    }
}

/// The desk: exported functions, structs as C lays them out; and the rooms' numbers, an enum's own as in `Shape = 1`, or as in `0 => Test::Equal`.
fn read_desk(words: &[String]) -> Option<(Said, Vec<usize>)> {
    let mut said = Said::default();
    let mut r = Reader::new(words);
    while r.at < words.len() {
        if r.starts(&["#", "[", "unsafe", "(", "no_mangle", ")", "]", "pub", "extern", "\"C\"", "fn"]) {
            r.skip(11);
            rust_fn(&mut r, &mut said)?;
        } else if r.starts(&["#", "[", "repr", "(", "C", ")", "]"]) {
            r.skip(7);
            pass_derives(&mut r);
            if !r.starts(&["pub", "struct"]) {
                return None;
            }
            r.skip(2);
            rust_struct(&mut r, &mut said)?;
        } else if r.starts(&["pub", "enum"]) {
            // The header has one list of refusals, for the matchers' and for a run's. Two rooms may have a refusal of one name; it has one number.
            let of = if r.peek(2) == "RunRefusal" { "Refusal" } else { r.peek(2) };
            r.at += 3;
            while r.at < words.len() && r.peek(0) != "}" {
                if r.peek(1) == "=" && is_name(r.peek(0)) {
                    r.read.extend([r.at, r.at + 2]);
                    let value = number(r.peek(2))?;
                    if said.numbers.insert(number_name(of, r.peek(0)), value).is_some_and(|other| other != value) {
                        return None;
                    }
                }
                r.pass();
            }
        } else if r.peek(1) == "=>" && r.peek(3) == "::" {
            if let Some(value) = number(r.peek(0)) {
                r.read.extend([r.at, r.at + 4]);
                said.numbers.insert(number_name(r.peek(2), r.peek(4)), value);
            }
            r.pass();
        } else {
            r.pass();
        }
    }
    Some((said, r.read))
}

/// The crate: its extern block and the structs beside it, and the numbers of its enums, of refusals as in `Refusal::Shape => 1`.
fn read_crate(words: &[String]) -> Option<(Said, Vec<usize>)> {
    let mut said = Said::default();
    let mut r = Reader::new(words);
    while r.at < words.len() {
        if r.starts(&["#", "[", "repr", "(", "C", ")", "]"]) {
            r.skip(7);
            while r.peek(0) != "struct" && r.at < words.len() {
                r.pass();
            }
            r.need("struct")?;
            rust_struct(&mut r, &mut said)?;
        } else if r.starts(&["extern", "\"C\"", "{"]) {
            r.skip(3);
            while !r.take("}") {
                r.need("pub")?;
                r.need("fn")?;
                rust_fn(&mut r, &mut said)?;
                r.need(";")?;
            }
        } else if r.starts(&["Refusal", "::"]) && r.peek(3) == "=>" {
            if let Some(value) = number(r.peek(4)) {
                r.read.extend([r.at + 2, r.at + 4]);
                said.numbers.insert(number_name("Refusal", r.peek(2)), value);
            }
            r.pass();
        } else if r.starts(&["pub", "enum"]) {
            let name = r.peek(2);
            r.at += 3;
            while r.at < words.len() && r.peek(0) != "}" {
                if r.peek(1) == "=" && is_name(r.peek(0)) {
                    r.read.extend([r.at, r.at + 2]);
                    said.numbers.insert(number_name(name, r.peek(0)), number(r.peek(2))?);
                }
                r.pass();
            }
        } else {
            r.pass();
        }
    }
    Some((said, r.read))
}

// ---- C

fn c_type(name: &str) -> String {
    match name {
        "uint8_t" | "uint16_t" | "uint32_t" | "uint64_t" => {
            format!("u{}", &name[4..name.len() - 2])
        }
        "size_t" => "usize".to_string(),
        _ => name.to_string(),
    }
}

/// `const uint32_t *row`, `uint64_t masks[3]`, `size_t place`: as an argument an array is a pointer to one.
fn c_field(r: &mut Reader, argument: bool) -> Option<String> {
    let constant = r.take("const");
    let of = c_type(r.name()?);
    let pointer = if constant { "*const " } else { "*mut " };
    let star = r.take("*");
    let name = r.name()?;
    if r.take("[") {
        let n = number(r.next())?;
        r.need("]")?;
        return (!star).then(|| format!("{name}: {}[{of}; {n}]", if argument { pointer } else { "" }));
    }
    (star || !constant).then(|| format!("{name}: {}{of}", if star { pointer } else { "" }))
}

fn c_struct(r: &mut Reader, said: &mut Said) -> Option<()> {
    let mut fields = Vec::new();
    while !r.take("}") {
        fields.push(c_field(r, false)?);
        r.need(";")?;
    }
    let name = r.name()?;
    r.need(";")?;
    add(said, name.to_string(), format!("struct {name} {{ {} }}", fields.join(", ")))
}

fn c_function(r: &mut Reader, said: &mut Said) -> Option<()> {
    let back = match r.name()? {
        "void" => "()".to_string(),
        of => c_type(of),
    };
    let name = r.name()?;
    r.need("(")?;
    let mut arguments = Vec::new();
    if r.starts(&["void", ")"]) {
        r.next();
        r.next();
    } else {
        loop {
            arguments.push(c_field(r, true)?);
            if !r.take(",") {
                break;
            }
        }
        r.need(")")?;
    }
    r.need(";")?;
    add(said, name.to_string(), format!("fn {name}({}) -> {back}", arguments.join(", ")))
}

const NUMBERED: [&str; 6] = ["REFUSAL_", "ENDING_", "MAY_SKIP_", "MAY_MATCH_", "VERDICT_", "TEST_"];

/// The numbers of an enum whose names the crate and the desk have too.
fn c_numbers(r: &mut Reader, said: &mut Said) -> Option<()> {
    while !r.take("}") {
        let from = r.read.len();
        let name = r.name()?.strip_prefix("CB_")?;
        r.need("=")?;
        let value = number(r.next())?;
        if NUMBERED.iter().any(|start| name.starts_with(start)) {
            said.numbers.insert(name.to_string(), value);
        } else {
            r.read.truncate(from);
        }
        if r.peek(0) == "," {
            r.pass();
        }
    }
    r.need(";")
}

/// The header: prototypes, structs, enums, inside of extern "C".
fn read_header(words: &[String]) -> Option<(Said, Vec<usize>)> {
    let mut said = Said::default();
    let mut r = Reader::new(words);
    while r.at < words.len() {
        if r.starts(&["extern", "\"C\"", "{"]) {
            r.at += 3;
        } else if r.peek(0) == "}" {
            r.pass();
        } else if r.starts(&["typedef", "struct", "{"]) {
            r.skip(3);
            c_struct(&mut r, &mut said)?;
        } else if r.starts(&["enum", "{"]) {
            r.skip(2);
            c_numbers(&mut r, &mut said)?;
        } else {
            c_function(&mut r, &mut said)?;
        }
    }
    Some((said, r.read))
}

/// Lines of the preprocessor are no declarations.
fn without_directives(text: &str) -> String {
    let mut out = String::new();
    let mut inside = false;
    for line in text.lines() {
        let directive = inside || line.trim_start().starts_with('#');
        inside = directive && line.ends_with('\\');
        if !directive {
            out.push_str(line);
            out.push('\n');
        }
    }
    out
}

// ---- the comparison

/// What one says and the other doesn't. Of the desk's numbers one has no digit in its source: any test but 0 and 1 is Nothing.
fn differences(ours: (&str, &Said), desk: (&str, &Said)) -> Vec<String> {
    let mut out = Vec::new();
    let names: BTreeSet<_> = ours.1.items.keys().chain(desk.1.items.keys()).collect();
    for name in names {
        let (a, b) = (ours.1.items.get(name), desk.1.items.get(name));
        if a != b {
            let shown = |item: Option<&String>| item.map_or("nothing".to_string(), String::clone);
            out.push(format!("{name}\n  {}: {}\n  {}: {}", ours.0, shown(a), desk.0, shown(b)));
        }
    }
    let names: BTreeSet<_> = ours.1.numbers.keys().chain(desk.1.numbers.keys()).collect();
    for name in names {
        let (a, b) = (ours.1.numbers.get(name), desk.1.numbers.get(name));
        let untold = name == "TEST_NOTHING" && a == Some(&2) && b.is_none();
        if a != b && !untold {
            out.push(format!("CB_{name}: {a:?} in {}, {b:?} in {}", ours.0, desk.0));
        }
    }
    out
}

/// A word changed to one that could stand there too; an empty one is left out.
fn changed(before: &str, word: &str) -> String {
    let types = ["u8", "u16", "u32", "u64", "usize", "u8", "uint8_t", "uint16_t", "uint32_t", "uint64_t", "size_t", "uint8_t"];
    match word {
        "bool" => "u8".to_string(),
        "const" if before == "*" => "mut".to_string(),
        "const" | "mut" => String::new(),
        _ => match (types.iter().position(|t| *t == word), number(word)) {
            (Some(k), _) => types[k + 1].to_string(),
            (_, Some(n)) => (n + 1).to_string(),
            _ if is_name(word) => format!("{word}_x"),
            _ => String::new(),
        },
    }
}

type Read = fn(&[String]) -> Option<(Said, Vec<usize>)>;

/// Changes each word that was compared, one at a time; returns how many there were, and those that nobody noticed.
fn trials(text: &Words, read: Read, same: &dyn Fn(&Said) -> bool) -> (usize, Vec<String>) {
    let (_, places) = read(text).expect("it was read before");
    let mut unnoticed = Vec::new();
    for &at in &places {
        let mut other = text.clone();
        match changed(&text[at.saturating_sub(1)], &text[at]) {
            word if word.is_empty() => drop(other.remove(at)),
            word => other[at] = word,
        }
        if read(&other).is_some_and(|(said, _)| same(&said)) {
            unnoticed.push(text[at.saturating_sub(5)..text.len().min(at + 6)].join(" "));
        }
    }
    (places.len(), unnoticed)
}

fn file(path: &str) -> String {
    fs::read_to_string(path).unwrap_or_else(|why| panic!("{path}: {why}"))
}

/// Each file of a folder with this ending, one after another.
fn folder(path: &str, ending: &str) -> String {
    let list = fs::read_dir(path).unwrap_or_else(|why| panic!("{path}: {why}"));
    let mut files: Vec<_> = list.map(|entry| entry.expect("a file of the folder").path()).collect();
    files.sort();
    files.iter().filter(|f| f.extension().is_some_and(|e| e == ending)).map(|f| file(&f.to_string_lossy()) + "\n").collect()
}

/// Of a room's items the enums whose variants have numbers, and what makes a test of its number.
fn numbered(text: &str) -> String {
    let is_one = |item: &&str| item.contains("pub enum") && item.contains(" = ") || item.contains("impl From<u8> for Test");
    text.split_inclusive("\n}\n").filter(is_one).collect()
}

fn main() {
    let arguments: Vec<String> = std::env::args().skip(1).collect();
    let [header, krate, desk, rooms @ ..] = &arguments[..] else {
        panic!("usage: drift HEADER CRATE-FOLDER DESK-FOLDER [FOLDER-OF-A-ROOM]..")
    };
    let header = ("conchibaru.h", words(&without_directives(&file(header))), read_header as Read);
    let numbers: String = rooms.iter().map(|room| numbered(&folder(room, "rt"))).collect();
    let desk = ("crates/desk", words(&(folder(desk, "rt") + &numbers)), read_desk as Read);
    let krate = ("bindings/rust", words(&folder(krate, "rs")), read_crate as Read);
    let mut read = Vec::new();
    for (name, words, reader) in [&header, &desk, &krate] {
        let Some((said, _)) = reader(words) else {
            println!("drift: {name} has a declaration that link/drift.rs can't read");
            std::process::exit(1);
        };
        read.push(said);
    }
    let mut found = differences((header.0, &read[0]), (desk.0, &read[1]));
    found.extend(differences((krate.0, &read[2]), (desk.0, &read[1])));
    let fns = read[1].items.values().filter(|item| item.starts_with("fn ")).count();
    let (structs, numbers) = (read[1].items.len() - fns, read[1].numbers.len());
    let mut count = 0;
    for (k, (name, words, reader)) in [&header, &desk, &krate].into_iter().enumerate() {
        let (tried, unnoticed) = trials(words, *reader, &|said| *said == read[k]);
        count += tried;
        found.extend(unnoticed.iter().map(|place| format!("{name}: a change of the middle word wouldn't be noticed: {place}")));
    }
    for line in &found {
        println!("drift: {line}");
    }
    if !found.is_empty() || fns == 0 || structs == 0 || numbers == 0 {
        std::process::exit(1);
    }
    println!(
        "drift: none. {fns} calls, {structs} structs and {numbers} numbers are the same in the desk, the header and the crate;"
    );
    println!("drift: each of {count} words in them, changed alone, would be noticed");
}
