"""What tells each wrong answer from the right one. For each must-fail edit of src/, by crate: what is asked, the right answer, the wrong program's.

What is asked is an expression of Rust, written by the functions below. An answer is a value as Rust's Debug prints it, or what a function of ask.rs
makes of it; "stops" is a program that panics. CONTRACT is an edit of a contract alone, which leaves the program as it is.
"""

import pathlib
import re

CONTRACT = "an edit of a contract"


# ---- expressions of Rust


def rust(value):
    if isinstance(value, bool):
        return str(value).lower()
    if isinstance(value, bytes):
        return 'b"' + "".join(f"\\x{byte:02x}" for byte in value) + '"'
    if isinstance(value, (list, tuple, range)):
        return "&[" + ", ".join(map(rust, value)) + "]"
    return str(value)


def call(function, *values):
    return f"{function}({', '.join(map(rust, values))})"


def said(expression):
    """A value, as Debug prints it."""
    return f'format!("{{:?}}", {expression})'


# ---- digests and allowances


def digest(expression):
    """An expression of a new digest and a full one."""
    return said(f"{{ let (new, full) = (digest::SetDigest::new(), digest::SetDigest::full()); {expression} }}")


def rules(expression):
    """An expression of a new digest and a full one, of rules' values."""
    return said(f"{{ let (new, full) = (rule_digest::RuleSetDigest::new(), rule_digest::RuleSetDigest::full()); {expression} }}")


def budget(expression):
    return said(f"allowance::Budget::{expression}")


def charged(opened, charge):
    """A charge on an allowance that is opened with work and bytes; what is left of both."""
    return call("charged", call("allowance::Budget::new", *opened) + f".{charge}")


# ---- glyphs, rows, lookups


def of_glyph(name):
    """A number that crates/glyph has under this name: the words of a glyph, the glyphs of a row."""
    source = (pathlib.Path(__file__).parents[2] / "crates/glyph/src/lib.rt").read_text()
    return int(re.search(rf"^pub const {name}: usize = (\d+);$", source, re.MULTILINE).group(1))


WORDS, LIMIT = of_glyph("WORDS"), of_glyph("LIMIT")

IGNORABLE, ZWNJ, ZWJ, HIDDEN = 1, 2, 4, 8  # flags
BASE, LIGATURE, MARK = 2, 4, 8  # props


def glyph(id, mask=1, flags=0, syllable=0, props=0, lig=0, comp=0, count=1, ligated=1):
    """The four words of a glyph."""
    return [id, mask, flags << 24 | syllable << 16 | props, lig << 24 | comp << 16 | count << 8 | ligated]


def mark(id, **more):
    return glyph(id, props=MARK, **more)


def row(glyphs):
    """The words of glyphs; an id stands for a plain glyph, as the cards have them."""
    return [word for g in glyphs for word in (glyph(g) if isinstance(g, int) else g)]


def matcher(gpos=False, zwnj=False, zwj=False, syllables=False, context=False, mask=1, props=0):
    return call("matcher", gpos, zwnj, zwj, syllables, context, mask, props)


def terms(gpos=False, zwnj=False, zwj=False, syllables=False, mask=1, props=0):
    return call("terms", gpos, zwnj, zwj, syllables, mask, props)


# ---- a glyph judged; the row is this glyph

EQUAL, ANY, NOTHING = "verdict::Test::Equal", "verdict::Test::Any", "verdict::Test::Nothing"


def sign(test, value):
    return f"verdict::Sign {{ test: {test}, value: {value} }}"


def may_skip(g, place=0, sets=(), **asked):
    return said(call("verdict_ask::ask_skip", row([g]), place, matcher(**asked), sets))


def may_match(g, place=0, value=7, test=EQUAL, syllable=0, **asked):
    return said(call("verdict_ask::ask_match", row([g]), place, matcher(**asked), sign(test, value), syllable))


def verdict(g, place=0, value=7, test=EQUAL, syllable=0, sets=(), **asked):
    return said(call("verdict_ask::ask_verdict", row([g]), place, matcher(**asked), sign(test, value), syllable, sets))


def is_value(g, value=7, test=EQUAL):
    return said(call("verdict_match::is_value", sign(test, value), [], call("glyph::read", row([g]), 0)))


def tell(first, this, **asked):
    """What is told of the glyph `this` in a match of the value 7 from the glyph `first` on."""
    return call("tell", matcher(**asked), row([first]), row([this]))


# ---- a row walked


def forward(glyphs, place=0, length=None, value=7, syllable=0, sets=(), **asked):
    length = len(glyphs) if length is None else length
    return said(call("walk::forward", row(glyphs), length, place, matcher(**asked), sign(EQUAL, value), syllable, sets))


def forward_in_part(glyphs, value=7, **asked):
    """From the first glyph of a part on."""
    return said(call("walk::forward_from", row(glyphs), len(glyphs), 0, matcher(**asked), sign(EQUAL, value), [], 0, []))


def backward(glyphs, place, value=7, syllable=0, sets=(), **asked):
    return said(call("walk::backward", row(glyphs), place, matcher(**asked), sign(EQUAL, value), syllable, sets))


def nth(glyphs, n, place=0, value=7, **asked):
    """A walker's match after n others."""
    return said(call("walker::nth", row(glyphs), len(glyphs), place, n, matcher(**asked), sign(EQUAL, value), 0, []))


# ---- matches, as in the cards


def text(coming, done, d, length, cursor):
    return row(done), len(done) if d is None else d, row(coming), len(coming) if length is None else length, cursor


def match_input(coming, values=(7,), done=(), d=None, length=None, cursor=0, sets=(), **lookup):
    there = text(coming, done, d, length, cursor)
    return call("input", call("matching_calls::match_input", *there, terms(**lookup), sets, EQUAL, values))


def match_lookahead(coming, start, values=(7,), done=(), d=None, length=None, cursor=0, sets=(), **lookup):
    there = text(coming, done, d, length, cursor)
    return said(call("matching_calls::match_lookahead", *there, start, terms(**lookup), sets, EQUAL, values))


def match_backtrack(coming, values=(7,), done=(), d=None, length=None, cursor=0, sets=(), **lookup):
    there = text(coming, done, d, length, cursor)
    return said(call("matching_calls::match_backtrack", *there, terms(**lookup), sets, EQUAL, values))


K1_ANSWER = "Ok(Success { end: 2, total: 2 }), 2 at [0, 1]"

# Marks of two components of ligature 1, and that ligature.
MARKS_OF_TWO = [mark(5, lig=1, comp=1), mark(7, lig=1, comp=2)]
BASE_OF_MARKS = glyph(2, props=LIGATURE, lig=1)


# ---- the tape


def frame(coming, values=(7,), done=(), table="GSUB", settings=0, mask=1, props=0, cursor=0):
    """A frame in hexadecimal (01, "The bench tape")."""
    head = table.encode().hex() + f"{settings:02X}{mask:08X}{props:08X}{cursor:04X}{len(values):02X}"
    lists = "".join(f"{value:08X}" for value in values) + f"{len(done):04X}{len(coming):04X}"
    return head + lists + "".join(f"{word:08X}" for word in row(done) + row(coming))


def tape(line):
    """What the tape's program answers to a line."""
    return call("tape", line.encode() + b"\n")


def feed(line):
    """A line as the first of a tape, with room for one answer."""
    return call("feed", line.encode() + b"\n", "tape_answer::MOST_ANSWER")


T1 = frame([5, 7])
LONGEST = frame([5] * 64, values=[7] * 64, done=[5] * 64)


def reads(asked, *pieces):
    """The tape's program, each piece in a read of its own."""
    return call(asked, [f"&{rust(piece.encode())}[..]" for piece in pieces])


# ---- books and runs

KIND_1, KIND_2, KIND_3 = 1, 2, 3
STRUCTS = "run_of_structs"


def lookup(kind, *body, props=0):
    return [kind, props % 65536, props // 65536, len(body), *body]


def chain(first, backtrack=(), input=(), lookahead=(), records=(), props=0):
    pairs = [word for record in records for word in record]
    values = [len(backtrack), *backtrack, len(input), *input, len(lookahead), *lookahead]
    return lookup(KIND_3, first, *values, len(records), *pairs, props=props)


def run(
    coming,
    book,
    records,  # pairs, or words
    done=(),
    d=None,
    idx=None,
    places=None,
    count=None,
    end=LIMIT,
    answer="Ok(matching::Success {{ end: {}, total: 0 }})",
    sets=(),
    zwnj=False,
    zwj=False,
    syllables=False,
    mask=1,
    allowance=1,
    depth=1,
    done_words=WORDS * LIMIT,
    coming_words=WORDS * LIMIT,
    how="run",  # or STRUCTS: with the records as structs
):
    """A run as in K11: `coming` ends its row, and is matched whole."""
    d, idx = len(done) if d is None else d, LIMIT - len(coming) if idx is None else idx
    places = range(idx, LIMIT) if places is None else places
    rows = f"[{call('begins', row(done), done_words)}, {call('ends', row(coming), coming_words)}]"
    words = [word for record in records for word in (record if isinstance(record, tuple) else [record])]
    m = call("matched", answer.format(end), len(places) if count is None else count, places)
    given = f"run::Given {{ zwnj: {rust(zwnj)}, zwj: {rust(zwj)}, syllables: {rust(syllables)}, mask: {mask} }}"
    return call(how, rows, d, idx, sets, book, words, m, given, allowance, depth)


def aims_without_entry(coming):
    """Whether a lookup that the book doesn't have is a chain at the first glyph of a text."""
    rows = f"&begins(&[], row_words()), &{call('ends', row(coming), 'row_words()')}"
    place = f"text::Place {{ d: 0, idx: {LIMIT - len(coming)} }}"
    given = "run::Given { zwnj: false, zwj: false, syllables: false, mask: 1 }"
    return said(f"run_chain_match::take_aim({rows}, &[], &[], None, {place}, {given}).is_some()")


def one_glyph(records=(), book=(), **other):
    return run([5], book, records, **other)


K11_BOOK = lookup(KIND_2, 2, 2, 2, 2)
K11_ANSWER = f"Finished, spent 1, d 4, idx {LIMIT}, 4 at [0, 1, 2, 3], text 1 2 2 3"


def k11(coming=(1, 2, 3), book=K11_BOOK, records=((1, 0),), **other):
    return run(coming, book, records, **other)


def desk_k11(book=K11_BOOK, number=0, allowance=1, depth=1):
    """K11 by the desk, whose answer is a number; `number` is that of the match."""
    return call("desk_run", row([1, 2, 3]), book, [1, 0], number, allowance, depth)


# ---- the table

TABLE = {
    "mask": {
        "a_bit_of_either_is_enough_to_meet": (said("mask::meet(1, 2)"), "false", "true"),
        "a_clear_bit_is_had": (said("mask::has(0, 0)"), "false", "true"),
        "a_mask_meets_itself": (said("mask::meet(1, 2)"), "false", "true"),
        "a_number_goes_mod_32": (said("mask::with(0, 32)"), "4294967296", "1"),
        "a_number_is_asked_mod_32": (said("mask::has(1, 32)"), "false", "true"),
        "a_run_of_bits_forgets_its_last": (said("mask::arc(0, 0)"), "1", "0"),
        "a_run_round_past_63_is_empty": (said("mask::arc(63, 0)"), "9223372036854775809", "0"),
        "all_lacks_the_last_bit": (said("mask::is_full(u64::MAX)"), "true", "false"),
        "full_is_said_of_all_but_the_full": (said("mask::is_full(0)"), "false", "true"),
        "setting_a_bit_keeps_only_that_bit": (said("mask::with(3, 0)"), "3", "1"),
    },
    "digest": {
        "a_bit_that_the_other_lacks_is_common": (digest("new.add(0).may_intersect(new)"), "false", "true"),
        "a_common_bit_keeps_apart": (digest("new.add(0).may_intersect(new.add(0))"), "true", "false"),
        "a_full_digest_has_a_bit_a_mask": (digest("full.may_have(1)"), "true", "false"),
        "a_full_digest_is_empty": (digest("full.may_have(0)"), "true", "false"),
        "a_new_digest_has_a_bit": (digest("new.may_have(0)"), "false", "true"),
        "a_new_digest_is_full": (digest("new.may_have(1)"), "false", "true"),
        "a_range_goes_from_its_end_to_its_start": (digest("new.add_range(0, 1).digest.may_have(2)"), "false", "true"),
        "a_range_is_wide_from_64_on": (digest("new.add_range(0, 4032).yes"), "false", "true"),
        "a_set_bit_keeps_out": (digest("new.add(0).may_have(0)"), "true", "false"),
        "a_union_keeps_what_both_have": (digest("new.union(new.add(0)).may_have(0)"), "true", "false"),
        "a_union_loses_what_both_have": (digest("new.add(0).union(new.add(0)).may_have(0)"), "true", "false"),
        "adding_goes_by_one_shift": (digest("new.add(1).may_have(1)"), "true", "false"),
        "an_array_forgets_what_was_there": (digest("new.add(0).add_array(&[]).may_have(0)"), "true", "false"),
        "an_arrays_ids_are_cut_to_8_bits": (digest("new.add_array(&[256]).may_have(256)"), "true", "false"),
        "clearing_fills": (digest("new.clear().may_have(0)"), "false", "true"),
        "clearing_keeps_the_masks": (digest("new.add(0).clear().may_have(0)"), "false", "true"),
        "one_of_the_last_two_masks_is_enough": (digest("new.add(1).may_have(0)"), "false", "true"),
        "the_mask_at_shift_0_is_not_asked": (digest("new.add(1).may_have(0)"), "false", "true"),
        "the_mask_at_shift_4_is_not_asked": (digest("new.add(16).add(64).may_have(0)"), "false", "true"),
        "the_mask_at_shift_6_is_not_asked": (digest("new.add(1024).may_have(0)"), "false", "true"),
        "the_shifts_stand_in_another_order": (digest("new.add(1).masks"), "[1, 2, 1]", "[1, 1, 2]"),
        "yes_although_all_masks_were_full": (digest("full.add_range(0, 0).yes"), "false", "true"),
        "yes_although_it_is_wide_everywhere": (digest("new.add_range(0, 4032).yes"), "false", "true"),
    },
    "rule_digest": {
        "a_full_rule_digest_has_one_bit": (rules("full.may_have(1)"), "true", "false"),
        "a_full_rule_digest_is_empty": (rules("full.may_have(0)"), "true", "false"),
        "a_new_rule_digest_has_a_bit": (rules("new.may_have(0)"), "false", "true"),
        "a_new_rule_digest_is_full": (rules("new.may_have(1)"), "false", "true"),
        "a_rule_digest_that_lacks_a_bit_is_full": (rules("(1..64).fold(new, |d, n| d.add(n)).is_full()"), "false", "true"),
        "a_rule_value_is_shifted": (rules("new.add(1).may_have(1)"), "true", "false"),
        "a_rule_value_is_sought_shifted": (rules("new.add(1).may_have(1)"), "true", "false"),
        "adding_a_rule_value_forgets_the_others": (rules("new.add(0).add(1).may_have(0)"), "true", "false"),
        "every_rule_digest_is_full": (rules("new.is_full()"), "false", "true"),
        "no_rule_value_is_admitted": (rules("new.add(0).may_have(0)"), "true", "false"),
    },
    "allowance": {
        "a_byte_charge_forgets_the_size": (charged((0, 1), "alloc(2, 0)"), "Taken, 0 and 1 left", "Exhausted, 0 and 1 left"),
        "a_charge_of_all_that_remains_is_refused": (charged((0, 1), "alloc(1, 1)"), "Taken, 0 and 0 left", "Exhausted, 0 and 1 left"),
        "a_large_table_opens_with_less": (budget("for_table_bytes(524288).work"), "134217728", "134217472"),
        "a_refused_charge_takes_what_is_left": (charged((5, 7), "work(6)"), "Exhausted, 5 and 7 left", "Exhausted, 0 and 0 left"),
        "a_small_table_opens_with_one_less": (budget("for_table_bytes(0).work"), "4194304", "4194303"),
        "taken_is_said_of_what_was_refused": (budget("new(0, 0).work(1).charge.is_ok()"), "false", "true"),
        "the_bytes_open_with_the_work": (budget("new(1, 2)"), "Budget { work: 1, bytes: 2 }", "Budget { work: 1, bytes: 1 }"),
        "the_counters_are_swapped": (budget("new(1, 2)"), "Budget { work: 1, bytes: 2 }", "Budget { work: 2, bytes: 1 }"),
        "things_of_no_size_are_refused": (charged((0, 0), "alloc(1, 0)"), "Taken, 0 and 0 left", "Exhausted, 0 and 0 left"),
        "what_remains_cannot_all_be_taken": (charged((1, 0), "work(1)"), "Taken, 0 and 0 left", "Exhausted, 1 and 0 left"),
        "work_costs_nothing": (charged((1, 0), "work(1)"), "Taken, 0 and 0 left", "Taken, 1 and 0 left"),
    },
    "glyph": {
        "a_byte_of_props_is_the_syllable": (said("glyph::read(&[0, 0, 65536, 0], 0).syllable"), "1", "0"),
        "a_copied_glyph_is_one_word_four_times": (call("copied", [5, 1, 0, 0], 1), "[5, 1, 0, 0]", "[5, 5, 5, 5]"),
        "a_glyph_counts_as_three_words": (said("glyph::count(&[0; 12])"), "3", "4"),
        "a_pair_is_glyph_and_set": (said("glyph::in_set(&[3, 9], 3, 9)"), "true", "false"),
        "a_row_over_half_the_limit_is_refused": (
            match_input([0] * (LIMIT // 2 + 1), [], length=1), "Ok(Success { end: 1, total: 1 }), 1 at [0]", "Err(Refused(Shape)), 0 at []",
        ),
        "a_row_over_the_limit_is_taken": (
            match_input([0] * (LIMIT + 1), [], length=1), "Err(Refused(Shape)), 0 at []", "Ok(Success { end: 1, total: 1 }), 1 at [0]",
        ),
        "a_syllable_is_written_into_props": (
            call("written", "&mut [0; 4]", 0, "glyph::read(&[0, 0, 65536, 0], 0)"), "[0, 0, 65536, 0]", "[0, 0, 256, 0]",
        ),
        "an_odd_number_of_pairs_is_refused": (
            match_input([5], [], sets=(3, 9)), "Ok(Success { end: 1, total: 1 }), 1 at [0]", "Err(Refused(Shape)), 0 at []",
        ),
        "glyph_i_is_written_from_word_i_on": (
            call("written", "&mut [0; 8]", 1, "glyph::read(&[7, 0, 0, 0], 0)"), "[0, 0, 0, 0, 7, 0, 0, 0]", "[0, 7, 0, 0, 0, 0, 0, 0]",
        ),
        "onward_from_glyph_k_begins_at_word_k": (
            said("glyph::onward(&[5, 0, 0, 0, 7, 0, 0, 0], 1)"), "[7, 0, 0, 0]", "[0, 0, 0, 7, 0, 0, 0]",
        ),
    },
    "verdict": {
        "any_is_read_as_no_test": (may_match(9, test="verdict::Test::from(1)"), "Ok(Yes)", "Ok(Maybe)"),
        "gpos_is_read_as_gsub": (may_skip(glyph(9, flags=IGNORABLE + HIDDEN), gpos=True), "Ok(Maybe)", "Ok(No)"),
        "hidden_is_ignored_under_gsub": (may_skip(glyph(9, flags=IGNORABLE + HIDDEN), context=True), "Ok(No)", "Ok(Maybe)"),
        "syllables_are_tested_under_gpos": (
            may_match(glyph(7, syllable=2), syllable=1, gpos=True, syllables=True, context=True), "Ok(Yes)", "Ok(No)",
        ),
        "the_context_matcher_has_the_lookup_mask": (may_match(glyph(7, mask=2), mask=1, context=True), "Ok(Yes)", "Ok(No)"),
        "the_context_matcher_ignores_zwj_by_auto_zwj": (
            may_skip(glyph(9, flags=IGNORABLE + ZWJ), zwj=False, context=True), "Ok(Maybe)", "Ok(No)",
        ),
        "the_context_matcher_ignores_zwnj_under_both_alone": (
            may_skip(glyph(9, flags=IGNORABLE + ZWNJ), gpos=True, zwnj=False, context=True), "Ok(Maybe)", "Ok(No)",
        ),
        "the_input_matcher_has_all_mask_bits": (may_match(glyph(7, mask=2), mask=1), "Ok(No)", "Ok(Yes)"),
        "the_input_matcher_ignores_hidden_under_gsub": (may_skip(glyph(9, flags=IGNORABLE + HIDDEN)), "Ok(No)", "Ok(Maybe)"),
        "the_input_matcher_ignores_zwj_without_auto_zwj": (
            may_skip(glyph(9, flags=IGNORABLE + ZWJ), zwnj=True, zwj=False), "Ok(No)", "Ok(Maybe)",
        ),
        "the_input_matcher_ignores_zwnj_by_auto_zwnj": (
            may_skip(glyph(9, flags=IGNORABLE + ZWNJ), zwnj=True), "Ok(No)", "Ok(Maybe)",
        ),
        "the_input_matcher_tests_syllables_under_gpos": (
            may_match(glyph(7, syllable=2), syllable=1, gpos=True, syllables=True), "Ok(Yes)", "Ok(No)",
        ),
    },
    "verdict_skip": {
        "a_base_is_skipped_as_another_mark": (may_skip(glyph(9, props=BASE), props=0x100), "Ok(No)", "Ok(Yes)"),
        "bases_are_ignored_by_the_flag_for_ligatures": (may_skip(glyph(9, props=BASE), props=2), "Ok(Yes)", "Ok(No)"),
        "class_zero_is_asked": (may_skip(glyph(9, props=MARK + 0x100)), "Ok(No)", "Ok(Yes)"),
        "default_ignorables_are_not_ignorable": (may_skip(glyph(9, flags=IGNORABLE)), "Ok(Maybe)", "Ok(No)"),
        "hidden_goes_by_zwj": (may_skip(glyph(9, flags=IGNORABLE + HIDDEN), zwj=True), "Ok(No)", "Ok(Maybe)"),
        "ligatures_are_ignored_by_the_flag_for_marks": (may_skip(glyph(9, props=LIGATURE), props=4), "Ok(Yes)", "Ok(No)"),
        "marks_are_ignored_by_the_flag_for_bases": (may_skip(mark(9), props=8), "Ok(Yes)", "Ok(No)"),
        "marks_in_the_named_set_are_skipped": (may_skip(mark(9), props=0x30010, sets=(3, 9)), "Ok(No)", "Ok(Yes)"),
        "marks_of_the_class_asked_are_skipped": (may_skip(glyph(9, props=MARK + 0x100), props=0x100), "Ok(No)", "Ok(Yes)"),
        "the_class_is_asked_although_a_set_is_named": (may_skip(mark(8), props=0x30010, sets=(3, 9)), "Ok(Yes)", "Ok(No)"),
        "the_low_half_of_the_props_names_the_set": (may_skip(mark(9), props=0x30010, sets=(3, 9)), "Ok(No)", "Ok(Yes)"),
        "what_isnt_ignorable_is_skip_maybe": (may_skip(5), "Ok(No)", "Ok(Maybe)"),
        "zwj_goes_by_zwnj": (may_skip(glyph(9, flags=IGNORABLE + ZWJ), zwj=True), "Ok(Maybe)", "Ok(No)"),
        "zwnj_goes_by_zwj": (may_skip(glyph(9, flags=IGNORABLE + ZWNJ), zwj=True), "Ok(No)", "Ok(Maybe)"),
    },
    "verdict_match": {
        "a_glyph_of_another_syllable_isnt_ruled_out": (
            may_match(glyph(7, syllable=2), syllable=1, syllables=True), "Ok(No)", "Ok(Yes)",
        ),
        "a_maybe_is_taken_for_a_yes": (is_value(7, test=NOTHING), "false", "true"),
        "a_maybe_that_fails_stops": (
            match_input([5, glyph(9, flags=IGNORABLE), 7]), "Ok(Success { end: 3, total: 2 }), 2 at [0, 2]", "Err(Lost(2)), 0 at []",
        ),
        "a_maybe_that_matches_is_passed_over": (
            match_input([5, glyph(9, flags=IGNORABLE), 7], [9]), K1_ANSWER, "Err(Lost(3)), 0 at []",
        ),
        "a_no_is_taken_for_a_yes": (is_value(9), "false", "true"),
        "a_skip_yes_glyph_stops": (forward([5, mark(9), 7], props=8), "Ok(Found(2))", "Ok(Stopped(2))"),
        "any_is_no_test": (may_match(9, test=ANY), "Ok(Yes)", "Ok(Maybe)"),
        "no_test_is_a_yes": (may_match(7, test=NOTHING), "Ok(Maybe)", "Ok(Yes)"),
        "syllable_zero_is_tested": (may_match(glyph(7, syllable=2), syllable=0, syllables=True), "Ok(Yes)", "Ok(No)"),
        "syllables_are_tested_unasked": (may_match(glyph(7, syllable=2), syllable=1), "Ok(Yes)", "Ok(No)"),
        "the_mask_is_compared_with_the_value": (may_match(7), "Ok(Yes)", "Ok(No)"),
        "the_matchers_mask_isnt_looked_at": (may_match(glyph(7, mask=2), mask=1), "Ok(No)", "Ok(Yes)"),
        "what_is_ruled_out_is_maybe": (may_match(glyph(7, mask=2), mask=1), "Ok(No)", "Ok(Maybe)"),
    },
    "verdict_ask": {
        "a_place_at_the_rows_end_is_asked_about": (may_skip(5, place=1), "Err(IllShaped)", "stops"),
        "a_stop_is_said_of_what_is_refused": (verdict(5, place=1), "Err(IllShaped)", "Ok(NotMatch)"),
        "an_ill_shaped_row_is_asked_about": (may_skip(glyph(5) + [0]), "Err(IllShaped)", "Ok(No)"),
        "may_match_is_asked_without_the_syllable": (
            may_match(glyph(7, syllable=2), syllable=1, syllables=True), "Ok(No)", "Ok(Yes)",
        ),
        "no_match_is_said_of_what_is_refused": (may_match(5, place=1), "Err(IllShaped)", "Ok(No)"),
        "odd_mark_sets_are_taken": (may_skip(5, sets=(0,)), "Err(IllShaped)", "Ok(No)"),
        "skip_no_is_said_of_what_is_refused": (may_skip(5, place=1), "Err(IllShaped)", "Ok(No)"),
        "the_verdict_is_asked_without_the_syllable": (
            verdict(glyph(7, syllable=2), syllable=1, syllables=True), "Ok(NotMatch)", "Ok(Match)",
        ),
    },
    "walk_stretch": {
        "a_base_is_outside_the_set": (
            forward([5] + [mark(8)] * 16 + [5] + [mark(8)] * 7 + [7], props=0x30010, sets=(3, 9)), "Ok(Stopped(18))", "Ok(RanOut(26))",
        ),
        "a_block_has_the_bits_of_any_glyph": (
            forward([5] + [mark(9)] * 7 + [5] + [mark(9)] * 16 + [7], props=8), "Ok(Stopped(9))", "Ok(Found(25))",
        ),
        "a_digest_is_of_the_other_sets": (
            forward([5] + [mark(8)] * 8 + [mark(9)] * 16 + [7], props=0x30010, sets=(3, 9)), "Ok(Stopped(10))", "Ok(Found(25))",
        ),
        "a_long_walk_backward_begins_at_the_rows_start": (
            backward([mark(9)] * 36 + [5] + [mark(9)] * 3, 40, props=8), "Ok(Stopped(35))", "Ok(RanOut(0))",
        ),
        "a_long_walk_forward_begins_at_the_rows_end": (
            forward([5] + [mark(9)] * 3 + [5] + [mark(9)] * 36 + [7], props=8), "Ok(Stopped(5))", "Ok(Found(41))",
        ),
        "a_long_walk_has_half_the_sets": (
            backward([7] + [mark(9)] * 24, 25, props=0x30010, sets=(3, 8, 3, 9)), "Ok(Stopped(23))", "Ok(Found(0))",
        ),
        "marks_of_the_class_asked_are_passed": (
            forward([5] + [glyph(9, props=MARK + 0x100)] * 24 + [7], props=0x100), "Ok(Stopped(2))", "Ok(Found(25))",
        ),
        "the_last_glyph_of_a_block_isnt_looked_at": (
            forward([5] + [mark(9)] * 7 + [5] + [mark(9)] * 16 + [7], props=8), "Ok(Stopped(9))", "Ok(Found(25))",
        ),
        "what_the_digest_admits_is_outside": (
            forward([5] + [mark(9)] * 24 + [7], props=0x30010, sets=(3, 9)), "Ok(Stopped(2))", "Ok(Found(25))",
        ),
    },
    "walk": {
        "a_place_past_len_is_walked_from": (forward([5], place=1, length=0), "Err(IllShaped)", "Ok(RanOut(2))"),
        "a_stop_in_a_part_is_one_early": (forward_in_part([5]), "Stopped(1)", "Stopped(0)"),
        "backward_forgets_the_starting_syllable": (
            backward([glyph(7, syllable=2)], 1, syllable=1, syllables=True), "Ok(Stopped(0))", "Ok(Found(0))",
        ),
        "run_out_backward_the_extent_is_the_place": (backward([mark(9)], 1, props=8), "Ok(RanOut(0))", "Ok(RanOut(1))"),
        "the_extent_backward_is_the_place": (backward([5, 5], 1), "Ok(Stopped(0))", "Ok(Stopped(1))"),
        "the_extent_is_the_place_that_stopped": (forward([5, 5]), "Ok(Stopped(2))", "Ok(Stopped(1))"),
        "the_extent_of_running_out_is_the_length": (forward([5], place=1), "Ok(RanOut(2))", "Ok(RanOut(1))"),
        "the_first_tested_is_the_place_itself": (forward([7, 5]), "Ok(Stopped(2))", "Ok(Found(0))"),
    },
    "walker": {  # its steps are proved by hand, and there an edit can change only the contract (docs/DECISIONS.md)
        "a_new_walker_stands_at_the_rows_start": CONTRACT,
        "a_walker_that_was_stopped_goes_to_the_extent": (
            said(f"walker::Walker::new({rust(row([5, 5]))}, 0).follow(Ok(walk::Walked::Stopped(2))).place"), "0", "2",
        ),
        "follow_leaves_the_walker_where_it_stood": CONTRACT,
        "next_walks_backward": CONTRACT,
        "nth_leaves_out_a_step": (nth([5, 7, 7], 1), "Ok(Found(2))", "Ok(Found(1))"),
        "nth_refuses_where_a_step_finds_none": (nth([5, 5], 1), "Ok(Stopped(2))", "Err(IllShaped)"),
        "prev_walks_forward": CONTRACT,
        "reset_leaves_the_walker_where_it_stood": CONTRACT,
        "the_plain_step_walks_backward": CONTRACT,
    },
    "ligature": {
        "a_base_that_is_not_skipped_will_do": (match_input(MARKS_OF_TWO, done=[BASE_OF_MARKS]), "Err(Ligature), 0 at []", K1_ANSWER),
        "a_component_is_taken_for_the_base": (match_input(MARKS_OF_TWO, done=[BASE_OF_MARKS], props=4), K1_ANSWER, "Err(Ligature), 0 at []"),
        "a_later_glyph_may_have_another_component": (match_input(MARKS_OF_TWO), "Err(Ligature), 0 at []", K1_ANSWER),
        "an_attached_glyph_joins_a_first_of_no_ligature": (match_input([5, glyph(7, lig=1, comp=1)]), "Err(Ligature), 0 at []", K1_ANSWER),
        "the_rows_first_glyph_is_taken_for_the_base": (
            match_input(MARKS_OF_TWO, done=[2, BASE_OF_MARKS], props=4), K1_ANSWER, "Err(Ligature), 0 at []",
        ),
        "the_search_goes_past_another_id": (
            match_input(MARKS_OF_TWO, done=[glyph(2, props=LIGATURE, lig=2)], props=4), "Err(Ligature), 0 at []", K1_ANSWER,
        ),
        "where_no_base_is_found_any_glyph_joins": (match_input(MARKS_OF_TWO), "Err(Ligature), 0 at []", K1_ANSWER),
    },
    "matching": {
        "a_cursor_past_the_end_is_refused_by_1": (tape(frame([5], cursor=1)), "02", "01"),
        "a_refused_context_is_lost": (match_lookahead([5], 1, length=1, cursor=1), "Err(Refused(Cursor))", "Err(Lost(2))"),
        "every_context_is_refused_by_1": (match_lookahead([5], 1, length=1, cursor=1), "Err(Refused(Cursor))", "Err(Refused(Shape))"),
        "a_refused_input_is_lost": (match_input([5], length=1, cursor=1), "Err(Refused(Cursor)), 0 at []", "Err(Lost(2)), 0 at []"),
        "a_refused_input_is_the_ligature_rule": (match_input([5], length=1, cursor=1), "Err(Refused(Cursor)), 0 at []", "Err(Ligature), 0 at []"),
        "every_match_has_one_reply": (match_input([5, 7]), K1_ANSWER, "Err(Lost(1)), 0 at [] and an unused slot filled"),
        "number_4_is_taken_for_a_success": (
            desk_k11(number=4), "7, spent 0, d 0, idx 0, 0 at []", f"0, spent 1, d 4, idx {LIMIT}, 4 at [0, 1, 2, 3]",
        ),
        "the_cursor_glyph_is_tested": (match_input([5, 7]), K1_ANSWER, "Err(Lost(1)), 0 at []"),
        "the_end_is_the_texts": (
            match_input([5, 7, 9]), K1_ANSWER, "Ok(Success { end: 3, total: 2 }), 2 at [0, 1]",
        ),
        "the_ligature_refusal_has_an_extent": (match_input(MARKS_OF_TWO), "Err(Ligature), 0 at []", "Err(Lost(2)), 0 at []"),
        "the_rule_is_asked_of_the_cursors_glyph": (match_input(MARKS_OF_TWO), "Err(Ligature), 0 at []", K1_ANSWER),
        "the_total_forgets_the_cursors_count": (
            match_input([5], []), "Ok(Success { end: 1, total: 1 }), 1 at [0]", "Ok(Success { end: 1, total: 0 }), 1 at [0]",
        ),
        "the_total_takes_the_cursors_count_in_ligation": (
            match_input([glyph(5, count=2)], []), "Ok(Success { end: 1, total: 2 }), 1 at [0]", "Ok(Success { end: 1, total: 1 }), 1 at [0]",
        ),
    },
    "matching_context": {
        "backtrack_answers_how_many_values_matched": (match_backtrack([5], done=[7]), "Ok(0)", "Ok(1)"),
        "backtrack_has_the_input_matcher": (match_backtrack([5], done=[glyph(7, mask=2)], mask=1), "Ok(0)", "Err(Lost(0))"),
        "backtrack_runs_out_with_an_extent_of_1": (match_backtrack([5]), "Err(Lost(0))", "Err(Lost(1))"),
        "lookahead_counts_a_stop_in_its_part": (match_lookahead([5, 6], 1), "Err(Lost(2))", "Err(Lost(1))"),
        "lookahead_counts_its_end_in_its_part": (match_lookahead([5, 7], 1), "Ok(2)", "Ok(1)"),
        "lookahead_counts_running_out_in_its_part": (match_lookahead([5, 7], 1, [7, 7]), "Err(Lost(2))", "Err(Lost(1))"),
        "lookahead_has_the_input_matcher": (match_lookahead([5, glyph(7, mask=2)], 1, mask=1), "Ok(2)", "Err(Lost(2))"),
        "lookahead_starts_one_late": (match_lookahead([5, 7], 1), "Ok(2)", "Err(Lost(2))"),
        "the_backward_row_of_gpos_is_done": (match_backtrack([7, 5], cursor=1, gpos=True), "Ok(0)", "Err(Lost(0))"),
    },
    "matching_refuse": {
        "a_start_of_1_is_refused_by_6": (match_lookahead([5, 7], 1), "Ok(2)", "Err(Refused(Start))"),
        "context_refuses_64_values": (match_backtrack([5], [7] * 64), "Err(Lost(0))", "Err(Refused(Values))"),
        "everything_is_refused": (match_input([5, 7]), K1_ANSWER, "Err(Refused(Shape)), 0 at []"),
        "input_takes_64_values": (match_input([5], [7] * 64), "Err(Refused(Values)), 0 at []", "Err(Lost(1)), 0 at []"),
        "the_cursor_is_tested_before_the_shape": (
            match_input([5], length=2, cursor=2), "Err(Refused(Shape)), 0 at []", "Err(Refused(Cursor)), 0 at []",
        ),
    },
    "matching_calls": {
        "backtrack_takes_len_for_d": (match_backtrack([5, 6], done=[7, 8], d=1), "Ok(0)", "Err(Lost(0))"),
        "backtrack_takes_syllable_0_for_the_cursors": (
            match_backtrack([glyph(5, syllable=1)], done=[glyph(7, syllable=2)], syllables=True), "Err(Lost(0))", "Ok(0)",
        ),
        "input_goes_past_len": (match_input([5, 7], length=1), "Err(Lost(1)), 0 at []", K1_ANSWER),
        "lookahead_goes_past_len": (match_lookahead([5, 7], 1, length=1), "Err(Lost(1))", "Ok(2)"),
        "lookahead_takes_syllable_0_for_the_cursors": (
            match_lookahead([glyph(5, syllable=1), glyph(7, syllable=2)], 1, syllables=True), "Err(Lost(2))", "Ok(2)",
        ),
        "slots_stay_filled_after_a_refusal": (
            match_input([5], cursor=1), "Err(Refused(Cursor)), 0 at []", "Err(Refused(Cursor)), 0 at [] and an unused slot filled",
        ),
        "the_search_for_a_base_goes_past_d": (
            match_input([glyph(5, lig=1, comp=1), glyph(7, lig=1, comp=2)], done=[mark(2, lig=1)], d=0, props=8), "Err(Ligature), 0 at []", K1_ANSWER,
        ),
    },
    "text": {
        "a_coming_row_of_another_length_is_taken": (k11(coming_words=WORDS * (LIMIT + 1)), "refused for its Shape, no word changed", K11_ANSWER),
        "a_cursor_at_the_end_is_taken": (
            run([], [], [], places=[LIMIT]), "refused for its Cursor, no word changed", "refused for its Match, no word changed",
        ),
        "a_done_row_of_another_length_is_taken": (k11(done_words=WORDS * (LIMIT + 1)), "refused for its Shape, no word changed", K11_ANSWER),
        "a_move_forth_takes_d_glyphs": (
            one_glyph(),
            f"Finished, spent 0, d 1, idx {LIMIT}, 1 at [0], text 5",
            f"Finished, spent 0, d 1, idx {LIMIT - 1}, 1 at [0], text 5 5",
        ),
        "a_text_over_the_limit_is_taken": (
            run([5], [], [], d=1, idx=0, places=[0], end=1),
            "refused for its Shape, no word changed",
            f"Finished, spent 0, d 2, idx 1, 1 at [1], text of {LIMIT + 1} glyphs",
        ),
        "a_written_glyph_keeps_its_id": (
            one_glyph([(0, 0)], lookup(KIND_1, 5, 7)),
            f"Finished, spent 1, d 1, idx {LIMIT}, 1 at [0], text 7",
            f"Finished, spent 1, d 1, idx {LIMIT}, 1 at [0], text 5",
        ),
        "a_written_glyph_loses_its_mask": (
            one_glyph([(0, 0)], lookup(KIND_1, 5, 7)),
            f"Finished, spent 1, d 1, idx {LIMIT}, 1 at [0], text 7",
            f"Finished, spent 1, d 1, idx {LIMIT}, 1 at [0], text [5, 7, 0, 257]",
        ),
        "d_past_its_row_is_refused_by_2": (
            k11(d=LIMIT + 1, idx=LIMIT + 1, places=[LIMIT - 3, LIMIT - 2, LIMIT - 1]),
            "refused for its Shape, no word changed",
            "refused for its Cursor, no word changed",
        ),
        "full_is_judged_at_half_the_limit": (
            run([5] * (LIMIT // 2), lookup(KIND_2, 5, 2, 5, 5), [(0, 0)], places=[LIMIT // 2], end=LIMIT // 2 + 1),
            f"Finished, spent 1, d 2, idx {LIMIT // 2 + 1}, 2 at [0, 1], text of {LIMIT // 2 + 1} glyphs",
            f"Full, spent 1, d 0, idx {LIMIT // 2}, 1 at [0], text of {LIMIT // 2} glyphs",
        ),
        "full_is_judged_one_glyph_late": (
            run([5] * LIMIT, lookup(KIND_2, 5, 2, 5, 5), [(0, 0)], places=[0], end=1),
            f"Full, spent 1, d 0, idx 0, 1 at [0], text of {LIMIT} glyphs",
            f"Finished, spent 1, d 2, idx 1, 2 at [0, 1], text of {LIMIT + 1} glyphs",
        ),
        "leaves_the_cursor_before_what_it_wrote": (
            k11(),
            K11_ANSWER,
            f"Finished, spent 1, d 3, idx {LIMIT}, 3 at [0, 1, 2], text 1 2 3",
        ),
        "leaves_what_is_before_the_cursor": (
            one_glyph(),
            f"Finished, spent 0, d 1, idx {LIMIT}, 1 at [0], text 5",
            f"Finished, spent 0, d 1, idx {LIMIT}, 1 at [0], text 5, cells left",
        ),
        "no_cell_is_cleared": (k11(), K11_ANSWER, K11_ANSWER + ", cells left"),
    },
    "book": {
        "a_chain_acts_by_itself": (
            one_glyph([(0, 0)], chain(5, records=[(0, 1)]) + lookup(KIND_1, 5, 7), allowance=2, depth=2),
            f"Finished, spent 2, d 1, idx {LIMIT}, 1 at [0], text 7",
            f"Finished, spent 1, d 1, idx {LIMIT}, 1 at [0], text 5",
        ),
        "a_lookup_that_isnt_there_is_a_chain": (said("book::is_chain(None)"), "false", "true"),
        "a_word_over_reads": (call("lookups", [3, 0, 0, 6, 5, 0, 0, 0, 0, 9]), "doesn't read", "props 0, a chain on 5, records []"),
        "kind_4_reads": (call("lookups", [4, 0, 0, 5, 5, 0, 0, 0, 0]), "doesn't read", "props 0, a chain on 5, records []"),
        "nine_ids_read": (
            call("lookups", lookup(KIND_2, 5, 9, *range(1, 10))), "doesn't read", "props 0, 5 to [1, 2, 3, 4, 5, 6, 7, 8, 9]",
        ),
        "seventeen_records_read": (
            call("lookups", chain(5, records=[(0, 0)] * 17)), "doesn't read", f"props 0, a chain on 5, records {[0] * 34}",
        ),
        "the_halves_of_props_are_swapped": (
            call("lookups", chain(5, props=8)), "props 8, a chain on 5, records []", "props 524288, a chain on 5, records []",
        ),
        "the_records_part_has_half_its_words": (
            call("lookups", chain(5, records=[(0, 0)])), "props 0, a chain on 5, records [0, 0]", "doesn't read",
        ),
    },
    "book_index": {
        "a_book_of_256_lookups_is_refused": (said(call("book_index::reads", lookup(KIND_1, 6, 9) * 256)), "true", "false"),
        "a_book_of_4097_words_reads": (said(call("book_index::reads", chain(5, backtrack=[1] * 8) * 241)), "false", "true"),
        "a_slots_number_is_taken_for_its_start": (
            call("lookups", lookup(KIND_1, 6, 9) + lookup(KIND_1, 7, 8)), "props 0, 6 to 9; props 0, 7 to 8", "props 0, 6 to 9; missing",
        ),
    },
    "run": {
        "an_unreadable_book_is_refused_by_12": (
            desk_k11(book=[0]), "11, spent 0, d 0, idx 0, 0 at []", "12, spent 0, d 0, idx 0, 0 at []",
        ),
        "deep_moves_to_the_end": (
            k11(depth=0),
            f"Deep, spent 0, d 1, idx {LIMIT - 2}, 3 at [0, 1, 2], text 1 2 3",
            f"Deep, spent 0, d 3, idx {LIMIT}, 3 at [0, 1, 2], text 1 2 3",
        ),
        "short_is_answered_as_9": (
            desk_k11(allowance=0), f"8, spent 0, d 3, idx {LIMIT}, 3 at [0, 1, 2]", f"9, spent 0, d 3, idx {LIMIT}, 3 at [0, 1, 2]",
        ),
        "short_stays_where_it_stopped": (
            k11(allowance=0),
            f"Short, spent 0, d 3, idx {LIMIT}, 3 at [0, 1, 2], text 1 2 3",
            f"Short, spent 0, d 1, idx {LIMIT - 2}, 3 at [0, 1, 2], text 1 2 3",
        ),
    },
    "run_positions": {
        "a_level_stops_past_63": (
            run([2] * 63, K11_BOOK, [(0, 0)]),
            f"Finished, spent 1, d 64, idx {LIMIT}, 64 at {list(range(64))}, text of 64 glyphs",
            f"Finished, spent 1, d 64, idx {LIMIT}, 63 at {list(range(63))}, text of 64 glyphs",
        ),
        "a_loss_drops_the_records_own_position": (
            k11([1, 2, 9, 3], lookup(KIND_2, 2, 0), places=[LIMIT - 4, LIMIT - 3, LIMIT - 1]),
            f"Finished, spent 1, d 3, idx {LIMIT}, 2 at [0, 1], text 1 9 3",
            f"Finished, spent 1, d 3, idx {LIMIT}, 2 at [0, 2], text 1 9 3",
        ),
        "later_positions_rise_by_the_records_index": (
            run([2, 3], K11_BOOK, [(0, 0)]),
            f"Finished, spent 1, d 3, idx {LIMIT}, 3 at [0, 1, 2], text 2 2 3",
            f"Finished, spent 1, d 3, idx {LIMIT}, 3 at [0, 1, 1], text 2 2 3",
        ),
        "the_end_goes_before_the_record": (
            run([9, 2, 2], lookup(KIND_2, 2, 0), [(1, 0), (1, 0)], places=[LIMIT - 3, LIMIT - 2], end=LIMIT - 1, allowance=2),
            f"Finished, spent 2, d 1, idx {LIMIT}, 2 at [0, 1], text 9",
            f"Finished, spent 2, d 0, idx {LIMIT - 1}, 2 at [0, 1], text 9",
        ),
        "the_end_is_counted_in_coming": (
            run([5] * (LIMIT - 1), [], [], places=[1], end=2),
            f"Finished, spent 0, d 1, idx 2, 1 at [0], text of {LIMIT - 1} glyphs",
            f"Finished, spent 0, d 2, idx 3, 1 at [0], text of {LIMIT - 1} glyphs",
        ),
    },
    "run_chain_match": {
        "a_chain_is_matched_with_all_mask_bits": (
            run([5, glyph(6, mask=2)], chain(5, input=[6], records=[(0, 1)]) + lookup(KIND_1, 5, 9), [(0, 0)], allowance=2, depth=2),
            f"Finished, spent 1, d 2, idx {LIMIT}, 2 at [0, 1], text 5 [6, 2, 0, 257]",
            f"Finished, spent 2, d 2, idx {LIMIT}, 2 at [0, 1], text 9 [6, 2, 0, 257]",
        ),
        "a_chain_starts_lookahead_at_the_cursor": (
            run([5, 6, 7], chain(5, input=[6], lookahead=[7], records=[(0, 1)]) + lookup(KIND_1, 5, 8), [(0, 0)], allowance=2, depth=2),
            f"Finished, spent 2, d 3, idx {LIMIT}, 3 at [0, 1, 2], text 8 6 7",
            f"Finished, spent 1, d 3, idx {LIMIT}, 3 at [0, 1, 2], text 5 6 7",
        ),
        "a_chain_takes_any_glyph_for_its_backtrack": (
            run([5], chain(5, backtrack=[6], records=[(0, 1)]) + lookup(KIND_1, 5, 8), [(0, 0)], done=[9], allowance=2, depth=2),
            f"Finished, spent 1, d 2, idx {LIMIT}, 1 at [1], text 9 5",
            f"Finished, spent 2, d 2, idx {LIMIT}, 1 at [1], text 9 8",
        ),
        "a_chain_takes_any_glyph_for_its_first": (
            run([9, 6], chain(5, input=[6], records=[(0, 1)]) + lookup(KIND_1, 9, 8), [(0, 0)], allowance=2, depth=2),
            f"Finished, spent 1, d 2, idx {LIMIT}, 2 at [0, 1], text 9 6",
            f"Finished, spent 2, d 2, idx {LIMIT}, 2 at [0, 1], text 8 6",
        ),
        "a_chain_takes_any_glyph_for_its_lookahead": (
            run(
                [5, 6],
                chain(5, lookahead=[7], records=[(0, 1)]) + lookup(KIND_1, 5, 8),
                [(0, 0)],
                places=[LIMIT - 2],
                end=LIMIT - 1,
                allowance=2,
                depth=2,
            ),
            f"Finished, spent 1, d 1, idx {LIMIT - 1}, 1 at [0], text 5 6",
            f"Finished, spent 2, d 1, idx {LIMIT - 1}, 1 at [0], text 8 6",
        ),
        "a_lookup_that_isnt_there_opens_a_level": (aims_without_entry([5]), "false", "true"),
    },
    "run_step": {
        "a_parted_run_says_what_is_left_as_spent": (
            k11(), K11_ANSWER, f"Finished, spent 0, d 4, idx {LIMIT}, 4 at [0, 1, 2, 3], text 1 2 2 3",
        ),
        "a_position_at_the_texts_length_is_taken": (
            run([1], lookup(KIND_2, 1, 0), [(0, 0), (0, 0)]),
            f"Finished, spent 1, d 0, idx {LIMIT}, 1 at [0], text of 0 glyphs",
            f"Short, spent 1, d 0, idx {LIMIT}, 1 at [0], text of 0 glyphs",
        ),
        "a_sequence_index_at_the_count_is_taken": (
            k11(records=[(3, 0)]),
            f"Finished, spent 0, d 3, idx {LIMIT}, 3 at [0, 1, 2], text 1 2 3",
            f"Finished, spent 1, d 3, idx {LIMIT}, 3 at [0, 1, 2], text 1 2 3",
        ),
        "a_stop_invents_the_number_spent": (
            k11(depth=0),
            f"Deep, spent 0, d 1, idx {LIMIT - 2}, 3 at [0, 1, 2], text 1 2 3",
            f"Deep, spent 1, d 1, idx {LIMIT - 2}, 3 at [0, 1, 2], text 1 2 3",
        ),
        "a_try_spends_two": (
            k11(),
            K11_ANSWER,
            f"Finished, spent 2, d 4, idx {LIMIT}, 4 at [0, 1, 2, 3], text 1 2 2 3",
        ),
        "all_runs_are_short": (
            k11(),
            K11_ANSWER,
            f"Short, spent 0, d 3, idx {LIMIT}, 3 at [0, 1, 2], text 1 2 3",
        ),
        "no_allowance_is_answered_as_deep": (
            k11(allowance=0, depth=0),
            f"Short, spent 0, d 3, idx {LIMIT}, 3 at [0, 1, 2], text 1 2 3",
            f"Deep, spent 0, d 1, idx {LIMIT - 2}, 3 at [0, 1, 2], text 1 2 3",
        ),
        "short_counts_as_finished": (
            k11(allowance=0),
            f"Short, spent 0, d 3, idx {LIMIT}, 3 at [0, 1, 2], text 1 2 3",
            f"Finished, spent 0, d 3, idx {LIMIT}, 3 at [0, 1, 2], text 1 2 3",
        ),
    },
    "run_act": {
        "a_lookup_that_isnt_there_costs_nothing": (
            run([1], lookup(KIND_1, 1, 2), [(0, 1)]),
            f"Finished, spent 1, d 1, idx {LIMIT}, 1 at [0], text 1",
            f"Finished, spent 0, d 1, idx {LIMIT}, 1 at [0], text 1",
        ),
        "a_lookup_that_isnt_there_ends_the_run": (
            run([1], lookup(KIND_1, 1, 2), [(0, 1), (0, 0)], allowance=2),
            f"Finished, spent 2, d 1, idx {LIMIT}, 1 at [0], text 2",
            f"Full, spent 1, d 0, idx {LIMIT - 1}, 1 at [0], text 1",
        ),
        "full_writes_all_the_same": (
            run([2] * LIMIT, K11_BOOK, [(0, 0)], places=[0], end=1),
            f"Full, spent 1, d 0, idx 0, 1 at [0], text of {LIMIT} glyphs",
            f"Finished, spent 1, d 2, idx 1, 2 at [0, 1], text of {LIMIT + 1} glyphs",
        ),
        "kind_1_touches_nothing": (
            run([1], lookup(KIND_1, 1, 2), [(0, 0)]),
            f"Finished, spent 1, d 1, idx {LIMIT}, 1 at [0], text 2",
            f"Finished, spent 1, d 1, idx {LIMIT}, 1 at [0], text 1",
        ),
        "kind_2_touches_nothing": (k11(), K11_ANSWER, f"Finished, spent 1, d 3, idx {LIMIT}, 3 at [0, 1, 2], text 1 2 3"),
    },
    "run_cycle": {
        "a_lookup_past_the_last_is_found": (
            run([1], lookup(KIND_1, 1, 2), [(0, 1)]),
            f"Finished, spent 1, d 1, idx {LIMIT}, 1 at [0], text 1",
            f"Finished, spent 1, d 1, idx {LIMIT}, 1 at [0], text 2",
        ),
        "a_lookup_that_acts_is_lost": (
            run([1], lookup(KIND_1, 1, 2), [(0, 0)]),
            f"Finished, spent 1, d 1, idx {LIMIT}, 1 at [0], text 2",
            f"Finished, spent 1, d 1, idx {LIMIT}, 1 at [0], text 1",
        ),
        "a_chain_that_matches_does_nothing": (
            run([5, 6], chain(5, records=[(0, 1)]) + lookup(KIND_1, 5, 9), [(0, 0)], allowance=2, depth=2),
            f"Finished, spent 2, d 2, idx {LIMIT}, 2 at [0, 1], text 9 6",
            f"Finished, spent 1, d 2, idx {LIMIT}, 2 at [0, 1], text 5 6",
        ),
        "all_records_count_as_done_after_the_first": (
            run([1, 1], lookup(KIND_1, 1, 2), [(0, 0), (1, 0)], allowance=2),
            f"Finished, spent 2, d 2, idx {LIMIT}, 2 at [0, 1], text 2 2",
            f"Finished, spent 1, d 2, idx {LIMIT}, 2 at [0, 1], text 2 1",
        ),
        "every_record_does_the_first_lookup": (
            run([1], lookup(KIND_1, 1, 2) + lookup(KIND_1, 1, 3), [(0, 1)]),
            f"Finished, spent 1, d 1, idx {LIMIT}, 1 at [0], text 3",
            f"Finished, spent 1, d 1, idx {LIMIT}, 1 at [0], text 2",
        ),
        "positions_are_not_repaired": (
            k11(),
            K11_ANSWER,
            f"Finished, spent 1, d 3, idx {LIMIT - 1}, 3 at [0, 1, 2], text 1 2 2 3",
        ),
    },
    "run_refuse": {
        "a_depth_of_65_is_run": (k11(depth=65), "refused for its Limits, no word changed", K11_ANSWER),
        "a_match_may_begin_after_the_cursor": (
            k11(records=[(0, 0)], places=[LIMIT - 2, LIMIT - 1]),
            "refused for its Match, no word changed",
            f"Finished, spent 1, d 4, idx {LIMIT}, 3 at [1, 2, 3], text 1 2 2 3",
        ),
        "a_position_at_the_end_is_run": (
            k11(end=LIMIT - 1),
            "refused for its Match, no word changed",
            f"Finished, spent 1, d 3, idx {LIMIT - 1}, 4 at [0, 1, 2, 3], text 1 2 2 3",
        ),
        "a_run_looks_at_the_limits_before_the_cursor": (
            k11(idx=LIMIT, depth=65), "refused for its Cursor, no word changed", "refused for its Limits, no word changed",
        ),
        "a_run_looks_at_the_limits_before_the_shape": (
            k11(records=[1], depth=65), "refused for its Shape, no word changed", "refused for its Limits, no word changed",
        ),
        "a_run_takes_odd_mark_sets": (k11(sets=[0]), "refused for its Shape, no word changed", K11_ANSWER),
        "an_allowance_of_2147483648_is_run": (k11(allowance=2147483648), "refused for its Limits, no word changed", K11_ANSWER),
        "odd_records_are_run": (k11(records=[1, 0, 1]), "refused for its Shape, no word changed", K11_ANSWER),
        "seventeen_records_are_run": (
            k11(records=[(1, 0)] + [(9, 0)] * 16), "refused for its Shape, no word changed", K11_ANSWER,
        ),
        "two_equal_positions_are_run": (
            k11(places=[LIMIT - 3, LIMIT - 3, LIMIT - 1]),
            "refused for its Match, no word changed",
            f"Finished, spent 1, d 3, idx {LIMIT}, 3 at [0, 0, 2], text 1 2 3",
        ),
    },
    "run_calls": {
        "a_long_book_is_refused_before_the_limits": (
            k11(book=[0] * 4097, depth=65), "refused for its Limits, no word changed", "refused for its Book, no word changed",
        ),
        "a_lost_match_is_run": (k11(answer="Err(matching::NoMatch::Lost({}))"), "refused for its Match, no word changed", K11_ANSWER),
        "an_unreadable_book_is_a_bad_match": (
            k11(book=[0]), "refused for its Book, no word changed", "refused for its Match, no word changed",
        ),
        "cells_are_cleared_by_the_first_place": (
            k11(),
            K11_ANSWER,
            f"Finished, spent 1, d 4, idx {LIMIT}, 4 at [0, 1, 2, 3], text {' '.join(['[0, 0, 0, 0]'] * 4)}, cells left",
        ),
        "without_allowance_the_book_is_not_read": (
            k11(book=[0], count=0, allowance=0), "refused for its Book, no word changed", "refused for its Match, no word changed",
        ),
    },
    "run_record_structs": {
        "each_record_is_read_as_the_first": (
            k11([1, 1], lookup(KIND_1, 1, 2), [(0, 0), (1, 0)], allowance=2, how=STRUCTS),
            f"Finished, spent 2, d 2, idx {LIMIT}, 2 at [0, 1], text 2 2",
            f"Finished, spent 2, d 2, idx {LIMIT}, 2 at [0, 1], text 2 1",
        ),
        "no_record_is_run": (k11(how=STRUCTS), K11_ANSWER, f"Finished, spent 0, d 3, idx {LIMIT}, 3 at [0, 1, 2], text 1 2 3"),
        "sequence_and_lookup_are_swapped": (k11(how=STRUCTS), K11_ANSWER, f"Finished, spent 1, d 3, idx {LIMIT}, 3 at [0, 1, 2], text 1 2 3"),
        "seventeen_records_are_accepted": (
            k11(records=[(1, 0)] * 17, allowance=17, how=STRUCTS),
            "refused for its Shape, no word changed",
            f"Finished, spent 16, d 19, idx {LIMIT}, 19 at {list(range(19))}, text of 19 glyphs",
        ),
        "the_first_record_is_forgotten": (
            k11([1, 1], lookup(KIND_1, 1, 2), [(0, 0), (1, 0)], allowance=2, how=STRUCTS),
            f"Finished, spent 2, d 2, idx {LIMIT}, 2 at [0, 1], text 2 2",
            f"Finished, spent 1, d 2, idx {LIMIT}, 2 at [0, 1], text 1 2",
        ),
    },
    "tape_frame": {
        "GPOS_is_read_as_GSUB": (
            tape(frame([5, glyph(9, flags=IGNORABLE + ZWNJ), 7], table="GPOS")), "00000300020200000002", "040002",
        ),
        "a_65th_record_is_accepted": (tape(frame([glyph(0, mask=0, count=0, ligated=0)] * 65, values=[])), "FF", "stops"),
        "settings_bit_8_is_accepted": (tape(frame([5, 7], settings=8)), "FF", "00000200020200000001"),
        "the_count_of_coming_is_dones": (tape(T1), "00000200020200000001", "FF"),
        "the_cursor_is_little_endian": (tape(T1), "00000200020200000001", "FF"),
    },
    "tape_decode": {
        "a_CR_is_taken_for_a_digit": (tape(T1[:-1] + "\r"), "FF", "00000200110200000001"),
    },
    "tape_answer": {
        "a_broken_ligature_rule_answers_04": (tape(frame([glyph(5, lig=1, comp=1), glyph(7, lig=1, comp=2)])), "05", "04"),
        "an_extent_is_missing_after_04": (tape(frame([5])), "040001", "040000"),
    },
    "tape_feed": {
        "a_CR_ends_a_line": (tape(T1), "00000200020200000001", "FF"),
        "a_line_that_is_no_frame_answers_00": (tape(""), "FF", "00"),
        "a_line_begins_with_a_byte": (feed(T1), f'place {len(T1) + 1}, "00000200020200000001\\n"', f'place {len(T1) + 1}, "FF\\n"'),
        "a_line_begins_full": (feed(T1), f'place {len(T1) + 1}, "00000200020200000001\\n"', f'place {len(T1) + 1}, "FF\\n"'),
        "a_line_begins_anew_in_each_piece": (reads("tape_in_reads", T1[:56], T1[56:] + "\n"), "00000200020200000001", "FF"),
        "a_line_keeps_a_byte_of_the_last": (call("kept", b"ab", b"c"), "c", "ac"),
        "half_a_line_is_kept": (call("kept", b"abcd", b"e"), "e", "abe"),
        "every_byte_is_kept_at_the_front": (tape(T1), "00000200020200000001", "FF"),
        "more_than_the_line_is_handed_on": (tape(T1), "00000200020200000001", "00000200020200000001 FF"),
        "nothing_of_a_line_is_handed_on": (reads("tape_in_reads", T1), "00000200020200000001", ""),
        "the_next_line_begins_with_a_byte_of_the_last": (
            tape(T1 + "\n" + T1), "00000200020200000001 00000200020200000001", "00000200020200000001 FF FF",
        ),
        "what_a_piece_leaves_is_forgotten": (reads("tape_in_reads", T1), "00000200020200000001", ""),
        "the_byte_after_the_longest_frame_is_forgotten": (tape(LONGEST + "0"), "FF", "03"),
        "feed_stops_though_an_answer_has_room": (feed(""), 'place 1, "FF\\n"', 'place 0, ""'),
    },
    "bench_tape": {
        "a_byte_is_written_before_the_answers": (tape(T1), "00000200020200000001", "\x0000000200020200000001"),
        "a_failed_write_counts_as_written": (
            reads("tape_to_full_device", T1 + "\n", T1 + "\n"),
            "bench_tape: answers could not be written",
            "bench_tape: answers could not be written bench_tape: answers could not be written",
        ),
        "a_last_line_of_one_byte_has_no_answer": (reads("tape_in_reads", "G"), "FF", ""),
        "a_part_gives_up": (tape(T1), "00000200020200000001", ""),
        "a_piece_gives_up": (tape(T1), "00000200020200000001", ""),
        "a_read_with_bytes_is_the_last": (
            reads("tape_in_reads", T1 + "\n", T1 + "\n"), "00000200020200000001 00000200020200000001", "00000200020200000001",
        ),
        "answers_are_tried_behind_a_lost_one": (
            "tape_to_full_device(&[&vec![b'\\n'; 65536][..]])",
            "bench_tape: answers could not be written",
            " ".join(["bench_tape: answers could not be written"] * 4),
        ),
        "the_line_is_forgotten_after_a_piece": (reads("tape_in_reads", T1[:56], T1[56:] + "\n"), "00000200020200000001", "FF"),
        "what_has_no_room_is_lost": ("empty_lines(65536)", "65536 times FF", "21756 times FF"),
    },
    "explain_line": {
        "every_second_byte_is_left_out": (call("put", b"ab", 2, 0), "end 2, ab", "end 2, a."),
        "g_is_taken_for_a_digit": (said('explain_line::why_none(b"4g")'), "NotDigit(1)", "OtherFault"),
        "the_first_byte_is_blamed": (said('explain_line::why_none(b"4x")'), "NotDigit(1)", "NotDigit(0)"),
        "the_first_byte_is_put_again": (call("put", b"ab", 3, 1), "end 3, .ab", "end 3, .aa"),
        "the_next_words_cover_the_last": (call("put", b"ab", 4, 2), "end 4, ..ab", "end 2, ..ab"),
        "words_are_put_past_the_line": (call("put", b"ab", 3, 1), "end 3, .ab", "stops"),
    },
    "explain_glyph": {
        "a_class_is_blamed_where_a_set_is_named": (
            tell(5, glyph(9, props=MARK), props=0x10),
            "Yes OutsideSet, No OtherId, Skip, Passed",
            "Yes OtherClass, No OtherId, Skip, Passed",
        ),
        "a_glyph_that_stops_is_passed_over": (
            tell(5, 9), "No NotIgnorable, No OtherId, NotMatch, Stopped", "No NotIgnorable, No OtherId, NotMatch, Passed",
        ),
        "flag_8_is_blamed_for_a_ligature": (
            tell(5, glyph(9, props=LIGATURE), props=4),
            "Yes IgnoredLigature, No OtherId, Skip, Passed",
            "Yes IgnoredMark, No OtherId, Skip, Passed",
        ),
        "syllable_zero_is_blamed": (
            tell(5, glyph(7, syllable=1), syllables=True),
            "No NotIgnorable, Yes EqualId, Match, Taken",
            "No NotIgnorable, Yes OtherSyllable, Match, Taken",
        ),
        "the_starting_syllable_is_the_glyphs_own": (
            tell(glyph(5, syllable=1), glyph(7, syllable=2), syllables=True),
            "No NotIgnorable, No OtherSyllable, NotMatch, Stopped",
            "No NotIgnorable, Yes EqualId, Match, Taken",
        ),
        "the_verdict_is_told_without_the_syllable": (
            tell(glyph(5, syllable=1), glyph(7, syllable=2), syllables=True),
            "No NotIgnorable, No OtherSyllable, NotMatch, Stopped",
            "No NotIgnorable, No OtherSyllable, Match, Taken",
        ),
    },
    "desk": {
        "a_run_answers_d_for_idx": (
            desk_k11(), f"0, spent 1, d 4, idx {LIMIT}, 4 at [0, 1, 2, 3]", "0, spent 1, d 4, idx 4, 4 at [0, 1, 2, 3]",
        ),
        "a_union_forgets_the_other": ("desk_union([0, 0, 0], [1, 1, 1])", "[1, 1, 1]", "[0, 0, 0]"),
        "the_extent_is_lost": (call("desk_input", row([5]), [7]), "4, end 1, total 0, 0 at []", "4, end 0, total 0, 0 at []"),
    },
    "stored": {
        "a_count_goes_up_by_two": (said("{ let mut n = 0; stored::add_one(&mut n); n }"), "1", "2"),
        "a_count_stays": (said("{ let mut n = 0; stored::add_one(&mut n); n }"), "1", "0"),
        "a_word_is_one_before_it_is_read": (said("stored::word_room()[0]"), "0", "1"),
        "the_last_word_is_one": (said("stored::word_room()[stored::WORDS_OF_A_LIST - 1]"), "0", "1"),
        "a_is_eleven": (call("decoded", b"0000000A "), "[10]", "[11]"),
        "the_first_line_stands_at_one": (call("replayed", [2, 1, 1]), "[0, 2]", "[1, 2]"),
        "the_same_line_is_replayed_again": (call("replayed", [2, 1, 1]), "[0, 2]", "[0, 0, 0]"),
        "words_stand_eight_bytes_apart": (call("decoded", b"00000001 00000002 "), "[1, 2]", "[1, 0]"),
    },
}
