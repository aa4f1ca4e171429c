//! Stand-in for ot/lookup/build.rs: makes cached lookups from a book whose
//! subtables are OpenType bytes. Kinds: 1 single, 2 multiple, 3 chain by
//! glyphs; 0 stands for an index that isn't in the book.
use super::*;
use read_fonts::tables::{gsub as g, layout as l};
use read_fonts::ReadError;

pub fn lookup_count(tables: &Tables, _: bool) -> u16 {
    tables.0.len() as u16
}

pub fn build_lookup<'a>(
    tables: &'a Tables,
    is_subst: bool,
    index: u16,
    budget: &Budget,
) -> Result<CachedLookup<'a>, Exhausted> {
    let (props, kind, bytes) = &tables.0[usize::from(index)];
    let data = FontData::new(bytes);
    let subtable = match kind {
        0 => {
            return Ok(CachedLookup {
                props: *props,
                is_subst,
                is_reversed: false,
                digest: SetDigest::new(),
                digest_second: SetDigest::full(),
                hot_subtable: None,
                uses_class_cache: false,
                walk: hooked_walk,
                subtables: vec![],
            })
        }
        1 => subtable(gsub::SingleSubst2::new(&g::SingleSubstFormat2(data)), data, budget)?,
        2 => subtable(gsub::MultipleSubst1::new(&g::MultipleSubstFormat1(data)), data, budget)?,
        3 => subtable(
            context::ChainContext1::new(&l::ChainedSequenceContextFormat1(data)),
            data,
            budget,
        )?,
        _ => return Err(Exhausted),
    };
    Ok(CachedLookup {
        props: *props,
        is_subst,
        is_reversed: false,
        digest: subtable.digest.clone(),
        digest_second: SetDigest::full(),
        hot_subtable: None,
        uses_class_cache: false,
        walk: hooked_walk,
        subtables: vec![subtable],
    })
}

pub fn build_lookup_at<'a>(
    _: FontData<'a>,
    _: u32,
    _: bool,
    _: &Budget,
) -> Result<CachedLookup<'a>, ReadError> {
    Err(ReadError)
}

/// A subtable whose second word is the offset of its coverage.
fn subtable<'a, T: IntoKind<'a>>(
    table: Option<T>,
    data: FontData<'a>,
    budget: &Budget,
) -> Result<CachedSubtable<'a>, Exhausted> {
    let offset: u16 = data.read_at(2).unwrap_or(0);
    let coverage = Coverage::new(match data.split_off(offset.into()) {
        Some(data) if offset != 0 => FontRead::read(data),
        _ => Err(ReadError),
    });
    Ok(CachedSubtable {
        kind: table.ok_or(Exhausted)?.into_kind(budget)?,
        digest: coverage.digest(budget)?,
        coverage,
        coverage_cache: None,
        fns: T::FNS,
        apply_sharing: T::FNS.apply_sharing,
    })
}

/// The crate's own walk over one subtable, between the hooks.
fn hooked_walk(lookup: &CachedLookup, ctx: &mut ApplyContext, hot: bool) -> Option<()> {
    let before = crate::asked::hook::before(ctx)?;
    let applied = walk_single(lookup, ctx, hot);
    crate::asked::hook::after(ctx, before, applied.is_some());
    applied
}
