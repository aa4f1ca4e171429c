//! Stand-in for the part of read_fonts that the handed-over files name.
//! Formats 1 and 2 (16-bit) read bytes; the 24-bit ("wide") ones exist only
//! as types, so that the files compile, and are never reached.
use core::ops::Range;
use types::*;

#[derive(Debug, Clone, Copy)]
pub struct ReadError;

#[derive(Clone, Copy, Default)]
pub struct FontData<'a>(&'a [u8]);

impl<'a> FontData<'a> {
    pub fn new(bytes: &'a [u8]) -> Self {
        Self(bytes)
    }
    pub fn as_bytes(&self) -> &'a [u8] {
        self.0
    }
    pub fn len(&self) -> usize {
        self.0.len()
    }
    pub fn split_off(&self, pos: usize) -> Option<FontData<'a>> {
        self.0.get(pos..).map(FontData)
    }
    pub fn read_at<T: Scalar>(&self, pos: usize) -> Result<T, ReadError> {
        let bytes = self.0.get(pos..pos + T::LEN).ok_or(ReadError)?;
        Ok(T::read(bytes))
    }
    pub fn read_array<T: Record>(&self, range: Range<usize>) -> Result<&'a [T], ReadError> {
        let bytes = self.0.get(range).ok_or(ReadError)?;
        let n = bytes.len() / T::RAW_BYTE_LEN;
        if n * T::RAW_BYTE_LEN != bytes.len() {
            return Err(ReadError);
        }
        // SAFETY: a Record is repr(C) or transparent over byte arrays.
        Ok(unsafe { core::slice::from_raw_parts(bytes.as_ptr().cast(), n) })
    }
    fn counted(&self, count_at: usize, width: usize) -> Range<usize> {
        let n: u16 = self.read_at(count_at).unwrap_or(0);
        count_at + 2..count_at + 2 + usize::from(n) * width
    }
    fn child(&self, offset_at: usize) -> Result<FontData<'a>, ReadError> {
        match self.read_at::<u16>(offset_at)? {
            0 => Err(ReadError),
            n => self.split_off(n.into()).ok_or(ReadError),
        }
    }
}

pub trait FontRead<'a>: Sized {
    type Args;
    fn read(data: FontData<'a>) -> Result<Self, ReadError>;
}

pub mod model {
    /// Stand-in for the font's tables: the lookups of a book, in OpenType
    /// bytes: (props, kind, subtable).
    pub struct Tables(pub Vec<(u32, u16, Vec<u8>)>);
}

pub mod types {
    use core::cmp::Ordering;

    pub trait Scalar: Copy {
        const LEN: usize;
        type Raw: Copy;
        fn read(bytes: &[u8]) -> Self;
        fn from_raw(raw: Self::Raw) -> Self;
        fn to_raw(self) -> Self::Raw;
    }
    pub trait FixedSize {
        const RAW_BYTE_LEN: usize;
    }
    /// Marker for what `read_array` may cast to: byte arrays only.
    pub trait Record: FixedSize {}

    macro_rules! scalar {
        ($T:ty, $n:literal, |$b:ident| $from:expr, |$v:ident| $to:expr) => {
            impl Scalar for $T {
                const LEN: usize = $n;
                type Raw = [u8; $n];
                fn read($b: &[u8]) -> Self {
                    $from
                }
                fn from_raw(raw: [u8; $n]) -> Self {
                    <Self as Scalar>::read(&raw)
                }
                fn to_raw(self) -> [u8; $n] {
                    let $v = self;
                    $to
                }
            }
        };
    }
    #[derive(Clone, Copy, PartialEq, Eq, PartialOrd, Ord, Debug, Hash)]
    pub struct GlyphId(u32);
    #[derive(Clone, Copy, PartialEq, Eq, PartialOrd, Ord, Debug, Hash)]
    pub struct GlyphId16(u16);
    #[derive(Clone, Copy, PartialEq, Eq, PartialOrd, Ord, Debug, Hash)]
    pub struct Uint24(u32);
    pub type GlyphId24 = Uint24;
    #[derive(Clone, Copy)]
    pub struct Int24(i32);

    scalar!(u16, 2, |b| u16::from_be_bytes([b[0], b[1]]), |v| v.to_be_bytes());
    scalar!(i16, 2, |b| i16::from_be_bytes([b[0], b[1]]), |v| v.to_be_bytes());
    scalar!(GlyphId16, 2, |b| Self(u16::from_be_bytes([b[0], b[1]])), |v| v.0.to_be_bytes());
    scalar!(Uint24, 3, |b| Self(u32::from_be_bytes([0, b[0], b[1], b[2]])), |v| {
        let [_, a, b, c] = v.0.to_be_bytes();
        [a, b, c]
    });
    impl GlyphId {
        pub const fn new(v: u32) -> Self {
            Self(v)
        }
        pub const fn to_u32(self) -> u32 {
            self.0
        }
    }
    impl From<u32> for GlyphId {
        fn from(v: u32) -> Self {
            Self(v)
        }
    }
    impl From<GlyphId> for u32 {
        fn from(v: GlyphId) -> u32 {
            v.0
        }
    }
    impl GlyphId16 {
        pub const fn to_u16(self) -> u16 {
            self.0
        }
    }
    impl From<u16> for GlyphId16 {
        fn from(v: u16) -> Self {
            Self(v)
        }
    }
    impl From<GlyphId16> for u32 {
        fn from(v: GlyphId16) -> u32 {
            v.0.into()
        }
    }
    impl TryFrom<GlyphId> for GlyphId16 {
        type Error = ();
        fn try_from(v: GlyphId) -> Result<Self, ()> {
            u16::try_from(v.0).map(Self).map_err(|_| ())
        }
    }
    impl Uint24 {
        pub const MAX: Self = Self(0xFF_FFFF);
        pub fn checked_new(v: u32) -> Option<Self> {
            (v <= Self::MAX.0).then_some(Self(v))
        }
        pub const fn to_u32(self) -> u32 {
            self.0
        }
    }
    impl From<Uint24> for u32 {
        fn from(v: Uint24) -> u32 {
            v.0
        }
    }
    impl Int24 {
        pub fn to_i32(self) -> i32 {
            self.0
        }
    }

    #[derive(Clone, Copy, PartialEq, Eq)]
    #[repr(transparent)]
    pub struct BigEndian<T: Scalar>(T::Raw);
    impl<T: Scalar> BigEndian<T> {
        pub fn get(&self) -> T {
            T::from_raw(self.0)
        }
    }
    impl<T: Scalar> From<T> for BigEndian<T> {
        fn from(v: T) -> Self {
            Self(v.to_raw())
        }
    }
    impl<T: Scalar> FixedSize for BigEndian<T> {
        const RAW_BYTE_LEN: usize = T::LEN;
    }
    impl<T: Scalar> Record for BigEndian<T> {}
    impl<T: Scalar + Ord> PartialOrd for BigEndian<T>
    where
        T::Raw: PartialEq,
    {
        fn partial_cmp(&self, o: &Self) -> Option<Ordering> {
            Some(self.get().cmp(&o.get()))
        }
    }
    impl<T: Scalar + Ord> Ord for BigEndian<T>
    where
        T::Raw: Eq,
    {
        fn cmp(&self, o: &Self) -> Ordering {
            self.get().cmp(&o.get())
        }
    }
}

/// A record of fields, each with a getter.
macro_rules! record {
    ($N:ident { $($f:ident: $T:ty),* }, $len:literal) => {
        #[derive(Clone, Copy)]
        #[repr(C)]
        pub struct $N { $(pub $f: BigEndian<$T>),* }
        impl FixedSize for $N { const RAW_BYTE_LEN: usize = $len; }
        impl Record for $N {}
        impl $N { $(pub fn $f(&self) -> $T { self.$f.get() })* }
    };
}

/// A table over its bytes, with byte ranges of counted arrays.
macro_rules! table {
    ($N:ident { $($range:ident: $count_at:literal * $width:literal),* }) => {
        #[derive(Clone, Copy)]
        pub struct $N<'a>(pub FontData<'a>);
        impl<'a> $N<'a> {
            pub fn offset_data(&self) -> FontData<'a> { self.0 }
            $(pub fn $range(&self) -> Range<usize> { self.0.counted($count_at, $width) })*
        }
    };
}

pub mod tables {
    pub mod gsub {
        use crate::*;
        table!(SingleSubstFormat1 {});
        table!(SingleSubstFormat2 { substitute_glyph_ids_byte_range: 4 * 2 });
        table!(SingleSubstFormat3 {});
        table!(SingleSubstFormat4 { substitute_glyph_ids_byte_range: 5 * 3 });
        table!(MultipleSubstFormat1 { sequence_offsets_byte_range: 4 * 2 });
        table!(MultipleSubstFormat2 { sequence_offsets_byte_range: 5 * 3 });
        table!(AlternateSubstFormat1 { alternate_set_offsets_byte_range: 4 * 2 });
        table!(AlternateSubstFormat2 { alternate_set_offsets_byte_range: 5 * 3 });
        table!(LigatureSubstFormat1 { ligature_set_offsets_byte_range: 4 * 2 });
        table!(LigatureSubstFormat2 { ligature_set_offsets_byte_range: 5 * 3 });
        impl SingleSubstFormat1<'_> {
            pub fn delta_glyph_id(&self) -> i16 {
                self.0.read_at(4).unwrap_or(0)
            }
        }
        impl SingleSubstFormat3<'_> {
            pub fn delta_glyph_id(&self) -> Int24 {
                unimplemented!()
            }
        }
        macro_rules! reverse {
            ($($N:ident)*) => {$(
                table!($N {});
                impl $N<'_> {
                    pub fn substitute_glyph_ids_byte_range(&self) -> Range<usize> { unimplemented!() }
                    pub fn backtrack_coverage_offsets_byte_range(&self) -> Range<usize> { unimplemented!() }
                    pub fn lookahead_coverage_offsets_byte_range(&self) -> Range<usize> { unimplemented!() }
                }
            )*};
        }
        reverse!(ReverseChainSingleSubstFormat1 ReverseChainSingleSubstFormat2);
    }

    pub mod layout {
        use crate::*;
        record!(SequenceLookupRecord { sequence_index: u16, lookup_list_index: u16 }, 4);
        record!(
            RangeRecord {
                start_glyph_id: GlyphId16,
                end_glyph_id: GlyphId16,
                start_coverage_index: u16
            },
            6
        );
        record!(
            RangeRecord2 {
                start_glyph_id: GlyphId24,
                end_glyph_id: GlyphId24,
                start_coverage_index: Uint24
            },
            9
        );
        record!(
            ClassRangeRecord { start_glyph_id: GlyphId16, end_glyph_id: GlyphId16, class: u16 },
            6
        );
        record!(
            ClassRangeRecord2 { start_glyph_id: GlyphId24, end_glyph_id: GlyphId24, class: Uint24 },
            9
        );

        table!(CoverageFormat1 {});
        table!(CoverageFormat2 {});
        table!(CoverageFormat3 {});
        table!(CoverageFormat4 {});
        #[derive(Clone, Copy)]
        pub enum CoverageTable<'a> {
            Format1(CoverageFormat1<'a>),
            Format2(CoverageFormat2<'a>),
            Format3(CoverageFormat3<'a>),
            Format4(CoverageFormat4<'a>),
        }
        impl<'a> FontRead<'a> for CoverageTable<'a> {
            type Args = ();
            fn read(data: FontData<'a>) -> Result<Self, ReadError> {
                match data.read_at::<u16>(0)? {
                    1 => Ok(Self::Format1(CoverageFormat1(data))),
                    2 => Ok(Self::Format2(CoverageFormat2(data))),
                    _ => Err(ReadError),
                }
            }
        }
        table!(ClassDefFormat1 {});
        table!(ClassDefFormat2 {});
        table!(ClassDefFormat3 {});
        table!(ClassDefFormat4 {});
        #[derive(Clone, Copy)]
        pub enum ClassDef<'a> {
            Format1(ClassDefFormat1<'a>),
            Format2(ClassDefFormat2<'a>),
            Format3(ClassDefFormat3<'a>),
            Format4(ClassDefFormat4<'a>),
        }
        impl<'a> FontRead<'a> for ClassDef<'a> {
            type Args = ();
            fn read(data: FontData<'a>) -> Result<Self, ReadError> {
                match data.read_at::<u16>(0)? {
                    1 => Ok(Self::Format1(ClassDefFormat1(data))),
                    2 => Ok(Self::Format2(ClassDefFormat2(data))),
                    _ => Err(ReadError),
                }
            }
        }
        /// `fn array(&self) -> &'a [T]` for the counted array at `$at`.
        macro_rules! array {
            ($N:ident.$f:ident: $T:ty, $at:literal * $w:literal) => {
                impl<'a> $N<'a> {
                    pub fn $f(&self) -> &'a [$T] {
                        self.0.read_array(self.0.counted($at, $w)).unwrap_or_default()
                    }
                }
            };
        }
        array!(CoverageFormat1.glyph_array: BigEndian<GlyphId16>, 2 * 2);
        array!(CoverageFormat2.range_records: RangeRecord, 2 * 6);
        array!(CoverageFormat3.glyph_array: BigEndian<GlyphId24>, 2 * 3);
        array!(CoverageFormat4.range_records: RangeRecord2, 2 * 9);
        array!(ClassDefFormat1.class_value_array: BigEndian<u16>, 4 * 2);
        array!(ClassDefFormat2.class_range_records: ClassRangeRecord, 2 * 6);
        array!(ClassDefFormat3.class_value_array: BigEndian<Uint24>, 5 * 3);
        array!(ClassDefFormat4.class_range_records: ClassRangeRecord2, 2 * 9);
        impl ClassDefFormat1<'_> {
            pub fn start_glyph_id(&self) -> GlyphId16 {
                self.0.read_at::<u16>(2).unwrap_or(0).into()
            }
        }
        impl ClassDefFormat3<'_> {
            pub fn start_glyph_id(&self) -> GlyphId24 {
                unimplemented!()
            }
        }

        pub struct SequenceRule;
        impl SequenceRule {
            pub const MIN_SIZE: usize = 4;
        }
        pub struct ChainedSequenceRule;
        impl ChainedSequenceRule {
            pub const MIN_SIZE: usize = 8;
        }
        table!(SequenceContextFormat1 { seq_rule_set_offsets_byte_range: 4 * 2 });
        table!(SequenceContextFormat2 { class_seq_rule_set_offsets_byte_range: 6 * 2 });
        table!(SequenceContextFormat3 {});
        table!(SequenceContextFormat4 { seq_rule_set_offsets_byte_range: 5 * 3 });
        table!(SequenceContextFormat5 { class_seq_rule_set_offsets_byte_range: 8 * 3 });
        table!(SequenceContextFormat6 {});
        table!(ChainedSequenceContextFormat1 { chained_seq_rule_set_offsets_byte_range: 4 * 2 });
        table!(ChainedSequenceContextFormat2 {
            chained_class_seq_rule_set_offsets_byte_range: 10 * 2
        });
        table!(ChainedSequenceContextFormat3 {});
        table!(ChainedSequenceContextFormat4 { chained_seq_rule_set_offsets_byte_range: 5 * 3 });
        table!(ChainedSequenceContextFormat5 {
            chained_class_seq_rule_set_offsets_byte_range: 14 * 3
        });
        macro_rules! classes {
            ($N:ident { $($f:ident: $at:literal),* }) => {
                impl<'a> $N<'a> {
                    $(pub fn $f(&self) -> Result<ClassDef<'a>, ReadError> {
                        ClassDef::read(self.0.child($at)?)
                    })*
                }
            };
        }
        classes!(SequenceContextFormat2 { class_def: 4 });
        classes!(SequenceContextFormat5 { class_def: 4 });
        classes!(ChainedSequenceContextFormat2 {
            backtrack_class_def: 4,
            input_class_def: 6,
            lookahead_class_def: 8
        });
        classes!(ChainedSequenceContextFormat5 {
            backtrack_class_def: 4,
            input_class_def: 6,
            lookahead_class_def: 8
        });
        macro_rules! plain3 {
            ($($N:ident)*) => {$(
                impl<'a> $N<'a> {
                    pub fn coverage_offsets_byte_range(&self) -> Range<usize> {
                        let n: u16 = self.0.read_at(2).unwrap_or(0);
                        6..6 + 2 * usize::from(n)
                    }
                    pub fn seq_lookup_records(&self) -> &'a [SequenceLookupRecord] {
                        let start = self.coverage_offsets_byte_range().end;
                        let n: u16 = self.0.read_at(4).unwrap_or(0);
                        self.0.read_array(start..start + 4 * usize::from(n)).unwrap_or_default()
                    }
                }
            )*};
        }
        plain3!(SequenceContextFormat3 SequenceContextFormat6);
        impl<'a> ChainedSequenceContextFormat3<'a> {
            pub fn backtrack_coverage_offsets_byte_range(&self) -> Range<usize> {
                self.0.counted(2, 2)
            }
            pub fn input_coverage_offsets_byte_range(&self) -> Range<usize> {
                self.0.counted(self.backtrack_coverage_offsets_byte_range().end, 2)
            }
            pub fn lookahead_coverage_offsets_byte_range(&self) -> Range<usize> {
                self.0.counted(self.input_coverage_offsets_byte_range().end, 2)
            }
            pub fn seq_lookup_records(&self) -> &'a [SequenceLookupRecord] {
                let r = self.0.counted(self.lookahead_coverage_offsets_byte_range().end, 4);
                self.0.read_array(r).unwrap_or_default()
            }
        }
    }
}
