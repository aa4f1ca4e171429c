//! Stand-in: HarfBuzz's numbers for the categories that are named; nothing
//! is looked up, since the comparison writes unicode_props itself.
pub type Codepoint = u32;

#[derive(Copy, Clone, PartialEq, Eq, Debug)]
pub struct GeneralCategory(pub u8);

impl GeneralCategory {
    pub const FORMAT: Self = Self(1);
    pub const OTHER_LETTER: Self = Self(7);
    pub const NON_SPACING_MARK: Self = Self(12);
    pub const SPACE_SEPARATOR: Self = Self(29);
    /// Spacing (10), enclosing (11) and non-spacing marks.
    pub fn is_mark(&self) -> bool {
        matches!(self.0, 10..=12)
    }
}

pub trait CharExt {
    fn general_category(self) -> GeneralCategory;
    fn is_default_ignorable(self) -> bool;
    fn modified_combining_class(self) -> u8;
    fn script(self) -> crate::Script;
}

impl CharExt for Codepoint {
    fn general_category(self) -> GeneralCategory {
        GeneralCategory::OTHER_LETTER
    }
    fn is_default_ignorable(self) -> bool {
        false
    }
    fn modified_combining_class(self) -> u8 {
        0
    }
    fn script(self) -> crate::Script {
        crate::Script::COMMON
    }
}

pub mod space_fallback {
    pub type SpaceCode = u8;
    pub const NOT_SPACE: SpaceCode = 0;
}
