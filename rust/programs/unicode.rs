//! The kit's crates `ucd_category` and `ucd_derived`, as far as programs use them: by what Rust's
//! std knows of Unicode. Its version may be older, and newer characters are then unassigned.

pub mod ucd_category {
    /// The categories that programs name, and `Other` for all others.
    #[derive(Clone, Copy, Debug, PartialEq, Eq)]
    pub enum GeneralCategory {
        Control,
        Format,
        LineSeparator,
        ParagraphSeparator,
        Surrogate,
        PrivateUse,
        Unassigned,
        Other,
    }

    impl GeneralCategory {
        /// Returns the category. A format character, a surrogate and one for private use count as
        /// unassigned, because std escapes all of them alike.
        pub fn for_char(c: char) -> GeneralCategory {
            match c {
                '\u{2028}' => GeneralCategory::LineSeparator,
                '\u{2029}' => GeneralCategory::ParagraphSeparator,
                _ if c.is_control() => GeneralCategory::Control,
                _ if c.is_whitespace() || !is_escaped(c) => GeneralCategory::Other,
                _ => GeneralCategory::Unassigned,
            }
        }
    }

    /// Returns true if `Debug` of a text escapes the character after another one.
    fn is_escaped(c: char) -> bool {
        let text = String::from_iter(['x', c]);
        text.escape_debug().nth(1) == Some('\\')
    }
}

pub mod ucd_derived {
    /// Returns true for the characters of Default_Ignorable_Code_Point that std doesn't escape. The
    /// others are unassigned here.
    pub fn is_default_ignorable_code_point(c: char) -> bool {
        matches!(
            c,
            '\u{34f}'
                | '\u{115f}'
                | '\u{1160}'
                | '\u{17b4}'
                | '\u{17b5}'
                | '\u{180b}'..='\u{180f}'
                | '\u{3164}'
                | '\u{fe00}'..='\u{fe0f}'
                | '\u{ffa0}'
                | '\u{e0100}'..='\u{e01ef}'
        )
    }
}
