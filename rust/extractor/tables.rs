//! All that the extractor knows of the kit's std. It refuses what isn't here.

/// Paths of the kit's std, and the path that stands for each. Those with an empty one go.
pub const PATHS: &[(&str, &str)] = &[
    ("std::alloc::AllocError", "kit::AllocError"),
    ("std::alloc::AllocFailed", "kit::AllocFailed"),
    ("std::alloc::Global", ""),
    ("std::ascii", "core::ascii"),
    ("std::borrow::CowSlice", "kit::CowSlice"),
    ("std::cell::Cell", "core::cell::Cell"),
    ("std::cmp::Ordering", "core::cmp::Ordering"),
    ("std::collections::BTreeMap", "alloc::collections::BTreeMap"),
    ("std::collections::BTreeSet", "alloc::collections::BTreeSet"),
    ("std::env", "programs::env"),
    ("std::error", "core::error"),
    ("std::fmt", "core::fmt"),
    ("std::fs", "programs::fs"),
    ("std::io", "programs::io"),
    ("std::marker::Brand", "kit::Brand"),
    ("std::marker::Model", ""),
    ("std::marker::PhantomData", "core::marker::PhantomData"),
    ("std::mem", "core::mem"),
    ("std::num::TryFromIntError", "core::num::TryFromIntError"),
    (
        "std::num::f32_from_bits_with_nan",
        "kit::f32_from_bits_with_nan",
    ),
    (
        "std::num::f64_from_bits_with_nan",
        "kit::f64_from_bits_with_nan",
    ),
    (
        "std::num::f64_to_bits_with_nan",
        "programs::f64_to_bits_with_nan",
    ),
    (
        "std::num::saturating_f64_to_i64",
        "kit::saturating_f64_to_i64",
    ),
    (
        "std::num::saturating_f64_to_u32",
        "kit::saturating_f64_to_u32",
    ),
    ("std::process::Abort", "programs::Abort"),
    ("std::process::ExitCode", "programs::ExitCode"),
    ("std::result::Result", "core::result::Result"),
    ("std::slice::from_ref", "core::slice::from_ref"),
    ("std::str::from_utf8", "core::str::from_utf8"),
    ("std::sync::ledger", "kit"),
    ("std::test", "programs::test"),
    ("std::vec", "alloc::vec"),
];

/// Crates of the kit that programs use. They are modules of `programs`.
pub const PROGRAM_CRATES: &[&str] = &[
    "anyhow",
    "base64",
    "fast_float",
    "hex",
    "ucd_category",
    "ucd_derived",
];

/// Calls of these types, and the call that stands for each.
pub const CALLS: &[(&str, &str)] = &[
    ("BTreeMap::new", "BTreeMap::new"),
    ("BTreeSet::new", "BTreeSet::new"),
    ("Box::into_inner", "kit::into_inner"),
    ("Box::new", "kit::new_box"),
    ("Clone::clone", "kit::TryClone::try_clone"),
    ("String::from_str", "kit::new_text"),
    ("String::from_utf8", "String::from_utf8"),
    ("String::from_utf8_lossy", "programs::lossy_text"),
    ("String::new", "String::new"),
    ("Vec::from_array", "programs::new_list"),
    ("Vec::from_slice", "kit::new_copy"),
    ("Vec::new", "Vec::new"),
    ("Vec::with_capacity", "kit::new_room"),
];

/// Methods that fail if an allocation does, and those of `kit.rs` for them.
pub const METHODS: &[(&str, &str)] = &[
    ("append", "try_append"),
    ("clone", "try_clone"),
    ("extend", "try_extend"),
    ("extend_from_slice", "try_extend_from_slice"),
    ("insert", "try_insert"),
    ("push", "try_push"),
    ("push_str", "try_push_str"),
    ("reserve", "try_reserve_more"),
    ("reserve_exact", "try_reserve_exactly"),
    ("sort_by", "try_sort_by"),
    ("to_string", "try_to_string"),
];

/// Methods and associated functions of std that stay. Those of the sources stay, too.
pub const KEPT_METHODS: &str = "\
    abs_diff add all and any args as_bytes as_deref as_mut_slice as_ref as_slice as_str \
    binary_search_by_key bytes capacity chain chars checked_add checked_div checked_mul \
    checked_rem checked_shl checked_sub clear cmp contains context copied copy_from_slice count \
    destroy_empty encode_utf8 ends_with enumerate eq_ignore_ascii_case err filter find first \
    first_mut floor for_char from from_be_bytes from_utf8 get get_mut into into_iter \
    is_ascii_alphabetic is_ascii_alphanumeric is_ascii_digit is_ascii_hexdigit \
    is_ascii_lowercase is_control is_empty is_eq is_err is_finite is_le is_nan is_none is_ok \
    is_some is_sorted_by is_subset is_whitespace iter iter_mut kind last last_mut len lines map \
    map_err max min next nth ok ok_or open or_else overflowing_sub pad parse pop position \
    push_reserved read_to_string reader replace retain rev reverse rsplit_once saturating_add \
    saturating_mul saturating_sub set skip_while sort_unstable split split_at split_at_checked \
    split_at_mut split_first split_first_chunk split_last split_once starts_with stdin stdout \
    strip_prefix strip_suffix take take_while then then_some to_be_bytes to_digit trim \
    trim_start truncate try_from unsigned_abs unwrap unwrap_or unwrap_or_else var windows \
    wrapping_add wrapping_sub from_u32 is_some_and write_str writer zip";

/// Methods of the sources' traits whose names std has for other types. Their receivers are type
/// parameters or the sources' own types, which have no method of std of that name.
pub const SHARED_METHODS: &[&str] = &["add", "and", "append", "read", "size_hint", "write"];

pub const KEPT_ATTRIBUTES: &[&str] = &[
    "allow", "cfg", "cold", "derive", "doc", "inline", "must_use", "test",
];
pub const DROPPED_ATTRIBUTES: &[&str] = &["cycle", "tactic"];

/// Macros, and the macro that stands for each.
pub const MACROS: &[(&str, &str)] = &[
    ("assert", "assert"),
    ("assert_eq", "assert_eq"),
    ("bail", "bail"),
    ("ensure", "ensure"),
    ("format_args", "format_args"),
    ("matches", "matches"),
    ("panic", "panic"),
    ("unreachable", "unreachable"),
    ("write", "write"),
    ("writeln", "writeln"),
];

/// Macros that print. Their runtime stays.
pub const PRINTS: &[(&str, &str)] = &[
    ("eprint", "programs::eprint"),
    ("eprintln", "programs::eprintln"),
    ("print", "programs::print"),
    ("println", "programs::println"),
];

/// Macros that allocate, and the macro that stands for each.
pub const ALLOCATING_MACROS: &[(&str, &str)] = &[
    ("format", "programs::try_format"),
    ("vec", "programs::try_vec"),
];

/// Words of forms that no source has.
pub const UNKNOWN_WORDS: &[&str] = &[
    "align_of",
    "async",
    "dyn",
    "extern",
    "macro_rules",
    "move_by",
    "size_of",
    "static",
    "union",
    "unsafe",
];

/// Types whose `Drop` only saves stack. A type that has one in Rust can't be taken apart.
pub const DROPS: &[&str] = &["Header"];
