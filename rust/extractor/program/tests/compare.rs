//! Extracted Rust differs from its source by the rules alone, and any other change is found.

use coset_extractor::compare::compare;
use std::process::Command;

const SOURCE: &str = r#"
//! A module.
#![tactic(auto)]

ghost use Rattle.std.specs.Prelude.{◌≡◌};

use std::alloc::Global;
use std::fmt;

/// Makes a text of a `name`, for css: `overflow-wrap: anywhere;`.
pub fn text(alloc: Global, name: &str, size: usize) -> Result<String>
    ensures { IfOk result (λ t. t.bytes ≡ name.now) }
{
    let mut text = String::from_str(alloc, "where {")?;
    text.push_str(name)?;
    Ok(text)
}
"#;

const RUST: &str = r#"
//! A module.

#[allow(unused_imports)]
use crate::__proved::kit::{self, prelude::*};
use core::fmt;

/// Makes a text of a `name`, for css: `overflow-wrap: anywhere;`.
pub fn text(name: &str, size: usize) -> Result<String>
{
    let mut text = kit::new_text("where {")?;
    text.try_push_str(name)?;
    Ok(text)
}
"#;

#[test]
fn the_rules_explain_each_difference() {
    let counts = compare(SOURCE, RUST, &[]).expect("no other difference");
    let rules: Vec<_> = counts.into_keys().collect();
    let wanted = [
        "allocators",
        "attributes",
        "calls of std",
        "contracts",
        "methods",
        "paths",
        "prelude",
    ];
    assert_eq!(rules, wanted);
}

#[test]
fn a_change_beyond_the_rules_is_found() {
    let changes = [
        ("\"where {\"", "\"{\""),
        ("anywhere", "any"),
        ("size: usize", "size: u32"),
        ("try_push_str(name)?", "try_push_str(name)"),
        ("kit::new_text", "kit::new_copy"),
        ("    Ok(text)\n", ""),
        ("use core::fmt;\n", ""),
        ("core::fmt", "core::mem"),
        ("name: &str, size: usize", "size: usize, name: &str"),
    ];
    for (from, to) in changes {
        let changed = RUST.replacen(from, to, 1);
        assert_ne!(changed, RUST);
        assert!(
            compare(SOURCE, &changed, &[]).is_err(),
            "{from} became {to}"
        );
    }
}

#[test]
fn a_function_beside_hands_on_its_parameters_in_order() {
    let source =
        "impl A { pub fn f(&self, alloc: Global, a: &[u8], b: &[u8]) -> Result<B> { g() } }";
    let rust = |own: &str, handed: &str| {
        format!(
            "impl A {{ #[doc(hidden)] pub fn f_checked(&self, a: &[u8], b: &[u8]) -> Result<B> \
             {{ g() }} pub fn f(&self, {own}) -> B {{ kit::made(self.f_checked({handed})) }} }}"
        )
    };
    let right = "a: &[u8], b: &[u8]";
    assert!(compare(source, &rust(right, "a, b"), &[]).is_ok());
    assert!(compare(source, &rust(right, "b, a"), &[]).is_err());
    assert!(compare(source, &rust("b: &[u8], a: &[u8]", "b, a"), &[]).is_err());
}

#[test]
fn the_packages_differ_from_their_sources_by_the_rules_alone() {
    let out = env!("CARGO_TARGET_TMPDIR");
    let program = env!("CARGO_BIN_EXE_coset-extractor");
    let done = Command::new(program)
        .args(["--compare", out])
        .output()
        .expect("it runs");
    assert!(
        done.status.success(),
        "{}",
        String::from_utf8_lossy(&done.stderr)
    );
}
