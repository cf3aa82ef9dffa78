//! Each rule of the extractor, and each refusal, over a source of a few lines.

use coset_extractor::extractor::{Group, extract};
use std::fs;
use std::path::{Path, PathBuf};
use std::sync::atomic::{AtomicUsize, Ordering};

static FOLDERS: AtomicUsize = AtomicUsize::new(0);

/// Extracts a source as the only file of the crate `coset_key`, of the library.
fn extracted(source: &str) -> Result<String, String> {
    let number = FOLDERS.fetch_add(1, Ordering::Relaxed);
    let base = format!("{}-{number}", env!("CARGO_CRATE_NAME"));
    let base: PathBuf = Path::new(env!("CARGO_TARGET_TMPDIR")).join(base);
    let folder = base.join("crates/coset_key/src");
    fs::create_dir_all(&folder).unwrap();
    fs::write(folder.join("lib.rt"), source).unwrap();
    let own = Group {
        home: "crate::__proved",
        names: &["coset_key"],
    };
    extract(&base.join("crates"), &[], own, &base.join("out.rs"))?;
    Ok(fs::read_to_string(base.join("out/coset_key/mod.rs")).unwrap())
}

/// The text with one space for white space of any kind.
fn joined(text: &str) -> String {
    text.split_whitespace().collect::<Vec<_>>().join(" ")
}

/// Asserts what a source becomes, after the lines that each file begins with.
fn becomes(source: &str, wanted: &str) {
    let rust = extracted(source).unwrap_or_else(|refusal| panic!("{source}: {refusal}"));
    let prelude = "#[allow(unused_imports)] use crate::__proved::kit::{self, prelude::*}; ";
    assert_eq!(
        joined(&rust).replacen(prelude, "", 1),
        joined(wanted),
        "of {source}"
    );
}

/// Asserts that a source is refused at its second line.
fn refused(source: &str, why: &str) {
    let refusal = extracted(&format!("//! A module.\n{source}")).expect_err(source);
    let wanted = format!("lib.rt:2: {why}");
    assert!(refusal.ends_with(&wanted), "{source}: {refusal}");
}

#[test]
fn contracts_go() {
    becomes(
        "ghost use A.{b};\nfn f() ensures { a ≡ \"}\" } ensures b { c } {}",
        "fn f() {}",
    );
    becomes(
        "trait T { /// The view.\n ghost view: { A → B }; fn g(); }",
        "trait T { fn g(); }",
    );
    becomes(
        "struct S { /// Ghost.\n pub ghost g: A, a: u8 }",
        "struct S { a: u8 }",
    );
    becomes("fn f() requires { a < b } { g(); }", "fn f() { g(); }");
}

#[test]
fn texts_and_comments_stay() {
    let text =
        "const A: &str = \"where { Drop, alloc } ghost x; std::fmt\"; // ghost alloc: Global";
    becomes(text, text);
    let raw = "const A: &str = r#\"requires \" { \"#; const B: char = '\\'';";
    becomes(raw, raw);
}

#[test]
fn attributes_of_the_prover_go() {
    becomes("#[cycle(a)]\n#[inline]\nfn f() {}", "#[inline] fn f() {}");
    becomes(
        "#[derive(Debug, Drop)]\nstruct A;",
        "#[derive(Debug)] struct A;",
    );
    becomes("#[derive(Drop)]\nstruct A;", "struct A;");
    becomes(
        "#[derive_where(Debug)]\nstruct A;",
        "#[derive(Debug)] struct A;",
    );
    let copies = "#[derive(Clone, Copy)] struct A; kit::copies!(A);";
    becomes("#[derive(Clone, Copy)]\nstruct A;", copies);
    refused(
        "#[repr(C)] struct A;",
        "the attribute repr isn't known here",
    );
}

#[test]
fn impls_for_the_prover_go() {
    becomes(
        "impl Model for A { ghost view = { b }; }\nfn f() {}",
        "fn f() {}",
    );
    becomes(
        "impl Drop for Header { fn drop(&mut self) {} }\nfn f() {}",
        "fn f() {}",
    );
    refused(
        "impl Drop for A { fn drop(&mut self) {} }",
        "this impl of Drop isn't known here",
    );
    let clone = "impl Clone for A { fn clone(&self) -> Result<A, E> { b() } }";
    becomes(
        clone,
        "impl TryClone for A { fn try_clone(&self) -> Result<A, E> { b() } } \
         impl Clone for A { /// Panics if an allocation fails.\n fn clone(&self) -> Self { \
         kit::made(kit::TryClone::try_clone(self)) } }",
    );
    becomes(
        "impl A { pub fn new(alloc: Global) -> A { A } }",
        "impl A { pub fn new() -> A { A } } \
         impl Default for A { fn default() -> Self { A::new() } }",
    );
}

#[test]
fn bounds_by_drop_go() {
    becomes("fn f<T: Drop>(t: T) {}", "fn f<T>(t: T) {}");
    becomes("fn f<T: A + Drop>(t: T) {}", "fn f<T: A>(t: T) {}");
    becomes("fn f<T>(t: T) where T: Drop, {}", "fn f<T>(t: T) {}");
    becomes(
        "fn f<C>() where C::I: Drop, C: A, {}",
        "fn f<C>() where C: A, {}",
    );
    refused("fn f() -> Drop {}", "the bound Drop isn't known here");
}

#[test]
fn allocators_go() {
    becomes(
        "fn f(alloc: Global, a: u8) { g(alloc, a); h(a, alloc) }",
        "fn f(a: u8) { g(a); h(a) }",
    );
    becomes(
        "fn f() { let alloc = rt.alloc();\n g(*self.a.allocator(), b) }",
        "fn f() { g(b) }",
    );
    becomes("fn f() { g(*Box::allocator(&b)) }", "fn f() { g() }");
    becomes(
        "struct A { /// It.\n pub alloc: Global, b: u8 }",
        "struct A { b: u8 }",
    );
    refused(
        "fn f() { let alloc = g(); }",
        "this allocator isn't known here",
    );
    refused("fn f() { return alloc; }", "an allocator isn't known here");
}

#[test]
fn paths_of_std_are_known() {
    becomes("use std::alloc::Global;\nuse std::fmt;", "use core::fmt;");
    becomes(
        "use std::mem::{self, take};",
        "use core::mem; use core::mem::take;",
    );
    becomes(
        "fn f() -> std::result::Result<A, B> {}",
        "fn f() -> core::result::Result<A, B> {}",
    );
    becomes("use crate::a::B;", "use crate::__proved::coset_key::a::B;");
    refused("use std::thread;", "the path std::thread isn't known here");
    refused(
        "use std::fmt as f;",
        "a renamed name of the kit's std isn't known here",
    );
    refused("use other::A;", "the crate other isn't known here");
}

#[test]
fn calls_that_allocate_may_fail() {
    becomes("fn f() { a.push(b)?; }", "fn f() { a.try_push(b)?; }");
    becomes(
        "fn f() { Vec::from_slice(alloc, a)?; }",
        "fn f() { kit::new_copy(a)?; }",
    );
    becomes(
        "fn f() { Clone::clone(&a)?; }",
        "fn f() { kit::TryClone::try_clone(&a)?; }",
    );
    refused(
        "fn f() { Vec::from_iter(a); }",
        "the call Vec::from_iter isn't known here",
    );
    refused(
        "fn f() { a.collect(); }",
        "the method collect isn't known here",
    );
    refused(
        "fn f() { u64::from_str_radix(a); }",
        "the method from_str_radix isn't known here",
    );
}

#[test]
fn macros_are_known() {
    becomes("fn f() { assert!(rt; a); }", "fn f() { assert!(a); }");
    becomes(
        "fn f() { format!(in alloc; \"a\")?; }",
        "fn f() { programs::try_format!(\"a\")?; }",
    );
    becomes("fn f() { prove!(a < b); }", "fn f() { assert!(a < b); }");
    refused(
        "fn f() { stringify!(a); }",
        "the macro stringify isn't known here",
    );
}

#[test]
fn signatures_are_those_of_the_rust_crate() {
    let method = |result: &str, clause: &str| {
        format!("impl A {{ pub fn f(self, alloc: Global, b: u8) -> {result} {clause} {{ c(b) }} }}")
    };
    let of = |result: &str, answer: &str, by: &str| {
        format!(
            "impl A {{ #[doc(hidden)] pub fn f_checked(self, b: u8) -> {result} {{ c(b) }} \
             pub fn f(self, b: u8) -> {answer} {{ kit::{by}(self.f_checked(b)) }} }}"
        )
    };
    let memory = "ensures memory { IfErr result (λ e. e ≡ OutOfMemory) }";
    becomes(&method("Result<A>", memory), &of("Result<A>", "A", "made"));
    let writes = "ensures { Writes a b result }";
    becomes(
        &method("Result<A>", writes),
        &of("Result<A>", "A", "serialized"),
    );
    let (from, to) = ("Result<A, CallError<E>>", "core::result::Result<A, E>");
    becomes(&method(from, ""), &of(from, to, "callers"));
    let other = "ensures memory { IfErr result (λ e. e ≡ OutOfMemory → a) }";
    for clause in [other, "ensures { Reads a b result }", ""] {
        let kept = "impl A { pub fn f(self, b: u8) -> Result<A> { c(b) } }";
        becomes(&method("Result<A>", clause), kept);
    }
}

#[test]
fn documentation_is_that_of_the_signature() {
    let docs = "/// F.\n///\n/// # Errors\n/// `OutOfMemory` if an allocation fails.\n";
    let memory = "ensures memory { IfErr result (λ e. e ≡ OutOfMemory) }";
    let rust = extracted(&format!(
        "impl A {{\n{docs}pub fn f(self) -> Result<A> {memory} {{ b() }} }}"
    ));
    assert!(
        joined(&rust.unwrap())
            .contains("/// F. /// /// # Panics /// If an allocation fails. pub fn f(self)")
    );
    becomes(
        "/// Builds it. Contracts see it as what\n/// `build` returns. It is small.\nstruct B;",
        "/// Builds it. It is small.\nstruct B;",
    );
    becomes(
        "/// See [`A`](crate::A).\nstruct B;",
        "/// See [`A`](crate::__proved::coset_key::A).\nstruct B;",
    );
}

#[test]
fn a_builders_methods_are_to_be_used() {
    let setter = "pub fn a(mut self, a: u8) -> ABuilder { self }";
    becomes(
        &format!("impl ABuilder {{ {setter} }}"),
        &format!("impl ABuilder {{ #[must_use] {setter} }}"),
    );
}

#[test]
fn forms_that_differ_silently_are_refused() {
    refused(
        "fn f() { g(250u8..) }",
        "a range without an end isn't known here",
    );
    refused(
        "fn f() { for a in 0.. { } }",
        "a range without an end isn't known here",
    );
    refused(
        "fn f() { S { a: 1, ..v[i] } }",
        "an indexed value for the other fields isn't known here",
    );
    refused(
        "fn f() { mem::size_of::<A>() }",
        "the form size_of isn't known here",
    );
    refused(
        "fn f() { a.to_bits() }",
        "the method to_bits isn't known here",
    );
    refused(
        "trait T { fn push(&self); }",
        "a trait's method push isn't known here",
    );
    refused(
        "impl<T: Clone> A for T {}",
        "an impl picked by the bound Clone isn't known here",
    );
}

#[test]
fn unknown_forms_are_refused() {
    refused("fn f(g: fn(u8)) {}", "the form fn isn't known here");
    refused("unsafe fn f() {}", "the form unsafe isn't known here");
    refused(
        "macro_rules! a { () => {} }",
        "the form macro_rules isn't known here",
    );
    becomes(
        "fn f() { g(&a[1..]); let (b, ..) = c; }",
        "fn f() { g(&a[1..]); let (b, ..) = c; }",
    );
}

#[test]
fn broken_texts_are_refused() {
    refused("/* a */", "a block comment isn't known here");
    refused("fn f( {", "a bracket without an end isn't known here");
    refused("fn f) {}", "a bracket that closes none isn't known here");
    refused("const A: &str = \"", "a literal has no end");
    refused(
        "fn f() ensures a b {}",
        "a clause without braces isn't known here",
    );
    refused("ghost a;", "this ghost form isn't known here");
    refused("fn f() { é }", "the character é isn't known here");
}
