//! Extracts the program `coset_show`.

#[path = "../extractor/mod.rs"]
#[allow(dead_code)]
mod extractor;

use extractor::{Group, LIBRARY, extract};

fn main() {
    extractor::build("../..", |crates, out| {
        let library = Group {
            home: "::coset::__proved",
            names: LIBRARY,
        };
        extract(
            crates,
            &[library],
            Group {
                home: "crate",
                names: &["coset_show"],
            },
            &out.join("show.rs"),
        )
    });
}
