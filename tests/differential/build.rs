//! Builds docs/src's Rust unchanged as the oracle. A module of thin public wrappers is put after each file's own text, so
//! that its private functions can be called; not a byte of the text itself is changed.
use std::{env, fs, path::Path};

/// Wrappers for the private functions of intra.rs.
const REACH_INTRA: &str = r#"
pub mod reach {
    pub fn decode_order(r: usize, c: usize, blk: usize, ctu: usize, ctus_x: usize) -> i64 {
        super::decode_order(r, c, blk, ctu, ctus_x)
    }

    #[allow(clippy::too_many_arguments)]
    pub fn is_available(
        nr: i64,
        nc: i64,
        block_row: usize,
        block_col: usize,
        blk: usize,
        ctu: usize,
        ctus_x: usize,
        width: usize,
        height: usize,
    ) -> bool {
        super::is_available(nr, nc, block_row, block_col, blk, ctu, ctus_x, width, height)
    }

    #[allow(clippy::too_many_arguments)]
    pub fn substitute_refs(
        corner: u16,
        above: [u16; 65],
        left: [u16; 65],
        avail_corner: bool,
        avail_above: &[bool; 65],
        avail_left: &[bool; 65],
        ext: usize,
        neutral: u16,
    ) -> (u16, [u16; 65], [u16; 65]) {
        super::substitute_refs(corner, above, left, avail_corner, avail_above, avail_left, ext, neutral)
    }

    /// What the scratch holds: references, indices, fractions.
    pub fn tables(scratch: &super::AngularScratch) -> [&[i32]; 3] {
        [&scratch.refs, &scratch.indices, &scratch.fractions]
    }
}
"#;

pub fn main() {
    let here = env::var("CARGO_MANIFEST_DIR").unwrap();
    let source = Path::new(&here).join("../../docs/src/src");
    let out = env::var("OUT_DIR").unwrap();
    let out = Path::new(&out);
    let mut modules = String::new();
    for (name, reach) in [("intra", REACH_INTRA), ("fmt", "")] {
        let file = source.join(format!("{name}.rs"));
        println!("cargo:rerun-if-changed={}", file.display());
        let text = fs::read_to_string(&file).unwrap();
        let copy = out.join(format!("{name}.rs"));
        fs::write(&copy, text + reach).unwrap();
        modules += &format!("#[allow(dead_code)]\n#[path = {copy:?}]\npub mod {name};\n");
    }
    fs::write(out.join("oracle.rs"), modules).unwrap();
    println!("cargo:rerun-if-changed=build.rs");
}
