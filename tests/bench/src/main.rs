//! Times the proved code beside the Rust of docs/src: the same inputs, in one process, by the same loop. A markdown table of
//! the least time of a call on either side goes to standard output, with the ratio that each line is to keep to.
//!
//! Either side costs one call that is not inlined: the Rust's function itself, through a pointer that the compiler cannot see
//! through, and the entry with the whole door behind it. Functions that take rows are also timed built into one that knows the
//! rows' lengths, and the better of both counts for the Rust. Buffers are lent again and again and not cleared between calls. Both sides' answers are compared
//! before they are timed. `bench against`, where the driver was built with another commit's
//! archives too, times the entries of both; `bench bytes` times the entries on bytes alone, `bench choose` the choice of a mode,
//! `bench errors` the error report; `bench modes` adds a line for every angular mode and side.
//!
//! A subject whose entries the probes do not have yet is left out; see build.rs.
#![cfg_attr(against, allow(clashing_extern_declarations))] // the list of both sides' entries declares them without their arguments
#[cfg(against)]
mod against;
#[cfg(entry = "predict_angular_slices")]
mod angular;
#[allow(dead_code)] // what subjects that are left out call
#[path = "../../differential/src/assembled.rs"]
mod assembled;
mod bytes;
#[cfg(entry = "picture_checksum")]
mod checksum;
#[cfg(entry = "choose_mode")]
mod choose;
#[allow(dead_code)] // what subjects that are left out call
mod entries;
#[cfg(all(entry = "walk", entry = "replay"))]
mod errors;
#[cfg(all(entry = "predict_planar_into", entry = "predict_dc_into"))]
mod flat;
#[allow(dead_code)] // what subjects that are left out call
#[path = "../../differential/src/frame.rs"]
mod frame;
#[cfg(entry = "get_reference_samples")]
mod gather;
#[cfg(entry = "get_reference_samples_chroma_pair")]
mod gather_chroma;
#[allow(dead_code)] // what subjects that are left out call
mod inputs;
mod race;
#[path = "../../differential/src/random.rs"]
mod random;
#[cfg(all(entry = "compute_residual_i32_into", entry = "reconstruct_into"))]
mod residual;
#[cfg(all(entry = "filter_references", entry = "filter_luma_refs"))]
mod smooth;
#[allow(dead_code)] // what subjects that are left out call
mod table;
#[cfg(all(entry = "walk", entry = "replay"))]
mod walk;

/// The Rust of docs/src, unchanged; see tests/differential/build.rs.
#[allow(dead_code)]
mod oracle {
    include!(concat!(env!("OUT_DIR"), "/oracle.rs"));
}

/// Once more, for functions that are to be built into their callers, which the compiler does where there is one caller alone.
#[allow(dead_code)]
mod inlined {
    include!(concat!(env!("OUT_DIR"), "/oracle.rs"));
}

use table::Table;

type Subject = fn(&mut Table);

const SUBJECTS: &[Subject] = &[
    #[cfg(all(entry = "predict_planar_into", entry = "predict_dc_into"))]
    flat::time,
    #[cfg(entry = "predict_angular_slices")]
    angular::time,
    #[cfg(all(entry = "filter_references", entry = "filter_luma_refs"))]
    smooth::time,
    #[cfg(entry = "get_reference_samples")]
    gather::time,
    #[cfg(entry = "get_reference_samples_chroma_pair")]
    gather_chroma::time,
    #[cfg(all(entry = "compute_residual_i32_into", entry = "reconstruct_into"))]
    residual::time,
    #[cfg(entry = "picture_checksum")]
    checksum::time,
    #[cfg(entry = "choose_mode")]
    choose::time,
    #[cfg(all(entry = "walk", entry = "replay"))]
    errors::time,
    // the last two, for each has a table of its own
    #[cfg(all(entry = "walk", entry = "replay"))]
    walk::time,
    bytes::time,
];

/// What the archive has no entries for.
const MISSING: &[&str] = &[
    #[cfg(not(all(entry = "predict_planar_into", entry = "predict_dc_into")))]
    "planar and DC",
    #[cfg(not(entry = "predict_angular_slices"))]
    "angular",
    #[cfg(not(all(entry = "filter_references", entry = "filter_luma_refs")))]
    "smoothing",
    #[cfg(not(entry = "get_reference_samples"))]
    "luma gather",
    #[cfg(not(entry = "get_reference_samples_chroma_pair"))]
    "chroma pair gather",
    #[cfg(not(all(entry = "compute_residual_i32_into", entry = "reconstruct_into")))]
    "residual and reconstruction",
    #[cfg(not(entry = "picture_checksum"))]
    "checksum",
    #[cfg(not(entry = "choose_mode"))]
    "choice of a mode",
    #[cfg(not(all(entry = "walk", entry = "replay")))]
    "walk and replay",
];

fn main() {
    #[cfg(against)]
    if std::env::args().any(|word| word == "against") {
        return against::time();
    }
    let mut table = Table::new(std::env::args().any(|word| word == "modes"));
    let asked = |name| std::env::args().any(|word| word == name);
    #[cfg(entry = "choose_mode")]
    if asked("choose") {
        choose::time(&mut table);
        return table.finish(MISSING);
    }
    #[cfg(all(entry = "walk", entry = "replay"))]
    if asked("errors") {
        errors::time(&mut table);
        return table.finish(MISSING);
    }
    let chosen = if asked("bytes") { &SUBJECTS[SUBJECTS.len() - 1..] } else { SUBJECTS };
    for subject in chosen {
        subject(&mut table);
    }
    table.finish(MISSING);
}
