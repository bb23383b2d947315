//! Runs the proved code beside the Rust that it was carried over from, and compares every answer.
//!
//! `differential -- HOST..` runs every subject and ends with status 1 where an answer differs.
//! `differential NAME.. -- HOST..` runs the subjects of those names alone.
//! `differential list -- HOST..` writes the fixed lists of the Rust's answers that the replay crates hold.
//!
//! A subject is a module with one function that makes calls through a `Tally`. To add one: write src/NAME.rs, add its line
//! to SUBJECTS, and add the entries that it calls to entries.txt.
mod assembled;
mod block;
mod checksum;
mod choose;
mod clauses;
mod differences;
mod entries;
mod errors;
mod fmt;
mod frame;
mod host;
mod lenses;
mod list;
mod list_predict;
mod list_refs;
mod message;
mod order;
mod plan;
mod predict;
mod random;
mod refs;
mod residual;
mod rows;
mod samples;
mod smooth;
mod standard;
mod step;
mod table;
mod tally;
mod walk;
mod zero;

/// The Rust of docs/src, unchanged; see build.rs.
mod oracle {
    include!(concat!(env!("OUT_DIR"), "/oracle.rs"));
}

use host::Host;
use std::process::ExitCode;
use std::sync::atomic::{AtomicUsize, Ordering};
use std::thread::{self, available_parallelism};
use tally::Tally;

type Subject = fn(&mut Tally);

const SUBJECTS: &[(&str, Subject)] = &[
    ("depth", fmt::depth),
    ("format", fmt::format),
    ("places", fmt::places),
    ("order", order::order),
    ("availability", order::availability),
    ("differences", order::differences),
    ("rule", smooth::rule),
    ("smoothing", smooth::smoothing),
    ("planar and DC", predict::planar_dc),
    ("angular", predict::angular),
    ("shorter rows", rows::shorter),
    ("residual", residual::residual),
    ("reconstruction", residual::reconstruction),
    ("differences in prediction", differences::prediction),
    ("substitution", refs::substitution),
    ("luma gather", refs::luma),
    ("zero", zero::zero),
    ("chroma pair gather", refs::chroma),
    ("chroma block", block::chroma),
    ("luma block", block::luma),
    ("plan check", plan::check),
    ("walk", walk::walk),
    ("replay", walk::replay),
    ("walk and replay refused", walk::refused),
    ("residual limit", walk::limit),
    ("lenses", lenses::lenses),
    ("differences in references", standard::differences),
    ("checksum", checksum::checksum),
    ("messages", checksum::messages),
    ("choose", choose::choose),
    ("chosen plans", walk::chosen),
    ("errors", errors::errors),
];

fn main() -> ExitCode {
    let words: Vec<String> = std::env::args().skip(1).collect();
    let cut = words.iter().position(|w| w == "--").expect("usage: differential [list | NAME..] -- HOST..");
    match words[..cut].first().map(String::as_str) {
        Some("list") => {
            list::write();
            list_predict::write();
            list_refs::write();
        }
        _ => return compare(&words[cut + 1..], &words[..cut]),
    }
    ExitCode::SUCCESS
}

/// Runs the subjects that are named, or all, on every processor, each worker with a host of its own; a name that is none leaves no calls, which fails.
fn compare(host: &[String], names: &[String]) -> ExitCode {
    let chosen: Vec<_> = SUBJECTS.iter().filter(|s| names.is_empty() || names.iter().any(|n| n == s.0)).collect();
    let workers = available_parallelism().map_or(1, |n| n.get()).min(chosen.len());
    let next = AtomicUsize::new(0);
    let work = || {
        let mut host = Host::start(host);
        let (mut calls, mut differ) = (0, 0);
        while let Some((name, subject)) = chosen.get(next.fetch_add(1, Ordering::Relaxed)) {
            let mut tally = Tally::new(name, &mut host);
            subject(&mut tally);
            let (c, d) = tally.finish();
            calls += c;
            differ += d;
        }
        (calls, differ)
    };
    let sums: Vec<(u64, u64)> = thread::scope(|s| {
        let running: Vec<_> = (0..workers).map(|_| s.spawn(work)).collect();
        running.into_iter().map(|w| w.join().expect("a subject ended early")).collect()
    });
    let calls: u64 = sums.iter().map(|s| s.0).sum();
    let differ: u64 = sums.iter().map(|s| s.1).sum();
    println!("differential: {calls} calls compared, {differ} differ");
    if differ == 0 && calls > 0 { ExitCode::SUCCESS } else { ExitCode::FAILURE }
}
