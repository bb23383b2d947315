//! Builds the Rust as tests/differential does, links the archives that `run` made (PROBES is their folder), and tells the
//! driver which entries the archive has: `cfg(entry = "NAME")` for each `salvrunde_probe_NAME`. Where AGAINST names the folder of another
//! commit's archives, it links these too, tells `cfg(against)`, and writes the list of the entries that both have.
use std::collections::BTreeMap;
use std::path::Path;
use std::{env, fs};

#[path = "../differential/build.rs"]
mod oracle;

fn main() {
    oracle::main();
    println!("cargo:rerun-if-changed=../differential/build.rs");
    let folder = env::var("PROBES").expect("run tests/bench/run, which makes the archives");
    println!("cargo:rerun-if-env-changed=PROBES");
    println!("cargo:rustc-link-search=native={folder}");
    for name in ["probes", "camera"] {
        println!("cargo:rerun-if-changed={folder}/lib{name}.a");
        println!("cargo:rustc-link-lib=static={name}");
    }
    println!("cargo:rustc-check-cfg=cfg(entry, values(any()))");
    let mut text = String::new();
    // the structs stand in the libraries, the entries in the archives' own crates
    for name in ["probes", "camera", "probes_c", "camera_c"] {
        let folder = format!("../../crates/{name}/src");
        println!("cargo:rerun-if-changed={folder}");
        for file in fs::read_dir(folder).unwrap() {
            text += &fs::read_to_string(file.unwrap().path()).unwrap();
        }
    }
    let here = entries(&text);
    for name in here.keys().filter_map(|name| name.strip_prefix("salvrunde_probe_")) {
        println!("cargo:rustc-cfg=entry={name:?}");
    }
    println!("cargo:rerun-if-env-changed=AGAINST");
    println!("cargo:rustc-check-cfg=cfg(against)");
    if let Ok(folder) = env::var("AGAINST") {
        against(&here, &folder);
    }
}

/// An entry as both sides' are compared: the types of its arguments and of its answer, the plan of numbers as one word; and whether
/// the plan is four slices.
#[derive(PartialEq)]
struct Entry {
    types: String,
    slices: bool,
}

/// The entries of crates' texts.
fn entries(text: &str) -> BTreeMap<String, Entry> {
    let mut found = BTreeMap::new();
    for part in text.split("pub extern \"C\" fn ").skip(1) {
        // the contract and the body begin lines of their own
        let head = part.split("\n    ensures").next().unwrap().split("\n{").next().unwrap();
        let (name, rest) = head.split_once('(').unwrap();
        let (arguments, answer) = rest.rsplit_once(')').unwrap();
        let arguments = arguments.split(',').filter_map(|a| a.split_once(": ")).map(|(_, kind)| kind.trim());
        let types = arguments.collect::<Vec<_>>().join(", ");
        let four = ["&[u32]"; 4].join(", ");
        let slices = types.contains(&four);
        let types = types.replace(&four, "PLAN").replace("&[[u32; 4]]", "PLAN");
        found.insert(name.to_string(), Entry { types: format!("{types}{}", fields(text, answer)), slices });
    }
    found
}

/// A struct's fields, and those of the structs in it; of another type its name.
fn fields(text: &str, kind: &str) -> String {
    let name = kind.trim_matches(|c: char| !c.is_alphanumeric() && c != '_');
    let Some((_, rest)) = text.split_once(&format!("pub struct {name} {{")) else { return kind.to_string() };
    let body = rest.split('}').next().unwrap();
    let kinds = body.lines().filter_map(|line| line.trim().trim_end_matches(',').split_once(": "));
    format!(" -> {{{}}}", kinds.map(|(_, kind)| fields(text, kind)).collect::<Vec<_>>().join(", "))
}

/// Links the other archives, whose entries `run` renamed to `other_..`, and writes which entries both have, and which only one has or
/// with other arguments.
fn against(here: &BTreeMap<String, Entry>, folder: &str) {
    println!("cargo:rustc-cfg=against");
    println!("cargo:rustc-link-search=native={folder}");
    println!("cargo:rustc-link-lib=static=other");
    println!("cargo:rerun-if-changed={folder}/libother.a");
    let there = entries(&fs::read_to_string(format!("{folder}/entries.rt.txt")).unwrap());
    let (mut declared, mut both, mut apart) = (String::new(), String::new(), String::new());
    for (name, entry) in here {
        match there.get(name) {
            Some(other) if other.types == entry.types => {
                declared += &format!("    fn {name}();\n    fn other_{name}();\n");
                both += &format!("    ({name:?}, [({name}, {}), (other_{name}, {})]),\n", entry.slices, other.slices);
            }
            Some(_) => apart += &format!("    ({name:?}, \"takes or gives something else there\"),\n"),
            None => apart += &format!("    ({name:?}, \"is not there\"),\n"),
        }
    }
    for name in there.keys().filter(|name| !here.contains_key(*name)) {
        apart += &format!("    ({name:?}, \"is only there\"),\n");
    }
    let text = format!(
        "type Call = unsafe extern \"C\" fn();\nunsafe extern \"C\" {{\n{declared}}}\n\
         pub const BOTH: &[(&str, [(Call, bool); 2])] = &[\n{both}];\npub const APART: &[(&str, &str)] = &[\n{apart}];\n"
    );
    fs::write(Path::new(&env::var("OUT_DIR").unwrap()).join("sides.rs"), text).unwrap();
}
