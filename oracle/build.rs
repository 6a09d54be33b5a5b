//! Builds the port's archives and lays the listed Rust files ready, unchanged.
//!
//! The Rust is read from KINAVIS_SRC, or from `../shared/docs/src` beside the repository, and copied into OUT_DIR; none of
//! it is kept here. Every copy is the file's text, byte for byte; those of assessment.rs and avoidance.rs have one line more, at their end (see `PROBED`).

use std::path::{Path, PathBuf};
use std::process::Command;
use std::{env, fs};

/// The archives with the port's C exports.
const ARCHIVES: &[&str] = &[
    "exports_leaves", "exports", "exports_report",
];

/// The listed files in use: module name and path below the sources' folder. The name `error` is the kernel's, and `assessment` and
/// `avoidance` are the program's own.
const LISTED: &[(&str, &str)] = &[
    ("math", "crates/kinavis-kernel/src/math.rs"),
    ("navigation_error", "crates/kinavis/src/error.rs"),
    ("relative_motion", "crates/kinavis/src/relative_motion.rs"),
    ("colregs", "crates/kinavis-colregs/src/lib.rs"),
    ("traffic_assessment", "crates/kinavis-traffic/src/assessment.rs"),
    ("traffic_avoidance", "crates/kinavis-traffic/src/avoidance.rs"),
    ("observation", "crates/kinavis-traffic/src/observation.rs"),
    ("track", "crates/kinavis-traffic/src/track.rs"),
];

/// The listed files whose private parts are references: the picture's fields, and `search` and `clears` over lists of contacts. A line
/// at the end of the copy names a child module in `oracle/src/kinavis/`, since a child may use what is private to its parent; the text
/// before that line is the file's.
const PROBED: &[(&str, &str)] = &[("traffic_assessment", "picture_probe.rs"), ("traffic_avoidance", "probe.rs")];

/// The listed files that a listed file names as its own module, which Rust then looks for beside it.
const NESTED: &[(&str, &str)] = &[("rules", "crates/kinavis-colregs/src/rules.rs")];

fn main() {
    let root = PathBuf::from(env::var("CARGO_MANIFEST_DIR").unwrap()).join("..");
    build_archives(&root);
    copy_listed(&root);
}

/// A crate is a library or a static library, and most of these are libraries, on which the program that replays rests. So the archives are built
/// in a copy of the crates, outside the repository, whose crates.txt calls them static libraries and has no programs.
fn build_archives(root: &Path) {
    let copy = env::temp_dir().join("dezhrovel-archives");
    let listed: String = fs::read_to_string(root.join("crates.txt")).unwrap().lines().filter_map(static_in).collect();
    fs::create_dir_all(&copy).unwrap();
    fs::write(copy.join("crates.txt"), listed).unwrap();
    copy_crates(&root.join("crates"), &copy.join("crates"));
    for name in ARCHIVES {
        let folder = copy.join("crates").join(name);
        let status = Command::new("rt").arg("lib").current_dir(&folder).status().expect("`rt` builds the port's archives");
        assert!(status.success(), "rt lib failed in {name}");
        println!("cargo:rustc-link-search=native={}", folder.join("out").display());
        println!("cargo:rustc-link-lib=static={name}");
    }
    println!("cargo:rerun-if-changed={}", root.join("crates.txt").display());
    for entry in fs::read_dir(root.join("crates")).unwrap() {
        println!("cargo:rerun-if-changed={}", entry.unwrap().path().join("src").display());
    }
}

/// A line of crates.txt as the copy has it: none for a program, which nothing here links.
fn static_in(line: &str) -> Option<String> {
    let Some((head, rest)) = line.split_once(':') else { return Some(format!("{line}\n")) };
    let name = head.split_whitespace().next().unwrap_or("");
    if name.ends_with("_main") || name == "encounter" {
        return None;
    }
    let kind = if ARCHIVES.contains(&name) { " staticlib" } else { "" };
    Some(format!("{name}{kind}:{rest}\n"))
}

/// Sources, definitions and proofs, written only where they differ, so that what an earlier build proved stays.
fn copy_crates(from: &Path, to: &Path) {
    fs::create_dir_all(to).unwrap();
    for entry in fs::read_dir(to).unwrap() {
        let entry = entry.unwrap();
        if entry.file_name() != "out" && !from.join(entry.file_name()).exists() {
            let gone = entry.path();
            if gone.is_dir() { fs::remove_dir_all(gone).unwrap() } else { fs::remove_file(gone).unwrap() }
        }
    }
    for entry in fs::read_dir(from).unwrap() {
        let entry = entry.unwrap();
        let (name, source) = (entry.file_name(), entry.path());
        if source.is_dir() {
            if name != "out" && name != "must-fail" {
                copy_crates(&source, &to.join(&name));
            }
        } else {
            let text = fs::read(&source).unwrap();
            if fs::read(to.join(&name)).ok().as_ref() != Some(&text) {
                fs::write(to.join(&name), text).unwrap();
            }
        }
    }
}

fn copy_listed(root: &Path) {
    let from = env::var("KINAVIS_SRC").map_or_else(|_| root.join("../shared/docs/src"), PathBuf::from);
    let out = PathBuf::from(env::var("OUT_DIR").unwrap());
    let copy = |module: &str, path: &str| {
        let (source, copy) = (from.join(path), out.join(format!("{module}.rs")));
        let mut text = fs::read(&source).unwrap_or_else(|e| panic!("{}: {e} (set KINAVIS_SRC)", source.display()));
        if let Some((_, probe)) = PROBED.iter().find(|(name, _)| *name == module) {
            text.extend(format!("#[path = {:?}] pub mod probe;\n", root.join("oracle/src/kinavis").join(probe)).bytes());
        }
        fs::write(&copy, text).unwrap();
        println!("cargo:rerun-if-changed={}", source.display());
        copy
    };
    let mut joined = String::new();
    for (module, path) in LISTED {
        // lib.rs of a crate has an attribute that is without effect in a module; within a crate no enum has cases to come.
        let allowed = "dead_code, unused_attributes, unreachable_patterns";
        joined += &format!("#[path = {:?}]\n#[allow({allowed})]\npub mod {module};\n", copy(module, path));
    }
    for (module, path) in NESTED {
        copy(module, path);
    }
    fs::write(out.join("listed.rs"), joined).unwrap();
    println!("cargo:rerun-if-env-changed=KINAVIS_SRC");
}
