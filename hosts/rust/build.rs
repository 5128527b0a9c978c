//! Finds the static libraries of the enabled features and links them.
//!
//! They stand in the folder that PAXOS_COMMIT_LIB_DIR names; where it is not set, in target/staticlib of the repository
//! that this crate is part of, where the first commands of docs/HOSTS.md put what `rt lib` makes of each.

use std::env;
use std::path::{Path, PathBuf};

/// A feature, as Cargo names it to a build script, and its static library.
const LIBRARIES: [(&str, &str); 7] = [
    ("CARGO_FEATURE_MESSAGE", "host_message"),
    ("CARGO_FEATURE_DELIVER", "host_deliver"),
    ("CARGO_FEATURE_RM", "host_rm"),
    ("CARGO_FEATURE_ACCEPTOR", "host_acceptor"),
    ("CARGO_FEATURE_LEADER", "host_leader"),
    ("CARGO_FEATURE_RECORD", "host_record"),
    ("CARGO_FEATURE_BATCH", "host_batch"),
];

fn main() {
    println!("cargo::rerun-if-env-changed=PAXOS_COMMIT_LIB_DIR");
    println!("cargo::rerun-if-changed=build.rs");

    let architecture = env::var("CARGO_CFG_TARGET_ARCH").unwrap_or_default();
    if architecture != "x86_64" {
        println!(
            "cargo::error=the static libraries of the proved calls are made for x86_64 only, and the target is {architecture}"
        );
        return;
    }

    let folder = folder();
    let names: Vec<&str> =
        LIBRARIES.iter().filter(|(feature, _)| env::var_os(feature).is_some()).map(|&(_, name)| name).collect();
    let missing: Vec<&str> = names.iter().copied().filter(|name| !archive(&folder, name).is_file()).collect();
    if !missing.is_empty() {
        for name in &missing {
            println!("cargo::error=missing: {}", archive(&folder, name).display());
        }
        println!("cargo::error=to make them, in the root of the repository:{}", commands(&missing));
        println!(
            "cargo::error=or set PAXOS_COMMIT_LIB_DIR to the folder that has them, or enable only the features that are needed"
        );
        return;
    }
    for name in names {
        println!("cargo::rerun-if-changed={}", archive(&folder, name).display());
        println!("cargo::rustc-link-lib=static={name}");
    }
    println!("cargo::rustc-link-search=native={}", folder.display());
}

fn folder() -> PathBuf {
    if let Some(folder) = env::var_os("PAXOS_COMMIT_LIB_DIR") {
        return PathBuf::from(folder);
    }
    let here = PathBuf::from(env::var_os("CARGO_MANIFEST_DIR").unwrap_or_default());
    let root = here.ancestors().nth(2).unwrap_or(&here);
    root.join("target").join("staticlib")
}

fn archive(folder: &Path, name: &str) -> PathBuf {
    folder.join(format!("lib{name}.a"))
}

fn commands(names: &[&str]) -> String {
    let made =
        |name: &&str| format!(" (cd crates/{name} && rt lib) && cp crates/{name}/out/lib{name}.a target/staticlib/;");
    let all = names.iter().map(made).collect::<String>();
    format!(" mkdir -p target/staticlib;{}", all.trim_end_matches(';'))
}
