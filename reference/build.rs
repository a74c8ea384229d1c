//! Links the planner library, and only under the feature `library`.

use std::env;
use std::fs;
use std::path::{Path, PathBuf};

const ARCHIVE: &str = "libplanner.a";
const ENTRIES: [&str; 10] = [
    "planner_read_text",
    "planner_check_record",
    "planner_check_state",
    "planner_build_tables",
    "planner_spread",
    "planner_additive",
    "planner_value",
    "planner_search",
    "planner_check_plan",
    "planner_upgrade_record",
];

/// PLANNER_LIB names the archive or its directory; without it the archive of
/// the repository above is taken.
fn archive() -> PathBuf {
    let named = env::var_os("PLANNER_LIB").map(PathBuf::from);
    let above = || Path::new(env!("CARGO_MANIFEST_DIR")).join("../target/staticlib/libplanner.a");
    let path = named.unwrap_or_else(above);
    if path.is_dir() { path.join(ARCHIVE) } else { path }
}

/// The entries that the archive exports: one that is still missing must not
/// keep the others from being linked.
fn exported(archive: &Path) -> Vec<&'static str> {
    let bytes = fs::read(archive).unwrap_or_default();
    let listed = |entry: &&str| {
        let symbol = [entry.as_bytes(), b"\0"].concat();
        bytes.windows(symbol.len()).any(|window| window == symbol)
    };
    ENTRIES.into_iter().filter(listed).collect()
}

fn main() {
    println!("cargo::rerun-if-changed=build.rs");
    let values = ENTRIES.map(|entry| format!("{entry:?}")).join(", ");
    println!("cargo::rustc-check-cfg=cfg(exported, values({values}))");
    println!("cargo::rerun-if-env-changed=PLANNER_LIB");
    if env::var_os("CARGO_FEATURE_LIBRARY").is_none() {
        return;
    }
    let archive = archive();
    println!("cargo::rerun-if-changed={}", archive.display());
    // The copy gets the name the linker looks for, whatever the file is called.
    let out = PathBuf::from(env::var_os("OUT_DIR").expect("cargo sets OUT_DIR"));
    if let Err(error) = fs::copy(&archive, out.join(ARCHIVE)) {
        println!(
            "cargo::error=no planner library at {} ({error}); set PLANNER_LIB",
            archive.display()
        );
        return;
    }
    let exported = exported(&archive);
    println!("cargo::rustc-env=PLANNER_ENTRIES={}", exported.join(","));
    exported.iter().for_each(|entry| println!("cargo::rustc-cfg=exported={entry:?}"));
    println!("cargo::rustc-link-search=native={}", out.display());
    println!("cargo::rustc-link-lib=static=planner");
}
