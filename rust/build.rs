//! Finds the archive of the library and has it linked.

use std::path::{Path, PathBuf};
use std::{env, process};

const ARCHIVE: &str = "libumblacet.a";

fn main() {
    println!("cargo:rerun-if-env-changed=UMBLACET_LIB");
    println!("cargo:rerun-if-changed=build.rs");
    if target("ARCH") != "x86_64" || target("OS") != "linux" {
        give_up(&format!(
            "{ARCHIVE} links into x86-64 Linux programs alone: ask for --target x86_64-unknown-linux-gnu."
        ));
    }
    let folder = folder();
    let archive = folder.join(ARCHIVE);
    if !archive.is_file() {
        give_up(&format!(
            "There is no {}: make it by `rt lib` in crates/umblacet, or set UMBLACET_LIB to the folder that has it.",
            archive.display()
        ));
    }
    println!("cargo:rerun-if-changed={}", archive.display());
    println!("cargo:rustc-link-search=native={}", folder.display());
    println!("cargo:rustc-link-lib=static=umblacet");
}

/// What the program is built for, as cargo tells it.
fn target(what: &str) -> String {
    env::var(format!("CARGO_CFG_TARGET_{what}")).unwrap_or_default()
}

/// A relative UMBLACET_LIB is taken from this package's folder, as the default is: cargo runs this program there.
fn folder() -> PathBuf {
    let package = env::var_os("CARGO_MANIFEST_DIR").unwrap_or_default();
    let named = env::var_os("UMBLACET_LIB").filter(|named| !named.is_empty());
    Path::new(&package).join(named.unwrap_or_else(|| "../crates/umblacet/out".into()))
}

fn give_up(sentence: &str) -> ! {
    eprintln!("{sentence}");
    process::exit(1)
}
