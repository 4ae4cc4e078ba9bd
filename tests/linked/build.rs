//! Links the static libraries that `rt lib` writes in the folders of the crates, or
//! those in the folder STATICLIB. The gate makes those of the crates named `.._c`.
//! A folder STATICLIB may be that of an older build, without those of LATER: what
//! calls none of their functions links all the same. The check of a build that gives
//! no looks must not be called: its answer is shorter.

use std::{
    env,
    path::{Path, PathBuf},
    process::exit,
};

const LIBRARIES: &[&str] = &["lock_c", "bench_c", "convert_c", "chain_c"];
const LATER: &[&str] = &["convert_c", "chain_c"];

fn main() {
    let package = env::var("CARGO_MANIFEST_DIR").expect("cargo sets it");
    let given = env::var("STATICLIB").ok();
    let folder_of = |name: &str| match &given {
        Some(given) => PathBuf::from(given),
        None => Path::new(&package).join(format!("../../crates/{name}/out")),
    };
    println!("cargo:rerun-if-changed=build.rs");
    println!("cargo:rerun-if-env-changed=STATICLIB");
    println!("cargo:rerun-if-env-changed=PAD");
    println!("cargo:rustc-check-cfg=cfg(padded)");
    if env::var("PAD").is_ok() {
        println!("cargo:rustc-cfg=padded");
    }
    for name in LIBRARIES {
        let folder = folder_of(name);
        let archive = folder.join(format!("lib{name}.a"));
        println!("cargo:rerun-if-changed={}", archive.display());
        if !archive.exists() {
            if given.is_some() && LATER.contains(name) {
                continue;
            }
            eprintln!(
                "{} is missing: run `rt lib` in crates/{name} first",
                archive.display()
            );
            exit(1);
        }
        println!("cargo:rustc-link-search=native={}", folder.display());
        println!("cargo:rustc-link-lib=static={name}");
    }
}
