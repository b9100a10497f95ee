//! Links the proved library: that of this repository, or that of the folder that `KEEPER_C_OUT` names.

use std::env;
use std::path::PathBuf;

fn main() {
    let here = PathBuf::from(env::var("CARGO_MANIFEST_DIR").expect("cargo sets it"));
    let out = env::var("KEEPER_C_OUT")
        .map_or_else(|_| here.join("../crates/keeper_c/out"), PathBuf::from);
    println!("cargo:rerun-if-env-changed=KEEPER_C_OUT");
    println!(
        "cargo:rerun-if-changed={}",
        out.join("libkeeper_c.a").display()
    );
    println!("cargo:rustc-link-search=native={}", out.display());
    println!("cargo:rustc-link-lib=static=keeper_c");
}
