//! Links the archive under test: `libmvpn.a` in the directory that `MVPN_LIB_DIR` names.

use std::{env, path::PathBuf};

fn main() {
    let package = PathBuf::from(env::var("CARGO_MANIFEST_DIR").expect("cargo names the package's directory"));
    let given = env::var("MVPN_LIB_DIR").unwrap_or_else(|_| "../target/staticlib".into());
    // A relative directory is taken from the package, whatever directory cargo was started in.
    let directory = package.join(given);
    println!("cargo:rerun-if-env-changed=MVPN_LIB_DIR");
    println!("cargo:rerun-if-changed={}", directory.join("libmvpn.a").display());
    println!("cargo:rustc-link-search=native={}", directory.display());
    println!("cargo:rustc-link-lib=static=mvpn");
    // Octets by which the benchmark's code is moved.
    println!("cargo:rerun-if-env-changed=BENCH_SHIFT");
    println!("cargo:rustc-env=BENCH_SHIFT={}", env::var("BENCH_SHIFT").unwrap_or_else(|_| "0".into()));
}
