//! Finds the archive `libresolver_c.a`: in the folder that RESOLVER_LIB names, or where the
//! repository makes it.
use std::env;
use std::path::{Path, PathBuf};
use std::process::exit;

const ARCHIVE: &str = "libresolver_c.a";

fn folder() -> PathBuf {
    match env::var_os("RESOLVER_LIB") {
        Some(named) => PathBuf::from(named),
        None => {
            let top = Path::new(env!("CARGO_MANIFEST_DIR")).ancestors().nth(3);
            top.unwrap_or(Path::new("/")).join("crates/resolver_c/out")
        }
    }
}

fn main() {
    let folder = folder();
    println!("cargo:rerun-if-env-changed=RESOLVER_LIB");
    println!("cargo:rerun-if-changed={}", folder.join(ARCHIVE).display());
    if !folder.join(ARCHIVE).is_file() {
        eprintln!(
            "There is no {ARCHIVE} in {}. Run `tools/archive` at the top of the repository to prove and build it, \
             or name a folder that has it: RESOLVER_LIB=FOLDER cargo build.",
            folder.display()
        );
        exit(1);
    }
    println!("cargo:rustc-link-search=native={}", folder.display());
    println!("cargo:rustc-link-lib=static=resolver_c");
}
