//! Links the archives of the proved crate that has the name of the package and of those that go with it, which `rt lib`
//! writes.

use std::path::Path;

fn main() {
    let given = |name: &str| std::env::var(name).expect("cargo sets it");
    let (here, name) = (given("CARGO_MANIFEST_DIR"), given("CARGO_PKG_NAME"));
    let mut names = vec![name];
    if names[0] == "tilde" {
        names.push("tilde_windows".to_string());
    }
    for name in names {
        let folder = Path::new(&here).join(format!("../../crates/{name}/out"));
        let archive = folder.join(format!("lib{name}.a"));
        if !archive.exists() {
            eprintln!("crates/{name}/out/lib{name}.a is missing: run `rt lib` in crates/{name}");
            std::process::exit(1);
        }
        println!("cargo:rustc-link-search=native={}", folder.display());
        println!("cargo:rerun-if-changed={}", archive.display());
        println!("cargo:rustc-link-lib=static={name}");
    }
}
