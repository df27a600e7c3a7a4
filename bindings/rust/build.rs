//! Says where `libmirfodwel.a` is: in the folder that the variable `MIRFODWEL_LIB` names, else in `out` of the repository's top.
use std::path::PathBuf;

fn main() {
    println!("cargo:rerun-if-env-changed=MIRFODWEL_LIB");
    let folder = std::env::var_os("MIRFODWEL_LIB")
        .map_or_else(|| PathBuf::from(env!("CARGO_MANIFEST_DIR")).join("../../out"), PathBuf::from);
    let archive = folder.join("libmirfodwel.a");
    if !archive.is_file() {
        // `cargo check` goes on without it; what links does not.
        println!(
            "cargo:warning=there is no {}: `./library` in the top folder of the repository makes it in `out`, \
             and the variable MIRFODWEL_LIB may name another folder",
            archive.display()
        );
    }
    println!("cargo:rerun-if-changed={}", archive.display());
    println!("cargo:rustc-link-search=native={}", folder.display());
    println!("cargo:rustc-link-lib=static=mirfodwel");
}
