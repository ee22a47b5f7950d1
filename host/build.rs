// Links the archive that `scripts/build feguavy` writes, or the one in the folder that FEGUAVY_ARCHIVE names.
use std::path::PathBuf;

fn main() {
    println!("cargo:rerun-if-env-changed=FEGUAVY_ARCHIVE");
    let folder = std::env::var_os("FEGUAVY_ARCHIVE")
        .map(PathBuf::from)
        .unwrap_or_else(|| PathBuf::from(std::env::var_os("CARGO_MANIFEST_DIR").unwrap()).join("../target/staticlib"));
    let archive = folder.join("libfeguavy.a");
    println!("cargo:rerun-if-changed={}", archive.display());
    if !archive.is_file() {
        eprintln!("the proved archive is not there: {}", archive.display());
        eprintln!("write it by `scripts/build feguavy` in the repository, or name its folder in FEGUAVY_ARCHIVE");
        std::process::exit(1);
    }
    println!("cargo:rustc-link-search=native={}", folder.display());
    println!("cargo:rustc-link-lib=static=feguavy");
}
