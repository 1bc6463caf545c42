//! Tells cargo to link the module's archive, which XISTALVO_ARCHIVE names.

use std::path::Path;

fn main() {
    println!("cargo:rerun-if-env-changed=XISTALVO_ARCHIVE");
    let archive = std::env::var("XISTALVO_ARCHIVE").expect("XISTALVO_ARCHIVE names no archive of the module");
    let archive = Path::new(&archive);
    let folder = archive.parent().expect("an archive lies in a folder");
    let file = archive.file_name().and_then(|name| name.to_str()).expect("an archive has a name");
    println!("cargo:rerun-if-changed={}", archive.display());
    println!("cargo:rustc-link-search=native={}", folder.display());
    println!("cargo:rustc-link-lib=static:+verbatim={file}");
}
