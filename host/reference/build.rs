//! MOXILTRA_ARCHIVE, if set, names the static library to compare with.

fn main() {
    println!("cargo::rustc-check-cfg=cfg(archive)");
    println!("cargo::rerun-if-env-changed=MOXILTRA_ARCHIVE");
    if let Ok(path) = std::env::var("MOXILTRA_ARCHIVE") {
        assert!(
            std::path::Path::new(&path).is_file(),
            "no archive at {path}"
        );
        println!("cargo::rerun-if-changed={path}");
        println!("cargo::rustc-cfg=archive");
        println!("cargo::rustc-link-arg={path}");
    }
}
