//! Links the proved library, libcrr.a: from the folder that CRR_LIB_DIR names, else from dist/ of the clone that this crate stands in, else from where `./library`
//! leaves it.
use std::env;
use std::path::{Path, PathBuf};

fn main() {
    println!("cargo:rerun-if-env-changed=CRR_LIB_DIR");
    let here = env::var("CARGO_MANIFEST_DIR").expect("cargo names the folder");
    let clone = Path::new(&here).join("../..");
    let shipped = match env::var("CARGO_CFG_TARGET_ARCH").as_deref() {
        Ok("aarch64") => "dist/aarch64-linux",
        _ => "dist/x86-64-linux",
    };
    let folders = match env::var_os("CRR_LIB_DIR") {
        Some(asked) => vec![PathBuf::from(asked)],
        None => vec![clone.join(shipped), clone.join("target/staticlib")],
    };
    let Some(folder) = folders.iter().find(|folder| folder.join("libcrr.a").is_file()) else {
        let places: Vec<String> = folders.iter().map(|folder| folder.display().to_string()).collect();
        eprintln!("crr: no libcrr.a in {}: ./library builds it, CRR_LIB_DIR names another folder", places.join(" or "));
        std::process::exit(1);
    };
    println!("cargo:rustc-link-search=native={}", folder.display());
    println!("cargo:rustc-link-lib=static=crr");
    println!("cargo:rerun-if-changed={}", folder.join("libcrr.a").display());
}
