//! Links libgeaidnosa.a: from GEAIDNOSA_LIB (the file, or the folder that has it), else from the repository's crates/geaidnosa/out.
use std::{env, path::PathBuf, process::exit};

fn main() {
    println!("cargo:rerun-if-env-changed=GEAIDNOSA_LIB");
    if env::var("CARGO_CFG_TARGET_ARCH").as_deref() != Ok("x86_64") {
        eprintln!("geaidnosa: the archive is x86-64's. Build with --target x86_64-unknown-linux-gnu (plate/setup does, and installs what that needs).");
        exit(1);
    }
    let here = PathBuf::from(env::var("CARGO_MANIFEST_DIR").expect("cargo sets it"));
    let named = env::var_os("GEAIDNOSA_LIB").map_or_else(|| here.join("../crates/geaidnosa/out"), PathBuf::from);
    let archive = if named.is_dir() { named.join("libgeaidnosa.a") } else { named };
    println!("cargo:rerun-if-changed={}", archive.display());
    let named_right = archive.file_name().map_or(false, |name| name == "libgeaidnosa.a");
    if !archive.is_file() || !named_right {
        eprintln!("geaidnosa: no libgeaidnosa.a at {}.", archive.display());
        eprintln!("Make it with `rt lib` in the repository's crates/geaidnosa, or set GEAIDNOSA_LIB to the folder that has it.");
        exit(1);
    }
    let folder = archive.parent().expect("a file has a folder").canonicalize().expect("the archive's folder");
    println!("cargo:rustc-link-search=native={}", folder.display());
    println!("cargo:rustc-link-lib=static=geaidnosa");
}
