//! Compiles the reader of drawings, tinyobjloader (Debian's libtinyobjloader-dev), for the target.
fn main() {
    println!("cargo:rerun-if-changed=src/obj.cpp");
    if !std::path::Path::new("/usr/include/tiny_obj_loader.h").exists() {
        eprintln!("plate: no /usr/include/tiny_obj_loader.h. Run plate/setup, or install Debian's package libtinyobjloader-dev.");
        std::process::exit(1);
    }
    cc::Build::new().cpp(true).file("src/obj.cpp").flag("-std=c++11").flag("-ffp-contract=off").warnings(false).opt_level(2).compile("plate_obj");
}
