//! Tells the linker where the proved library is: the folder named by
//! GEARCINDER_LIB_DIR has libembed.a.

use std::path::Path;

const FOLDER: &str = "GEARCINDER_LIB_DIR";

fn main() {
    println!("cargo:rerun-if-env-changed={FOLDER}");
    let Ok(folder) = std::env::var(FOLDER) else {
        panic!("set {FOLDER} to the folder of libembed.a; `rt lib` in crates/embed writes it to crates/embed/out")
    };
    let library = Path::new(&folder).join("libembed.a");
    if !library.is_file() {
        panic!("{FOLDER}: there is no file {}", library.display());
    }
    println!("cargo:rerun-if-changed={}", library.display());
    println!("cargo:rustc-link-search=native={folder}");
}
