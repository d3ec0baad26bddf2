//! Links the library under test, libbulgefs.a, from the folder BULGEFS_LIB_DIR.

use std::env;
use std::path::PathBuf;

fn main() {
    println!("cargo:rerun-if-env-changed=BULGEFS_LIB_DIR");
    let folder = match env::var("BULGEFS_LIB_DIR") {
        Ok(folder) => PathBuf::from(folder),
        Err(_) => fail("set BULGEFS_LIB_DIR to the folder that holds libbulgefs.a"),
    };
    let library = folder.join("libbulgefs.a");
    if !library.is_file() {
        fail(&format!("there is no {}", library.display()));
    }
    println!("cargo:rerun-if-changed={}", library.display());
    println!("cargo:rustc-link-search=native={}", folder.display());
    println!("cargo:rustc-link-lib=static=bulgefs");
}

fn fail(message: &str) -> ! {
    eprintln!("error: {message}");
    std::process::exit(1);
}
