//! Links the archive of the library under test.

use std::path::Path;

const WHERE: &str = "DISPLAY_ARCHIVE_DIR";

fn main() {
    println!("cargo:rerun-if-env-changed={WHERE}");
    let Ok(folder) = std::env::var(WHERE) else {
        panic!("{WHERE} is not set: it must name the folder that holds libdisplay.a");
    };
    let archive = Path::new(&folder).join("libdisplay.a");
    // Named even where it is missing, so that the next build looks again.
    println!("cargo:rerun-if-changed={}", archive.display());
    if !archive.is_file() {
        panic!("{} does not exist ({WHERE} is {folder})", archive.display());
    }
    println!("cargo:rustc-link-search=native={folder}");
    println!("cargo:rustc-link-lib=static=display");
}
