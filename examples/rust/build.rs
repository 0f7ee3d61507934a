//! Links the library, from the folder that `TXOS_LIBRARY` names, or else where the linker looks.
use std::env;

fn main() {
    println!("cargo:rerun-if-env-changed=TXOS_LIBRARY");
    if let Ok(folder) = env::var("TXOS_LIBRARY") {
        println!("cargo:rustc-link-search=native={folder}");
    }
    println!("cargo:rustc-link-lib=static=txos");
}
