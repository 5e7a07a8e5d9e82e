//! Links the static library: from the folder XIENGMADO_LIB, or where `make library` puts it.

use std::env;
use std::path::PathBuf;

fn main() {
    println!("cargo:rerun-if-env-changed=XIENGMADO_LIB");
    let folder = match env::var_os("XIENGMADO_LIB") {
        Some(folder) => PathBuf::from(folder),
        None => {
            PathBuf::from(env::var_os("CARGO_MANIFEST_DIR").unwrap()).join("../target/staticlib")
        }
    };
    let archive = folder.join("libxiengmado.a");
    println!("cargo:rerun-if-changed={}", archive.display());
    if !archive.is_file() {
        eprintln!(
            "There is no {}: run `make library` in the project's folder, or set XIENGMADO_LIB to the folder of libxiengmado.a.",
            archive.display()
        );
        std::process::exit(1);
    }
    println!("cargo:rustc-link-search=native={}", folder.display());
    println!("cargo:rustc-link-lib=static=xiengmado");
}
