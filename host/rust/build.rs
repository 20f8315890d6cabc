//! Links the static library `libjuzontefa.a` from the folder that JUZONTEFA_LIB names, or else from `target/staticlib` of the
//! repository, where `host/library` leaves it. A folder that is not absolute is taken from the one of this file.

use std::env;
use std::path::{Path, PathBuf};
use std::process::ExitCode;

fn main() -> ExitCode {
    println!("cargo:rerun-if-changed=build.rs");
    println!("cargo:rerun-if-env-changed=JUZONTEFA_LIB");
    let here = PathBuf::from(env::var_os("CARGO_MANIFEST_DIR").unwrap_or_default());
    let folder = match env::var_os("JUZONTEFA_LIB") {
        Some(folder) => here.join(folder),
        None => here.join("../../target/staticlib"),
    };
    match link(&folder) {
        Ok(()) => ExitCode::SUCCESS,
        Err(what) => {
            eprintln!("juzontefa: {what}");
            eprintln!("juzontefa: build the library with `host/library`, or name its folder by the variable JUZONTEFA_LIB");
            ExitCode::FAILURE
        }
    }
}

fn link(folder: &Path) -> Result<(), String> {
    let folder = folder.canonicalize().map_err(|error| format!("no folder {}: {error}", folder.display()))?;
    let library = folder.join("libjuzontefa.a");
    if !library.is_file() {
        return Err(format!("no libjuzontefa.a in {}", folder.display()));
    }
    println!("cargo:rerun-if-changed={}", library.display());
    println!("cargo:rustc-link-search=native={}", folder.display());
    println!("cargo:rustc-link-lib=static=juzontefa");
    Ok(())
}
