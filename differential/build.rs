//! Links the import and the export by hand, which `differential/build` has compiled, and the static library that its `--with LIBRARY` names,
//! where the feature `library` is on.

use std::path::Path;

fn main() {
    println!("cargo:rerun-if-changed=build.rs");
    println!("cargo:rerun-if-env-changed=JUZONTEFA_LIBRARY");
    link(Path::new(env!("CARGO_MANIFEST_DIR")).join("target/by_hand/libby_hand.a").to_str().unwrap_or_default());
    if std::env::var_os("CARGO_FEATURE_LIBRARY").is_none() {
        return;
    }
    link(&std::env::var("JUZONTEFA_LIBRARY").unwrap_or_default());
}

/// Links a static library `libNAME.a`.
fn link(library: &str) {
    let path = Path::new(library);
    let name =
        path.file_name().and_then(|name| name.to_str()).and_then(|name| name.strip_prefix("lib")?.strip_suffix(".a"));
    let (Some(folder), Some(name)) = (path.parent(), name) else {
        panic!("no static library libNAME.a: {library}");
    };
    println!("cargo:rerun-if-changed={library}");
    println!("cargo:rustc-link-search=native={}", folder.display());
    println!("cargo:rustc-link-lib=static={name}");
}
