//! Tells the compiler where the original's diag_coded_type.rs stands.
use std::{env, path::Path};

fn main() {
    println!("cargo::rerun-if-env-changed=CDA_SRC");
    // from the repository's root, as all of its commands are called
    let root = Path::new(&env::var("CARGO_MANIFEST_DIR").unwrap()).join("../..");
    let tree = env::var("CDA_SRC").unwrap_or_else(|_| "../shared/docs/src".to_owned());
    let source = root.join(tree).join("cda-database/src/datatypes/diag_coded_type.rs");
    let source = source.canonicalize().unwrap_or_else(|e| panic!("{}: {e}; CDA_SRC names the source tree", source.display()));
    println!("cargo::rerun-if-changed={}", source.display());
    println!("cargo::rustc-env=DIAG_CODED_TYPE={}", source.display());
}
