//! Cuts `extract_bits` and `set_bit_checked` out of the original's util.rs, unchanged.
use std::{env, fs, path::Path};

/// The text of a function at the outermost level, from its `pub fn` to the brace that closes it.
fn cut(text: &str, name: &str) -> String {
    let start = text.find(&format!("pub fn {name}(")).unwrap_or_else(|| panic!("util.rs has no function {name}"));
    let end = text[start..].find("\n}\n").unwrap_or_else(|| panic!("{name} has no end in util.rs"));
    text[start..start + end + 3].to_owned()
}

fn main() {
    println!("cargo::rerun-if-env-changed=CDA_SRC");
    // from the repository's root, as all of its commands are called
    let root = Path::new(&env::var("CARGO_MANIFEST_DIR").unwrap()).join("../..");
    let tree = env::var("CDA_SRC").unwrap_or_else(|_| "../shared/docs/src".to_owned());
    let source = root.join(tree).join("cda-interfaces/src/util.rs");
    println!("cargo::rerun-if-changed={}", source.display());
    let text =
        fs::read_to_string(&source).unwrap_or_else(|e| panic!("{}: {e}; CDA_SRC names the source tree", source.display()));
    let functions = cut(&text, "extract_bits") + &cut(&text, "set_bit_checked");
    fs::write(Path::new(&env::var("OUT_DIR").unwrap()).join("util.rs"), functions).unwrap();
}
