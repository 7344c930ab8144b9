//! Links the archive libdct.a, from the folder that DCT_LIB_DIR names or from where `bindings/shared` builds it, and takes the numbers of
//! the refusals with their sentences from dct.h, in the folder that DCT_INCLUDE_DIR names or in the repository's.
use std::path::{Path, PathBuf};
use std::{env, fs, process};

fn stop(why: String) -> ! {
    eprintln!("dct: {why}");
    process::exit(1);
}

/// A file in the folder that a variable names, or else in the repository's.
fn found(variable: &str, folder: &str, name: &str, advice: &str) -> PathBuf {
    println!("cargo:rerun-if-env-changed={variable}");
    let here = env::var_os("CARGO_MANIFEST_DIR").expect("cargo sets it");
    let folder = Path::new(&here).join(env::var_os(variable).unwrap_or_else(|| folder.into()));
    let file = folder.join(name);
    println!("cargo:rerun-if-changed={}", file.display());
    if !file.is_file() {
        stop(format!("no {name} in {}: {advice}; or set {variable} to another folder, by its whole path", folder.display()));
    }
    file
}

/// The numbers of the header as lines of the macro `numbers`. They are of the enum that starts with `DCT_OK`, and of no other.
fn numbers(header: &str) -> String {
    let lines = header.lines().skip_while(|line| !line.starts_with("    DCT_OK = ")).take_while(|line| *line != "};");
    lines
        .filter_map(|line| line.strip_prefix("    DCT_"))
        .map(|line| {
            let parts = line.split_once(" = ").zip(line.split_once("/* "));
            let ((name, rest), (_, sentence)) = parts.unwrap_or_else(|| stop(format!("dct.h has no number in '{line}'")));
            let number: u32 = rest.chars().take_while(char::is_ascii_digit).collect::<String>().parse().expect("a number");
            format!("{name} = {number}, {:?};\n", sentence.trim_end_matches(" */"))
        })
        .collect()
}

/// The archive is code for one machine, and a linker would only say that it finds no function.
fn see_machine() {
    let target = |part: &str| env::var(format!("CARGO_CFG_TARGET_{part}")).unwrap_or_default();
    if target("ARCH") != "x86_64" || target("OS") != "linux" || target("POINTER_WIDTH") != "64" {
        stop(format!(
            "the library is code for x86-64 Linux, and this build is for {} {}: 'library/x86-64 cargo' of the repository makes a cargo \
             that builds for it (docs/MACHINES.md)",
            target("ARCH"),
            target("OS")
        ));
    }
}

fn main() {
    see_machine();
    let archive = found(
        "DCT_LIB_DIR",
        "../../target/staticlib",
        "libdct.a",
        "'bindings/shared' builds it in target/staticlib of the repository",
    );
    println!("cargo:rustc-link-search=native={}", archive.parent().expect("it is in a folder").display());
    println!("cargo:rustc-link-lib=static=dct");
    let header = found("DCT_INCLUDE_DIR", "../../include", "dct.h", "the repository has it in include");
    let text = fs::read_to_string(header).unwrap_or_else(|error| stop(error.to_string()));
    let out = Path::new(&env::var_os("OUT_DIR").expect("cargo sets it")).join("numbers.rs");
    fs::write(out, format!("numbers! {{\n{}}}\n", numbers(&text))).unwrap_or_else(|error| stop(error.to_string()));
}
