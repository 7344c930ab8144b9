//! Wrong edits of the library's source, noticed without a proof: each must-fail edit of code is put into a copy, and the programs
//! `replay` and `getters`, compiled but not proved, make the stored answers and the lines of the getters again.
use std::fs::{self, File};
use std::path::{Path, PathBuf};
use std::process::Command;
use std::{env, io};

/// The crates whose edits are not tried: `replay`, `stored_answers` and `getters` are what looks, and none of them calls what `storing` writes or what
/// `dct_c` hands to C, nor reads or writes a value, which is all that `encodings`, `numerals` and `values` are for.
const NOT_TRIED: [&str; 8] = ["dct_c", "encodings", "getters", "numerals", "replay", "stored_answers", "storing", "values"];

/// The edits that neither can show, and why.
const OUT_OF_REACH: [(&str, &str); 23] = [
    ("bits/set_two_bits", "nobody passes more than a bit"),
    ("calls/record_of_an_array_cut", "no exported function is told an array"),
    ("classes/class_of_37", "no class is stored"),
    ("classes/class_up_to_44", "no class is stored"),
    ("condensed/ones_of_first_byte_of_many", "no mask stored is longer than a slice may be"),
    ("dct/places_on_refusal", "no fetch is stored"),
    ("dct/store_for_the_record", "no fetch is stored"),
    ("dct/value_read_in_twos_complement", "no call on a value is stored"),
    ("dct/value_read_of_eight_bits", "no call on a value is stored"),
    ("dct/value_written_in_twos_complement", "no call on a value is stored"),
    ("dct/value_written_of_eight_bits", "no call on a value is stored"),
    ("field/payload_of_any_size", "no slice stored is as long as 43 needs"),
    ("field/record_past_its_limit", "no slice stored is as long as 43 needs"),
    ("field/store_as_long_as_a_payload", "no slice stored is as long as 43 needs"),
    ("parts/bytes_of_a_refusal_left_open", "it changes a contract and no code"),
    ("parts/empty_part_at_the_end", "neither prints where an empty part lies"),
    ("parts/place_left_open", "it changes a contract and no code"),
    ("parts/place_of_a_refusal_left_open", "it changes a contract and no code"),
    ("record/read16_low_byte_first", "no fetch is stored"),
    ("table/another_record", "no fetch is stored"),
    ("table/count_not_tested", "no fetch is stored"),
    ("table/total_size_not_tested", "no fetch is stored"),
    ("table/version_of_zero", "no fetch is stored"),
];

/// A must-fail edit of a source file: the file, and what is put in place of what.
struct Edit {
    name: String,
    file: PathBuf,
    changes: Vec<(String, String)>,
}

/// The names in a folder, in order.
fn names(folder: &Path) -> Vec<String> {
    let entries = fs::read_dir(folder).into_iter().flatten().flatten();
    let mut names: Vec<String> = entries.map(|entry| entry.file_name().to_string_lossy().into_owned()).collect();
    names.sort();
    names
}

/// The edit, if it is one of code.
fn read(crates: &Path, name: &str, label: &str) -> Option<Edit> {
    let text = fs::read_to_string(crates.join(name).join("must-fail").join(label)).ok()?;
    let after = |word| text.lines().filter_map(move |line: &str| line.strip_prefix(word)).map(str::to_owned);
    let file = after("file: ").next()?;
    let changes = after("old: ").zip(after("new: ")).collect();
    let name_of_edit = format!("{name}/{}", label.strip_suffix(".edit")?);
    file.starts_with("src/").then(|| Edit { name: name_of_edit, file: Path::new(name).join(file), changes })
}

fn copy(from: &Path, to: &Path) -> io::Result<()> {
    if from.is_file() {
        return fs::copy(from, to).map(|_| ());
    }
    fs::create_dir_all(to)?;
    // what rt has made in a crate is left
    names(from).iter().filter(|name| *name != "out").try_for_each(|name| copy(&from.join(name), &to.join(name)))
}

/// What a program with the edit prints on the way of `rt try`, or that a check stops it there, as at an index out of bounds.
#[derive(PartialEq)]
enum Tried {
    Printed(String),
    Stopped,
}

fn tried(work: &Path, program: &str) -> Tried {
    let folder = work.join("crates").join(program);
    let input = File::open(folder.join("stdin")).expect("the program's input");
    // the interpreter, which is too slow for these programs, gives up after its first step
    let run =
        Command::new("rt").args(["try", "--steps", "1"]).stdin(input).current_dir(&folder).output().expect("the command rt");
    let said = String::from_utf8_lossy(&run.stderr);
    match run.status.code() {
        Some(0) if said.contains("run=ended status=0 ") => Tried::Printed(String::from_utf8_lossy(&run.stdout).into_owned()),
        Some(STOPPED) => Tried::Stopped,
        _ => panic!("rt try of {program} fails: {said}"),
    }
}

/// The status of `rt try` where a check stops the program.
const STOPPED: i32 = 4;

/// How many of the stored answers come out otherwise; none if the program is stopped.
fn others(work: &Path) -> Option<u64> {
    let Tried::Printed(text) = tried(work, "replay") else { return None };
    let count = text.split(" the same, ").nth(1).and_then(|rest| rest.split(' ').next()?.parse().ok());
    Some(count.unwrap_or_else(|| panic!("replay prints: {text}")))
}

/// What the edit changes: so many stored answers, or none where replay is stopped; and if it changes no answer, whether lines of the getters.
fn changed(work: &Path, edit: &Edit) -> (Option<u64>, bool) {
    let file = work.join("crates").join(&edit.file);
    let before = fs::read_to_string(&file).expect("the file of an edit");
    let edited = edit.changes.iter().fold(before.clone(), |text, (old, new)| text.replacen(old, new, 1));
    assert!(edited != before, "{} changes nothing", edit.name);
    fs::write(&file, edited).expect("an edited file");
    let others = others(work);
    let lines = fs::read_to_string(work.join("crates/getters/stdout")).expect("the lines of the getters");
    let lines = others == Some(0) && tried(work, "getters") != Tried::Printed(lines);
    fs::write(&file, before).expect("the file as it was");
    (others, lines)
}

/// Prints what each edit changes, and answers whether all show but those out of reach.
pub fn run() -> bool {
    let root = Path::new(env!("CARGO_MANIFEST_DIR")).join("../..");
    let work = env::temp_dir().join(format!("edits-{}", std::process::id()));
    copy(&root.join("crates"), &work.join("crates")).expect("a copy of the crates");
    copy(&root.join("crates.txt"), &work.join("crates.txt")).expect("a copy of the list of crates");
    let (mut shown, mut in_lines, mut as_said) = (0, 0, true);
    for name in names(&root.join("crates")).into_iter().filter(|name| !NOT_TRIED.contains(&name.as_str())) {
        for label in names(&root.join("crates").join(&name).join("must-fail")) {
            let Some(edit) = read(&root.join("crates"), &name, &label) else { continue };
            let why = OUT_OF_REACH.iter().find(|(name, _)| *name == edit.name).map(|(_, why)| why);
            match (changed(&work, &edit), why) {
                ((Some(0), false), Some(why)) => println!("{}: none; {why}", edit.name),
                ((Some(0), true), None) => {
                    println!("{}: lines of the getters", edit.name);
                    in_lines += 1;
                }
                ((Some(count @ 1..), _), None) => {
                    println!("{}: {count}", edit.name);
                    shown += 1;
                }
                ((None, _), None) => {
                    println!("{}: stops replay", edit.name);
                    shown += 1;
                }
                (changed, _) => {
                    println!("{}: {changed:?}, WHICH IS NOT WHAT IS SAID OF IT", edit.name);
                    as_said = false;
                }
            }
        }
    }
    println!("{shown} edits change stored answers, {in_lines} lines of the getters alone, {} neither", OUT_OF_REACH.len());
    fs::remove_dir_all(&work).is_ok() && as_said
}
