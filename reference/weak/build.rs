//! Writes variants.rs: the crates under test as Rust modules over the given hash, as they are and
//! with each wrong edit of wrong/. A source that the translation does not know stops the build.

#[path = "src/translate.rs"]
mod translate;

use std::collections::BTreeMap;
use std::fs;
use std::path::{Path, PathBuf};
use translate::{Crate, Done};

/// Held against the reference, each after those that it uses.
const COMPARED: [&str; 5] = ["octets", "tree", "growing", "carry", "auditor"];

/// Written here: a weak hash.
const GIVEN: [&str; 1] = ["hash"];

/// Not in every state of the repository: compared, and edited, where it is there.
const JOURNAL: &str = "auditor/src/journal.rt";

fn main() {
    println!("cargo:rustc-check-cfg=cfg(journal)");
    if let Err(what) = write() {
        eprintln!("{what}");
        std::process::exit(1);
    }
}

/// A wrong program: edits of one crate's files, each to a text that stands there once.
struct Wrong {
    name: String,
    krate: String,
    files: BTreeMap<PathBuf, String>,
}

fn write() -> Result<(), String> {
    let here = PathBuf::from(std::env::var("CARGO_MANIFEST_DIR").unwrap());
    let root = here.join("../..");
    for watched in ["../../crates.txt", "../../crates", "wrong", "src"] {
        println!("cargo:rerun-if-changed={}", here.join(watched).display());
    }
    let uses = uses(&read(&root.join("crates.txt"))?)?;
    let order = order(&uses)?;
    let crates = root.join("crates");
    if crates.join(JOURNAL).exists() {
        println!("cargo:rustc-cfg=journal");
    }

    let mut done = Done::default();
    let none = BTreeMap::new();
    let mut modules = variant("plain", &order, &uses, &crates, &|_| true, &none, &mut done)?;
    let mut table = String::from("(\"\", &plain::Entries)");
    for wrong in wrong_programs(&here.join("wrong"), &crates)? {
        // Anew: the crate that is changed and those above it.
        let is_new = |name: &str| name == wrong.krate || reaches(name, &wrong.krate, &uses);
        modules += &variant(&wrong.name, &order, &uses, &crates, &is_new, &wrong.files, &mut Done::default())?;
        table += &format!(", (\"{}\", &{}::Entries)", wrong.name, wrong.name);
    }
    let public: Vec<String> = done.public.iter().filter(|one| !one.is_empty).map(|one| format!("{:?}", one.name)).collect();
    let text = format!(
        "{modules}\npub const CODES: &[(&str, &dyn crate::code::Code)] = &[{table}];\npub const PUBLIC: &[&str] = &[{}];\n\
         pub const TRANSLATED: &str = \"{} functions of {} files; {} clauses, {} ghost lines and {} attributes are left out\";\n",
        public.join(", "),
        done.functions,
        done.files,
        done.clauses,
        done.ghost_lines,
        done.attributes,
    );
    let out = PathBuf::from(std::env::var("OUT_DIR").unwrap()).join("variants.rs");
    fs::write(&out, text).map_err(|error| format!("{}: {error}", out.display()))
}

fn read(path: &Path) -> Result<String, String> {
    fs::read_to_string(path).map_err(|error| format!("{}: {error}", path.display()))
}

/// crates.txt: what each crate depends on.
fn uses(text: &str) -> Result<BTreeMap<String, Vec<String>>, String> {
    let lines = text.lines().map(|line| line.split('#').next().unwrap().trim()).filter(|line| !line.is_empty());
    lines
        .map(|line| {
            let (name, uses) = line.split_once(':').ok_or(format!("crates.txt: {line}"))?;
            Ok((name.split_whitespace().next().unwrap_or("").to_string(), uses.split_whitespace().map(str::to_string).collect()))
        })
        .collect()
}

fn reaches(name: &str, other: &str, uses: &BTreeMap<String, Vec<String>>) -> bool {
    uses.get(name).is_some_and(|below| below.iter().any(|one| one == other || reaches(one, other, uses)))
}

/// The crates to translate, each after those that it uses.
fn order(uses: &BTreeMap<String, Vec<String>>) -> Result<Vec<String>, String> {
    fn add(name: &str, uses: &BTreeMap<String, Vec<String>>, order: &mut Vec<String>) -> Result<(), String> {
        if GIVEN.contains(&name) || order.iter().any(|one| one == name) {
            return Ok(());
        }
        for below in uses.get(name).ok_or(format!("{name} is not in crates.txt"))? {
            add(below, uses, order)?;
        }
        order.push(name.to_string());
        Ok(())
    }
    let mut order = Vec::new();
    COMPARED.iter().try_for_each(|name| add(name, uses, &mut order))?;
    Ok(order)
}

/// One module that holds all crates; those that are not new are the plain ones.
fn variant(
    name: &str,
    order: &[String],
    uses: &BTreeMap<String, Vec<String>>,
    crates: &Path,
    is_new: &dyn Fn(&str) -> bool,
    changed: &BTreeMap<PathBuf, String>,
    done: &mut Done,
) -> Result<String, String> {
    let mut out = format!("#[allow(warnings)]\npub mod {name} {{\npub use crate::given::{{{}}};\n", GIVEN.join(", "));
    for one in order {
        if !is_new(one) {
            out += &format!("pub use super::plain::{one};\n");
            continue;
        }
        let source = |path: &Path| changed.get(path).cloned().map_or_else(|| read(path), Ok);
        let whole = format!("crate::variants::{name}");
        let prelude: String = uses[one].iter().map(|below| format!("use {whole}::{below};\n")).collect();
        let krate = Crate { source: &source, root: format!("{whole}::{one}"), prelude };
        let folder = crates.join(one).join("src");
        let mut own = Done::default();
        let text = krate.module(&folder.join("lib.rt"), &folder, one, true, &mut own)?;
        every_file_is_taken(&folder, own.files)?;
        own.pass_on();
        out += &format!("pub mod {one} {{\n{text}}}\n");
        done.files += own.files;
        done.functions += own.functions;
        done.clauses += own.clauses;
        done.ghost_lines += own.ghost_lines;
        done.attributes += own.attributes;
        if COMPARED.contains(&&one[..]) {
            done.public.append(&mut own.public);
        }
    }
    let entries = PathBuf::from(std::env::var("CARGO_MANIFEST_DIR").unwrap()).join("src/entries.rs");
    Ok(out + &format!("include!({:?});\n}}\n", entries.display().to_string()))
}

fn every_file_is_taken(folder: &Path, taken: usize) -> Result<(), String> {
    fn count(folder: &Path) -> std::io::Result<usize> {
        let mut all = 0;
        for entry in fs::read_dir(folder)? {
            let path = entry?.path();
            all += if path.is_dir() { count(&path)? } else { 1 };
        }
        Ok(all)
    }
    match count(folder) {
        Ok(all) if all == taken => Ok(()),
        Ok(all) => Err(format!("{}: {all} files, of which {taken} are named by a `mod`", folder.display())),
        Err(error) => Err(format!("{}: {error}", folder.display())),
    }
}

/// wrong/NAME.edit: `file:` a path under crates/, then `old:` and `new:` for each change; '#' starts a remark.
fn wrong_programs(folder: &Path, crates: &Path) -> Result<Vec<Wrong>, String> {
    let mut paths: Vec<PathBuf> =
        fs::read_dir(folder).map_err(|error| format!("{}: {error}", folder.display()))?.map(|entry| entry.unwrap().path()).collect();
    paths.sort();
    let is_without_journal = !crates.join(JOURNAL).exists();
    let mut all = Vec::new();
    for path in paths {
        let name = path.file_stem().unwrap().to_string_lossy().to_string();
        let bad = |what: &str| format!("{}: {what}", path.display());
        let mut wrong = Wrong { name: name.clone(), krate: String::new(), files: BTreeMap::new() };
        let (mut file, mut old) = (PathBuf::new(), None);
        for line in read(&path)?.lines().filter(|line| !line.starts_with('#') && !line.is_empty()) {
            match line.split_once(": ").ok_or(bad("a line without its word"))? {
                ("file", JOURNAL) if is_without_journal => break,
                ("file", named) => {
                    wrong.krate = named.split('/').next().unwrap().to_string();
                    file = crates.join(named);
                    wrong.files.insert(file.clone(), read(&file)?);
                }
                ("old", text) => old = Some(text.to_string()),
                ("new", text) => {
                    let old = old.take().ok_or(bad("`new` without `old`"))?;
                    let whole = wrong.files.get_mut(&file).ok_or(bad("no `file`"))?;
                    if whole.matches(&old).count() != 1 {
                        return Err(bad(&format!("stands {} times in {}: {old}", whole.matches(&old).count(), file.display())));
                    }
                    *whole = whole.replace(&old, text);
                }
                (word, _) => return Err(bad(&format!("unknown word `{word}`"))),
            }
        }
        if wrong.files.is_empty() && is_without_journal {
            continue;
        }
        if wrong.files.is_empty() || old.is_some() {
            return Err(bad("no change"));
        }
        all.push(wrong);
    }
    Ok(all)
}
