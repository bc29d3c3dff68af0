//! Declares what the Rattle sources export for C, takes the refusals from the header, and links the archives that `tools/build` writes.

use std::path::PathBuf;
use std::{env, fs};

mod signatures;

/// A line of the header's sentences as a line of the library's refusals: name, number, sentence.
fn refusal(header: &str, line: &str) -> Option<String> {
    let (name, sentence) = line.trim().strip_prefix("case OLSKETINA_REFUSED_")?.split_once(": return ")?;
    let (_, after) = header.split_once(&format!(" OLSKETINA_REFUSED_{name} = "))?;
    Some(format!("{name} = {}, {sentence}\n", after.split([',', '\n']).next()?))
}

fn main() {
    let folder = |name| env::var(name).map(PathBuf::from).expect("cargo names its folders");
    let (repository, out) = (folder("CARGO_MANIFEST_DIR").join(".."), folder("OUT_DIR"));
    let archives = repository.join("target/staticlib");
    println!("cargo:rustc-link-search=native={}", archives.display());
    let mut exports = Vec::new();
    for path in signatures::linked(&repository, env::var_os("CARGO_FEATURE_COMPUTED_CURVE").is_some()) {
        let name = signatures::name_of(&path);
        let archive = archives.join(format!("lib{name}.a"));
        println!("cargo:rustc-link-lib=static={name}");
        println!("cargo:rerun-if-changed={}", path.join("src").display());
        println!("cargo:rerun-if-changed={}", archive.display());
        if !archive.exists() {
            println!("cargo::error={} is missing: run `tools/build {name}` in the repository's folder", archive.display());
        }
        exports.push(signatures::exports_of(&path));
    }
    fs::write(out.join("raw.rs"), signatures::declarations(&exports)).expect("written");
    let header = repository.join("include/olsketina.h");
    println!("cargo:rerun-if-changed={}", header.display());
    let text = fs::read_to_string(header).expect("the header is there");
    let refusals: String = text.lines().filter_map(|line| refusal(&text, line)).collect();
    fs::write(out.join("refusals.rs"), format!("refusals! {{\n{refusals}}}\n")).expect("written");
}
