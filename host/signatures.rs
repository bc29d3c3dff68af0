//! What the Rattle sources export: functions and constants, read from their text. The Rust declarations (build.rs) and the header's check
//! (tests/header.rs) are both made from it.

use std::collections::BTreeMap;
use std::fs;
use std::path::{Path, PathBuf};

/// How a parameter passes: by value, or lent as one number, an array of so many, or a slice (pointer, then length).
#[derive(Debug, PartialEq)]
pub enum Shape {
    Value,
    One,
    Array(String),
    Slice,
}

#[derive(Debug, PartialEq)]
pub struct Parameter {
    pub name: String,
    pub shape: Shape,
    pub mutable: bool,
    /// Of the number, or of each.
    pub number: String,
}

#[derive(Debug, PartialEq)]
pub struct Function {
    pub name: String,
    pub parameters: Vec<Parameter>,
    pub result: Option<String>,
}

/// The exports of some sources: functions, and constants with the text of their values.
#[derive(Debug, Default, PartialEq)]
pub struct Exports {
    pub functions: Vec<Function>,
    pub constants: Vec<(String, String)>,
}

/// What a folder has, by name; nothing where it is missing.
fn entries(folder: &Path) -> Vec<PathBuf> {
    let entries = fs::read_dir(folder).into_iter().flatten();
    let mut paths: Vec<PathBuf> = entries.map(|entry| entry.expect("a readable entry").path()).collect();
    paths.sort();
    paths
}

/// The crates with the curve's exports, stored and computed: a program is linked with one of them.
pub const CURVES: [&str; 2] = ["olsketina_curve", "olsketina_curve_computed"];

/// The folders of the crates that are built for C, below the repository's folder.
pub fn crates(repository: &Path) -> Vec<PathBuf> {
    let mut paths = entries(&repository.join("crates"));
    paths.retain(|path| name_of(path).starts_with("olsketina") && !exports_of(path).functions.is_empty());
    paths
}

/// Those of them that a program is linked with, its curve computed or not.
pub fn linked(repository: &Path, computed: bool) -> Vec<PathBuf> {
    let mut paths = crates(repository);
    paths.retain(|path| name_of(path) != CURVES[usize::from(!computed)]);
    paths
}

pub fn name_of(path: &Path) -> String {
    path.file_name().map(|name| name.to_string_lossy().into_owned()).unwrap_or_default()
}

/// The exports of the sources in a crate's folder.
pub fn exports_of(folder: &Path) -> Exports {
    let mut exports = Exports::default();
    for file in entries(&folder.join("src")).iter().filter(|file| name_of(file).ends_with(".rt")) {
        read(&fs::read_to_string(file).expect("a source is text"), &mut exports);
    }
    exports
}

/// Adds the exports of one source.
pub fn read(source: &str, exports: &mut Exports) {
    let text: String = source.lines().map(|line| line.split("//").next().unwrap_or("").to_string() + "\n").collect();
    for rest in text.split("pub extern \"C\" fn ").skip(1) {
        exports.functions.push(function(rest));
    }
    for (name, rest) in text.split("const ").skip(1).filter_map(|rest| rest.split_once(':')) {
        let value = rest.split_once('=').and_then(|(_, value)| value.split(';').next()).unwrap_or("");
        exports.constants.push((name.trim().to_string(), value.trim().to_string()));
    }
}

/// A function, from its name on.
fn function(text: &str) -> Function {
    let (name, rest) = text.split_once('(').expect("a function has parameters");
    let (parameters, rest) = rest.split_once(')').expect("the parameters end");
    let result = rest.trim_start().strip_prefix("->").and_then(|rest| rest.split_whitespace().next());
    Function {
        name: name.trim().to_string(),
        parameters: parameters.split(',').filter(|text| !text.trim().is_empty()).map(parameter).collect(),
        result: result.map(str::to_string),
    }
}

fn parameter(text: &str) -> Parameter {
    let (name, kind) = text.split_once(':').expect("a parameter has a type");
    let kind = kind.trim();
    let lent = kind.strip_prefix('&').map(|lent| lent.trim_start_matches("mut ").trim());
    let inside = lent.and_then(|lent| lent.strip_prefix('[')?.strip_suffix(']'));
    let (number, shape) = match inside.map(|inside| inside.split_once(';').ok_or(inside)) {
        Some(Ok((number, length))) => (number, Shape::Array(length.trim().to_string())),
        Some(Err(number)) => (number, Shape::Slice),
        None => lent.map_or((kind, Shape::Value), |number| (number, Shape::One)),
    };
    Parameter { name: name.trim().to_string(), shape, mutable: kind.starts_with("&mut "), number: number.trim().to_string() }
}

impl Parameter {
    /// As it is declared in Rust: what is lent as an array keeps its length.
    fn rust(&self) -> String {
        let Parameter { name, number, .. } = self;
        let (lent, pointer) = if self.mutable { ("&mut ", "*mut") } else { ("&", "*const") };
        match &self.shape {
            Shape::Value => format!("{name}: {number}"),
            Shape::One => format!("{name}: {lent}{number}"),
            Shape::Array(length) => format!("{name}: {lent}[{number}; {length}]"),
            Shape::Slice => format!("{name}: {pointer} {number}, {name}_len: usize"),
        }
    }
}

/// The Rust declarations.
pub fn declarations(exports: &[Exports]) -> String {
    let constants: BTreeMap<_, _> = exports.iter().flat_map(|exports| &exports.constants).cloned().collect();
    let constant = |(name, value)| format!("#[allow(dead_code)]\npub const {name}: usize = {value};\n");
    let function = |Function { name, parameters, result }: &Function| {
        let parameters: Vec<String> = parameters.iter().map(Parameter::rust).collect();
        let result = result.as_ref().map_or(String::new(), |result| format!(" -> {result}"));
        format!("    pub fn {name}({}){result};\n", parameters.join(", "))
    };
    let functions: String = exports.iter().flat_map(|exports| &exports.functions).map(function).collect();
    format!("{}extern \"C\" {{\n{functions}}}\n", constants.iter().map(constant).collect::<String>())
}
