//! The header against the Rattle sources: a C file of typed function pointers, made from the sources' own signatures, compiles with it as C11
//! and C++17 without a warning; names, parameters' names and word counts are the same; and a wrong header fails. The curve's two archives: the same
//! exports in both, the entries' bytes in one.

#[path = "../signatures.rs"]
#[allow(dead_code)]
mod signatures;

use olsketina::{camera, ElementBox, Image, Layout, Region, Weights};
use signatures::{Exports, Function, Parameter, Shape};
use std::path::{Path, PathBuf};
use std::process::Command;
use std::{env, fs};

fn repository() -> PathBuf {
    Path::new(env!("CARGO_MANIFEST_DIR")).join("..")
}

fn exports() -> Vec<Exports> {
    signatures::linked(&repository(), cfg!(feature = "computed-curve")).iter().map(|path| signatures::exports_of(path)).collect()
}

fn archive(name: &str) -> PathBuf {
    repository().join(format!("target/staticlib/lib{name}.a"))
}

fn header() -> String {
    fs::read_to_string(repository().join("include/olsketina.h")).expect("the header is there")
}

/// The C type of each number.
#[rustfmt::skip]
const NUMBERS: [(&str, &str); 13] = [
    ("u8", "uint8_t"), ("u16", "uint16_t"), ("u32", "uint32_t"), ("u64", "uint64_t"), ("usize", "size_t"), ("bool", "bool"),
    ("i8", "int8_t"), ("i16", "int16_t"), ("i32", "int32_t"), ("i64", "int64_t"), ("isize", "ptrdiff_t"), ("f32", "float"), ("f64", "double"),
];

fn c_number(number: &str) -> &'static str {
    NUMBERS.iter().find(|(source, _)| *source == number).unwrap_or_else(|| panic!("no C type for {number}")).1
}

/// The C parameters of a function: name, type, and length where it is an array.
fn c_parameters(function: &Function) -> Vec<(String, String, Option<&String>)> {
    let passed = function.parameters.iter().map(|Parameter { name, shape, mutable, number }| {
        // `box` is a word of the language of the sources.
        let name = if name == "b" { "box".to_string() } else { name.clone() };
        let number = c_number(number);
        let lent = format!("{}{number} *", if *mutable { "" } else { "const " });
        match shape {
            Shape::Value => vec![(name, number.to_string(), None)],
            Shape::One => vec![(name, lent, None)],
            Shape::Array(length) => vec![(name, lent, Some(length))],
            Shape::Slice => vec![(name.clone(), lent, None), (name + "_len", "size_t".to_string(), None)],
        }
    });
    passed.flatten().collect()
}

/// The C file of typed function pointers, constants (under their own names), array lengths, and the words of settings in the order of the Rust
/// library.
fn c_file(exports: &[Exports], lengths: &[(String, String)]) -> String {
    let mut text =
        "#include \"olsketina.h\"\n#ifdef __cplusplus\n#define CHECK static_assert\n#else\n#define CHECK _Static_assert\n#endif\n"
            .to_string();
    for (name, value) in exports.iter().flat_map(|exports| &exports.constants) {
        text += &format!("#undef {name}\n#define {name} ({value})\nCHECK({name} == OLSKETINA_{name}, \"{name}\");\n");
    }
    for function in exports.iter().flat_map(|exports| &exports.functions) {
        let name = &function.name;
        let types: Vec<String> = c_parameters(function).into_iter().map(|(_, kind, _)| kind).collect();
        let types = if types.is_empty() { "void".to_string() } else { types.join(", ") };
        let result = function.result.as_deref().map_or("void", c_number);
        text += &format!("{result} (*check_{name})({types}) = {name};\n");
    }
    let slot = [&["placed", "owner"], Region::WORDS].concat();
    #[rustfmt::skip]
    let walk = ["position", "index", "columns", "rows", "channels", "precision", "width", "height", "plane", "line", "surface", "group"];
    let words: [(&str, &[&str]); 11] = [
        ("LAYOUT", Layout::WORDS),
        ("WALK", &walk),
        ("BOX", ElementBox::WORDS),
        ("SLOT", &slot),
        ("WEIGHTS", Weights::WORDS),
        ("IMAGE", Image::WORDS),
        ("SETTINGS", &["select", "start", "end"]),
        ("SLOPE", &["x_below", "x_above", "y_below", "y_above"]),
        ("COUNTER", &["x", "y", "underflow", "overflow", "priority"]),
        ("STATE", &["lines_low", "lines_high", "length", "framed", "table"]),
        ("ROW", &["ended", "line", "answer", "fault", "value"]),
    ];
    for (setting, words) in words {
        for (at, word) in words.iter().enumerate() {
            let name = format!("OLSKETINA_{setting}_{}", word.to_uppercase());
            text += &format!("CHECK({name} == {at}, \"{name}\");\n");
        }
    }
    for (source, header) in lengths {
        text += &format!("CHECK(({source}) == ({header}), \"{header}\");\n");
    }
    text
}

/// A folder of this name with a header in it.
fn folder_with(name: &str, header: &str) -> PathBuf {
    let folder = PathBuf::from(env!("CARGO_TARGET_TMPDIR")).join(name);
    fs::create_dir_all(&folder).expect("a folder");
    fs::write(folder.join("olsketina.h"), header).expect("written");
    folder
}

/// Runs a compiler on some text, in a folder.
fn compile(folder: &Path, compiler: &str, arguments: &[&str], text: &str) -> Result<String, String> {
    fs::write(folder.join("check.c"), text).expect("written");
    let output = Command::new(compiler).args(arguments).args(["-I", ".", "check.c"]).current_dir(folder).output();
    let output = output.map_err(|error| format!("{compiler}: {error}"))?;
    let [printed, errors] = [output.stdout, output.stderr].map(|text| String::from_utf8_lossy(&text).into_owned());
    output.status.success().then_some(printed).ok_or(format!("{compiler}: {errors}"))
}

/// A function's name, and each parameter's name and length.
type Declared = (String, Vec<(String, Option<String>)>);

/// The functions that a header declares, and any that its definitions call.
fn declared(preprocessed: &str) -> Vec<Declared> {
    let mut functions = Vec::new();
    for declaration in preprocessed.split([';', '{', '}']).filter(|text| !text.trim_start().starts_with("static")) {
        let Some((head, rest)) = declaration.find("olsketina_").map(|at| declaration.split_at(at)) else { continue };
        let Some((name, parameters)) = rest.split_once('(') else { continue };
        assert!(!head.contains("typedef"), "no type: {declaration}");
        let parameters = parameters.trim_end().strip_suffix(')').expect("the parameters end");
        let named = parameters.split(',').filter(|parameter| parameter.trim() != "void").map(|parameter| {
            let (before, length) = parameter.split_once('[').map_or((parameter, None), |(before, length)| (before, Some(length)));
            let name = before.trim().rsplit(|letter: char| !letter.is_alphanumeric() && letter != '_').next();
            let length =
                length.map(|length| length.trim_end().trim_end_matches(']').trim().trim_start_matches("static").trim().to_string());
            (name.unwrap_or("").to_string(), length)
        });
        functions.push((name.trim().to_string(), named.collect()));
    }
    functions
}

const STRICT: [&str; 5] = ["-Wall", "-Wextra", "-pedantic", "-Werror", "-fsyntax-only"];

/// The compilers that are there, each with the word for its language. cc and c++ must be there.
fn compilers() -> Vec<(&'static str, [&'static str; 2])> {
    let all = [("cc", ["c", "-std=c11"]), ("c++", ["c++", "-std=c++17"]), ("clang", ["c", "-std=c11"]), ("clang++", ["c++", "-std=c++17"])];
    let there = |compiler: &str| !compiler.starts_with("clang") || Command::new(compiler).arg("--version").output().is_ok();
    all.into_iter().filter(|(compiler, _)| there(compiler)).collect()
}

/// Everything that is checked of a header; says what fails.
fn check(header: &str, exports: &[Exports], name: &str) -> Result<(), String> {
    let folder = folder_with(name, header);
    let declared = declared(&compile(&folder, "cc", &["-std=c11", "-E", "-P", "-x", "c"], "#include \"olsketina.h\"\n")?);
    let functions: Vec<&Function> = exports.iter().flat_map(|exports| &exports.functions).collect();
    let mut lengths = Vec::new();
    for &function in &functions {
        let name = &function.name;
        let Some((_, parameters)) = declared.iter().find(|(declared, _)| declared == name) else {
            return Err(format!("{name} is not in the header"));
        };
        let expected = c_parameters(function);
        let shapes = expected.iter().map(|(name, _, length)| (name, length.is_some()));
        if !shapes.eq(parameters.iter().map(|(name, length)| (name, length.is_some()))) {
            return Err(format!("{name}: the parameters {parameters:?} are not {expected:?}"));
        }
        let pairs = expected.iter().zip(parameters).map(|((_, _, source), (_, header))| source.zip(header.clone()));
        lengths.extend(pairs.flatten().map(|(source, header)| (source.to_string(), header)));
    }
    if let Some((name, _)) = declared.iter().find(|(name, _)| !functions.iter().any(|function| function.name == *name)) {
        return Err(format!("{name} is in the header alone"));
    }
    for (compiler, [language, standard]) in compilers() {
        compile(&folder, compiler, &[&STRICT[..], &[standard, "-x", language]].concat(), &c_file(exports, &lengths))?;
    }
    Ok(())
}

#[test]
fn the_header_has_the_types_of_the_sources() {
    let exports = exports();
    let functions: usize = exports.iter().map(|exports| exports.functions.len()).sum();
    let constants: usize = exports.iter().map(|exports| exports.constants.len()).sum();
    println!("header: {functions} functions and {constants} constants compared");
    check(&header(), &exports, "header").unwrap_or_else(|error| panic!("{error}"));
}

/// Each of these changes of the header is found.
#[test]
fn a_wrong_header_fails() {
    let (header, exports) = (header(), exports());
    let wrong = [
        ("a 16-bit value", "uint64_t *value", "uint16_t *value", "incompatible"),
        ("a count of 32 bits", "uint64_t *held", "uint32_t *held", "incompatible"),
        ("a signed byte", "uint8_t *buffer", "int8_t *buffer", "incompatible"),
        ("a constant that may be written", "const int16_t *elements", "int16_t *elements", "incompatible"),
        ("exchanged types", "uint8_t *buffer, size_t buffer_len", "size_t buffer, uint8_t *buffer_len", "incompatible"),
        ("exchanged names", "uint32_t row, uint32_t column", "uint32_t column, uint32_t row", "the parameters"),
        ("another result", "uint32_t olsketina_cube_pack", "uint64_t olsketina_cube_pack", "incompatible"),
        ("a missing name", "olsketina_cube_unpack(", "olsketina_cube_unpacked(", "not in the header"),
        ("an extra name", "#ifdef __cplusplus\n}", "void olsketina_more(void);\n#ifdef __cplusplus\n}", "alone"),
        ("another word count", "#define OLSKETINA_LAYOUT_WORDS 7", "#define OLSKETINA_LAYOUT_WORDS 8", "static assertion"),
        ("exchanged words", "#define OLSKETINA_IMAGE_START 6", "#define OLSKETINA_IMAGE_START 7", "static assertion"),
        ("a slot without its owner", "#define OLSKETINA_SLOT_WORDS 6", "#define OLSKETINA_SLOT_WORDS 5", "static assertion"),
        ("another number of slots", "#define OLSKETINA_SLOTS 16", "#define OLSKETINA_SLOTS 15", "static assertion"),
        ("a walk of 32-bit words", "uint64_t walk[", "uint32_t walk[", "incompatible"),
        ("a walk without its last word", "#define OLSKETINA_WALK_WORDS 12", "#define OLSKETINA_WALK_WORDS 11", "static assertion"),
        ("exchanged words of a walk", "#define OLSKETINA_WALK_LINE 9", "#define OLSKETINA_WALK_LINE 10", "static assertion"),
        ("half an atom", "#define OLSKETINA_ATOM_BYTES 32", "#define OLSKETINA_ATOM_BYTES 16", "static assertion"),
        ("a length of 32 bits", "size_t buffer_len, uint64_t walk", "uint32_t buffer_len, uint64_t walk", "incompatible"),
        ("positions of 32 bits", "uint64_t *positions", "uint32_t *positions", "incompatible"),
        ("a file's length before its part", "uint64_t first, uint64_t length", "uint64_t length, uint64_t first", "the parameters"),
    ];
    for (name, old, new, reason) in wrong {
        assert!(header.contains(old), "{name}: the header has no {old:?}");
        let error = check(&header.replacen(old, new, 1), &exports, "wrong").expect_err(name);
        assert!(error.contains(reason), "{name}: {error}");
    }
}

/// Floats and slices of floats too.
#[test]
fn signatures_are_read() {
    let source = "#[no_mangle]\npub extern \"C\" fn f(\n    a: &[f32], // lent\n    b: &mut [f64; 2 * N],\n    c: f32,\n    d: &mut usize,\n) -> f64\n    ensures { x }\n{";
    let mut exports = Exports::default();
    signatures::read(&format!("pub const N: usize = 4; // four\n{source}"), &mut exports);
    let exports = [exports];
    assert_eq!(
        signatures::declarations(&exports),
        "#[allow(dead_code)]\npub const N: usize = 4;\nextern \"C\" {\n    \
         pub fn f(a: *const f32, a_len: usize, b: &mut [f64; 2 * N], c: f32, d: &mut usize) -> f64;\n}\n"
    );
    let c = c_file(&exports, &[("2 * N".to_string(), "8".to_string())]);
    assert!(c.contains("double (*check_f)(const float *, size_t, double *, float, size_t *) = f;"), "{c}");
    assert!(c.contains("CHECK((2 * N) == (8), \"8\");"), "{c}");
}

/// The archives define the sources' functions, and no other name.
#[test]
fn the_archives_have_the_names_of_the_sources() {
    for path in signatures::crates(&repository()) {
        let name = signatures::name_of(&path);
        let archive = archive(&name);
        let output = Command::new("nm").args(["-g", "--defined-only"]).arg(&archive).output().expect("nm runs");
        let text = String::from_utf8_lossy(&output.stdout).into_owned();
        let mut defined: Vec<&str> = text.lines().filter_map(|line| line.split(' ').nth(2)).collect();
        let functions = signatures::exports_of(&path).functions;
        let mut exported: Vec<&str> = functions.iter().map(|function| function.name.as_str()).collect();
        defined.sort_unstable();
        exported.sort_unstable();
        assert_eq!(defined, exported, "{}", archive.display());
    }
}

/// How many instructions of an export multiply or divide, and how many call.
fn products_and_calls(name: &str) -> [usize; 2] {
    let arguments = ["-d", "--no-show-raw-insn", &format!("--disassemble={name}")];
    let output = Command::new("objdump").args(arguments).arg(archive("olsketina")).output().expect("objdump runs");
    let text = String::from_utf8_lossy(&output.stdout).into_owned();
    let words: Vec<&str> = text.lines().filter_map(|line| line.split_once(":\t")?.1.split_whitespace().next()).collect();
    assert!(words.iter().any(|word| word.starts_with("ret")), "{name}: {text}");
    let begins = |with: &[&str]| words.iter().filter(|word| with.iter().any(|begin| word.starts_with(begin))).count();
    [begins(&["mul", "imul", "div", "idiv"]), begins(&["call"])]
}

/// A step of a walk goes on by sums alone, also where it is compiled: it multiplies and divides nothing, and calls nothing that could. A position
/// is found by products, which are seen.
#[test]
fn a_step_has_no_product() {
    assert_eq!(products_and_calls("olsketina_walk_step"), [0, 0]);
    assert_ne!(products_and_calls("olsketina_cube_position")[0], 0);
}

/// The curve's two crates have the same exports, so that either archive goes with the header.
#[test]
fn the_curves_have_the_same_exports() {
    let [stored, computed] = signatures::CURVES.map(|name| signatures::exports_of(&repository().join("crates").join(name)));
    assert_eq!(stored, computed);
    assert_eq!((stored.functions.len(), stored.constants.len()), (4, 2));
}

/// Numbers as bytes, the low one first.
fn bytes_of(numbers: &[i16]) -> Vec<u8> {
    numbers.iter().flat_map(|number| number.to_le_bytes()).collect()
}

/// The same with the high one first, and as numbers of 32 bits, either way.
fn other_bytes_of(numbers: &[i16]) -> [Vec<u8>; 3] {
    [
        numbers.iter().flat_map(|number| number.to_be_bytes()).collect(),
        numbers.iter().flat_map(|&number| i32::from(number).to_le_bytes()).collect(),
        numbers.iter().flat_map(|&number| i32::from(number).to_be_bytes()).collect(),
    ]
}

fn holds(bytes: &[u8], part: &[u8]) -> bool {
    bytes.windows(part.len()).any(|window| window == part)
}

/// The entries of Y and X, eight by eight, as the compiler lays the bytes of a table: its last entry stands by itself and is not looked for.
fn stored(bytes: &[u8]) -> [bool; 2] {
    let has = |table: &[i16]| table.chunks_exact(8).all(|part| holds(bytes, &bytes_of(part)));
    [has(&camera::y_table()), has(&camera::x_table())]
}

/// The archive of the stored curve has the bytes of both tables; in that of the computed one, and in the main one, no three entries stand behind
/// one another.
#[test]
fn one_archive_has_the_tables_of_the_curve() {
    let read = |name| fs::read(archive(name)).unwrap_or_else(|error| panic!("{name}: {error}; run `tools/build {name}`"));
    let [with, without] = signatures::CURVES.map(read);
    assert_eq!(stored(&with), [true; 2]);
    for bytes in [without, read("olsketina")] {
        for table in [&camera::y_table()[..], &camera::x_table()] {
            for entries in table.windows(3) {
                let found = [bytes_of(entries)].iter().chain(&other_bytes_of(entries)).any(|part| holds(&bytes, part));
                assert!(!found, "{entries:?}");
            }
        }
    }
}

/// The program that runs is linked with the curve that was asked for.
#[test]
fn the_curve_that_is_linked() {
    let program = fs::read(env::current_exe().expect("a program")).expect("readable");
    assert_eq!(stored(&program), [!cfg!(feature = "computed-curve"); 2]);
}

/// A refusal's name, as the header writes it, and number, from a clause of the definition: `code_of XSelect = 12`.
fn defined_refusal(clause: &str) -> Option<(String, u32)> {
    let (variant, number) = clause.strip_prefix("code_of ")?.split_once(" = ")?;
    let mut name = String::new();
    for (letter, next) in variant.chars().zip(variant.chars().skip(1).chain(['-'])) {
        if letter.is_uppercase() && next.is_lowercase() && !name.is_empty() {
            name.push('_');
        }
        name.push(letter.to_ascii_uppercase());
    }
    Some((name, number.parse().ok()?))
}

/// The refusals of header and Rust library have the names and numbers of their definition, and C's sentences are Rust's.
#[test]
fn refusals_are_the_same() {
    let folder = folder_with("refusals", &header());
    let text =
        "#include <stdio.h>\n#include \"olsketina.h\"\nint main(void) { for (uint32_t i = 0; i < 40; i++) puts(olsketina_sentence(i)); }\n";
    compile(&folder, "cc", &["-std=c11", "-o", "sentences", "-x", "c"], text).expect("compiles");
    let output = Command::new(folder.join("sentences")).output().expect("runs").stdout;
    let output = String::from_utf8(output).expect("text");
    for (line, number) in output.lines().zip(0..).skip(1) {
        assert_eq!(line, olsketina::Refusal { number, fault: 0 }.sentence(), "{number}");
    }
    assert_eq!(output.lines().count(), 40);
    let codes = fs::read_to_string(repository().join("crates/refusal/specs/Codes.antt")).expect("the definition is there");
    let defined: Vec<(String, u32)> = codes.lines().filter_map(defined_refusal).collect();
    let named: Vec<(String, u32)> = olsketina::Refusal::ALL.iter().map(|(name, number)| (name.to_string(), *number)).collect();
    assert_eq!(named, defined);
    assert_eq!(header().matches("OLSKETINA_REFUSED_").count(), 2 * defined.len());
    assert!(header().contains(&format!("#define OLSKETINA_VERSION {}\n", olsketina::version())));
}
