//! Writes the declarations of the port's exports, from the source that has them, and names the archives that a program is
//! linked with where it calls them.
use std::fmt::Write;
use std::path::{Path, PathBuf};
use std::{env, fs};

/// The folders and files below crates/ that have the exports, and the structs that these take and answer.
const SOURCES: [&str; 7] = [
    "hub/src",
    "hub_c/src",
    "hub_message/src",
    "codec_exports/src",
    "codec_exports_c/src",
    "pe_reassembler/src/shape.rt",
    "pe_stage/src/place.rt",
];
/// Their archives below target/lib: hub_message's exports are in the first.
const ARCHIVES: [&str; 2] = ["midici_pe", "codec_exports"];

struct Field<'a> {
    name: &'a str,
    kind: &'a str,
}

struct Struct<'a> {
    name: &'a str,
    fields: Vec<Field<'a>>,
}

struct Function<'a> {
    name: &'a str,
    parameters: Vec<Field<'a>>,
    result: Option<&'a str>,
}

fn main() {
    let root = PathBuf::from(env::var("CARGO_MANIFEST_DIR").unwrap()).join("../..");
    let source: String = SOURCES.iter().map(|place| source(&root.join("crates").join(place))).collect();
    let written = written(&structs(&source), &functions(&source));
    fs::write(PathBuf::from(env::var("OUT_DIR").unwrap()).join("exports.rs"), written).unwrap();
    let place = root.join("target/lib");
    println!("cargo:rustc-link-search=native={}", place.display());
    for name in ARCHIVES {
        println!("cargo:rerun-if-changed={}", place.join(format!("lib{name}.a")).display());
        println!("cargo:rustc-link-lib=static:-bundle={name}");
    }
}

/// A file, or the files of a folder, without their comments and derives.
fn source(place: &Path) -> String {
    println!("cargo:rerun-if-changed={}", place.display());
    let mut files = vec![place.to_owned()];
    if place.is_dir() {
        files = fs::read_dir(place).unwrap().map(|file| file.unwrap().path()).collect();
        files.sort();
    }
    let text: String = files.iter().map(|file| fs::read_to_string(file).unwrap() + "\n").collect();
    let kept = text.lines().filter(|line| !line.starts_with("#[derive("));
    kept.map(|line| line.split("//").next().unwrap().to_owned() + "\n").collect()
}

/// What follows each of the marks. It must begin as is said.
fn marked<'a>(source: &'a str, mark: &'a str, begin: &'a str) -> impl Iterator<Item = &'a str> {
    let begins = move |text: &'a str| text.trim_start().strip_prefix(begin);
    source.split(mark).skip(1).map(move |text| begins(text).unwrap_or_else(|| panic!("{mark} is not followed by {begin}")))
}

fn parted(text: &str, at: char) -> (&str, &str) {
    text.split_once(at).unwrap_or_else(|| panic!("no {at} in {text}"))
}

fn structs(source: &str) -> Vec<Struct<'_>> {
    let read = |text| {
        let (name, rest) = parted(text, '{');
        Struct { name: name.trim(), fields: fields(parted(rest, '}').0) }
    };
    marked(source, "#[repr(C)]", "pub struct ").map(read).collect()
}

fn functions(source: &str) -> Vec<Function<'_>> {
    let read = |text| {
        let (name, rest) = parted(text, '(');
        let (parameters, rest) = parted(rest, ')');
        let result = rest.trim_start().strip_prefix("-> ").map(|rest| rest.split_whitespace().next().unwrap());
        Function { name, parameters: fields(parameters), result }
    };
    marked(source, "#[unsafe(no_mangle)]", "pub extern \"C\" fn ").map(read).collect()
}

/// NAME: TYPE, NAME: TYPE, ..
fn fields(text: &str) -> Vec<Field<'_>> {
    let read = |part| {
        let (name, kind) = parted(part, ':');
        Field { name: name.trim().trim_start_matches("pub "), kind: kind.trim() }
    };
    text.split(',').map(str::trim).filter(|part| !part.is_empty()).map(read).collect()
}

fn written(structs: &[Struct], functions: &[Function]) -> String {
    let mut out = String::new();
    structs.iter().for_each(|found| write_struct(found, &mut out));
    functions.iter().for_each(|function| write_function(function, &mut out));
    let raw: String = functions.iter().map(raw_function).collect();
    writeln!(out, "pub mod raw {{\n    use super::*;\n    extern \"C\" {{\n{raw}    }}\n}}").unwrap();
    let names: Vec<&str> = functions.iter().map(|function| function.name).collect();
    writeln!(out, "pub const NAMES: [&str; {}] = {names:?};", names.len()).unwrap();
    out
}

fn write_struct(found: &Struct, out: &mut String) {
    let Struct { name, fields } = found;
    let declared: String = fields.iter().map(|field| format!("pub {}: {}, ", field.name, plain(field.kind))).collect();
    writeln!(out, "#[repr(C)]\n#[derive(Clone, Copy)]\npub struct {name} {{ {declared}}}").unwrap();
    let granted: Vec<&Field> = fields.iter().filter(|field| !["refusal", "value"].contains(&field.name)).collect();
    let zeros: Vec<String> = granted.iter().map(|field| is_zero(field)).collect();
    let zeros = zeros.join(" && ");
    if granted.len() == fields.len() {
        writeln!(out, "impl {name} {{ pub fn is_zero(&self) -> bool {{ {zeros} }} }}").unwrap();
    } else {
        let value = if fields.iter().any(|field| field.name == "value") { "self.value" } else { "0" };
        writeln!(out, "impl Refusing for {name} {{").unwrap();
        writeln!(out, "    fn refusal(&self) -> u8 {{ self.refusal }}\n    fn value(&self) -> u8 {{ {value} }}").unwrap();
        writeln!(out, "    fn grants_nothing(&self) -> bool {{ {zeros} }}\n}}").unwrap();
    }
}

fn is_zero(field: &Field) -> String {
    let is_number = plain(field.kind).starts_with('u');
    if is_number {
        format!("self.{} == 0", field.name)
    } else {
        format!("self.{}.is_zero()", field.name)
    }
}

/// The function over slices.
fn write_function(function: &Function, out: &mut String) {
    let Function { name, parameters, .. } = function;
    let declared: String = parameters.iter().map(|Field { name, kind }| format!("{name}: {}, ", plain(kind))).collect();
    let passed: String = parameters.iter().map(passed).collect();
    writeln!(out, "#[inline]\n#[allow(clippy::too_many_arguments)]").unwrap();
    writeln!(out, "pub fn {name}({declared}){} {{ unsafe {{ raw::{name}({passed}) }} }}", result(function)).unwrap();
}

/// The function as it is declared: a slice is a pointer and a length.
fn raw_function(function: &Function) -> String {
    let declared: String = function.parameters.iter().map(raw_parameter).collect();
    format!("        pub fn {}({declared}){};\n", function.name, result(function))
}

fn result(function: &Function) -> String {
    function.result.map(|kind| format!(" -> {}", plain(kind))).unwrap_or_default()
}

/// A byte that is a yes or a no is a number.
fn plain(kind: &str) -> &str {
    if kind == "bool" {
        "u8"
    } else {
        kind
    }
}

/// Of a reference: is it lent for writing, to what, and is that a slice?
fn lent(kind: &str) -> Option<(bool, &str, bool)> {
    let (writes, to) = match kind.strip_prefix("&mut ") {
        Some(to) => (true, to),
        None => (false, kind.strip_prefix('&')?),
    };
    Some((writes, to, !to.contains(';')))
}

fn raw_parameter(parameter: &Field) -> String {
    let Field { name, kind } = parameter;
    let Some((writes, to, is_slice)) = lent(kind) else { return format!("{name}: {}, ", plain(kind)) };
    let pointer = if writes { "*mut" } else { "*const" };
    if is_slice {
        let item = to.trim_matches(['[', ']']);
        format!("{name}: {pointer} {item}, {name}_len: usize, ")
    } else {
        format!("{name}: {pointer} {to}, ")
    }
}

fn passed(parameter: &Field) -> String {
    let name = parameter.name;
    match lent(parameter.kind) {
        Some((true, _, true)) => format!("{name}.as_mut_ptr(), {name}.len(), "),
        Some((false, _, true)) => format!("{name}.as_ptr(), {name}.len(), "),
        _ => format!("{name}, "),
    }
}
