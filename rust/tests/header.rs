//! include/pilot_timer.h and src/ffi.rs against the library: its sources, crates/board_c, crates/shift_c and crates/settings_c, and the archives that were
//! made of them.

use std::path::Path;
use std::process::Command;

use board::{Reason, Reg, Source};

/// An exported function as its caller sees it: each argument `name: type`, then what it returns. A slice is two arguments, its pointer and
/// its length; an array is a pointer with its length behind it.
#[derive(Clone, Debug, PartialEq)]
struct Function {
    name: String,
    arguments: Vec<String>,
    result: String,
}

fn text(path: &str) -> String {
    let path = Path::new(env!("CARGO_MANIFEST_DIR")).join(path);
    std::fs::read_to_string(&path).unwrap_or_else(|e| panic!("{}: {e}", path.display()))
}

/// Without what stands behind `//` and between `/*` and `*/`.
fn code(text: &str) -> String {
    let mut code = String::new();
    let mut rest = text;
    while let Some(i) = rest.find("/*") {
        code += &rest[..i];
        rest = rest[i..].split_once("*/").expect("a comment's end").1;
    }
    code += rest;
    code.lines().map(|l| l.split("//").next().unwrap_or("")).collect::<Vec<_>>().join("\n")
}

/// The text between the first `open` and the next `close` behind it, and what follows.
fn between<'a>(text: &'a str, open: &str, close: &str) -> (&'a str, &'a str) {
    let (_, rest) = text.split_once(open).unwrap_or_else(|| panic!("no {open:?}"));
    rest.split_once(close).unwrap_or_else(|| panic!("no {close:?} behind {open:?}"))
}

fn parts(arguments: &str) -> impl Iterator<Item = &str> {
    arguments.split(',').map(str::trim).filter(|a| !a.is_empty() && *a != "void")
}

// ---- the library's sources

/// A constant of the crates, by its name or as it is.
fn length(of: &str) -> String {
    let line = |file: &str| text(file).lines().find_map(|l| l.strip_prefix(&format!("pub const {of}: usize = ")).map(|n| n.trim_end_matches(';').to_owned()));
    match of.parse::<u64>() {
        Ok(n) => n.to_string(),
        Err(_) => line("../crates/state/src/lib.rt").or_else(|| line("../crates/shift/src/lib.rt")).unwrap_or_else(|| panic!("no constant {of}")),
    }
}

fn sources() -> Vec<Function> {
    let mut functions = Vec::new();
    for file in ["../crates/board_c/src/lib.rt", "../crates/shift_c/src/lib.rt", "../crates/settings_c/src/lib.rt"] {
        let file = code(&text(file));
        for f in file.split("#[unsafe(no_mangle)]\npub extern \"C\" fn ").skip(1) {
            let (name, rest) = f.split_once('(').unwrap();
            let (arguments, rest) = rest.split_once(')').unwrap();
            // The contract, or the body, ends the first line.
            let result = rest.split_once('\n').unwrap().0.trim().strip_prefix("-> ").unwrap_or("()");
            let mut given = Vec::new();
            for a in parts(arguments) {
                let (name, kind) = a.split_once(": ").unwrap();
                let Some(kind) = kind.strip_prefix('&') else {
                    given.push(format!("{name}: {kind}"));
                    continue;
                };
                let (pointer, kind) = kind.strip_prefix("mut ").map_or(("*const", kind), |k| ("*mut", k));
                let kind = kind.strip_prefix('[').and_then(|k| k.strip_suffix(']')).expect("a slice or an array");
                match kind.split_once("; ") {
                    Some((element, n)) => given.push(format!("{name}: {pointer} {element} [{}]", length(n))),
                    None => given.extend([format!("{name}: {pointer} {kind}"), format!("{name}_len: usize")]),
                }
            }
            functions.push(Function { name: name.to_owned(), arguments: given, result: result.to_owned() });
        }
    }
    functions
}

/// The fields of the structs that are returned, `name: type`.
fn source_fields(name: &str) -> Vec<String> {
    let of = match name {
        "Answer" => "answer",
        "Listed" => "small",
        "Settings" | "Stored" | "Read" => "settings",
        _ => "shift",
    };
    let file = code(&text(&format!("../crates/{of}/src/lib.rt")));
    let (before, rest) = file.split_once(&format!("pub struct {name} {{")).unwrap_or_else(|| panic!("no struct {name}"));
    let (_, derives) = before.rsplit_once("#[repr(C)]").unwrap_or_else(|| panic!("{name} is not laid out as in C"));
    assert!(derives.trim().starts_with("#[derive(Clone, Copy") && derives.trim().lines().count() == 1, "{name}: {derives}");
    let (fields, _) = rest.split_once('}').expect("a struct's end");
    parts(fields).map(|f| f.trim_start_matches("pub ").to_owned()).collect()
}

// ---- the header

/// A type of C as Rust has it.
fn rust_type(c: &str) -> &str {
    match c {
        "uint8_t" => "u8",
        "uint32_t" => "u32",
        "uint64_t" => "u64",
        "double" => "f64",
        "size_t" => "usize",
        "void" => "()",
        "pilot_answer" => "Answer",
        "pilot_summary" => "Summary",
        "pilot_listed" => "Listed",
        "pilot_settings" => "Settings",
        "pilot_stored" => "Stored",
        "pilot_read" => "Read",
        other => other,
    }
}

/// A macro's value, or the number as it is.
fn macro_value(header: &str, name: &str) -> String {
    let line = header.lines().find_map(|l| l.strip_prefix(&format!("#define {name} ")));
    line.map_or(name, str::trim).to_owned()
}

fn header_functions(header: &str) -> Vec<Function> {
    let header = code(header);
    let mut functions = Vec::new();
    for declaration in header.split([';', '{', '}']) {
        let Some((head, arguments)) = declaration.trim().strip_suffix(')').and_then(|d| d.rsplit_once('(')) else { continue };
        let Some((result, name)) = head.lines().last().and_then(|l| l.trim().rsplit_once(' ')) else { continue };
        let argument = |a: &str| {
            let (constant, a) = a.strip_prefix("const ").map_or(("*mut", a), |a| ("*const", a));
            let (kind, name) = a.split_once(' ').unwrap();
            let kind = rust_type(kind);
            match (name.strip_prefix('*'), name.split_once('[')) {
                (Some(name), None) => format!("{name}: {constant} {kind}"),
                (None, Some((name, n))) => format!("{name}: {constant} {kind} [{}]", macro_value(&header, n.trim_end_matches(']'))),
                _ => format!("{name}: {kind}"),
            }
        };
        let arguments = arguments.split_whitespace().collect::<Vec<_>>().join(" ");
        functions.push(Function { name: name.to_owned(), arguments: parts(&arguments).map(argument).collect(), result: rust_type(result).to_owned() });
    }
    functions
}

fn header_fields(header: &str, name: &str) -> Vec<String> {
    let header = code(header);
    let (fields, _) = between(&header, &format!("typedef struct {name} {{"), "}");
    let field = |f: &str| f.trim().split_once(' ').map(|(kind, name)| format!("{name}: {}", rust_type(kind)));
    fields.split(';').filter_map(field).collect()
}

/// The names and values of an enum.
fn header_enum(header: &str, name: &str) -> Vec<(String, u32)> {
    let header = code(header);
    let (values, _) = between(&header, &format!("enum {name} {{"), "}");
    let number = |v: &str| v.strip_prefix("0x").map_or_else(|| v.parse(), |h| u32::from_str_radix(h, 16)).unwrap();
    parts(values).map(|v| v.split_once(" = ").map(|(n, v)| (n.to_owned(), number(v))).unwrap()).collect()
}

fn header() -> String {
    text("../include/pilot_timer.h")
}

// ---- tests

/// Function by function, so that a failure shows the one.
fn same(given: &[Function], wanted: &[Function]) {
    given.iter().zip(wanted).for_each(|(g, w)| assert_eq!(g, w));
    assert_eq!(given.len(), wanted.len());
}

#[test]
fn the_header_is_the_library() {
    let (header, sources) = (header(), sources());
    same(&header_functions(&header), &sources);
    assert_eq!(header_fields(&header, "pilot_answer"), source_fields("Answer"));
    assert_eq!(header_fields(&header, "pilot_summary"), source_fields("Summary"));
    assert_eq!(header_fields(&header, "pilot_listed"), source_fields("Listed"));
    for (name, of) in [("pilot_settings", "Settings"), ("pilot_stored", "Stored"), ("pilot_read", "Read")] {
        assert_eq!(header_fields(&header, name), source_fields(of));
    }
    for (name, constant) in [("PILOT_BOARD_WORDS", "WORDS"), ("PILOT_BOARD_REALS", "REALS"), ("PILOT_SHIFT_KEPT", "KEPT"), ("PILOT_FIGURES", "FIGURES")] {
        assert_eq!(macro_value(&code(&header), name), length(constant));
    }
}

#[test]
fn ffi_is_the_library() {
    let file = code(&text("src/ffi.rs"));
    let mut functions = Vec::new();
    for block in file.split("unsafe extern \"C\" {").skip(1) {
        for f in between(block, "", "\n}").0.split("fn ").skip(1) {
            let (name, rest) = f.split_once('(').unwrap();
            let (arguments, rest) = rest.split_once(')').unwrap();
            let result = rest.split_once(';').unwrap().0.trim().strip_prefix("-> ").unwrap_or("()");
            functions.push(Function { name: name.to_owned(), arguments: parts(arguments).map(str::to_owned).collect(), result: result.to_owned() });
        }
    }
    let mut wanted = sources();
    // An array's length is not in a pointer's type.
    wanted.iter_mut().flat_map(|f| &mut f.arguments).for_each(|a| a.truncate(a.find(" [").unwrap_or(a.len())));
    same(&functions, &wanted);
    for name in ["Answer", "Summary", "Listed", "Settings", "Stored", "Read"] {
        let (fields, _) = between(&file, &format!("pub struct {name} {{"), "}");
        assert_eq!(parts(fields).map(|f| f.trim_start_matches("pub ").to_owned()).collect::<Vec<_>>(), source_fields(name));
    }
    assert_eq!((board::ffi::words().to_string(), board::ffi::reals().to_string()), (length("WORDS"), length("REALS")));
    assert_eq!((board::ffi::KEPT.to_string(), board::ffi::FIGURES.to_string()), (length("KEPT"), length("FIGURES")));
}

#[test]
fn the_archives_have_the_functions() {
    let mut names: Vec<_> = header_functions(&header()).into_iter().map(|f| f.name).collect();
    names.sort();
    let libraries = Path::new(env!("BOARD_LIBRARIES"));
    let nm = Command::new("nm").args(["--extern-only", "--defined-only"]).args(["board", "shift", "settings"].map(|l| libraries.join(format!("lib{l}.a")))).output();
    let nm = String::from_utf8(nm.expect("nm").stdout).unwrap();
    let mut exported: Vec<_> = nm.lines().filter_map(|l| l.split_whitespace().nth(2)).map(str::to_owned).collect();
    exported.sort();
    assert_eq!(names, exported);
    assert_eq!(names.len(), 31);
}

#[test]
fn numbers_and_registers_are_the_crates() {
    let header = header();
    let number = |n: u8| board::word(n).map(|w| (format!("PILOT_{}", w.to_uppercase().replace(' ', "_")), n as u32));
    assert_eq!(header_enum(&header, "pilot_number"), (0..=255).map_while(number).collect::<Vec<_>>());
    assert_eq!(header_enum(&header, "pilot_register"), Reg::ALL.map(|r| (format!("PILOT_{r}"), r.offset())));
    let sources = [Source::Chip, Source::Outside, Source::Pull, Source::Held];
    assert_eq!(header_enum(&header, "pilot_source"), sources.map(|s| (format!("PILOT_{s:?}").to_uppercase(), s as u32)));
    assert!(header_enum(&header, "pilot_reason").iter().map(|(_, n)| *n).eq(Reason::ALL.map(|r| r.number().into())));
}

/// Each word of each declaration, changed, is seen: what a test that cannot fail would let pass.
#[test]
fn a_changed_header_is_seen() {
    let (header, sources) = (header(), sources());
    let from = header.find("size_t board_words").unwrap();
    let mut tried = 0;
    let others = [
        ("uint8_t", "uint32_t"),
        ("uint32_t", "uint64_t"),
        ("uint64_t", "uint32_t"),
        ("double", "float"),
        ("size_t", "uint32_t"),
        ("const ", ""),
        ("[PILOT_BOARD_WORDS]", "[PILOT_BOARD_REALS]"),
        ("[PILOT_SHIFT_KEPT]", "[PILOT_FIGURES]"),
        ("[4]", "[3]"),
        (", uint32_t", ", int32_t"),
        ("uint32_t size, ", ""),
        ("uint32_t timer", "uint32_t offset"),
        ("pilot_answer", "pilot_summary"),
        ("pilot_listed", "pilot_answer"),
        ("pilot_read", "pilot_stored"),
        ("pilot_stored", "pilot_read"),
        ("board_re", "board_ra"),
        ("void shift", "int shift"),
    ];
    // A comment may say what it likes.
    let in_comment = |i: usize| header[..i].rfind("/*") > header[..i].rfind("*/");
    for (word, other) in others {
        for (i, _) in header.match_indices(word).filter(|&(i, _)| i >= from && !in_comment(i)) {
            let changed = format!("{}{other}{}", &header[..i], &header[i + word.len()..]);
            assert!(header_functions(&changed) != sources, "{word} at {i}");
            tried += 1;
        }
    }
    assert!(tried > 200, "{tried}");
    // And the sizes, the answers' fields, a function that is left out.
    let changed = header.replace("PILOT_BOARD_WORDS 5276", "PILOT_BOARD_WORDS 5275");
    assert_ne!(header_functions(&changed), sources);
    let changed = header.replace("    uint32_t number; /* an enum", "    uint64_t number; /* an enum");
    assert_ne!(header_fields(&changed, "pilot_answer"), source_fields("Answer"));
    let changed = header.replace("size_t board_reals(void);", "");
    assert_ne!(header_functions(&changed), sources);
}
