//! Nothing else checks the declarations of src/ffi.rs and of include/sctp_receive.h: here both are held to the signatures of the Rattle source that the
//! library is compiled from. Names, number, order and types of the parameters, results, and the sizes.
use sctp_receive::serial::Order;
use std::collections::BTreeMap;
use std::fs;
use std::path::{Path, PathBuf};

/// A parameter as a processor sees it: behind a pointer (`Some(mutable)`) or not, and how many elements, where that is said.
#[derive(Clone, Debug, PartialEq, Eq)]
struct Parameter {
    name: String,
    pointer: Option<bool>,
    of: String,
    count: Option<usize>,
}

/// Each function: its parameters and its result, "" for none.
type Declarations = BTreeMap<String, (Vec<Parameter>, String)>;
type Sizes = BTreeMap<String, usize>;

fn repository() -> PathBuf {
    Path::new(env!("CARGO_MANIFEST_DIR")).join("../../..")
}

fn text(path: &str) -> String {
    let whole = fs::read_to_string(repository().join(path)).unwrap_or_else(|e| panic!("{path}: {e}"));
    whole.lines().map(|l| l.split("//").next().unwrap()).collect::<Vec<_>>().join("\n")
}

/// `NAME = 4 * OTHER` lines, as numbers.
fn sizes<'a>(lines: impl Iterator<Item = (&'a str, &'a str)>) -> Sizes {
    let mut known = Sizes::new();
    for (name, value) in lines {
        let factor = |f: &str| f.trim().parse().ok().or_else(|| known.get(f.trim()).copied());
        if let Some(n) = value.split('*').map(factor).try_fold(1, |n, f| f.map(|f| n * f)) {
            known.insert(name.trim().into(), n);
        }
    }
    known
}

/// The `const NAME: usize = ..;` of a Rust or Rattle source.
fn constants(source: &str) -> Sizes {
    sizes(source.lines().filter_map(|l| l.split_once("const ")?.1.trim_end_matches(';').split_once(": usize =")))
}

fn is_name(c: char) -> bool {
    c.is_ascii_alphanumeric() || c == '_'
}

/// Every `before NAME(parameters) after` of a text whose name is one of ours; `before` back to the last `;`, `{`, `}` or `]`.
fn ours(source: &str) -> Vec<(&str, &str, &str, &str)> {
    let mut found = Vec::new();
    for (at, _) in source.match_indices("sctp_receive_") {
        let end = at + source[at..].find(|c| !is_name(c)).unwrap();
        let before = source[..at].rsplit([';', '{', '}', ']']).next().unwrap();
        if let Some(rest) = source[end..].strip_prefix('(') {
            let (parameters, after) = rest.split_once(')').unwrap();
            found.push((before, &source[at..end], parameters, after));
        }
    }
    found
}

/// `name: type` of Rust or Rattle. A Rattle slice is a pointer and a length.
fn rust_parameter(p: &str, sizes: &Sizes) -> Vec<Parameter> {
    let (name, of) = p.split_once(": ").unwrap();
    let (pointer, of) = if let Some(t) = of.strip_prefix("&mut ").or(of.strip_prefix("*mut ")) {
        (Some(true), t)
    } else if let Some(t) = of.strip_prefix('&').or(of.strip_prefix("*const ")) {
        (Some(false), t)
    } else {
        (None, of)
    };
    let one = |name: &str, pointer, of: &str, count| Parameter { name: name.into(), pointer, of: of.into(), count };
    match of.strip_prefix('[').and_then(|t| t.strip_suffix(']')) {
        None => vec![one(name, pointer, of, None)],
        Some(array) => match array.split_once("; ") {
            Some((of, count)) => vec![one(name, pointer, of, Some(sizes[count]))],
            None => vec![one(name, pointer, array, None), one(&format!("{name}_len"), None, "usize", None)],
        },
    }
}

/// The functions of a Rust or Rattle source: `fn NAME(..) -> result`, where the words in front of the name say `said`.
fn rust_functions(source: &str, said: &str, sizes: &Sizes) -> Declarations {
    let functions = ours(source).into_iter().filter(|(before, ..)| before.trim_start().contains(said));
    functions
        .map(|(_, name, parameters, after)| {
            let parameters = parameters.split(",").map(str::trim).filter(|p| !p.is_empty());
            let result = after.trim_start().strip_prefix("-> ").map_or("", |r| r.split(|c| !is_name(c)).next().unwrap());
            (name.into(), (parameters.flat_map(|p| rust_parameter(p, sizes)).collect(), result.into()))
        })
        .collect()
}

/// Whether a source has `use OF::NAME;` or `use OF::{.., NAME, ..};`.
fn brings(source: &str, of: &str, name: &str) -> bool {
    let start = format!("use {of}::");
    let lists = source.split(&start).skip(1).map(|l| l.split(';').next().unwrap());
    lists.flat_map(|l| l.split(['{', '}', ','])).any(|n| n.trim() == name)
}

/// The Rattle source: the exported functions of every file of the crate.
fn rattle() -> Declarations {
    let mut all = Declarations::new();
    for file in fs::read_dir(repository().join("crates/sctp_receive/src")).unwrap() {
        let source = text(&format!("crates/sctp_receive/src/{}", file.unwrap().file_name().into_string().unwrap()));
        let mut sizes = Sizes::new();
        for (of, below) in
            [("payload_queue", "payload_model"), ("inflight_queue", "payload_model"), ("reassembly_queue", "reassembly_state")]
        {
            let theirs = constants(&text(&format!("crates/{below}/src/lib.rt")));
            sizes.extend(theirs.into_iter().filter(|(name, _)| brings(&source, of, name)));
        }
        all.extend(rust_functions(&source, "pub extern \"C\" fn", &sizes));
    }
    all
}

fn ffi(source: &str) -> Declarations {
    let (_, block) = source.split_once("unsafe extern \"C\" {").unwrap();
    rust_functions(block.split_once("\n}").unwrap().0, "fn", &constants(source))
}

/// The `#define SCTP_RECEIVE_NAME number` of the header.
fn macros(source: &str) -> BTreeMap<String, i32> {
    let defined = source.lines().filter_map(|l| l.strip_prefix("#define SCTP_RECEIVE_")?.split_once(' '));
    defined
        .map(|(name, value)| {
            let value = value.split("/*").next().unwrap().trim().trim_matches(['(', ')']);
            (format!("SCTP_RECEIVE_{name}"), value.parse().unwrap())
        })
        .collect()
}

fn c_type(c: &str) -> &str {
    let known = [
        ("uint8_t", "u8"),
        ("uint16_t", "u16"),
        ("uint32_t", "u32"),
        ("uint64_t", "u64"),
        ("int32_t", "i32"),
        ("size_t", "usize"),
        ("bool", "bool"),
        ("void", ""),
    ];
    known.into_iter().find(|(theirs, _)| *theirs == c).unwrap_or_else(|| panic!("C type {c}")).1
}

/// `const uint8_t *raw`, `uint32_t table[SIZE]`, `size_t n`.
fn c_parameter(p: &str, macros: &BTreeMap<String, i32>) -> Parameter {
    let (constant, p) = p.strip_prefix("const ").map_or((false, p), |p| (true, p));
    let (of, name) = p.split_once(' ').unwrap();
    let (name, count) = match name.strip_suffix(']').and_then(|n| n.split_once('[')) {
        Some((name, size)) => (name, Some(macros[size] as usize)),
        None => (name, None),
    };
    let behind = name.starts_with('*') || count.is_some();
    assert!(behind || !constant, "{p}");
    let name = name.strip_prefix('*').unwrap_or(name);
    Parameter { name: name.into(), pointer: behind.then_some(!constant), of: c_type(of).into(), count }
}

fn without_comments(c: &str) -> String {
    let mut parts = c.split("/*");
    let first = parts.next().unwrap().to_string();
    first + &parts.map(|p| p.split_once("*/").unwrap().1).collect::<String>()
}

fn header(source: &str) -> Declarations {
    let (macros, code) = (macros(source), without_comments(source));
    ours(&code)
        .into_iter()
        .map(|(before, name, parameters, after)| {
            assert!(after.starts_with(';'), "{name}");
            let parameters = parameters.split(',').map(|p| c_parameter(&p.split_whitespace().collect::<Vec<_>>().join(" "), &macros));
            (name.into(), (parameters.collect(), c_type(before.split_whitespace().last().unwrap()).into()))
        })
        .collect()
}

fn header_text() -> String {
    fs::read_to_string(repository().join("include/sctp_receive.h")).unwrap()
}

#[test]
fn every_function_is_declared_as_it_is_written() {
    let (rattle, ffi, header) = (rattle(), ffi(&text("host/rust/sctp-receive/src/ffi.rs")), header(&header_text()));
    assert_eq!(rattle.len(), 71, "{:?}", rattle.keys());
    for (name, written) in &rattle {
        assert_eq!(Some(written), ffi.get(name), "src/ffi.rs: {name}");
        assert_eq!(Some(written), header.get(name), "sctp_receive.h: {name}");
    }
    assert_eq!((ffi.len(), header.len()), (71, 71));
}

/// A wrong declaration is seen: two parameters changed about, one left out, another width, another size.
#[test]
fn wrong_declarations_are_seen() {
    let (rattle, right) = (rattle(), header_text());
    for (is, becomes) in [
        (
            "size_t *count, size_t *n_bytes, size_t *dups, uint32_t dup_tsn",
            "size_t *n_bytes, size_t *count, size_t *dups, uint32_t dup_tsn",
        ),
        ("uint8_t *typ, uint8_t *flags", "uint8_t *typ"),
        ("uint16_t *start, uint16_t *end", "uint16_t *start, uint32_t *end"),
        ("const uint32_t table[SCTP_RECEIVE_FRAGMENT_WORDS]", "const uint32_t table[SCTP_RECEIVE_TSN_WORDS]"),
        ("uint8_t *buffer, size_t buffer_len, bool *found", "const uint8_t *buffer, size_t buffer_len, bool *found"),
        ("uint16_t *source_port, uint16_t *destination_port", "uint16_t *destination_port, uint16_t *source_port"),
        ("uint32_t sctp_receive_crc32c(", "int32_t sctp_receive_crc32c("),
        ("uint8_t sctp_receive_tsn_compare(", "bool sctp_receive_tsn_compare("),
        ("int32_t sctp_receive_chunks_len(", "uint32_t sctp_receive_chunks_len("),
        ("uint64_t message,", "uint32_t message,"),
    ] {
        assert!(right.contains(is), "{is}");
        assert_ne!(header(&right.replacen(is, becomes, 1)), rattle, "{becomes}");
    }
    let right = text("host/rust/sctp-receive/src/ffi.rs");
    for (is, becomes) in [("typ: &mut u8", "typ: &mut u16"), ("raw_len: usize,", ""), ("i1: u16, i2: u16", "i2: u16, i1: u16")] {
        assert!(right.contains(is), "{is}");
        assert_ne!(ffi(&right.replacen(is, becomes, 1)), rattle, "{becomes}");
    }
}

#[test]
fn sizes_and_numbers() {
    let macros = macros(&header_text());
    let (tsns, fragments) = (constants(&text("crates/payload_model/src/lib.rt")), constants(&text("crates/reassembly_state/src/lib.rt")));
    for (name, size, ours) in [
        ("TSNS", tsns["TSNS"], sctp_receive::TSNS),
        ("LOG", tsns["LOG"], sctp_receive::LOG),
        ("TSN_WORDS", tsns["WORDS"], 4 * sctp_receive::TSNS),
        ("FRAGMENTS", fragments["FRAGMENTS"], sctp_receive::FRAGMENTS),
        ("BYTES", fragments["BYTES"], sctp_receive::BYTES),
        ("FRAGMENT_WORDS", fragments["WORDS"], 4 * sctp_receive::FRAGMENTS),
    ] {
        assert_eq!((macros[&format!("SCTP_RECEIVE_{name}")] as usize, ours), (size, size), "{name}");
    }
    let refusals = [
        "OK",
        "UNSOUND",
        "NO_HEADER",
        "BAD_LENGTH",
        "OTHER_TYPE",
        "SHORT_DATA",
        "SHORT_SACK",
        "TOO_LARGE",
        "SHORT_BUFFER",
        "FULL",
        "TOO_LONG",
        "NO_ROOM",
        "PAST_THE_LIST",
        "BAD_FORWARD",
        "SHORT_PACKET",
        "BAD_CHECKSUM",
        "NO_DATA",
        "BAD_CAUSE",
        "OPPOSITE_TSN",
        "IN_FLIGHT",
    ];
    for (number, name) in (-1..).zip(refusals) {
        assert_eq!(macros[&format!("SCTP_RECEIVE_{name}")], number, "{name}");
    }
    for (order, name) in Order::ALL.into_iter().zip(["EARLIER", "SAME", "LATER", "OPPOSITE"]) {
        assert_eq!(macros[&format!("SCTP_RECEIVE_{name}")], order as i32, "{name}");
    }
}
