//! The declarations are those of include/wutherdish.h: the lengths, the versions, and each call's parameters by name and
//! kind.

use std::fs;
use std::io::Write;
use std::process::{Command, Stdio};

use wutherdish_sys::{ABI, ANSWER, FORMAT, PEER_BUFFER, wutherdish_version};

/// The repository's root, from the crate's folder, where cargo runs its tests.
const ROOT: &str = "../..";

/// The calls that give a number.
const CALLS: [&str; 10] = [
    "wutherdish_verify",
    "wutherdish_judge",
    "wutherdish_trail",
    "wutherdish_clearing",
    "wutherdish_force",
    "wutherdish_open",
    "wutherdish_offer",
    "wutherdish_pairs_to_columns",
    "wutherdish_columns_to_pairs",
    "wutherdish_write",
];

/// A file of the repository without comments, its words parted by single spaces.
fn words(path: &str, comment: (&str, &str)) -> String {
    let text = fs::read_to_string(format!("{ROOT}/{path}")).expect("a file of the repository");
    let mut parts = text.split(comment.0);
    let first = parts.next().unwrap_or_default().to_string();
    let code = parts.fold(first, |code, part| code + part.split_once(comment.1).map_or("", |(_, code)| code));
    code.split_whitespace().collect::<Vec<_>>().join(" ")
}

/// What stands between the brackets of a call, parameter by parameter.
fn parameters(code: &str, call: &str) -> Vec<String> {
    let (_, after) = code.split_once(&format!("{call}(")).expect("the call is declared");
    let (inside, _) = after.split_once(')').expect("a bracket that closes");
    inside.split(',').map(|parameter| parameter.trim().to_string()).filter(|parameter| !parameter.is_empty()).collect()
}

/// A parameter of C as Rust declares it.
fn in_rust(parameter: &str) -> String {
    let (kind, name) = parameter.rsplit_once([' ', '*']).expect("a kind and a name");
    if let Some((name, length)) = name.strip_suffix(']').and_then(|name| name.split_once('[')) {
        let pointer = if kind.starts_with("const") { "*const" } else { "*mut" };
        return format!("{name}: {pointer} [u8; {}]", length.trim_start_matches("WUTHERDISH_"));
    }
    let kind = match kind.trim() {
        "const uint8_t" => "*const u8",
        "uint8_t" if parameter.contains('*') => "*mut u8",
        "uint8_t" => "u8",
        "uint32_t" if parameter.contains('*') => "*mut u32",
        "uint32_t" => "u32",
        "uint64_t" => "u64",
        "size_t" => "usize",
        other => panic!("{other} is no kind of the header"),
    };
    format!("{name}: {kind}")
}

#[test]
fn the_lengths() {
    let header = words("include/wutherdish.h", ("/*", "*/"));
    assert!(header.contains(&format!("#define WUTHERDISH_ANSWER {ANSWER} ")));
    assert!(header.contains(&format!("#define WUTHERDISH_PEER_BUFFER {PEER_BUFFER} ")));
}

#[test]
fn the_versions() {
    let header = words("include/wutherdish.h", ("/*", "*/"));
    let release: Vec<u8> = env!("CARGO_PKG_VERSION").split('.').map(|part| part.parse().expect("a number")).collect();
    let [major, minor, patch] = release[..] else { panic!("{release:?} has three parts") };
    let names = [
        ("ABI", ABI),
        ("FORMAT", FORMAT),
        ("VERSION_MAJOR", major),
        ("VERSION_MINOR", minor),
        ("VERSION_PATCH", patch),
    ];
    for (name, number) in names {
        assert!(header.contains(&format!("#define WUTHERDISH_{name} {number} ")), "{name} {number}");
    }
    assert_eq!(wutherdish_version().to_be_bytes(), [ABI, FORMAT, major, minor]);
}

/// Whether a C compiler takes a program that includes the header.
fn compiles(program: &str) -> bool {
    let flags = ["-std=c99", "-pedantic", "-Wall", "-Wextra", "-Werror", "-fsyntax-only", "-I", "../../include"];
    let mut cc = Command::new("cc");
    cc.args(flags).args(["-x", "c", "-"]).stdin(Stdio::piped()).stderr(Stdio::null());
    let mut cc = cc.spawn().expect("cc, which links this test too");
    let text = format!("#include \"wutherdish.h\"\n{program}\n");
    cc.stdin.take().expect("its input is a pipe").write_all(text.as_bytes()).expect("it reads its input");
    cc.wait().expect("it ends").success()
}

#[test]
fn the_version_in_c() {
    let linked = wutherdish_version();
    assert!(compiles(&format!("#if WUTHERDISH_VERSION != {linked}\n#error\n#endif")));
    assert!(!compiles(&format!("#if WUTHERDISH_VERSION != {}\n#error\n#endif", linked + 1)));
    assert!(compiles("int is_other(void) { return wutherdish_version() >> 16 != WUTHERDISH_VERSION >> 16; }"));
}

#[test]
fn the_calls() {
    let header = words("include/wutherdish.h", ("/*", "*/"));
    let rust = words("host/wutherdish-sys/src/lib.rs", ("//", "\n"));
    for call in CALLS {
        assert!(header.contains(&format!("uint8_t {call}(")));
        assert!(rust.contains(&format!("pub unsafe fn {call}(")));
        let expected: Vec<String> = parameters(&header, call).iter().map(|parameter| in_rust(parameter)).collect();
        assert_eq!(parameters(&rust, call), expected);
    }
    assert_eq!(header.matches("uint8_t wutherdish_").count(), CALLS.len());
    assert!(header.contains("uint32_t wutherdish_version(void);"));
    assert!(rust.contains("pub safe fn wutherdish_version() -> u32;"));
}
