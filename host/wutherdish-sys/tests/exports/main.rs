//! The library exports what the header declares and nothing else, needs what the header says, and each call has a contract on all that it
//! hands out.

mod call;
mod exports;

use call::Call;
use exports::Exports;

/// What the tests change: the crate of the C calls.
const CALLS: &str = "crates/wutherdish_c/src/lib.rt";

/// The repository's exports with one text in the source of the C calls put in place of another.
fn changed(from: &str, to: &str) -> Exports {
    let mut exports = Exports::read();
    let source = exports.sources.iter_mut().find(|(path, _)| path == CALLS);
    let (_, code) = source.expect("the crate of the C calls");
    assert!(code.contains(from), "{from} stands in {CALLS}");
    *code = code.replacen(from, to, 1);
    exports
}

/// The clause of the source whose line begins so, up to the end of the line where its braces close.
fn clause(start: &str) -> String {
    let exports = Exports::read();
    let code = &exports.sources.iter().find(|(path, _)| path == CALLS).expect("the crate of the C calls").1;
    let mut clause = String::new();
    for line in code.lines().skip_while(|line| !line.trim_start().starts_with(start)) {
        clause += &format!("{line}\n");
        if clause.matches('{').count() == clause.matches('}').count() {
            return clause;
        }
    }
    panic!("no clause begins with {start}");
}

#[test]
fn the_repository() {
    assert_eq!(Exports::read().faults(), Vec::<String>::new());
}

#[test]
fn one_more_export_without_a_contract() {
    let more = "#[unsafe(no_mangle)]\npub extern \"C\" fn wutherdish_more(book: &mut [u8]) -> u8 {\n    0\n}\n\n#[unsafe(no_mangle)]\n";
    let mut exports = changed("#[unsafe(no_mangle)]\n", more);
    exports.symbols.insert("wutherdish_more".to_string());
    let faults = [
        "wutherdish_more says nothing of its result",
        "wutherdish_more says nothing of book",
        "wutherdish_more is not in the header",
    ];
    assert_eq!(exports.faults(), faults);
}

#[test]
fn an_export_that_the_header_lacks() {
    let mut exports = Exports::read();
    exports.header = exports.header.replace(" wutherdish_judge(", " wutherdish_judges(");
    let faults = [
        "wutherdish_judge is not in the header",
        "wutherdish_judges is not in the sources",
        "wutherdish_judges is not in the library",
    ];
    assert_eq!(exports.faults(), faults);
}

#[test]
fn a_lent_slice_of_which_nothing_is_said() {
    let exports = changed(&clause("ensures buffer { peers.new"), "");
    assert_eq!(exports.faults(), ["wutherdish_verify says nothing of peers"]);
    let exports = changed(&clause("ensures opened { book.new"), "");
    assert_eq!(exports.faults(), ["wutherdish_open says nothing of book"]);
}

#[test]
fn a_lent_count_or_output_of_which_nothing_is_said() {
    for name in ["out", "written"] {
        let exports = changed(&format!("{{ {name}.new ≡ "), "{ record.new ≡ ");
        let fault = format!("wutherdish_pairs_to_columns says nothing of {name}");
        assert_eq!(exports.faults(), [fault]);
    }
}

#[test]
fn equations_that_are_joined() {
    let given = "(result ≡ filled_number given)";
    let exports = changed(given, "(Unit)");
    assert_eq!(exports.faults(), ["wutherdish_write says nothing of its result"]);
    let exports = changed(&format!("{given} ×"), &format!("{given} ⊎"));
    assert_eq!(exports.faults().first().map(String::as_str), Some("wutherdish_write says nothing of its result"));
    let exports = changed("let given = composition d (length out.old) in", "let given = same out.new in");
    let unsaid = ["its result", "out", "written"].map(|name| format!("wutherdish_write says nothing of {name}"));
    assert_eq!(exports.faults(), unsaid);
}

#[test]
fn what_is_said_of_itself() {
    let exports = changed("answer.new ≡ verify_answer", "answer.new ≡ same answer.new");
    assert_eq!(exports.faults(), ["wutherdish_verify says nothing of answer"]);
    let exports = changed("answer.new ≡ verify_answer", "answer.new ≡ same (answer .new)");
    assert_eq!(exports.faults(), ["wutherdish_verify says nothing of answer"]);
    let exports = changed("result ≡ open_number", "result ≡ same result");
    assert_eq!(exports.faults(), ["wutherdish_open says nothing of its result"]);
}

#[test]
fn what_always_holds() {
    for more in ["⊎ Unit", "→ Unit", "× Unit", "≡ 0", "(λ x. x)", "Unit", "⊎ ⊤", "(result)", "{result}"] {
        let end = "(length book.old) }";
        let exports = changed(end, &format!("(length book.old) {more} }}"));
        assert_eq!(exports.faults(), ["wutherdish_open says nothing of its result"], "{more}");
        let end = "open_bytes settings.now book.old }";
        let exports = changed(end, &format!("book.old {more} }}"));
        assert_eq!(exports.faults(), ["wutherdish_open says nothing of book"], "{more}");
    }
}

#[test]
fn a_parameter_that_may_be_lent_unseen() {
    for kind in ["&'a mut [u8]", "Lent", "&mut [u8; 113]", "&mut Book", "*mut u8", "(u8, &mut [u8]"] {
        let exports = changed("(book: &mut [u8], settings", &format!("(book: {kind}, settings"));
        let kind = kind.split(", &mut").next().expect("a first part");
        let fault = format!("wutherdish_open has book of the type {kind:?}");
        assert_eq!(exports.faults().first(), Some(&fault));
    }
    let exports = changed("(book: &mut [u8], settings", "(&mut self, settings");
    assert_eq!(exports.faults(), [r#"wutherdish_open has &mut self of the type """#]);
}

#[test]
fn a_contract_in_a_comment() {
    let clause = clause("ensures opened { book.new");
    let exports = changed(&clause, &format!("// {clause}"));
    assert_eq!(exports.faults(), ["wutherdish_open says nothing of book"]);
    let exports = changed(&clause, &format!("/* {clause} */"));
    assert_eq!(exports.faults(), ["crates/wutherdish_c/src/lib.rt has a comment that is not a line's"]);
}

#[test]
fn a_call_that_asks_something() {
    let ensures = "    ensures number { result ≡ open_number";
    let exports = changed(ensures, &format!("    requires {{ 47 ≤ length book.old }}\n{ensures}"));
    assert_eq!(exports.faults(), ["wutherdish_open has a requires"]);
}

#[test]
fn an_export_of_another_crate() {
    let mut exports = Exports::read();
    let code = "#[unsafe(no_mangle)]\npub extern \"C\" fn wutherdish_kept(n: u8) -> u8\n    ensures { result ≡ n }\n{\n    n\n}\n";
    exports.sources.push(("crates/book/src/kept.rt".to_string(), code.to_string()));
    let faults = [
        "wutherdish_kept is exported by crates/book/src/kept.rt",
        "wutherdish_kept is not in the header",
        "wutherdish_kept is not in the library",
    ];
    assert_eq!(exports.faults(), faults);
}

#[test]
fn an_export_that_the_linker_does_not_see() {
    let exports =
        changed("#[unsafe(no_mangle)]\npub extern \"C\" fn wutherdish_open", "pub extern \"C\" fn wutherdish_open");
    assert_eq!(exports.faults(), ["an export of crates/wutherdish_c/src/lib.rt is not #[unsafe(no_mangle)] pub"]);
}

#[test]
fn a_symbol_of_no_source() {
    let mut exports = Exports::read();
    exports.symbols.insert("helper".to_string());
    assert_eq!(exports.faults(), ["helper is not in the header", "helper is not in the sources"]);
}

#[test]
fn a_need_that_the_header_does_not_name() {
    let mut exports = Exports::read();
    assert!(exports.needed.contains("memcpy"));
    exports.needed.insert("memmove".to_string());
    assert_eq!(exports.faults(), ["the library needs memmove from outside"]);
}

#[test]
fn a_contract_is_read_clause_by_clause() {
    let call = Call::read("f(a: &[u8], b: &mut [u8; 4], n: u8) -> u8 requires { x { y } } ensures { z } { 0 }");
    assert_eq!(call.name, "f");
    assert_eq!(call.lent().collect::<Vec<_>>(), ["b"]);
    assert_eq!(
        call.clauses,
        [("requires".to_string(), "x { y }".to_string()), ("ensures".to_string(), "z".to_string())]
    );
}
