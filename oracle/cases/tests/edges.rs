//! P1 to P10 through the oracle answer as document 01 says.

use cases::edges;

#[test]
fn edges_answer_as_document_01_says() {
    for edge in edges::all() {
        let answer = edge.case.answer();
        assert!(edge.holds(&answer), "{} {}: {answer}, not {}", edge.name, edge.what, edge.expected());
    }
}
