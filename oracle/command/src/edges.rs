//! P1 to P10 through the oracle.

use cases::edges;

/// Every edge answers as document 01 says.
pub fn run() -> Result<(), String> {
    let mut wrong = 0;
    let edges = edges::all();
    for edge in &edges {
        let answer = edge.case.answer();
        let holds = edge.holds(&answer);
        wrong += usize::from(!holds);
        let mark = if holds { "as said" } else { "WRONG" };
        println!("{:3} {}: {} ({mark})", edge.name, edge.what, short(&answer.to_string()));
        if !holds {
            println!("    document 01 says {}", edge.expected());
        }
    }
    println!("P1 to P10: {} of {} as document 01 says", edges.len() - wrong, edges.len());
    if wrong == 0 { Ok(()) } else { Err(format!("{wrong} edges answer otherwise")) }
}

/// A line without its long ids.
fn short(line: &str) -> String {
    line.split(' ').map(|word| if word.len() == 64 { &word[56..] } else { word }).collect::<Vec<_>>().join(" ")
}
