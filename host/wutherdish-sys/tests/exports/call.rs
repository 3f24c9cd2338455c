//! A call, as its source declares it.

/// What a parameter may be. Under another name, or with a lifetime, one that is lent would not be seen as such.
const KINDS: [&str; 10] = [
    "u8",
    "u32",
    "u64",
    "&[u8]",
    "&[u8; 68]",
    "&[u8; 102]",
    "&mut [u8]",
    "&mut [u8; 69]",
    "&mut [u8; 114]",
    "&mut u32",
];

#[derive(Debug)]
pub struct Call {
    pub name: String,
    /// The parameters, each with its type.
    pub parameters: Vec<(String, String)>,
    /// `requires` or `ensures`, and what stands in its braces.
    pub clauses: Vec<(String, String)>,
}

impl Call {
    /// From its name on, in words that are parted by single spaces.
    pub fn read(code: &str) -> Self {
        let (name, rest) = code.split_once('(').expect("a bracket that opens");
        let (parameters, rest) = rest.split_once(')').expect("a bracket that closes");
        let parameters = parameters.split(',').map(str::trim).filter(|parameter| !parameter.is_empty());
        let pairs = parameters.map(|parameter| parameter.split_once(": ").unwrap_or((parameter, "")));
        let parameters = pairs.map(|(name, kind)| (name.to_string(), kind.to_string())).collect();
        Self { name: name.to_string(), parameters, clauses: clauses(rest) }
    }

    /// The parameters that it may write to.
    pub fn lent(&self) -> impl Iterator<Item = &String> {
        self.parameters.iter().filter(|(_, kind)| kind.starts_with("&mut")).map(|(name, _)| name)
    }

    /// What its contract lacks: it may ask nothing, and has to say what its result is and what it leaves in each lent slice.
    pub fn faults(&self) -> Vec<String> {
        let odd = self.parameters.iter().filter(|(_, kind)| !KINDS.contains(&kind.as_str()));
        let mut faults: Vec<String> =
            odd.map(|(name, kind)| format!("{} has {name} of the type {kind:?}", self.name)).collect();
        if self.clauses.iter().any(|(word, _)| word == "requires") {
            faults.push(format!("{} has a requires", self.name));
        }
        if !self.ensures("result ≡ ") {
            faults.push(format!("{} says nothing of its result", self.name));
        }
        let unsaid = self.lent().filter(|name| !self.ensures(&format!("{name}.new ≡ ")));
        faults.extend(unsaid.map(|name| format!("{} says nothing of {name}", self.name)));
        faults
    }

    /// Whether it ensures an equation that begins so, whose other side is a definition of what was there at entry.
    fn ensures(&self, left: &str) -> bool {
        let ensured = self.clauses.iter().filter(|(word, _)| word == "ensures");
        let mut rights =
            ensured.flat_map(|(_, clause)| equations(clause)).filter_map(|equation| equation.strip_prefix(left));
        rights.any(is_of_entry)
    }
}

/// Whether it is names and numbers in brackets alone, and none of them is of the call's end. With a sign among them
/// (`⊎`, `→`, `×`, a further `≡`, `λ`) the whole would be another fact than an equation, one that may always hold.
fn is_of_entry(right: &str) -> bool {
    let is_plain = |c: char| c.is_ascii_alphanumeric() || " ()._".contains(c);
    let is_of_exit = right.contains(".new") || right.split([' ', '(', ')', '.']).any(|word| word == "result");
    right.chars().all(is_plain) && !is_of_exit && !right.contains("Unit")
}

/// The equations of a clause: that which it is, or those that it joins by `×`, after names for what was there at entry (`let`).
fn equations(clause: &str) -> Vec<&str> {
    let mut rest = clause;
    while let Some((name, after)) = rest.strip_prefix("let ").and_then(|rest| rest.split_once(" in ")) {
        if !name.split_once(" = ").is_some_and(|(_, value)| is_of_entry(value)) {
            return vec![clause];
        }
        rest = after;
    }
    let joined = rest.strip_prefix('(').and_then(|rest| rest.strip_suffix(')'));
    joined.map_or(vec![rest], |equations| equations.split(") × (").collect())
}

/// The clauses between a call's result and its body.
fn clauses(code: &str) -> Vec<(String, String)> {
    let mut clauses = Vec::new();
    let mut rest = code;
    while let Some((before, inside)) = rest.split_once('{') {
        let word = before.split(' ').find(|word| matches!(*word, "requires" | "ensures"));
        let Some(word) = word else { break };
        let end = closing(inside);
        clauses.push((word.to_string(), inside[..end].trim().to_string()));
        rest = &inside[end + 1..];
    }
    clauses
}

/// The place of the brace that closes the one before these bytes.
fn closing(code: &str) -> usize {
    let mut open = 1;
    for (place, byte) in code.bytes().enumerate() {
        open += i32::from(byte == b'{') - i32::from(byte == b'}');
        if open == 0 {
            return place;
        }
    }
    panic!("a brace that closes");
}
