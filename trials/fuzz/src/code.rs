//! The library's machine code, as objdump and nm show it: where it can be led one way or another.

use std::collections::BTreeMap;
use std::path::Path;
use std::process::Command;

/// The conditions of x86-64 in the order of their codes.
const CONDITIONS: [&str; 16] = ["o", "no", "b", "ae", "e", "ne", "be", "a", "s", "ns", "p", "np", "l", "ge", "le", "g"];

/// The library's code, by the addresses in the program's file.
pub struct Code {
    pub start: u64,
    pub end: u64,
    pub sites: BTreeMap<u64, Site>,
    /// Functions of the library.
    pub functions: usize,
}

/// Where it shows which way the code goes.
#[derive(Clone, Copy, PartialEq, Eq, Debug)]
pub enum Site {
    /// A function begins here, or code that is only jumped to: it stands after a jump that is always made.
    Reached,
    /// A conditional jump, with its condition's code.
    Jump { condition: u8, target: u64, next: u64 },
    /// A conditional move or set.
    Choice { condition: u8 },
}

impl Site {
    /// How many ways there are.
    pub fn ways(self) -> usize {
        if self == Self::Reached { 1 } else { 2 }
    }
}

struct Instruction<'a> {
    address: u64,
    name: &'a str,
    operands: &'a str,
}

/// Reads the library's functions out of a program that it is linked into. `None` where the file isn't as expected.
pub fn read(program: &Path) -> Result<(Code, BTreeMap<String, u64>), String> {
    let symbols = run("nm", &["-S", "--defined-only"], program)?;
    let functions: BTreeMap<String, (u64, u64)> = symbols.lines().filter_map(function).collect();
    let start =
        functions.values().map(|(start, _)| *start).min().ok_or("the program has no function of the library")?;
    let end = functions.values().map(|(start, size)| start + size).max().unwrap_or(start);
    let from = format!("--start-address={start:#x}");
    let to = format!("--stop-address={end:#x}");
    let text = run("objdump", &["-d", "-w", "--no-show-raw-insn", &from, &to], program)?;
    let instructions: Vec<Instruction<'_>> = text.lines().filter_map(instruction).collect();
    let mut sites = BTreeMap::new();
    for (function, size) in functions.values() {
        let inside = |place: &Instruction<'_>| (*function..function + size).contains(&place.address);
        let body: Vec<&Instruction<'_>> = instructions.iter().filter(|place| inside(place)).collect();
        add_function(&mut sites, &body)?;
    }
    let starts = functions.iter().map(|(name, (start, _))| (name.clone(), *start)).collect();
    Ok((Code { start, end, sites, functions: functions.len() }, starts))
}

fn run(command: &str, arguments: &[&str], program: &Path) -> Result<String, String> {
    let output = Command::new(command).args(arguments).arg(program).output();
    let output = output.map_err(|e| format!("{command} (of binutils) could not be run: {e}"))?;
    if !output.status.success() {
        return Err(format!("{command}: {}", String::from_utf8_lossy(&output.stderr)));
    }
    String::from_utf8(output.stdout).map_err(|e| format!("{command}: {e}"))
}

/// Start and size of a function of the library: Rattle's names are paths, which no other symbol is.
fn function(line: &str) -> Option<(String, (u64, u64))> {
    let [start, size, "t" | "T", name] = line.split(' ').collect::<Vec<_>>()[..] else { return None };
    let number = |word| u64::from_str_radix(word, 16).ok();
    let is_path = name.contains("::") && name.bytes().all(|byte| byte.is_ascii_alphanumeric() || b":_".contains(&byte));
    (is_path || name.starts_with("wutherdish_")).then_some(())?;
    Some((name.to_string(), (number(start)?, number(size)?)))
}

fn instruction(line: &str) -> Option<Instruction<'_>> {
    let (address, rest) = line.trim_start().split_once(":\t")?;
    let address = u64::from_str_radix(address, 16).ok()?;
    let (name, operands) = rest.trim().split_once(' ').unwrap_or((rest.trim(), ""));
    Some(Instruction { address, name, operands: operands.trim_start() })
}

fn add_function(sites: &mut BTreeMap<u64, Site>, body: &[&Instruction<'_>]) -> Result<(), String> {
    let mut only_jumped_to = true;
    for (place, found) in body.iter().enumerate() {
        let padding = found.name.starts_with("nop") || matches!(found.name, "data16" | "cs" | "xchg" | "int3");
        if only_jumped_to && padding {
            continue;
        }
        let next = body.get(place + 1).map(|next| next.address);
        if let Some(site) = conditional(found, next)? {
            sites.insert(found.address, site);
        } else if only_jumped_to {
            sites.insert(found.address, Site::Reached);
        }
        only_jumped_to = matches!(found.name, "jmp" | "ret" | "notrack" | "ud2");
    }
    Ok(())
}

fn conditional(found: &Instruction<'_>, next: Option<u64>) -> Result<Option<Site>, String> {
    let Instruction { address, name, operands } = found;
    let strange = || format!("{name} at {address:#x} can't be followed");
    let code = |suffix: &str| CONDITIONS.iter().position(|name| *name == suffix).map(|code| code as u8);
    if let Some(suffix) = name.strip_prefix("cmov").or_else(|| name.strip_prefix("set")) {
        return Ok(Some(Site::Choice { condition: code(suffix).ok_or_else(strange)? }));
    }
    let Some(suffix) = name.strip_prefix('j').filter(|suffix| *suffix != "mp") else { return Ok(None) };
    let target = operands.split(' ').next().and_then(|word| u64::from_str_radix(word, 16).ok());
    let (Some(condition), Some(target), Some(next)) = (code(suffix), target, next) else { return Err(strange()) };
    Ok(Some(Site::Jump { condition, target, next }))
}
