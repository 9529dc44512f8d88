//! A plan in the Rust's own trees, and the way between names and numbers.

use plain::core::{CoreTerm, CoreType};

#[derive(Debug, Clone, PartialEq)]
pub struct Plan {
    pub constructors: Vec<(String, CoreType)>,
    pub context: Vec<(String, CoreType)>,
    pub expected: CoreType,
    pub term: CoreTerm,
    /// How many lines the term has, types and patterns in it included.
    pub term_lines: usize,
}

/// Names 1 to 4, which the Rust knows by themselves.
const KNOWN: [&str; 4] = ["Int", "Bool", "Unit", "printInt"];

pub fn spell(name: u32) -> String {
    match KNOWN.get(name as usize - 1) {
        Some(known) => known.to_string(),
        None => format!("n{name}"),
    }
}

pub fn name_number(name: &str) -> u32 {
    match KNOWN.iter().position(|known| *known == name) {
        Some(at) => at as u32 + 1,
        None => number_after("n", name).expect("a name of the sheet"),
    }
}

fn number_after(prefix: &str, name: &str) -> Option<u32> {
    name.strip_prefix(prefix)?.parse().ok()
}

/// The number of an unknown, "^α" then digits.
pub fn unknown_number(name: &str) -> u32 {
    number_after("^α", name).expect("an unknown")
}

/// Kind, then name, number or Product count.
pub type Node = (u32, u32);

/// A type's nodes in prefix order.
pub fn nodes(ty: &CoreType) -> Vec<Node> {
    let mut list = Vec::new();
    add_nodes(ty, &mut list);
    list
}

fn add_nodes(ty: &CoreType, list: &mut Vec<Node>) {
    match ty {
        CoreType::Var(name) => list.push(match number_after("α", name) {
            Some(number) => (18, number),
            None => (11, name_number(name)),
        }),
        CoreType::ETVar(name) => list.push((17, unknown_number(name))),
        CoreType::Con(name) => list.push((12, name_number(name))),
        CoreType::Arrow(left, right) => {
            list.push((13, 0));
            add_nodes(left, list);
            add_nodes(right, list);
        }
        CoreType::Forall(name, body) => {
            list.push((14, name_number(name)));
            add_nodes(body, list);
        }
        CoreType::App(left, right) => {
            list.push((15, 0));
            add_nodes(left, list);
            add_nodes(right, list);
        }
        CoreType::Product(parts) => {
            list.push((16, parts.len() as u32));
            for part in parts {
                add_nodes(part, list);
            }
        }
    }
}
