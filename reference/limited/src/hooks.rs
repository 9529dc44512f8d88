//! What the included file finds under the names `Vec`, `HashMap` and `format!`.
//! A limit that would be passed unwinds with a `Passed`, before the operation
//! has changed anything.

use crate::core::CoreType;
use crate::levels::{self, number_after};
use rust_std::borrow::ToOwned;
use rust_std::boxed::Box;
use rust_std::cell::Cell;
use rust_std::collections::BTreeMap;
use rust_std::ops::Deref;
use rust_std::string::String;
use rust_std::vec::Vec as Items;

/// A limit that an operation would have passed, or the scope of an unknown.
#[derive(Debug, Clone, Copy, PartialEq, Eq)]
pub struct Passed {
    /// 22 to 25, or 39.
    pub number: u32,
    /// What the operation would have brought the limited number to; for 23 no
    /// more than a little past the limit, for 39 the universal's number.
    pub reached: usize,
}

rust_std::thread_local! {
    /// The limited operations that the step under way has done.
    static DONE: Cell<usize> = const { Cell::new(0) };
}

pub fn set_done(count: usize) {
    DONE.set(count);
}

pub fn done() -> usize {
    DONE.get()
}

/// `resume_unwind` rather than `panic!`: it runs no panic hook, so nothing is
/// printed.
fn refuse(number: u32, reached: usize) -> ! {
    rust_std::panic::resume_unwind(Box::new(Passed { number, reached }))
}

pub fn fresh_universal(number: usize) -> String {
    granted(number);
    levels::made_universal(number);
    rust_std::format!("α{number}")
}

pub fn fresh_unknown(number: usize) -> String {
    granted(number);
    levels::made_unknown(number);
    rust_std::format!("^α{number}")
}

fn granted(number: usize) {
    if number >= crate::limit(3) {
        refuse(24, number + 1);
    }
    DONE.set(DONE.get() + 1);
}

/// A type's constructors: the length of its list of nodes.
pub fn node_count(ty: &CoreType) -> usize {
    1 + match ty {
        CoreType::Var(_) | CoreType::ETVar(_) | CoreType::Con(_) => 0,
        CoreType::Arrow(left, right) | CoreType::App(left, right) => {
            node_count(left) + node_count(right)
        }
        CoreType::Forall(_, body) => node_count(body),
        CoreType::Product(parts) => parts.iter().map(node_count).sum(),
    }
}

/// What the Rust keeps in a `Vec`: board entries, which are limited; trace
/// strings and parameter types, which are not.
pub trait Element {
    const ON_BOARD: bool = false;

    fn nodes(&self) -> usize {
        0
    }
}

impl Element for String {}
impl Element for CoreType {}

#[derive(Debug, Clone)]
pub struct Vec<T> {
    items: Items<T>,
    nodes: usize,
    peak_len: usize,
    peak_nodes: usize,
}

impl<T: Element> Vec<T> {
    pub fn new() -> Self {
        Vec {
            items: Items::new(),
            nodes: 0,
            peak_len: 0,
            peak_nodes: 0,
        }
    }

    pub fn push(&mut self, item: T) {
        let len = self.items.len() + 1;
        let nodes = self.nodes + item.nodes();
        if T::ON_BOARD && len > crate::limit(0) {
            refuse(22, len);
        }
        if T::ON_BOARD && nodes > crate::limit(1) {
            refuse(22, nodes);
        }
        DONE.set(DONE.get() + usize::from(T::ON_BOARD));
        self.items.push(item);
        self.nodes = nodes;
        self.peak_len = self.peak_len.max(len);
        self.peak_nodes = self.peak_nodes.max(nodes);
    }

    pub fn pop(&mut self) -> Option<T> {
        let item = self.items.pop()?;
        self.nodes -= item.nodes();
        Some(item)
    }

    pub fn peak_len(&self) -> usize {
        self.peak_len
    }

    pub fn peak_nodes(&self) -> usize {
        self.peak_nodes
    }
}

impl<T> Deref for Vec<T> {
    type Target = [T];

    fn deref(&self) -> &[T] {
        &self.items
    }
}

/// The Rust's maps all go from names to types. Only the map of solutions has
/// keys of the spelling of an unknown, so an insertion under such a key is a
/// solution. Iteration is in the order of the spelt names; no answer hangs on
/// that, and the unshadowed run has the random order of the real `HashMap`.
#[derive(Debug, Clone)]
pub struct HashMap<K, V> {
    map: BTreeMap<K, V>,
    /// The unknowns in order of solving.
    order: Items<K>,
    solved: usize,
}

impl<K, V> HashMap<K, V> {
    pub fn new() -> Self {
        HashMap {
            map: BTreeMap::new(),
            order: Items::new(),
            solved: 0,
        }
    }
}

impl HashMap<String, CoreType> {
    pub fn insert(&mut self, name: String, ty: CoreType) -> Option<CoreType> {
        if let Some(unknown) = number_after("^α", &name) {
            self.solve(unknown, &name, &ty);
        }
        self.map.insert(name, ty)
    }

    /// Scope is tested before size.
    fn solve(&mut self, unknown: usize, name: &str, ty: &CoreType) {
        if let Some(universal) = levels::out_of_scope(unknown, ty) {
            refuse(39, universal);
        }
        let solved = self.solved + node_count(ty);
        if solved > crate::limit(4) {
            refuse(25, solved);
        }
        levels::given(unknown, ty, |other| self.map.contains_key(other));
        DONE.set(DONE.get() + 1);
        self.solved = solved;
        self.order.push(name.to_owned());
    }

    pub fn get(&self, name: &str) -> Option<&CoreType> {
        self.map.get(name)
    }

    pub fn in_order(&self) -> impl Iterator<Item = (&str, &CoreType)> {
        self.order
            .iter()
            .map(|name| (name.as_str(), &self.map[name]))
    }

    pub fn solved(&self) -> usize {
        self.solved
    }
}

impl FromIterator<(String, CoreType)> for HashMap<String, CoreType> {
    fn from_iter<I: IntoIterator<Item = (String, CoreType)>>(pairs: I) -> Self {
        let mut map = HashMap::new();
        for (name, ty) in pairs {
            map.insert(name, ty);
        }
        map
    }
}

impl<K, V> IntoIterator for HashMap<K, V> {
    type Item = (K, V);
    type IntoIter = rust_std::collections::btree_map::IntoIter<K, V>;

    fn into_iter(self) -> Self::IntoIter {
        self.map.into_iter()
    }
}
