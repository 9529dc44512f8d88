//! Names and types.

use std::fmt;

/// A name of a sheet, 1 to 9,999.
///
/// Its `Display` is Int, Bool, Unit and printInt for 1 to 4, and "n" then the
/// digits for any other.
#[derive(Debug, Clone, Copy, PartialEq, Eq, PartialOrd, Ord, Hash)]
pub struct Name(pub u32);

impl fmt::Display for Name {
    fn fmt(&self, f: &mut fmt::Formatter) -> fmt::Result {
        match self.0 {
            1 => f.write_str("Int"),
            2 => f.write_str("Bool"),
            3 => f.write_str("Unit"),
            4 => f.write_str("printInt"),
            name => write!(f, "n{name}"),
        }
    }
}

/// A type.
///
/// `{}` writes it as the ported Rust does: `Int -> Bool`, `∀n10. n10`,
/// `(n20 Int)`, `(Int × Bool)`, with no parentheses around an Arrow or a
/// Forall, so that two types may have the same text. `{:#}` writes it as in the
/// papers, with parentheses where they are needed: `(Int → Bool) → Unit`. A
/// product of one part is then `(Int ×)`. In both an unknown is `^3` and a fresh
/// universal `!3`.
#[derive(Debug, Clone, PartialEq, Eq, Hash)]
pub enum Type {
    /// A type variable.
    Var(Name),
    /// A type constructor.
    Con(Name),
    /// A function type: argument, result.
    Arrow(Box<Type>, Box<Type>),
    /// A type quantified over a variable.
    Forall(Name, Box<Type>),
    /// A type application: function, argument.
    App(Box<Type>, Box<Type>),
    /// A product.
    Product(Vec<Type>),
    /// An unknown, by its number.
    Unknown(u32),
    /// A fresh universal, by its number.
    Universal(u32),
}

impl Type {
    /// The one type that the words are: two words a node, in prefix order.
    /// `None` if they are not a whole type.
    pub(crate) fn from_words(words: &[u32]) -> Option<Type> {
        // From the last node on, so that a node finds its parts made, the first
        // one on top. Types nest too deep for a recursion to be safe.
        let mut made: Vec<Type> = Vec::new();
        if words.len() % 2 == 1 {
            return None;
        }
        for node in words.rchunks_exact(2) {
            let (kind, value) = (node[0], node[1]);
            let mut part = || made.pop().map(Box::new);
            let ty = match kind {
                11 => Type::Var(Name(value)),
                12 => Type::Con(Name(value)),
                13 => Type::Arrow(part()?, part()?),
                14 => Type::Forall(Name(value), part()?),
                15 => Type::App(part()?, part()?),
                16 => {
                    let rest = made.len().checked_sub(value as usize)?;
                    let mut parts = made.split_off(rest);
                    parts.reverse();
                    Type::Product(parts)
                }
                17 => Type::Unknown(value),
                18 => Type::Universal(value),
                _ => return None,
            };
            made.push(ty);
        }
        let ty = made.pop()?;
        made.is_empty().then_some(ty)
    }
}

/// Where a type stands, for the parentheses of `{:#}`.
#[derive(Clone, Copy, PartialEq)]
enum Place {
    Anywhere,
    /// Left of an arrow or in a product.
    Part,
    Applied,
    Argument,
}

/// What is still to be written.
enum Piece<'a> {
    Type(&'a Type, Place),
    Text(&'static str),
}

impl Type {
    fn in_parentheses(&self, place: Place) -> bool {
        match self {
            Type::Arrow(..) | Type::Forall(..) => place != Place::Anywhere,
            Type::App(..) => place == Place::Argument,
            _ => false,
        }
    }

    /// Writes what comes before the first part and adds the other pieces, the
    /// last one first.
    fn write_start<'a>(
        &'a self,
        f: &mut fmt::Formatter,
        papers: bool,
        pieces: &mut Vec<Piece<'a>>,
    ) -> fmt::Result {
        match self {
            Type::Var(name) | Type::Con(name) => write!(f, "{name}"),
            Type::Arrow(argument, result) => {
                pieces.extend([
                    Piece::Type(result, Place::Anywhere),
                    Piece::Text(if papers { " → " } else { " -> " }),
                    Piece::Type(argument, Place::Part),
                ]);
                Ok(())
            }
            Type::Forall(name, body) => {
                pieces.push(Piece::Type(body, Place::Anywhere));
                write!(f, "∀{name}. ")
            }
            Type::App(function, argument) => {
                pieces.extend([
                    Piece::Text(if papers { "" } else { ")" }),
                    Piece::Type(argument, Place::Argument),
                    Piece::Text(" "),
                    Piece::Type(function, Place::Applied),
                ]);
                f.write_str(if papers { "" } else { "(" })
            }
            Type::Product(parts) => {
                let alone = papers && parts.len() == 1;
                pieces.push(Piece::Text(if alone { " ×)" } else { ")" }));
                for (at, part) in parts.iter().enumerate().rev() {
                    pieces.push(Piece::Type(part, Place::Part));
                    if at > 0 {
                        pieces.push(Piece::Text(" × "));
                    }
                }
                f.write_str("(")
            }
            Type::Unknown(number) => write!(f, "^{number}"),
            Type::Universal(number) => write!(f, "!{number}"),
        }
    }
}

impl fmt::Display for Type {
    fn fmt(&self, f: &mut fmt::Formatter) -> fmt::Result {
        let papers = f.alternate();
        // A list and no recursion, as types nest deep.
        let mut pieces = vec![Piece::Type(self, Place::Anywhere)];
        while let Some(piece) = pieces.pop() {
            match piece {
                Piece::Text(text) => f.write_str(text)?,
                Piece::Type(ty, place) => {
                    if papers && ty.in_parentheses(place) {
                        pieces.push(Piece::Text(")"));
                        f.write_str("(")?;
                    }
                    ty.write_start(f, papers, &mut pieces)?;
                }
            }
        }
        Ok(())
    }
}

#[cfg(test)]
mod tests {
    use super::*;

    fn both(words: &[u32]) -> [String; 2] {
        let ty = Type::from_words(words).expect("a whole type");
        [format!("{ty}"), format!("{ty:#}")]
    }

    #[test]
    fn leaves() {
        assert_eq!(both(&[11, 10]), ["n10", "n10"]);
        assert_eq!(both(&[12, 1]), ["Int", "Int"]);
        assert_eq!(both(&[12, 2]), ["Bool", "Bool"]);
        assert_eq!(both(&[12, 3]), ["Unit", "Unit"]);
        assert_eq!(both(&[12, 4]), ["printInt", "printInt"]);
        assert_eq!(both(&[12, 9999]), ["n9999", "n9999"]);
        assert_eq!(both(&[17, 0]), ["^0", "^0"]);
        assert_eq!(both(&[18, 3]), ["!3", "!3"]);
    }

    #[test]
    fn arrows_and_quantifiers() {
        let left = [13, 0, 13, 0, 12, 1, 12, 2, 12, 3];
        assert_eq!(both(&left), ["Int -> Bool -> Unit", "(Int → Bool) → Unit"]);
        let right = [13, 0, 12, 1, 13, 0, 12, 2, 12, 3];
        assert_eq!(both(&right), ["Int -> Bool -> Unit", "Int → Bool → Unit"]);
        let quantified = [14, 10, 13, 0, 11, 10, 12, 1];
        assert_eq!(both(&quantified), ["∀n10. n10 -> Int", "∀n10. n10 → Int"]);
        let argument = [13, 0, 14, 10, 11, 10, 14, 11, 17, 5];
        assert_eq!(
            both(&argument),
            ["∀n10. n10 -> ∀n11. ^5", "(∀n10. n10) → ∀n11. ^5"]
        );
    }

    #[test]
    fn applications() {
        let twice = [15, 0, 15, 0, 12, 20, 12, 1, 12, 2];
        assert_eq!(both(&twice), ["((n20 Int) Bool)", "n20 Int Bool"]);
        let inner = [15, 0, 12, 20, 15, 0, 12, 21, 13, 0, 12, 1, 12, 1];
        assert_eq!(
            both(&inner),
            ["(n20 (n21 Int -> Int))", "n20 (n21 (Int → Int))"]
        );
    }

    #[test]
    fn products() {
        assert_eq!(both(&[16, 0]), ["()", "()"]);
        assert_eq!(both(&[16, 1, 12, 1]), ["(Int)", "(Int ×)"]);
        let parts = [16, 3, 12, 1, 13, 0, 12, 2, 12, 3, 16, 2, 17, 1, 18, 2];
        assert_eq!(
            both(&parts),
            [
                "(Int × Bool -> Unit × (^1 × !2))",
                "(Int × (Bool → Unit) × (^1 × !2))"
            ]
        );
    }

    #[test]
    fn trees() {
        let con = |name| Box::new(Type::Con(Name(name)));
        assert_eq!(
            Type::from_words(&[13, 0, 12, 1, 12, 2]),
            Some(Type::Arrow(con(1), con(2)))
        );
        assert_eq!(
            Type::from_words(&[16, 2, 12, 1, 12, 2]),
            Some(Type::Product(vec![*con(1), *con(2)]))
        );
    }

    #[test]
    fn no_whole_type() {
        let words: [&[u32]; 8] = [
            &[],
            &[12],
            &[12, 1, 12],
            &[12, 1, 12, 2],
            &[13, 0, 12, 1],
            &[14, 10],
            &[16, u32::MAX, 12, 1],
            &[19, 0],
        ];
        for words in words {
            assert_eq!(Type::from_words(words), None, "{words:?}");
        }
    }
}
