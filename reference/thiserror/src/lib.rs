//! Stand-in for the crate of the same name: `#[derive(Error)]` on an enum whose
//! variants have an `#[error("...")]` text and named fields, or one `#[from]`
//! field. Gives `Display`, `Error` and `From`.

use proc_macro::{Delimiter, Group, TokenStream, TokenTree};

struct Variant {
    name: String,
    /// The text as a literal, quotes included.
    text: String,
    fields: Vec<String>,
    /// The type of the only field, if it is marked `#[from]`.
    from: Option<String>,
}

#[proc_macro_derive(Error, attributes(error, from))]
pub fn derive_error(input: TokenStream) -> TokenStream {
    let (name, variants) = read_enum(input);
    let display: String = variants.iter().map(|v| display_arm(&name, v)).collect();
    let source: String = variants.iter().map(|v| source_arm(&name, v)).collect();
    let from: String = variants.iter().map(|v| from_impl(&name, v)).collect();
    let code = format!(
        "impl ::std::fmt::Display for {name} {{
            #[allow(unused_variables)]
            fn fmt(&self, out: &mut ::std::fmt::Formatter<'_>) -> ::std::fmt::Result {{
                match self {{ {display} }}
            }}
        }}
        impl ::std::error::Error for {name} {{
            fn source(&self) -> Option<&(dyn ::std::error::Error + 'static)> {{
                match self {{ {source} }}
            }}
        }}
        {from}"
    );
    code.parse().expect("the code above is Rust")
}

fn display_arm(name: &str, variant: &Variant) -> String {
    let Variant {
        name: case, text, ..
    } = variant;
    let pattern = match variant.from {
        Some(_) => "(..)".to_string(),
        None => format!("{{ {} }}", variant.fields.join(", ")),
    };
    format!("{name}::{case} {pattern} => ::std::write!(out, {text}),")
}

fn source_arm(name: &str, variant: &Variant) -> String {
    let case = &variant.name;
    match variant.from {
        Some(_) => format!("{name}::{case}(inner) => Some(inner),"),
        None => format!("{name}::{case} {{ .. }} => None,"),
    }
}

fn from_impl(name: &str, variant: &Variant) -> String {
    let case = &variant.name;
    match &variant.from {
        None => String::new(),
        Some(ty) => format!(
            "impl ::std::convert::From<{ty}> for {name} {{
                fn from(inner: {ty}) -> Self {{ {name}::{case}(inner) }}
            }}"
        ),
    }
}

fn read_enum(input: TokenStream) -> (String, Vec<Variant>) {
    let tokens: Vec<TokenTree> = input.into_iter().collect();
    let at = tokens
        .iter()
        .position(|token| token.to_string() == "enum")
        .expect("only enums can be derived");
    let TokenTree::Group(body) = &tokens[at + 2] else {
        panic!("an enum without parameters is expected");
    };
    let variants = pieces(body)
        .iter()
        .map(|piece| read_variant(piece))
        .collect();
    (tokens[at + 1].to_string(), variants)
}

fn read_variant(tokens: &[TokenTree]) -> Variant {
    let mut variant = Variant {
        name: String::new(),
        text: String::new(),
        fields: Vec::new(),
        from: None,
    };
    for token in tokens {
        match token {
            TokenTree::Ident(name) => variant.name = name.to_string(),
            TokenTree::Group(group) => match group.delimiter() {
                Delimiter::Bracket => variant.text = error_text(group),
                Delimiter::Brace => variant.fields = field_names(group),
                _ => variant.from = Some(from_type(group)),
            },
            _ => {}
        }
    }
    variant
}

/// The literal of `[error("...")]`.
fn error_text(attribute: &Group) -> String {
    match attribute.stream().into_iter().last() {
        Some(TokenTree::Group(inner)) => inner.stream().to_string(),
        _ => panic!("an error attribute with a text is expected"),
    }
}

fn field_names(group: &Group) -> Vec<String> {
    pieces(group)
        .iter()
        .map(|piece| piece[0].to_string())
        .collect()
}

/// The type in `(#[from] Type)`.
fn from_type(group: &Group) -> String {
    let tokens = group.stream().into_iter().skip(2);
    tokens.map(|token| token.to_string()).collect()
}

/// A group's content cut at its commas; a comma inside `<..>` does not occur in
/// the file that this is for.
fn pieces(group: &Group) -> Vec<Vec<TokenTree>> {
    let tokens: Vec<TokenTree> = group.stream().into_iter().collect();
    tokens
        .split(|token| token.to_string() == ",")
        .filter(|piece| !piece.is_empty())
        .map(|piece| piece.to_vec())
        .collect()
}
