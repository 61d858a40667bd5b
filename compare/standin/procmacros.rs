//! Stand-in for the crate `procmacros`, and the derive and attribute that `enumset` and
//! `instability` give out again (a macro crate can give out nothing but macros).
extern crate proc_macro;

use proc_macro::{Delimiter, TokenStream, TokenTree};

/// Fills in documentation in the published crate; here the item stays as it is.
#[proc_macro_attribute]
pub fn doc_replace(_: TokenStream, item: TokenStream) -> TokenStream {
    item
}

/// Hides an item behind a feature in the published crate; here the item stays as it is.
#[proc_macro_attribute]
pub fn unstable(_: TokenStream, item: TokenStream) -> TokenStream {
    item
}

/// Gives a struct one `with_FIELD` for each field.
#[proc_macro_derive(BuilderLite)]
pub fn builder_lite(item: TokenStream) -> TokenStream {
    let (name, body) = named_body(item, "struct");
    let setters: String = entries(body).iter().map(|entry| setter(entry)).collect();
    format!("impl {name} {{ {setters} }}").parse().unwrap()
}

fn setter(entry: &[TokenTree]) -> String {
    let colon = entry.iter().position(|token| token.to_string() == ":").unwrap();
    let field = &entry[colon - 1];
    let kind: TokenStream = entry[colon + 1..].iter().cloned().collect();
    format!(
        "/// Sets the field.\n #[must_use] pub fn with_{field}(mut self, {field}: {kind}) -> Self \
         {{ self.{field} = {field}; self }}"
    )
}

/// Makes a plain enum a member of `EnumSet`.
#[proc_macro_derive(EnumSetType)]
pub fn enum_set_type(item: TokenStream) -> TokenStream {
    let (name, body) = named_body(item, "enum");
    let all: String =
        entries(body).iter().map(|entry| format!("{name}::{}, ", entry.last().unwrap())).collect();
    format!(
        "impl Clone for {name} {{ fn clone(&self) -> Self {{ *self }} }}
         impl Copy for {name} {{}}
         impl PartialEq for {name} {{
             fn eq(&self, other: &Self) -> bool {{ *self as u32 == *other as u32 }}
         }}
         impl Eq for {name} {{}}
         impl ::enumset::EnumSetType for {name} {{
             const ALL: &'static [Self] = &[{all}];
             fn index(self) -> u32 {{ self as u32 }}
         }}"
    )
    .parse()
    .unwrap()
}

/// The name after `keyword` and what stands in its braces.
fn named_body(item: TokenStream, keyword: &str) -> (String, TokenStream) {
    let mut tokens = item.into_iter().skip_while(|token| token.to_string() != keyword);
    let name = tokens.nth(1).unwrap().to_string();
    let body = tokens.find_map(|token| match token {
        TokenTree::Group(group) if group.delimiter() == Delimiter::Brace => Some(group.stream()),
        _ => None,
    });
    (name, body.unwrap())
}

/// The entries between the commas; the types of these structs hold no comma of their own.
fn entries(body: TokenStream) -> Vec<Vec<TokenTree>> {
    let tokens: Vec<TokenTree> = body.into_iter().collect();
    tokens
        .split(|token| token.to_string() == ",")
        .filter(|entry| !entry.is_empty())
        .map(|entry| entry.to_vec())
        .collect()
}
