//! The derives and attributes of the stand-ins. An item is cut by hand at its commas, and what is
//! made from it is written as text.

use proc_macro::{Delimiter, TokenStream, TokenTree};

/// An item: the tokens before its body as text, its name, and what its body lists.
struct Item {
    head: String,
    name: String,
    parts: Vec<Part>,
}

/// A case of an enum or a field of a record: its attributes, and the tokens after them.
struct Part {
    attributes: Vec<Vec<TokenTree>>,
    tokens: Vec<TokenTree>,
}

fn item(stream: TokenStream) -> Item {
    let tokens: Vec<TokenTree> = stream.into_iter().collect();
    let keyword = tokens
        .iter()
        .position(|t| matches!(t.to_string().as_str(), "struct" | "enum"))
        .expect("a struct or an enum");
    let body = match &tokens[keyword + 2] {
        TokenTree::Group(body) => body.stream(),
        other => panic!("no body but {other}: generics are not covered"),
    };
    Item {
        head: text(&tokens[..keyword + 2]),
        name: tokens[keyword + 1].to_string(),
        parts: parts(body),
    }
}

/// Cuts a body at its commas.
fn parts(body: TokenStream) -> Vec<Part> {
    let tokens: Vec<TokenTree> = body.into_iter().collect();
    tokens
        .split(|t| is(t, ','))
        .filter(|tokens| !tokens.is_empty())
        .map(part)
        .collect()
}

fn part(mut tokens: &[TokenTree]) -> Part {
    let mut attributes = Vec::new();
    while let [hash, TokenTree::Group(attribute), rest @ ..] = tokens {
        if !is(hash, '#') {
            break;
        }
        attributes.push(attribute.stream().into_iter().collect());
        tokens = rest;
    }
    Part {
        attributes,
        tokens: tokens.to_vec(),
    }
}

impl Part {
    /// The name of a case, or of a field without `pub`.
    fn name(&self) -> String {
        self.tokens[0].to_string()
    }

    /// The type of a field, or the number of a case: what comes after `:` or `=`.
    fn after_sign(&self) -> String {
        assert!(is(&self.tokens[1], ':') || is(&self.tokens[1], '='));
        text(&self.tokens[2..])
    }

    fn attribute(&self, name: &str) -> Option<&[TokenTree]> {
        self.attributes
            .iter()
            .find(|a| a[0].to_string() == name)
            .map(|a| &a[1..])
    }
}

fn is(token: &TokenTree, sign: char) -> bool {
    matches!(token, TokenTree::Punct(p) if p.as_char() == sign)
}

fn text(tokens: &[TokenTree]) -> String {
    tokens.iter().cloned().collect::<TokenStream>().to_string()
}

fn made(text: String) -> TokenStream {
    text.parse().expect("what a stand-in makes is Rust")
}

/// `zerocopy`: the fields are taken one after the other.
#[proc_macro_derive(FromBytes)]
pub fn from_bytes(stream: TokenStream) -> TokenStream {
    let Item { name, parts, .. } = item(stream);
    let fields: String = parts
        .iter()
        .map(|f| format!("{}: ::zerocopy::FromBytes::take(octets),", f.name()))
        .collect();
    made(format!(
        "impl ::zerocopy::FromBytes for {name} {{
            fn take(octets: &mut &[u8]) -> Self {{ Self {{ {fields} }} }}
        }}"
    ))
}

/// `zerocopy`: the sum of the fields' octets, against which the record's size is held.
#[proc_macro_derive(IntoBytes)]
pub fn into_bytes(stream: TokenStream) -> TokenStream {
    let Item { name, parts, .. } = item(stream);
    let octets: String = parts
        .iter()
        .map(|f| format!("+ <{} as ::zerocopy::IntoBytes>::OCTETS", f.after_sign()))
        .collect();
    made(format!(
        "impl ::zerocopy::IntoBytes for {name} {{ const OCTETS: usize = 0 {octets}; }}"
    ))
}

/// `zerocopy`: a mark that nothing here asks for.
#[proc_macro_derive(Immutable)]
pub fn immutable(_: TokenStream) -> TokenStream {
    TokenStream::new()
}

/// `zerocopy`: a mark; `as_bytes` checks the alignment.
#[proc_macro_derive(Unaligned)]
pub fn unaligned(_: TokenStream) -> TokenStream {
    TokenStream::new()
}

/// `num_enum`: from the number of a case.
#[proc_macro_derive(TryFromPrimitive)]
pub fn try_from_primitive(stream: TokenStream) -> TokenStream {
    let Item { name, parts, .. } = item(stream);
    let cases: String = parts
        .iter()
        .map(|c| format!("{} => Ok(Self::{}),", c.after_sign(), c.name()))
        .collect();
    made(format!(
        "impl ::core::convert::TryFrom<u8> for {name} {{
            type Error = ::num_enum::TryFromPrimitiveError;
            fn try_from(number: u8) -> Result<Self, Self::Error> {{
                match number {{
                    {cases}
                    _ => Err(::num_enum::TryFromPrimitiveError {{ number }}),
                }}
            }}
        }}"
    ))
}

/// `num_enum`: to the number of a case.
#[proc_macro_derive(IntoPrimitive)]
pub fn into_primitive(stream: TokenStream) -> TokenStream {
    let name = item(stream).name;
    made(format!(
        "impl ::core::convert::From<{name}> for u8 {{
            fn from(value: {name}) -> u8 {{ value as u8 }}
        }}"
    ))
}

/// `thiserror`: a conversion for each case with one field marked `#[from]`.
#[proc_macro_derive(Error, attributes(error, from))]
pub fn error(stream: TokenStream) -> TokenStream {
    let Item { name, parts, .. } = item(stream);
    let mut conversions = String::new();
    for case in &parts {
        let Some(TokenTree::Group(fields)) = case.tokens.get(1) else {
            continue;
        };
        if fields.delimiter() != Delimiter::Parenthesis {
            continue;
        }
        let field = part(&fields.stream().into_iter().collect::<Vec<_>>());
        if field.attribute("from").is_some() {
            let (from, case) = (text(&field.tokens), case.name());
            conversions += &format!(
                "impl ::core::convert::From<{from}> for {name} {{
                    fn from(inner: {from}) -> Self {{ Self::{case}(inner) }}
                }}"
            );
        }
    }
    made(conversions)
}

/// `bitbybit`: an enum with its number as bits.
#[proc_macro_attribute]
pub fn bitenum(arguments: TokenStream, stream: TokenStream) -> TokenStream {
    let width = arguments.into_iter().next().expect("the width");
    let name = item(stream.clone()).name;
    let mut whole = made("#[derive(Copy, Clone)]".into());
    whole.extend(stream);
    whole.extend(made(format!(
        "impl {name} {{
            /// The number as bits.
            pub const fn raw_value(self) -> ::arbitrary_int::{width} {{
                ::arbitrary_int::{width}::new(self as u8)
            }}
        }}"
    )));
    whole
}

/// `bitbybit`: a record of single bits, kept as one number.
#[proc_macro_attribute]
pub fn bitfield(arguments: TokenStream, stream: TokenStream) -> TokenStream {
    let arguments = parts(arguments);
    let width = format!("::arbitrary_int::{}", arguments[0].name());
    let default = arguments
        .iter()
        .find(|a| a.name() == "default")
        .expect("a default")
        .after_sign();
    let Item { head, name, parts } = item(stream);

    let (mut getters, mut setters, mut shown) = (String::new(), String::new(), String::new());
    for field in &parts {
        let bit = match field.attribute("bit") {
            Some([TokenTree::Group(bit)]) => bit.stream().into_iter().next().expect("a bit"),
            _ => panic!("only single bits are covered"),
        };
        let field = field.name();
        getters += &format!(
            "/// Bit {bit}.
            pub const fn {field}(&self) -> bool {{ (self.raw_value.value() >> {bit}) & 1 == 1 }}"
        );
        setters += &format!(
            "/// Sets bit {bit}.
            pub const fn with_{field}(self, on: bool) -> Self {{
                Self((self.0 & !(1 << {bit})) | ((on as u8) << {bit}))
            }}"
        );
        shown += &format!(".field(\"{field}\", &self.{field}())");
    }
    made(format!(
        "#[derive(Copy, Clone)]
        {head} {{ raw_value: {width} }}

        impl {name} {{
            /// The default value.
            pub const DEFAULT: Self = Self::new_with_raw_value({width}::new({default}));

            /// The record of these bits.
            pub const fn new_with_raw_value(raw_value: {width}) -> Self {{ Self {{ raw_value }} }}

            /// The bits.
            pub const fn raw_value(&self) -> {width} {{ self.raw_value }}

            /// Starts from no bits.
            pub const fn builder() -> {name}Builder {{ {name}Builder(0) }}

            {getters}
        }}

        impl ::core::default::Default for {name} {{
            fn default() -> Self {{ Self::DEFAULT }}
        }}

        impl ::core::fmt::Debug for {name} {{
            fn fmt(&self, f: &mut ::core::fmt::Formatter<'_>) -> ::core::fmt::Result {{
                f.debug_struct(\"{name}\"){shown}.finish()
            }}
        }}

        /// Sets bit after bit.
        pub struct {name}Builder(u8);

        impl {name}Builder {{
            {setters}

            /// The record.
            pub const fn build(self) -> {name} {{
                {name}::new_with_raw_value({width}::new(self.0))
            }}
        }}"
    ))
}
