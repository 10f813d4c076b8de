//! Stand-in for the derives of `strum`, `thiserror`, `serde`, `get-size2` and `arbitrary`, on the standard library's `proc_macro`
//! alone. Handled: what the original derives them for, that is, structs, and enums with unit and tuple variants, with type
//! parameters but no `where`. Any other shape stops the build.
use proc_macro::{Delimiter, Group, TokenStream, TokenTree};

struct Item {
    name: String,
    /// The parameters with their bounds, as in `impl<..>`, and without, as in `Name<..>`.
    bounded: String,
    parameters: String,
    /// `#[error(..)]` stands on the item or on one of its variants.
    has_message: bool,
    /// Empty for a struct.
    variants: Vec<Variant>,
}

struct Variant {
    name: String,
    has_message: bool,
    fields: Vec<Field>,
}

struct Field {
    marked_from: bool,
    kind: String,
}

fn is(token: Option<&TokenTree>, text: &str) -> bool {
    token.is_some_and(|token| token.to_string() == text)
}

fn text(tokens: &[TokenTree]) -> String {
    tokens.iter().cloned().collect::<TokenStream>().to_string()
}

/// The parts between commas, those inside `<..>` not counted.
fn parts(tokens: &[TokenTree]) -> Vec<&[TokenTree]> {
    let mut depth = 0;
    let is_separator = |token: &TokenTree| {
        let text = token.to_string();
        depth += (text == "<") as i32 - (text == ">") as i32;
        depth == 0 && text == ","
    };
    tokens.split(is_separator).filter(|part| !part.is_empty()).collect()
}

/// The attributes at the start (without `#`), and what follows them and the visibility.
fn without_attributes(mut tokens: &[TokenTree]) -> (Vec<String>, &[TokenTree]) {
    let mut attributes = vec![];
    while is(tokens.first(), "#") {
        attributes.push(tokens[1].to_string());
        tokens = &tokens[2..];
    }
    if is(tokens.first(), "pub") {
        let restricted = matches!(&tokens[1], TokenTree::Group(group) if group.delimiter() == Delimiter::Parenthesis);
        tokens = &tokens[1 + restricted as usize..];
    }
    (attributes, tokens)
}

fn inside(group: &Group) -> Vec<TokenTree> {
    group.stream().into_iter().collect()
}

fn is_message(attributes: &[String]) -> bool {
    attributes.iter().any(|attribute| attribute.starts_with("[error"))
}

fn parse_field(tokens: &[TokenTree]) -> Field {
    let (attributes, kind) = without_attributes(tokens);
    Field { marked_from: attributes.contains(&"[from]".to_string()), kind: text(kind) }
}

fn parse_variant(tokens: &[TokenTree]) -> Variant {
    let (attributes, tokens) = without_attributes(tokens);
    let fields = match tokens.get(1) {
        None => vec![],
        Some(TokenTree::Group(group)) if group.delimiter() == Delimiter::Parenthesis => {
            parts(&inside(group)).into_iter().map(parse_field).collect()
        }
        Some(_) => panic!("stand-in derive: only unit and tuple variants"),
    };
    Variant { name: tokens[0].to_string(), has_message: is_message(&attributes), fields }
}

fn parse(input: TokenStream) -> Item {
    let tokens: Vec<TokenTree> = input.into_iter().collect();
    let (attributes, tokens) = without_attributes(&tokens);
    let is_enum = is(tokens.first(), "enum");
    let name = tokens[1].to_string();
    let mut rest = &tokens[2..];

    let (mut bounded, mut parameters) = (String::new(), String::new());
    if is(rest.first(), "<") {
        let end = rest.iter().position(|token| token.to_string() == ">").expect("stand-in derive: `<` without `>`");
        bounded = text(&rest[1..end]);
        parameters = parts(&rest[1..end]).into_iter().map(|parameter| parameter[0].to_string() + ",").collect();
        rest = &rest[end + 1..];
    }

    let variants = match rest.first() {
        Some(TokenTree::Group(body)) if is_enum => parts(&inside(body)).into_iter().map(parse_variant).collect(),
        Some(TokenTree::Group(_)) => vec![],
        _ => panic!("stand-in derive: expected the body of `{name}`"),
    };
    let has_message = is_message(&attributes) || variants.iter().any(|variant: &Variant| variant.has_message);
    Item { name, bounded, parameters, has_message, variants }
}

impl Item {
    fn implement(&self, name: &str, body: String) -> String {
        format!("impl<{}> {name} for {}<{}> {{ {body} }}", self.bounded, self.name, self.parameters)
    }

    fn each_variant(&self, line: impl Fn(&Variant) -> String) -> String {
        self.variants.iter().map(|variant| line(variant) + ", ").collect()
    }
}

#[proc_macro_derive(EnumCount)]
pub fn enum_count(input: TokenStream) -> TokenStream {
    let item = parse(input);
    let body = format!("const COUNT: usize = {};", item.variants.len());
    item.implement("::strum::EnumCount", body).parse().unwrap()
}

#[proc_macro_derive(EnumIter)]
pub fn enum_iter(input: TokenStream) -> TokenStream {
    let item = parse(input);
    let variants = item.each_variant(|variant| {
        let fields: String = variant.fields.iter().map(|_| "Default::default(),").collect();
        let fields = if fields.is_empty() { fields } else { format!("({fields})") };
        format!("Self::{}{fields}", variant.name)
    });
    let body = format!("fn iter() -> ::std::vec::IntoIter<Self> {{ ::std::vec![{variants}].into_iter() }}");
    item.implement("::strum::IntoEnumIterator", body).parse().unwrap()
}

#[proc_macro_derive(Display)]
pub fn display(input: TokenStream) -> TokenStream {
    let item = parse(input);
    let arms = item.each_variant(|variant| format!("Self::{0} {{ .. }} => \"{0}\"", variant.name));
    item.implement("::std::fmt::Display", format!("{FMT} {{ f.write_str(match self {{ {arms} }}) }}")).parse().unwrap()
}

const FMT: &str = "fn fmt(&self, f: &mut ::std::fmt::Formatter<'_>) -> ::std::fmt::Result";

#[proc_macro_derive(Error, attributes(error, from))]
pub fn error(input: TokenStream) -> TokenStream {
    let item = parse(input);
    let mut output = item.implement("::std::error::Error", String::new());
    if item.has_message {
        output += &item.implement("::std::fmt::Display", format!("{FMT} {{ ::std::fmt::Debug::fmt(self, f) }}"));
    }
    for variant in &item.variants {
        for Field { kind, .. } in variant.fields.iter().filter(|field| field.marked_from) {
            let body = format!("fn from(value: {kind}) -> Self {{ Self::{}(value) }}", variant.name);
            output += &item.implement(&format!("::std::convert::From<{kind}>"), body);
        }
    }
    output.parse().unwrap()
}

#[proc_macro_derive(Serialize)]
pub fn serialize(_: TokenStream) -> TokenStream {
    TokenStream::new()
}

#[proc_macro_derive(Deserialize)]
pub fn deserialize(_: TokenStream) -> TokenStream {
    TokenStream::new()
}

#[proc_macro_derive(GetSize)]
pub fn get_size(_: TokenStream) -> TokenStream {
    TokenStream::new()
}

#[proc_macro_derive(Arbitrary)]
pub fn arbitrary(_: TokenStream) -> TokenStream {
    TokenStream::new()
}
