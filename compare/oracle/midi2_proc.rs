//! Stand-in for the macros of `midi2_proc`, over std alone.
//!
//! `generate_message` writes what the struct's list of properties says: a slice is refused where it is under the least
//! size or where a property's `validate` refuses it, in the order of the list; a getter is the property's `read`, a setter its
//! `write`, after its `resize` where the field is marked so; a new message is every property's default, written in order.

extern crate proc_macro;
use proc_macro::{Delimiter, TokenStream, TokenTree};

/// A field of the struct: its name, its type, its property and its marks.
struct Field {
    name: String,
    of: String,
    property: String,
    marks: Vec<String>,
}

impl Field {
    fn is(&self, mark: &str) -> bool {
        self.marks.iter().any(|m| m == mark)
    }
}

/// The tokens inside a group.
fn inside(tree: &TokenTree) -> Vec<TokenTree> {
    match tree {
        TokenTree::Group(group) => group.stream().into_iter().collect(),
        _ => Vec::new(),
    }
}

/// The least size in words, from `MinSizeUmp(4)`.
fn least_size(arguments: TokenStream) -> String {
    let trees: Vec<TokenTree> = arguments.into_iter().collect();
    let at = trees.iter().position(|t| t.to_string() == "MinSizeUmp");
    inside(&trees[at.expect("MinSizeUmp") + 1])[0].to_string()
}

/// Takes an attribute into the field that it stands before.
fn take_attribute(field: &mut Field, attribute: &TokenTree) {
    let trees = inside(attribute);
    let mark = trees[0].to_string();
    if mark == "property" {
        let property: TokenStream = inside(&trees[1]).into_iter().collect();
        field.property = property.to_string();
    } else {
        field.marks.push(mark);
    }
}

/// The fields between the braces.
fn fields(body: Vec<TokenTree>) -> Vec<Field> {
    let mut all = Vec::new();
    let mut field = empty();
    let mut in_type = false;
    for (at, tree) in body.iter().enumerate() {
        let text = tree.to_string();
        if text == "," {
            all.push(std::mem::replace(&mut field, empty()));
            in_type = false;
        } else if in_type {
            field.of.push_str(&text);
        } else if text == ":" {
            in_type = true;
        } else if at > 0 && body[at - 1].to_string() == "#" {
            take_attribute(&mut field, tree);
        } else if text != "#" {
            field.name = text;
        }
    }
    all
}

fn empty() -> Field {
    Field { name: String::new(), of: String::new(), property: String::new(), marks: Vec::new() }
}

/// A slice is a message where it is long enough and every readable property takes it.
fn from_slice(name: &str, least: &str, fields: &[Field]) -> String {
    let checks: String = fields
        .iter()
        .filter(|f| !f.is("writeonly"))
        .map(|f| {
            format!("<{} as crate::detail::property::ReadProperty<'_, &'a [u32]>>::validate(&buffer)?;\n", f.property)
        })
        .collect();
    format!(
        "impl<'a> core::convert::TryFrom<&'a [u32]> for {name}<&'a [u32]> {{
            type Error = crate::error::InvalidData;
            fn try_from(buffer: &'a [u32]) -> Result<Self, Self::Error> {{
                if buffer.len() < {least} {{
                    return Err(crate::error::InvalidData(crate::detail::common_err_strings::ERR_SLICE_TOO_SHORT));
                }}
                {checks}
                Ok({name}(buffer))
            }}
        }}",
        name = name,
        least = least,
        checks = checks
    )
}

fn getter(field: &Field) -> String {
    format!(
        "pub(crate) fn {name}(&self) -> {of} {{
            <{p} as crate::detail::property::ReadProperty<'_, B>>::read(&self.0)
        }}",
        name = field.name,
        of = field.of,
        p = field.property
    )
}

fn setter(field: &Field) -> String {
    let write = format!("<{} as crate::detail::property::WriteProperty<B>>::write(&mut self.0, v);", field.property);
    let of = &field.of;
    if !field.is("resize") {
        return format!(
            "pub(crate) fn set_{}(&mut self, v: {}) where B: crate::buffer::BufferMut {{ {} }}",
            field.name, of, write
        );
    }
    let resize = format!("<{} as crate::detail::property::ResizeProperty<B>>", field.property);
    format!(
        "pub(crate) fn set_{name}(&mut self, v: {of})
        where B: crate::buffer::BufferMut + crate::buffer::BufferResize {{
            {resize}::resize(&mut self.0, &v);
            {write}
        }}
        pub(crate) fn try_set_{name}(&mut self, v: {of}) -> Result<(), crate::error::BufferOverflow>
        where B: crate::buffer::BufferMut + crate::buffer::BufferTryResize {{
            {resize}::try_resize(&mut self.0, &v)?;
            {write}
            Ok(())
        }}",
        name = field.name,
        of = of,
        resize = resize,
        write = write
    )
}

/// A new message of the least size.
fn new(name: &str, least: &str, fields: &[Field]) -> String {
    let writes: String = fields
        .iter()
        .filter(|f| !f.is("readonly"))
        .map(|f| {
            let property = format!("<{} as crate::detail::property::WriteProperty<B>>", f.property);
            format!("{p}::write(&mut buffer, {p}::default());\n", p = property)
        })
        .collect();
    format!(
        "pub(crate) fn new() -> Self
        where B: crate::buffer::BufferMut + crate::buffer::BufferDefault + crate::buffer::BufferResize {{
            let mut buffer = <B as crate::buffer::BufferDefault>::default();
            <B as crate::buffer::BufferResize>::resize(&mut buffer, {least});
            {writes}
            {name}(buffer)
        }}",
        name = name,
        least = least,
        writes = writes
    )
}

#[proc_macro_attribute]
pub fn generate_message(arguments: TokenStream, item: TokenStream) -> TokenStream {
    let least = least_size(arguments);
    let trees: Vec<TokenTree> = item.into_iter().collect();
    let at = trees.iter().position(|t| t.to_string() == "struct").expect("a struct");
    let name = trees[at + 1].to_string();
    let body = trees.iter().find(|t| matches!(t, TokenTree::Group(g) if g.delimiter() == Delimiter::Brace));
    let fields = fields(inside(body.expect("fields")));
    let values = || fields.iter().filter(|f| f.of != "()");
    let getters: String = values().filter(|f| !f.is("writeonly")).map(getter).collect();
    let setters: String = values().filter(|f| !f.is("readonly")).map(setter).collect();
    let code = format!(
        "#[derive(Clone, Copy, Debug, PartialEq, Eq)]
        pub struct {name}<B: crate::buffer::Ump>(B);
        {from_slice}
        #[allow(dead_code)]
        impl<B: crate::buffer::Ump> {name}<B> {{
            pub(crate) fn over(buffer: B) -> Self {{ {name}(buffer) }}
            pub(crate) fn into_words(self) -> B {{ self.0 }}
            {new} {getters} {setters}
        }}",
        name = name,
        from_slice = from_slice(&name, &least, &fields),
        new = new(&name, &least, &fields),
        getters = getters,
        setters = setters
    );
    code.parse().expect("the message's code")
}

macro_rules! nothing {
    ($name:ident, $function:ident) => {
        /// Writes nothing.
        #[proc_macro_derive($name)]
        pub fn $function(_: TokenStream) -> TokenStream {
            TokenStream::new()
        }
    };
}

nothing!(Data, data);
nothing!(Packets, packets);
nothing!(RebufferFrom, rebuffer_from);
nothing!(TryRebufferFrom, try_rebuffer_from);
nothing!(Debug, debug);
