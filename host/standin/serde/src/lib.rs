//! Stand-in for `serde`: derives that serialise nothing.
//!
//! `Serialize` on one type of a module also brings that module's access file
//! into it (see `oracle/access`), because the originals keep their fields
//! private and are compiled as they are.
use proc_macro::{TokenStream, TokenTree};

#[proc_macro_derive(Serialize, attributes(serde))]
pub fn serialize(item: TokenStream) -> TokenStream {
    let file = match type_name(item).as_deref() {
        Some("PortSnapshot") => "ports",
        Some("ControllerSnapshot") => "session",
        Some("DeviceSnapshot") => "usb",
        _ => return TokenStream::new(),
    };
    format!("include!(concat!(env!(\"CARGO_MANIFEST_DIR\"), \"/access/{file}.rs\"));")
        .parse()
        .expect("a well-formed item")
}

#[proc_macro_derive(Deserialize, attributes(serde))]
pub fn deserialize(_item: TokenStream) -> TokenStream {
    TokenStream::new()
}

/// The identifier after `struct` or `enum`.
fn type_name(item: TokenStream) -> Option<String> {
    let mut words = item.into_iter().filter_map(|tree| match tree {
        TokenTree::Ident(word) => Some(word.to_string()),
        _ => None,
    });
    words.find(|word| word == "struct" || word == "enum")?;
    words.next()
}
