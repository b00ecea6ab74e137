//! Stand-in for the crate `pastey`: `paste!` joins the names in `[<a b>]`.

use proc_macro::{Delimiter, Group, Ident, TokenStream, TokenTree};

#[proc_macro]
pub fn paste(input: TokenStream) -> TokenStream {
	input.into_iter().map(pasted).collect()
}

fn pasted(tree: TokenTree) -> TokenTree {
	let TokenTree::Group(group) = tree else {
		return tree;
	};
	if let Some(ident) = joined(&group) {
		return ident.into();
	}
	let mut inner = Group::new(group.delimiter(), paste(group.stream()));
	inner.set_span(group.span());
	inner.into()
}

/// The joined name, where the group is `[< names >]`.
fn joined(group: &Group) -> Option<Ident> {
	if group.delimiter() != Delimiter::Bracket {
		return None;
	}
	let trees: Vec<TokenTree> = group.stream().into_iter().collect();
	let [first, names @ .., last] = trees.as_slice() else {
		return None;
	};
	if first.to_string() != "<" || last.to_string() != ">" {
		return None;
	}
	let text: String = names.iter().map(TokenTree::to_string).collect();
	Some(Ident::new(&text, names.first()?.span()))
}
