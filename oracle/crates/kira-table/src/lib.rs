//! kira with our gain table in the place of `powf`.

// kira's text uses all of itself only where all of it is there.
#![allow(unused, unexpected_cfgs, private_interfaces)]
// `include!` counts as a macro, and kira exports one from the text included.
#![allow(macro_expanded_macro_exports_accessed_by_absolute_paths)]

include!(concat!(env!("OUT_DIR"), "/kira/lib.rs"));
