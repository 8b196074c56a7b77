//! A stand-in: only the path of the attribute.

pub mod prelude {
    pub use wasm_bindgen_macro::wasm_bindgen;
}
