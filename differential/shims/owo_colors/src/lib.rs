//! Stands in for the crate `owo_colors`: text without colours. Only the styled views use it, and they are not compared.

pub trait OwoColorize {
    fn white(&self) -> &Self {
        self
    }
    fn bold(&self) -> &Self {
        self
    }
    fn bg_rgb<const R: u8, const G: u8, const B: u8>(&self) -> &Self {
        self
    }
}

impl<T: ?Sized> OwoColorize for T {}
