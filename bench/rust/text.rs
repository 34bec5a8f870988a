//! What the loops call of a text.
#[cfg(original)]
pub use inlinable_string::{InlinableString as Own, StringExt as Calls};
use std::borrow::Cow;
use std::hash::Hash;
use std::ops::{Add, DerefMut};
#[cfg(not(original))]
pub use std::string::{String as Own, String as Calls};

/// The trait, and its calls for the one text that the program is built for: those that change a text
/// are its own, or those of the original crate's trait.
macro_rules! text {
    ($(fn $name:ident($($given:tt)*) $(-> $answer:ty)? = $call:expr;)*) => {
        pub trait Text:
            Sized
            + Ord
            + Hash
            + Clone
            + DerefMut<Target = str>
            + for<'a> Add<&'a str, Output = Self>
            + Extend<char>
            + FromIterator<char>
            + for<'a> FromIterator<&'a str>
        {
            $(fn $name($($given)*) $(-> $answer)?;)*
        }

        impl Text for Own {
            $(#[inline]
            fn $name($($given)*) $(-> $answer)? {
                $call
            })*
        }
    };
}

text! {
    fn empty() -> Self = Own::new();
    fn made(word: &str) -> Self = Own::from(word);
    fn read_utf8(bytes: Vec<u8>) -> Option<Self> = Own::from_utf8(bytes).ok();
    fn read_utf8_lossy(bytes: &[u8]) -> Cow<'_, str> = Own::from_utf8_lossy(bytes);
    fn read_utf16(units: &[u16]) -> Option<Self> = Own::from_utf16(units).ok();
    fn read_utf16_lossy(units: &[u16]) -> Self = Own::from_utf16_lossy(units);
    fn push_str(&mut self, word: &str) = Calls::push_str(self, word);
    fn push(&mut self, ch: char) = Calls::push(self, ch);
    fn insert(&mut self, at: usize, ch: char) = Calls::insert(self, at, ch);
    fn insert_str(&mut self, at: usize, word: &str) = Calls::insert_str(self, at, word);
    fn remove(&mut self, at: usize) -> char = Calls::remove(self, at);
    fn pop(&mut self) -> Option<char> = Calls::pop(self);
    fn truncate(&mut self, len: usize) = Calls::truncate(self, len);
    fn clear(&mut self) = Calls::clear(self);
    fn reserve(&mut self, more: usize) = Calls::reserve(self, more);
    fn reserve_exact(&mut self, more: usize) = Calls::reserve_exact(self, more);
    fn shrink_to_fit(&mut self) = Calls::shrink_to_fit(self);
}
