//! What an attribute has.

use crate::{sys, Tile};
use std::borrow::Cow;
use std::fmt;

/// A value of an attribute.
#[derive(Clone, Copy, Debug, PartialEq)]
pub enum Value<'t> {
    /// A text.
    Text(&'t str),
    /// A number of single precision.
    Float(f32),
    /// A number of double precision.
    Double(f64),
    /// An integer, as `int_value`: below zero it takes ten bytes.
    Int(i64),
    /// An integer without a sign.
    Uint(u64),
    /// An integer, as `sint_value`.
    Sint(i64),
    /// True or false.
    Bool(bool),
}

impl<'t> Value<'t> {
    pub(crate) fn of(tile: &'t Tile, row: &sys::Value) -> Self {
        match row.kind {
            sys::FLOAT => Value::Float(f32::from_bits(row.bits as u32)),
            sys::DOUBLE => Value::Double(f64::from_bits(row.bits)),
            sys::INT => Value::Int(row.bits as i64),
            sys::UINT => Value::Uint(row.bits),
            sys::SINT => Value::Sint(row.bits as i64),
            sys::BOOL => Value::Bool(row.bits == 1),
            _ => Value::Text(tile.text(row.text)),
        }
    }
}

impl Value<'_> {
    /// Whether kind and bits are the same, which `==` doesn't say of floats.
    pub(crate) fn is_same(&self, other: &Self) -> bool {
        match (self, other) {
            (Value::Float(one), Value::Float(other)) => one.to_bits() == other.to_bits(),
            (Value::Double(one), Value::Double(other)) => one.to_bits() == other.to_bits(),
            _ => self == other,
        }
    }
}

impl fmt::Display for Value<'_> {
    fn fmt(&self, f: &mut fmt::Formatter<'_>) -> fmt::Result {
        match self {
            Value::Text(text) => f.write_str(text),
            Value::Float(number) => number.fmt(f),
            Value::Double(number) => number.fmt(f),
            Value::Int(number) | Value::Sint(number) => number.fmt(f),
            Value::Uint(number) => number.fmt(f),
            Value::Bool(truth) => truth.fmt(f),
        }
    }
}

macro_rules! value_from {
    ($($kind:ident: $given:ty),*) => {$(
        impl From<$given> for Value<'_> {
            fn from(given: $given) -> Self {
                Value::$kind(given.into())
            }
        }
    )*};
}

/// A whole number is a uint or, below zero, a sint.
macro_rules! value_from_whole {
    ($($given:ty),*) => {$(
        impl From<$given> for Value<'_> {
            fn from(given: $given) -> Self {
                match u64::try_from(given) {
                    Ok(number) => Value::Uint(number),
                    Err(_) => Value::Sint(given as i64),
                }
            }
        }
    )*};
}

value_from!(Float: f32, Double: f64, Bool: bool);
value_from_whole!(i8, i16, i32, i64, isize, u8, u16, u32, u64, usize);

impl<'t> From<&'t str> for Value<'t> {
    fn from(text: &'t str) -> Self {
        Value::Text(text)
    }
}

impl<'t> From<&'t String> for Value<'t> {
    fn from(text: &'t String) -> Self {
        Value::Text(text)
    }
}

/// What a builder takes as a value: a text that is borrowed or owned, a truth, a number, or a [`Value`].
///
/// ```
/// let name = String::from("Mill Pond");
/// let mut builder = libmvt::Builder::new();
/// builder.layer("water", 4096).feature(libmvt::Kind::Points).point(25, 17);
/// builder.tag("name", &name).tag("also", name).tag("boats", 3_usize).tag("depth", libmvt::Value::Int(5));
/// # builder.finish()?;
/// # Ok::<(), libmvt::Error>(())
/// ```
pub trait ToValue {
    /// The value, with the text lent.
    fn to_value(&self) -> Value<'_>;
}

impl<T: ToValue + ?Sized> ToValue for &T {
    fn to_value(&self) -> Value<'_> {
        (**self).to_value()
    }
}

macro_rules! to_value {
    (texts: $($text:ty),*; others: $($other:ty),*) => {
        $(impl ToValue for $text {
            fn to_value(&self) -> Value<'_> {
                Value::Text(self)
            }
        })*
        $(impl ToValue for $other {
            fn to_value(&self) -> Value<'_> {
                Value::from(*self)
            }
        })*
    };
}

to_value!(
    texts: str, String, Box<str>, Cow<'_, str>;
    others: Value<'_>, f32, f64, bool, i8, i16, i32, i64, isize, u8, u16, u32, u64, usize
);
