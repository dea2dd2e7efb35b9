//! The errors of the calls.

use crate::calls::no_bytes;
use crate::output::list;
use crate::sys;
use std::ffi::CStr;
use std::fmt;
use std::ops::Range;
use std::os::raw::c_char;

/// Why a call made nothing. Of refused bytes `Display` says the line that the program `mvt` prints, and the fault in plain
/// words.
#[derive(Clone, Debug, PartialEq, Eq)]
#[non_exhaustive]
pub enum Error {
    /// The bytes are no tile.
    Refused(Box<Refused>),
    /// Memory ran out, or the bound of the rows is reached.
    OutOfMemory,
    /// The result would be larger than [`LIMIT`](crate::LIMIT).
    TooLarge,
    /// A name that no layer of version 2 has.
    NoLayer(String),
    /// What was to be written is no valid tile, and what is wrong with it first.
    NoTile(RowsFault),
    /// A call of a builder that isn't expected, such as a point before the first feature.
    OutOfTurn,
    /// A decoder that is finished.
    NoDecoder,
}

/// The first rule that a tile breaks.
///
/// `Display` says it in the line that the program `mvt` prints, without the explanation.
#[derive(Clone, Debug, PartialEq, Eq)]
pub struct Refused {
    /// The index of the layer; `None` for a fault of a top-level field's own spelling.
    pub layer: Option<u64>,
    /// The index of the feature in its layer; `None` for a fault outside the layer's features.
    pub feature: Option<u64>,
    /// An offset in the tile, or an index in the feature's tags or the integers of its geometry, as the cause has it.
    pub at: u64,
    /// The cause's number, one of [`cause`](crate::cause).
    pub cause: u32,
    /// The cause's name.
    pub name: String,
    /// The layer's name, if the bytes have one.
    pub layer_name: Option<String>,
    /// The feature's id, if the bytes have one.
    pub feature_id: Option<u64>,
    /// The bytes that the fault is about, or an empty range if something is missing before a byte; `None` if the tile isn't
    /// at hand, as in a decoder.
    pub bytes: Option<Range<u64>>,
    /// The fault in plain words.
    pub explanation: String,
}

/// What is wrong with rows that are no valid tile.
#[derive(Clone, Copy, Debug, PartialEq, Eq)]
pub struct RowsFault {
    /// The index of the layer.
    pub layer: u64,
    /// The index of the feature in its layer; `None` if the fault is in no feature.
    pub feature: Option<u64>,
    /// The cause's number, one of [`rows_cause`](crate::rows_cause).
    pub cause: u32,
    /// The first rule that a geometry breaks which no commands draw, one of [`cause`](crate::cause); `None` for other causes.
    pub rule: Option<u32>,
    /// The index of the line or ring in its feature that breaks the rule; 0 for points.
    pub part: Option<u64>,
    /// The index of the point in its part; `None` if the part as a whole breaks the rule.
    pub point: Option<u64>,
}

impl Error {
    /// The same where the first bytes of the tile, of so many, alone are at hand: which bytes the fault is about isn't known
    /// then.
    ///
    /// # Safety
    /// The library filled the fault, if that is the error.
    pub(crate) unsafe fn of_front(mut self, head: &[u8], size: u64, fault: &sys::Fault) -> Self {
        if let Error::Refused(refused) = &mut self {
            refused.bytes = None;
            // SAFETY: the head is lent for the call, and words last for good.
            refused.explanation = unsafe {
                words(sys::mvt_explain_head(
                    head.as_ptr(),
                    head.len(),
                    size,
                    fault,
                ))
            };
        }
        self
    }
}

impl fmt::Display for Error {
    fn fmt(&self, f: &mut fmt::Formatter<'_>) -> fmt::Result {
        match self {
            Error::Refused(refused) => write!(f, "{refused}: {}", refused.explanation),
            Error::OutOfMemory => f.write_str("out of memory"),
            Error::TooLarge => write!(f, "the result is larger than {} bytes", sys::LIMIT),
            Error::NoLayer(name) => write!(f, "no layer of version 2 has the name {name:?}"),
            Error::NoTile(fault) => fault.fmt(f),
            Error::OutOfTurn => f.write_str("a builder's call that isn't due"),
            Error::NoDecoder => f.write_str("this decoder is finished"),
        }
    }
}

impl std::error::Error for Error {}

impl fmt::Display for Refused {
    fn fmt(&self, f: &mut fmt::Formatter<'_>) -> fmt::Result {
        let index = |index: Option<u64>| index.map_or("-".into(), |index| index.to_string());
        let (layer, feature) = (index(self.layer), index(self.feature));
        write!(
            f,
            "layer {layer} feature {feature} at {}: {} {}",
            self.at, self.cause, self.name
        )
    }
}

impl std::error::Error for Refused {}

impl std::error::Error for RowsFault {}

impl fmt::Display for RowsFault {
    fn fmt(&self, f: &mut fmt::Formatter<'_>) -> fmt::Result {
        write!(f, "layer {}", self.layer)?;
        let places = [
            ("feature", self.feature),
            ("part", self.part),
            ("point", self.point),
        ];
        for (name, index) in places {
            if let Some(index) = index {
                write!(f, " {name} {index}")?;
            }
        }
        // SAFETY: the texts of causes last for good.
        let why = unsafe {
            match self.rule {
                Some(rule) => words(sys::mvt_cause_text(rule)),
                None => words(sys::mvt_rows_cause_text(self.cause)),
            }
        };
        write!(f, ": {why}")
    }
}

/// What a status other than 0 means. The bytes are those that the call took, and the fault is what it told.
///
/// # Safety
/// The fault is filled where the status is `REFUSED`.
pub(crate) unsafe fn error_of(status: u32, bytes: &[u8], fault: &sys::Fault) -> Error {
    match status {
        // SAFETY: by the condition of this function.
        sys::REFUSED => Error::Refused(Box::new(unsafe { refused_of(bytes, fault) })),
        sys::TOO_LARGE => Error::TooLarge,
        sys::OUT_OF_TURN => Error::OutOfTurn,
        sys::NO_DECODER => Error::NoDecoder,
        _ => Error::OutOfMemory,
    }
}

/// # Safety
/// The library filled the fault, of these bytes.
unsafe fn refused_of(bytes: &[u8], fault: &sys::Fault) -> Refused {
    let mut place = sys::Place {
        layer_name: no_bytes(),
        has_layer_name: 0,
        has_feature_id: 0,
        feature_id: 0,
        start: 0,
        end: 0,
    };
    // SAFETY: the pointers are those of this function's own values, and names and words last for good.
    let (name, layer_name, sentence) = unsafe {
        sys::mvt_locate(bytes.as_ptr(), bytes.len(), fault, &mut place);
        let told = list(place.layer_name.data, place.layer_name.len);
        let sentence = words(sys::mvt_explain(bytes.as_ptr(), bytes.len(), fault));
        (list(fault.name.data, fault.name.len), told, sentence)
    };
    Refused {
        layer: u64::try_from(fault.layer).ok(),
        feature: u64::try_from(fault.feature).ok(),
        at: fault.at,
        cause: fault.cause,
        name: String::from_utf8_lossy(name).into_owned(),
        layer_name: (place.has_layer_name == 1)
            .then(|| String::from_utf8_lossy(layer_name).into_owned()),
        feature_id: (place.has_feature_id == 1).then_some(place.feature_id),
        bytes: (!bytes.is_empty()).then_some(place.start..place.end),
        explanation: sentence,
    }
}

/// # Safety
/// The text ends with a zero.
pub(crate) unsafe fn words(text: *const c_char) -> String {
    // SAFETY: by the condition of this function.
    unsafe { CStr::from_ptr(text) }
        .to_string_lossy()
        .into_owned()
}
