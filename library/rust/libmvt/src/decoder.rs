//! A tile that comes in pieces.

use crate::calls::no_fault;
use crate::error::error_of;
use crate::{sys, Error, Tile};
use std::io;

/// Reads a tile that comes in pieces of any length.
///
/// ```
/// let tile = [0x1a, 0x05, 0x78, 0x02, 0x0a, 0x01, b'a'];
/// let mut decoder = libmvt::Decoder::new()?;
/// for piece in tile.chunks(3) {
///     decoder.feed(piece)?;
/// }
/// assert_eq!(decoder.finish()?.layers().len(), 1);
/// # Ok::<(), libmvt::Error>(())
/// ```
///
/// It is a [`Write`](io::Write) too, so that `io::copy` fills it.
pub struct Decoder {
    held: sys::Decoder,
    /// The first bytes, which tell whether the refused bytes look like something else, and how many there were.
    head: Vec<u8>,
    size: u64,
}

// SAFETY: what it holds is this value's alone, and no call takes it shared.
unsafe impl Send for Decoder {}
unsafe impl Sync for Decoder {}

impl Decoder {
    /// A decoder without bytes yet.
    ///
    /// # Errors
    ///
    /// [`Error::OutOfMemory`].
    pub fn new() -> Result<Self, Error> {
        Self::within(u64::MAX)
    }

    /// The same, of a tile whose rows have at most so many bytes.
    ///
    /// # Errors
    ///
    /// [`Error::OutOfMemory`].
    pub fn within(most: u64) -> Result<Self, Error> {
        let mut held = sys::Decoder {
            held: std::ptr::null_mut(),
        };
        let head = Vec::new();
        // SAFETY: the decoder is none yet.
        match unsafe { sys::mvt_decoder_new(&mut held, most) } {
            sys::OK => Ok(Decoder {
                held,
                head,
                size: 0,
            }),
            // SAFETY: the status isn't that of a fault.
            status => Err(unsafe { error_of(status, &[], &no_fault()) }),
        }
    }

    /// Takes a piece. A fault is reported as soon as no further byte can change it. After an error each further call answers
    /// the same.
    ///
    /// # Errors
    ///
    /// [`Error::Refused`], mostly without the layer's name and the feature's id, since the bytes aren't kept, and
    /// [`Error::OutOfMemory`].
    pub fn feed(&mut self, piece: &[u8]) -> Result<(), Error> {
        self.keep_head(piece)?;
        self.size += piece.len() as u64;
        let mut fault = no_fault();
        let (start, len) = (piece.as_ptr(), piece.len());
        // SAFETY: the decoder was made, and the piece is lent for the call.
        match unsafe { sys::mvt_decoder_feed(&mut self.held, start, len, &mut fault) } {
            sys::OK => Ok(()),
            // SAFETY: the fault is filled where the bytes are refused.
            status => Err(unsafe {
                error_of(status, &self.head, &fault).of_front(&self.head, self.size, &fault)
            }),
        }
    }

    /// Keeps what of the tile's first bytes is in a piece, as in each language.
    fn keep_head(&mut self, piece: &[u8]) -> Result<(), Error> {
        let more = &piece[..piece.len().min(sys::HEAD - self.head.len())];
        self.head
            .try_reserve(more.len())
            .map_err(|_| Error::OutOfMemory)?;
        self.head.extend_from_slice(more);
        Ok(())
    }

    /// The tile, after the last piece.
    ///
    /// # Errors
    ///
    /// As [`feed`](Self::feed).
    pub fn finish(mut self) -> Result<Tile, Error> {
        let (held, mut told) = (&mut self.held, no_fault());
        // SAFETY: the decoder was made, and the outputs have room.
        let made = Tile::made(&self.head, |out, fault| unsafe {
            let status = sys::mvt_decoder_finish(held, out, fault);
            told = *fault;
            status
        });
        // SAFETY: the fault is filled where the bytes are refused.
        made.map_err(|error| unsafe { error.of_front(&self.head, self.size, &told) })
    }
}

impl Drop for Decoder {
    fn drop(&mut self) {
        // SAFETY: a decoder that is finished is none any more, and giving it back does nothing.
        unsafe { sys::mvt_decoder_free(&mut self.held) }
    }
}

impl io::Write for Decoder {
    fn write(&mut self, piece: &[u8]) -> io::Result<usize> {
        match self.feed(piece) {
            Ok(()) => Ok(piece.len()),
            Err(Error::OutOfMemory) => Err(io::ErrorKind::OutOfMemory.into()),
            Err(error) => Err(io::Error::new(io::ErrorKind::InvalidData, error)),
        }
    }

    fn flush(&mut self) -> io::Result<()> {
        Ok(())
    }
}
