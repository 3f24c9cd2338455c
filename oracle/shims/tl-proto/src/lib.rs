//! Stands in for tl-proto: what parts.rs names, and derives that do nothing.

pub use tl_proto_derive::{TlRead, TlWrite};

pub struct Bare;
pub struct TlError;
pub type TlResult<T> = Result<T, TlError>;

pub trait TlRead<'a>: Sized {
    type Repr;
    fn read_from(packet: &mut &'a [u8]) -> TlResult<Self>;
}

impl<'a, const N: usize> TlRead<'a> for &'a [u8; N] {
    type Repr = Bare;

    fn read_from(packet: &mut &'a [u8]) -> TlResult<Self> {
        let (head, rest) = packet.split_first_chunk().ok_or(TlError)?;
        *packet = rest;
        Ok(head)
    }
}
