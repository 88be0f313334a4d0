//! Stand-in for the four property traits; the given impls fix their signatures.

use crate::{
    buffer::{Buffer, BufferMut, BufferResize, BufferTryResize},
    error::{BufferOverflow, InvalidData},
};

pub trait Property<B: Buffer> {
    type Type;
}

pub trait ReadProperty<'a, B: Buffer>: Property<B> {
    fn read(buffer: &'a B) -> Self::Type;
    fn validate(buffer: &B) -> Result<(), InvalidData>;
}

pub trait WriteProperty<B: Buffer + BufferMut>: Property<B> {
    fn write(buffer: &mut B, v: Self::Type);
    fn validate(v: &Self::Type) -> Result<(), InvalidData>;
    fn default() -> Self::Type;
}

pub trait ResizeProperty<B: Buffer>: Property<B> {
    fn resize(buffer: &mut B, value: &Self::Type)
    where
        B: BufferResize;
    fn try_resize(buffer: &mut B, value: &Self::Type) -> Result<(), BufferOverflow>
    where
        B: BufferTryResize;
}
