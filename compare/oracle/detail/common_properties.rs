//! Stand-in for the properties that all messages share, by the standard.

use crate::{
    buffer::{BufferMut, Ump},
    detail::{common_err_strings, property, schema::UmpSchemaRepr, BitOps},
    error::InvalidData,
    ux::u4,
};
use core::marker::PhantomData;

/// The message type, in the first word.
pub struct UmpMessageTypeProperty<const TYPE: u8>;

impl<const TYPE: u8, B: Ump> property::Property<B> for UmpMessageTypeProperty<TYPE> {
    type Type = ();
}

impl<'a, const TYPE: u8, B: Ump> property::ReadProperty<'a, B> for UmpMessageTypeProperty<TYPE> {
    fn read(_: &'a B) {}
    fn validate(buffer: &B) -> Result<(), InvalidData> {
        if u8::from(buffer.buffer()[0].nibble(0)) == TYPE {
            Ok(())
        } else {
            Err(InvalidData(common_err_strings::ERR_INCORRECT_UMP_MESSAGE_TYPE))
        }
    }
}

impl<const TYPE: u8, B: Ump + BufferMut> property::WriteProperty<B> for UmpMessageTypeProperty<TYPE> {
    fn write(buffer: &mut B, _: ()) {
        buffer.buffer_mut()[0].set_nibble(0, u4::new(TYPE));
    }
    fn validate(_: &()) -> Result<(), InvalidData> {
        Ok(())
    }
    fn default() {}
}

/// A field under the masks of a schema.
pub struct UmpSchemaProperty<T, S>(PhantomData<(T, S)>);

impl<T: UmpSchemaRepr<S>, S, B: Ump> property::Property<B> for UmpSchemaProperty<T, S> {
    type Type = T;
}

impl<'a, T: UmpSchemaRepr<S>, S, B: Ump> property::ReadProperty<'a, B> for UmpSchemaProperty<T, S> {
    fn read(buffer: &'a B) -> T {
        T::read(buffer.buffer())
    }
    fn validate(_: &B) -> Result<(), InvalidData> {
        Ok(())
    }
}

impl<T: UmpSchemaRepr<S> + Default, S, B: Ump + BufferMut> property::WriteProperty<B> for UmpSchemaProperty<T, S> {
    fn write(buffer: &mut B, v: T) {
        T::write(buffer.buffer_mut(), v)
    }
    fn validate(_: &T) -> Result<(), InvalidData> {
        Ok(())
    }
    fn default() -> T {
        T::default()
    }
}
