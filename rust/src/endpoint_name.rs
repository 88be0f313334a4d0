//! Endpoint name, status 0x03.

use crate::message::{fields, kind, text};

kind! {
    /// An endpoint's name, over as many packets as it needs.
    ///
    /// ```
    /// use frayedbin::{EndpointName, Error};
    ///
    /// let mut name = EndpointName::new([0; 8])?;
    /// name.set_name("fifteen letters")?;
    /// assert_eq!(name.name(), "fifteen letters");
    /// assert_eq!(name.data().len(), 8);
    /// match name.set_name("much more than fits in two packets") {
    ///     Err(Error::TextTooLong { most, .. }) => assert_eq!(most, 28),
    ///     other => panic!("{other:?}"),
    /// }
    /// assert_eq!(name.name(), "fifteen letters");
    /// # Ok::<(), Error>(())
    /// ```
    EndpointName
}

fields! { EndpointName name; }

text! {
    EndpointName "name", "896" by 14:
    name, name_bytes, set_name, try_set_name by frayedbin_endpoint_name_set_name
}
