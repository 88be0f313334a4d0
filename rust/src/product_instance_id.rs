//! Product instance id, status 0x04.

use crate::message::{fields, kind, text};

kind! {
    /// What tells one endpoint of a model from another, such as a serial number.
    ///
    /// ```
    /// use frayedbin::{Error, ProductInstanceId};
    ///
    /// let mut id = ProductInstanceId::new(Vec::new())?;
    /// id.set_id("FB-0001")?;
    /// assert_eq!(id.data(), [0xF004_4642, 0x2D30_3030, 0x3100_0000, 0]);
    /// assert_eq!(id.id(), "FB-0001");
    /// # Ok::<(), Error>(())
    /// ```
    ProductInstanceId
}

fields! { ProductInstanceId id; }

text! {
    ProductInstanceId "id", "896" by 14:
    id, id_bytes, set_id, try_set_id by frayedbin_product_instance_id_set_id
}
