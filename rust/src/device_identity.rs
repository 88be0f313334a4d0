//! Device identity, status 0x02.

use crate::message::{fields, kind};

kind! {
    /// Who made an endpoint, and which model and version it is.
    ///
    /// ```
    /// use frayedbin::{DeviceIdentity, Error, Refusal};
    ///
    /// let mut identity = DeviceIdentity::new([0; 4])?;
    /// identity.set_device_manufacturer([0x7D, 0, 0])?;
    /// identity.set_device_family(129)?;
    /// identity.set_software_version([1, 2, 0, 3])?;
    /// assert_eq!(identity.data(), [0xF002_0000, 0x007D_0000, 0x0101_0000, 0x0102_0003]);
    /// assert_eq!(identity.device_family(), 129);
    /// assert_eq!(identity.set_device_family(16_384), Err(Refusal::NumberTooLarge));
    /// # Ok::<(), Error>(())
    /// ```
    DeviceIdentity
}

fields! {
    DeviceIdentity
    /// The manufacturer, three numbers of at most 127.
    0 device_manufacturer: [u8; 3], set_device_manufacturer
        by frayedbin_device_identity_set_device_manufacturer;
    /// The device family, at most 16,383.
    3 device_family: u16, set_device_family by frayedbin_device_identity_set_device_family;
    /// The model within the family, at most 16,383.
    4 device_family_model_number: u16, set_device_family_model_number
        by frayedbin_device_identity_set_device_family_model_number;
    /// The software version, four numbers of at most 127.
    5 software_version: [u8; 4], set_software_version
        by frayedbin_device_identity_set_software_version;
}
