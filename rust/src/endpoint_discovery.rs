//! Endpoint discovery, status 0x00.

use crate::message::{fields, kind};

kind! {
    /// A host's question to an endpoint: which messages should it send about itself?
    ///
    /// ```
    /// use frayedbin::{EndpointDiscovery, Error};
    ///
    /// let mut question = EndpointDiscovery::new([0; 4])?;
    /// question.set_ump_version_major(1)?;
    /// question.set_ump_version_minor(1)?;
    /// question.set_request_endpoint_info(true)?;
    /// question.set_request_endpoint_name(true)?;
    /// assert_eq!(question.data(), [0xF000_0101, 0b101, 0, 0]);
    /// # Ok::<(), Error>(())
    /// ```
    EndpointDiscovery
}

fields! {
    EndpointDiscovery
    /// The major version of UMP that the asker speaks.
    0 ump_version_major: u8, set_ump_version_major
        by frayedbin_endpoint_discovery_set_ump_version_major;
    /// The minor version of UMP that the asker speaks.
    1 ump_version_minor: u8, set_ump_version_minor
        by frayedbin_endpoint_discovery_set_ump_version_minor;
    /// Whether it asks for the endpoint info.
    2 request_endpoint_info: bool, set_request_endpoint_info
        by frayedbin_endpoint_discovery_set_request_endpoint_info;
    /// Whether it asks for the device identity.
    3 request_device_identity: bool, set_request_device_identity
        by frayedbin_endpoint_discovery_set_request_device_identity;
    /// Whether it asks for the endpoint name.
    4 request_endpoint_name: bool, set_request_endpoint_name
        by frayedbin_endpoint_discovery_set_request_endpoint_name;
    /// Whether it asks for the product instance id.
    5 request_product_instance_id: bool, set_request_product_instance_id
        by frayedbin_endpoint_discovery_set_request_product_instance_id;
    /// Whether it asks for the stream configuration.
    6 request_stream_configuration: bool, set_request_stream_configuration
        by frayedbin_endpoint_discovery_set_request_stream_configuration;
}
