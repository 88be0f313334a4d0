//! Stand-in for the file of the endpoint name.
text_kind!(EndpointName, 0x03);
