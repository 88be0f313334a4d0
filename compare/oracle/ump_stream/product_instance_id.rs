//! Stand-in for the file of the product instance id.
text_kind!(ProductInstanceId, 0x04);
