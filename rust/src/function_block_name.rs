//! Function block name, status 0x12.

use crate::message::{fields, kind, text};

kind! {
    /// A function block's name, over as many packets as it needs. Each packet has the block's
    /// number.
    ///
    /// ```
    /// use frayedbin::{Error, FunctionBlockName};
    ///
    /// let mut name = FunctionBlockName::new([0; 8])?;
    /// name.set_function_block(5)?;
    /// name.set_name("Keys, Knöpfe")?;
    /// assert_eq!(name.name(), "Keys, Knöpfe");
    /// assert_eq!(name.name_bytes().count(), 13);
    /// assert_eq!(name.data().len(), 4);
    /// name.set_name("Keys & Knöpfe")?;
    /// assert_eq!(name.data()[4], 0xFC12_0565);
    /// # Ok::<(), Error>(())
    /// ```
    FunctionBlockName
}

fields! {
    FunctionBlockName
    /// The number of the block.
    0 function_block: u8, set_function_block by frayedbin_function_block_name_set_function_block;
    name;
}

text! {
    FunctionBlockName "name", "832" by 13:
    name, name_bytes, set_name, try_set_name by frayedbin_function_block_name_set_name
}
