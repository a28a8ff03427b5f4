//! Stand-in: the status registers of the sync managers, ETG.1000.4: 0x0805 + 8 n.
#[derive(Debug, Copy, Clone, PartialEq, Eq)]
pub struct RegisterAddress(u16);

impl RegisterAddress {
    pub fn sync_manager_status(index: u8) -> Self {
        Self(0x0805 + 8 * u16::from(index))
    }
}

impl From<RegisterAddress> for u16 {
    fn from(address: RegisterAddress) -> u16 {
        address.0
    }
}
