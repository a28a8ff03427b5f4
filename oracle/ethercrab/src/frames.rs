//! The published request writers, by themselves.
use crate::mailbox::coe::services::{ObjectDescriptionListRequest, SdoExpedited, SdoNormal, SdoSegmented};
use crate::{ObjectDescriptionListQuery, SubIndex};
use ethercrab_wire::EtherCrabWireWriteSized;

pub fn upload(counter: u8, index: u16, access: SubIndex) -> Vec<u8> {
    SdoNormal::upload(counter, index, access).pack().to_vec()
}

/// `len` bytes of `data` are meant; the others are packed as they stand.
pub fn download(counter: u8, index: u16, access: SubIndex, data: [u8; 4], len: u8) -> Vec<u8> {
    SdoExpedited::download(counter, index, access, data, len).pack().to_vec()
}

pub fn segment(counter: u8, toggle: bool) -> Vec<u8> {
    SdoSegmented::upload(counter, toggle).pack().to_vec()
}

pub fn object_list(counter: u8, kind: ObjectDescriptionListQuery) -> Vec<u8> {
    ObjectDescriptionListRequest::get_object_description_list(counter, kind).pack().to_vec()
}

pub fn quantities(counter: u8) -> Vec<u8> {
    ObjectDescriptionListRequest::get_object_quantities(counter).pack().to_vec()
}
