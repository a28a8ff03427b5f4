//! A segment reply as the published Rust has to be given it. Document 02, [1]: "By ETG.1000.6 a segment reply's data begin at byte 9."
//! The Rust takes them from byte 12.
use crate::fields::{service, specifier, ABORT, EMERGENCY};

const DATA: usize = 9;

/// The Rust takes them for an index and a sub-index: in a segment it compares them with nothing, and names them beside 23 (D14). A lent
/// buffer is filled with another byte, so that one of them read as data would show.
const PUT_IN: [u8; 3] = [0xd2, 0x1c, 0xe9];

/// Whether data of a segment have a place in it: an abort and an emergency have layouts of their own, whatever they answer.
pub fn has_data(reply: &[u8]) -> bool {
    reply.len() >= DATA && specifier(reply) != ABORT && service(reply) != EMERGENCY
}

pub fn shifted(reply: &[u8]) -> Vec<u8> {
    let mut reply = reply.to_vec();
    if has_data(&reply) {
        reply.splice(DATA..DATA, PUT_IN);
    }
    reply
}

#[cfg(test)]
mod tests {
    use super::*;
    use crate::hex;

    fn given(reply: &str) -> String {
        hex::text(&shifted(&hex::bytes(reply).unwrap()))
    }

    #[test]
    fn a_segment_of_nine_bytes_or_more_is_three_bytes_longer() {
        assert_eq!(given("030000000013003061"), "030000000013003061d21ce9");
        assert_eq!(given("0a000000001300300b6162"), "0a000000001300300bd21ce96162");
        assert_eq!(given("0a00000000130030004158353131322020"), "0a0000000013003000d21ce94158353131322020");
        assert_eq!(shifted(&[0x60; 1486]).len(), 1489);
    }

    #[test]
    fn shorter_replies_aborts_and_emergencies_are_given_as_they_came() {
        let short = ["-", "03", "0300000000130030"];
        let aborts = ["030000000013003081", "0a000000001300308018100100000305"];
        let emergencies = ["0a0000000013001010", "0a000000001300101042080102030405"];
        for reply in short.iter().chain(&aborts).chain(&emergencies) {
            assert_eq!(given(reply), *reply);
        }
    }
}
