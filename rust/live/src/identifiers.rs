//! Identifiers of neighbors, as `show` prints them.

use lldpa::{tlv_text, Msap};

pub const CHASSIS_ID: u8 = 1;
pub const PORT_ID: u8 = 2;

/// Returns a TLV's key and value as in `show`, such as `chassis.mac` and `00:11:22:33:44:55`.
pub fn shown(kind: u8, body: &[u8]) -> (String, String) {
    let text = tlv_text(kind, body).unwrap_or_default();
    let (key, value) = text.split_once('=').unwrap_or((&text, ""));
    (key.into(), value.into())
}

/// Returns a Chassis ID as it appears in an MSAP identifier.
pub fn chassis_id(body: &[u8]) -> String {
    identifier(CHASSIS_ID, body)
}

fn identifier(kind: u8, body: &[u8]) -> String {
    let (key, value) = shown(kind, body);
    format!("{}={}", key.rsplit('.').next().unwrap_or(&key), value.replace(' ', "\\x20"))
}

/// Returns the MSAP identifier: Chassis ID and Port ID.
pub fn id(msap: &Msap<'_>) -> String {
    format!("{} {}", chassis_id(msap.chassis), identifier(PORT_ID, msap.port))
}

#[cfg(test)]
mod tests {
    use super::*;

    #[test]
    fn identifiers_are_one_word_each() {
        for (chassis, port, wanted) in [
            (&b"\x04\x02\0\0\0\0\x01"[..], &b"\x05eth0"[..], "mac=02:00:00:00:00:01 ifname=eth0"),
            (b"\x07a b", b"\x07\\", "local=a\\x20b local=\\\\"),
            (b"\x05\x01\xc0\0\x02\x07", b"\x01alias", "ip=192.0.2.7 ifalias=alias"),
        ] {
            assert_eq!(id(&Msap { chassis, port }), wanted);
        }
        assert_eq!(chassis_id(b"\x07a"), "local=a");
    }
}
