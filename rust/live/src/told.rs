//! What a neighbor says, as `lldpa_people` presents it.

use crate::identifiers::{shown, CHASSIS_ID, PORT_ID};
use lldpa::Info;
use lldpa_people::show::{Identifier, Neighbor};

/// Gives `take` what an LLDPDU says, of its optional TLVs only those of these kinds.
pub fn with_neighbor<T>(info: &Info<'_>, kinds: &[u8], take: impl FnOnce(Neighbor<'_>) -> T) -> T {
    let msap = info.msap();
    let (chassis, port) = (shown(CHASSIS_ID, msap.chassis), shown(PORT_ID, msap.port));
    let said: Vec<_> =
        info.kept().filter(|tlv| kinds.contains(&tlv.kind)).map(|tlv| shown(tlv.kind, tlv.body)).collect();
    take(Neighbor {
        port: "",
        place: 0,
        chassis: identifier(&chassis),
        port_id: identifier(&port),
        ttl: info.ttl().into(),
        expires: 0,
        said: said.iter().map(|(key, value)| (&key[..], &value[..])).collect(),
    })
}

fn identifier((key, text): &(String, String)) -> Identifier<'_> {
    Identifier { kind: key.rsplit('.').next().unwrap_or(key), text }
}
