// The mender: fresh fields, each worked out with that field read as 0000.

use crate::judge::{first, Rule};
use crate::packet::{View, HEADER_FIELD, UDP};
use crate::sums::{field, fold, total, Field};
use crate::verdict::*;

/// What the mender refuses.
pub fn refused(rule: &Rule) -> bool {
    [CUT, VERSION, SHAPE, FRAGMENT, UNCOVERED].contains(&rule.number)
}

/// The field of a block with its own field, at `place`, read as 0000.
fn computed(mut block: Vec<u8>, place: usize) -> Field {
    block[place..place + 2].fill(0);
    field(fold(total(&block)))
}

/// The fresh IPv4 header field.
pub fn fresh_header_field(view: &View) -> Field {
    computed(view.header().to_vec(), HEADER_FIELD)
}

/// The message field as computed, before UDP's rule for 0000.
pub fn computed_message_field(view: &View) -> Field {
    let place = view.pseudo_header().len() + view.field_place() - view.message_start();
    computed(view.covered_block(), place)
}

/// The fresh message field: UDP's 0000 is written as FFFF.
pub fn fresh_message_field(view: &View) -> Field {
    match computed_message_field(view) {
        Field(0) if view.protocol() == UDP => Field(0xFFFF),
        fresh => fresh,
    }
}

/// Writes a field into a packet.
pub fn write_field(packet: &mut [u8], place: usize, field: Field) {
    packet[place..place + 2].copy_from_slice(&field.0.to_be_bytes());
}

/// Sets the fields of a packet to their fresh values; UDP's 0000 in IPv4 stays.
pub fn mend(packet: &mut [u8]) -> Verdict {
    let view = View::new(packet);
    if let Some(refusal) = first(&view, refused) {
        return refusal;
    }
    let (family, place) = (view.family, view.field_place());
    let unsummed = family == 4 && view.protocol() == UDP && view.word(place) == 0;
    let message_field = fresh_message_field(&view);
    if family == 4 {
        let header_field = fresh_header_field(&view);
        write_field(packet, HEADER_FIELD, header_field);
    }
    if !unsummed {
        write_field(packet, place, message_field);
    }
    GOOD
}
