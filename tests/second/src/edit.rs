// The three edits: lifetime, address and stretch. Each updates the fields it touches and never works them out afresh.

use crate::judge::{first, Rule};
use crate::mend::write_field;
use crate::packet::{View, HEADER_FIELD, ICMP, UDP};
use crate::sums::{fold, total_at, update, Field};
use crate::verdict::*;

/// What the address and the stretch edit refuse first.
pub fn refused(rule: &Rule) -> bool {
    [CUT, VERSION, SHAPE, FRAGMENT, UNCOVERED, MISSING].contains(&rule.number)
}

/// What the lifetime edit refuses first: 2, 3 and 4 only from the IP header and the declared length.
pub fn refused_lifetime(rule: &Rule) -> bool {
    ["no bytes", "version", "under 20 or 40", "header length", "total length", "declared"].contains(&rule.name)
}

/// Whether the lifetime is 0 or 1.
pub fn spent(view: &View) -> bool {
    view.byte(view.lifetime_place()) <= 1
}

/// Whether there is no such side.
pub fn no_side(side: u64) -> bool {
    side > 1
}

/// Whether a new address is too long or too short.
pub fn address_misfit(view: &View, address: &[u8]) -> bool {
    address.len() != view.address_length()
}

/// Whether a stretch reaches past the body.
pub fn stretch_misfit(view: &View, place: u64, new: &[u8]) -> bool {
    u128::from(place) + new.len() as u128 > view.body_length() as u128
}

/// Whether an ICMP message, its field aside, is all zeros before a nonempty edit or would be after it.
pub fn blank(view: &View, place: u64, new: &[u8]) -> bool {
    let mut message = view.message().to_vec();
    let before = zeros_but_field(&message);
    for (i, byte) in new.iter().enumerate() {
        let at = view.body_offset() as u128 + u128::from(place) + i as u128;
        if at < message.len() as u128 {
            message[at as usize] = *byte;
        }
    }
    view.protocol() == ICMP && !new.is_empty() && (before || zeros_but_field(&message))
}

fn zeros_but_field(message: &[u8]) -> bool {
    message.iter().enumerate().all(|(i, byte)| *byte == 0 || i == 2 || i == 3)
}

/// The field after a stretch, whose first byte has this position in the covered block, went from `old` to `new`.
fn updated(field: Field, position: usize, old: &[u8], new: &[u8]) -> Field {
    let fold_at = |bytes| fold(total_at(position as u128, bytes));
    update(field, fold_at(old), fold_at(new))
}

/// Updates the IPv4 header field for a stretch of the header; IPv6 has none.
fn update_header_field(packet: &mut [u8], place: usize, old: &[u8], new: &[u8]) {
    let view = View::new(packet);
    if view.family == 4 {
        let field = updated(Field(view.word(HEADER_FIELD)), place, old, new);
        write_field(packet, HEADER_FIELD, field);
    }
}

/// Updates the message field. UDP's 0000 stays, and another UDP field that comes to 0000 becomes FFFF.
fn update_message_field(packet: &mut [u8], position: usize, old: &[u8], new: &[u8]) {
    let view = View::new(packet);
    let (udp, place) = (view.protocol() == UDP, view.field_place());
    let before = Field(view.word(place));
    if udp && before == Field(0) {
        return;
    }
    let field = match updated(before, position, old, new) {
        Field(0) if udp => Field(0xFFFF),
        field => field,
    };
    write_field(packet, place, field);
}

/// Puts new bytes into a packet and answers the old ones.
fn replace(packet: &mut [u8], place: usize, new: &[u8]) -> Vec<u8> {
    let stretch = &mut packet[place..place + new.len()];
    let old = stretch.to_vec();
    stretch.copy_from_slice(new);
    old
}

/// Makes the lifetime one less.
pub fn lower_lifetime(packet: &mut [u8]) -> Verdict {
    let view = View::new(packet);
    if let Some(refusal) = first(&view, refused_lifetime) {
        return refusal;
    }
    if spent(&view) {
        return SPENT;
    }
    let place = view.lifetime_place();
    let new = [view.byte(place) - 1];
    let old = replace(packet, place, &new);
    update_header_field(packet, place, &old, &new);
    GOOD
}

/// Sets the source (side 0) or the destination (side 1).
pub fn set_address(packet: &mut [u8], side: u32, address: &[u8]) -> Verdict {
    let view = View::new(packet);
    if let Some(refusal) = first(&view, refused) {
        return refusal;
    }
    if no_side(side.into()) || address_misfit(&view, address) {
        return PLACE;
    }
    let place = view.address_place(side as usize);
    let in_pseudo_header = side as usize * view.address_length();
    let has_pseudo_header = !view.pseudo_header().is_empty();
    let old = replace(packet, place, address);
    update_header_field(packet, place, &old, address);
    if has_pseudo_header {
        update_message_field(packet, in_pseudo_header, &old, address);
    }
    GOOD
}

/// Puts new bytes into the body, at a place counted from its first byte.
pub fn set_stretch(packet: &mut [u8], place: u64, new: &[u8]) -> Verdict {
    let view = View::new(packet);
    if let Some(refusal) = first(&view, refused) {
        return refusal;
    }
    if stretch_misfit(&view, place, new) {
        return PLACE;
    }
    if new.is_empty() {
        return GOOD;
    }
    if blank(&view, place, new) {
        return BLANK;
    }
    let in_message = view.body_offset() + place as usize;
    let in_covered_block = view.pseudo_header().len() + in_message;
    let in_packet = view.message_start() + in_message;
    let old = replace(packet, in_packet, new);
    update_message_field(packet, in_covered_block, &old, new);
    GOOD
}
