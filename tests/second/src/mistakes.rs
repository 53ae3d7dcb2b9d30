// Mistakes about where a UDP datagram ends, and about the headers between. They lead to other sums, which the cases
// must tell from the right one. Those about building are in mistakes/build.rs, those about fragments in
// mistakes/fragments.rs, those about the prefix exchange in mistakes/prefix.rs.

pub mod build;
pub mod fragments;
pub mod prefix;

use crate::draft::write_word;
use crate::mend::computed_message_field;
use crate::packet::{View, TCP, UDP};
use crate::sums::{field, fold, total, total_at, Field};
use crate::walk::{Walk, ROUTING};

/// A mistake, by what it adds to the covered block's total.
pub struct Mistake {
    pub name: &'static str,
    pub adds: fn(&View) -> u128,
}

/// The message is taken for the datagram.
pub const WHOLE_MESSAGE: Mistake =
    Mistake { name: "the whole message", adds: |view| message_length(view) + trailing_area(view) };

pub const MISTAKES: [Mistake; 5] = [
    WHOLE_MESSAGE,
    Mistake { name: "the message length in the pseudo-header", adds: message_length },
    Mistake { name: "the trailing area in the block", adds: trailing_area },
    Mistake { name: "the first trailing byte as padding", adds: padding },
    Mistake { name: "all bytes to the last", adds: |view| total_behind(view, view.bytes.len()) },
];

/// Mistakes about the headers between, of packets that have some.
pub const BETWEEN_MISTAKES: [Mistake; 5] = [
    Mistake { name: "the first next header in the pseudo-header", adds: first_next_header },
    Mistake { name: "the payload length in the pseudo-header", adds: payload_length },
    Mistake { name: "the headers between in the block", adds: headers_between },
    Mistake { name: "the whole payload", adds: |view| payload_length(view) + headers_between(view) },
    Mistake { name: "the routing header's last address", adds: last_address },
];

fn message_length(view: &View) -> u128 {
    view.trailing_length() as u128
}

/// What a mistake takes away is added as what it lacks of a multiple of 65535.
fn first_next_header(view: &View) -> u128 {
    u128::from(view.first_said()) + 65535 - u128::from(view.protocol())
}

fn payload_length(view: &View) -> u128 {
    (view.end() - 40 - view.covered_length()) as u128
}

fn headers_between(view: &View) -> u128 {
    total(&view.bytes[40..view.message_start()])
}

/// The last 16 bytes of the last routing header that has room for an address stand for the destination.
fn last_address(view: &View) -> u128 {
    let headers = view.walk.headers.iter().rev();
    match headers.into_iter().find(|header| header.number == ROUTING && header.length >= 24) {
        Some(header) => {
            let end = header.place + header.length;
            total(&view.bytes[end - 16..end]) + 8 * 65535 - total(&view.bytes[24..40])
        }
        None => 0,
    }
}

/// A packet as somebody reads it who leaves the message's start at 40.
pub fn at_40<'a>(view: &View<'a>) -> View<'a> {
    let walk = Walk { headers: Vec::new(), start: 40, ..view.walk };
    View { bytes: view.bytes, family: view.family, walk }
}

/// Makes the first header between, of 16 bytes or more, read like the message's header to somebody who leaves its start
/// at 40, with a sum that is right for all of the payload.
pub fn looks_like_a_message(packet: &mut [u8]) {
    let (protocol, length) = (View::new(packet).protocol(), View::new(packet).end() - 40);
    match protocol {
        UDP => write_word(packet, 44, length as u16),
        TCP => packet[52] = 0x50,
        _ => {}
    }
    write_word(packet, 46, 0);
    let Field(missing) = field(fold(total(&at_40(&View::new(packet)).covered_block())));
    write_word(packet, 46, if missing == 0 { 0xFFFF } else { missing });
}

fn trailing_area(view: &View) -> u128 {
    total_behind(view, view.end())
}

/// An odd datagram's last byte makes a word with the byte behind it.
fn padding(view: &View) -> u128 {
    let end = view.message_start() + view.covered_length();
    match view.covered_length() % 2 {
        1 => total_behind(view, end + 1),
        _ => 0,
    }
}

/// The total of the bytes behind the datagram, up to a place, each by its position in the covered block.
fn total_behind(view: &View, to: usize) -> u128 {
    let datagram = view.covered_length();
    total_at(datagram as u128, &view.bytes[view.message_start() + datagram..to])
}

impl Mistake {
    /// The field that the mistake leads to.
    pub fn field(&self, view: &View) -> Field {
        let Field(right) = computed_message_field(view);
        match field(fold(u128::from(65535 - right) + (self.adds)(view))) {
            Field(0) if view.protocol() == UDP => Field(0xFFFF),
            wrong => wrong,
        }
    }

    /// Whether the mistake finds the sum right. The total isn't 0, since the protocol isn't.
    pub fn passes(&self, view: &View) -> bool {
        (total(&view.covered_block()) + (self.adds)(view)) % 65535 == 0
    }
}
