// The prefix exchange (RFC 6296 for prefixes of 48 bits): other first six bytes for an IPv6 address, and the next word
// set so that the address keeps its class modulo 65535. Every sum over the address stays what it was, so no field is
// written.

use crate::draft::write_word;
use crate::edit::{no_side, refused};
use crate::judge::{Rule, RULES};
use crate::packet::View;
use crate::sums::total;
use crate::verdict::*;

/// The bytes of a prefix. The next word stands behind them.
pub const SIX: usize = 6;

/// The version test of the exchange: IPv4 is 3 too.
const NOT_IPV6: Rule = Rule { number: VERSION, name: "version", applies: |v| v.version() != 6 };

/// What the exchange refuses first, in order: what the address edit does, with its own version test.
pub fn rules() -> impl Iterator<Item = &'static Rule> {
    RULES.iter().filter(|rule| refused(rule)).map(|rule| if rule.number == VERSION { &NOT_IPV6 } else { rule })
}

/// The place of the source (side 0) or the destination (side 1) in an IPv6 packet.
pub fn address_place(side: u32) -> usize {
    8 + 16 * side as usize
}

/// The first bytes of an address. One that isn't there counts as 0, as in all reading here.
pub fn beginning(packet: &[u8], side: u32, length: usize) -> Vec<u8> {
    (address_place(side)..).take(length).map(|place| packet.get(place).copied().unwrap_or(0)).collect()
}

/// What is 10: a wrong side, an expected or a new prefix not of six bytes, an address that doesn't begin with the
/// expected one, and a word of FFFF.
pub fn misfits(view: &View, side: u32, expected: &[u8], new: &[u8]) -> [bool; 5] {
    let wrong_side = no_side(side.into());
    let begins = beginning(view.bytes, side, expected.len()) == expected;
    let word = view.word(address_place(side) + SIX);
    [wrong_side, expected.len() != SIX, new.len() != SIX, !wrong_side && !begins, !wrong_side && word == 0xFFFF]
}

/// The class of an address: its total modulo 65535. The total has less than 32 bits.
pub fn class(address: &[u8]) -> u32 {
    total(address) as u32 % 65535
}

/// Of the words 0000 to FFFE those that give an address this class, in the place behind the prefix. It is exactly one.
pub fn fitting_words(address: &[u8], wanted: u32) -> impl Iterator<Item = u16> {
    let mut rest = address.to_vec();
    write_word(&mut rest, SIX, 0);
    let rest = total(&rest) as u32;
    (0..=0xFFFE).filter(move |word| (rest + u32::from(*word)) % 65535 == wanted)
}

/// An address with another prefix, and the word that keeps its class.
pub fn exchanged(address: &[u8], new: &[u8]) -> Vec<u8> {
    let mut after = [new, &address[SIX..]].concat();
    let word = fitting_words(&after, class(address)).next().expect("one of 65,535 words in a row has the class");
    write_word(&mut after, SIX, word);
    after
}

/// Exchanges the prefix of the source (side 0) or the destination (side 1).
pub fn exchange_prefix(packet: &mut [u8], side: u32, expected: &[u8], new: &[u8]) -> Verdict {
    let view = View::new(packet);
    if let Some(rule) = rules().find(|rule| (rule.applies)(&view)) {
        return rule.number;
    }
    if misfits(&view, side, expected, new).contains(&true) {
        return PLACE;
    }
    let address = &mut packet[address_place(side)..][..16];
    let after = exchanged(address, new);
    address.copy_from_slice(&after);
    GOOD
}
