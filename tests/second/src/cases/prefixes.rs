// Cases of the prefix exchange: words and prefixes at the corners, all that is refused, alone and beside other faults,
// messages of each protocol, and calls one after the other.

use super::between::KINDS;
use super::{Calls, Maker};
use crate::answer::*;
use crate::draft::{balance_message, between, faults_of, refresh, spoil, write_word, Fault, Shape};
use crate::packet::{View, ICMP, ICMPV6, TCP, UDP};
use crate::prefix::{address_place, beginning, SIX};
use crate::sums::total;
use crate::walk::{HOP_BY_HOP, MOST, OPTIONS, ROUTING};

/// RFC 6296's printed example: the prefix inside and outside, and a host's address inside and outside.
const INSIDE: [u8; 6] = [0xFD, 0x01, 0x02, 0x03, 0x04, 0x05];
const OUTSIDE: [u8; 6] = [0x20, 0x01, 0x0D, 0xB8, 0x00, 0x01];
const HOST_INSIDE: [u8; 16] = [0xFD, 1, 2, 3, 4, 5, 0, 1, 0, 0, 0, 0, 0, 0, 0x12, 0x34];
const HOST_OUTSIDE: [u8; 16] = [0x20, 1, 0x0D, 0xB8, 0, 1, 0xD5, 0x50, 0, 0, 0, 0, 0, 0, 0x12, 0x34];
const SOMEBODY: [u8; 16] = [0x20, 1, 0x0D, 0xB8, 0, 2, 0, 0, 0, 0, 0, 0, 0, 0, 0, 1];

/// Words at which the exchange goes wrong. FFFF is refused.
pub const CORNER_WORDS: [u16; 5] = [0x0000, 0x0001, 0x7FFF, 0x8000, 0xFFFE];

/// Lengths of a prefix that isn't one.
const OTHER_LENGTHS: [usize; 6] = [0, 4, 5, 7, 8, 16];

/// Sides that there aren't.
pub const NO_SIDES: [u32; 7] = [2, 3, 255, 256, 65_536, 0x8000_0000, u32::MAX];

/// Lengths of an expected and a new prefix that have twelve bytes together, or are alike.
pub const TWO_LENGTHS: [(usize, usize); 9] =
    [(5, 7), (7, 5), (0, 12), (12, 0), (4, 8), (0, 0), (5, 5), (7, 7), (16, 16)];

/// Puts a prefix and the word behind it into a packet, whose sum is made fresh.
fn put_start(packet: &mut [u8], side: u32, prefix: &[u8], word: u16) {
    let place = address_place(side);
    packet[place..place + SIX].copy_from_slice(prefix);
    write_word(packet, place + SIX, word);
    refresh(packet, 6);
}

impl Maker {
    pub fn prefixes(&mut self) {
        self.printed_example();
        for side in [0, 1] {
            self.corner_words(side);
            self.zeros_and_ones(side);
            self.bits_off(side);
            self.prefix_lengths(side);
        }
        self.no_sides();
        self.versions();
        for kind in KINDS {
            self.full_words(kind);
            self.messages(kind);
            self.fields(kind);
            self.faults_of_exchange(kind);
        }
        self.exchanges_in_ipv4();
        self.udp_lengths_of_exchange();
        self.before_trailing_areas();
        self.exchanges_where_stopped();
        self.bare_and_cut();
        self.exchanges_in_turn();
    }

    /// Random contents, or a prefix behind which the next word comes to a corner.
    fn new_prefix(&mut self, old: &[u8], word: u16) -> Vec<u8> {
        if self.random.once_in(2) {
            return self.random.contents(SIX);
        }
        let after = self.random.pick(&CORNER_WORDS);
        self.prefix_before(after, old, word)
    }

    /// A prefix with which a given word keeps the class of an old prefix and its word.
    fn prefix_before(&mut self, after: u16, old: &[u8], word: u16) -> Vec<u8> {
        let mut new = self.random.contents(SIX);
        let others = total(&new[..4]) + u128::from(after);
        let last = (total(old) + u128::from(word) + 3 * 65535 - others) % 65535;
        write_word(&mut new, 4, last as u16);
        new
    }

    /// A good packet with a prefix and a word, of any protocol and shape.
    fn with_start(&mut self, side: u32, prefix: &[u8], word: u16) -> Vec<u8> {
        let (kind, body) = (self.random.pick(&KINDS), self.random.between(0, 9));
        let mut packet = self.any_shape(kind, body).good(&mut self.random);
        put_start(&mut packet, side, prefix, word);
        packet
    }

    /// A prefix exchanged and exchanged back, with the judge between.
    fn there_and_back(&mut self, packet: &[u8], side: u32, new: &[u8]) {
        let old = beginning(packet, side, SIX);
        self.given(JUDGE, 0, packet, &[]);
        self.exchange(LEFT, side, &old, new);
        self.left(JUDGE, 0, &[]);
        self.exchange(LEFT, side, new, &old);
    }

    /// Exchanges of a packet's prefixes that are done or refused: on both sides and on another, with an expected or a
    /// new prefix of another length, and with an expected one that is a bit off.
    pub fn exchanges(&mut self, packet: &[u8]) {
        let (new, any) = (self.random.contents(SIX), self.random.between(0, 1) as u32);
        for side in [0, 1] {
            self.exchange(AGAIN, side, &beginning(packet, side, SIX), &new);
        }
        let (expected, no_side) = (beginning(packet, any, SIX), self.random.pick(&NO_SIDES));
        self.exchange(AGAIN, no_side, &expected, &new);
        let length = self.random.pick(&OTHER_LENGTHS);
        self.exchange(AGAIN, any, &beginning(packet, any, length), &new);
        let other = self.random.contents(length);
        self.exchange(AGAIN, any, &expected, &other);
        let off = self.one_bit_off(&expected);
        self.exchange(AGAIN, any, &off, &new);
    }

    fn one_bit_off(&mut self, prefix: &[u8]) -> Vec<u8> {
        let mut off = prefix.to_vec();
        off[self.random.between(0, SIX - 1)] ^= 1 << self.random.between(0, 7);
        off
    }

    /// One exchange that fits the packet, on either side in turn.
    pub fn exchange_of_one(&mut self, packet: &[u8]) {
        let (side, new) = (self.count as u32 % 2, self.random.contents(SIX));
        self.exchange(AGAIN, side, &beginning(packet, side, SIX), &new);
    }

    /// The RFC's example as a packet of each protocol: from the host to somebody outside, and the other way.
    fn printed_example(&mut self) {
        let datagram = &[0x13, 0x88, 0x13, 0x89, 0, 0x0A, 0x4D, 0x65, 0x48, 0x69][..];
        let segment = &[0x13, 0x88, 0x13, 0x89, 0, 0, 0, 1, 0, 0, 0, 0, 0x50, 0x10, 6, 0xA8, 0, 0, 0, 0];
        let echo = &[0x80, 0, 0, 0, 0, 1, 0, 1];
        for (protocol, message) in [(UDP, datagram), (TCP, segment), (ICMPV6, echo)] {
            let head = [0x60, 0, 0, 0, 0, message.len() as u8, protocol, 64];
            for (source, destination, side, expected, new) in
                [(HOST_INSIDE, SOMEBODY, 0, INSIDE, OUTSIDE), (SOMEBODY, HOST_OUTSIDE, 1, OUTSIDE, INSIDE)]
            {
                let mut packet = [&head[..], &source, &destination, message].concat();
                refresh(&mut packet, 6);
                self.there_and_back(&packet, side, &new);
                self.again(MEND, 0, &[]);
                self.exchange(LEFT, side, &expected, &new);
                self.left(JUDGE, 0, &[]);
                self.left(MEND, 0, &[]);
            }
        }
    }

    /// Each corner word and another before the exchange, and each behind it.
    fn corner_words(&mut self, side: u32) {
        let words = CORNER_WORDS.map(Some).into_iter().chain([None]);
        for (before, after) in words.clone().flat_map(|before| words.clone().map(move |after| (before, after))) {
            let mut word = |word: Option<u16>| word.unwrap_or_else(|| self.random.between(2, 0x7FFE) as u16);
            let (before, after) = (word(before), word(after));
            let old = self.random.contents(SIX);
            let (packet, new) = (self.with_start(side, &old, before), self.prefix_before(after, &old, before));
            self.there_and_back(&packet, side, &new);
        }
    }

    /// Prefixes of zeros and of ones, the same again, and addresses that are all zeros before or behind the exchange.
    fn zeros_and_ones(&mut self, side: u32) {
        for (old, new) in (0..3).flat_map(|old| (0..3).map(move |new| (old, new))) {
            for word in [0x0000, 0xFFFE, 0x1234] {
                let any = self.random.bytes(SIX);
                let [old, new] = [old, new].map(|which: usize| [&[0; SIX][..], &[0xFF; SIX], &any][which]);
                let packet = self.with_start(side, old, word);
                self.there_and_back(&packet, side, new);
            }
        }
        for (old, word) in [([0; 6], 0), ([0xFF; 6], 0), ([0, 0, 0xFF, 0xFE, 0, 0], 1), ([0, 0, 0, 0, 0, 1], 0xFFFE)] {
            let mut packet = self.with_start(side, &old, word);
            packet[address_place(side) + 8..][..8].fill(0);
            refresh(&mut packet, 6);
            for new in [&[0; 6], &[0xFF; 6], &OUTSIDE] {
                self.there_and_back(&packet, side, new);
            }
        }
    }

    /// The expected prefix with each of its bits off.
    fn bits_off(&mut self, side: u32) {
        let (prefix, new) = (self.random.bytes(SIX), self.random.bytes(SIX));
        let packet = self.with_start(side, &prefix, 0x1234);
        self.given(JUDGE, 0, &packet, &[]);
        for bit in 0..8 * SIX {
            let mut off = prefix.clone();
            off[bit / 8] ^= 0x80 >> (bit % 8);
            self.exchange(AGAIN, side, &off, &new);
        }
    }

    /// Every length of an expected prefix that the address begins with, and of a new one; and both together.
    fn prefix_lengths(&mut self, side: u32) {
        let prefix = self.random.bytes(SIX);
        let packet = self.with_start(side, &prefix, 0x1234);
        self.given(JUDGE, 0, &packet, &[]);
        let one = (0..=16).flat_map(|length| [(length, SIX), (SIX, length)]);
        for (expected, new) in one.chain(TWO_LENGTHS) {
            let new = self.random.bytes(new);
            self.exchange(AGAIN, side, &beginning(&packet, side, expected), &new);
        }
    }

    /// Other sides, with the prefix of either address, and with what stands where an address on that side would.
    fn no_sides(&mut self) {
        let packet = self.with_start(0, &OUTSIDE, 0x1234);
        let new = self.random.bytes(SIX);
        self.given(JUDGE, 0, &packet, &[]);
        for side in NO_SIDES {
            for like in [0, 1, side] {
                self.exchange(AGAIN, side, &beginning(&packet, like, SIX), &new);
            }
        }
    }

    /// Each version but 6, in what is a good packet but for that.
    fn versions(&mut self) {
        for version in (0..16).filter(|version| *version != 6) {
            let mut packet = self.with_start(0, &OUTSIDE, 0x1234);
            packet[0] = version << 4;
            self.given(JUDGE, 0, &packet, &[]);
            self.exchange(AGAIN, 0, &OUTSIDE, &INSIDE);
        }
    }

    /// A word of FFFF on a side, in packets that are good and that aren't, with prefixes that could bring it to any
    /// word. The other side is exchanged.
    fn full_words(&mut self, kind: (u8, u8)) {
        for (side, faults) in [(0, &[][..]), (0, &[Fault::MessageSum]), (1, &[]), (1, &[Fault::MessageSum])] {
            let (old, body) = (self.random.contents(SIX), self.random.between(0, 9));
            let mut packet = self.any_shape(kind, body).good(&mut self.random);
            put_start(&mut packet, side, &old, 0xFFFF);
            spoil(&mut packet, 6, faults, &mut self.random);
            self.given(JUDGE, 0, &packet, &[]);
            for after in CORNER_WORDS {
                let new = self.prefix_before(after, &old, 0);
                self.exchange(AGAIN, side, &old, &new);
            }
            self.exchange(AGAIN, side, &old, &old);
            let other = beginning(&packet, 1 - side, SIX);
            self.exchange(AGAIN, 1 - side, &other, &old);
            self.left(JUDGE, 0, &[]);
        }
    }

    /// Messages behind none to eight headers, with a right sum and a wrong one; behind two with every exchange.
    fn messages(&mut self, kind: (u8, u8)) {
        let packet = self.behind_any(kind, 2);
        self.every_operation(&packet, 6);
        for (count, faults) in (0..=MOST).flat_map(|count| [(count, &[][..]), (count, &[Fault::MessageSum])]) {
            let mut packet = self.behind_any(kind, count);
            spoil(&mut packet, 6, faults, &mut self.random);
            let side = (count % 2) as u32;
            let (old, word) = (beginning(&packet, side, SIX), View::new(&packet).word(address_place(side) + SIX));
            let new = self.new_prefix(&old, word);
            self.there_and_back(&packet, side, &new);
        }
    }

    /// Fields that are fresh at 0000, or at UDP's FFFF; that stand at FFFF where 0000 is fresh; and that stand at
    /// either and are wrong. The mender comes last. The new prefix brings a word to 0000, where one's complement has
    /// FFFF.
    fn fields(&mut self, kind: (u8, u8)) {
        for (side, odd) in [(0, 0), (1, 1)] {
            let between = between(&[(HOP_BY_HOP, 0), (ROUTING, 2)][..2 * odd]);
            let shape = Shape { between, tail: 3 * odd, ..Shape::plain(kind, 8 + odd) };
            let old = self.random.bytes(SIX);
            let mut packet = shape.good(&mut self.random);
            put_start(&mut packet, side, &old, 0x1234);
            balance_message(&mut packet, 6, shape.headers());
            let (field, new) = (View::new(&packet).field_place(), self.prefix_before(0, &old, 0x1234));
            for (word, damage) in [(0x0000, 0), (0xFFFF, 0), (0x0000, 1), (0xFFFF, 1), (0x4321, 1)] {
                let mut packet = packet.clone();
                write_word(&mut packet, field, word);
                packet[shape.headers() + 3] ^= damage;
                self.there_and_back(&packet, side, &new);
                self.again(MEND, 0, &[]);
                self.exchange(LEFT, side, &old, &new);
                self.left(MEND, 0, &[]);
                self.left(JUDGE, 0, &[]);
            }
        }
    }

    /// Each fault alone, with every exchange, and with a word of FFFF; and every two faults with one that would fit.
    fn faults_of_exchange(&mut self, kind: (u8, u8)) {
        let faults = faults_of(kind);
        for (i, one) in faults.iter().enumerate() {
            let packet = self.start_with_faults(kind, 0x1234, &[*one]);
            self.every_operation(&packet, 6);
            let others = faults[i + 1..].repeat(3).into_iter().map(|other| (0x1234, other));
            for (word, other) in [(0xFFFF, *one); 2].into_iter().chain(others) {
                let packet = self.start_with_faults(kind, word, &[*one, other]);
                self.outside_to_inside(&packet);
            }
        }
    }

    /// A packet whose source's prefix is exchanged.
    fn outside_to_inside(&mut self, packet: &[u8]) {
        let (number, two) = exchange_payload(0, &OUTSIDE, &INSIDE);
        self.given(PREFIX, number, packet, &two);
    }

    /// A packet from outside with a word and faults.
    fn start_with_faults(&mut self, kind: (u8, u8), word: u16, faults: &[Fault]) -> Vec<u8> {
        let mut packet = self.any_good(kind);
        put_start(&mut packet, 0, &OUTSIDE, word);
        spoil(&mut packet, 6, faults, &mut self.random);
        packet
    }

    /// IPv4, good and with each fault; and with an FFFF where the word behind an IPv6 prefix would stand.
    fn exchanges_in_ipv4(&mut self) {
        for kind in [(4, ICMP), (4, TCP), (4, UDP)] {
            let mut packet = self.any_good(kind);
            self.every_operation(&packet, 4);
            write_word(&mut packet, address_place(0) + SIX, 0xFFFF);
            refresh(&mut packet, 4);
            self.given(JUDGE, 0, &packet, &[]);
            self.exchange_of_one(&packet);
            self.exchange_of_one(&packet);
        }
        for fault in faults_of((4, UDP)) {
            let mut packet = self.any_good((4, UDP));
            spoil(&mut packet, 4, &[fault], &mut self.random);
            self.given(JUDGE, 0, &packet, &[]);
            self.exchange_of_one(&packet);
        }
    }

    /// UDP lengths that fit the message and that don't.
    fn udp_lengths_of_exchange(&mut self) {
        for length in [0, 3, 7, 8, 12, 20, 21, 24, 0xFFFF] {
            let mut packet = Shape { tail: 5, ..Shape::plain((6, UDP), 12) }.good(&mut self.random);
            write_word(&mut packet, 44, length);
            refresh(&mut packet, 6);
            self.each_call(&packet);
        }
    }

    /// Trailing areas, whole and cut, behind datagrams with a sum and without.
    fn before_trailing_areas(&mut self) {
        for (word, cut) in [(0x1234, 0), (0x1234, 2), (0xFFFF, 0), (0xFFFF, 2)] {
            for faults in [&[][..], &[Fault::Zero]] {
                let mut packet = Shape { trailing: 5, ..Shape::plain((6, UDP), 4) }.good(&mut self.random);
                put_start(&mut packet, 0, &OUTSIDE, word);
                put_start(&mut packet, 1, &INSIDE, word);
                spoil(&mut packet, 6, faults, &mut self.random);
                packet.truncate(packet.len() - cut);
                self.every_operation(&packet, 6);
            }
        }
    }

    /// Nothing but the fixed header, which says that something follows; and a packet with a header between and a
    /// trailing area, cut at every byte.
    fn bare_and_cut(&mut self) {
        for (next, length) in [(UDP, 0), (44, 0), (59, 0), (UDP, 1), (UDP, 0xFFFF)] {
            let mut packet = self.with_start(0, &OUTSIDE, 0x1234);
            packet.truncate(40);
            packet[6] = next;
            write_word(&mut packet, 4, length);
            self.each_call(&packet);
        }
        let shape = Shape { between: between(&[(OPTIONS, 0)]), trailing: 3, ..Shape::plain((6, UDP), 4) };
        let mut packet = shape.good(&mut self.random);
        put_start(&mut packet, 0, &OUTSIDE, 0x1234);
        for length in 0..=packet.len() {
            self.outside_to_inside(&packet[..length]);
        }
        self.every_operation(&[], 6);
    }

    /// Each call before an exchange and behind it; and any calls in turn.
    fn exchanges_in_turn(&mut self) {
        for (protocol, lifetime, damage) in [(TCP, 1, 0), (UDP, 2, 0), (ICMPV6, 3, 0), (UDP, 3, 1)] {
            let mut packet = Shape { tail: 2, ..Shape::plain((6, protocol), 5) }.good(&mut self.random);
            packet[7] = lifetime;
            put_start(&mut packet, 0, &OUTSIDE, 0x1234);
            packet[40] ^= damage;
            self.before_and_behind(&packet);
            self.one_after_the_other(&packet);
        }
        self.calls = Calls::All;
        for kind in KINDS.into_iter().chain([(6, UDP), (4, UDP)]) {
            for faults in [&[][..], &[Fault::MessageSum], &[Fault::Zero]] {
                let mut packet = self.any_good(kind);
                spoil(&mut packet, kind.0, faults, &mut self.random);
                self.edits_in_turn(&packet);
            }
        }
        self.calls = Calls::Prefix;
    }

    /// Each call, done and refused, before an exchange that is done or refused, and behind it; and then the exchange
    /// back. The address edit sets an address with the same prefix.
    fn before_and_behind(&mut self, packet: &[u8]) {
        let address = [&OUTSIDE[..], &self.random.bytes(10)].concat();
        let body = View::new(packet).body_length() as u64;
        let calls: [(u8, u64, &[u8]); 6] = [
            (LIFETIME, 0, &[]),
            (ADDRESS, 0, &address),
            (ADDRESS, 2, &address),
            (STRETCH, body - 1, &[7]),
            (STRETCH, body, &[7]),
            (MEND, 0, &[]),
        ];
        self.given(JUDGE, 0, packet, &[]);
        for (operation, number, two) in calls {
            for (expected, new) in [(OUTSIDE, INSIDE), (INSIDE, OUTSIDE)] {
                self.again(operation, number, two);
                self.exchange(LEFT, 0, &expected, &new);
                self.left(operation, number, two);
                self.exchange(LEFT, 0, &INSIDE, &OUTSIDE);
                self.left(JUDGE, 0, &[]);
            }
        }
    }

    /// From outside to inside, once more and on no side, which are refused, and by way of another prefix back; the
    /// other side in between.
    fn one_after_the_other(&mut self, packet: &[u8]) {
        let (other, there) = (self.random.bytes(SIX), beginning(packet, 1, SIX));
        self.given(JUDGE, 0, packet, &[]);
        self.exchange(LEFT, 0, &OUTSIDE, &INSIDE);
        self.exchange(LEFT, 0, &OUTSIDE, &INSIDE);
        self.exchange(LEFT, 2, &INSIDE, &other);
        self.exchange(LEFT, 0, &INSIDE, &other);
        self.exchange(LEFT, 1, &there, &INSIDE);
        self.exchange(LEFT, 0, &other, &OUTSIDE);
        self.exchange(LEFT, 1, &INSIDE, &there);
        self.left(JUDGE, 0, &[]);
    }

    /// A prefix exchange on what is left, mostly one that is done.
    pub fn any_exchange(&mut self) {
        let side = self.random.pick(&[0, 0, 0, 0, 1, 1, 1, 1, 2, u32::MAX]);
        let (like, packet) = (side.min(1), self.desk.buffer.clone());
        let mut expected = beginning(&packet, like, SIX);
        let word = View::new(&packet).word(address_place(like) + SIX);
        let mut new = self.new_prefix(&expected, word);
        let length = self.random.pick(&OTHER_LENGTHS);
        match self.random.between(0, 19) {
            0 => expected = self.one_bit_off(&expected),
            1 => expected = beginning(&packet, like, length),
            2 => new = self.random.contents(length),
            3 => new = expected.clone(),
            _ => {}
        }
        self.exchange(LEFT, side, &expected, &new);
    }

    /// Any packet, mostly of IPv6, whose words and prefixes are often at a corner and which may have a fault or a
    /// stopped walk: exchanges one after the other, and other calls between them.
    pub fn any_prefixes(&mut self) {
        let kind = if self.random.once_in(12) { self.any_kind() } else { self.random.pick(&KINDS) };
        let mut packet = self.any_good(kind);
        for side in [0, 1] {
            let (prefix, any) = (self.random.contents(SIX), self.random.any() as u16);
            let corner = if self.random.once_in(6) { 0xFFFF } else { self.random.pick(&CORNER_WORDS) };
            if kind.0 == 6 {
                put_start(&mut packet, side, &prefix, if self.random.once_in(2) { corner } else { any });
            }
        }
        match self.random.between(0, 5) {
            0 => spoil(&mut packet, kind.0, &[Fault::MessageSum], &mut self.random),
            1 => {
                let fault = self.random.pick(&faults_of(kind));
                spoil(&mut packet, kind.0, &[fault], &mut self.random);
            }
            2 if kind.0 == 6 && View::new(&packet).walk.headers.is_empty() => packet = self.any_stopped(&packet),
            _ => {}
        }
        let body = View::new(&packet).body_length();
        self.given(JUDGE, 0, &packet, &[]);
        for _ in 0..self.random.between(4, 12) {
            if self.random.once_in(4) {
                self.step(body, kind.0);
            } else {
                self.any_exchange();
            }
        }
        self.left(JUDGE, 0, &[]);
    }
}
