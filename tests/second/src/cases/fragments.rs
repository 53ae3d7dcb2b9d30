// Cases of fragments judged together: lists at their limits, messages cut in every way and listed in every order, all
// that is refused, alone and beside other faults, and records that share bytes of the buffer.

use super::Maker;
use crate::answer::*;
use crate::draft::{balance_message, faults_of, refresh, spoil, write_word, Fault, Shape};
use crate::fragments::{Bundle, Record, LONGEST, MOST};
use crate::mistakes::MISTAKES;
use crate::packet::{View, HEADER_FIELD, ICMP, ICMPV6, TCP, UDP};
use crate::pieces::*;
use crate::sums::{field, fold, total, Field};

/// IPv4's protocols in the table.
pub const KINDS: [(u8, u8); 3] = [(4, ICMP), (4, TCP), (4, UDP)];

/// The faults of a message that its fragments show only together.
const OF_MESSAGE: [Fault; 5] =
    [Fault::Protocol, Fault::MessageLength, Fault::InnerLength, Fault::Zero, Fault::MessageSum];

/// Every order of three.
const ORDERS: [[usize; 3]; 6] = [[0, 1, 2], [0, 2, 1], [1, 0, 2], [1, 2, 0], [2, 0, 1], [2, 1, 0]];

/// A record of the list.
fn record(offset: usize, length: usize) -> Record {
    Record { offset: offset as u64, length: length as u64 }
}

/// Pieces one after the other in a buffer, with the list of them.
pub fn in_a_row(pieces: &[Piece]) -> (Vec<u8>, Vec<Record>) {
    let mut buffer = Vec::new();
    let place = |piece: &Piece| {
        buffer.extend(piece);
        record(buffer.len() - piece.len(), piece.len())
    };
    let list = pieces.iter().map(place).collect();
    (buffer, list)
}

impl Maker {
    pub fn fragment_lists(&mut self) {
        self.list_limits();
        self.numbers_of_fragments();
        self.bad_first_and_last();
        self.versions_of_fragments();
        for kind in KINDS {
            self.orders_of_three(kind);
            self.orders_of_many(kind);
            self.single_records(kind);
            self.fields_in_fragments(kind);
            self.flaws_alone(kind);
        }
        self.pairs_of_flaws();
        self.ways_to_fill();
        self.datagram_ends();
        self.data_offsets_in_fragments();
        self.what_may_differ();
        self.shared_bytes();
        self.longest_messages();
        self.lifetimes_lowered_first();
        for _ in 0..120 {
            self.any_fragments();
        }
    }

    /// A list on a buffer of its own.
    fn list(&mut self, buffer: &[u8], list: &[Record]) {
        self.given(FRAGMENTS, 0, buffer, &list_payload(list));
    }

    /// Another list on the buffer that was last given.
    fn list_again(&mut self, list: &[Record]) {
        self.again(FRAGMENTS, 0, &list_payload(list));
    }

    /// Fragments somewhere in a buffer, listed in the order given.
    fn listed(&mut self, pieces: &[Piece]) -> Vec<Record> {
        let (buffer, list) = self.scattered(pieces);
        self.list(&buffer, &list);
        list
    }

    /// The same, and the last one lies in the buffer alone: the list has the others. All of them are answered.
    fn listed_but_last(&mut self, pieces: &[Piece]) -> Vec<Record> {
        let (buffer, list) = self.scattered(pieces);
        self.list(&buffer, &list[..pieces.len() - 1]);
        list
    }

    /// One more piece, which is one of the others with a byte of its message damaged. Which one is answered.
    fn with_damaged(&mut self, pieces: &mut Vec<Piece>) -> usize {
        let which = self.random.between(0, pieces.len() - 1);
        let mut damaged = pieces[which].clone();
        let view = View::new(&pieces[which]);
        damaged[self.random.between(view.header_length(), view.end() - 1)] ^= 0x10;
        pieces.push(damaged);
        which
    }

    /// Fragments in any order in a buffer, perhaps with other bytes between them, and the list of them in the order
    /// given.
    fn scattered(&mut self, pieces: &[Piece]) -> (Vec<u8>, Vec<Record>) {
        let mut order: Vec<usize> = (0..pieces.len()).collect();
        shuffle(&mut order, &mut self.random);
        let (mut buffer, mut list) = (Vec::new(), vec![record(0, 0); pieces.len()]);
        for i in order {
            let between = self.random.pick(&[0, 0, 1, 3]);
            buffer.extend(self.random.bytes(between));
            list[i] = record(buffer.len(), pieces[i].len());
            buffer.extend(&pieces[i]);
        }
        (buffer, list)
    }

    /// A good packet whose message has so many bytes.
    fn whole(&mut self, kind: (u8, u8), length: usize) -> Vec<u8> {
        let shape = Shape::plain(kind, 0);
        Shape { body: length - (shape.headers() - 20), ..shape }.good(&mut self.random)
    }

    /// A packet with faults of its message, cut into up to so many pieces in any order, some with tails.
    fn pieces(&mut self, kind: (u8, u8), faults: &[Fault], most: usize) -> Vec<Piece> {
        let body = self.random.between(24, 70);
        let mut packet = Shape::any_direct(kind, body, &mut self.random).good(&mut self.random);
        spoil(&mut packet, 4, faults, &mut self.random);
        let places = any_places(View::new(&packet).message_length(), most - 1, &mut self.random);
        let mut pieces = cut(&packet, &places, &mut self.random);
        for piece in &mut pieces {
            let tail = self.random.pick(&[0, 0, 1, 8]);
            piece.extend(self.random.bytes(tail));
        }
        shuffle(&mut pieces, &mut self.random);
        pieces
    }

    /// Empty lists; records that reach the buffer's end and past it, by numbers of every size; empty ones.
    fn list_limits(&mut self) {
        self.list(&[], &[]);
        let pieces = self.pieces((4, UDP), &[], 3);
        let list = self.listed(&pieces);
        self.list_again(&[]);
        let size = self.desk.buffer.len() as u64;
        let numbers =
            [(size, 0), (0, 0), (size - 1, 1), (0, size), (size - 1, 2), (size, 1), (size + 1, 0), (0, size + 1)];
        let large = [1 << 16, 1 << 32, 1 << 63, u64::MAX - 1, u64::MAX];
        let large = large.into_iter().flat_map(|number| [(number, 0), (0, number), (number, number), (number, 1)]);
        let wrapped = [(u64::MAX, 2), (2, u64::MAX), (u64::MAX - 19, 20 + list[0].offset), (1 << 63, 1 << 63)];
        let wrapped = wrapped.into_iter().chain([(list[0].offset.wrapping_sub(8), list[0].length + 8)]);
        let odd: Vec<Record> =
            numbers.into_iter().chain(large).chain(wrapped).map(|(o, l)| Record { offset: o, length: l }).collect();
        for other in odd {
            for at in [0, 1, list.len()] {
                let mut with = list.clone();
                with.insert(at, other);
                self.list_again(&with);
            }
            self.list_again(&[other]);
        }
        for bytes in [&[][..], &[0x45], &[0x60]] {
            self.list(bytes, &[]);
            self.list_again(&[record(0, 0)]);
            self.list_again(&[record(0, 1)]);
            self.list_again(&[record(1, 0)]);
            self.list_again(&[record(bytes.len(), 0); 2]);
            self.list_again(&vec![record(0, 0); MOST]);
            self.list_again(&vec![record(0, 0); MOST + 1]);
        }
    }

    /// Messages in 8-byte fragments, as many as may be and more, forwards and backwards and with a damaged one; and the
    /// record too many outside the buffer, empty, or with a wrong header.
    fn numbers_of_fragments(&mut self) {
        for (i, kind) in KINDS.into_iter().enumerate() {
            for count in [1, 2, 3, 64, 65, [63, 66, 67][i]] {
                let length = (8 * count).max(20) - self.random.pick(&[0, 1, 7]) * usize::from(count > 3);
                let packet = self.whole(kind, length);
                let places = every(8, 8 * count);
                let mut pieces = cut(&packet, &places, &mut self.random);
                let damaged = self.with_damaged(&mut pieces);
                let mut list = self.listed_but_last(&pieces);
                let odd = [record(self.desk.buffer.len(), 1), record(0, 0), record(list[0].offset as usize, 19)][i];
                self.list_again(&[&[odd][..], &list[..count]].concat());
                self.list_again(&[&list[..count], &[odd]].concat());
                list.swap(damaged, count);
                self.list_again(&list[..count]);
                list.swap(damaged, count);
                list.truncate(count);
                list.reverse();
                self.list_again(&list);
            }
        }
    }

    /// A wrong header sum in the last record of the list with a bad shape in the first, and other things of one kind
    /// before and behind things of another.
    fn bad_first_and_last(&mut self) {
        let firsts = ALONE.into_iter().chain(MISFITS).chain(UNFILLED);
        for (one, other) in firsts.flat_map(|one| ALONE.map(|other| (one, other))) {
            let mut pieces = self.pieces((4, UDP), &[], 4);
            let (first, last) = (0, pieces.len() - 1);
            if ALONE.contains(&one) {
                spoil_piece(&mut pieces[first], &[one], &mut self.random);
                spoil_piece(&mut pieces[last], &[other], &mut self.random);
                self.listed(&pieces);
                continue;
            }
            let mut wrong = pieces[first].clone();
            spoil_piece(&mut wrong, &[other], &mut self.random);
            spoil_pieces(&mut pieces, one, &mut self.random);
            pieces.push(wrong);
            let mut list = self.listed(&pieces);
            list.rotate_right(1);
            self.list_again(&list);
        }
    }

    /// Each version but 4, in every place of the list; a byte alone with each version; and whole IPv6 packets.
    fn versions_of_fragments(&mut self) {
        for version in (0..16).filter(|version| *version != 4) {
            let mut pieces = self.pieces((4, ICMP), &[], 3);
            let at = usize::from(version) % pieces.len();
            pieces[at][0] = version << 4 | 5;
            self.listed(&pieces);
            pieces[at].truncate(30);
            self.listed(&pieces);
        }
        for version in 0..16 {
            let mut pieces = self.pieces((4, TCP), &[], 3);
            pieces[usize::from(version) % 3] = vec![version << 4];
            self.listed(&pieces);
            self.list(&[version << 4 | 5], &[record(0, 1)]);
        }
        for kind in [(6, TCP), (6, UDP), (6, ICMPV6)] {
            let (six, mut pieces) = (self.any_good(kind), self.pieces((4, UDP), &[], 3));
            self.list(&six, &[record(0, six.len())]);
            self.list_again(&[record(0, 39)]);
            for at in [0, pieces.len()] {
                pieces.insert(at, six.clone());
                self.listed(&pieces);
                pieces.remove(at);
            }
        }
    }

    /// Three fragments in every order, with a right sum and with each of them damaged, left out and listed twice.
    fn orders_of_three(&mut self, kind: (u8, u8)) {
        for length in [40, 41] {
            let packet = self.whole(kind, length);
            let damaged = self.random.between(0, 2);
            let pieces = cut(&packet, &[8, 24], &mut self.random);
            for damage in [0, 1] {
                let mut pieces = pieces.clone();
                let place = View::new(&pieces[damaged]).header_length() + 5;
                pieces[damaged][place] ^= damage;
                let list = self.listed(&pieces);
                for order in ORDERS {
                    self.list_again(&order.map(|i| list[i]));
                }
                for i in 0..3 {
                    let mut others = list.clone();
                    let left_out = others.remove(i);
                    self.list_again(&others);
                    self.list_again(&[left_out]);
                    self.list_again(&[left_out, left_out]);
                    self.list_again(&[list.clone(), vec![left_out]].concat());
                    self.list_again(&[vec![left_out], list.clone()].concat());
                    others.push(others[0]);
                    self.list_again(&others);
                }
            }
        }
    }

    /// Messages of several lengths in fragments of any lengths, in order, backwards and in another order; and so with a
    /// damaged one.
    fn orders_of_many(&mut self, kind: (u8, u8)) {
        for (length, most) in [(20, 2), (57, 4), (64, 8), (201, 9), (512, 33), (1480, 11)] {
            let packet = self.whole(kind, length);
            let places = any_places(length, most - 1, &mut self.random);
            let mut pieces = cut(&packet, &places, &mut self.random);
            let damaged = self.with_damaged(&mut pieces);
            let mut right = self.listed_but_last(&pieces);
            let mut wrong = right.clone();
            wrong.swap_remove(damaged);
            right.pop();
            self.list_again(&wrong);
            for mut list in [right, wrong] {
                list.reverse();
                self.list_again(&list);
                shuffle(&mut list, &mut self.random);
                self.list_again(&list);
            }
        }
    }

    /// Whole packets, with faults and without, as the only record, beside the judge. A byte less, or a byte more.
    fn single_records(&mut self, kind: (u8, u8)) {
        let faults = faults_of(kind);
        for (i, one) in faults.iter().enumerate() {
            for other in &faults[i..] {
                let mut packet = self.any_good(kind);
                spoil(&mut packet, 4, &[*one, *other], &mut self.random);
                self.judged_and_listed(&packet);
            }
        }
        for body in [0, 1, 8, 9, 31] {
            let packet = Shape::any_direct(kind, body, &mut self.random).good(&mut self.random);
            self.judged_and_listed(&packet);
            self.list_again(&[record(0, packet.len() - 1)]);
            self.list_again(&[record(0, packet.len() + 1)]);
            self.list_again(&[record(0, View::new(&packet).end())]);
            self.list_again(&[record(0, View::new(&packet).header_length())]);
            self.list_again(&[record(1, packet.len() - 1)]);
        }
        for (protocol, length) in [kind.1, 47, ICMPV6].into_iter().flat_map(|p| [0, 1, 3, 4].map(|length| (p, length)))
        {
            let mut packet = self.whole(kind, 24);
            packet[9] = protocol;
            set_length(&mut packet, length);
            self.judged_and_listed(&packet);
        }
        for protocol in [0, 2, 5, 7, 16, 18, 41, 44, 47, 50, 58, 59, 255] {
            let mut packet = self.any_good(kind);
            packet[9] = protocol;
            refresh(&mut packet, 4);
            self.judged_and_listed(&packet);
        }
    }

    /// A packet judged, and judged as the only fragment.
    fn judged_and_listed(&mut self, packet: &[u8]) {
        self.given(JUDGE, 0, packet, &[]);
        self.list_again(&[record(0, packet.len())]);
    }

    /// Fields of 0000, of FFFF where 0000 is computed, of either where it is wrong, and others; ICMP messages of
    /// zeros alone. TCP's stands in the third fragment.
    fn fields_in_fragments(&mut self, kind: (u8, u8)) {
        for length in [40, 43] {
            let mut packet = self.whole(kind, length);
            let (place, field) = (packet.len() - 16, View::new(&packet).field_place());
            balance_message(&mut packet, 4, place + place % 2);
            for (word, damage) in [(0x0000, 0), (0xFFFF, 0), (0x0000, 1), (0xFFFF, 1), (0x4321, 0)] {
                let mut packet = packet.clone();
                write_word(&mut packet, field, word);
                packet[place + 5] ^= damage;
                let mut pieces = cut(&packet, &[8, 16, 32], &mut self.random);
                shuffle(&mut pieces, &mut self.random);
                self.listed(&pieces);
                self.judged_and_listed(&packet);
            }
            for word in [0x0000, 0xFFFF, 0x0001] {
                let mut packet = packet.clone();
                packet[20..].fill(0);
                write_word(&mut packet, field, word);
                let pieces = cut(&packet, &[8, 16, 32], &mut self.random);
                self.listed(&pieces);
            }
        }
    }

    /// Each flaw alone, in fragments in any order; and every fault of the message, and every two.
    fn flaws_alone(&mut self, kind: (u8, u8)) {
        for flaw in ALONE.into_iter().chain(MISFITS).chain(UNFILLED) {
            for most in [2, 5] {
                let mut pieces = self.pieces(kind, &[], most);
                spoil_pieces(&mut pieces, flaw, &mut self.random);
                self.listed(&pieces);
            }
        }
        let faults: Vec<Fault> = faults_of(kind).into_iter().filter(|fault| OF_MESSAGE.contains(fault)).collect();
        for (one, other) in faults.iter().flat_map(|one| faults.iter().map(move |other| (*one, *other))) {
            let pieces = self.pieces(kind, &[one, other], 4);
            self.listed(&pieces);
        }
    }

    /// Every two flaws of fragments by themselves, in one and in two; every two of fragments together that are 4 and 6, in
    /// both orders of the list; each beside records too many and one outside the buffer; and each beside every fault of the
    /// message.
    fn pairs_of_flaws(&mut self) {
        let together: Vec<Flaw> = MISFITS.into_iter().chain(UNFILLED).collect();
        for (one, other) in ALONE.into_iter().flat_map(|one| ALONE.map(|other| (one, other))) {
            for both_in_one in [false, true, true] {
                let mut pieces = self.pieces((4, UDP), &[], 4);
                let at = self.random.between(0, pieces.len() - 2);
                if both_in_one {
                    spoil_piece(&mut pieces[at], &[one, other], &mut self.random);
                } else {
                    spoil_piece(&mut pieces[at], &[one], &mut self.random);
                    spoil_piece(&mut pieces[at + 1], &[other], &mut self.random);
                }
                self.listed(&pieces);
            }
        }
        for (one, other) in MISFITS.into_iter().flat_map(|one| UNFILLED.map(|other| (one, other))) {
            for _ in 0..4 {
                let mut pieces = self.pieces((4, TCP), &[], 5);
                spoil_pieces(&mut pieces, one, &mut self.random);
                spoil_pieces(&mut pieces, other, &mut self.random);
                let mut list = self.listed(&pieces);
                list.reverse();
                self.list_again(&list);
            }
        }
        for _ in 0..8 {
            let mut pieces = self.pieces((4, TCP), &[], 3);
            for flaw in [Flaw::Past, Flaw::Past, Flaw::More] {
                spoil_pieces(&mut pieces, flaw, &mut self.random);
            }
            self.listed(&pieces);
        }
        for flaw in ALONE.into_iter().chain(together.iter().copied()) {
            let mut pieces = self.pieces((4, ICMP), &[], 4);
            spoil_pieces(&mut pieces, flaw, &mut self.random);
            self.beside_list_flaws(&pieces);
        }
        for (kind, fault) in KINDS.into_iter().flat_map(|kind| OF_MESSAGE.map(|fault| (kind, fault))) {
            if !faults_of(kind).contains(&fault) {
                continue;
            }
            let pieces = self.pieces(kind, &[fault], 4);
            self.beside_list_flaws(&pieces);
            let mut with = pieces.clone();
            for flaw in ALONE {
                let mut wrong = pieces[0].clone();
                spoil_piece(&mut wrong, &[flaw], &mut self.random);
                with.push(wrong);
            }
            let list = self.listed(&with);
            for wrong in &list[pieces.len()..] {
                let mut with = list[..pieces.len()].to_vec();
                with.insert(self.random.between(0, pieces.len()), *wrong);
                self.list_again(&with);
            }
            for flaw in &together {
                let mut pieces = self.pieces(kind, &[fault], 4);
                spoil_pieces(&mut pieces, *flaw, &mut self.random);
                let mut list = self.listed(&pieces);
                list.reverse();
                self.list_again(&list);
            }
        }
    }

    /// A list with a record outside the buffer at each end; and with the same records again until there are 64, and then
    /// each of them, and the one outside, as one too many.
    fn beside_list_flaws(&mut self, pieces: &[Piece]) {
        let list = self.listed(pieces);
        let outside = record(self.desk.buffer.len(), 1);
        self.list_again(&[vec![outside], list.clone()].concat());
        self.list_again(&[list.clone(), vec![outside]].concat());
        let many: Vec<Record> = list.iter().cycle().take(MOST).copied().collect();
        self.list_again(&[many, list, vec![outside]].concat());
    }

    /// Ways that fragments can lie: flags of every kind in two and three of them, lengths beside multiples of 8, one
    /// within another, and a message that begins late.
    fn ways_to_fill(&mut self) {
        let packet = self.whole((4, UDP), 40);
        let pieces = cut(&packet, &[16, 32], &mut self.random);
        for more in 0..8 {
            let mut pieces = pieces.clone();
            for (i, piece) in pieces.iter_mut().enumerate() {
                let (flag, offset) = (if more >> i & 1 == 1 { MORE } else { 0 }, start_of(piece) / 8);
                set_flags(piece, flag | offset as u16);
            }
            let list = self.listed(&pieces);
            for order in ORDERS {
                self.list_again(&order.map(|i| list[i]));
            }
            self.list_again(&list[..2]);
            self.list_again(&list[1..]);
        }
        for (i, length) in
            [0, 1, 2].into_iter().flat_map(|i| [1, 7, 8, 9, 15, 16, 17, 23, 24].map(|length| (i, length)))
        {
            let mut pieces = pieces.clone();
            set_length(&mut pieces[i], length);
            self.listed(&pieces);
        }
        for (i, offset) in [0, 1, 2].into_iter().flat_map(|i| [0, 1, 2, 3, 4, 5, 6, 0x1000, 0x1FFF].map(|to| (i, to))) {
            for more in [0, MORE] {
                let mut pieces = pieces.clone();
                set_flags(&mut pieces[i], more | offset);
                self.listed(&pieces);
            }
        }
        for (offset, more) in [0, 1, 8187, 8188, 8189, 8190, 8191].into_iter().flat_map(|to| [(to, 0), (to, MORE)]) {
            for length in [0, 1, 3, 4, 11, 12, 20] {
                let mut piece = piece(&packet, 0..20, &mut self.random);
                set_length(&mut piece, length);
                set_flags(&mut piece, more | offset);
                self.listed(&[piece]);
            }
        }
    }

    /// Datagrams that end within each fragment, at each border and at the message's end, even and odd: the right sum,
    /// and the sums that mistakes about the end lead to. Lengths below 8 and past the message.
    fn datagram_ends(&mut self) {
        for datagram in 8..=40 {
            let packet =
                Shape { trailing: 40 - datagram, ..Shape::plain((4, UDP), datagram - 8) }.good(&mut self.random);
            let mut pieces = cut(&packet, &[8, 16, 24], &mut self.random);
            for mistake in &MISTAKES {
                let (view, mut packet) = (View::new(&packet), packet.clone());
                write_word(&mut packet, view.field_place(), mistake.field(&view).0);
                pieces.push(piece(&packet, 0..8, &mut self.random));
            }
            let (buffer, list) = self.scattered(&pieces);
            self.list(&buffer, &[list[3], list[0], list[2], list[1]]);
            for first in &list[4..] {
                self.list_again(&[list[2], list[1], *first, list[3]]);
            }
        }
        for length in [0, 1, 7, 8, 39, 40, 41, 48, 65_515, 65_535] {
            let mut packet = self.whole((4, UDP), 40);
            write_word(&mut packet, 24, length);
            refresh(&mut packet, 4);
            for places in [&[][..], &[8], &[32], &[8, 16, 24, 32]] {
                let pieces = cut(&packet, places, &mut self.random);
                self.listed(&pieces);
            }
        }
    }

    /// Every data offset, in fragments of 8 bytes and longer ones: it stands in the second or in the first. Messages of
    /// each length below 25 in fragments of 8 bytes, as they are and with a flaw.
    fn data_offsets_in_fragments(&mut self) {
        for length in [20, 24, 41, 60] {
            let mut packet = self.whole((4, TCP), length);
            for offset in 0..16 {
                packet[32] = offset << 4 | self.random.between(0, 15) as u8;
                refresh(&mut packet, 4);
                for places in [&[8, 16][..], &[16]] {
                    let mut pieces = cut(&packet, places, &mut self.random);
                    shuffle(&mut pieces, &mut self.random);
                    self.listed(&pieces);
                }
            }
        }
        for (kind, length) in KINDS.into_iter().flat_map(|kind| (1..=24).map(move |length| (kind, length))) {
            let mut packet = self.whole(kind, 24);
            set_length(&mut packet, length);
            if kind.1 == UDP && length >= 8 {
                write_word(&mut packet, 24, length as u16);
            }
            refresh(&mut packet, 4);
            let mut pieces = cut(&packet, &every(8, length), &mut self.random);
            self.listed(&pieces);
            spoil_pieces(&mut pieces, UNFILLED[length % UNFILLED.len()], &mut self.random);
            self.listed(&pieces);
        }
    }

    /// Headers of each length beside each other, tails of each kind, every pair of other flags, lifetimes of 0 and 255.
    fn what_may_differ(&mut self) {
        for (words, kind) in (5..16).flat_map(|words| KINDS.map(|kind| (words, kind))) {
            let packet = self.whole(kind, 45);
            let mut pieces: Vec<Piece> = [(0..16, words), (16..32, 20 - words), (32..45, 5)]
                .into_iter()
                .map(|(part, words)| piece_of(&packet, part, words, &mut self.random))
                .collect();
            let tail = self.random.contents(words);
            pieces[words % 3].extend(tail);
            for (piece, lifetime) in pieces.iter_mut().zip([0, 255, words as u8]) {
                piece[8] = lifetime;
                refresh_header(piece);
            }
            self.listed(&pieces);
        }
        for flags in 0..64 {
            let packet = self.whole((4, ICMP), 33);
            let mut pieces = cut(&packet, &[8, 24], &mut self.random);
            for (i, piece) in pieces.iter_mut().enumerate() {
                let word = View::new(piece).word(6) & 0x3FFF;
                set_flags(piece, word | (flags >> (2 * i) & 3) << 14);
            }
            self.listed(&pieces);
        }
    }

    /// Records that share bytes: one that has another as its tail, one that lies in another's message, one that goes on
    /// to the buffer's end, and the same one twice.
    fn shared_bytes(&mut self) {
        for kind in KINDS {
            let packet = self.whole(kind, 50);
            let pieces = cut(&packet, &[16, 32], &mut self.random);
            let (buffer, list) = in_a_row(&pieces);
            let to_the_end: Vec<Record> =
                list.iter().map(|r| Record { length: buffer.len() as u64 - r.offset, ..*r }).collect();
            self.list(&buffer, &to_the_end);
            self.list_again(&[to_the_end[2], to_the_end[0], to_the_end[1]]);
            self.list_again(&[list[0], to_the_end[1], list[2]]);
            self.list_again(&[list[0], list[1], list[2], to_the_end[0]]);
            self.list_again(&[list[0], list[0], list[2]]);
            self.list_again(&[to_the_end[0]; 3]);
            self.nested(kind, 0);
            self.nested(kind, 1);
        }
    }

    /// The last fragment is part of the first one's message.
    fn nested(&mut self, kind: (u8, u8), damage: u8) {
        let mut packet = self.whole(kind, 104);
        let last = piece_of(&packet, 96..104, 5, &mut self.random);
        packet[20 + 40..][..last.len()].copy_from_slice(&last);
        refresh(&mut packet, 4);
        packet[20 + 30] ^= damage;
        let first = piece(&packet, 0..96, &mut self.random);
        let within = View::new(&first).header_length() + 40;
        self.list(&first, &[record(0, first.len()), record(within, last.len())]);
        self.list_again(&[record(within, last.len()), record(0, first.len())]);
        self.list_again(&[record(0, within + 27), record(within, last.len())]);
    }

    /// Messages of 65,515 bytes, one less and one more in 64 fragments, in two orders: one whose fragments lie apart, as it
    /// is and with a damaged one, and others whose fragments share most of their bytes.
    fn longest_messages(&mut self) {
        let packet = self.whole((4, UDP), LONGEST);
        let mut pieces = cut(&packet, &every(1024, LONGEST), &mut self.random);
        shuffle(&mut pieces, &mut self.random);
        let damaged = self.with_damaged(&mut pieces);
        let mut list = self.listed_but_last(&pieces);
        list.swap_remove(damaged);
        self.list_again(&list);
        for (protocol, length) in [(UDP, LONGEST), (TCP, LONGEST - 1), (ICMP, LONGEST), (ICMP, LONGEST + 1)] {
            let (buffer, mut list) = self.overlaid((4, protocol), length);
            self.list(&buffer, &list);
            list.reverse();
            self.list_again(&list);
        }
    }

    /// A message in 64 fragments of 1,024 bytes, the last one shorter. Their headers stand in a row, the first fragment's
    /// at its end, and what a fragment carries goes on through the headers behind its own: so the buffer is short. The sum
    /// is made right by the first fragment's last word, which no other has.
    fn overlaid(&mut self, kind: (u8, u8), length: usize) -> (Vec<u8>, Vec<Record>) {
        let size = 1024;
        let packet = self.whole(kind, size + 8);
        let (mut buffer, mut list) = (Vec::new(), Vec::new());
        for start in (0..MOST).map(|i| i * size).rev() {
            let mut header = piece_of(&packet, 0..size, 5, &mut self.random);
            header.truncate(20);
            let (end, more) = (20 + size.min(length - start), if start + size < length { MORE } else { 0 });
            write_word(&mut header, 2, end as u16);
            set_flags(&mut header, more | (start / 8) as u16);
            list.push(record(buffer.len(), end));
            buffer.extend(header);
        }
        let message = buffer.len();
        buffer.extend(&View::new(&packet).message()[..size]);
        if kind.1 == UDP {
            write_word(&mut buffer, message + 4, length as u16);
        }
        let last = buffer.len() - 2;
        write_word(&mut buffer, last, 0);
        let whole = Bundle::new(list.iter().filter_map(|record| record.within(&buffer))).whole();
        let Field(missing) = field(fold(total(&View::new(&whole).covered_block())));
        write_word(&mut buffer, last, missing);
        (buffer, list)
    }

    /// The first fragment stands at the buffer's start, so that the lifetime edit takes it: afterwards the answer is the
    /// same. A damaged header stays so.
    fn lifetimes_lowered_first(&mut self) {
        for (kind, damage) in KINDS.into_iter().flat_map(|kind| [0, 1, 2].map(|damage| (kind, damage))) {
            let packet = self.whole(kind, 60);
            let mut pieces = cut(&packet, &[16, 48], &mut self.random);
            pieces[0][8] = 3;
            refresh_header(&mut pieces[0]);
            match damage {
                1 => pieces[0][HEADER_FIELD] ^= 4,
                2 => pieces[2].iter_mut().last().into_iter().for_each(|byte| *byte ^= 4),
                _ => {}
            }
            let (buffer, list) = in_a_row(&pieces);
            self.list(&buffer, &list);
            for _ in 0..3 {
                self.left(LIFETIME, 0, &[]);
                self.left(FRAGMENTS, 0, &list_payload(&list));
            }
            self.left(MEND, 0, &[]);
            self.left(FRAGMENTS, 0, &list_payload(&list));
        }
    }

    /// Fragments of any packet, now and then many or long, with up to three flaws, in any order, and perhaps a record
    /// outside the buffer; then some of them again.
    pub fn any_fragments(&mut self) {
        let kind = self.random.pick(&KINDS);
        let faults: Vec<Fault> = faults_of(kind).into_iter().filter(|fault| OF_MESSAGE.contains(fault)).collect();
        let faults = if self.random.once_in(3) { vec![self.random.pick(&faults)] } else { vec![] };
        let most = self.random.pick(&[1, 2, 3, 3, 4, 4, 5, 10]);
        let mut pieces = self.pieces(kind, &faults, most);
        for _ in 0..self.random.pick(&[0, 0, 0, 1, 1, 1, 2, 3]) {
            let flaws: Vec<Flaw> = ALONE.into_iter().chain(MISFITS).chain(UNFILLED).chain(UNFILLED).collect();
            let flaw = self.random.pick(&flaws);
            if pieces.iter().all(|piece| piece.len() >= 20) && pieces.len() < MOST {
                spoil_pieces(&mut pieces, flaw, &mut self.random);
            }
        }
        let mut list = self.listed(&pieces);
        if self.random.once_in(12) {
            let (any, back) = (self.random.any(), self.random.between(1, 40) as u64);
            let length = self.random.between(0, 60) as u64;
            let anywhere = Record { offset: any >> self.random.between(0, 63), length };
            let wrapping = Record { offset: 0_u64.wrapping_sub(back), length: back + length };
            list.insert(self.random.between(0, list.len()), self.random.pick(&[anywhere, wrapping]));
        }
        for _ in 0..self.random.between(0, 3) {
            shuffle(&mut list, &mut self.random);
            if self.random.once_in(4) {
                list.pop();
            }
            self.list_again(&list);
        }
    }

    /// A message of any length in any number of fragments, in two orders, right or damaged in one byte; now and then one
    /// of them is refused by itself.
    pub fn any_long_fragments(&mut self) {
        let (kind, longest) = (self.random.pick(&KINDS), self.random.pick(&[600, 600, 2000, 9000, LONGEST]));
        let count =
            if self.random.once_in(2) { MOST } else { self.random.between(2, MOST) } + self.random.between(0, 1);
        let length = self.random.between((longest / 2).max(8 * count), longest);
        let mut packet = self.whole(kind, length);
        if self.random.once_in(2) {
            let place = 20 + self.random.between(0, length - 1);
            packet[place] ^= 1 << self.random.between(0, 7);
        }
        let bytes = (length / count + 8) / 8 * 8;
        let places = if length < 2000 { any_places(length, count - 1, &mut self.random) } else { every(bytes, length) };
        let mut pieces = cut(&packet, &places, &mut self.random);
        shuffle(&mut pieces, &mut self.random);
        if self.random.once_in(4) {
            let (at, flaw) = (self.random.between(0, pieces.len() - 1), self.random.pick(&ALONE));
            spoil_piece(&mut pieces[at], &[flaw], &mut self.random);
        }
        let mut list = self.listed(&pieces);
        shuffle(&mut list, &mut self.random);
        self.list_again(&list);
    }
}
