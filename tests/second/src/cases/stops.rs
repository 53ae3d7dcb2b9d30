// Cases on what stops the walk over IPv6's headers between: alone, twice in one header, and in two headers, of which the
// first met counts; and about the payload's end.

use super::between::{KINDS, NEXT};
use super::captures::capture;
use super::Maker;
use crate::answer::*;
use crate::between::{length_of, put_between, Link};
use crate::draft::{spoil, write_word, Fault, Shape};
use crate::packet::{View, TCP, UDP};
use crate::prefix::{address_place, SIX};
use crate::walk::{Stop, BETWEEN, FRAGMENT_HEADER, HOP_BY_HOP, MOST, OPTIONS, ROUTING};

pub const STOPS: [Stop; 5] = [Stop::Fragment, Stop::Late, Stop::Ninth, Stop::Reach, Stop::SegmentsLeft];

/// How a header comes to be past the payload.
#[derive(Clone, Copy)]
enum Past {
    /// The payload ends before the header's last byte.
    OneByte,
    /// The payload ends within its first 8 bytes, or before them.
    Under8,
    /// Its own length goes past, by 8 bytes at most.
    Length,
}

const PASTS: [Past; 3] = [Past::OneByte, Past::Under8, Past::Length];

impl Maker {
    pub fn stopped_walks(&mut self) {
        self.single_stops();
        self.stops_in_one_header();
        self.stops_in_two_headers();
        self.stops_before_others();
        self.lifetimes_between();
        self.nothing_at_all();
        self.left_of_the_payload();
        self.around_the_payloads_end();
        self.nothing_behind();
        self.records_between();
    }

    /// Prefix exchanges where the walk is stopped, for one thing, for two or three, and beside other faults, a word of
    /// FFFF among them.
    pub fn exchanges_where_stopped(&mut self) {
        self.single_stops();
        self.stops_in_one_header();
        self.stops_in_two_headers();
        self.stops_before_others();
        self.nothing_at_all();
        for stop in STOPS {
            let (mut base, at) = (self.base(), if stop == Stop::Ninth { MOST } else { 1 });
            for side in [0, 1] {
                write_word(&mut base, address_place(side) + SIX, 0xFFFF);
            }
            let packet = self.stopped(&base, &[(at, stop)], Past::OneByte);
            self.each_call(&packet);
        }
    }

    /// A packet with headers between of which some stop the walk, each by its place in the list. A ninth header stops it
    /// by its place alone.
    fn stopped(&mut self, base: &[u8], stops: &[(usize, Stop)], past: Past) -> Vec<u8> {
        let last = stops.iter().map(|(at, _)| *at).max().unwrap_or(0);
        let more = if last + 1 < MOST { self.random.between(0, 1) } else { 0 };
        let mut links = self.any_links(last + 1 + more);
        for (at, stop) in stops {
            let units = self.random.pick(&[0, 1, 2]);
            match stop {
                Stop::Fragment => links[*at] = Link::of(FRAGMENT_HEADER, 0, &mut self.random),
                Stop::Late => links[*at] = Link::of(HOP_BY_HOP, units, &mut self.random),
                Stop::SegmentsLeft => {
                    links[*at] = Link::of(ROUTING, units, &mut self.random);
                    links[*at].bytes[3] = self.random.pick(&[1, 1, 2, 128, 255]);
                }
                Stop::Ninth | Stop::Reach => {}
            }
        }
        let mut packet = base.to_vec();
        put_between(&mut packet, &links);
        if let Some((at, _)) = stops.iter().find(|(_, stop)| *stop == Stop::Reach) {
            let place = 40 + length_of(&links[..*at]);
            self.put_past(&mut packet, place, links[*at].bytes.len(), past);
        }
        packet
    }

    /// Makes the header at a place be past the payload.
    fn put_past(&mut self, packet: &mut [u8], place: usize, length: usize, past: Past) {
        let end = match past {
            Past::OneByte => place + length - 1,
            Past::Under8 => place + self.random.between(0, 7),
            Past::Length => {
                packet[place + 1] = ((View::read_as(packet, 6).end() - place) / 8) as u8;
                return;
            }
        };
        write_word(packet, 4, (end - 40) as u16);
    }

    /// A good packet that nothing stands between in, with 4 to 12 bytes of body.
    fn base(&mut self) -> Vec<u8> {
        let (kind, body) = (self.random.pick(&KINDS), self.random.between(4, 12));
        Shape::plain(kind, body).good(&mut self.random)
    }

    /// Each that stops the walk, at each place where it can be, before a message that is good.
    fn single_stops(&mut self) {
        for (stop, at) in STOPS.into_iter().flat_map(|stop| (0..=MOST).map(move |at| (stop, at))) {
            let can_be = match stop {
                Stop::Late => (1..MOST).contains(&at),
                Stop::Ninth => at == MOST,
                _ => at < MOST,
            };
            for past in PASTS.into_iter().filter(|_| can_be).take(if stop == Stop::Reach { 3 } else { 1 }) {
                let base = self.base();
                let packet = self.stopped(&base, &[(at, stop)], past);
                self.each_call(&packet);
            }
        }
    }

    /// Two or three that stop the walk in one header, which is the first that does.
    fn stops_in_one_header(&mut self) {
        use Stop::*;
        let together: [(&[Stop], &[usize]); 11] = [
            (&[Fragment, Ninth], &[8]),
            (&[Fragment, Reach], &[0, 1, 7]),
            (&[Fragment, Ninth, Reach], &[8]),
            (&[Late, Ninth], &[8]),
            (&[Late, Reach], &[1, 4, 7]),
            (&[Late, Ninth, Reach], &[8]),
            (&[Ninth], &[8]),
            (&[Ninth, Reach], &[8]),
            (&[Ninth, SegmentsLeft], &[8]),
            (&[Ninth, Reach, SegmentsLeft], &[8]),
            (&[Reach, SegmentsLeft], &[0, 1, 7]),
        ];
        for (stops, places) in together {
            for (at, past) in places.iter().flat_map(|at| PASTS.map(|past| (*at, past))) {
                let (base, stops) = (self.base(), stops.iter().map(|stop| (at, *stop)).collect::<Vec<_>>());
                let packet = self.stopped(&base, &stops, past);
                self.each_call(&packet);
            }
        }
    }

    /// Two headers that stop the walk, next to each other and apart. Behind one that is past the payload the other is in
    /// the tail.
    fn stops_in_two_headers(&mut self) {
        for (one, other) in STOPS.into_iter().flat_map(|one| STOPS.map(|other| (one, other))) {
            if (one, other) == (Stop::Ninth, Stop::Ninth) {
                continue;
            }
            for (distance, past) in [(1, Past::OneByte), (1, Past::Under8), (2, Past::OneByte), (3, Past::Under8)] {
                let at = match (one, other) {
                    (Stop::Ninth, _) => MOST,
                    (_, Stop::Ninth) => MOST - distance,
                    _ => self.random.between(1, MOST - 1 - distance),
                };
                let base = self.base();
                let packet = self.stopped(&base, &[(at, one), (at + distance, other)], past);
                self.each_call(&packet);
            }
        }
    }

    /// What stops the walk, beside what is wrong behind it, and beside what is asked before.
    fn stops_before_others(&mut self) {
        use Fault::*;
        for (stop, fault) in STOPS.into_iter().flat_map(|stop| {
            [MessageLength, InnerLength, Zero, MessageSum, Protocol, Spent, Version, Declared, Under].map(|f| (stop, f))
        }) {
            let at = if stop == Stop::Ninth { MOST } else { self.random.between(1, 3) };
            let (first, body) = (stop != Stop::Late && fault == Under, self.random.between(4, 12));
            let mut base = Shape::plain((6, UDP), body).good(&mut self.random);
            if ![Declared, Under].contains(&fault) {
                spoil(&mut base, 6, &[fault], &mut self.random);
            }
            let mut packet = self.stopped(&base, &[(if first { 0 } else { at }, stop)], Past::OneByte);
            match fault {
                Declared => packet.truncate(View::new(&packet).end() - 1),
                Under => packet.truncate(self.random.pick(&[7, 24, 39])),
                _ => {}
            }
            self.every_operation(&packet, 6);
        }
    }

    /// The lifetime edit, which doesn't walk, where the walk is stopped, and where it isn't.
    fn lifetimes_between(&mut self) {
        for stop in STOPS {
            let (base, at) = (self.base(), if stop == Stop::Ninth { MOST } else { self.random.between(1, 5) });
            let packet = self.stopped(&base, &[(at, stop)], Past::OneByte);
            self.lowered(&packet);
            self.in_turn(&packet);
        }
        for kind in KINDS {
            let packet = self.behind_any(kind, 2);
            self.lowered(&packet);
        }
    }

    /// Nothing but the fixed header, which says that a header follows.
    fn nothing_at_all(&mut self) {
        for number in BETWEEN {
            let mut packet = Shape::plain((6, UDP), 0).good(&mut self.random);
            packet.truncate(40);
            write_word(&mut packet, 4, 0);
            packet[6] = number;
            self.every_operation(&packet, 6);
        }
    }

    /// Headers with 0 to 7 bytes left of the payload, and a fragment header too, which is 6 before that; with the rest in
    /// the tail, or without a tail.
    fn left_of_the_payload(&mut self) {
        for (number, left) in BETWEEN.into_iter().flat_map(|number| (0..8).map(move |left| (number, left))) {
            let before = if number == HOP_BY_HOP { 0 } else { self.random.pick(&[0, 1, 1, MOST - 1]) };
            let mut links = self.any_links(before);
            links.push(Link::of(number, 0, &mut self.random));
            let mut packet = self.behind((6, UDP), &links);
            let end = 40 + length_of(&links) - 8 + left;
            write_word(&mut packet, 4, (end - 40) as u16);
            self.each_call(&packet);
            self.given(JUDGE, 0, &packet[..end], &[]);
            self.again(MEND, 0, &[]);
        }
    }

    /// Headers whose length fits the payload, or goes past it by one byte, by a unit, or by all it can say.
    fn around_the_payloads_end(&mut self) {
        for (number, units) in [HOP_BY_HOP, ROUTING, OPTIONS].into_iter().flat_map(|n| [0, 1, 5, 255].map(|u| (n, u))) {
            let before = if number == HOP_BY_HOP { 0 } else { self.random.between(0, 2) };
            let mut links = self.any_links(before);
            links.push(Link::of(number, units, &mut self.random));
            let kind = if units % 2 == 0 { (6, UDP) } else { (6, TCP) };
            let packet = self.behind(kind, &links);
            let behind = 40 + length_of(&links);
            for missing in [0, 1, 8] {
                let mut packet = packet.clone();
                write_word(&mut packet, 4, (behind - missing - 40) as u16);
                if self.random.once_in(2) {
                    packet.truncate(behind - missing);
                }
                self.each_call(&packet);
            }
            let (mut longer, place) = (packet.clone(), behind - 8 - 8 * usize::from(units));
            for said in [(packet.len() - place) / 8, 255].map(|said| said.min(255) as u8) {
                longer[place + 1] = said;
                self.each_call(&longer);
            }
        }
    }

    /// A payload that ends just behind a header, which says that anything follows.
    fn nothing_behind(&mut self) {
        for (count, next) in
            [1, 2, MOST].into_iter().flat_map(|n| NEXT.into_iter().chain([6, 17, 58]).map(move |x| (n, x)))
        {
            let mut packet = self.behind_any((6, UDP), count);
            let (end, said_at) = (View::new(&packet).message_start(), View::new(&packet).protocol_place());
            write_word(&mut packet, 4, (end - 40) as u16);
            packet[said_at] = next;
            if self.random.once_in(2) {
                packet.truncate(end);
            }
            self.given(JUDGE, 0, &packet, &[]);
            self.again(MEND, 0, &[]);
            let address = self.random.bytes(16);
            self.again(ADDRESS, 0, &address);
            self.again(STRETCH, 0, &[]);
        }
    }

    /// Captures whose records have headers between.
    fn records_between(&mut self) {
        let mut records: Vec<Vec<u8>> = KINDS.map(|kind| self.behind_any(kind, 2)).to_vec();
        for stop in STOPS {
            let (base, at) = (self.base(), if stop == Stop::Ninth { MOST } else { 1 });
            records.push(self.stopped(&base, &[(at, stop)], Past::OneByte));
        }
        for fault in [Fault::Zero, Fault::MessageSum, Fault::MessageLength, Fault::Declared] {
            let mut packet = Shape::any_behind((6, UDP), 7, &mut self.random).good(&mut self.random);
            spoil(&mut packet, 6, &[fault], &mut self.random);
            records.push(packet);
        }
        self.rooms(&capture(&records));
        records.reverse();
        self.rooms(&capture(&records[..7]));
    }

    /// One to three that stop the walk, all in one header or anywhere, and often about the ninth header.
    pub fn any_stopped(&mut self, base: &[u8]) -> Vec<u8> {
        let (together, mut stops) = (self.random.once_in(2), Vec::new());
        let mut place = self.any_place();
        for _ in 0..self.random.between(1, 3) {
            let stop = self.random.pick(&STOPS);
            stops.push((if stop == Stop::Ninth { MOST } else { place }, stop));
            if !together {
                place = self.any_place();
            }
        }
        let past = self.random.pick(&PASTS);
        self.stopped(base, &stops, past)
    }

    /// A header's place in the list.
    fn any_place(&mut self) -> usize {
        let last = self.random.pick(&[MOST - 1, MOST, MOST + 1]);
        if self.random.once_in(2) {
            last
        } else {
            self.random.between(0, last)
        }
    }
}
