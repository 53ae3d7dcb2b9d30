// Cases on captures: whole ones, damaged ones, faults at once, and verdict buffers of several sizes.

use super::Maker;
use crate::answer::*;
use crate::capture::whole_records;
use crate::draft::{faults_of, spoil, Shape, KINDS};
use crate::packet::{ICMP, UDP};

const HEAD: &[u8] = b"GLR\x00\x01";

#[rustfmt::skip]
const PAPER: [u8; 37] = [
    0x47, 0x4C, 0x52, 0x00, 0x01, 0x00, 0x00, 0x00, 0x1C, 0x45, 0x00, 0x00, 0x1C, 0x00, 0x00, 0x00, 0x00, 0x40, 0x01,
    0x66, 0xDF, 0x0A, 0x00, 0x00, 0x01, 0x0A, 0x00, 0x00, 0x02, 0x08, 0x00, 0xF7, 0xFD, 0x00, 0x01, 0x00, 0x01,
];

impl Maker {
    pub fn captures(&mut self) {
        self.rooms(&PAPER);
        self.cut_everywhere(&PAPER);
        let records = self.one_of_each();
        self.cut_everywhere(&capture(&records[..10]));
        let whole = capture(&records);
        self.rooms(&whole);
        self.rooms(&capture(&vec![vec![]; 40]));
        self.heads();
        self.long_records();
        for _ in 0..20 {
            self.any_capture();
        }
    }

    /// A capture judged with room for no verdict, one too few, just enough, and more; and its printed lines.
    pub fn rooms(&mut self, capture: &[u8]) {
        let count = whole_records(capture).0.len() as u64;
        self.given(PRINTED, 0, capture, &[]);
        for places in [0, count.saturating_sub(1), count, count + 1, count + 9] {
            self.again(CAPTURE, places, &[]);
        }
    }

    fn cut_everywhere(&mut self, capture: &[u8]) {
        for length in 0..=capture.len() {
            self.given(PRINTED, 0, &capture[..length], &[]);
            for places in [0, 2, 20] {
                self.again(CAPTURE, places, &[]);
            }
        }
    }

    /// A packet for a record: good, faulty, rubbish or empty.
    fn record(&mut self) -> Vec<u8> {
        let kind = self.any_kind();
        let mut packet = self.any_good(kind);
        match self.random.between(0, 7) {
            0 => packet.clear(),
            1 => packet = self.random.contents(30),
            2..=4 => {
                let fault = self.random.pick(&faults_of(kind));
                spoil(&mut packet, kind.0, &[fault], &mut self.random);
            }
            _ => {}
        }
        packet
    }

    /// Records of every verdict, in small packets.
    fn one_of_each(&mut self) -> Vec<Vec<u8>> {
        let mut records = vec![vec![]];
        for kind in KINDS {
            let good = Shape::plain(kind, 1).good(&mut self.random);
            records.push(good.clone());
            for fault in faults_of(kind) {
                let mut packet = good.clone();
                spoil(&mut packet, kind.0, &[fault], &mut self.random);
                records.push(packet);
            }
        }
        records
    }

    /// Wrong marks, wrong editions, damage and too little room, alone and at once.
    fn heads(&mut self) {
        let (start, sound) = ([HEAD, &[0, 0]].concat(), Shape::plain((4, ICMP), 3).good(&mut self.random));
        let endings: [&[u8]; 6] = [&[], &[0], &[0, 1], &[0, 5, 1, 2, 3, 4], &[8, 1], &[0xFF, 0xFF]];
        for mark in [b"GLR", b"GLS", b"glr", b"RLG", b"\0\0\0"] {
            for edition in [[0, 1], [0, 0], [0, 2], [1, 0], [1, 1]] {
                for ending in endings {
                    let records = [&[0, sound.len() as u8][..], &sound, &[0, 0], ending].concat();
                    self.given(PRINTED, 0, &[&mark[..], &edition, &records].concat(), &[]);
                    self.again(CAPTURE, 1, &[]);
                    self.again(CAPTURE, 5, &[]);
                }
            }
        }
        for length in 0..=start.len() {
            for places in 0..start.len() {
                let mut capture = start[..length].to_vec();
                if let Some(byte) = capture.get_mut(places) {
                    *byte ^= 1;
                }
                self.given(PRINTED, 0, &capture, &[]);
                self.again(CAPTURE, 0, &[]);
                self.again(CAPTURE, 3, &[]);
            }
        }
    }

    /// Records of 2,047 to 2,049 bytes and lengths that reach past the end.
    fn long_records(&mut self) {
        let shape = Shape::plain((4, UDP), 0);
        let packets: Vec<Vec<u8>> = [2047, 2048, 2049]
            .map(|length| Shape { body: length - shape.headers(), ..shape }.good(&mut self.random))
            .to_vec();
        self.rooms(&capture(&packets[..2]));
        self.rooms(&capture(&packets[1..]));
        self.rooms(&capture(&[vec![], packets[2].clone(), vec![]]));
        for length in [2047_u16, 2048, 2049, 4096, 0x0900, 0x8000, 0xFFFF] {
            self.rooms(&[HEAD, &[0, 0], &length.to_be_bytes()].concat());
            self.rooms(&[HEAD, &length.to_be_bytes(), &packets[0]].concat());
        }
    }

    /// A capture of random records, perhaps cut or with a byte changed.
    pub fn any_capture(&mut self) {
        let records: Vec<Vec<u8>> = (0..self.random.between(0, 12)).map(|_| self.record()).collect();
        let mut capture = capture(&records);
        match self.random.between(0, 5) {
            0 => capture.truncate(self.random.between(0, capture.len())),
            1 => {
                let place = self.random.between(0, capture.len() - 1);
                capture[place] ^= 1 << self.random.between(0, 7);
            }
            _ => {}
        }
        self.rooms(&capture);
    }
}

pub fn capture(records: &[Vec<u8>]) -> Vec<u8> {
    let mut capture = HEAD.to_vec();
    for record in records {
        capture.extend((record.len() as u16).to_be_bytes());
        capture.extend(record);
    }
    capture
}
