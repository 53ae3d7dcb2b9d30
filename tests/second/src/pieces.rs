// Fragments for the cases: a packet cut into pieces, and flaws put into them.

use crate::draft::write_word;
use crate::fragments::*;
use crate::mend::{fresh_header_field, write_field};
use crate::packet::{View, HEADER_FIELD};
use crate::random::Random;
use std::ops::Range;

/// The more-fragments flag.
pub const MORE: u16 = 0x2000;

/// A fragment's bytes as a record has them: the packet, and perhaps a tail.
pub type Piece = Vec<u8>;

/// A fragment with a part of a packet's message. What fragments needn't share is random: options, service byte,
/// lifetime, and the two other flags.
pub fn piece(packet: &[u8], part: Range<usize>, random: &mut Random) -> Piece {
    let words = if random.once_in(4) && part.len() <= LONGEST - 40 { random.between(5, 15) } else { 5 };
    piece_of(packet, part, words, random)
}

/// The same with a header of so many words.
pub fn piece_of(packet: &[u8], part: Range<usize>, words: usize, random: &mut Random) -> Piece {
    let view = View::new(packet);
    let mut piece = random.bytes(4 * words);
    piece[0] = 0x40 | words as u8;
    for places in [IDENTIFICATION, PROTOCOL, SOURCE, DESTINATION] {
        piece[places.clone()].copy_from_slice(&packet[places]);
    }
    write_word(&mut piece, 2, (4 * words + part.len()) as u16);
    let more = if part.end < view.message_length() { MORE } else { 0 };
    write_word(&mut piece, 6, random.pick(&[0, 0x4000, 0x8000, 0xC000]) | more | (part.start / 8) as u16);
    piece.extend(&view.message()[part]);
    refresh_header(&mut piece);
    piece
}

/// A packet's message cut at these places, each a multiple of 8.
pub fn cut(packet: &[u8], places: &[usize], random: &mut Random) -> Vec<Piece> {
    let length = View::new(packet).message_length();
    let starts = [0].iter().chain(places);
    starts.zip(places.iter().chain([&length])).map(|(from, to)| piece(packet, *from..*to, random)).collect()
}

/// Every so many bytes a place, before a length.
pub fn every(bytes: usize, length: usize) -> Vec<usize> {
    (1..).map(|i| i * bytes).take_while(|place| *place < length).collect()
}

/// Up to so many places where a message of this length can be cut, in order.
pub fn any_places(length: usize, most: usize, random: &mut Random) -> Vec<usize> {
    let mut places = every(8, length);
    while places.len() > most {
        places.remove(random.between(0, places.len() - 1));
    }
    places
}

/// Makes the header field fresh, if there is one.
pub fn refresh_header(piece: &mut [u8]) {
    if View::read_as(piece, 4).header().len() >= HEADER_FIELD + 2 {
        let field = fresh_header_field(&View::read_as(piece, 4));
        write_field(piece, HEADER_FIELD, field);
    }
}

/// Writes the word with flags and offset.
pub fn set_flags(piece: &mut [u8], word: u16) {
    write_word(piece, 6, word);
    refresh_header(piece);
}

fn flags(piece: &[u8]) -> u16 {
    View::read_as(piece, 4).word(6)
}

/// Where a piece begins in the message.
pub fn start_of(piece: &[u8]) -> usize {
    start(&View::read_as(piece, 4))
}

/// Any order of things.
pub fn shuffle<T>(things: &mut [T], random: &mut Random) {
    for i in 1..things.len() {
        things.swap(i, random.between(0, i));
    }
}

/// What is wrong with fragments, named after the test that it meets.
#[derive(Clone, Copy, Debug, PartialEq, Eq)]
pub enum Flaw {
    NoBytes,
    Version,
    Under,
    HeaderLength,
    TotalLength,
    Declared,
    HeaderSum,
    Source,
    Destination,
    Protocol,
    Identification,
    Empty,
    Past,
    Gap,
    Overlap,
    Uneven,
    NoMore,
    More,
}

use Flaw::*;

/// The flaws of a fragment by itself.
pub const ALONE: [Flaw; 7] = [NoBytes, Version, Under, HeaderLength, TotalLength, Declared, HeaderSum];

/// The flaws of fragments together that are 4.
pub const MISFITS: [Flaw; 6] = [Source, Destination, Protocol, Identification, Empty, Past];

/// Those that are 6.
pub const UNFILLED: [Flaw; 5] = [Gap, Overlap, Uneven, NoMore, More];

/// The flaws of a fragment by itself, in the order of their making.
const MADE: [Flaw; 7] = [TotalLength, HeaderLength, HeaderSum, Version, Declared, Under, NoBytes];

/// Puts flaws into a fragment by itself.
pub fn spoil_piece(piece: &mut Piece, flaws: &[Flaw], random: &mut Random) {
    for flaw in MADE.iter().filter(|flaw| flaws.contains(flaw)) {
        put_alone(piece, *flaw, random);
    }
}

fn put_alone(piece: &mut Piece, flaw: Flaw, random: &mut Random) {
    let declared = View::read_as(piece, 4).end();
    match flaw {
        TotalLength if piece.len() >= 60 || random.once_in(2) => {
            piece[0] |= 15;
            piece.resize(piece.len().max(60), 0);
            write_word(piece, 2, random.between(22, 59) as u16);
            refresh_header(piece);
        }
        TotalLength => {
            write_word(piece, 2, random.between(0, 19) as u16);
            refresh_header(piece);
        }
        HeaderLength => {
            piece[0] = piece[0] & 0xF0 | random.between(0, 4) as u8;
            refresh_header(piece);
        }
        HeaderSum => piece[HEADER_FIELD] ^= 1 << random.between(0, 7),
        Version => piece[0] = piece[0] & 15 | random.pick(&[0, 1, 2, 3, 5, 6, 6, 6, 6, 7, 8, 12, 15]) << 4,
        Declared if declared > 20 => {
            let any = random.between(20, declared - 1);
            piece.truncate(random.pick(&[declared - 1, any]));
        }
        Under => {
            let any = random.between(1, 19);
            piece.truncate(random.pick(&[19, 1, any]));
        }
        NoBytes => piece.clear(),
        _ => {}
    }
}

/// Puts a flaw into fragments together, of which there are two or more, in any order. Each passes by itself.
pub fn spoil_pieces(pieces: &mut Vec<Piece>, flaw: Flaw, random: &mut Random) {
    let last = pieces.iter().map(|piece| start_of(piece)).max().unwrap_or(0);
    let mut any: Vec<usize> = (0..pieces.len()).collect();
    match flaw {
        Uneven | NoMore => any.retain(|i| start_of(&pieces[*i]) < last),
        More => any.retain(|i| start_of(&pieces[*i]) == last),
        _ => {}
    }
    if any.is_empty() {
        return;
    }
    let (chosen, at) = (random.pick(&any), random.between(0, pieces.len()));
    let (from, word) = (start_of(&pieces[chosen]), flags(&pieces[chosen]));
    match flaw {
        Source => turn_bit(&mut pieces[chosen], SOURCE, random),
        Destination => turn_bit(&mut pieces[chosen], DESTINATION, random),
        Protocol => turn_bit(&mut pieces[chosen], PROTOCOL, random),
        Identification => turn_bit(&mut pieces[chosen], IDENTIFICATION, random),
        Empty => {
            let mut empty = pieces[chosen].clone();
            set_length(&mut empty, 0);
            pieces.insert(at, empty);
        }
        Past => {
            let mut past = pieces[chosen].clone();
            let least = LONGEST.saturating_sub(View::read_as(&past, 4).message_length()) / 8 + 1;
            let offset = random.pick(&[0x1FFF, least as u16]);
            set_flags(&mut past, word & 0xE000 | offset);
            pieces.insert(at, past);
        }
        Gap => shift(pieces, from, random.between(1, 3) as i32),
        Overlap if from > 0 && random.once_in(2) => shift(pieces, from, -1),
        Overlap => {
            let again = pieces[chosen].clone();
            pieces.insert(at, again);
        }
        Uneven => {
            let length = View::read_as(&pieces[chosen], 4).message_length();
            let by = random.between(1, 7);
            let shorter = length > by && random.once_in(2);
            set_length(&mut pieces[chosen], if shorter { length - by } else { length + by });
        }
        NoMore => set_flags(&mut pieces[chosen], word & !MORE),
        More => set_flags(&mut pieces[chosen], word | MORE),
        alone => spoil_piece(&mut pieces[chosen], &[alone], random),
    }
}

/// Turns one bit, in bytes that fragments share.
fn turn_bit(piece: &mut [u8], places: Range<usize>, random: &mut Random) {
    piece[random.between(places.start, places.end - 1)] ^= 1 << random.between(0, 7);
    refresh_header(piece);
}

/// Declares another length of a piece's part of the message. What is left over is tail.
pub fn set_length(piece: &mut Piece, length: usize) {
    let end = View::read_as(piece, 4).header_length() + length;
    piece.resize(piece.len().max(end), 0xB7);
    write_word(piece, 2, end as u16);
    refresh_header(piece);
}

/// Moves the pieces from a place on by so many units.
fn shift(pieces: &mut [Piece], from: usize, units: i32) {
    for piece in pieces.iter_mut().filter(|piece| start_of(piece) >= from) {
        let word = flags(piece);
        let offset = i32::from(word & 0x1FFF) + units;
        set_flags(piece, word & 0xE000 | offset as u16 & 0x1FFF);
    }
}
