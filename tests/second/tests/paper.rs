// The paper's twelve marked examples and its capture of 37 bytes.

use second::capture::{judge_capture, printed};
use second::edit::lower_lifetime;
use second::judge::judge;
use second::mend::{computed_message_field, mend};
use second::packet::View;
use second::sums::*;

const EIGHT: [u8; 8] = [0x00, 0x01, 0xF2, 0x03, 0xF4, 0xF5, 0xF6, 0xF7];

fn field_of(bytes: &[u8]) -> u16 {
    field(fold(total(bytes))).0
}

#[test]
fn examples_1_to_4_fields() {
    assert_eq!(field_of(&[]), 0xFFFF);
    assert_eq!(field_of(&[0, 0]), 0xFFFF);
    assert_eq!(field_of(&[0xFF, 0xFF]), 0x0000);
    assert_eq!(field_of(&[0xAB]), 0x54FF);
}

#[test]
fn examples_5_to_7_folds_joined_and_exchanged() {
    assert_eq!(fold(total(&EIGHT)), Fold(0xDDF2));
    assert_eq!(field_of(&EIGHT), 0x220D);
    let (three, five) = (partial(&EIGHT[..3]), partial(&EIGHT[3..]));
    assert_eq!(three, Partial { fold: Fold(0xF201), length: 3 });
    assert_eq!(five, Partial { fold: Fold(0xF0EB), length: 5 });
    assert_eq!(join(three, five), (0, Partial { fold: Fold(0xDDF2), length: 8 }));
    assert_eq!(join(three, five).1, partial(&EIGHT));
    let low_first: Vec<u8> = EIGHT.chunks(2).flat_map(|word| [word[1], word[0]]).collect();
    assert_eq!(fold(total(&low_first)), Fold(0xF2DD));
}

#[test]
fn examples_8_and_9_updates() {
    assert_eq!(update(Field(0xDD2F), Fold(0x5555), Fold(0x3285)), Field(0x0000));
    assert_eq!(update(Field(0xEDCB), Fold(0x1234), Fold(0x0000)), Field(0x0000));
    assert_eq!(field_of(&[0, 0]), 0xFFFF);
}

const HEADER: [u8; 20] = [0x45, 0, 0, 0x73, 0, 0, 0x40, 0, 0x40, 0x11, 0, 0, 0xC0, 0xA8, 0, 1, 0xC0, 0xA8, 0, 0xC7];

#[test]
fn example_10_header() {
    let mut packet = HEADER.to_vec();
    packet.resize(0x73, 0);
    (packet[24], packet[25]) = (0, 0x5F);
    assert_eq!(mend(&mut packet), 0);
    assert_eq!(packet[10..12], [0xB8, 0x61]);
    assert_eq!(lower_lifetime(&mut packet), 0);
    assert_eq!((packet[8], &packet[10..12]), (0x3F, &[0xB9, 0x61][..]));
    assert_eq!(judge(&packet), 1);
}

#[test]
fn example_11_udp() {
    for (data, computed, sent) in [([0x48, 0x69], 0x0E47, 0x0E47), ([0x56, 0xB0], 0x0000, 0xFFFF_u16)] {
        let mut packet = HEADER.to_vec();
        packet[3] = 30;
        packet.extend([0x13, 0x88, 0x13, 0x89, 0x00, 0x0A, 0x12, 0x34]);
        packet.extend(data);
        assert_eq!(computed_message_field(&View::new(&packet)), Field(computed));
        assert_eq!(mend(&mut packet), 0);
        assert_eq!(packet[26..28], sent.to_be_bytes());
        assert_eq!(judge(&packet), 0);
    }
}

#[test]
fn example_12_icmpv6() {
    let mut packet = vec![0x60, 0, 0, 0, 0, 8, 58, 64];
    packet.extend([[0; 15].as_slice(), &[1], &[0; 15], &[1]].concat());
    packet.extend([0x80, 0, 0, 0, 0, 1, 0, 1]);
    assert_eq!(mend(&mut packet), 0);
    assert_eq!(packet[42..44], [0x7F, 0xB9]);
    assert_eq!(judge(&packet), 0);
}

#[test]
fn the_capture_and_its_printed_lines() {
    let mut capture = b"GLR\x00\x01\x00\x00\x00\x1C".to_vec();
    capture.extend([0x45, 0, 0, 0x1C, 0, 0, 0, 0, 0x40, 1, 0x66, 0xDF, 0x0A, 0, 0, 1, 0x0A, 0, 0, 2]);
    capture.extend([8, 0, 0xF7, 0xFD, 0, 1, 0, 1]);
    assert_eq!(capture.len(), 37);
    assert_eq!(printed(&capture), "record 1 verdict 2\nrecord 2 verdict 0\nrecords 2 good 1 unsummed 0 refused 1\n");
    let mut verdicts = [0xA5; 4];
    assert_eq!(judge_capture(&capture, &mut verdicts), (0, 2));
    assert_eq!(verdicts, [2, 0, 0xA5, 0xA5]);
    assert_eq!(judge_capture(&capture, &mut [0xA5]), (16, 0));
    capture.push(0);
    assert_eq!(printed(&capture), "record 1 verdict 2\nrecord 2 verdict 0\nstopped 15 after 2\n");
    assert_eq!(judge_capture(&capture, &mut []), (15, 0));
    assert_eq!(printed(b"GLR\x00\x02"), "stopped 14 after 0\n");
    assert_eq!(printed(b"GL"), "stopped 13 after 0\n");
}
