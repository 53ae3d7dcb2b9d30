// The printed examples of RFC 1071 (section 3) and RFC 1624 (section 4).

use second::sums::*;

const BYTES: [u8; 8] = [0x00, 0x01, 0xF2, 0x03, 0xF4, 0xF5, 0xF6, 0xF7];

#[test]
fn rfc_1071_byte_by_byte_normal_order() {
    assert_eq!(total(&BYTES), 0x2DDF0);
    assert_eq!(fold(0x2DDF0), Fold(0xDDF2));
}

#[test]
fn rfc_1071_swapped_order() {
    let swapped: Vec<u8> = BYTES.chunks(2).flat_map(|word| [word[1], word[0]]).collect();
    assert_eq!(total(&swapped), 0x1F2DC);
    assert_eq!(fold(0x1F2DC), Fold(0xF2DD));
    assert_eq!(exchange(Fold(0xF2DD)), Fold(0xDDF2));
}

/// Four bytes at a time, in three orders: the sum, its halves added, and their fold.
#[test]
fn rfc_1071_grouped_sums() {
    let orders = [
        (0x0001F203, 0xF4F5F6F7, 0xF4F7E8FA, 0x1DDF1, 0xDDF2),
        (0x010003F2, 0xF5F4F7F6, 0xF6F4FBE8, 0x1F2DC, 0xF2DD),
        (0x03F20100, 0xF7F6F5F4, 0xFBE8F6F4, 0x1F2DC, 0xF2DD),
    ];
    for (first, second, sum, halves, folded) in orders {
        assert_eq!(first + second, sum);
        assert_eq!((sum >> 16) + (sum & 0xFFFF), halves);
        assert_eq!((fold(halves), fold(sum)), (Fold(folded), Fold(folded)));
    }
    assert_eq!(join(partial(&BYTES[..4]), partial(&BYTES[4..])), (0, Partial { fold: Fold(0xDDF2), length: 8 }));
}

/// Two groups, the second beginning at an odd place: its fold F0EB is exchanged to EBF0.
#[test]
fn rfc_1071_two_groups_at_an_odd_place() {
    let (first, second) = (partial(&BYTES[..3]), partial(&BYTES[3..]));
    assert_eq!((total(&BYTES[..3]), total(&BYTES[3..])), (0xF201, 0x1F0EA));
    assert_eq!((first.fold, second.fold), (Fold(0xF201), Fold(0xF0EB)));
    assert_eq!(exchange(second.fold), Fold(0xEBF0));
    assert_eq!(fold(0xF201 + 0xEBF0), Fold(0xDDF2));
    assert_eq!(join(first, second), (0, Partial { fold: Fold(0xDDF2), length: 8 }));
}

/// Equation 3 gives 0000. RFC 1141's equation gives FFFF here, which is what we don't do.
#[test]
fn rfc_1624_section_4() {
    assert_eq!(fold(0xCD7A + 0x5555), Fold(0x22D0));
    assert_eq!(field(Fold(0x22D0)), Field(0xDD2F));
    assert_eq!(update(Field(0xDD2F), Fold(0x5555), Fold(0x3285)), Field(0x0000));
    assert_eq!(field(fold(0xCD7A + 0x3285)), Field(0x0000));
    let rfc_1141 = fold(0xDD2F + 0x5555 + (0xFFFF - 0x3285));
    assert_eq!(rfc_1141, Fold(0xFFFF));
}
