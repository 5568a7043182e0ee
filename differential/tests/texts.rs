//! The model's test of a text, written from RFC 3629's table, against the standard library's.

use differential::tape::ill_formed;

fn agree(text: &[u8]) {
    let control = text.iter().any(|b| *b < 0x20 || *b == 0x7F);
    let well_formed = std::str::from_utf8(text).is_ok() && !control;
    assert_eq!(ill_formed(text, &[]).is_none(), well_formed, "{text:02X?}");
}

#[test]
fn every_text_of_up_to_three_bytes() {
    agree(&[]);
    for a in 0..=255 {
        agree(&[a]);
        for b in 0..=255 {
            agree(&[a, b]);
            (0..=255).for_each(|c| agree(&[a, b, c]));
        }
    }
}

/// The bytes at which a row of the table begins or ends, and those beside them.
#[test]
fn texts_of_four_and_five_bytes_at_the_ends_of_the_ranges() {
    let at = [
        0x00, 0x1F, 0x20, 0x41, 0x7E, 0x7F, 0x80, 0x8F, 0x90, 0x9F, 0xA0, 0xBF, 0xC0, 0xC1, 0xC2, 0xDF, 0xE0, 0xE1,
        0xEC, 0xED, 0xEE, 0xEF, 0xF0, 0xF1, 0xF3, 0xF4, 0xF5, 0xFF,
    ];
    for a in at {
        for b in at {
            for c in at {
                for d in at {
                    agree(&[a, b, c, d]);
                    agree(&[b'x', a, b, c, d]);
                }
            }
        }
    }
}

#[test]
fn a_character_across_a_border_is_told_apart() {
    assert_eq!(ill_formed(b"K\xC3", b"\xBCche"), Some("character cut by a text's border"));
    assert_eq!(ill_formed(b"K\xC3", b"che"), Some("character cut at a text's end"));
    assert_eq!(ill_formed("Küche".as_bytes(), b"\xBC"), None);
}
