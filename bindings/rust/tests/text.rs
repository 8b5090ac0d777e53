//! Text beside the standard library's char and str: every 32-bit number that is near a scalar value, every pair of bytes, and longer texts of edge bytes, also
//! behind the first blocks of 64 bytes.
use promisebook::text::{self, Read};
use std::str::from_utf8;

/// The ends of the classes of bytes that the forms of UTF-8 tell apart.
const EDGES: [u8; 23] =
    [0x00, 0x41, 0x7f, 0x80, 0x8f, 0x90, 0x9f, 0xa0, 0xbf, 0xc0, 0xc1, 0xc2, 0xdf, 0xe0, 0xe1, 0xec, 0xed, 0xee, 0xf0, 0xf3, 0xf4, 0xf5, 0xff];

fn scalars() -> impl Iterator<Item = u32> {
    (0..0x11_0100).chain([0x7fff_ffff, 0x8000_0000, u32::MAX])
}

#[test]
fn one_scalar() {
    for c in scalars() {
        let theirs = char::from_u32(c);
        assert_eq!(text::scalar_len(c), theirs.map(char::len_utf8), "{c:x}");
        assert_eq!(text::is_white_space(c), theirs.is_some_and(char::is_whitespace), "{c:x}");
    }
}

#[test]
fn writing() {
    for c in scalars().filter(|c| c % 61 == 0 || matches!(c, 0..=0x900 | 0xd7f0..=0xe010 | 0xfff0..=0x1_0010 | 0x10_fff0..)) {
        for from in 0..8 {
            for to in 0..8 {
                let (mut ours, mut theirs) = ([0x55; 6], [0x55; 6]);
                let form = char::from_u32(c).map(|c| c.to_string().into_bytes());
                let place = form.as_ref().and_then(|form| theirs.get_mut(from..to)?.get_mut(..form.len()).map(|place| place.copy_from_slice(form)));
                let length = place.and(form.map(|form| form.len()));
                assert_eq!(text::write_in(&mut ours, from..to, c), length, "{c:x} in {from}..{to}");
                assert_eq!(ours, theirs);
                ours.fill(0x55);
                assert_eq!(ours.get_mut(from..to).and_then(|part| text::write(part, c)), length, "{c:x} in {from}..{to}");
                assert_eq!(ours, theirs);
            }
        }
    }
}

/// The one scalar value that bytes at an end of the part are the form of, by the standard library's reading of 1 to 4 bytes.
fn end_of(part: Option<&[u8]>, first: bool) -> Option<Read> {
    let part = part?;
    (1..=part.len().min(4)).find_map(|length| {
        let bytes = if first { &part[..length] } else { &part[part.len() - length..] };
        let mut read = from_utf8(bytes).ok()?.chars();
        let value = read.next()? as u32;
        read.next().is_none().then_some(Read { value, length })
    })
}

/// All that is asked of a text, beside the standard library's answers.
fn whole(s: &[u8]) {
    let theirs = from_utf8(s).ok();
    assert_eq!(text::valid(s), theirs.is_some(), "{s:x?}");
    assert_eq!(text::valid_up_to(s), from_utf8(s).map_or_else(|error| error.valid_up_to(), str::len), "{s:x?}");
    assert_eq!(text::is_ascii(s), s.is_ascii(), "{s:x?}");
    assert_eq!(text::count(s), theirs.map(|t| t.chars().count()), "{s:x?}");
    assert_eq!(text::as_str(s), theirs, "{s:x?}");
}

/// All that is asked of a part, beside what is asked of the part alone.
fn part(s: &[u8], from: usize, to: usize) {
    let part = s.get(from..to);
    assert_eq!(text::valid_in(s, from..to), part.map(text::valid), "{s:x?} {from} {to}");
    assert_eq!(text::valid_up_to_in(s, from..to), part.map(text::valid_up_to), "{s:x?} {from} {to}");
    assert_eq!(text::is_ascii_in(s, from..to), part.map(text::is_ascii), "{s:x?} {from} {to}");
    assert_eq!(text::count_in(s, from..to), part.and_then(text::count), "{s:x?} {from} {to}");
    assert_eq!(text::as_str_in(s, from..to), part.and_then(text::as_str), "{s:x?} {from} {to}");
    assert_eq!(text::read_first_in(s, from..to), end_of(part, true), "{s:x?} {from} {to}");
    assert_eq!(text::read_last_in(s, from..to), end_of(part, false), "{s:x?} {from} {to}");
    for at in 0..s.len() + 2 {
        assert_eq!(text::is_boundary_in(s, from..to, at), part.and_then(|part| text::is_boundary(part, at)), "{s:x?} {from} {to} {at}");
        let split = part.and_then(|part| text::split_at(part, at));
        assert_eq!(text::split_at_in(s, from..to, at), split.map(|(left, _)| (from..from + left.len(), from + left.len()..to)), "{s:x?} {from} {to} {at}");
    }
}

fn places(s: &[u8]) {
    let theirs = from_utf8(s).ok();
    for at in 0..s.len() + 2 {
        assert_eq!(text::is_boundary(s, at), theirs.map(|t| t.is_char_boundary(at)), "{s:x?} {at}");
        let split = theirs.and_then(|t| t.split_at_checked(at));
        assert_eq!(text::split_at(s, at), split.map(|(left, right)| (left.as_bytes(), right.as_bytes())), "{s:x?} {at}");
        for to in at.saturating_sub(1)..s.len() + 2 {
            part(s, at, to);
        }
    }
    assert_eq!(text::read_first(s), end_of(Some(s), true), "{s:x?}");
    assert_eq!(text::read_last(s), end_of(Some(s), false), "{s:x?}");
}

#[test]
fn every_form() {
    for c in scalars().filter_map(char::from_u32) {
        let mut bytes = [0; 4];
        let s = c.encode_utf8(&mut bytes).as_bytes();
        assert!(text::valid(s));
        assert_eq!(text::read_first(s), Some(Read { value: c as u32, length: s.len() }));
        assert_eq!(text::read_last(s), Some(Read { value: c as u32, length: s.len() }));
    }
}

#[test]
fn every_pair_of_bytes() {
    whole(&[]);
    places(&[]);
    for pair in 0..=u16::MAX {
        let s = pair.to_be_bytes();
        whole(&s[1..]);
        whole(&s);
        places(&s);
    }
}

#[test]
fn four_edge_bytes() {
    for a in EDGES {
        for b in EDGES {
            for c in EDGES {
                places(&[a, b, c]);
                for d in EDGES {
                    whole(&[a, b, c, d]);
                }
            }
        }
    }
}

#[test]
fn behind_blocks() {
    for before in [57, 60, 61, 62, 63, 64, 65, 125, 127, 128, 190] {
        for filling in ["a", "\u{e9}", "\u{20ac}", "\u{10348}"] {
            let mut s = filling.repeat(before).into_bytes();
            let length = s.len();
            for a in EDGES {
                for b in EDGES {
                    s.truncate(length);
                    s.extend([a, b, 0x80]);
                    whole(&s[..length + 1]);
                    whole(&s[..length + 2]);
                    whole(&s);
                    s.extend(filling.repeat(70).bytes());
                    whole(&s);
                }
            }
        }
    }
}

/// One byte that is no ASCII, at each place of each length around the blocks of 8, 16 and 64 bytes.
#[test]
fn one_other_byte() {
    for length in 0..=130 {
        let mut s = vec![b'a'; length];
        whole(&s);
        for at in 0..length {
            for byte in [0x7f, 0x80, 0xff] {
                s[at] = byte;
                whole(&s);
            }
            s[at] = b'a';
        }
    }
}
