//! Decimal text beside the standard library's `parse` and `to_string`, but for '+', which only `parse` reads: every number of 8 and 16 bits, at other widths powers
//! of two and of ten with their neighbours, the texts of these with a byte more or another, and every short text of figures, signs and the bytes next to them.
#[macro_use]
mod beside;

use promisebook::NotDecimal;
use std::num::{IntErrorKind, ParseIntError};
use std::str::{from_utf8, FromStr};

fn parsed<T: FromStr<Err = ParseIntError>>(text: &[u8]) -> Result<T, NotDecimal> {
    let text = from_utf8(text).ok().filter(|text| !text.starts_with('+')).ok_or(NotDecimal::NoNumber)?;
    text.parse().map_err(|error: ParseIntError| match error.kind() {
        IntErrorKind::PosOverflow | IntErrorKind::NegOverflow if all_figures(text) => NotDecimal::TooLarge,
        _ => NotDecimal::NoNumber,
    })
}

/// `parse` stops where the number no longer fits, and does not look at what stands behind.
fn all_figures(text: &str) -> bool {
    text.trim_start_matches('-').bytes().all(|byte| byte.is_ascii_digit())
}

/// A number's text with zeros in front.
fn padded(text: &str, zeros: usize) -> Vec<u8> {
    let (sign, figures) = text.split_at(usize::from(text.starts_with('-')));
    [sign, &"0".repeat(zeros), figures].concat().into_bytes()
}

/// The bytes next to the figures, the figures at the ends, signs, and what else might be taken for part of a number.
const WRONG_AND_RIGHT: [u8; 13] = [b'/', b'0', b'1', b'9', b':', b'-', b'+', b' ', b'_', b'.', b'a', 0, 0xb0];

macro_rules! decimal {
    ($name:ident, $module:ident, $type:ident, $numbers:expr) => {
        mod $name {
            use super::{beside, padded, parsed, WRONG_AND_RIGHT};
            use promisebook::$module::{read_decimal, read_decimal_in, write_decimal, write_decimal_in};

            fn edges() -> impl Iterator<Item = $type> {
                let tens = (0..=$type::MAX.ilog10()).map(|power| (10 as $type).pow(power));
                let near = tens.flat_map(|ten| [ten.wrapping_sub(1), ten, ten.wrapping_add(1)]);
                near.flat_map(|number| [number, number.wrapping_neg()]).chain(beside::$name::edges())
            }

            fn read(text: &[u8]) {
                assert_eq!(read_decimal(text), parsed::<$type>(text), "{:?}", text.escape_ascii().to_string());
            }

            #[test]
            fn written_and_read_back() {
                for x in edges().chain($numbers) {
                    let text = x.to_string();
                    assert_eq!(read_decimal(text.as_bytes()), Ok(x));
                    for length in [0, 1, text.len() - 1, text.len(), text.len() + 1, text.len() + 3] {
                        for at in [0, 1, 2, 3, 31, usize::MAX] {
                            let (mut ours, mut theirs) = ([0xa5; 32], [0xa5; 32]);
                            let part = at..at.wrapping_add(length);
                            let place = theirs.get_mut(part.clone()).and_then(|part| part.get_mut(..text.len()));
                            let length_written = place.map(|place| place.copy_from_slice(text.as_bytes())).map(|()| text.len());
                            assert_eq!(write_decimal_in(&mut ours, part.clone(), x), length_written, "{x} in {part:?}");
                            assert_eq!(ours, theirs, "{x} in {part:?}");
                            ours.fill(0xa5);
                            assert_eq!(ours.get_mut(part).and_then(|part| write_decimal(part, x)), length_written);
                            assert_eq!(ours, theirs, "{x} in {length}");
                        }
                    }
                }
            }

            #[test]
            fn longer_and_damaged() {
                for x in edges() {
                    let text = x.to_string();
                    for zeros in [1, 2, 20, 40] {
                        assert_eq!(read_decimal(&padded(&text, zeros)), Ok(x), "{x} behind {zeros}");
                    }
                    for byte in WRONG_AND_RIGHT {
                        for at in 0..=text.len() {
                            let mut bytes = text.clone().into_bytes();
                            bytes.insert(at, byte);
                            read(&bytes);
                            bytes.remove((at + 1).min(text.len()));
                            read(&bytes);
                        }
                    }
                }
            }

            #[test]
            fn past_both_ends() {
                for distance in 0..300 {
                    read(($type::MAX as i128 + distance).to_string().as_bytes());
                    read(($type::MIN as i128 - distance).to_string().as_bytes());
                }
                for figures in 1..45 {
                    for figure in ["1", "2", "9"] {
                        read(figure.repeat(figures).as_bytes());
                        read(format!("-{}", figure.repeat(figures)).as_bytes());
                    }
                }
            }

            #[test]
            fn every_part_of_a_short_text() {
                const SIZE: usize = WRONG_AND_RIGHT.len();
                for number in 0..SIZE.pow(4) {
                    let bytes = [0, 1, 2, 3].map(|place| WRONG_AND_RIGHT[number / SIZE.pow(place) % SIZE]);
                    for from in 0..6 {
                        for to in 0..6 {
                            let theirs = bytes.get(from..to).map(parsed::<$type>);
                            assert_eq!(read_decimal_in(&bytes, from..to), theirs, "{bytes:?} {from} {to}");
                        }
                    }
                    assert_eq!(read_decimal_in(&bytes, 0..usize::MAX), None);
                }
            }
        }
    };
}

decimal!(of_u8, u8s, u8, u8::MIN..=u8::MAX);
decimal!(of_i8, i8s, i8, i8::MIN..=i8::MAX);
decimal!(of_u16, u16s, u16, u16::MIN..=u16::MAX);
decimal!(of_i16, i16s, i16, i16::MIN..=i16::MAX);
decimal!(of_u32, u32s, u32, []);
decimal!(of_i32, i32s, i32, []);
decimal!(of_u64, u64s, u64, []);
decimal!(of_i64, i64s, i64, []);
decimal!(of_usize, usizes, usize, []);
decimal!(of_isize, isizes, isize, []);
