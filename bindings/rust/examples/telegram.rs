//! Reads the telegram of a point machine, which tells how far its two blades stand off their rails, and refuses what is damaged or cannot be.
//!
//!     printf '\0\13W12;4;1497;\370\136' | cargo run --example telegram
//!
//! A telegram is the length of its text (2 bytes, highest first), the text, and a checksum of the text (2 bytes, highest first). The text has three fields,
//! each with ';' behind it: the name of the point, then how far the left and the right blade stand off, in tenths of a millimetre.
use promisebook::{bytes, i16s, text, u16s, usizes, NotDecimal};
use std::io::{self, Read};
use std::process::ExitCode;

#[derive(Debug, PartialEq)]
struct Report<'a> {
    point: &'a str,
    lies: Lies,
    /// How far both blades stand off together, in tenths of a millimetre.
    opening: i16,
}

#[derive(Debug, PartialEq)]
enum Lies {
    Left,
    Right,
    Between,
}

/// What is wrong with a telegram. Each fault is told by itself: whoever maintains the machine looks elsewhere for a cut cable than for a bent blade.
#[derive(Debug, PartialEq)]
enum Fault {
    /// It ends before its length says.
    CutOff,
    /// It goes on behind its checksum.
    TooLong,
    Checksum,
    /// A field is missing, or there is one too many.
    Fields,
    /// The point's name is no UTF-8.
    Name,
    /// A distance is no number, or too large.
    Distance(NotDecimal),
    /// No point stands so: the blades stand off too far together, or not far enough.
    Opening,
}

/// A blade lies at its rail where it stands off no farther than this.
const CLOSED: i16 = 30;
/// How far both blades stand off together, at least and at most.
const OPENING: (i16, i16) = (1400, 1600);

fn read(telegram: &[u8]) -> Result<Report<'_>, Fault> {
    let (length, behind) = bytes::split_at(telegram, 2).ok_or(Fault::CutOff)?;
    let length = u16s::from_be_bytes(length).ok_or(Fault::CutOff)?;
    let (text, checksum) = bytes::split_at(behind, usize::from(length)).ok_or(Fault::CutOff)?;
    match u16s::from_be_bytes(checksum) {
        Some(checksum) if checksum == checksum_of(text) => report(text),
        Some(_) => Err(Fault::Checksum),
        None if bytes::len(checksum) < 2 => Err(Fault::CutOff),
        None => Err(Fault::TooLong),
    }
}

fn report(text: &[u8]) -> Result<Report<'_>, Fault> {
    let (point, rest) = field(text).ok_or(Fault::Fields)?;
    let (left, rest) = field(rest).ok_or(Fault::Fields)?;
    let (right, rest) = field(rest).ok_or(Fault::Fields)?;
    if !bytes::is_empty(rest) {
        return Err(Fault::Fields);
    }
    let point = text::as_str(point).ok_or(Fault::Name)?;
    let left = i16s::read_decimal(left).map_err(Fault::Distance)?;
    let right = i16s::read_decimal(right).map_err(Fault::Distance)?;
    let opening = i16s::checked_add(left, right).ok_or(Fault::Opening)?;
    if opening < OPENING.0 || opening > OPENING.1 {
        return Err(Fault::Opening);
    }
    let lies = match (left <= CLOSED, right <= CLOSED) {
        (true, false) => Lies::Left,
        (false, true) => Lies::Right,
        _ => Lies::Between,
    };
    Ok(Report { point, lies, opening })
}

/// The bytes up to the first ';', and those behind it.
fn field(text: &[u8]) -> Option<(&[u8], &[u8])> {
    let mut rest = text;
    while let Some((byte, behind)) = bytes::split_first(rest) {
        if byte == b';' {
            let (field, _) = bytes::split_at(text, usizes::checked_sub(text.len(), rest.len())?)?;
            return Some((field, behind));
        }
        rest = behind;
    }
    None
}

/// CRC-16 of CCITT: the polynomial 0x1021, begun with 0xffff.
fn checksum_of(text: &[u8]) -> u16 {
    text.iter().fold(0xffff, |sum, &byte| {
        (0..8).fold(sum ^ u16s::wrapping_shl(u16::from(byte), 8), |sum, _| {
            let shifted = u16s::wrapping_shl(sum, 1);
            if sum < 0x8000 {
                shifted
            } else {
                shifted ^ 0x1021
            }
        })
    })
}

fn main() -> ExitCode {
    let mut telegram = Vec::new();
    if let Err(error) = io::stdin().read_to_end(&mut telegram) {
        eprintln!("{error}");
        return ExitCode::FAILURE;
    }
    match read(&telegram) {
        Ok(Report { point, lies, opening }) => {
            println!("{point}: {lies:?}, open by {}.{} mm", opening / 10, opening % 10);
            ExitCode::SUCCESS
        }
        Err(fault) => {
            eprintln!("refused: {fault:?}");
            ExitCode::FAILURE
        }
    }
}

#[cfg(test)]
mod tests {
    use super::*;

    /// A telegram with this text, and the right length and checksum.
    fn telegram(text: &[u8]) -> Vec<u8> {
        let mut made = vec![0xee; text.len() + 4];
        let length = u16::try_from(text.len()).unwrap();
        u16s::to_be_bytes_in(&mut made, 0..2, length).unwrap();
        bytes::copy_from_in(&mut made, 2..2 + text.len(), text).unwrap();
        u16s::to_be_bytes_in(&mut made, 2 + text.len()..4 + text.len(), checksum_of(text)).unwrap();
        made
    }

    #[test]
    fn good_ones_are_read() {
        assert_eq!(read(&telegram(b"W12;4;1497;")), Ok(Report { point: "W12", lies: Lies::Left, opening: 1501 }));
        assert_eq!(read(&telegram(b"W12;1570;30;")), Ok(Report { point: "W12", lies: Lies::Right, opening: 1600 }));
        assert_eq!(read(&telegram(b"W12;31;1369;")), Ok(Report { point: "W12", lies: Lies::Between, opening: 1400 }));
        assert_eq!(read(&telegram("Süd 7;-3;1500;".as_bytes())), Ok(Report { point: "Süd 7", lies: Lies::Left, opening: 1497 }));
        assert_eq!(read(&telegram(b";0;1500;")), Ok(Report { point: "", lies: Lies::Left, opening: 1500 }));
    }

    #[test]
    fn texts_that_say_nothing_sensible_are_refused() {
        let of = |text: &[u8]| read(&telegram(text)).unwrap_err();
        assert_eq!(of(b""), Fault::Fields);
        assert_eq!(of(b"W12;4;1497"), Fault::Fields);
        assert_eq!(of(b"W12;4;1497;;"), Fault::Fields);
        assert_eq!(of(b"W\xc3;4;1497;"), Fault::Name);
        assert_eq!(of(b"W12;;1497;"), Fault::Distance(NotDecimal::NoNumber));
        assert_eq!(of(b"W12;4;14a7;"), Fault::Distance(NotDecimal::NoNumber));
        assert_eq!(of(b"W12;4;+1497;"), Fault::Distance(NotDecimal::NoNumber));
        assert_eq!(of(b"W12;4;32768;"), Fault::Distance(NotDecimal::TooLarge));
        assert_eq!(of(b"W12;4;1597;"), Fault::Opening);
        assert_eq!(of(b"W12;4;1395;"), Fault::Opening);
        assert_eq!(of(b"W12;20000;20000;"), Fault::Opening);
    }

    #[test]
    fn damaged_ones_are_refused() {
        let good = telegram(b"W12;4;1497;");
        for length in 0..good.len() {
            assert_eq!(read(&good[..length]), Err(Fault::CutOff));
        }
        assert_eq!(read(&[&good[..], b"\0"].concat()), Err(Fault::TooLong));
        for place in 2..good.len() {
            for bit in 0..8 {
                let mut damaged = good.clone();
                damaged[place] ^= 1 << bit;
                assert_eq!(read(&damaged), Err(Fault::Checksum));
            }
        }
    }

    #[test]
    fn the_checksum_is_the_known_one() {
        assert_eq!(checksum_of(b"123456789"), 0x29b1);
    }
}
