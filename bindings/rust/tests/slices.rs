//! Slices of bytes beside the standard library's, whole and by parts, at lengths around the blocks of 8, 16 and 64 bytes.
use promisebook::bytes;
use std::ops::Range;

const LENGTHS: [usize; 20] = [0, 1, 2, 7, 8, 9, 15, 16, 17, 24, 31, 33, 63, 64, 65, 96, 127, 128, 129, 200];

/// Bytes of which no two neighbours are equal.
fn sample(length: usize) -> Vec<u8> {
    (0..length).map(|place| (place * 167 % 251) as u8).collect()
}

/// Places of a slice of this length: all of a short one, of a long one those near its ends and blocks, and always some past the end.
fn places(length: usize) -> Vec<usize> {
    (0..=length + 2).filter(|place| length < 34 || place % 32 < 2 || place % 32 == 31 || place + 2 > length).chain([usize::MAX - 1, usize::MAX]).collect()
}

/// Calls the test for every slice and every pair of places; the slice that it is given last is None where they are not the ends of a part.
fn each_part(mut test: impl FnMut(&[u8], Range<usize>, Option<&[u8]>)) {
    for length in LENGTHS {
        let s = sample(length);
        for from in places(length) {
            for to in places(length) {
                test(&s, from..to, s.get(from..to));
            }
        }
    }
}

/// Where a part of s begins and ends in it.
fn places_of(s: &[u8], part: &[u8]) -> Range<usize> {
    let from = part.as_ptr() as usize - s.as_ptr() as usize;
    from..from + part.len()
}

#[test]
fn reading() {
    each_part(|s, part, theirs| {
        assert_eq!(bytes::len_in(s, part.clone()), theirs.map(<[u8]>::len));
        assert_eq!(theirs.map(bytes::len), theirs.map(<[u8]>::len));
        assert_eq!(bytes::is_empty_in(s, part.clone()), theirs.map(<[u8]>::is_empty));
        assert_eq!(theirs.map(bytes::is_empty), theirs.map(<[u8]>::is_empty));
        assert_eq!(bytes::first_in(s, part.clone()), theirs.and_then(<[u8]>::first).copied());
        assert_eq!(theirs.and_then(bytes::first), theirs.and_then(<[u8]>::first).copied());
        assert_eq!(bytes::last_in(s, part.clone()), theirs.and_then(<[u8]>::last).copied());
        assert_eq!(theirs.and_then(bytes::last), theirs.and_then(<[u8]>::last).copied());
        let split = theirs.and_then(<[u8]>::split_first);
        assert_eq!(bytes::split_first_in(s, part.clone()), split.map(|(&first, rest)| (first, places_of(s, rest))));
        assert_eq!(theirs.and_then(bytes::split_first), split.map(|(&first, rest)| (first, rest)));
    });
}

#[test]
fn at_a_place() {
    each_part(|s, part, theirs| {
        for i in places(theirs.map_or(3, <[u8]>::len)) {
            let element = theirs.and_then(|part| part.get(i)).copied();
            assert_eq!(bytes::get_in(s, part.clone(), i), element);
            assert_eq!(theirs.and_then(|part| bytes::get(part, i)), element);
            let split = theirs.and_then(|part| part.split_at_checked(i));
            assert_eq!(bytes::split_at_in(s, part.clone(), i), split.map(|(left, right)| (places_of(s, left), places_of(s, right))));
            assert_eq!(theirs.and_then(|part| bytes::split_at(part, i)), split);
            let piece = if i == 0 { None } else { theirs.and_then(|part| part.chunks(i).next()) };
            let and_rest = piece.zip(theirs).map(|(piece, part)| (piece, &part[piece.len()..]));
            assert_eq!(bytes::next_piece_in(s, part.clone(), i), and_rest.map(|(piece, rest)| (places_of(s, piece), places_of(s, rest))));
            assert_eq!(theirs.and_then(|part| bytes::next_piece(part, i)), and_rest);
        }
    });
}

#[test]
fn every_piece() {
    for length in LENGTHS {
        let s = sample(length);
        for n in 1..70 {
            let (mut rest, mut pieces) = (&s[..], Vec::new());
            while let Some((piece, behind)) = bytes::next_piece(rest, n) {
                pieces.push(piece);
                rest = behind;
            }
            assert!(s.chunks(n).eq(pieces));
        }
    }
}

#[test]
fn sub_ranges() {
    let s = sample(9);
    for part in [0..9, 2..7, 4..4, Range { start: 5, end: 4 }, 3..10] {
        for a in 0..11 {
            for e in 0..11 {
                let inside = s.get(part.clone()).and_then(|part| part.get(a..e));
                assert_eq!(bytes::sub_range_in(&s, part.clone(), a..e), inside.map(|inside| places_of(&s, inside)), "{part:?} {a} {e}");
                assert_eq!(s.get(part.clone()).and_then(|part| bytes::sub_range(part, a..e)), inside, "{part:?} {a} {e}");
            }
        }
    }
}

#[test]
fn comparing() {
    each_part(|s, part, theirs| {
        let whole = theirs.unwrap_or(&[]);
        let mut other = whole.to_vec();
        for change in [None, Some(0), Some(whole.len() / 2), whole.len().checked_sub(1)] {
            if let Some(byte) = change.and_then(|place| other.get_mut(place)) {
                *byte ^= 0x80;
            }
            for other in [&other[..], &other[other.len() / 2..], &other[..other.len() / 2], &[]] {
                assert_eq!(bytes::equal_in(s, part.clone(), other), theirs.map(|part| part == other));
                assert_eq!(bytes::equal(whole, other), whole == other);
                assert_eq!(bytes::starts_with_in(s, part.clone(), other), theirs.map(|part| part.starts_with(other)));
                assert_eq!(bytes::starts_with(whole, other), whole.starts_with(other));
                assert_eq!(bytes::ends_with_in(s, part.clone(), other), theirs.map(|part| part.ends_with(other)));
                assert_eq!(bytes::ends_with(whole, other), whole.ends_with(other));
            }
        }
        for v in [0, 1, 166, 167, 250, 251, 255] {
            assert_eq!(bytes::contains_in(s, part.clone(), v), theirs.map(|part| part.contains(&v)));
            assert_eq!(bytes::contains(whole, v), whole.contains(&v));
        }
    });
}

/// Ours on a part and on the part alone, and theirs, on copies of s: the answers agree, and every byte.
fn written(
    s: &[u8],
    part: &Range<usize>,
    ours_in: impl FnOnce(&mut [u8], Range<usize>) -> Option<()>,
    ours: impl FnOnce(&mut [u8]) -> Option<()>,
    theirs: impl FnOnce(&mut [u8]) -> Option<()>,
) {
    let (mut in_part, mut alone, mut right) = (s.to_vec(), s.to_vec(), s.to_vec());
    let answer = right.get_mut(part.clone()).and_then(theirs);
    assert_eq!(ours_in(&mut in_part, part.clone()), answer);
    assert_eq!(alone.get_mut(part.clone()).and_then(ours), answer);
    assert_eq!(in_part, right);
    assert_eq!(alone, right);
}

#[test]
fn writing() {
    each_part(|s, part, theirs| {
        let reversed = |s: &mut [u8]| Some(()).inspect(|()| bytes::reverse(s));
        written(s, &part, bytes::reverse_in, reversed, |s| Some(()).inspect(|()| s.reverse()));
        for length in [theirs.map_or(0, <[u8]>::len), 3] {
            let other = vec![0xee; length];
            written(
                s,
                &part,
                |s, part| bytes::copy_from_in(s, part, &other),
                |s| bytes::copy_from(s, &other),
                |s| (s.len() == length).then(|| s.copy_from_slice(&other)),
            );
        }
        for i in places(s.len()) {
            written(s, &part, |s, part| bytes::set_in(s, part, i, 0xee), |s| bytes::set(s, i, 0xee), |s| s.get_mut(i).map(|byte| *byte = 0xee));
        }
    });
}

/// What is copied within a slice: theirs, where it does not panic.
fn copied(s: &mut [u8], range: Range<usize>, at: usize) -> Option<()> {
    let fits = s.get(range.clone()).is_some_and(|part| at <= s.len() - part.len());
    fits.then(|| s.copy_within(range, at))
}

#[test]
fn copying_within() {
    each_part(|s, range, _| {
        for at in places(s.len()) {
            let whole = 0..s.len();
            written(
                s,
                &whole,
                |s, part| bytes::copy_within_in(s, part, range.clone(), at),
                |s| bytes::copy_within(s, range.clone(), at),
                |s| copied(s, range.clone(), at),
            );
        }
    });
    let s = sample(11);
    for part in [2..9, 3..3, 0..11, 4..12] {
        for from in 0..9 {
            for to in 0..9 {
                for at in 0..9 {
                    written(
                        &s,
                        &part,
                        |s, part| bytes::copy_within_in(s, part, from..to, at),
                        |s| bytes::copy_within(s, from..to, at),
                        |s| copied(s, from..to, at),
                    );
                }
            }
        }
    }
}
