//! Text: bytes that are valid UTF-8 or not, and scalar values, the numbers up to 0x10ffff without 0xd800 to 0xdfff.

use crate::exported;
use crate::usizes;
use core::ops::Range;

/// A scalar value, and the length of its form.
#[derive(Clone, Copy, Debug, PartialEq, Eq)]
pub struct Read {
    pub value: u32,
    pub length: usize,
}

/// How many bytes the UTF-8 form of `c` has. Refused where `c` is no scalar value.
///
/// ```
/// use promisebook::text;
/// assert_eq!(text::scalar_len(0x7ff), Some(2));
/// assert_eq!(text::scalar_len(0x800), Some(3));
/// assert_eq!(text::scalar_len(0x10ffff), Some(4));
/// assert_eq!(text::scalar_len(0xd800), None);
/// ```
///
/// Cited by rows E63; clause vstd_text/Promises.ScalarLen, vstd_text/Encoding.encode_scalar; contract
/// promisebook_text::pb_text_scalar_len; law vstd_text/Promised.scalar_len_promised,
/// vstd_text/Kept.scalar_len_kept; pinned by vstd_text/Pinned.scalar_len_pinned; refused
/// text_scalar/scalar_len.four_bytes_for_three, three_bytes_for_two,
/// promisebook_text/pb_text_scalar_len.always_four.
#[inline]
#[must_use]
pub fn scalar_len(c: u32) -> Option<usize> {
    let answer = exported::pb_text_scalar_len(c);
    answer.ok.then_some(answer.value)
}

/// Whether `c` is one of the 25 scalar values of Unicode's property White_Space.
///
/// ```
/// use promisebook::text;
/// assert!(text::is_white_space(0x3000));
/// assert!(text::is_white_space(0x85));
/// assert!(!text::is_white_space(0x200b));
/// ```
///
/// Cited by rows E65; clause vstd_text/Promises.IsWhiteSpace, vstd_text/Characters.is_white_space; contract
/// promisebook_text::pb_text_is_white_space; law vstd_text/Promised.is_white_space_promised,
/// vstd_text/Kept.is_white_space_kept; pinned by vstd_text/Pinned.is_white_space_pinned; refused
/// text_scalar/is_white_space.next_line_left_out, zero_width_space_counted.
#[inline]
#[must_use]
pub fn is_white_space(c: u32) -> bool {
    exported::pb_text_is_white_space(c)
}

/// Writes the UTF-8 form of `c` at the start of `out`, changes no other byte, and answers how many bytes it has.
/// Refused where `c` is no scalar value or its form does not fit.
///
/// ```
/// use promisebook::text;
/// let mut out = [0x00, 0x00, 0x00];
/// assert_eq!(text::write(&mut out, 0x20ac), Some(3));
/// assert_eq!(out, [0xe2, 0x82, 0xac]);
/// let mut out = [0x00, 0x00];
/// assert_eq!(text::write(&mut out, 0x20ac), None);
/// assert_eq!(out, [0x00, 0x00]);
/// let mut out = [0x00, 0x00, 0x00, 0x00];
/// assert_eq!(text::write(&mut out, 0xdfff), None);
/// assert_eq!(out, [0x00, 0x00, 0x00, 0x00]);
/// ```
///
/// Cited by rows E28; clause vstd_text/Promises.Write, vstd_text/Encoding.encode_scalar; contract
/// promisebook_text::pb_text_write; law vstd_text/Promised.write_promised, vstd_text/Kept.write_kept,
/// vstd_text/Encoding.encode_scalar_same; pinned by vstd_text/Pinned.write_pinned; refused
/// text_write/write.form_past_the_end, wrong_digit_first, wrong_mark, vstd_text/write.refusal_leaves_anything,
/// promisebook_text/pb_text_write.slice_as_it_was.
#[inline]
#[must_use]
pub fn write(out: &mut [u8], c: u32) -> Option<usize> {
    let answer = exported::text_write(out, 0, c);
    answer.ok.then_some(answer.value)
}

/// Writes the UTF-8 form of `c` at the start of the part, changes no other byte, and answers how many bytes it
/// has. Refused where `c` is no scalar value or its form does not fit. Refused, too, where `out` has no such
/// part.
///
/// ```
/// use promisebook::text;
/// let mut out = [0x00, 0x00, 0x00, 0x00];
/// assert_eq!(text::write_in(&mut out, 1..4, 0x20ac), Some(3));
/// assert_eq!(out, [0x00, 0xe2, 0x82, 0xac]);
/// let mut out = [0x00, 0x00, 0x00, 0x00];
/// assert_eq!(text::write_in(&mut out, 2..4, 0x20ac), None);
/// assert_eq!(out, [0x00, 0x00, 0x00, 0x00]);
/// let mut out = [0x00, 0x00, 0x00, 0x00];
/// assert_eq!(text::write_in(&mut out, 0..4, 0xdfff), None);
/// assert_eq!(out, [0x00, 0x00, 0x00, 0x00]);
/// ```
///
/// Cited by rows E28; clause vstd_text/Promises.Write, vstd_text/Encoding.encode_scalar; contract
/// promisebook_text::pb_text_write; law vstd_text/Promised.write_promised, vstd_text/Kept.write_kept,
/// vstd_text/Encoding.encode_scalar_same; pinned by vstd_text/Pinned.write_pinned; refused
/// text_write/write.form_past_the_end, wrong_digit_first, wrong_mark, vstd_text/write.refusal_leaves_anything,
/// promisebook_text/pb_text_write.slice_as_it_was.
#[inline]
#[must_use]
pub fn write_in(out: &mut [u8], part: Range<usize>, c: u32) -> Option<usize> {
    write(out.get_mut(part)?, c)
}

/// The scalar value whose form `s` begins with, and how many bytes the form has. Refused where no form begins it.
///
/// ```
/// use promisebook::text;
/// assert_eq!(text::read_first("€𐍈".as_bytes()), Some(text::Read { value: 0x20ac, length: 3 }));
/// assert_eq!(text::read_first(&[0xa9, 0xe2, 0x82, 0xac, 0xf0, 0x90, 0x8d, 0x88]), None);
/// assert_eq!(text::read_first(&[0xe2, 0x82]), None);
/// ```
///
/// Cited by rows E13, E14; clause vstd_text/Promises.ReadFirst, vstd_text/Decoding.decode_first_scalar,
/// length_of_first_scalar; contract promisebook_text::pb_text_read_first; law
/// vstd_text/Promised.read_first_promised, vstd_text/Kept.read_first_kept; pinned by
/// vstd_text/Pinned.read_first_pinned; refused text_read/read_first.byte_80_accepted, cut_off_accepted,
/// longer_than_needed, surrogate_accepted, too_large_accepted,
/// promisebook_text/pb_text_read_first.ends_exchanged.
#[inline]
#[must_use]
pub fn read_first(s: &[u8]) -> Option<Read> {
    let answer = exported::text_read_first(s, 0, s.len());
    answer.ok.then_some(Read { value: answer.value, length: answer.length })
}

/// The scalar value whose form the part begins with, and how many bytes the form has. Refused where no form
/// begins it. Refused, too, where `s` has no such part.
///
/// ```
/// use promisebook::text;
/// let s = "Aé€𐍈".as_bytes();
/// assert_eq!(text::read_first_in(s, 3..10), Some(text::Read { value: 0x20ac, length: 3 }));
/// assert_eq!(text::read_first_in(s, 2..10), None);
/// assert_eq!(text::read_first_in(s, 3..5), None);
/// ```
///
/// Cited by rows E13, E14; clause vstd_text/Promises.ReadFirst, vstd_text/Decoding.decode_first_scalar,
/// length_of_first_scalar; contract promisebook_text::pb_text_read_first; law
/// vstd_text/Promised.read_first_promised, vstd_text/Kept.read_first_kept; pinned by
/// vstd_text/Pinned.read_first_pinned; refused text_read/read_first.byte_80_accepted, cut_off_accepted,
/// longer_than_needed, surrogate_accepted, too_large_accepted,
/// promisebook_text/pb_text_read_first.ends_exchanged.
#[inline]
#[must_use]
pub fn read_first_in(s: &[u8], part: Range<usize>) -> Option<Read> {
    let answer = exported::text_read_first(s, part.start, part.end);
    answer.ok.then_some(Read { value: answer.value, length: answer.length })
}

/// The scalar value whose form `s` ends with, and how many bytes the form has. Refused where no form ends it.
///
/// ```
/// use promisebook::text;
/// assert_eq!(text::read_last("Aé€𐍈".as_bytes()), Some(text::Read { value: 0x10348, length: 4 }));
/// assert_eq!(text::read_last("Aé".as_bytes()), Some(text::Read { value: 0xe9, length: 2 }));
/// assert_eq!(text::read_last(&[0x41, 0xc3, 0xa9, 0xe2, 0x82]), None);
/// ```
///
/// Cited by rows E21, E23; clause vstd_text/Promises.ReadLast, vstd_text/Decoding.length_of_last_scalar,
/// decode_last_scalar; contract promisebook_text::pb_text_read_last; law vstd_text/Promised.read_last_promised,
/// vstd_text/Kept.read_last_kept; pinned by vstd_text/Pinned.read_last_pinned; refused
/// text_read/read_last.one_byte_short, shorter_form_accepted, stops_at_a_following_byte,
/// vstd_text/read_last.any_length, promisebook_text/pb_text_read_last.the_first.
#[inline]
#[must_use]
pub fn read_last(s: &[u8]) -> Option<Read> {
    let answer = exported::text_read_last(s, 0, s.len());
    answer.ok.then_some(Read { value: answer.value, length: answer.length })
}

/// The scalar value whose form the part ends with, and how many bytes the form has. Refused where no form ends
/// it. Refused, too, where `s` has no such part.
///
/// ```
/// use promisebook::text;
/// let s = "Aé€𐍈".as_bytes();
/// assert_eq!(text::read_last_in(s, 0..10), Some(text::Read { value: 0x10348, length: 4 }));
/// assert_eq!(text::read_last_in(s, 0..3), Some(text::Read { value: 0xe9, length: 2 }));
/// assert_eq!(text::read_last_in(s, 0..5), None);
/// ```
///
/// Cited by rows E21, E23; clause vstd_text/Promises.ReadLast, vstd_text/Decoding.length_of_last_scalar,
/// decode_last_scalar; contract promisebook_text::pb_text_read_last; law vstd_text/Promised.read_last_promised,
/// vstd_text/Kept.read_last_kept; pinned by vstd_text/Pinned.read_last_pinned; refused
/// text_read/read_last.one_byte_short, shorter_form_accepted, stops_at_a_following_byte,
/// vstd_text/read_last.any_length, promisebook_text/pb_text_read_last.the_first.
#[inline]
#[must_use]
pub fn read_last_in(s: &[u8], part: Range<usize>) -> Option<Read> {
    let answer = exported::text_read_last(s, part.start, part.end);
    answer.ok.then_some(Read { value: answer.value, length: answer.length })
}

/// Whether `s` is valid UTF-8.
///
/// ```
/// use promisebook::text;
/// assert!(text::valid("Aé€𐍈".as_bytes()));
/// assert!(text::valid(&[0xf4, 0x8f, 0xbf, 0xbf]));
/// assert!(!text::valid(&[0xc0, 0x80]));
/// assert!(!text::valid(&[0xed, 0xa0, 0x80]));
/// assert!(!text::valid(&[0xf0, 0x9f, 0x98]));
/// ```
///
/// Cited by rows E17; clause vstd_text/Promises.Valid, vstd_text/Decoding.ValidUtf8; contract
/// promisebook_text::pb_text_valid; law vstd_text/Promised.valid_promised, vstd_text/Kept.valid_kept,
/// vstd_text/Whole.valid_utf8_is, valid_utf8_same; pinned by vstd_text/Pinned.valid_pinned; refused
/// text_valid/valid.always, wrong_from_the_start.
#[inline]
#[must_use]
pub fn valid(s: &[u8]) -> bool {
    exported::text_valid(s)
}

/// Whether the part is valid UTF-8. Refused where `s` has no such part.
///
/// ```
/// use promisebook::text;
/// assert_eq!(text::valid_in("(Aé€𐍈)".as_bytes(), 1..11), Some(true));
/// assert_eq!(text::valid_in(&[0x28, 0xf4, 0x8f, 0xbf, 0xbf, 0x29], 1..5), Some(true));
/// assert_eq!(text::valid_in(&[0x28, 0xc0, 0x80, 0x29], 1..3), Some(false));
/// assert_eq!(text::valid_in(&[0x28, 0xed, 0xa0, 0x80, 0x29], 1..4), Some(false));
/// assert_eq!(text::valid_in(&[0x28, 0xf0, 0x9f, 0x98, 0x29], 1..4), Some(false));
/// assert_eq!(text::valid_in(&[0x28, 0xf0, 0x9f, 0x98, 0x29], 1..6), None);
/// ```
///
/// Cited by rows E17; clause vstd_text/Promises.Valid, vstd_text/Decoding.ValidUtf8; contract
/// promisebook_text::pb_text_valid; law vstd_text/Promised.valid_promised, vstd_text/Kept.valid_kept,
/// vstd_text/Whole.valid_utf8_is, valid_utf8_same; pinned by vstd_text/Pinned.valid_pinned; refused
/// text_valid/valid.always, wrong_from_the_start.
#[inline]
#[must_use]
pub fn valid_in(s: &[u8], part: Range<usize>) -> Option<bool> {
    Some(valid(s.get(part)?))
}

/// How many scalar values `s` has as text. Refused where it is not valid UTF-8.
///
/// ```
/// use promisebook::text;
/// assert_eq!(text::count("Aé€𐍈".as_bytes()), Some(4));
/// assert_eq!(text::count(&[0xe2, 0x82]), None);
/// ```
///
/// Cited by rows E19; clause vstd_text/Promises.Count, vstd_text/Decoding.decode_utf8; contract
/// promisebook_text::pb_text_count; law vstd_text/Promised.count_promised, vstd_text/Kept.count_kept,
/// vstd_text/Whole.decode_utf8_is, decode_utf8_same; pinned by vstd_text/Pinned.count_pinned; refused
/// text_valid/count.marks_confused, one_too_many, vstd_text/count.refusal_with_any_number.
#[inline]
#[must_use]
pub fn count(s: &[u8]) -> Option<usize> {
    let answer = exported::text_count(s);
    answer.ok.then_some(answer.value)
}

/// How many scalar values the part has as text. Refused where it is not valid UTF-8. Refused, too, where `s` has
/// no such part.
///
/// ```
/// use promisebook::text;
/// assert_eq!(text::count_in("(Aé€𐍈)".as_bytes(), 1..11), Some(4));
/// assert_eq!(text::count_in(&[0x28, 0xe2, 0x82, 0x29], 1..3), None);
/// assert_eq!(text::count_in(&[0x28, 0xe2, 0x82, 0x29], 1..5), None);
/// ```
///
/// Cited by rows E19; clause vstd_text/Promises.Count, vstd_text/Decoding.decode_utf8; contract
/// promisebook_text::pb_text_count; law vstd_text/Promised.count_promised, vstd_text/Kept.count_kept,
/// vstd_text/Whole.decode_utf8_is, decode_utf8_same; pinned by vstd_text/Pinned.count_pinned; refused
/// text_valid/count.marks_confused, one_too_many, vstd_text/count.refusal_with_any_number.
#[inline]
#[must_use]
pub fn count_in(s: &[u8], part: Range<usize>) -> Option<usize> {
    count(s.get(part)?)
}

/// Whether the place `at` of `s`, counted from its start, lies between two scalar values or at an end. Refused
/// where it is not valid UTF-8.
///
/// ```
/// use promisebook::text;
/// assert_eq!(text::is_boundary("Aé€𐍈".as_bytes(), 3), Some(true));
/// assert_eq!(text::is_boundary("Aé€𐍈".as_bytes(), 8), Some(false));
/// assert_eq!(text::is_boundary("Aé€𐍈".as_bytes(), 11), Some(false));
/// assert_eq!(text::is_boundary(&[0xff], 0), None);
/// ```
///
/// Cited by rows E32; clause vstd_text/Promises.IsBoundary, vstd_text/Places.IsCharBoundary; contract
/// promisebook_text::pb_text_is_boundary; law vstd_text/Promised.is_boundary_promised,
/// vstd_text/Kept.is_boundary_kept, vstd_text/Places.is_char_boundary_is; pinned by
/// vstd_text/Pinned.is_boundary_pinned; refused text_valid/is_boundary.end_left_out, inside_the_last_scalar,
/// vstd_text/is_boundary.refusal_may_say_true, vstd_text/is_char_boundary.inside_the_first_scalar,
/// promisebook_text/pb_text_is_boundary.not_valid_is_none.
#[inline]
#[must_use]
pub fn is_boundary(s: &[u8], at: usize) -> Option<bool> {
    let answer = exported::text_is_boundary(s, at);
    answer.ok.then_some(answer.value)
}

/// Whether the place `at` of the part, counted from its start, lies between two scalar values or at an end.
/// Refused where it is not valid UTF-8. Refused, too, where `s` has no such part.
///
/// ```
/// use promisebook::text;
/// assert_eq!(text::is_boundary_in("(Aé€𐍈)".as_bytes(), 1..11, 3), Some(true));
/// assert_eq!(text::is_boundary_in("(Aé€𐍈)".as_bytes(), 1..11, 8), Some(false));
/// assert_eq!(text::is_boundary_in("(Aé€𐍈)".as_bytes(), 1..11, 11), Some(false));
/// assert_eq!(text::is_boundary_in(&[0x28, 0xff, 0x29], 1..2, 0), None);
/// assert_eq!(text::is_boundary_in(&[0x28, 0xff, 0x29], 1..4, 0), None);
/// ```
///
/// Cited by rows E32; clause vstd_text/Promises.IsBoundary, vstd_text/Places.IsCharBoundary; contract
/// promisebook_text::pb_text_is_boundary; law vstd_text/Promised.is_boundary_promised,
/// vstd_text/Kept.is_boundary_kept, vstd_text/Places.is_char_boundary_is; pinned by
/// vstd_text/Pinned.is_boundary_pinned; refused text_valid/is_boundary.end_left_out, inside_the_last_scalar,
/// vstd_text/is_boundary.refusal_may_say_true, vstd_text/is_char_boundary.inside_the_first_scalar,
/// promisebook_text/pb_text_is_boundary.not_valid_is_none.
#[inline]
#[must_use]
pub fn is_boundary_in(s: &[u8], part: Range<usize>, at: usize) -> Option<bool> {
    is_boundary(s.get(part)?, at)
}

/// Splits `s` at the place `at`, counted from its start, into two texts. Refused where it is not valid UTF-8 or
/// `at` is no boundary.
///
/// ```
/// use promisebook::text;
/// let s = "Aé€𐍈".as_bytes();
/// assert_eq!(text::split_at(s, 3), Some(("Aé".as_bytes(), "€𐍈".as_bytes())));
/// assert_eq!(text::split_at(s, 4), None);
/// ```
///
/// Cited by rows E52; clause vstd_text/Promises.SplitAt, vstd_text/Decoding.ValidUtf8; contract
/// promisebook_text::pb_text_split_at; law vstd_text/Promised.split_at_promised, vstd_text/Kept.split_at_kept,
/// vstd_text/Boundaries.valid_utf8_split; pinned by vstd_text/Pinned.split_at_pinned; refused
/// text_valid/split_at.first_part_empty, inside_a_scalar, vstd_text/split_at.end_not_mentioned,
/// promisebook_text/pb_text_split_at.middle_and_end_exchanged.
#[inline]
#[must_use]
pub fn split_at(s: &[u8], at: usize) -> Option<(&[u8], &[u8])> {
    let answer = exported::text_split_at(s, at);
    answer.ok.then_some((s.get(..answer.middle)?, s.get(answer.middle..)?))
}

/// Splits the part at the place `at`, counted from its start, into two texts. Refused where it is not valid UTF-8
/// or `at` is no boundary. Refused, too, where `s` has no such part. The places answered are counted from the
/// start of `s`.
///
/// ```
/// use promisebook::text;
/// let s = "(Aé€𐍈)".as_bytes();
/// assert_eq!(text::split_at_in(s, 1..11, 3), Some((1..4, 4..11)));
/// assert_eq!(text::split_at_in(s, 1..11, 4), None);
/// assert_eq!(text::split_at_in(s, 1..13, 4), None);
/// ```
///
/// Cited by rows E52; clause vstd_text/Promises.SplitAt, vstd_text/Decoding.ValidUtf8; contract
/// promisebook_text::pb_text_split_at; law vstd_text/Promised.split_at_promised, vstd_text/Kept.split_at_kept,
/// vstd_text/Boundaries.valid_utf8_split; pinned by vstd_text/Pinned.split_at_pinned; refused
/// text_valid/split_at.first_part_empty, inside_a_scalar, vstd_text/split_at.end_not_mentioned,
/// promisebook_text/pb_text_split_at.middle_and_end_exchanged.
#[inline]
#[must_use]
pub fn split_at_in(s: &[u8], part: Range<usize>, at: usize) -> Option<(Range<usize>, Range<usize>)> {
    let answer = exported::text_split_at(s.get(part.clone())?, at);
    answer.ok.then_some((part.start..usizes::wrapping_add(part.start, answer.middle), usizes::wrapping_add(part.start, answer.middle)..part.end))
}

/// Whether every byte of `s` is ASCII, at most 0x7f.
///
/// ```
/// use promisebook::text;
/// assert!(text::is_ascii("plain".as_bytes()));
/// assert!(!text::is_ascii("Aé€𐍈".as_bytes()));
/// assert!(text::is_ascii(&[]));
/// ```
///
/// Cited by rows E33; clause vstd_text/Promises.IsAscii, vstd_text/Characters.IsAsciiChars; contract
/// promisebook_text::pb_text_is_ascii; law vstd_text/Promised.is_ascii_promised, vstd_text/Kept.is_ascii_kept,
/// vstd_text/Characters.is_ascii_chars_same; pinned by vstd_text/Pinned.is_ascii_pinned; refused
/// text_ascii/is_ascii.any_byte, blocks_unread, with_0x80.
#[inline]
#[must_use]
pub fn is_ascii(s: &[u8]) -> bool {
    exported::text_is_ascii(s)
}

/// Whether every byte of the part is ASCII, at most 0x7f. Refused where `s` has no such part.
///
/// ```
/// use promisebook::text;
/// assert_eq!(text::is_ascii_in("(plain)".as_bytes(), 1..6), Some(true));
/// assert_eq!(text::is_ascii_in("(Aé€𐍈)".as_bytes(), 1..11), Some(false));
/// assert_eq!(text::is_ascii_in("()".as_bytes(), 1..1), Some(true));
/// assert_eq!(text::is_ascii_in("()".as_bytes(), 1..3), None);
/// ```
///
/// Cited by rows E33; clause vstd_text/Promises.IsAscii, vstd_text/Characters.IsAsciiChars; contract
/// promisebook_text::pb_text_is_ascii; law vstd_text/Promised.is_ascii_promised, vstd_text/Kept.is_ascii_kept,
/// vstd_text/Characters.is_ascii_chars_same; pinned by vstd_text/Pinned.is_ascii_pinned; refused
/// text_ascii/is_ascii.any_byte, blocks_unread, with_0x80.
#[inline]
#[must_use]
pub fn is_ascii_in(s: &[u8], part: Range<usize>) -> Option<bool> {
    Some(is_ascii(s.get(part)?))
}

/// The length of the longest beginning of `s` that is valid UTF-8: of all of it where that is valid.
///
/// ```
/// use promisebook::text;
/// assert_eq!(text::valid_up_to("Aé€𐍈".as_bytes()), 10);
/// assert_eq!(text::valid_up_to(&[0x41, 0xc3, 0xa9, 0xe2, 0x82, 0xac, 0xf0, 0x90, 0x8d]), 6);
/// assert_eq!(text::valid_up_to(&[0x61, 0x62, 0xff]), 2);
/// assert_eq!(text::valid_up_to(&[0x80]), 0);
/// assert_eq!(text::valid_up_to(&[]), 0);
/// ```
///
/// Cited by rows E30; clause vstd_text/Promises.ValidUpTo, vstd_text/Places.PartialValidUtf8; contract
/// promisebook_text::pb_text_valid_up_to; law vstd_text/Promised.valid_up_to_promised; pinned by
/// vstd_text/Pinned.valid_up_to_pinned; refused text_valid/valid_up_to.byte_out_of_place, wrong_byte_passed_over,
/// vstd_text/valid_up_to.not_the_most.
#[inline]
#[must_use]
pub fn valid_up_to(s: &[u8]) -> usize {
    exported::text_valid_up_to(s)
}

/// The length of the longest beginning of the part that is valid UTF-8: of all of it where that is valid. Refused
/// where `s` has no such part.
///
/// ```
/// use promisebook::text;
/// assert_eq!(text::valid_up_to_in("(Aé€𐍈)".as_bytes(), 1..11), Some(10));
/// assert_eq!(text::valid_up_to_in(&[0x28, 0x41, 0xc3, 0xa9, 0xe2, 0x82, 0xac, 0xf0, 0x90, 0x8d, 0x29], 1..10), Some(6));
/// assert_eq!(text::valid_up_to_in(&[0x28, 0x61, 0x62, 0xff, 0x29], 1..4), Some(2));
/// assert_eq!(text::valid_up_to_in(&[0x28, 0x80, 0x29], 1..2), Some(0));
/// assert_eq!(text::valid_up_to_in("()".as_bytes(), 1..1), Some(0));
/// assert_eq!(text::valid_up_to_in("()".as_bytes(), 1..3), None);
/// ```
///
/// Cited by rows E30; clause vstd_text/Promises.ValidUpTo, vstd_text/Places.PartialValidUtf8; contract
/// promisebook_text::pb_text_valid_up_to; law vstd_text/Promised.valid_up_to_promised; pinned by
/// vstd_text/Pinned.valid_up_to_pinned; refused text_valid/valid_up_to.byte_out_of_place, wrong_byte_passed_over,
/// vstd_text/valid_up_to.not_the_most.
#[inline]
#[must_use]
pub fn valid_up_to_in(s: &[u8], part: Range<usize>) -> Option<usize> {
    Some(valid_up_to(s.get(part)?))
}

/// `s` as a str, where it is valid UTF-8; else refused. It is validated once, by [`valid`], and not again.
///
/// ```
/// use promisebook::text;
/// assert_eq!(text::as_str(&[0x41, 0xc3, 0xa9]), Some("Aé"));
/// assert_eq!(text::as_str(&[0x41, 0xc3]), None);
/// ```
///
/// Cited by what [`valid`] is cited by.
#[inline]
#[must_use]
pub fn as_str(s: &[u8]) -> Option<&str> {
    exported::text_as_str(s)
}

/// The part as a str, where it is valid UTF-8; else refused. Refused, too, where `s` has no such part.
///
/// ```
/// use promisebook::text;
/// let s = &[0xff, 0x41, 0xc3, 0xa9];
/// assert_eq!(text::as_str_in(s, 1..4), Some("Aé"));
/// assert_eq!(text::as_str_in(s, 0..4), None);
/// assert_eq!(text::as_str_in(s, 1..5), None);
/// ```
///
/// Cited by what [`valid`] is cited by.
#[inline]
#[must_use]
pub fn as_str_in(s: &[u8], part: Range<usize>) -> Option<&str> {
    as_str(s.get(part)?)
}
