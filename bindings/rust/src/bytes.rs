//! Slices of bytes: a function works on all of `s`, and its namesake with `_in` on the bytes `part` of it.

use crate::exported;
use core::ops::Range;

/// How many bytes `s` has.
///
/// ```
/// use promisebook::bytes;
/// assert_eq!(bytes::len(&[20, 30, 40, 50]), 4);
/// ```
///
/// Cited by rows D65; clause vstd_slices/Promises.Len, theory_lists/Part.part; contract
/// promisebook_slices::pb_bytes_len; law vstd_slices/Kept.len_kept; pinned by vstd_slices/Pinned.len_pinned;
/// refused slices/len.counts_from_the_start, is_where_the_part_begins.
#[inline]
#[must_use]
pub fn len(s: &[u8]) -> usize {
    exported::bytes_len(s, 0, s.len()).value
}

/// How many bytes the part has. Refused where `s` has no such part.
///
/// ```
/// use promisebook::bytes;
/// let s = &[10, 20, 30, 40, 50, 60];
/// assert_eq!(bytes::len_in(s, 1..5), Some(4));
/// assert_eq!(bytes::len_in(s, 5..1), None);
/// assert_eq!(bytes::len_in(s, 1..7), None);
/// ```
///
/// Cited by rows D65; clause vstd_slices/Promises.Len, theory_lists/Part.part; contract
/// promisebook_slices::pb_bytes_len; law vstd_slices/Kept.len_kept; pinned by vstd_slices/Pinned.len_pinned;
/// refused slices/len.counts_from_the_start, is_where_the_part_begins.
#[inline]
#[must_use]
pub fn len_in(s: &[u8], part: Range<usize>) -> Option<usize> {
    let answer = exported::bytes_len(s, part.start, part.end);
    answer.ok.then_some(answer.value)
}

/// Whether `s` has no byte.
///
/// ```
/// use promisebook::bytes;
/// assert!(bytes::is_empty(&[]));
/// assert!(!bytes::is_empty(&[30]));
/// ```
///
/// Cited by rows D66; clause vstd_slices/Promises.IsEmpty, theory_lists/Part.part; contract
/// promisebook_slices::pb_bytes_is_empty; law vstd_slices/Kept.is_empty_kept; pinned by
/// vstd_slices/Pinned.is_empty_pinned; refused slices/is_empty.only_at_the_start, other_way_round.
#[inline]
#[must_use]
pub fn is_empty(s: &[u8]) -> bool {
    exported::bytes_is_empty(s, 0, s.len()).value
}

/// Whether the part has no byte. Refused where `s` has no such part.
///
/// ```
/// use promisebook::bytes;
/// let s = &[10, 20, 30, 40, 50, 60];
/// assert_eq!(bytes::is_empty_in(s, 2..2), Some(true));
/// assert_eq!(bytes::is_empty_in(s, 2..3), Some(false));
/// assert_eq!(bytes::is_empty_in(s, 7..7), None);
/// ```
///
/// Cited by rows D66; clause vstd_slices/Promises.IsEmpty, theory_lists/Part.part; contract
/// promisebook_slices::pb_bytes_is_empty; law vstd_slices/Kept.is_empty_kept; pinned by
/// vstd_slices/Pinned.is_empty_pinned; refused slices/is_empty.only_at_the_start, other_way_round.
#[inline]
#[must_use]
pub fn is_empty_in(s: &[u8], part: Range<usize>) -> Option<bool> {
    let answer = exported::bytes_is_empty(s, part.start, part.end);
    answer.ok.then_some(answer.value)
}

/// The byte `i` of `s`, counted from its start. Refused where `s` has no byte `i`.
///
/// ```
/// use promisebook::bytes;
/// let s = &[30, 40, 50];
/// assert_eq!(bytes::get(s, 1), Some(40));
/// assert_eq!(bytes::get(s, 3), None);
/// ```
///
/// Cited by rows D1, D2, D3, D4, D6, D22, D24, D25, D69, D70; clause vstd_slices/Promises.Get,
/// vstd_slices/Slices.Got, vstd_slices/Promises.SubRange, vstd_slices/Slices.Subrange; contract
/// promisebook_slices::pb_bytes_get; law vstd_slices/Promised.get_promised, vstd_slices/Kept.get_kept,
/// vstd_slices/Promised.sub_range_promised, vstd_slices/Kept.sub_range_kept; pinned by
/// vstd_slices/Pinned.get_pinned, sub_range_pinned; refused slices/get.bound_from_the_start, one_past_the_end,
/// vstd_slices/get.last_element_refused.
#[inline]
#[must_use]
pub fn get(s: &[u8], i: usize) -> Option<u8> {
    let answer = exported::bytes_get(s, 0, s.len(), i);
    answer.ok.then_some(answer.value)
}

/// The byte `i` of the part, counted from its start. Refused where the part has no byte `i`. Refused, too, where
/// `s` has no such part.
///
/// ```
/// use promisebook::bytes;
/// let s = &[10, 20, 30, 40, 50, 60];
/// assert_eq!(bytes::get_in(s, 2..5, 1), Some(40));
/// assert_eq!(bytes::get_in(s, 2..5, 3), None);
/// ```
///
/// Cited by rows D1, D2, D3, D4, D6, D22, D24, D25, D69, D70; clause vstd_slices/Promises.Get,
/// vstd_slices/Slices.Got, vstd_slices/Promises.SubRange, vstd_slices/Slices.Subrange; contract
/// promisebook_slices::pb_bytes_get; law vstd_slices/Promised.get_promised, vstd_slices/Kept.get_kept,
/// vstd_slices/Promised.sub_range_promised, vstd_slices/Kept.sub_range_kept; pinned by
/// vstd_slices/Pinned.get_pinned, sub_range_pinned; refused slices/get.bound_from_the_start, one_past_the_end,
/// vstd_slices/get.last_element_refused.
#[inline]
#[must_use]
pub fn get_in(s: &[u8], part: Range<usize>, i: usize) -> Option<u8> {
    let answer = exported::bytes_get(s, part.start, part.end, i);
    answer.ok.then_some(answer.value)
}

/// The first byte of `s`. Refused where `s` is empty.
///
/// ```
/// use promisebook::bytes;
/// assert_eq!(bytes::first(&[30, 40, 50]), Some(30));
/// assert_eq!(bytes::first(&[]), None);
/// ```
///
/// Cited by rows D38, D39, D43; clause vstd_slices/Promises.First, vstd_slices/Slices.First,
/// vstd_slices/Promises.Last, vstd_slices/Slices.Last; contract promisebook_slices::pb_bytes_first; law
/// vstd_slices/Promised.first_promised, vstd_slices/Kept.first_kept, vstd_slices/Promised.last_promised,
/// vstd_slices/Kept.last_kept; pinned by vstd_slices/Pinned.first_pinned, last_pinned; refused
/// slices/first.is_the_byte_after, of_the_slice, promisebook_slices/first.last.
#[inline]
#[must_use]
pub fn first(s: &[u8]) -> Option<u8> {
    let answer = exported::bytes_first(s, 0, s.len());
    answer.ok.then_some(answer.value)
}

/// The first byte of the part. Refused where the part is empty. Refused, too, where `s` has no such part.
///
/// ```
/// use promisebook::bytes;
/// let s = &[10, 20, 30, 40, 50, 60];
/// assert_eq!(bytes::first_in(s, 2..5), Some(30));
/// assert_eq!(bytes::first_in(s, 2..2), None);
/// ```
///
/// Cited by rows D38, D39, D43; clause vstd_slices/Promises.First, vstd_slices/Slices.First,
/// vstd_slices/Promises.Last, vstd_slices/Slices.Last; contract promisebook_slices::pb_bytes_first; law
/// vstd_slices/Promised.first_promised, vstd_slices/Kept.first_kept, vstd_slices/Promised.last_promised,
/// vstd_slices/Kept.last_kept; pinned by vstd_slices/Pinned.first_pinned, last_pinned; refused
/// slices/first.is_the_byte_after, of_the_slice, promisebook_slices/first.last.
#[inline]
#[must_use]
pub fn first_in(s: &[u8], part: Range<usize>) -> Option<u8> {
    let answer = exported::bytes_first(s, part.start, part.end);
    answer.ok.then_some(answer.value)
}

/// The last byte of `s`. Refused where `s` is empty.
///
/// ```
/// use promisebook::bytes;
/// assert_eq!(bytes::last(&[30, 40, 50]), Some(50));
/// assert_eq!(bytes::last(&[]), None);
/// ```
///
/// Cited by rows D40, D41, D43; clause vstd_slices/Promises.Last, vstd_slices/Slices.Last,
/// vstd_slices/Promises.First, vstd_slices/Slices.First; contract promisebook_slices::pb_bytes_last; law
/// vstd_slices/Promised.last_promised, vstd_slices/Kept.last_kept, vstd_slices/Promised.first_promised,
/// vstd_slices/Kept.first_kept; pinned by vstd_slices/Pinned.last_pinned, first_pinned; refused
/// slices/last.is_before_the_part, is_the_one_before.
#[inline]
#[must_use]
pub fn last(s: &[u8]) -> Option<u8> {
    let answer = exported::bytes_last(s, 0, s.len());
    answer.ok.then_some(answer.value)
}

/// The last byte of the part. Refused where the part is empty. Refused, too, where `s` has no such part.
///
/// ```
/// use promisebook::bytes;
/// let s = &[10, 20, 30, 40, 50, 60];
/// assert_eq!(bytes::last_in(s, 2..5), Some(50));
/// assert_eq!(bytes::last_in(s, 2..2), None);
/// ```
///
/// Cited by rows D40, D41, D43; clause vstd_slices/Promises.Last, vstd_slices/Slices.Last,
/// vstd_slices/Promises.First, vstd_slices/Slices.First; contract promisebook_slices::pb_bytes_last; law
/// vstd_slices/Promised.last_promised, vstd_slices/Kept.last_kept, vstd_slices/Promised.first_promised,
/// vstd_slices/Kept.first_kept; pinned by vstd_slices/Pinned.last_pinned, first_pinned; refused
/// slices/last.is_before_the_part, is_the_one_before.
#[inline]
#[must_use]
pub fn last_in(s: &[u8], part: Range<usize>) -> Option<u8> {
    let answer = exported::bytes_last(s, part.start, part.end);
    answer.ok.then_some(answer.value)
}

/// The bytes `range` of `s`, counted from its start. Refused where `s` has no such bytes.
///
/// ```
/// use promisebook::bytes;
/// let s = &[20, 30, 40, 50, 60];
/// assert_eq!(bytes::sub_range(s, 2..4), Some(&[40, 50][..]));
/// assert_eq!(bytes::sub_range(s, 2..6), None);
/// ```
///
/// Cited by rows D10, D11, D12, D13, D22, D25, D72, D73; clause vstd_slices/Promises.SubRange,
/// vstd_slices/Slices.Subrange, vstd_slices/Promises.Get, vstd_slices/Slices.Got; contract
/// promisebook_slices::pb_bytes_sub_range; law vstd_slices/Promised.sub_range_promised,
/// vstd_slices/Kept.sub_range_kept, vstd_slices/Promised.get_promised, vstd_slices/Kept.get_kept; pinned by
/// vstd_slices/Pinned.sub_range_pinned, get_pinned; refused slices_parts/sub_range.begins_from_the_start,
/// may_leave_the_part, may_run_backwards, slices_parts/sub_slice.is_empty, up_to_the_end,
/// vstd_slices/places.begin_left_open, end_left_open.
#[inline]
#[must_use]
pub fn sub_range(s: &[u8], range: Range<usize>) -> Option<&[u8]> {
    let answer = exported::bytes_sub_range(s, 0, s.len(), range.start, range.end);
    answer.ok.then_some(s.get(answer.from..answer.to)?)
}

/// The bytes `range` of the part, counted from its start. Refused where the part has no such bytes. Refused, too,
/// where `s` has no such part. The places answered are counted from the start of `s`.
///
/// ```
/// use promisebook::bytes;
/// let s = &[10, 20, 30, 40, 50, 60];
/// assert_eq!(bytes::sub_range_in(s, 1..6, 2..4), Some(3..5));
/// assert_eq!(bytes::sub_range_in(s, 1..6, 2..6), None);
/// ```
///
/// Cited by rows D10, D11, D12, D13, D22, D25, D72, D73; clause vstd_slices/Promises.SubRange,
/// vstd_slices/Slices.Subrange, vstd_slices/Promises.Get, vstd_slices/Slices.Got; contract
/// promisebook_slices::pb_bytes_sub_range; law vstd_slices/Promised.sub_range_promised,
/// vstd_slices/Kept.sub_range_kept, vstd_slices/Promised.get_promised, vstd_slices/Kept.get_kept; pinned by
/// vstd_slices/Pinned.sub_range_pinned, get_pinned; refused slices_parts/sub_range.begins_from_the_start,
/// may_leave_the_part, may_run_backwards, slices_parts/sub_slice.is_empty, up_to_the_end,
/// vstd_slices/places.begin_left_open, end_left_open.
#[inline]
#[must_use]
pub fn sub_range_in(s: &[u8], part: Range<usize>, range: Range<usize>) -> Option<Range<usize>> {
    let answer = exported::bytes_sub_range(s, part.start, part.end, range.start, range.end);
    answer.ok.then_some(answer.from..answer.to)
}

/// The first `m` bytes of `s`, and the rest. Refused where `s` has fewer than `m` bytes.
///
/// ```
/// use promisebook::bytes;
/// let s = &[20, 30, 40, 50, 60];
/// assert_eq!(bytes::split_at(s, 2), Some((&[20, 30][..], &[40, 50, 60][..])));
/// assert_eq!(bytes::split_at(s, 6), None);
/// ```
///
/// Cited by rows D45, D46, D47, D48, D50, D51; clause vstd_slices/Promises.SplitAt, vstd_slices/Slices.SplitAt;
/// contract promisebook_slices::pb_bytes_split_at; law vstd_slices/Promised.split_at_promised,
/// vstd_slices/Kept.split_at_kept; pinned by vstd_slices/Pinned.split_at_pinned; refused
/// slices_parts/split_at.from_the_start, may_leave_the_part.
#[inline]
#[must_use]
pub fn split_at(s: &[u8], m: usize) -> Option<(&[u8], &[u8])> {
    let answer = exported::bytes_split_at(s, 0, s.len(), m);
    answer.ok.then_some((s.get(answer.from..answer.middle)?, s.get(answer.middle..answer.to)?))
}

/// The first `m` bytes of the part, and the rest. Refused where the part has fewer than `m` bytes. Refused, too,
/// where `s` has no such part. The places answered are counted from the start of `s`.
///
/// ```
/// use promisebook::bytes;
/// let s = &[10, 20, 30, 40, 50, 60];
/// assert_eq!(bytes::split_at_in(s, 1..6, 2), Some((1..3, 3..6)));
/// assert_eq!(bytes::split_at_in(s, 1..6, 6), None);
/// ```
///
/// Cited by rows D45, D46, D47, D48, D50, D51; clause vstd_slices/Promises.SplitAt, vstd_slices/Slices.SplitAt;
/// contract promisebook_slices::pb_bytes_split_at; law vstd_slices/Promised.split_at_promised,
/// vstd_slices/Kept.split_at_kept; pinned by vstd_slices/Pinned.split_at_pinned; refused
/// slices_parts/split_at.from_the_start, may_leave_the_part.
#[inline]
#[must_use]
pub fn split_at_in(s: &[u8], part: Range<usize>, m: usize) -> Option<(Range<usize>, Range<usize>)> {
    let answer = exported::bytes_split_at(s, part.start, part.end, m);
    answer.ok.then_some((answer.from..answer.middle, answer.middle..answer.to))
}

/// The first byte of `s`, and the rest. Refused where `s` is empty.
///
/// ```
/// use promisebook::bytes;
/// assert_eq!(bytes::split_first(&[30, 40, 50]), Some((30, &[40, 50][..])));
/// assert_eq!(bytes::split_first(&[]), None);
/// ```
///
/// Cited by rows D52, D53, D54, D55; clause vstd_slices/Promises.SplitFirst, vstd_slices/Slices.SplitFirst;
/// contract promisebook_slices::pb_bytes_split_first; law vstd_slices/Promised.split_first_promised,
/// vstd_slices/Kept.split_first_kept; pinned by vstd_slices/Pinned.split_first_pinned; refused
/// slices/split_first.first_of_the_slice, skips_one, vstd_slices/split_first.rest_with_the_first.
#[inline]
#[must_use]
pub fn split_first(s: &[u8]) -> Option<(u8, &[u8])> {
    let answer = exported::bytes_split_first(s, 0, s.len());
    answer.ok.then_some((answer.first, s.get(answer.from..answer.to)?))
}

/// The first byte of the part, and the rest. Refused where the part is empty. Refused, too, where `s` has no such
/// part. The places answered are counted from the start of `s`.
///
/// ```
/// use promisebook::bytes;
/// let s = &[10, 20, 30, 40, 50, 60];
/// assert_eq!(bytes::split_first_in(s, 2..5), Some((30, 3..5)));
/// assert_eq!(bytes::split_first_in(s, 2..2), None);
/// ```
///
/// Cited by rows D52, D53, D54, D55; clause vstd_slices/Promises.SplitFirst, vstd_slices/Slices.SplitFirst;
/// contract promisebook_slices::pb_bytes_split_first; law vstd_slices/Promised.split_first_promised,
/// vstd_slices/Kept.split_first_kept; pinned by vstd_slices/Pinned.split_first_pinned; refused
/// slices/split_first.first_of_the_slice, skips_one, vstd_slices/split_first.rest_with_the_first.
#[inline]
#[must_use]
pub fn split_first_in(s: &[u8], part: Range<usize>) -> Option<(u8, Range<usize>)> {
    let answer = exported::bytes_split_first(s, part.start, part.end);
    answer.ok.then_some((answer.first, answer.from..answer.to))
}

/// The first `n` bytes of `s`, or all of them where it has fewer, and the rest. Refused where `s` is empty or `n`
/// is 0.
///
/// ```
/// use promisebook::bytes;
/// assert_eq!(bytes::next_piece(&[10, 20, 30, 40, 50, 60], 4), Some((&[10, 20, 30, 40][..], &[50, 60][..])));
/// assert_eq!(bytes::next_piece(&[50, 60], 4), Some((&[50, 60][..], &[][..])));
/// assert_eq!(bytes::next_piece(&[], 4), None);
/// assert_eq!(bytes::next_piece(&[10, 20, 30, 40, 50, 60], 0), None);
/// ```
///
/// Cited by rows D61, D63; clause vstd_slices/Promises.NextPiece, vstd_slices/Slices.Chunks; contract
/// promisebook_slices::pb_bytes_next_piece; law vstd_slices/Promised.next_piece_promised,
/// vstd_slices/Kept.next_piece_kept; pinned by vstd_slices/Pinned.next_piece_pinned; refused
/// slices_parts/next_piece.none_of_one, one_more.
#[inline]
#[must_use]
pub fn next_piece(s: &[u8], n: usize) -> Option<(&[u8], &[u8])> {
    let answer = exported::bytes_next_piece(s, 0, s.len(), n);
    answer.ok.then_some((s.get(answer.from..answer.to)?, s.get(answer.to..)?))
}

/// The first `n` bytes of the part, or all of them where it has fewer, and the rest. Refused where the part is
/// empty or `n` is 0. Refused, too, where `s` has no such part. The places answered are counted from the start of
/// `s`.
///
/// ```
/// use promisebook::bytes;
/// let s = &[10, 20, 30, 40, 50, 60];
/// assert_eq!(bytes::next_piece_in(s, 0..6, 4), Some((0..4, 4..6)));
/// assert_eq!(bytes::next_piece_in(s, 4..6, 4), Some((4..6, 6..6)));
/// assert_eq!(bytes::next_piece_in(s, 6..6, 4), None);
/// assert_eq!(bytes::next_piece_in(s, 0..6, 0), None);
/// ```
///
/// Cited by rows D61, D63; clause vstd_slices/Promises.NextPiece, vstd_slices/Slices.Chunks; contract
/// promisebook_slices::pb_bytes_next_piece; law vstd_slices/Promised.next_piece_promised,
/// vstd_slices/Kept.next_piece_kept; pinned by vstd_slices/Pinned.next_piece_pinned; refused
/// slices_parts/next_piece.none_of_one, one_more.
#[inline]
#[must_use]
pub fn next_piece_in(s: &[u8], part: Range<usize>, n: usize) -> Option<(Range<usize>, Range<usize>)> {
    let answer = exported::bytes_next_piece(s, part.start, part.end, n);
    answer.ok.then_some((answer.from..answer.to, answer.to..part.end))
}

/// Whether `s` begins with `needle`.
///
/// ```
/// use promisebook::bytes;
/// let s = &[20, 30, 40];
/// assert!(bytes::starts_with(s, &[20, 30]));
/// assert!(!bytes::starts_with(s, &[30]));
/// ```
///
/// Cited by rows D18, D19; clause vstd_slices/Promises.StartsWith, vstd_slices/Slices.FalseWhereLonger,
/// StartsWith; contract promisebook_slices::pb_bytes_starts_with; law vstd_slices/Promised.starts_with_promised,
/// vstd_slices/Kept.starts_with_longer_kept, starts_with_kept; pinned by vstd_slices/Pinned.starts_with_pinned;
/// refused slices_compare/starts_with.after_the_front, whole_part.
#[inline]
#[must_use]
pub fn starts_with(s: &[u8], needle: &[u8]) -> bool {
    exported::bytes_starts_with(s, 0, s.len(), needle).value
}

/// Whether the part begins with `needle`. Refused where `s` has no such part.
///
/// ```
/// use promisebook::bytes;
/// let s = &[10, 20, 30, 40, 50, 60];
/// assert_eq!(bytes::starts_with_in(s, 1..4, &[20, 30]), Some(true));
/// assert_eq!(bytes::starts_with_in(s, 1..4, &[30]), Some(false));
/// assert_eq!(bytes::starts_with_in(s, 1..7, &[]), None);
/// ```
///
/// Cited by rows D18, D19; clause vstd_slices/Promises.StartsWith, vstd_slices/Slices.FalseWhereLonger,
/// StartsWith; contract promisebook_slices::pb_bytes_starts_with; law vstd_slices/Promised.starts_with_promised,
/// vstd_slices/Kept.starts_with_longer_kept, starts_with_kept; pinned by vstd_slices/Pinned.starts_with_pinned;
/// refused slices_compare/starts_with.after_the_front, whole_part.
#[inline]
#[must_use]
pub fn starts_with_in(s: &[u8], part: Range<usize>, needle: &[u8]) -> Option<bool> {
    let answer = exported::bytes_starts_with(s, part.start, part.end, needle);
    answer.ok.then_some(answer.value)
}

/// Whether `s` ends with `needle`.
///
/// ```
/// use promisebook::bytes;
/// let s = &[20, 30, 40];
/// assert!(bytes::ends_with(s, &[30, 40]));
/// assert!(!bytes::ends_with(s, &[50]));
/// ```
///
/// Cited by rows D20, D21; clause vstd_slices/Promises.EndsWith, vstd_slices/Slices.FalseWhereLonger, EndsWith;
/// contract promisebook_slices::pb_bytes_ends_with; law vstd_slices/Promised.ends_with_promised,
/// vstd_slices/Kept.ends_with_longer_kept, ends_with_kept; pinned by vstd_slices/Pinned.ends_with_pinned; refused
/// slices_compare/ends_with.after_the_front, whole_part, vstd_slices/ends_with.compared_from_the_front.
#[inline]
#[must_use]
pub fn ends_with(s: &[u8], needle: &[u8]) -> bool {
    exported::bytes_ends_with(s, 0, s.len(), needle).value
}

/// Whether the part ends with `needle`. Refused where `s` has no such part.
///
/// ```
/// use promisebook::bytes;
/// let s = &[10, 20, 30, 40, 50, 60];
/// assert_eq!(bytes::ends_with_in(s, 1..4, &[30, 40]), Some(true));
/// assert_eq!(bytes::ends_with_in(s, 1..4, &[50]), Some(false));
/// assert_eq!(bytes::ends_with_in(s, 1..7, &[]), None);
/// ```
///
/// Cited by rows D20, D21; clause vstd_slices/Promises.EndsWith, vstd_slices/Slices.FalseWhereLonger, EndsWith;
/// contract promisebook_slices::pb_bytes_ends_with; law vstd_slices/Promised.ends_with_promised,
/// vstd_slices/Kept.ends_with_longer_kept, ends_with_kept; pinned by vstd_slices/Pinned.ends_with_pinned; refused
/// slices_compare/ends_with.after_the_front, whole_part, vstd_slices/ends_with.compared_from_the_front.
#[inline]
#[must_use]
pub fn ends_with_in(s: &[u8], part: Range<usize>, needle: &[u8]) -> Option<bool> {
    let answer = exported::bytes_ends_with(s, part.start, part.end, needle);
    answer.ok.then_some(answer.value)
}

/// Whether `v` is a byte of `s`.
///
/// ```
/// use promisebook::bytes;
/// let s = &[20, 30, 40];
/// assert!(bytes::contains(s, 40));
/// assert!(!bytes::contains(s, 50));
/// ```
///
/// Cited by rows D33; clause vstd_slices/Promises.Contains, theory_lists/Part.Has; contract
/// promisebook_slices::pb_bytes_contains; law vstd_slices/Kept.contains_kept; pinned by
/// vstd_slices/Pinned.contains_pinned; refused slices_compare/contains.after_the_part, before_the_part,
/// vstd_slices/contains.silent_where_refused, slices_whole/has.always, every_byte, only_in_the_first_block.
#[inline]
#[must_use]
pub fn contains(s: &[u8], v: u8) -> bool {
    exported::bytes_contains(s, 0, s.len(), v).value
}

/// Whether `v` is a byte of the part. Refused where `s` has no such part.
///
/// ```
/// use promisebook::bytes;
/// let s = &[10, 20, 30, 40, 50, 60];
/// assert_eq!(bytes::contains_in(s, 1..4, 40), Some(true));
/// assert_eq!(bytes::contains_in(s, 1..4, 50), Some(false));
/// assert_eq!(bytes::contains_in(s, 4..1, 40), None);
/// ```
///
/// Cited by rows D33; clause vstd_slices/Promises.Contains, theory_lists/Part.Has; contract
/// promisebook_slices::pb_bytes_contains; law vstd_slices/Kept.contains_kept; pinned by
/// vstd_slices/Pinned.contains_pinned; refused slices_compare/contains.after_the_part, before_the_part,
/// vstd_slices/contains.silent_where_refused, slices_whole/has.always, every_byte, only_in_the_first_block.
#[inline]
#[must_use]
pub fn contains_in(s: &[u8], part: Range<usize>, v: u8) -> Option<bool> {
    let answer = exported::bytes_contains(s, part.start, part.end, v);
    answer.ok.then_some(answer.value)
}

/// Whether `s` and `other` have the same bytes.
///
/// ```
/// use promisebook::bytes;
/// let s = &[20, 30];
/// assert!(bytes::equal(s, &[20, 30]));
/// assert!(!bytes::equal(s, &[20, 30, 40]));
/// ```
///
/// Cited by rows D32; clause vstd_slices/Promises.Equal, vstd_slices/Slices.SameElements; contract
/// promisebook_slices::pb_bytes_equal; law vstd_slices/Promised.equal_promised, vstd_slices/Kept.equal_kept;
/// pinned by vstd_slices/Pinned.equal_pinned; refused slices_compare/equal.up_to_the_end, with_itself,
/// slices_whole/same.any_byte_alike, blocks_unread, last_block_unread, never.
#[inline]
#[must_use]
pub fn equal(s: &[u8], other: &[u8]) -> bool {
    exported::bytes_equal(s, 0, s.len(), other).value
}

/// Whether the part and `other` have the same bytes. Refused where `s` has no such part.
///
/// ```
/// use promisebook::bytes;
/// let s = &[10, 20, 30, 40, 50, 60];
/// assert_eq!(bytes::equal_in(s, 1..3, &[20, 30]), Some(true));
/// assert_eq!(bytes::equal_in(s, 1..3, &[20, 30, 40]), Some(false));
/// assert_eq!(bytes::equal_in(s, 1..7, &[]), None);
/// ```
///
/// Cited by rows D32; clause vstd_slices/Promises.Equal, vstd_slices/Slices.SameElements; contract
/// promisebook_slices::pb_bytes_equal; law vstd_slices/Promised.equal_promised, vstd_slices/Kept.equal_kept;
/// pinned by vstd_slices/Pinned.equal_pinned; refused slices_compare/equal.up_to_the_end, with_itself,
/// slices_whole/same.any_byte_alike, blocks_unread, last_block_unread, never.
#[inline]
#[must_use]
pub fn equal_in(s: &[u8], part: Range<usize>, other: &[u8]) -> Option<bool> {
    let answer = exported::bytes_equal(s, part.start, part.end, other);
    answer.ok.then_some(answer.value)
}

/// Makes `v` the byte `i` of `s`, counted from its start, and changes no other byte. Refused where `s` has no
/// byte `i`.
///
/// ```
/// use promisebook::bytes;
/// let mut s = [30, 40, 50];
/// assert_eq!(bytes::set(&mut s, 1, 7), Some(()));
/// assert_eq!(s, [30, 7, 50]);
/// let mut s = [30, 40, 50];
/// assert_eq!(bytes::set(&mut s, 3, 7), None);
/// assert_eq!(s, [30, 40, 50]);
/// ```
///
/// Cited by rows D5, D7, D8, D9, D23, D26, D27, D42, D44, D56, D67, D68; clause vstd_slices/Promises.Set,
/// vstd_slices/Slices.Updated, vstd_slices/Promises.CopyFrom, vstd_slices/Slices.PartReplaced; contract
/// promisebook_slices::pb_bytes_set; law vstd_slices/Promised.set_promised, vstd_slices/Kept.set_kept,
/// vstd_slices/Promised.copy_from_promised, vstd_slices/Kept.copy_from_kept; pinned by
/// vstd_slices/Pinned.set_pinned, copy_from_pinned; refused slices_mut/set.last_instead, one_past_the_end,
/// vstd_slices/set.refusal_leaves_anything.
#[inline]
#[must_use]
pub fn set(s: &mut [u8], i: usize, v: u8) -> Option<()> {
    exported::bytes_set(s, 0, s.len(), i, v).then_some(())
}

/// Makes `v` the byte `i` of the part, counted from its start, and changes no other byte. Refused where the part
/// has no byte `i`. Refused, too, where `s` has no such part.
///
/// ```
/// use promisebook::bytes;
/// let mut s = [10, 20, 30, 40, 50, 60];
/// assert_eq!(bytes::set_in(&mut s, 2..5, 1, 7), Some(()));
/// assert_eq!(s, [10, 20, 30, 7, 50, 60]);
/// let mut s = [10, 20, 30, 40, 50, 60];
/// assert_eq!(bytes::set_in(&mut s, 2..5, 3, 7), None);
/// assert_eq!(s, [10, 20, 30, 40, 50, 60]);
/// ```
///
/// Cited by rows D5, D7, D8, D9, D23, D26, D27, D42, D44, D56, D67, D68; clause vstd_slices/Promises.Set,
/// vstd_slices/Slices.Updated, vstd_slices/Promises.CopyFrom, vstd_slices/Slices.PartReplaced; contract
/// promisebook_slices::pb_bytes_set; law vstd_slices/Promised.set_promised, vstd_slices/Kept.set_kept,
/// vstd_slices/Promised.copy_from_promised, vstd_slices/Kept.copy_from_kept; pinned by
/// vstd_slices/Pinned.set_pinned, copy_from_pinned; refused slices_mut/set.last_instead, one_past_the_end,
/// vstd_slices/set.refusal_leaves_anything.
#[inline]
#[must_use]
pub fn set_in(s: &mut [u8], part: Range<usize>, i: usize, v: u8) -> Option<()> {
    exported::bytes_set(s, part.start, part.end, i, v).then_some(())
}

/// Turns `s` the other way round.
///
/// ```
/// use promisebook::bytes;
/// let mut s = [20, 30, 40, 50];
/// bytes::reverse(&mut s);
/// assert_eq!(s, [50, 40, 30, 20]);
/// ```
///
/// Cited by rows D14, D15, D16, D34; clause vstd_slices/Promises.CopyFrom, Reverse, CopyWithin,
/// vstd_slices/Slices.PartReplaced, Reversed; contract promisebook_slices::pb_bytes_reverse; law
/// vstd_slices/Promised.copy_from_promised, reverse_promised, copy_within_promised,
/// vstd_slices/Kept.copy_from_kept, reverse_kept; pinned by vstd_slices/Pinned.copy_from_pinned, reverse_pinned,
/// copy_within_pinned; refused slices_reverse/reverse.back_block_twice, blocks_overlap, from_the_start,
/// one_byte_everywhere, two_left_as_they_are.
#[inline]
pub fn reverse(s: &mut [u8]) {
    exported::bytes_reverse(s, 0, s.len());
}

/// Turns the part the other way round. Changes no byte outside it. Refused where `s` has no such part.
///
/// ```
/// use promisebook::bytes;
/// let mut s = [10, 20, 30, 40, 50, 60];
/// assert_eq!(bytes::reverse_in(&mut s, 1..5), Some(()));
/// assert_eq!(s, [10, 50, 40, 30, 20, 60]);
/// let mut s = [10, 20, 30, 40, 50, 60];
/// assert_eq!(bytes::reverse_in(&mut s, 1..7), None);
/// assert_eq!(s, [10, 20, 30, 40, 50, 60]);
/// ```
///
/// Cited by rows D14, D15, D16, D34; clause vstd_slices/Promises.CopyFrom, Reverse, CopyWithin,
/// vstd_slices/Slices.PartReplaced, Reversed; contract promisebook_slices::pb_bytes_reverse; law
/// vstd_slices/Promised.copy_from_promised, reverse_promised, copy_within_promised,
/// vstd_slices/Kept.copy_from_kept, reverse_kept; pinned by vstd_slices/Pinned.copy_from_pinned, reverse_pinned,
/// copy_within_pinned; refused slices_reverse/reverse.back_block_twice, blocks_overlap, from_the_start,
/// one_byte_everywhere, two_left_as_they_are.
#[inline]
#[must_use]
pub fn reverse_in(s: &mut [u8], part: Range<usize>) -> Option<()> {
    exported::bytes_reverse(s, part.start, part.end).then_some(())
}

/// Makes the bytes of `s` those of `other`. Refused where `other` has another length.
///
/// ```
/// use promisebook::bytes;
/// let mut s = [20, 30, 40];
/// assert_eq!(bytes::copy_from(&mut s, &[7, 8, 9]), Some(()));
/// assert_eq!(s, [7, 8, 9]);
/// let mut s = [20, 30, 40];
/// assert_eq!(bytes::copy_from(&mut s, &[7, 8]), None);
/// assert_eq!(s, [20, 30, 40]);
/// ```
///
/// Cited by rows D14, D15, D16, D17, D23, D26, D27, D49, D56, D57, D58; clause vstd_slices/Promises.CopyFrom,
/// Reverse, CopyWithin, vstd_slices/Slices.PartReplaced, Reversed, vstd_slices/Promises.Set,
/// vstd_slices/Slices.Updated; contract promisebook_slices::pb_bytes_copy_from; law
/// vstd_slices/Promised.copy_from_promised, reverse_promised, copy_within_promised,
/// vstd_slices/Kept.copy_from_kept, reverse_kept, vstd_slices/Promised.set_promised, vstd_slices/Kept.set_kept;
/// pinned by vstd_slices/Pinned.copy_from_pinned, reverse_pinned, copy_within_pinned, set_pinned; refused
/// slices_copy/copy_from.blocks_in_one_place, first_block_and_last, longer_is_cut, to_the_start,
/// vstd_slices/part_replaced.byte_behind_left_open, promisebook_slices/copy_from.before_and_after.
#[inline]
#[must_use]
pub fn copy_from(s: &mut [u8], other: &[u8]) -> Option<()> {
    exported::bytes_copy_from(s, 0, s.len(), other).then_some(())
}

/// Makes the bytes of the part those of `other`. Refused where `other` has another length. Changes no byte
/// outside it. Refused, too, where `s` has no such part.
///
/// ```
/// use promisebook::bytes;
/// let mut s = [10, 20, 30, 40, 50, 60];
/// assert_eq!(bytes::copy_from_in(&mut s, 1..4, &[7, 8, 9]), Some(()));
/// assert_eq!(s, [10, 7, 8, 9, 50, 60]);
/// let mut s = [10, 20, 30, 40, 50, 60];
/// assert_eq!(bytes::copy_from_in(&mut s, 1..4, &[7, 8]), None);
/// assert_eq!(s, [10, 20, 30, 40, 50, 60]);
/// ```
///
/// Cited by rows D14, D15, D16, D17, D23, D26, D27, D49, D56, D57, D58; clause vstd_slices/Promises.CopyFrom,
/// Reverse, CopyWithin, vstd_slices/Slices.PartReplaced, Reversed, vstd_slices/Promises.Set,
/// vstd_slices/Slices.Updated; contract promisebook_slices::pb_bytes_copy_from; law
/// vstd_slices/Promised.copy_from_promised, reverse_promised, copy_within_promised,
/// vstd_slices/Kept.copy_from_kept, reverse_kept, vstd_slices/Promised.set_promised, vstd_slices/Kept.set_kept;
/// pinned by vstd_slices/Pinned.copy_from_pinned, reverse_pinned, copy_within_pinned, set_pinned; refused
/// slices_copy/copy_from.blocks_in_one_place, first_block_and_last, longer_is_cut, to_the_start,
/// vstd_slices/part_replaced.byte_behind_left_open, promisebook_slices/copy_from.before_and_after.
#[inline]
#[must_use]
pub fn copy_from_in(s: &mut [u8], part: Range<usize>, other: &[u8]) -> Option<()> {
    exported::bytes_copy_from(s, part.start, part.end, other).then_some(())
}

/// Copies the bytes `range` of `s` to the place `at` on, both counted from its start, as if all of them had been
/// read before a byte is written: both may overlap. Changes no other byte. Refused where `s` has no such bytes,
/// and where the copy would go past its end.
///
/// ```
/// use promisebook::bytes;
/// let mut s = [10, 20, 30, 40, 50, 60];
/// assert_eq!(bytes::copy_within(&mut s, 0..4, 2), Some(()));
/// assert_eq!(s, [10, 20, 10, 20, 30, 40]);
/// let mut s = [10, 20, 30, 40, 50, 60];
/// assert_eq!(bytes::copy_within(&mut s, 0..4, 3), None);
/// assert_eq!(s, [10, 20, 30, 40, 50, 60]);
/// ```
///
/// Cited by rows D14, D16, D59, D60; clause vstd_slices/Promises.CopyFrom, Reverse, CopyWithin,
/// vstd_slices/Slices.CopiedWithin; contract promisebook_slices::pb_bytes_copy_within; law
/// vstd_slices/Promised.copy_from_promised, reverse_promised, copy_within_promised,
/// vstd_slices/Kept.copy_within_kept; pinned by vstd_slices/Pinned.copy_from_pinned, reverse_pinned,
/// copy_within_pinned; refused slices_move/copy_within.a_byte_further, a_byte_nearer, first_block_last,
/// front_loop_when_behind, front_when_behind, not_up_to_the_end, past_the_end, where_it_was,
/// vstd_slices/copy_within.reads_what_it_wrote.
#[inline]
#[must_use]
pub fn copy_within(s: &mut [u8], range: Range<usize>, at: usize) -> Option<()> {
    exported::bytes_copy_within(s, range.start, range.end, at).then_some(())
}

/// Copies the bytes `range` of the part to the place `at` on, both counted from its start, as if all of them had
/// been read before a byte is written: both may overlap. Changes no other byte. Refused where the part has no
/// such bytes, and where the copy would go past its end. Refused, too, where `s` has no such part.
///
/// ```
/// use promisebook::bytes;
/// let mut s = [9, 10, 20, 30, 40, 50, 60, 9];
/// assert_eq!(bytes::copy_within_in(&mut s, 1..7, 0..4, 2), Some(()));
/// assert_eq!(s, [9, 10, 20, 10, 20, 30, 40, 9]);
/// let mut s = [9, 10, 20, 30, 40, 50, 60, 9];
/// assert_eq!(bytes::copy_within_in(&mut s, 1..7, 0..4, 3), None);
/// assert_eq!(s, [9, 10, 20, 30, 40, 50, 60, 9]);
/// let mut s = [9, 10, 20, 30, 40, 50, 60, 9];
/// assert_eq!(bytes::copy_within_in(&mut s, 1..9, 0..4, 3), None);
/// assert_eq!(s, [9, 10, 20, 30, 40, 50, 60, 9]);
/// ```
///
/// Cited by rows D14, D16, D59, D60; clause vstd_slices/Promises.CopyFrom, Reverse, CopyWithin,
/// vstd_slices/Slices.CopiedWithin; contract promisebook_slices::pb_bytes_copy_within; law
/// vstd_slices/Promised.copy_from_promised, reverse_promised, copy_within_promised,
/// vstd_slices/Kept.copy_within_kept; pinned by vstd_slices/Pinned.copy_from_pinned, reverse_pinned,
/// copy_within_pinned; refused slices_move/copy_within.a_byte_further, a_byte_nearer, first_block_last,
/// front_loop_when_behind, front_when_behind, not_up_to_the_end, past_the_end, where_it_was,
/// vstd_slices/copy_within.reads_what_it_wrote.
#[inline]
#[must_use]
pub fn copy_within_in(s: &mut [u8], part: Range<usize>, range: Range<usize>, at: usize) -> Option<()> {
    copy_within(s.get_mut(part)?, range, at)
}
