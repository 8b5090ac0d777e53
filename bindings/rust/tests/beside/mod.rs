//! Our integers beside the standard library's: for each type, what is compared of one number and of a pair.
#![allow(dead_code)]

/// Our functions of some arguments, each beside the standard library's method of that name: `(x, y) = x (y)`.
macro_rules! same {
    ($module:ident: $($operation:ident)*; $ours:tt = $x:ident $theirs:tt) => {
        $(assert_eq!(
            promisebook::$module::$operation $ours,
            $x.$operation $theirs,
            "{}::{} of {:?}", stringify!($module), stringify!($operation), $ours
        );)*
    };
}

/// The edges of a type: both ends, and every power of two with its neighbours, of either sign.
macro_rules! edges {
    ($type:ident) => {
        pub fn edges() -> Vec<$type> {
            let powers = (0..$type::BITS).map(|bit| (1 as $type) << bit);
            let near = powers.flat_map(|power| [power.wrapping_sub(1), power, power.wrapping_add(1)]);
            let mut all: Vec<$type> = near.flat_map(|number| [number, number.wrapping_neg()]).chain([0, 7, 10, 100]).collect();
            all.sort_unstable();
            all.dedup();
            all
        }
    };
}

macro_rules! unsigned {
    ($name:ident, $module:ident, $type:ident, $signed:ident) => {
        pub mod $name {
            edges!($type);

            pub fn pair(x: $type, y: $type) {
                same!($module: wrapping_add wrapping_sub wrapping_mul saturating_add saturating_sub saturating_mul; (x, y) = x (y));
                same!($module: checked_add checked_sub checked_mul checked_next_multiple_of; (x, y) = x (y));
                same!($module: checked_div checked_rem checked_div_euclid checked_rem_euclid; (x, y) = x (y));
                same!($module: wrapping_add_signed checked_add_signed; (x, y as $signed) = x (y as $signed));
                same!($module: wrapping_shl wrapping_shr; (x, y as u32) = x (y as u32));
                same!($module: eq ne lt le gt ge cmp partial_cmp; (x, y) = x (&y));
                let multiple = if y == 0 { x == 0 } else { x % y == 0 };
                assert_eq!(promisebook::$module::is_multiple_of(x, y), multiple, "{x} {y}");
            }

            pub fn one(x: $type) {
                same!($module: clone; (x) = x ());
            }
        }
    };
}

macro_rules! signed {
    ($name:ident, $module:ident, $type:ident, $unsigned:ident) => {
        pub mod $name {
            edges!($type);

            pub fn pair(x: $type, y: $type) {
                same!($module: wrapping_add wrapping_sub wrapping_mul checked_add checked_sub checked_mul; (x, y) = x (y));
                same!($module: checked_div checked_rem checked_div_euclid checked_rem_euclid; (x, y) = x (y));
                same!($module: wrapping_add_unsigned checked_add_unsigned checked_sub_unsigned; (x, y as $unsigned) = x (y as $unsigned));
                same!($module: wrapping_shl wrapping_shr; (x, y as u32) = x (y as u32));
                same!($module: eq ne lt le gt ge cmp partial_cmp; (x, y) = x (&y));
            }

            pub fn one(x: $type) {
                same!($module: clone; (x) = x ());
            }
        }
    };
}

unsigned!(of_u8, u8s, u8, i8);
unsigned!(of_u16, u16s, u16, i16);
unsigned!(of_u32, u32s, u32, i32);
unsigned!(of_u64, u64s, u64, i64);
unsigned!(of_usize, usizes, usize, isize);
signed!(of_i8, i8s, i8, u8);
signed!(of_i16, i16s, i16, u16);
signed!(of_i32, i32s, i32, u32);
signed!(of_i64, i64s, i64, u64);
signed!(of_isize, isizes, isize, usize);
