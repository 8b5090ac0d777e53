//! Every operation of every integer type beside the standard library's: at 8 bits all pairs, at other widths all pairs of edges.
#[macro_use]
mod beside;

macro_rules! all_pairs {
    ($name:ident, $type:ident) => {
        #[test]
        fn $name() {
            for x in $type::MIN..=$type::MAX {
                beside::$name::one(x);
                for y in $type::MIN..=$type::MAX {
                    beside::$name::pair(x, y);
                }
            }
        }
    };
}

macro_rules! pairs_of_edges {
    ($name:ident) => {
        #[test]
        fn $name() {
            let edges = beside::$name::edges();
            for &x in &edges {
                beside::$name::one(x);
                for &y in &edges {
                    beside::$name::pair(x, y);
                }
            }
        }
    };
}

all_pairs!(of_u8, u8);
all_pairs!(of_i8, i8);
pairs_of_edges!(of_u16);
pairs_of_edges!(of_u32);
pairs_of_edges!(of_u64);
pairs_of_edges!(of_usize);
pairs_of_edges!(of_i16);
pairs_of_edges!(of_i32);
pairs_of_edges!(of_i64);
pairs_of_edges!(of_isize);

macro_rules! zeros {
    ($name:ident, $module:ident, $numbers:expr) => {
        #[test]
        fn $name() {
            for x in $numbers {
                same!($module: leading_zeros leading_ones trailing_zeros trailing_ones; (x) = x ());
            }
        }
    };
}

zeros!(zeros_of_u8, u8s, u8::MIN..=u8::MAX);
zeros!(zeros_of_u16, u16s, u16::MIN..=u16::MAX);
zeros!(zeros_of_u32, u32s, beside::of_u32::edges());
zeros!(zeros_of_u64, u64s, beside::of_u64::edges());

macro_rules! in_order {
    ($module:ident $type:ident $x:ident; $to:ident $to_in:ident $from:ident $from_in:ident) => {
        assert_eq!(promisebook::$module::$to($x), $x.$to());
        for from in 0..20 {
            for to in 0..20 {
                let mut ours = [0xa5; 17];
                let mut theirs = ours;
                let written = promisebook::$module::$to_in(&mut ours, from..to, $x);
                let place = theirs.get_mut(from..to).and_then(|part| part.get_mut(..$x.$to().len()));
                assert_eq!(written, place.map(|bytes| bytes.copy_from_slice(&$x.$to())));
                assert_eq!(ours, theirs, "{} of {} in {from}..{to}", stringify!($to), $x);
                let part = ours.get(from..to);
                let number = |part: &[u8]| part.try_into().ok().map($type::$from);
                assert_eq!(promisebook::$module::$from_in(&ours, from..to), part.and_then(number));
                assert_eq!(part.and_then(promisebook::$module::$from), part.and_then(number));
            }
        }
    };
}

macro_rules! bytes {
    ($name:ident, $module:ident, $type:ident) => {
        #[test]
        fn $name() {
            for x in beside::$name::edges() {
                in_order!($module $type x; to_le_bytes to_le_bytes_in from_le_bytes from_le_bytes_in);
                in_order!($module $type x; to_be_bytes to_be_bytes_in from_be_bytes from_be_bytes_in);
            }
        }
    };
}

mod bytes_of {
    use super::beside;
    bytes!(of_u16, u16s, u16);
    bytes!(of_u32, u32s, u32);
    bytes!(of_u64, u64s, u64);
    bytes!(of_i16, i16s, i16);
    bytes!(of_i32, i32s, i32);
    bytes!(of_i64, i64s, i64);
}
