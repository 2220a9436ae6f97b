//! Our library's C interface. build.rs sets a cfg for every function that the archives have; a
//! function that is absent is `None` here.
#![allow(unexpected_cfgs)]

macro_rules! functions {
    ($($name:ident($($type:ty),*) -> $result:ty;)*) => {$(
        pub fn $name() -> Option<unsafe extern "C" fn($($type),*) -> $result> {
            #[cfg($name)]
            {
                unsafe extern "C" {
                    fn $name($(_: $type),*) -> $result;
                }
                Some($name)
            }
            #[cfg(not($name))]
            None
        }
    )*};
}

type Bytes = *const u8;
type Words = *const u32;
type WordsMut = *mut u32;

functions! {
    hannuvel_leaf_numeral(Bytes, usize) -> u64;
    hannuvel_leaf_i32(Bytes, usize) -> u64;
    hannuvel_leaf_hexadecimal(Bytes, usize) -> u64;
    hannuvel_leaf_alpha(Bytes, usize) -> u64;
    hannuvel_leaf_colour(Bytes, usize) -> u64;
    hannuvel_leaf_trim(Bytes, usize) -> u64;
    hannuvel_leaf_parenthesis(Bytes, usize) -> u64;
    hannuvel_leaf_floats(Bytes, usize, WordsMut, usize) -> u64;
    hannuvel_leaf_ints(Bytes, usize, WordsMut, usize) -> u64;
    hannuvel_leaf_root(u32) -> u32;
    hannuvel_leaf_power(u32, u32) -> u32;
    hannuvel_leaf_lerp(u32, u32, u32) -> u32;
    hannuvel_leaf_clamp(u32, u32, u32) -> u32;
    hannuvel_leaf_max_zero(u32) -> u32;
    hannuvel_leaf_radians(u32) -> u32;
    hannuvel_leaf_round(u32) -> u32;
    hannuvel_leaf_cut(u32) -> u32;
    hannuvel_leaf_cut_byte(u32) -> u32;
    hannuvel_leaf_round_byte(u32) -> u32;
    hannuvel_leaf_nearest_i32(u32) -> u32;
    hannuvel_leaf_nearest_u32(u32) -> u32;
    hannuvel_leaf_in_reach(u32) -> u32;

    hannuvel_parse_overrides(Bytes, usize, WordsMut, usize) -> u64;
    hannuvel_parse_raw_block(Bytes, usize, WordsMut, usize) -> u64;
    hannuvel_evaluate_at(Words, usize, i32, i32, WordsMut) -> u64;
    hannuvel_next_mark(Words, usize, i32, i32) -> u64;
    hannuvel_karaoke_spans(Words, usize, WordsMut, usize) -> u64;
    hannuvel_progress(u32, u32, i32) -> u64;
    hannuvel_split_clip_arg(Bytes, usize) -> u64;
    hannuvel_parse_drawing(Bytes, usize, u32, WordsMut, usize) -> u64;
    hannuvel_style_in_force(Words, usize, i32, i32, Bytes, usize, Bytes, usize) -> u64;
}
