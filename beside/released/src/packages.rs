//! Replaces the helper functions that the operator tables call: checked integer arithmetic,
//! array and blob helpers.

pub mod arithmetic {
    pub mod arith_basic {
        #[allow(non_snake_case)]
        pub mod INT {
            pub mod functions {
                use crate::{Position, RhaiError, RhaiResultOf, ERR, INT};

                #[cold]
                #[inline(never)]
                fn make_err(msg: String) -> RhaiError {
                    ERR::ErrorArithmetic(msg, Position::NONE).into()
                }

                #[inline]
                pub fn add(x: INT, y: INT) -> RhaiResultOf<INT> {
                    x.checked_add(y).ok_or_else(|| make_err(format!("Overflow: {x} + {y}")))
                }
                #[inline]
                pub fn subtract(x: INT, y: INT) -> RhaiResultOf<INT> {
                    x.checked_sub(y).ok_or_else(|| make_err(format!("Overflow: {x} - {y}")))
                }
                #[inline]
                pub fn multiply(x: INT, y: INT) -> RhaiResultOf<INT> {
                    x.checked_mul(y).ok_or_else(|| make_err(format!("Overflow: {x} * {y}")))
                }
                #[inline]
                pub fn divide(x: INT, y: INT) -> RhaiResultOf<INT> {
                    if y == 0 {
                        return Err(make_err(format!("DivisionByZero: {x} / {y}")));
                    }
                    x.checked_div(y).ok_or_else(|| make_err(format!("Overflow: {x} / {y}")))
                }
                #[inline]
                pub fn modulo(x: INT, y: INT) -> RhaiResultOf<INT> {
                    if y == 0 {
                        return Err(make_err(format!("DivisionByZero: {x} % {y}")));
                    }
                    x.checked_rem(y).ok_or_else(|| make_err(format!("Overflow: {x} % {y}")))
                }
                #[inline]
                pub fn power(x: INT, y: INT) -> RhaiResultOf<INT> {
                    if y < 0 {
                        return Err(make_err(format!("NegativePower: {x} ** {y}")));
                    }
                    let Ok(y) = u32::try_from(y) else {
                        return Err(make_err(format!("PowerTooLarge: {x} ** {y}")));
                    };
                    x.checked_pow(y).ok_or_else(|| make_err(format!("Overflow: {x} ** {y}")))
                }
                #[inline]
                pub fn shift_left(x: INT, y: INT) -> INT {
                    if y < 0 {
                        return shift_right(x, y.checked_abs().unwrap_or(INT::MAX));
                    }
                    x.checked_shl(u32::try_from(y).unwrap_or(u32::MAX)).unwrap_or(0)
                }
                #[inline]
                pub fn shift_right(x: INT, y: INT) -> INT {
                    if y < 0 {
                        return shift_left(x, y.checked_abs().unwrap_or(INT::MAX));
                    }
                    x.checked_shr(u32::try_from(y).unwrap_or(u32::MAX)).unwrap_or(if x < 0 { -1 } else { 0 })
                }
                #[inline(always)]
                pub fn binary_and(x: INT, y: INT) -> INT {
                    x & y
                }
                #[inline(always)]
                pub fn binary_or(x: INT, y: INT) -> INT {
                    x | y
                }
                #[inline(always)]
                pub fn binary_xor(x: INT, y: INT) -> INT {
                    x ^ y
                }
            }
        }
    }
}

pub mod array_basic {
    pub mod array_functions {
        use crate::{Array, Dynamic};

        #[inline]
        pub fn append(array: &mut Array, new_array: Array) {
            if new_array.is_empty() {
            } else if array.is_empty() {
                *array = new_array;
            } else {
                array.extend(new_array);
            }
        }
        #[inline(always)]
        pub fn push(array: &mut Array, item: Dynamic) {
            array.push(item);
        }
    }
}

pub mod blob_basic {
    pub mod blob_functions {
        use crate::{Blob, INT};

        #[inline]
        pub fn append(blob: &mut Blob, new_blob: Blob) {
            if new_blob.is_empty() {
            } else if blob.is_empty() {
                *blob = new_blob;
            } else {
                blob.extend(new_blob);
            }
        }
        #[inline(always)]
        pub fn push(blob: &mut Blob, value: INT) {
            blob.push((value & 0xff) as u8);
        }
        #[inline]
        pub fn append_str(blob: &mut Blob, s: &str) {
            blob.extend_from_slice(s.as_bytes());
        }
        #[inline]
        pub fn append_char(blob: &mut Blob, c: char) {
            let mut buf = [0_u8; 4];
            blob.extend_from_slice(c.encode_utf8(&mut buf).as_bytes());
        }
    }
}
