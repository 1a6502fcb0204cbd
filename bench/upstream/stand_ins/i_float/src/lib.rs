//! A stand-in for `i_float`: what the segment layer of i_overlay calls, and no more.
//!
//! Wide types: `i64`/`u64` for the engines `i16` and `i32`, `i128`/`u128` for `i64`.
//! With coordinates in `-2^(N-2)..=2^(N-2)-1` every sum of two products of
//! differences fits its wide type. The crossing's numerator is one word wider and
//! is kept in a product type (`u128`, or a pair of `u128`).

pub mod int {
    pub mod number {
        pub mod int {
            use super::uint::UIntNumber;
            use super::wide_int::WideIntNumber;
            use std::fmt::Debug;
            use std::ops::{Add, Shl, Sub};

            pub trait IntNumber:
                Copy
                + Ord
                + Default
                + Debug
                + Send
                + Sync
                + 'static
                + Add<Output = Self>
                + Sub<Output = Self>
                + Shl<u32, Output = Self>
            {
                type Wide: WideIntNumber<UInt = Self::WideUInt>;
                type WideUInt: UIntNumber;
                const ZERO: Self;
                const ONE: Self;
                const BITS: u32;
                fn to_wide(self) -> Self::Wide;
                fn from_wide(value: Self::Wide) -> Self;
                /// Condition: not negative.
                fn to_uint(self) -> Self::WideUInt;
                fn from_uint(value: Self::WideUInt) -> Self;
                fn from_usize(value: usize) -> Self;
            }

            macro_rules! int_number {
                ($int:ty, $wide:ty, $uint:ty) => {
                    impl IntNumber for $int {
                        type Wide = $wide;
                        type WideUInt = $uint;
                        const ZERO: Self = 0;
                        const ONE: Self = 1;
                        const BITS: u32 = <$int>::BITS;
                        #[inline(always)]
                        fn to_wide(self) -> $wide {
                            self as $wide
                        }
                        #[inline(always)]
                        fn from_wide(value: $wide) -> Self {
                            debug_assert!(<$int>::try_from(value).is_ok());
                            value as $int
                        }
                        #[inline(always)]
                        fn to_uint(self) -> $uint {
                            debug_assert!(self >= 0);
                            self as $uint
                        }
                        #[inline(always)]
                        fn from_uint(value: $uint) -> Self {
                            debug_assert!(<$int>::try_from(value).is_ok());
                            value as $int
                        }
                        #[inline(always)]
                        fn from_usize(value: usize) -> Self {
                            debug_assert!(<$int>::try_from(value).is_ok());
                            value as $int
                        }
                    }
                };
            }
            int_number!(i16, i64, u64);
            int_number!(i32, i64, u64);
            int_number!(i64, i128, u128);
        }

        pub mod wide_int {
            use super::uint::UIntNumber;
            use std::fmt::Debug;
            use std::ops::{Add, BitAnd, Div, Mul, Neg, Shr, Sub};

            pub trait WideIntNumber:
                Copy
                + Ord
                + Debug
                + Send
                + Sync
                + 'static
                + Add<Output = Self>
                + Sub<Output = Self>
                + Mul<Output = Self>
                + Div<Output = Self>
                + Neg<Output = Self>
                + BitAnd<Output = Self>
                + Shr<u32, Output = Self>
            {
                type UInt: UIntNumber;
                const ZERO: Self;
                const ONE: Self;
                const FOUR: Self;
                fn signum(self) -> Self;
                fn unsigned_abs(self) -> Self::UInt;
                fn from_uint(value: Self::UInt) -> Self;
                fn ilog2(self) -> u32;
                fn to_usize(self) -> usize;
            }

            macro_rules! wide_number {
                ($wide:ty, $uint:ty) => {
                    impl WideIntNumber for $wide {
                        type UInt = $uint;
                        const ZERO: Self = 0;
                        const ONE: Self = 1;
                        const FOUR: Self = 4;
                        #[inline(always)]
                        fn signum(self) -> Self {
                            <$wide>::signum(self)
                        }
                        #[inline(always)]
                        fn unsigned_abs(self) -> $uint {
                            <$wide>::unsigned_abs(self)
                        }
                        #[inline(always)]
                        fn from_uint(value: $uint) -> Self {
                            debug_assert!(<$wide>::try_from(value).is_ok());
                            value as $wide
                        }
                        #[inline(always)]
                        fn ilog2(self) -> u32 {
                            <$wide>::ilog2(self)
                        }
                        #[inline(always)]
                        fn to_usize(self) -> usize {
                            debug_assert!(usize::try_from(self).is_ok());
                            self as usize
                        }
                    }
                };
            }
            wide_number!(i64, u64);
            wide_number!(i128, u128);
        }

        pub mod uint {
            use super::product_uint::{Product128, UIntProduct};
            use std::fmt::Debug;
            use std::ops::{Add, AddAssign, Div, Mul, Shl, Shr, Sub};

            pub trait UIntNumber:
                Copy
                + Ord
                + Debug
                + Send
                + Sync
                + 'static
                + Add<Output = Self>
                + AddAssign
                + Sub<Output = Self>
                + Mul<Output = Self>
                + Div<Output = Self>
                + Shl<u32, Output = Self>
                + Shr<u32, Output = Self>
            {
                type Product: UIntProduct<UInt = Self>;
                const ZERO: Self;
                const ONE: Self;
                /// The number of the highest bit.
                const LAST_BIT_INDEX: u32;
                fn ilog2(self) -> u32;
            }

            macro_rules! uint_number {
                ($uint:ty, $product:ty) => {
                    impl UIntNumber for $uint {
                        type Product = $product;
                        const ZERO: Self = 0;
                        const ONE: Self = 1;
                        const LAST_BIT_INDEX: u32 = <$uint>::BITS - 1;
                        #[inline(always)]
                        fn ilog2(self) -> u32 {
                            <$uint>::ilog2(self)
                        }
                    }
                };
            }
            uint_number!(u64, u128);
            uint_number!(u128, Product128);
        }

        pub mod product_uint {
            use super::uint::UIntNumber;

            /// A product of two numbers at full width.
            pub trait UIntProduct: Copy {
                type UInt: UIntNumber<Product = Self>;
                fn multiply(a: Self::UInt, b: Self::UInt) -> Self;
                /// The quotient rounded to nearest, halves up.
                /// Conditions: the divisor is not 0, the quotient fits.
                fn divide_with_rounding(self, divisor: Self::UInt) -> Self::UInt;
            }

            impl UIntProduct for u128 {
                type UInt = u64;
                #[inline(always)]
                fn multiply(a: u64, b: u64) -> u128 {
                    a as u128 * b as u128
                }
                #[inline(always)]
                fn divide_with_rounding(self, divisor: u64) -> u64 {
                    if let Ok(low) = u64::try_from(self) {
                        // One machine division where the product is short.
                        let quotient = low / divisor;
                        let rest = low - quotient * divisor;
                        return quotient + (rest >= divisor - divisor / 2) as u64;
                    }
                    let divisor = divisor as u128;
                    let quotient = (self + divisor / 2) / divisor;
                    debug_assert!(u64::try_from(quotient).is_ok());
                    quotient as u64
                }
            }

            /// 256 bits: `high * 2^128 + low`.
            #[derive(Clone, Copy)]
            pub struct Product128 {
                high: u128,
                low: u128,
            }

            impl UIntProduct for Product128 {
                type UInt = u128;
                fn multiply(a: u128, b: u128) -> Self {
                    let half = u64::MAX as u128;
                    let (a1, a0) = (a >> 64, a & half);
                    let (b1, b0) = (b >> 64, b & half);
                    let (p00, p01, p10, p11) = (a0 * b0, a0 * b1, a1 * b0, a1 * b1);
                    let middle = (p00 >> 64) + (p01 & half) + (p10 & half);
                    Self { low: (p00 & half) | (middle << 64), high: p11 + (p01 >> 64) + (p10 >> 64) + (middle >> 64) }
                }
                fn divide_with_rounding(self, divisor: u128) -> u128 {
                    // Schoolbook, one bit at a time. Only the i64 engine comes here.
                    debug_assert!(self.high < divisor);
                    let mut rest = self.high;
                    let mut quotient = 0_u128;
                    for bit in (0..128).rev() {
                        let carry = rest >> 127;
                        rest = (rest << 1) | ((self.low >> bit) & 1);
                        quotient <<= 1;
                        if carry == 1 || rest >= divisor {
                            rest = rest.wrapping_sub(divisor);
                            quotient |= 1;
                        }
                    }
                    quotient + (rest >= divisor - divisor / 2) as u128
                }
            }
        }
    }

    pub mod point {
        use super::number::int::IntNumber;
        use super::number::wide_int::WideIntNumber;
        use std::ops::Sub;

        /// Ordered by x, then y (the derive follows the order of the fields).
        #[derive(Debug, Clone, Copy, PartialEq, Eq, PartialOrd, Ord, Default)]
        pub struct IntPoint<I: IntNumber = i32> {
            pub x: I,
            pub y: I,
        }

        /// A difference of two points.
        #[derive(Debug, Clone, Copy)]
        pub struct IntVector<I: IntNumber> {
            pub x: I::Wide,
            pub y: I::Wide,
        }

        impl<I: IntNumber> IntPoint<I> {
            pub const ZERO: Self = Self { x: I::ZERO, y: I::ZERO };
            #[inline(always)]
            pub const fn new(x: I, y: I) -> Self {
                Self { x, y }
            }
            #[inline(always)]
            pub fn sqr_distance(self, other: Self) -> I::WideUInt {
                let v = self - other;
                v.dot_product(v).unsigned_abs()
            }
        }

        impl<I: IntNumber> Sub for IntPoint<I> {
            type Output = IntVector<I>;
            #[inline(always)]
            fn sub(self, other: Self) -> IntVector<I> {
                IntVector { x: self.x.to_wide() - other.x.to_wide(), y: self.y.to_wide() - other.y.to_wide() }
            }
        }

        impl<I: IntNumber> IntVector<I> {
            #[inline(always)]
            pub fn cross_product(self, other: Self) -> I::Wide {
                self.x * other.y - self.y * other.x
            }
            #[inline(always)]
            pub fn dot_product(self, other: Self) -> I::Wide {
                self.x * other.x + self.y * other.y
            }
        }
    }

    pub mod rect {
        use super::number::int::IntNumber;

        #[derive(Debug, Clone, Copy, PartialEq, Eq)]
        pub struct IntRect<I: IntNumber = i32> {
            pub min_x: I,
            pub max_x: I,
            pub min_y: I,
            pub max_y: I,
        }

        impl<I: IntNumber> IntRect<I> {
            #[inline(always)]
            pub fn is_intersect_border_include(&self, other: &Self) -> bool {
                self.min_x <= other.max_x
                    && other.min_x <= self.max_x
                    && self.min_y <= other.max_y
                    && other.min_y <= self.max_y
            }
        }
    }
}

pub mod triangle {
    use super::int::number::int::IntNumber;
    use super::int::number::wide_int::WideIntNumber;
    use super::int::point::IntPoint;
    use std::cmp::Ordering;

    /// All from one number: `turn(p, q, r) = (q - p) x (r - p)`, negative where
    /// p, q, r go clockwise.
    pub struct Triangle;

    impl Triangle {
        #[inline(always)]
        pub fn area_two<I: IntNumber>(p: IntPoint<I>, q: IntPoint<I>, r: IntPoint<I>) -> I::Wide {
            (q - p).cross_product(r - p)
        }
        #[inline(always)]
        pub fn clock_direction<I: IntNumber>(p: IntPoint<I>, q: IntPoint<I>, r: IntPoint<I>) -> I::Wide {
            Self::area_two(p, q, r).signum()
        }
        #[inline(always)]
        pub fn clock_order<I: IntNumber>(p: IntPoint<I>, q: IntPoint<I>, r: IntPoint<I>) -> Ordering {
            Self::area_two(p, q, r).cmp(&I::Wide::ZERO)
        }
        #[inline(always)]
        pub fn is_clockwise<I: IntNumber>(p: IntPoint<I>, q: IntPoint<I>, r: IntPoint<I>) -> bool {
            Self::area_two(p, q, r) < I::Wide::ZERO
        }
        #[inline(always)]
        pub fn is_cw_or_line<I: IntNumber>(p: IntPoint<I>, q: IntPoint<I>, r: IntPoint<I>) -> bool {
            Self::area_two(p, q, r) <= I::Wide::ZERO
        }
        #[inline(always)]
        pub fn is_line<I: IntNumber>(p: IntPoint<I>, q: IntPoint<I>, r: IntPoint<I>) -> bool {
            Self::area_two(p, q, r) == I::Wide::ZERO
        }
        #[inline(always)]
        pub fn is_not_line<I: IntNumber>(p: IntPoint<I>, q: IntPoint<I>, r: IntPoint<I>) -> bool {
            !Self::is_line(p, q, r)
        }
    }
}
