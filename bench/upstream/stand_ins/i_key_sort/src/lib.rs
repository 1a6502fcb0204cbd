//! A stand-in for `i_key_sort`: the standard library's stable sort behind the
//! names that the segment layer of i_overlay calls. The flag for parallel sorts and
//! the reusable buffer are not used.

pub mod sort {
    pub mod key {
        pub trait SortKey: Copy + Ord {}
        impl SortKey for i16 {}
        impl SortKey for i32 {}
        impl SortKey for i64 {}
        impl SortKey for usize {}
    }

    pub mod one_key_cmp {
        use super::key::SortKey;
        use std::cmp::Ordering;

        pub trait OneKeyAndCmpSort<T> {
            fn sort_by_one_key_then_by_and_buffer<K, F, C>(
                &mut self,
                parallel: bool,
                buffer: &mut Vec<T>,
                key: F,
                compare: C,
            ) where
                K: SortKey,
                F: Fn(&T) -> K,
                C: Fn(&T, &T) -> Ordering;
        }

        impl<T> OneKeyAndCmpSort<T> for [T] {
            #[inline]
            fn sort_by_one_key_then_by_and_buffer<K, F, C>(
                &mut self,
                _parallel: bool,
                _buffer: &mut Vec<T>,
                key: F,
                compare: C,
            ) where
                K: SortKey,
                F: Fn(&T) -> K,
                C: Fn(&T, &T) -> Ordering,
            {
                self.sort_by(|a, b| key(a).cmp(&key(b)).then_with(|| compare(a, b)));
            }
        }
    }

    pub mod two_keys {
        use super::key::SortKey;

        pub trait TwoKeysSort<T> {
            fn sort_by_two_keys<First, Second, ByFirst, BySecond>(&mut self, parallel: bool, key1: ByFirst, key2: BySecond)
            where
                First: SortKey,
                Second: SortKey,
                ByFirst: Fn(&T) -> First,
                BySecond: Fn(&T) -> Second;
        }

        impl<T> TwoKeysSort<T> for [T] {
            #[inline]
            fn sort_by_two_keys<First, Second, ByFirst, BySecond>(&mut self, _parallel: bool, key1: ByFirst, key2: BySecond)
            where
                First: SortKey,
                Second: SortKey,
                ByFirst: Fn(&T) -> First,
                BySecond: Fn(&T) -> Second,
            {
                self.sort_by(|a, b| (key1(a), key2(a)).cmp(&(key1(b), key2(b))));
            }
        }
    }
}
