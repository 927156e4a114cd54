//! What the Rust's text leans on and what is not given with it, each as small as it can be. Under each: why it can't change an answer.

use std::fmt::Debug;

/// In place of `num::Zero` (see `extern crate self as num` in lib.rs). The text calls it in the default `zero_step` only, with i64's 0.
pub trait Zero: Sized {
    fn zero() -> Self;
}

/// In place of the crate's trait of columns. The text implements it and calls `len`, `get` and `iter` on types that it knows; `is_empty`'s default
/// is for vector.rs, where the text gives none.
#[allow(dead_code)]
pub(crate) trait Column<'a, T>: Debug {
    type Scan;
    fn len(&self) -> usize;
    fn is_empty(&self) -> bool {
        self.len() == 0
    }
    fn get(&self, index: usize) -> T;
    fn iter(&'a self) -> Self::Scan;
}

/// In place of the size in bytes, which is not carried over; nothing that answers a call reads it.
pub(crate) mod bytesized {
    #[allow(dead_code)]
    pub(crate) trait ByteSized {
        fn size_bytes(&self) -> u64;
    }
}

pub(crate) mod columnbuilder {
    pub(crate) mod rle {
        use crate::datatypes::RunLengthEncodable;
        use std::num::NonZeroUsize;

        /// In place of the builder's run. `from_rle_elements` reads the three fields and nothing else; it is how the harness hands a column over.
        #[derive(Debug, Clone, Copy)]
        pub(crate) struct RleElement<T: RunLengthEncodable> {
            pub(crate) value: T,
            pub(crate) length: NonZeroUsize,
            pub(crate) increment: T::Step,
        }
    }
}

pub(crate) mod datatypes {
    use crate::datatypes::{RunLengthEncodable, run_length_encodable::FloatingStep};
    use crate::{num::Zero, standins::bytesized::ByteSized};
    use std::fmt::Debug;
    use std::ops::{Div, Sub};

    /// In place of the crate's bound on element types: the operations that the text uses. For i64 they are the language's own.
    pub(crate) trait ColumnDataType:
        Debug + Copy + Ord + RunLengthEncodable + Sub<Output = Self> + Div<Output = Self> + FloorToUsize
    {
    }

    /// In place of the crate's rounding. Document 01: "`floor_to_usize` is missing from the text; a quotient below zero is taken as offset 0":
    /// none here, which the text's `unwrap_or_default` makes 0. An i64 quotient is whole, so there is nothing to round.
    pub(crate) trait FloorToUsize {
        fn floor_to_usize(self) -> Option<usize>;
    }

    macro_rules! whole {
        ($($t:ty)*) => {$(
            impl ColumnDataType for $t {}
            impl FloorToUsize for $t {
                fn floor_to_usize(self) -> Option<usize> {
                    usize::try_from(self).ok()
                }
            }
            impl Zero for $t {
                fn zero() -> Self {
                    0
                }
            }
        )*};
    }
    whole!(i64 u32 u64);

    // The text implements RunLengthEncodable for these too, and that asks for Zero; no column of them is ever made.
    macro_rules! zero {
        ($($t:ty)*) => {$(
            impl Zero for $t {
                fn zero() -> Self {
                    0
                }
            }
        )*};
    }
    zero!(i32 usize u8 i8);

    /// In place of the floats, which are not carried over: types without values, so that nothing can be answered with them.
    macro_rules! floats {
        ($($name:ident)*) => {$(
            #[derive(Debug, Clone, Copy, PartialEq, Eq, PartialOrd, Ord)]
            pub(crate) enum $name {}
            impl ColumnDataType for $name {}
            impl FloorToUsize for $name {
                fn floor_to_usize(self) -> Option<usize> {
                    match self {}
                }
            }
            impl Zero for $name {
                fn zero() -> Self {
                    unreachable!("a type without values")
                }
            }
            impl Sub for $name {
                type Output = Self;
                fn sub(self, _: Self) -> Self {
                    match self {}
                }
            }
            impl Div for $name {
                type Output = Self;
                fn div(self, _: Self) -> Self {
                    match self {}
                }
            }
            impl RunLengthEncodable for $name {
                type Step = FloatingStep;
                fn diff_step(prev: Self, _: Self) -> Option<Self::Step> {
                    match prev {}
                }
                fn get_step_increment(_: Self::Step) -> Option<Self> {
                    None
                }
                fn offset(self, _: Self::Step, _: usize) -> Self {
                    match self {}
                }
            }
            impl ByteSized for $name {
                fn size_bytes(&self) -> u64 {
                    match *self {}
                }
            }
        )*};
    }
    floats!(Float Double);

    /// In place of the crate's tagged values: read by `ColumnScanT` alone, which the harness does not use.
    #[allow(dead_code)]
    pub(crate) enum StorageValueT {
        Id32(u32),
        Id64(u64),
        Int64(i64),
        Float(Float),
        Double(Double),
    }

    /// As above: the tags alone.
    #[allow(dead_code)]
    pub(crate) enum StorageTypeName {
        Id32,
        Id64,
        Int64,
        Float,
        Double,
    }
}

/// In place of the scan kinds that are not carried over: types without values. No scan of them can be made, so no call reaches them.
pub(crate) mod kinds {
    macro_rules! kinds {
        ($($module:ident $name:ident)*) => {$(
            pub(crate) mod $module {
                use crate::columnar::columnscan::ColumnScan;
                use std::{marker::PhantomData, ops::Range};

                #[derive(Debug)]
                #[allow(dead_code)]
                pub(crate) enum Never {}
                #[derive(Debug)]
                pub(crate) struct $name<'a, T>(Never, PhantomData<&'a T>);
                crate::standins::kinds::no_values!($name<'_, T>);
            }
        )*};
    }

    macro_rules! no_values {
        ($name:ty) => {
            impl<T: std::fmt::Debug> Iterator for $name {
                type Item = T;
                fn next(&mut self) -> Option<T> {
                    match self.0 {}
                }
            }
            impl<T: std::fmt::Debug> ColumnScan for $name {
                fn seek(&mut self, _: T) -> Option<T> {
                    match self.0 {}
                }
                fn current(&self) -> Option<T> {
                    match self.0 {}
                }
                fn reset(&mut self) {
                    match self.0 {}
                }
                fn pos(&self) -> Option<usize> {
                    match self.0 {}
                }
                fn narrow(&mut self, _: Range<usize>) {
                    match self.0 {}
                }
            }
        };
    }
    pub(crate) use no_values;

    kinds! {
        filter ColumnScanFilter
        filter_constant ColumnScanFilterConstant
        filter_equal ColumnScanFilterEqual
        join ColumnScanJoin
        pass ColumnScanPass
        prune ColumnScanPrune
        subtract ColumnScanSubtract
        union ColumnScanUnion
    }

    /// As the others, but without a lifetime, and with the one call of its own that the text makes.
    pub(crate) mod constant {
        use crate::columnar::columnscan::ColumnScan;
        use std::{marker::PhantomData, ops::Range};

        #[derive(Debug)]
        #[allow(dead_code)]
        pub(crate) enum Never {}
        #[derive(Debug)]
        pub(crate) struct ColumnScanConstant<T>(Never, PhantomData<T>);
        impl<T> ColumnScanConstant<T> {
            pub(crate) fn set_constant(&mut self, _: Option<T>) {
                match self.0 {}
            }
        }
        crate::standins::kinds::no_values!(ColumnScanConstant<T>);
    }
}
