//! Handles of five kinds, one for each arena.
#![forbid(unsafe_code)]

use crate::kinds::Area;
use std::{fmt, hash::Hash};

mod sealed {
    pub trait Sealed {}
}

/// A record's place in its arena, from 0. The five handle types implement it and nothing else can.
pub trait Handle:
    Copy + Ord + Hash + fmt::Debug + fmt::Display + Into<Element> + sealed::Sealed
{
    /// The area that the handle is a place in.
    const AREA: Area;

    /// The handle of the record at `index`.
    fn new(index: u32) -> Self;

    /// The record's place.
    fn index(self) -> u32;
}

macro_rules! handles {
    ($($handle:ident, $element:ident, $area:ident;)*) => {
        $(
            #[doc = concat!("A place in [`Area::", stringify!($area), "`], from 0.")]
            #[derive(Clone, Copy, Debug, PartialEq, Eq, PartialOrd, Ord, Hash)]
            pub struct $handle(
                /// The place.
                pub u32,
            );

            impl sealed::Sealed for $handle {}

            impl Handle for $handle {
                const AREA: Area = Area::$area;

                fn new(index: u32) -> Self {
                    Self(index)
                }

                fn index(self) -> u32 {
                    self.0
                }
            }

            impl fmt::Display for $handle {
                fn fmt(&self, f: &mut fmt::Formatter<'_>) -> fmt::Result {
                    self.0.fmt(f)
                }
            }

            impl From<$handle> for Element {
                fn from(handle: $handle) -> Self {
                    Self::$element(handle)
                }
            }
        )*

        /// A handle with its area: what a mention names, and what a record refers to.
        #[derive(Clone, Copy, Debug, PartialEq, Eq, PartialOrd, Ord, Hash)]
        pub enum Element {
            $(
                #[doc = concat!("A record of [`Area::", stringify!($area), "`].")]
                $element($handle),
            )*
        }

        impl Element {
            /// The element at place `index` of `area`; `None` for the pools and the mentions.
            pub fn new(area: Area, index: u32) -> Option<Self> {
                match area {
                    $(Area::$area => Some(Self::$element($handle(index))),)*
                    Area::Members | Area::Components | Area::Mentions => None,
                }
            }

            /// The area that the element stands in.
            pub fn area(self) -> Area {
                match self {
                    $(Self::$element(_) => Area::$area,)*
                }
            }

            /// The element's place in its area.
            pub fn index(self) -> u32 {
                match self {
                    $(Self::$element(handle) => handle.0,)*
                }
            }
        }
    };
}

handles! {
    TypeHandle, Type, Types;
    ConstantHandle, Constant, Constants;
    OverrideHandle, Override, Overrides;
    GlobalHandle, Global, Globals;
    ExpressionHandle, Expression, Expressions;
}
