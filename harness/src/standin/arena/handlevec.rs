//! A vector by handles. The compactor names the type and does nothing with it.

use core::marker::PhantomData;

pub struct HandleVec<T, U> {
    of: PhantomData<(T, U)>,
}
