//! Stands in for src/wait. In serial runs nobody waits, so notifying does nothing.

use std::marker::PhantomData;

pub(crate) struct WaitCell;

pub(crate) struct WaitRegistration<'a>(PhantomData<&'a ()>);

pub(crate) trait WaitSource {
    type Registration<'a>
    where
        Self: 'a;

    fn register(&self) -> Self::Registration<'_>;
}

impl WaitCell {
    pub(crate) fn new() -> Self {
        Self
    }

    pub(crate) fn prepare(&self) -> WaitRegistration<'_> {
        WaitRegistration(PhantomData)
    }

    pub(crate) fn notify(&self) {}
}
