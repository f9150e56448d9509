//! Stands in for src/config. Waiting is left out; the check of the capacity is not.

use std::time::Instant;

use crate::error::ChannelError;

#[derive(Debug, Clone, Copy, Default)]
pub struct WaitStrategy;

pub(crate) struct SpinWait;

impl SpinWait {
    pub(crate) fn blocking(_: WaitStrategy) -> Self {
        Self
    }

    pub(crate) fn deadline(_: WaitStrategy, _: Instant) -> Self {
        Self
    }
}

pub(crate) fn validate_capacity(requested: usize, max: usize) -> Result<(), ChannelError> {
    if requested == 0 {
        Err(ChannelError::ZeroCapacity)
    } else if requested > max {
        Err(ChannelError::CapacityTooLarge { requested, max })
    } else {
        Ok(())
    }
}
