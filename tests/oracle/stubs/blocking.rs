//! Stands in for src/blocking. Waits are left out; `recheck` is the way to `try_send_inner`'s two results.

use std::marker::PhantomData;
use std::time::Instant;

use crate::config::SpinWait;
use crate::error::{RecvError, RecvTimeoutError, SendTimeoutError, TryRecvError, TrySendError};

pub(crate) enum Attempt<V, O> {
    Done(O),
    Pending(V),
}

pub(crate) enum Recheck<V, O, D> {
    Done(O, D),
    Progressed(V, D),
    Pending(V),
}

pub(crate) trait Blocking<V> {
    type Output;
    type Deferred;
    type Waiter;

    fn waiter(&self) -> Self::Waiter;
    fn attempt(&mut self, value: V) -> Attempt<V, Self::Output>;
    fn recheck(&mut self, value: V) -> Recheck<V, Self::Output, Self::Deferred>;
    fn notify(&mut self, deferred: Self::Deferred);
}

pub(crate) fn block<V, B: Blocking<V>>(_: &mut B, _: V, _: SpinWait) -> B::Output {
    unreachable!("serial runs do not wait")
}

pub(crate) fn block_until<V, B: Blocking<V>>(
    _: &mut B,
    _: V,
    _: SpinWait,
    _: Instant,
) -> Result<B::Output, V> {
    unreachable!("serial runs do not wait")
}

pub(crate) fn send_attempt<T>(result: Result<(), TrySendError<T>>) -> Attempt<T, Result<(), T>> {
    match result {
        Ok(()) => Attempt::Done(Ok(())),
        Err(TrySendError::Disconnected(value)) => Attempt::Done(Err(value)),
        Err(TrySendError::Full(value)) => Attempt::Pending(value),
    }
}

/// Done with `Ok` and whether the receiver is to be woken; done with `Err` for Disconnected; pending for Full.
pub(crate) fn send_recheck<T>(
    result: Result<(), TrySendError<T>>,
    wake_receiver: bool,
) -> Recheck<T, Result<(), T>, bool> {
    match result {
        Ok(()) => Recheck::Done(Ok(()), wake_receiver),
        Err(TrySendError::Disconnected(value)) => Recheck::Done(Err(value), wake_receiver),
        Err(TrySendError::Full(value)) => Recheck::Pending(value),
    }
}

pub(crate) fn recv_attempt<I, O>(
    result: Result<I, TryRecvError>,
    view: PhantomData<O>,
) -> Attempt<PhantomData<O>, Result<I, RecvError>> {
    match result {
        Ok(item) => Attempt::Done(Ok(item)),
        Err(TryRecvError::Disconnected) => Attempt::Done(Err(RecvError)),
        Err(TryRecvError::Empty) => Attempt::Pending(view),
    }
}

pub(crate) fn send_timeout_result<T>(
    result: Result<Result<(), T>, T>,
) -> Result<(), SendTimeoutError<T>> {
    match result {
        Ok(sent) => sent.map_err(SendTimeoutError::Disconnected),
        Err(value) => Err(SendTimeoutError::Timeout(value)),
    }
}

pub(crate) fn recv_timeout_result<I, O>(
    result: Result<Result<I, RecvError>, PhantomData<O>>,
) -> Result<I, RecvTimeoutError> {
    match result {
        Ok(received) => received.map_err(|RecvError| RecvTimeoutError::Disconnected),
        Err(_) => Err(RecvTimeoutError::Timeout),
    }
}
