//! What the longer examples share: lists that grow without an abort, and why a program stops.

use fadrinzo::{Error, Fault, FloatError};
use std::collections::TryReserveError;

/// Why a program stops. It is made without memory, so that a program which has none left still ends with it.
#[derive(Debug)]
#[allow(dead_code, reason = "a program prints it, and not each has all of these")]
pub enum Stop {
    Memory,
    Overlay(Error),
    Floats(FloatError),
    Failed(std::io::Error),
    Text(&'static str),
}

impl From<TryReserveError> for Stop {
    fn from(_: TryReserveError) -> Stop {
        Stop::Memory
    }
}

impl From<Error> for Stop {
    fn from(error: Error) -> Stop {
        if error == Error::Fault(Fault::Memory) {
            Stop::Memory
        } else {
            Stop::Overlay(error)
        }
    }
}

impl From<FloatError> for Stop {
    fn from(error: FloatError) -> Stop {
        match error {
            FloatError::Overlay(error) => error.into(),
            _ => Stop::Floats(error),
        }
    }
}

impl From<std::io::Error> for Stop {
    fn from(error: std::io::Error) -> Stop {
        if error.kind() == std::io::ErrorKind::OutOfMemory {
            Stop::Memory
        } else {
            Stop::Failed(error)
        }
    }
}

/// Pushes an element.
pub fn push<T>(list: &mut Vec<T>, element: T) -> Result<(), Stop> {
    list.try_reserve(1)?;
    list.push(element);
    Ok(())
}

/// The list of what an iterator returns, or its first error.
pub fn collect<T>(elements: impl IntoIterator<Item = Result<T, Stop>>) -> Result<Vec<T>, Stop> {
    let mut list = Vec::new();
    for element in elements {
        push(&mut list, element?)?;
    }
    Ok(list)
}
