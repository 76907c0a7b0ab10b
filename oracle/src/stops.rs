//! The two macros by which the four files leave a function with an error.

/// Leaves with an error about the file's bytes.
macro_rules! invalid_data {
    ($($said:tt)+) => {
        return Err(::std::io::Error::new(
            ::std::io::ErrorKind::InvalidData,
            format!($($said)+),
        ))
    };
}

/// Leaves with an error about the caller's arguments.
macro_rules! invalid_input {
    ($($said:tt)+) => {
        return Err(::std::io::Error::new(
            ::std::io::ErrorKind::InvalidInput,
            format!($($said)+),
        ))
    };
}
