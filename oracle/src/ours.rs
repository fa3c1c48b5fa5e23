//! The static library's C functions. build.rs says whether the archive is for this processor
//! (`direct`), is called over the bridge (`bridged`), or cannot be called, and why.
#![allow(clippy::too_many_arguments)]

use crate::case::{Answer, ReachAnswer, RunAnswer};

/// Whether the library runs in this program, so that its times mean something.
pub const DIRECT: bool = cfg!(direct);

/// Whether the library can be called; the error says why not.
pub fn linked() -> Result<(), String> {
    match option_env!("ORACLE_ABSENT") {
        None => Ok(()),
        Some(why) => Err(format!("nothing is compared: {why}")),
    }
}

macro_rules! library {
    ($($index:literal $name:ident($($arg:ident: $kind:ty),*) -> $result:ty;)*) => {$(
        #[cfg(direct)]
        unsafe extern "C" {
            pub fn $name($($arg: $kind),*) -> $result;
        }

        /// # Safety
        ///
        /// Each pointer and its length must be a slice that the call may use.
        #[cfg(bridged)]
        pub unsafe extern "C" fn $name($($arg: $kind),*) -> $result {
            use crate::bridge::{Message, Put};
            let mut message = Message::new($index);
            $($arg.put(&mut message);)*
            let told = unsafe { message.send() };
            told.into()
        }

        /// # Safety
        ///
        /// It must not be called where nothing is linked.
        #[cfg(not(any(direct, bridged)))]
        pub unsafe extern "C" fn $name($(_: $kind),*) -> $result {
            unreachable!("linked() is asked first")
        }
    )*};
}

// One `library!` of the header's functions; their numbers are their places there. build.rs writes it.
include!(concat!(env!("OUT_DIR"), "/library.rs"));
