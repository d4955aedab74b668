//! The place of the concurrent arena, which is not asked for. It holds a window onto the header, which only the
//! crate itself can see.

use super::{sealed::Sealed, unsync::Arena};

pub(crate) use super::memory::Memory;

type Header = <Arena as Sealed>::Header;
type Inner = Memory<<Arena as Sealed>::RefCounter, <Arena as Sealed>::PathRefCounter, Header>;

const _: () = assert!(size_of::<Header>() == 24 && align_of::<Header>() == 8);

fn header(arena: &Arena) -> &Header {
    AsRef::<Inner>::as_ref(arena).header()
}

/// The sentinel word, which is the header's first field.
pub(crate) fn sentinel(arena: &Arena) -> u64 {
    let first = (header(arena) as *const Header).cast::<u64>();
    // Safety: the header is `repr(C)` and starts with a transparent cell of one u64.
    unsafe { first.read() }
}

/// The header as the Rust itself prints it, to check the line above.
pub(crate) fn shown(arena: &Arena) -> String {
    format!("{:?}", header(arena))
}
