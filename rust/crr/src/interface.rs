//! The interface's number.

use crate::lent;
use std::sync::Once;

/// The number of the interface that this crate is for: CRR_INTERFACE of include/crr.h.
pub const INTERFACE: u64 = 2;

/// Panics where the library that was linked has another interface than this crate. Each function at the crate's root asks once.
pub fn check_interface() {
    static ASKED: Once = Once::new();
    ASKED.call_once(|| {
        let number = lent::interface();
        assert!(
            number == INTERFACE,
            "libcrr.a has interface {number}, and the crate crr is for {INTERFACE}: CRR_LIB_DIR names another folder"
        );
    });
}
