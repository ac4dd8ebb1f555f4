// Made from tests/units/qs_ends/src/settings.rattle by rust/erase; not edited by hand.
//! Settings as limits told to the peer, and the code of each fault of setting up.
use crate::shim::{HostRuntime, assert_eq};
use crate::proved::qs_conn::{PeerLimits, Settings, SetupFault};
use crate::shim::test::Fail;

#[test]
fn settings_are_told_by_name() -> Result<(), Fail> {
    let rt = HostRuntime::new();
    let settings = Settings {
        conn_window: 4096,
        bidi_local: 1,
        bidi_remote: 2,
        uni: 3,
        send_buffer: 2048,
        grant_bidi: 8,
        grant_uni: 9,
        lifetime_bidi: 10,
        lifetime_uni: 11,
    };
    let told = PeerLimits {
        max_data: 4096,
        bidi_local: 1,
        bidi_remote: 2,
        uni: 3,
        streams_bidi: 8,
        streams_uni: 9,
    };
    assert_eq!(rt; settings.limits(), told);
    Ok(())
}

#[test]
fn only_the_peers_fault_has_a_code() -> Result<(), Fail> {
    let rt = HostRuntime::new();
    assert_eq!(rt; SetupFault::OutOfRange.code(), None);
    assert_eq!(rt; SetupFault::TooManyStreams.code(), Some(8));
    Ok(())
}
