//! What may go to another thread, and be looked at there.

use bootcore::*;

fn goes_anywhere<T: Send + Sync>() {}

#[test]
fn each_type_goes_to_another_thread() {
    goes_anywhere::<(Machine, Entry<'_>, Menu<'_>, Memory<'_>)>();
    goes_anywhere::<(Plan, Steps<'_>, Handoff, Seen, Error)>();
    goes_anywhere::<(Session<'_>, Request, Booted)>();
    #[cfg(feature = "digest")]
    goes_anywhere::<(Digest, Digests)>();
}
