//! 02, T-01 (ICD 10.4): a reply leaves on a port, or is lost.

use super::counts::{self, Count};
use super::line;
use crate::record::{Place, Receiver};

/// A reply's way: the port that it is for, for each port whether it is sending, and the buffers of both.
pub struct Way<'a> {
    pub port: usize,
    pub sending: [u8; 2],
    pub replies: [&'a mut [u8]; 2],
}

/// How many bytes are to be sent, or none where the reply is lost, since its port is sending one already. What is counted here is
/// counted after the reply was made, so that no reply shows what it does itself.
pub fn leave(
    message: &[u8],
    way: Way,
    receivers: &mut [Receiver; 2],
    diagnostics: &mut [u32],
) -> Option<usize> {
    let port = way.port;
    if way.sending[port] != 0 {
        counts::add_one(Count::Lost, port, diagnostics);
        return None;
    }
    let receiver = &mut receivers[port];
    if is_cut_off(receiver) {
        // The count stays, and so do the bytes that are stored.
        receiver.place = Place::Thrown;
        counts::add_one(Count::Thrown, port, diagnostics);
    }
    Some(line::pack(message, &mut *way.replies[port]))
}

/// Whether a reply on its port takes something from a receiver: a run in which any byte came. A FESC alone is a byte too.
fn is_cut_off(receiver: &Receiver) -> bool {
    match receiver.place {
        Place::Fresh => false,
        Place::Run => receiver.count > 0,
        Place::Escape | Place::Fault => true,
        // It was counted when it was thrown away.
        Place::Thrown => false,
    }
}
