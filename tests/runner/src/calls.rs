//! Short names for calls, as the directed cases and the states write them.

use second_model::{Call, Mode, WAKE_CELLS};

pub fn sem(count: u32, max: u32) -> Call {
    Call::Sem { count, max }
}

pub fn mutex(owner: u32, count: u32) -> Call {
    Call::Mutex { owner, count }
}

pub fn event(signaled: u32, manual: u32) -> Call {
    Call::Event { signaled, manual }
}

pub fn post(handle: u32, add: u32) -> Call {
    Call::Post { handle, add, wake: WAKE_CELLS }
}

pub fn unlock(handle: u32, owner: u32) -> Call {
    Call::Unlock { handle, owner, wake: WAKE_CELLS }
}

pub fn kill(handle: u32, owner: u32) -> Call {
    Call::Kill { handle, owner, wake: WAKE_CELLS }
}

pub fn set(handle: u32) -> Call {
    Call::Set { handle, wake: WAKE_CELLS }
}

pub fn pulse(handle: u32) -> Call {
    Call::Pulse { handle, wake: WAKE_CELLS }
}

pub fn expire(clock: u32, time: u64) -> Call {
    Call::Expire { clock, time, wake: WAKE_CELLS }
}

pub fn wait(mode: Mode, owner: u32, alert: u32, timeout: u64, list: &[u32]) -> Call {
    Call::Wait { mode, list: list.to_vec(), owner, alert, flags: 0, pad: 0, timeout, time: 0 }
}

pub fn any(owner: u32, alert: u32, timeout: u64, list: &[u32]) -> Call {
    wait(Mode::Any, owner, alert, timeout, list)
}

pub fn all(owner: u32, alert: u32, timeout: u64, list: &[u32]) -> Call {
    wait(Mode::All, owner, alert, timeout, list)
}

pub fn at_time(call: Call, now: u64) -> Call {
    match call {
        Call::Wait { mode, list, owner, alert, flags, pad, timeout, .. } => {
            Call::Wait { mode, list, owner, alert, flags, pad, timeout, time: now }
        }
        other => other,
    }
}

pub fn with_wake(call: Call, wake: usize) -> Call {
    match call {
        Call::Post { handle, add, .. } => Call::Post { handle, add, wake },
        Call::Unlock { handle, owner, .. } => Call::Unlock { handle, owner, wake },
        Call::Kill { handle, owner, .. } => Call::Kill { handle, owner, wake },
        Call::Set { handle, .. } => Call::Set { handle, wake },
        Call::Pulse { handle, .. } => Call::Pulse { handle, wake },
        Call::Expire { clock, time, .. } => Call::Expire { clock, time, wake },
        other => other,
    }
}
