//! The exported functions of the static libraries, each behind a safe function on slices. Everything unsafe of this
//! crate is here.
//!
//! What makes each call safe: a slice is lent as its pointer and its length. A Rust slice's pointer is never null, also
//! where the slice is empty; its bytes are initialised; and a `&mut` slice overlaps no other slice that is lent beside
//! it. The functions have no other condition: they are proved to end, and to read and write inside the slices only, for
//! all bytes and all lengths. They keep no pointer, call nothing of the host and never unwind.

#[cfg(any(
    feature = "message",
    feature = "deliver",
    feature = "rm",
    feature = "acceptor",
    feature = "leader",
    feature = "record",
    feature = "batch"
))]
use crate::plan::Plan;

#[cfg(any(feature = "rm", feature = "acceptor"))]
type RoleStep = unsafe extern "C" fn(u8, u8, u8, u16, *mut u8, usize, *mut u8, usize, *const u8, usize) -> u32;

unsafe extern "C" {
    #[cfg(feature = "message")]
    fn paxos_commit_read(rms: u8, acceptors: u8, leaders: u8, order: u16, bytes: *const u8, len: usize) -> u64;

    #[cfg(feature = "message")]
    fn paxos_commit_write(
        rms: u8,
        acceptors: u8,
        leaders: u8,
        order: u16,
        map: u8,
        ins: u8,
        acc: u8,
        mbal: u8,
        bal: u8,
        val: u8,
    ) -> u64;

    #[cfg(feature = "message")]
    fn paxos_commit_length(map: u8) -> u32;

    #[cfg(feature = "deliver")]
    fn paxos_commit_deliver(
        rms: u8,
        acceptors: u8,
        leaders: u8,
        order: u16,
        network: *mut u8,
        network_len: usize,
        bytes: *const u8,
        len: usize,
    ) -> u32;

    #[cfg(feature = "rm")]
    fn paxos_commit_rm_step(
        rms: u8,
        acceptors: u8,
        leaders: u8,
        order: u16,
        states: *mut u8,
        states_len: usize,
        network: *mut u8,
        network_len: usize,
        event: *const u8,
        event_len: usize,
    ) -> u32;

    #[cfg(feature = "acceptor")]
    fn paxos_commit_acceptor_step(
        rms: u8,
        acceptors: u8,
        leaders: u8,
        order: u16,
        votes: *mut u8,
        votes_len: usize,
        network: *mut u8,
        network_len: usize,
        event: *const u8,
        event_len: usize,
    ) -> u32;

    #[cfg(feature = "leader")]
    fn paxos_commit_leader_step(
        rms: u8,
        acceptors: u8,
        leaders: u8,
        order: u16,
        inbox: *mut u8,
        inbox_len: usize,
        summary: *mut u8,
        summary_len: usize,
        network: *mut u8,
        network_len: usize,
        event: *const u8,
        event_len: usize,
    ) -> u32;

    #[cfg(feature = "record")]
    fn paxos_commit_open(
        rms: u8,
        acceptors: u8,
        leaders: u8,
        order: u16,
        states: *mut u8,
        states_len: usize,
        votes: *mut u8,
        votes_len: usize,
        network: *mut u8,
        network_len: usize,
        inboxes: *mut u8,
        inboxes_len: usize,
        summary: *mut u8,
        summary_len: usize,
    ) -> u8;

    #[cfg(feature = "record")]
    fn paxos_commit_step(
        rms: u8,
        acceptors: u8,
        leaders: u8,
        order: u16,
        states: *mut u8,
        states_len: usize,
        votes: *mut u8,
        votes_len: usize,
        network: *mut u8,
        network_len: usize,
        inboxes: *mut u8,
        inboxes_len: usize,
        summary: *mut u8,
        summary_len: usize,
        event: *const u8,
        event_len: usize,
    ) -> u32;

    #[cfg(feature = "record")]
    fn paxos_commit_ending(
        rms: u8,
        acceptors: u8,
        leaders: u8,
        order: u16,
        states: *const u8,
        states_len: usize,
    ) -> u32;

    #[cfg(feature = "batch")]
    fn paxos_commit_run(
        rms: u8,
        acceptors: u8,
        leaders: u8,
        order: u16,
        states: *mut u8,
        states_len: usize,
        votes: *mut u8,
        votes_len: usize,
        network: *mut u8,
        network_len: usize,
        inboxes: *mut u8,
        inboxes_len: usize,
        summary: *mut u8,
        summary_len: usize,
        events: *const u8,
        events_len: usize,
        answers: *mut u8,
        answers_len: usize,
    ) -> u8;
}

#[cfg(feature = "message")]
#[inline]
pub fn read(plan: Plan, bytes: &[u8]) -> u64 {
    // SAFETY: `bytes` is a slice.
    unsafe { paxos_commit_read(plan.rms, plan.acceptors, plan.leaders, plan.order, bytes.as_ptr(), bytes.len()) }
}

#[cfg(feature = "message")]
#[inline]
pub fn write(plan: Plan, fields: [u8; 6]) -> [u8; 8] {
    let [map, ins, acc, mbal, bal, val] = fields;
    // SAFETY: numbers only.
    unsafe { paxos_commit_write(plan.rms, plan.acceptors, plan.leaders, plan.order, map, ins, acc, mbal, bal, val) }
        .to_le_bytes()
}

#[cfg(feature = "message")]
#[inline]
pub fn length(map: u8) -> u32 {
    // SAFETY: a number only.
    unsafe { paxos_commit_length(map) }
}

#[cfg(feature = "deliver")]
#[inline]
pub fn deliver(plan: Plan, network: &mut [u8], bytes: &[u8]) -> u32 {
    // SAFETY: two slices, of which the one that may be written overlaps nothing.
    unsafe {
        paxos_commit_deliver(
            plan.rms,
            plan.acceptors,
            plan.leaders,
            plan.order,
            network.as_mut_ptr(),
            network.len(),
            bytes.as_ptr(),
            bytes.len(),
        )
    }
}

#[cfg(any(feature = "rm", feature = "acceptor"))]
#[inline(always)]
fn role_step(call: RoleStep, plan: Plan, table: &mut [u8], network: &mut [u8], event: &[u8]) -> u32 {
    // SAFETY: `call` is one of the next two, a weight's step or an acceptor's. Three slices, of which the two that may be
    // written overlap nothing.
    unsafe {
        call(
            plan.rms,
            plan.acceptors,
            plan.leaders,
            plan.order,
            table.as_mut_ptr(),
            table.len(),
            network.as_mut_ptr(),
            network.len(),
            event.as_ptr(),
            event.len(),
        )
    }
}

#[cfg(feature = "rm")]
#[inline]
pub fn rm_step(plan: Plan, states: &mut [u8], network: &mut [u8], event: &[u8]) -> u32 {
    role_step(paxos_commit_rm_step, plan, states, network, event)
}

#[cfg(feature = "acceptor")]
#[inline]
pub fn acceptor_step(plan: Plan, votes: &mut [u8], network: &mut [u8], event: &[u8]) -> u32 {
    role_step(paxos_commit_acceptor_step, plan, votes, network, event)
}

#[cfg(feature = "leader")]
#[inline]
pub fn leader_step(plan: Plan, inbox: &mut [u8], summary: &mut [u8], network: &mut [u8], event: &[u8]) -> u32 {
    // SAFETY: four slices, of which the three that may be written overlap nothing.
    unsafe {
        paxos_commit_leader_step(
            plan.rms,
            plan.acceptors,
            plan.leaders,
            plan.order,
            inbox.as_mut_ptr(),
            inbox.len(),
            summary.as_mut_ptr(),
            summary.len(),
            network.as_mut_ptr(),
            network.len(),
            event.as_ptr(),
            event.len(),
        )
    }
}

#[cfg(feature = "record")]
#[inline]
pub fn open(
    plan: Plan,
    states: &mut [u8],
    votes: &mut [u8],
    network: &mut [u8],
    inboxes: &mut [u8],
    summary: &mut [u8],
) -> u8 {
    // SAFETY: five slices that overlap nothing.
    unsafe {
        paxos_commit_open(
            plan.rms,
            plan.acceptors,
            plan.leaders,
            plan.order,
            states.as_mut_ptr(),
            states.len(),
            votes.as_mut_ptr(),
            votes.len(),
            network.as_mut_ptr(),
            network.len(),
            inboxes.as_mut_ptr(),
            inboxes.len(),
            summary.as_mut_ptr(),
            summary.len(),
        )
    }
}

#[cfg(feature = "record")]
#[inline]
pub fn step(
    plan: Plan,
    states: &mut [u8],
    votes: &mut [u8],
    network: &mut [u8],
    inboxes: &mut [u8],
    summary: &mut [u8],
    event: &[u8],
) -> u32 {
    // SAFETY: six slices, of which the five that may be written overlap nothing.
    unsafe {
        paxos_commit_step(
            plan.rms,
            plan.acceptors,
            plan.leaders,
            plan.order,
            states.as_mut_ptr(),
            states.len(),
            votes.as_mut_ptr(),
            votes.len(),
            network.as_mut_ptr(),
            network.len(),
            inboxes.as_mut_ptr(),
            inboxes.len(),
            summary.as_mut_ptr(),
            summary.len(),
            event.as_ptr(),
            event.len(),
        )
    }
}

#[cfg(feature = "record")]
#[inline]
pub fn ending(plan: Plan, states: &[u8]) -> u32 {
    // SAFETY: `states` is a slice.
    unsafe { paxos_commit_ending(plan.rms, plan.acceptors, plan.leaders, plan.order, states.as_ptr(), states.len()) }
}

#[cfg(feature = "batch")]
#[allow(clippy::too_many_arguments)]
#[inline]
pub fn run(
    plan: Plan,
    states: &mut [u8],
    votes: &mut [u8],
    network: &mut [u8],
    inboxes: &mut [u8],
    summary: &mut [u8],
    events: &[u8],
    answers: &mut [u8],
) -> u8 {
    // SAFETY: seven slices, of which the six that may be written overlap nothing.
    unsafe {
        paxos_commit_run(
            plan.rms,
            plan.acceptors,
            plan.leaders,
            plan.order,
            states.as_mut_ptr(),
            states.len(),
            votes.as_mut_ptr(),
            votes.len(),
            network.as_mut_ptr(),
            network.len(),
            inboxes.as_mut_ptr(),
            inboxes.len(),
            summary.as_mut_ptr(),
            summary.len(),
            events.as_ptr(),
            events.len(),
            answers.as_mut_ptr(),
            answers.len(),
        )
    }
}
