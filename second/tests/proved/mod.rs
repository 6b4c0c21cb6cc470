//! The proved library's calls, on slices.

#[link(name = "exports", kind = "static")]
extern "C" {
    #[link_name = "at88sc1608_run"]
    fn linked_run(session: *const u8, session_len: usize, log: *mut u8, log_len: usize) -> u64;
    #[link_name = "at88sc1608_box_run"]
    fn linked_box_run(session: *const u8, session_len: usize, log: *mut u8, log_len: usize) -> u64;
    #[link_name = "at88sc1608_command"]
    fn linked_command(
        card: *mut u8,
        card_len: usize,
        state: *mut u8,
        state_len: usize,
        record: *const u8,
        record_len: usize,
        response: *mut u8,
        response_len: usize,
    ) -> u64;
    #[link_name = "at88sc1608_answer"]
    fn linked_answer(log: *const u8, log_len: usize, number: u64) -> u64;
    #[link_name = "at88sc1608_write_session"]
    fn linked_write_session(
        card: *const u8,
        card_len: usize,
        title: *const u8,
        title_len: usize,
        records: *const u8,
        records_len: usize,
        count: u64,
        session: *mut u8,
        session_len: usize,
    ) -> u64;
    #[link_name = "at88sc1608_mend"]
    fn linked_mend(session: *mut u8, session_len: usize) -> u64;
    #[link_name = "at88sc1608_mend_by_search"]
    fn linked_mend_by_search(session: *mut u8, session_len: usize) -> u64;
}

pub fn at88sc1608_run(session: &[u8], log: &mut [u8]) -> u64 {
    // Sound as long as the library stays within the lengths it is given.
    unsafe { linked_run(session.as_ptr(), session.len(), log.as_mut_ptr(), log.len()) }
}

pub fn at88sc1608_box_run(session: &[u8], log: &mut [u8]) -> u64 {
    // Sound as long as the library stays within the lengths it is given.
    unsafe { linked_box_run(session.as_ptr(), session.len(), log.as_mut_ptr(), log.len()) }
}

#[allow(dead_code)] // The benchmark has no use for it.
pub fn at88sc1608_command(
    card: &mut [u8],
    state: &mut [u8],
    record: &[u8],
    response: &mut [u8],
) -> u64 {
    // Sound as long as the library stays within the lengths it is given.
    unsafe {
        linked_command(
            card.as_mut_ptr(),
            card.len(),
            state.as_mut_ptr(),
            state.len(),
            record.as_ptr(),
            record.len(),
            response.as_mut_ptr(),
            response.len(),
        )
    }
}

pub fn at88sc1608_answer(log: &[u8], number: u64) -> u64 {
    // Sound as long as the library stays within the lengths it is given.
    unsafe { linked_answer(log.as_ptr(), log.len(), number) }
}

pub fn at88sc1608_write_session(
    card: &[u8],
    title: &[u8],
    records: &[u8],
    count: u64,
    session: &mut [u8],
) -> u64 {
    // Sound as long as the library stays within the lengths it is given.
    unsafe {
        linked_write_session(
            card.as_ptr(),
            card.len(),
            title.as_ptr(),
            title.len(),
            records.as_ptr(),
            records.len(),
            count,
            session.as_mut_ptr(),
            session.len(),
        )
    }
}

pub fn at88sc1608_mend(session: &mut [u8]) -> u64 {
    // Sound as long as the library stays within the lengths it is given.
    unsafe { linked_mend(session.as_mut_ptr(), session.len()) }
}

/// The same answer by trying every start in turn.
pub fn at88sc1608_mend_by_search(session: &mut [u8]) -> u64 {
    // Sound as long as the library stays within the lengths it is given.
    unsafe { linked_mend_by_search(session.as_mut_ptr(), session.len()) }
}
