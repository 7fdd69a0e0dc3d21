//! The table of memory that is watched for faults is the process's: so this test has a process of its own.

use nvmed_host::memory::fault::MOST_WATCHED;
use nvmed_host::memory::{MemoryError, Window, MOST_PIECES, PAGE};

/// There are as many pieces as the table has places; a window that goes gives its places back.
#[test]
fn as_many_as_there_are_places() {
    let mut windows = Vec::new();
    let most = MOST_WATCHED / MOST_PIECES;
    for round in 0..3 {
        while windows.len() < most {
            let window = Window::reserve(64 * PAGE).unwrap();
            for i in 0..MOST_PIECES as u64 {
                window.map_zeros(i * PAGE, PAGE).unwrap();
            }
            windows.push(window);
        }
        let one_more = Window::reserve(PAGE).unwrap();
        assert!(
            matches!(one_more.map_zeros(0, PAGE), Err(MemoryError::TooMany)),
            "round {round}"
        );
        assert!(one_more.pieces().is_empty() && one_more.slice(0, 1).is_none());
        windows.pop();
        one_more.map_zeros(0, PAGE).unwrap();
        drop(one_more);
    }
}
