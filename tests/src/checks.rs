//! Makes checks that run as tests and can also be run by the mutation check.

use crate::board::Board;
use crate::builtin::built_in_font;
use crate::edition::OLDER;

/// Each check becomes a public function, a test, and an entry of `ALL`.
#[macro_export]
macro_rules! checks {
    ($($(#[$meta:meta])* fn $name:ident() $body:block)*) => {
        $($(#[$meta])* pub fn $name() $body)*

        pub const ALL: &[(&str, fn())] = &[$((stringify!($name), $name as fn())),*];

        #[cfg(test)]
        mod tests {
            $(#[test] fn $name() { super::$name() })*
        }
    };
}

/// Just started in the older edition, with the smallest store.
pub fn board(height: u8) -> Board {
    board_of(height, OLDER)
}

/// The same in either edition.
pub fn board_of(height: u8, edition: u8) -> Board {
    Board::fresh(&built_in_font(), height, edition, vec![0; 1024])
}

/// In the older edition after a stream.
pub fn after(height: u8, stream: &[u8]) -> Board {
    let mut board = board(height);
    assert_eq!(board.feed(stream, 2 * stream.len()).answer, 0);
    board
}

/// The checks of all subjects, by subject and name.
pub fn all() -> Vec<(String, fn())> {
    let groups: [(&str, &[(&str, fn())]); 16] = [
        ("start", crate::checks_start::ALL),
        ("answers", crate::checks_answers::ALL),
        ("heights", crate::checks_heights::ALL),
        ("tall", crate::checks_tall::ALL),
        ("missing", crate::checks_missing::ALL),
        ("colour", crate::checks_colour::ALL),
        ("soundness", crate::checks_soundness::ALL),
        ("flow", crate::checks_flow::ALL),
        ("store", crate::checks_store::ALL),
        ("examples", crate::checks_examples::ALL),
        ("editions", crate::checks_editions::ALL),
        ("numbers", crate::checks_numbers::ALL),
        ("directory", crate::checks_directory::ALL),
        ("time", crate::checks_time::ALL),
        ("used", crate::checks_used::ALL),
        ("used_answers", crate::checks_used_answers::ALL),
    ];
    let mut all = Vec::new();
    for (group, checks) in groups {
        for &(name, check) in checks {
            all.push((format!("{group}/{name}"), check));
        }
    }
    all
}
