//! The files on the bench of document 01, annex A's, and those for the errors that a builder will be
//! drawn to. The second program's tests say what is to be answered; here both programs answer it.

use compare::difference;
use mfer::{Attributes, File};
use second::papers::{all, octets};
use second::shrink::hex;

#[test]
fn both_programs_answer_the_same() {
    for file in all() {
        assert_eq!(difference(&file), None, "{}", hex(&file));
    }
}

/// "Keeping a channel's setting after a later root one": for every attribute that a group may set,
/// the later root definition holds, with a value and with length 0.
#[test]
fn a_root_definition_ends_the_channel_setting() {
    fn attributes(hex: &str) -> Attributes {
        File::new(&octets(hex)).attributes(0, 1).unwrap()
    }
    let cases = [
        // Tag, own value, root value.
        ("04", "01 02", "01 03"),
        ("08", "01 01", "01 02"),
        ("09", "01 01", "01 02"),
        ("0A", "01 03", "01 05"),
        ("0B", "03 01 00 01", "03 02 00 01"),
        ("0C", "03 01 00 01", "03 02 00 01"),
        ("0D", "02 00 01", "02 00 02"),
        ("12", "02 00 01", "02 00 02"),
    ];
    for (tag, own, root) in cases {
        let length = 1 + own.split(' ').count();
        let set = format!("05 01 02 3F 01 {length:02X} {tag} {own}");
        let kept = attributes(&format!("{set} 1E 00"));
        for root in [root, "00"] {
            let both = attributes(&format!("{set} {tag} {root} 1E 00"));
            let alone = attributes(&format!("05 01 02 {tag} {root} 1E 00"));
            assert_eq!(both, alone, "tag {tag}, root {root}");
            assert_ne!(both, kept, "tag {tag}, root {root}");
        }
    }
}
