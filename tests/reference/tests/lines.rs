//! "Lines that must come out", one test for each.

mod common;
use common::*;
use reference::{encode, format, job_line};

#[test]
fn padding_on_the_right_and_left() {
    gives("~5,1,4a", &[string("abc")], "abc    ");
    gives("~5,,,'-@a", &[string("abc")], "--abc");
}

#[test]
fn integers_grouped_and_signed() {
    gives("~10,'*,'/,2:d", &ints(&[12345]), "***1/23/45");
    gives("~@b", &ints(&[12]), "+1100");
    gives("~@d", &ints(&[0]), "0");
}

#[test]
fn jumps() {
    gives("~d ~2*~d", &ints(&[1, 2, 3, 4]), "1 4");
    gives("~d~d~d ~1@*~d~d", &ints(&[1, 2, 3]), "123 23");
    let letters = [string("a"), string("b"), string("c"), string("d")];
    gives("~#*~2:*~a", &letters, "c");
}

#[test]
fn plurals() {
    gives("~d pupp~:@p", &ints(&[5]), "5 puppies");
    refused("~:p", &ints(&[5]), 6, 0, 1, "");
    refused("~:p", &[], 6, 0, 1, "");
}

#[test]
fn iterations() {
    gives_in("~@{~d~}", &ints(&[1, 2, 3]), "123", 7);
    gives("~2{~d~}", &[list(&ints(&[1, 2, 3, 4]))], "12");
}

#[test]
fn a_caret_and_the_greatest_parameter() {
    gives("~:c", &[character(10)], "^J");
    gives_in("~4096%", &[], &"\n".repeat(4096), 1);
    faulty("~4097%", 5, 0);
}

#[test]
fn the_step_limit() {
    let answer = format(b"~@{x~}", &encode(&ints(&[1])), 65_536);
    assert_eq!((answer.code, answer.position, answer.steps), (9, 3, 65_536));
    assert_eq!(answer.text, vec![b'x'; 32_767]);
}

#[test]
fn vet_lines() {
    accepts("~5,4a", &[3], 5, 8);
    accepts("~20,10a~:p", &[1], 0, 30);
    accepts("~d item~:p", &[1], 0, 26);
}

#[test]
fn the_whole_job_case() {
    let line = b"00037e61210001000100000003030000000000000000000003616263";
    assert_eq!(job_line(line), b"0000000000000000020000000461626321");
    assert_eq!(
        job_line(&line.to_ascii_uppercase()),
        b"0000000000000000020000000461626321"
    );
}

#[test]
fn the_tempting_errors() {
    // The longest string is not the worst.
    accepts("~5,4a", &[3], 5, 8);
    // Minpad is not cut to minwidth.
    gives("~3,1,4a", &[string("abc")], "abc    ");
    // `:@` is no absolute jump.
    faulty("~1:@*", 5, 0);
    // The least integer.
    gives("~d", &ints(&[i64::MIN]), "-9223372036854775808");
    // List entries are big-endian.
    gives("~{~d~}", &[list(&ints(&[7, 8]))], "78");
}
