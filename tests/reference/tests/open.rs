//! The answers chosen where document 01 can be read in more than one way.

mod common;
use common::*;
use reference::{check_format, job_line};

#[test]
fn chosen_answers() {
    // a bad number, and then the end of the text or an unknown code
    faulty("~+", 5, 0);
    faulty("~5000", 5, 0);
    faulty("~4097q", 5, 0);
    // charnum is a number place
    faulty("~'Ac", 5, 0);
    refused("~vc", &[character(b'A')], 7, 0, 1, "");
    // n from `v` has the range of a number place; the argument of `~[` has none
    refused("~v[a~:;b~]", &ints(&[-1]), 8, 0, 1, "");
    refused("~v[a~:;b~]", &ints(&[4097]), 8, 0, 1, "");
    gives("~[a~:;b~]", &ints(&[-1]), "b");
    // within one directive 4 goes before 5, also in a closer
    faulty("~{~5}", 4, 0);
    faulty("~:[a~:]", 4, 0);
    // the closer of another block is met before the count and the body are looked at
    faulty("~:[a~}", 4, 4);
    faulty("~{~]", 4, 2);
    // a separator with a wrong modifier is still a separator
    faulty("~:[a~:@;b~]", 4, 4);
    faulty("~[a~:;b~@;c~]", 4, 7);
    // the end of the text inside a directive goes before an unclosed block
    faulty("~{~", 3, 2);
    // empty parameters count as parameters
    faulty("~,%", 5, 0);
    faulty("~,:[a~;b~]", 5, 0);
    // a body that has bytes and writes nothing
    sound("~{~\n~}");
    // `~^` inside a conditional ends what is around it
    gives("~[a~^b~;c~]d", &ints(&[0]), "a");
    // no more is quoted or named than 01 says
    gives("~:c", &[character(127)], "\u{7f}");
    gives("~s", &[string("a\nb")], "\"a\nb\"");
    // lines that are no frames
    assert_eq!(job_line(b"00"), b"ff");
    assert_eq!(job_line(b"0000\r"), b"ff");
    // parameters go before the directive's own argument
    refused("~,#a", &[], 8, 0, 1, "");
    // leading zeros
    assert_eq!(check_format(b"~0004096%"), Ok(()));
    // the list is taken before the passes are counted
    refused("~0{x~}", &ints(&[1]), 7, 0, 1, "");
    // 004's example of a format from an argument has a body of no bytes
    faulty("~{~}", 4, 0);
    // a good number in a wrong place is no bad number; a separator is met before the count
    faulty("~,5q", 3, 0);
    faulty("~@[a~;b~:;c~]", 4, 7);
    // `#` is worked out after the `v` before it
    gives("~v,,#a", &[int(0), int(1)], "1 ");
}
