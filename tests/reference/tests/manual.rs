//! The manual's examples whose directives and modifiers are accepted, with
//! symbols as strings.

mod common;
use common::*;

#[test]
fn objects() {
    gives("~a", &[string("foo")], "foo");
    gives("~s", &[string("foo")], "\"foo\"");
    gives("~5a", &[string("abc")], "abc  ");
    gives("~5,,,'-@a", &[string("abc")], "--abc");
    gives("~5,1,4a", &[string("abc")], "abc    ");
}

#[test]
fn characters() {
    gives("~c", &[character(b'z')], "z");
    gives("~@c", &[character(b'z')], "#\\z");
    gives("~:c", &[character(b'\n')], "^J");
    gives("~65c", &[], "A");
}

#[test]
fn integers() {
    gives("~d", &ints(&[123]), "123");
    gives("~@b", &ints(&[12]), "+1100");
    gives("~5,'*d", &ints(&[12]), "***12");
    gives("~5,'0d", &ints(&[12]), "00012");
    gives("~3d", &ints(&[1234]), "1234");
    gives("~:d", &ints(&[1_234_567]), "1,234,567");
    gives("~10,'*,'/,2:d", &ints(&[12345]), "***1/23/45");
    gives("~x", &ints(&[65261]), "feed");
}

#[test]
fn plurals() {
    gives("enter name~p", &ints(&[1]), "enter name");
    gives("enter name~p", &ints(&[2]), "enter names");
    gives("pupp~@p", &ints(&[1]), "puppy");
    gives("pupp~@p", &ints(&[2]), "puppies");
    gives("~d cat~:p", &ints(&[9]), "9 cats");
    gives("~d pupp~:@p", &ints(&[5]), "5 puppies");
}

#[test]
fn jumps() {
    gives("~d ~2*~d", &ints(&[1, 2, 3, 4]), "1 4");
    gives("~d ~:*~d", &ints(&[6]), "6 6");
    gives("~d~d again ~@*~d~d", &ints(&[1, 2]), "12 again 12");
    gives("~d~d~d ~1@*~d~d", &ints(&[1, 2, 3]), "123 23");
    gives(
        "~#*~2:*~a",
        &[string("a"), string("b"), string("c"), string("d")],
        "c",
    );
}

#[test]
fn spaces_and_continuation() {
    gives("~v_foo", &ints(&[4]), "    foo");
    gives(
        "abc~\n            ~d def~\n            ~d",
        &ints(&[1, 2]),
        "abc1 def2",
    );
}

#[test]
fn iterations() {
    let pairs = [string("x"), int(1), string("y"), int(2)];
    gives("~{~d~}", &[list(&ints(&[1, 2, 3]))], "123");
    gives("~{~s=~d ~}", &[list(&pairs)], "\"x\"=1 \"y\"=2 ");
    gives("~@{~d~}", &ints(&[1, 2, 3]), "123");
    gives("~@{~s=~d ~}", &pairs, "\"x\"=1 \"y\"=2 ");
    gives("~2{~d~}", &[list(&ints(&[1, 2, 3, 4]))], "12");
    let nested = list(&[list(&ints(&[1, 2])), list(&ints(&[3, 4, 5]))]);
    gives("~{~{~d~}x~}", &[nested], "12x345x");
}

#[test]
fn an_empty_body_is_refused_here() {
    // The manual's sub-format by an empty body is code 4 on this page.
    faulty("~{~}", 4, 0);
}

#[test]
fn conditionals() {
    gives("~[peach~;banana~;mango~]", &ints(&[1]), "banana");
    gives("~2[peach~;banana~;mango~]", &[], "mango");
    gives("~[banana~;mango~]", &ints(&[99]), "");
    gives("~[banana~;mango~:;fruit~]", &ints(&[99]), "fruit");
    gives("~:[false~;not false~]", &[boolean(false)], "false");
    gives("~:[false~;not false~]", &[string("abc")], "not false");
    gives(
        "~d gnu~:[s are~; is~] here",
        &[int(3), boolean(false)],
        "3 gnus are here",
    );
    gives("~@[temperature=~d~]", &ints(&[27]), "temperature=27");
    gives("~@[temperature=~d~]", &[boolean(false)], "");
}

#[test]
fn escapes() {
    gives("~d~^ ~d", &ints(&[1]), "1");
    gives("~d~^ ~d", &ints(&[1, 2]), "1 2");
    gives("~{~d~^/~} go", &[list(&ints(&[1, 2, 3]))], "1/2/3 go");
}

#[test]
fn nesting() {
    sound("~{ ~[ ... ~] ~}");
    faulty("~{ ~[ ... ~} ... ~]", 4, 10);
}
