//! The proved windows against every case of windows.txt.

use tilde::{State, MORE};

#[test]
fn windows() {
    let cases = vectors::windows();
    for case in &cases {
        let mut state = State::default();
        for (at, call) in case.calls.iter().enumerate() {
            let mut window = vec![0xee; call.window];
            let answer = tilde::resume(&case.format, &case.table, &mut window, state);
            let told = (answer.code, answer.position, answer.steps);
            let expected = if call.ends {
                (case.code, case.position, case.steps)
            } else {
                (MORE, 0, 0)
            };
            assert_eq!(told, expected, "{:?}, call {at}", case.place);
            let (text, beyond) = window.split_at(answer.written);
            assert_eq!(text, call.text, "{:?}, call {at}", case.place);
            assert!(beyond.iter().all(|&byte| byte == 0xee), "{:?}", case.place);
            state = answer.state;
        }
    }
    let calls: usize = cases.iter().map(|case| case.calls.len()).sum();
    println!(
        "windows.txt: {} lines in {calls} calls agree with the proved windows",
        cases.len()
    );
}
