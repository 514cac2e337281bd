//! What the tests of random calls share: formats, arguments and tables drawn at random, damage to them, and the smallest
//! of those that show a difference.
#![allow(dead_code, unused_imports)]

pub mod calls;
pub mod damage;
pub mod field;
pub mod smallest;
pub mod tables;
pub mod texts;
pub mod values;
pub mod vets;

/// How often each code was answered, with one line that says so.
#[derive(Default)]
pub struct Tally([usize; 13]);

impl Tally {
    pub fn add(&mut self, code: u32) {
        self.0[code as usize] += 1;
    }

    /// Each of these codes was met so often at least: the drawing still reaches it.
    pub fn assert_each(&self, codes: &[usize], least: usize) {
        for &code in codes {
            assert!(self.0[code] >= least, "code {code} too seldom: {self}");
        }
    }
}

impl std::fmt::Display for Tally {
    fn fmt(&self, out: &mut std::fmt::Formatter) -> std::fmt::Result {
        for (code, count) in self.0.iter().enumerate().filter(|(_, &count)| count > 0) {
            write!(out, " {code}: {count}")?;
        }
        Ok(())
    }
}
