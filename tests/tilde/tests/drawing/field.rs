//! Where buffers and windows are lent from, with a margin on either side.

/// Untouched bytes before and after what is lent.
const MARGIN: usize = 16;
/// The most that can be lent. A run of as many steps as there may be fits, if it writes a byte at each.
pub const VAST: usize = 65_536;

/// A byte at each place that is known again.
pub struct Field {
    bytes: Vec<u8>,
    /// As they came.
    clean: Vec<u8>,
}

impl Field {
    pub fn new() -> Field {
        Field::salted(101)
    }

    /// Another salt makes another byte at each place.
    pub fn salted(salt: usize) -> Field {
        let places = 0..MARGIN + VAST + MARGIN;
        let clean: Vec<u8> = places.map(|at| (at * 37 + salt) as u8).collect();
        Field {
            bytes: clean.clone(),
            clean,
        }
    }

    pub fn lend(&mut self, room: usize) -> &mut [u8] {
        &mut self.bytes[MARGIN..MARGIN + room]
    }

    /// The text that was written in what was lent, if nothing else was touched; all is mended then.
    pub fn text(&mut self, room: usize, written: usize) -> Result<Vec<u8>, &'static str> {
        let (start, end) = (MARGIN, MARGIN + room);
        if written > room {
            Err("more written than there is room")
        } else if !self.untouched(start + written, end + MARGIN) {
            Err("bytes touched beyond the text")
        } else if !self.untouched(0, start) {
            Err("bytes touched before what was lent")
        } else {
            let lent = &mut self.bytes[start..start + written];
            let text = lent.to_vec();
            lent.copy_from_slice(&self.clean[start..start + written]);
            Ok(text)
        }
    }

    /// Whether all is as it came from `from` up to `upto`.
    fn untouched(&self, from: usize, upto: usize) -> bool {
        self.bytes[from..upto] == self.clean[from..upto]
    }
}
