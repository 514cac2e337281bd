//! The state and the answer of `tilde_resume`, laid out as in include/tilde.h.

/// The numbers of a field, each changed in turn.
trait Numbers {
    fn change(&mut self, with: &mut dyn FnMut(u64) -> u64);
}

impl Numbers for u32 {
    fn change(&mut self, with: &mut dyn FnMut(u64) -> u64) {
        *self = with(u64::from(*self)) as u32;
    }
}

impl Numbers for usize {
    fn change(&mut self, with: &mut dyn FnMut(u64) -> u64) {
        *self = with(*self as u64) as usize;
    }
}

impl Numbers for u16 {
    fn change(&mut self, with: &mut dyn FnMut(u64) -> u64) {
        *self = with(u64::from(*self)) as u16;
    }
}

impl Numbers for u8 {
    fn change(&mut self, with: &mut dyn FnMut(u64) -> u64) {
        *self = with(u64::from(*self)) as u8;
    }
}

impl<Number: Numbers, const COUNT: usize> Numbers for [Number; COUNT] {
    fn change(&mut self, with: &mut dyn FnMut(u64) -> u64) {
        self.iter_mut().for_each(|number| number.change(with));
    }
}

/// The one list of the fields.
macro_rules! state {
    ($($field:ident: $kind:ty,)*) => {
        #[repr(C)]
        #[derive(Clone, Copy, Debug, Default, PartialEq, Eq)]
        pub struct State {
            $(pub $field: $kind,)*
        }

        impl State {
            /// The name and the type of each field.
            pub const FIELDS: &[(&str, &str)] = &[$((stringify!($field), stringify!($kind)),)*];

            /// Each number of each field becomes what is answered for it.
            pub fn change(&mut self, mut with: impl FnMut(u64) -> u64) {
                $(self.$field.change(&mut with);)*
            }
        }
    };
}

state! {
    stage: usize,
    code: u32,
    position: usize,
    steps: usize,
    left: usize,
    place: usize,
    given: usize,
    first: usize,
    count: usize,
    next: usize,
    depth: usize,
    kinds: [u16; 8],
    places: [u16; 8],
    insides: [u16; 8],
    passes: [u16; 8],
    starts: [u16; 8],
    counts: [u16; 8],
    positions: [u16; 8],
    quote: usize,
    before: usize,
    from: usize,
    to: usize,
    behind: usize,
    pad: u8,
}

impl State {
    /// Whether a call with this state repeats an end.
    pub fn has_ended(&self) -> bool {
        self.stage > 1
    }

    /// Makes it one of a line that has begun and not ended.
    pub fn begin(&mut self) {
        self.stage = 1;
    }

    /// How many numbers it has.
    pub fn numbers(mut self) -> usize {
        let mut numbers = 0;
        self.change(|number| {
            numbers += 1;
            number
        });
        numbers
    }

    /// With another number at a place, counted from 0.
    pub fn with(mut self, place: usize, with: impl Fn(u64) -> u64) -> State {
        let mut at = 0;
        self.change(|number| {
            at += 1;
            if at == place + 1 {
                with(number)
            } else {
                number
            }
        });
        self
    }
}

/// The answer.
#[repr(C)]
#[derive(Clone, Copy, Debug, PartialEq, Eq)]
pub struct Resumed {
    pub code: u32,
    pub position: usize,
    pub steps: usize,
    pub written: usize,
    pub state: State,
}
