//! The smallest input that shows a difference.

pub type Steps<'a, T> = Box<dyn Iterator<Item = T> + 'a>;

/// One step smaller is tried again and again, as long as something is wrong; what is wrong with the last. None if no
/// step from the first shows it.
pub fn smallest<T>(
    first: T,
    smaller: for<'a> fn(&'a T) -> Steps<'a, T>,
    wrong: impl Fn(&T) -> Option<String>,
) -> Option<String> {
    let (mut least, mut told) = (first, None);
    loop {
        let found = smaller(&least).find_map(|input| wrong(&input).map(|wrong| (input, wrong)));
        match found {
            Some((input, wrong)) => (least, told) = (input, Some(wrong)),
            None => return told,
        }
    }
}

/// Without some run of its members, the longest runs first.
pub fn shorter<T: Clone>(members: &[T]) -> impl Iterator<Item = Vec<T>> + '_ {
    let runs = (1..=members.len().min(64)).rev();
    runs.flat_map(move |run| {
        let starts = 0..=members.len() - run;
        starts.map(move |at| [&members[..at], &members[at + run..]].concat())
    })
}

/// Without a run of the text or of the others; then, since a directive goes with its argument, without one of each.
pub fn shorter_pairs<'a, T: Clone>(
    text: &'a [u8],
    others: &'a [T],
) -> impl Iterator<Item = (Vec<u8>, Vec<T>)> + 'a {
    let texts = shorter(text).map(move |text| (text, others.to_vec()));
    let fewer = shorter(others).map(move |others| (text.to_vec(), others));
    let both = shorter(text).flat_map(move |text| {
        let one = 0..others.len();
        one.map(move |at| (text.clone(), [&others[..at], &others[at + 1..]].concat()))
    });
    texts.chain(fewer).chain(both)
}

/// None, half and one fewer.
pub fn fewer(number: usize) -> impl Iterator<Item = usize> {
    let less = [0, number / 2, number.saturating_sub(1)];
    less.into_iter().filter(move |&less| less < number)
}
