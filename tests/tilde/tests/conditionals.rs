//! The proved vet against the reference's on random formats with conditionals, and against the proved format: what is
//! accepted fits its count over any table, drawn at random or, where there are few, every one of a set.

mod drawing;

use drawing::vets::{self, Case, Vetted};
use drawing::{damage, texts, values, Tally};
use random::Random;
use reference::{conditionals, picks, Conditional, Value, MOST_FORMAT};

const SEED: u64 = 6;
const VETS: usize = 260_000;
/// Each accepted format is run over so many tables.
const TABLES: usize = 2;
/// A longer format is long.
const LONG: usize = 500;
const SMALL: usize = 6_000;
/// Kinds are small if their values make no more tables than this.
const FEW: usize = 1_200;

#[test]
fn random_conditionals() {
    let random = Random::new(SEED);
    let (mut tally, mut seen) = (Tally::default(), Seen::default());
    for _ in 0..VETS {
        let case = next_case(&random);
        let vetted = vets::compare(&case);
        if vetted.0 == 0 {
            (0..TABLES).for_each(|_| {
                vets::hold(&case, &vets::arguments(&random, &case), vetted);
            });
        }
        tally.add(vetted.0);
        seen.add(&case.format, vetted);
    }
    println!("{VETS} proved vets agree with the reference and with the proved format:{tally}");
    println!("{seen}");
    tally.assert_each(&[0, 2, 3, 4, 5, 6, 7, 8, 11, 12], 300);
    seen.assert_enough();
}

/// Over every table of few values. The count of a plain format is always reached; with conditionals that is not asked.
#[test]
fn every_table() {
    let random = Random::new(SEED + 1);
    let (mut vetted, mut plain, mut reached, mut tables) = (0, 0, 0, 0);
    while vetted < SMALL {
        let case = small_case(&random);
        let answer = vets::compare(&case);
        let Some(choices) = few_choices(&case).filter(|_| answer.0 == 0) else {
            continue;
        };
        let lengths = picks(choices).map(|arguments| vets::hold(&case, &arguments, answer));
        let lengths: Vec<usize> = lengths.collect();
        let full = lengths.contains(&answer.2);
        tables += lengths.len();
        if conditionals(&case.format).is_empty() {
            assert!(full, "{case}\nno table reaches the count {}", answer.2);
            plain += 1;
        } else {
            vetted += 1;
            reached += usize::from(full);
        }
    }
    println!(
        "{reached} of {vetted} counts reached, and all {plain} of plain formats, over {tables} tables"
    );
}

// ---- what was met ---------------------------------------------------------

/// How many of the vets had what.
#[derive(Default)]
struct Seen {
    conditional: usize,
    accepted: usize,
    nested: usize,
    deepest: usize,
    long: usize,
    one_clause: usize,
    default: usize,
    uneven: usize,
    one_clause_refused: usize,
}

impl Seen {
    fn add(&mut self, format: &[u8], (code, position, _): Vetted) {
        let blocks = conditionals(format);
        let any = |has: fn(&Conditional) -> bool| usize::from(blocks.iter().any(has));
        self.conditional += any(|_| true);
        self.nested += any(|block| block.depth > 1);
        self.one_clause += any(|block| block.at);
        self.default += any(|block| block.has_default);
        if code == 0 {
            self.accepted += any(|_| true);
            self.deepest += any(|block| block.depth == 8);
            self.long += usize::from(format.len() > LONG);
        }
        let refused = blocks.iter().find(|block| block.tilde == position);
        let by_next = || matches!(format[position + 1], b'v' | b'V');
        if let Some(block) = refused.filter(|_| code == 11 && !by_next()) {
            self.uneven += usize::from(!block.at);
            self.one_clause_refused += usize::from(block.at);
        }
    }

    fn assert_enough(&self) {
        assert!(self.conditional >= 200_000, "{self}");
        assert!(self.accepted > VETS / 3, "{self}");
        let others = [self.nested, self.one_clause, self.default, self.uneven];
        assert!(others.iter().all(|&count| count > VETS / 50), "{self}");
        assert!(
            self.deepest > 300 && self.long > 300 && self.one_clause_refused > 300,
            "{self}"
        );
    }
}

impl std::fmt::Display for Seen {
    fn fmt(&self, out: &mut std::fmt::Formatter) -> std::fmt::Result {
        let Seen {
            conditional,
            accepted,
            nested,
            deepest,
            long,
            one_clause,
            default,
            uneven,
            one_clause_refused,
        } = self;
        write!(
            out,
            "{conditional} had conditionals, of them {accepted} accepted, "
        )?;
        write!(
            out,
            "{deepest} of these with blocks eight deep and {long} of more than {LONG} bytes; "
        )?;
        write!(
            out,
            "{nested} had nested blocks, {one_clause} a ~@[, {default} a ~:;; "
        )?;
        write!(
            out,
            "11 at {uneven} unequal ends and at {one_clause_refused} ~@["
        )
    }
}

// ---- vets -----------------------------------------------------------------

fn next_case(random: &Random) -> Case {
    let mut kinds = next_kinds(random, 7);
    let deep = random.once_in(8);
    let levels = if deep {
        5 + random.below(5)
    } else {
        1 + random.below(4)
    };
    let mut format = texts::conditional(random, &kinds, levels);
    match random.below(30) {
        0 => damage::damage(random, &mut format),
        1 if random.once_in(8) => damage::lengthen(random, &mut format),
        2 => kinds.truncate(random.below(kinds.len() + 1)),
        3 => kinds.extend(next_kinds(random, 4)),
        // So many that `#` is above the greatest charnum.
        4 if random.once_in(4) => kinds.resize(kinds.len() + 150, 1),
        5 if !kinds.is_empty() => {
            let at = random.below(kinds.len());
            kinds[at] = random.below(5) as u8;
        }
        6 => {
            let times = random.below(MOST_FORMAT / format.len().max(30)).max(1);
            (format, kinds) = (format.repeat(times), kinds.repeat(times));
        }
        _ => {}
    }
    vets::case(random, format, kinds)
}

/// Fewer than `most`; more of them can choose a clause.
fn next_kinds(random: &Random, most: usize) -> Vec<u8> {
    let kind = |_| random.pick(&[0, 0, 0, 1, 1, 1, 1, 2, 3, 3, 4]);
    (0..random.below(most)).map(kind).collect()
}

/// One in five is plain.
fn small_case(random: &Random) -> Case {
    let (format, kinds) = if random.once_in(5) {
        let (format, arguments) = texts::plain(random);
        (format, arguments.iter().map(Value::tag).collect())
    } else {
        let kinds = next_kinds(random, 5);
        let levels = 1 + random.below(3);
        (texts::conditional(random, &kinds, levels), kinds)
    };
    Case {
        format,
        kinds,
        longest: random.below(4),
    }
}

/// Few values for each kind, if they make few tables.
fn few_choices(case: &Case) -> Option<Vec<Vec<Value>>> {
    let blocks = conditionals(&case.format);
    let clauses = blocks.iter().map(|block| block.clauses).max();
    let few = |&kind: &u8| values::few(kind, case.longest, clauses.unwrap_or(0));
    let choices: Vec<Vec<Value>> = case.kinds.iter().map(few).collect();
    let lengths = choices.iter().map(Vec::len);
    let tables = lengths.fold(1, usize::saturating_mul);
    (tables <= FEW).then_some(choices)
}
