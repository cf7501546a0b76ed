//! The loops' model by itself: against Fig. 2 worked out by hand, against what the model says of one function, and on small units against
//! rivals tried one by one. It runs before the program is asked anything.

use crate::loops::*;
use crate::model::*;
use crate::model_check::{all_lists, figure_2, unit_of};
use crate::random::{seed_of, Random};
use crate::units;

type Checked = Result<(), String>;

/// A list whose states or loops are special: what it says, segments and columns of its unit, the columns of each segment of each function,
/// the tags and how many states there are.
type Hard = (&'static str, (u32, u32), &'static [&'static [&'static [u32]]], &'static [u32], usize);

/// Found by trying many.
pub const HARD: [Hard; 12] = [
    ("256 states of 4 tags", (2, 8), &[&[&[2], &[1, 8]], &[&[], &[8]]], &[1, 2, 2, 1], 256),
    ("256 states of 8 tags", (1, 11), &[&[&[9]], &[&[3, 9]]], &[1, 2, 2, 2, 2, 1, 1, 2], 256),
    ("256 states, B not named", (3, 12), &[&[&[1], &[], &[1, 9]], &[&[1], &[9], &[]], &[&[], &[3, 10], &[]]], &[3, 3, 1], 256),
    ("256 states by B, not named", (1, 10), &[&[&[10]], &[&[1]]], &[1], 256),
    ("257 states of 4 tags", (2, 12), &[&[&[1], &[12]], &[&[], &[1, 8]]], &[1, 2, 2, 1], 257),
    ("257 states of 8 tags", (1, 10), &[&[&[2, 10]], &[&[]]], &[1, 2, 2, 1, 2, 2, 1, 1], 257),
    ("512 states by B, not named", (1, 11), &[&[&[11]], &[&[1]]], &[1], 512),
    ("best loops of 18 turns or more", (3, 26), &[&[&[11, 23, 26], &[], &[5]], &[&[14, 16], &[], &[5, 13, 16]]], &[1, 2], 170),
    ("best loops of 65 latencies or more", (1, 10), &[&[&[1, 10]], &[&[2, 3, 10]], &[&[1, 7, 10]]], &[1, 1, 1, 2, 3], 241),
    (
        "best loops with sums of 355 or more",
        (4, 30),
        &[&[&[14, 22, 27], &[4, 29], &[4, 12, 16], &[7, 17]], &[&[6, 7, 8, 16], &[7, 9, 19, 30], &[5, 19, 28, 29], &[2, 21]]],
        &[2, 2, 2, 2, 2],
        160,
    ),
    (
        "a greedy loop of more than twice the best average",
        (2, 21),
        &[&[&[3, 16, 18, 19], &[]], &[&[4, 10, 15, 19], &[12, 14]], &[&[16, 18, 19], &[]], &[&[3, 4, 10], &[3, 4, 9, 16, 18]]],
        &[4, 1, 3],
        170,
    ),
    ("latencies of 32 alone", (1, 32), &[&[ALL], &[ALL]], &[1, 2, 2], 3),
];

const ALL: &[u32] =
    &[1, 2, 3, 4, 5, 6, 7, 8, 9, 10, 11, 12, 13, 14, 15, 16, 17, 18, 19, 20, 21, 22, 23, 24, 25, 26, 27, 28, 29, 30, 31, 32];

/// The unit of such a list.
pub fn hard_unit((_, (segments, columns), functions, _, _): Hard) -> Unit {
    unit_of(segments, columns, functions)
}

/// None where there are more states than the limit.
fn loops_of(unit: &Unit, tags: &[u32], limit: usize, yard: &mut Yard) -> Option<Loops> {
    let kernel = Kernel::new(unit, tags, yard);
    let reached = kernel.reached(limit)?;
    Some(Loops::new(kernel, reached))
}

fn is_best(loops: &Loops, latencies: &[u8], yard: &mut Yard) -> bool {
    loops.check_best(&Cycle { latencies: latencies.to_vec(), sum: sum_of(latencies) }, yard).is_ok()
}

/// "Fig. 2 with A B gives 1 3, sum 4." B comes 1, 3 or 5 after A, and A 3 or 5 after B: so A comes 4 or more after A, and 4 only by 1
/// and 3.
fn figure_2_loops(yard: &mut Yard) -> Checked {
    let unit = figure_2();
    let loops = loops_of(&unit, &[1, 2], MOST_STATES, yard).ok_or("Fig. 2 with A B has too many states")?;
    // by hand, the registers of A and B: 0110 1010 after A on an empty bank; 1011 0111 and 1011 0110 after B; 0111 1010 after A
    let arcs = vec![vec![(1, 1), (3, 1), (5, 2)], vec![(3, 3), (5, 0)], vec![(3, 3), (5, 0)], vec![(1, 1), (3, 1), (5, 2)]];
    if (&loops.reached.arcs, &loops.reached.positions) != (&arcs, &vec![0, 1, 1, 0]) {
        return Err(format!("Fig. 2 with A B: arcs {:?}", loops.reached.arcs));
    }
    let answers: [(&[u32], &[u8], bool); 19] = [
        (&[1, 2], &[1, 3], true),
        (&[1, 2], &[3, 1], false),
        (&[1, 2], &[1, 3, 1, 3], false),
        (&[1, 2], &[1, 3, 1], false),
        (&[1, 2], &[1, 5], false),
        (&[1, 2], &[5, 5], false),
        (&[1, 2], &[1, 2], false),
        (&[1, 2], &[4], false),
        (&[1, 2], &[], false),
        (&[2, 1], &[3, 1], true),
        (&[2, 1], &[1, 3], false),
        (&[1, 2, 1, 2], &[1, 3, 1, 3], true),
        (&[1, 2, 1, 2], &[1, 3], false),
        // A comes 1, 4 or 5 after A, and not 2
        (&[1], &[1, 4], true),
        (&[1], &[4, 1], true),
        (&[1], &[1, 4, 1, 4], false),
        (&[1, 1], &[4, 1], true),
        (&[1, 1], &[4, 4], false),
        (&[1], &[0], false),
    ];
    for (tags, latencies, is) in answers {
        let loops = loops_of(&unit, tags, MOST_STATES, yard).ok_or("Fig. 2 has too many states")?;
        if is_best(&loops, latencies, yard) != is {
            return Err(format!("Fig. 2 with {tags:?}: {latencies:?} is {} as a best loop", if is { "refused" } else { "taken" }));
        }
    }
    let wrong_sum = Cycle { latencies: vec![1, 3], sum: 5 };
    if loops.check_best(&wrong_sum, yard).is_ok() {
        return Err("Fig. 2 with A B: 1 3 is taken with sum 5".to_string());
    }
    Ok(())
}

/// "17 .. tried between 1 and 2"
fn refusals() -> Checked {
    let lists: [(&[u32], Reply<()>); 8] = [
        (&[], Err(17)),
        (&[1; 8], Ok(())),
        (&[1; 9], Err(17)),
        (&[3; 9], Err(17)),
        (&[3], Err(2)),
        (&[1, 2, 0], Err(2)),
        (&[2, 257], Err(2)),
        (&[1, 2, 2], Ok(())),
    ];
    for (tags, wanted) in lists {
        let found = check_list(&figure_2(), tags);
        if found != wanted {
            return Err(format!("Fig. 2 with {tags:?}: {found:?} in place of {wanted:?}"));
        }
    }
    Ok(())
}

/// Registers of functions that the list does not name belong to the state. A, marked in one column, never meets itself; B, marked in column
/// 1, meets it that many columns later but one: B's register has a 1 there and any of the columns below.
fn others(yard: &mut Yard) -> Checked {
    for (column, states) in [(9, Some(128)), (10, Some(256)), (11, None)] {
        let unit = unit_of(1, column, &[&[&[column]], &[&[1]]]);
        let loops = loops_of(&unit, &[1], MOST_STATES, yard);
        let alone = loops_of(&unit, &[2], MOST_STATES, yard).map(|loops| loops.reached.arcs.len());
        if loops.as_ref().map(|loops| loops.reached.arcs.len()) != states || alone != Some(1) {
            return Err(format!("a list that does not name a function: states of column {column}"));
        }
        if loops.is_some_and(|loops| !is_best(&loops, &[1], yard)) {
            return Err("a list that does not name a function: no latency 1".to_string());
        }
    }
    Ok(())
}

/// The hard lists have as many states as they say.
fn hard(yard: &mut Yard) -> Checked {
    for row in HARD {
        let (what, _, _, tags, states) = row;
        let found = Kernel::new(&hard_unit(row), tags, yard).reached(1_000).map(|reached| reached.arcs.len());
        if found != Some(states) {
            return Err(format!("{what}: {found:?} states"));
        }
    }
    Ok(())
}

fn same_average(one: (i64, i64), two: (i64, i64)) -> bool {
    one.0 * two.1 == two.0 * one.1
}

/// A list of one tag has the average of that function's best cycle, and at least as many states as its diagram.
fn one_tag(unit: &Unit, limit: usize, yard: &mut Yard) -> Checked {
    for tag in 1..=unit.functions {
        let Some(loops) = loops_of(unit, &[tag], limit, yard) else { continue };
        let vector = collision_vector(&unit.spots(tag), yard);
        let alike = diagram(&vector, loops.reached.arcs.len()).is_some_and(|diagram| same_average(diagram.least_average(), loops.least()));
        if !alike {
            return Err(format!("a loop of {tag} alone and its best cycle differ in {unit:?}"));
        }
    }
    Ok(())
}

/// Karp's theorem and heights agree; the list begun at another tag, or written twice, has the same average and as many states, or twice as
/// many; and the greedy loop never collides.
fn averages(unit: &Unit, tags: &[u32], limit: usize, yard: &mut Yard) -> Checked {
    let Some(loops) = loops_of(unit, tags, limit, yard) else { return Ok(()) };
    let (sum, count) = loops.least();
    let (arcs, states) = (&loops.reached.arcs, loops.reached.arcs.len());
    let (mut turned, twice) = (tags.to_vec(), tags.repeat(2));
    turned.rotate_left(1);
    let mut alike = |tags: &[u32], states: usize| {
        let other = loops_of(unit, tags, states, yard);
        other.is_some_and(|other| other.reached.arcs.len() == states && same_average(other.least(), (sum, count)))
    };
    let agree = alike(&turned, states) && alike(&twice, 2 * states);
    let greedy = loops.greedy();
    let holds = agree
        && nothing_below(arcs, sum, count)
        && !nothing_below(arcs, sum * 1000 + 1, count * 1000)
        && sum_of(&greedy) as i64 * count >= sum * greedy.len() as i64
        && loops.kernel.never_collides(&greedy, yard);
    if !holds {
        return Err(format!("averages of the list {tags:?} disagree in {unit:?}"));
    }
    Ok(())
}

/// "Against every rival that never collides, with m latencies, m also such a multiple, T × K is at least S × m", by trying rivals, which
/// know nothing of states. A best rival that meets a state twice is made of two shorter best ones: the shortest are loops and have to be
/// taken, and what is no best rival may not be. A rival's latencies above n + 1 can be lowered to n + 1.
fn rivals(unit: &Unit, tags: &[u32], yard: &mut Yard) -> Checked {
    let Some(loops) = loops_of(unit, tags, MOST_STATES, yard) else { return Ok(()) };
    let mut shortest = None;
    for rival in all_lists(4, loops.kernel.longest as u8) {
        let is_rival = rival.len() % tags.len() == 0 && loops.kernel.never_collides(&rival, yard);
        let (sum, count) = loops.least();
        if is_rival && (sum_of(&rival) as i64) * count < sum * rival.len() as i64 {
            return Err(format!("rival {rival:?} of {tags:?} is below {sum} / {count} in {unit:?}"));
        }
        let is_least = is_rival && loops.is_least(&rival);
        // the lists come by rising length
        let is_shortest = is_least && *shortest.get_or_insert(rival.len()) == rival.len();
        let taken = is_best(&loops, &rival, yard);
        if taken && !is_least || is_shortest && !taken {
            return Err(format!("{rival:?} is {} as a best loop of {tags:?} in {unit:?}", if taken { "taken" } else { "refused" }));
        }
    }
    Ok(())
}

/// A list of up to so many tags.
fn some_tags(unit: &Unit, most: u32, random: &mut Random) -> Vec<u32> {
    (0..random.between(1, most)).map(|_| random.between(1, unit.functions)).collect()
}

/// Everything above.
pub fn run() -> Checked {
    let yard = &mut Yard::new();
    figure_2_loops(yard)?;
    refusals()?;
    others(yard)?;
    hard(yard)?;
    for case in 0..1_000 {
        let mut random = Random::new(seed_of(12, case));
        let unit = units::unit(&mut random);
        one_tag(&unit, 100, yard)?;
        let tags = some_tags(&unit, MOST_TAGS as u32, &mut random);
        averages(&unit, &tags, 100, yard)?;
        let mut small = Unit::fresh(random.between(1, 3), random.between(1, 2), random.between(1, 5)).expect("counts in their ranges");
        for _ in 0..random.between(0, 8) {
            let (tag, segment) = (random.between(1, small.functions), random.between(1, small.segments));
            small.marks.insert(Mark { tag, segment, column: random.between(1, small.columns) });
        }
        let tags = some_tags(&small, 4, &mut random);
        rivals(&small, &tags, yard)?;
    }
    Ok(())
}
