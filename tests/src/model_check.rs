//! The model against the paper's own tables and, on small units, against its definitions tried out one by one. It runs before the library
//! is asked anything: a model that fails here can't judge anybody.

use crate::facts::Facts;
use crate::model::*;
use crate::random::{seed_of, Random};
use crate::sheet::{play, Desk, Plan};
use crate::tally::Met;
use crate::units;

type Checked = Result<(), String>;

/// A unit from the columns of each segment of each function.
pub fn unit_of(segments: u32, columns: u32, functions: &[&[&[u32]]]) -> Unit {
    let mut unit = Unit::fresh(functions.len() as u32, segments, columns).expect("counts in their ranges");
    for (tag, rows) in (1..).zip(functions) {
        for (segment, marked) in (1..).zip(*rows) {
            for &column in *marked {
                unit.mark(Mark { tag, segment, column }).expect("a mark inside the counts");
            }
        }
    }
    unit
}

/// "000's Fig. 1 (one function, 5 segments, 9 columns; marks at columns 1 9; 2 3 8; 4; 5 6; 7 8)"
pub fn figure_1() -> Unit {
    unit_of(5, 9, &[&[&[1, 9], &[2, 3, 8], &[4], &[5, 6], &[7, 8]]])
}

/// "Fig. 2, 3 segments, 5 columns: A in 1 4; 2; 3 5, B in 2 5; 4; 1 3."
pub fn figure_2() -> Unit {
    unit_of(3, 5, &[&[&[1, 4], &[2], &[3, 5]], &[&[2, 5], &[4], &[1, 3]]])
}

/// "Marks 1 3 6 in one segment", "No marks", "Marks 1 2", "Marks 1 10", "Marks 1 11"
pub fn one_segment(marked: &[u32]) -> Unit {
    unit_of(1, marked.iter().copied().max().unwrap_or(1), &[&[marked]])
}

/// "Three segments, 1 3; 1 4; 1 7"
pub fn three_segments() -> Unit {
    unit_of(3, 7, &[&[&[1, 3], &[1, 4], &[1, 7]]])
}

pub const FIGURE_1_LISTING: &str =
    "function 1\nvector 10110001\nbound 3 upper 5\nstates 5\ngreedy 2 2 7 sum 11\nbest 3 4 sum 7\nconstant 7\n";

fn equal<T: PartialEq + std::fmt::Debug>(what: &str, found: T, wanted: T) -> Checked {
    if found == wanted {
        return Ok(());
    }
    Err(format!("{what}: the model has {found:?}, the paper {wanted:?}"))
}

/// Every cycle of a small diagram in which no state occurs twice, each in its first rotation.
fn all_cycles(diagram: &Diagram) -> Vec<Vec<u8>> {
    fn go(diagram: &Diagram, begin: usize, state: usize, met: &mut Vec<bool>, way: &mut Vec<u8>, found: &mut Vec<Vec<u8>>) {
        for &(latency, next) in &diagram.arcs[state] {
            way.push(latency as u8);
            if next == begin {
                if is_first_rotation(way) {
                    found.push(way.clone());
                }
            } else if !met[next] {
                met[next] = true;
                go(diagram, begin, next, met, way, found);
                met[next] = false;
            }
            way.pop();
        }
    }
    let mut found = Vec::new();
    for begin in 0..diagram.states.len() {
        let mut met = vec![false; diagram.states.len()];
        met[begin] = true;
        go(diagram, begin, begin, &mut met, &mut Vec::new(), &mut found);
    }
    found.sort();
    found.dedup();
    found
}

/// The cycles of least average, found by comparing all of them.
pub fn best_cycles(diagram: &Diagram) -> Vec<Vec<u8>> {
    let all = all_cycles(diagram);
    let better = |one: &[u8], two: &[u8]| sum_of(one) as usize * two.len() < sum_of(two) as usize * one.len();
    all.iter().filter(|one| !all.iter().any(|two| better(two, one))).cloned().collect()
}

struct Answers {
    vector: String,
    bound: u32,
    upper: u32,
    states: usize,
    greedy: Vec<u8>,
    best: Vec<Vec<u8>>,
    constant: u32,
}

fn answers(unit: &Unit, tag: u32) -> Answers {
    let yard = &mut Yard::new();
    let spots = unit.spots(tag);
    let vector = collision_vector(&spots, yard);
    let diagram = diagram(&vector, MOST_STATES).expect("a diagram within the limit");
    Answers {
        vector: vector_text(&vector),
        bound: bound(&vector),
        upper: upper(&vector),
        states: diagram.states.len(),
        greedy: diagram.greedy(),
        best: best_cycles(&diagram),
        constant: constant(&vector),
    }
}

fn papers_tables() -> Checked {
    let yard = &mut Yard::new();

    let told = answers(&figure_1(), 1);
    equal("Fig. 1 vector", told.vector.as_str(), "10110001")?;
    equal("Fig. 1 bound and upper", (told.bound, told.upper), (3, 5))?;
    equal("Fig. 1 states", told.states, 5)?;
    equal("Fig. 1 greedy", told.greedy, vec![2, 2, 7])?;
    equal("Fig. 1 best", told.best, vec![vec![3, 4]])?;
    equal("Fig. 1 constant", told.constant, 7)?;
    // by hand: from 10110001 latency 2 leads to 10111101, 3 to 10110111, 4 to 10111011, 7 and 9 back; from 10111101 latency 2 to 10111111
    let vector = collision_vector(&figure_1().spots(1), yard);
    let listed = diagram(&vector, MOST_STATES).expect("five states");
    let words: Vec<u32> = listed.states.iter().map(|state| word_of(state)).collect();
    equal("Fig. 1 states", words, vec![0b10110001, 0b10111101, 0b10110111, 0b10111011, 0b10111111])?;
    equal("Fig. 1 arcs", listed.arcs[0].clone(), vec![(2, 1), (3, 2), (4, 3), (7, 0), (9, 0)])?;
    equal("Fig. 1 least average", listed.least_average().0 * 2 == listed.least_average().1 * 7, true)?;
    equal("Fig. 1 nothing below 7 / 2, something below 11 / 3", (listed.nothing_below(7, 2), listed.nothing_below(11, 3)), (true, false))?;
    // (2 2 7) and (3 4) close; (3) leads on; (7) and (9) both close at the first state, which (7 9) would meet twice
    let cycles: [(&[u8], bool); 9] = [
        (&[3, 4], true),
        (&[4, 3], true),
        (&[2, 2, 7], true),
        (&[7], true),
        (&[9], true),
        (&[3], false),
        (&[7, 9], false),
        (&[3, 4, 3, 4], false),
        (&[], false),
    ];
    for (latencies, is) in cycles {
        equal(&format!("Fig. 1 cycle {latencies:?}"), listed.has_cycle(latencies), is)?;
    }
    let pieces = listing(&Ok(figure_1()), yard, |_| Some((5, vec![2, 2, 7])));
    let text: String = pieces
        .iter()
        .map(|piece| match piece {
            Piece::Text(text) => text.clone(),
            Piece::Best(_) => cycle_text(&[3, 4]),
        })
        .collect();
    equal("Fig. 1 listing", text.as_str(), FIGURE_1_LISTING)?;

    // "M_A rows A 0110, B 1010; M_B rows A 1011, B 0110": row Q of M_R is for Q started after R
    let unit = figure_2();
    let row = |tag: u32, other: u32, yard: &mut Yard| word_of(&meetings(&unit.spots(other), &unit.spots(tag), yard));
    equal("Fig. 2 M_A row A", row(1, 1, yard), 0b0110)?;
    equal("Fig. 2 M_A row B", row(2, 1, yard), 0b1010)?;
    equal("Fig. 2 M_B row A", row(1, 2, yard), 0b1011)?;
    equal("Fig. 2 M_B row B", row(2, 2, yard), 0b0110)?;
    // "Fig. 2's file: 32 bytes, offsets 8 and 20": A's words are columns 1 4, 2 and 3 5, B's 2 5, 4 and 1 3
    let file = encode(&unit);
    let by_hand = [2, 3, 5, 0, 8, 0, 20, 0, 9, 0, 0, 0, 2, 0, 0, 0, 20, 0, 0, 0, 18, 0, 0, 0, 8, 0, 0, 0, 5, 0, 0, 0];
    equal("Fig. 2 file", file.as_slice(), by_hand.as_slice())?;
    equal("Fig. 2 file read", decode(&file), Ok(unit))?;

    let told = answers(&one_segment(&[1, 3, 6]), 1);
    equal("1 3 6 forbidden 2 3 5", told.vector.as_str(), "10110")?;
    equal("1 3 6 best", told.best.contains(&vec![1, 6]), true)?;

    let told = answers(&three_segments(), 1);
    equal("three segments best", told.best.contains(&vec![1, 4, 4]), true)?;
    equal("three segments bound", (told.bound, most_marks(&three_segments().spots(1))), (3, 2))?;

    let told = answers(&one_segment(&[]), 1);
    equal("no marks vector", told.vector.as_str(), "-")?;
    equal("no marks", (told.bound, told.upper, told.states, told.constant), (1, 1, 1, 1))?;
    equal("no marks best", (told.best, told.greedy), (vec![vec![1]], vec![1]))?;
    equal("1 2 best", answers(&one_segment(&[1, 2]), 1).best, vec![vec![2]])?;

    let count = |marked: &[u32], limit: usize, yard: &mut Yard| {
        diagram(&collision_vector(&one_segment(marked).spots(1), yard), limit).map(|diagram| diagram.states.len())
    };
    equal("1 10 states", count(&[1, 10], MOST_STATES, yard), Some(256))?;
    equal("1 11 states", count(&[1, 11], 1000, yard), Some(512))?;
    equal("1 11 refused", count(&[1, 11], MOST_STATES, yard), None)?;

    // "testing intervals within one period only": with marks 1 3 the cycle (1) collides two starts later
    let spots = one_segment(&[1, 3]).spots(1);
    equal("1 3, cycle (1)", (one_turn_never_collides(&spots, &[1], yard), never_collides(&spots, &[1], yard)), (true, false))?;
    equal("1 3, cycle (1 3)", never_collides(&spots, &[1, 3], yard), true)?;

    for (what, forbidden) in units::HARD {
        let vector: Vec<bool> = (1..=forbidden[forbidden.len() - 1]).map(|latency| forbidden.contains(&latency)).collect();
        let states = diagram(&vector, 1_000).map(|diagram| diagram.states.len());
        let limited = diagram(&vector, MOST_STATES).map(|diagram| diagram.states.len());
        equal(what, limited, states.filter(|count| *count <= MOST_STATES))?;
    }

    let wrong = |tag: u32, segment: u32, column: u32| figure_2().check_mark(Mark { tag, segment, column });
    equal("mark inside", wrong(2, 3, 5), Ok(()))?;
    equal("tag before segment and column", (wrong(3, 4, 6), wrong(0, 0, 0)), (Err(2), Err(2)))?;
    equal("segment before column", (wrong(2, 4, 6), wrong(1, 0, 0)), (Err(3), Err(3)))?;
    equal("column", (wrong(2, 3, 6), wrong(1, 1, 0)), (Err(4), Err(4)))?;

    for (file, number) in [(vec![], 11), (vec![0, 0, 0], 11), (vec![0, 1, 1, 9], 1), (vec![1, 17, 1, 0], 1), (vec![1, 1, 33, 0], 1)] {
        equal("refused file", decode(&file), Err(number))?;
    }
    equal("wrong length before byte 3", decode(&[1, 1, 1, 1]), Err(11))?;
    equal("byte 3", decode(&[1, 1, 1, 1, 6, 0, 2, 0, 0, 0]), Err(12))?;
    equal("offset before mark", decode(&[1, 1, 1, 0, 7, 0, 2, 0, 0, 0]), Err(12))?;
    equal("mark beyond the columns", decode(&[1, 1, 1, 0, 6, 0, 2, 0, 0, 0]), Err(13))?;
    Ok(())
}

/// The halves find the bound that trying every set of numbers finds, for every vector of up to `most` columns.
fn bounds(most: usize) -> Checked {
    for word in 0..1u32 << most {
        let vector: Vec<bool> = (0..32 - word.leading_zeros()).map(|place| word >> place & 1 == 1).collect();
        let goes = |set: u32| (0..most).all(|one| (one + 1..=most).all(|two| set >> one & set >> two & 1 == 0 || word >> (two - one - 1) & 1 == 1));
        let largest = (1..2u32 << most).filter(|set| goes(*set)).map(u32::count_ones).max().unwrap_or(0);
        equal(&format!("bound of {}", vector_text(&vector)), bound(&vector), largest)?;
    }
    Ok(())
}

/// Lists of up to `length` latencies of 1 to `most`.
pub fn all_lists(length: usize, most: u8) -> Vec<Vec<u8>> {
    let mut lists: Vec<Vec<u8>> = vec![vec![]];
    let mut begin = 0;
    for _ in 0..length {
        let end = lists.len();
        for place in begin..end {
            for latency in 1..=most {
                let mut longer = lists[place].clone();
                longer.push(latency);
                lists.push(longer);
            }
        }
        begin = end;
    }
    lists.remove(0);
    lists
}

/// Demand 3's rival clause by trying rivals, which know nothing of diagrams: none that never collides has an average below the least one
/// of the diagram, and where a best cycle is short it is among them. A rival's latencies above n + 1 can be lowered to n + 1.
fn rivals(unit: &Unit, yard: &mut Yard) -> Checked {
    let spots = unit.spots(1);
    let vector = collision_vector(&spots, yard);
    let Some(diagram) = diagram(&vector, MOST_STATES) else { return Ok(()) };
    let (sum, count) = diagram.least_average();
    let small = diagram.states.len() <= 8;
    let cycles = if small { all_cycles(&diagram) } else { Vec::new() };
    for rival in all_lists(4, vector.len() as u8 + 1) {
        if never_collides(&spots, &rival, yard) && (sum_of(&rival) as i64) * count < sum * rival.len() as i64 {
            return Err(format!("rival {rival:?} is below {sum} / {count} in {unit:?}"));
        }
        if small && is_first_rotation(&rival) && diagram.has_cycle(&rival) != cycles.contains(&rival) {
            return Err(format!("whether {rival:?} is a cycle is answered in two ways in {unit:?}"));
        }
    }
    if small {
        let best = best_cycles(&diagram);
        let as_least = |cycle: &Vec<u8>| sum_of(cycle) as i64 * count == sum * cycle.len() as i64;
        if best.is_empty() || !best.iter().all(|cycle| as_least(cycle) && never_collides(&spots, cycle, yard) && diagram.has_cycle(cycle)) {
            return Err(format!("best cycles {best:?} and least average {sum} / {count} differ in {unit:?}"));
        }
    }
    Ok(())
}

/// Karp's theorem and heights agree, and the textbook's bounds hold: bound × K at most S at most upper × K, for best and greedy.
fn averages(unit: &Unit, yard: &mut Yard) -> Checked {
    for tag in 1..=unit.functions {
        let spots = unit.spots(tag);
        let vector = collision_vector(&spots, yard);
        let Some(diagram) = diagram(&vector, MOST_STATES) else { continue };
        let (sum, count) = diagram.least_average();
        let greedy = diagram.greedy();
        let (greedy_sum, greedy_count) = (sum_of(&greedy) as i64, greedy.len() as i64);
        let (marks, least, most) = (most_marks(&spots) as i64, bound(&vector) as i64, upper(&vector) as i64);
        let holds = diagram.nothing_below(sum, count)
            && !diagram.nothing_below(sum * 1000 + 1, count * 1000)
            && greedy_sum * count >= sum * greedy_count
            && marks <= least
            && least * count <= sum
            && greedy_sum <= most * greedy_count
            && diagram.has_cycle(&greedy)
            && never_collides(&spots, &greedy, yard);
        if !holds {
            return Err(format!("averages of function {tag} disagree in {unit:?}"));
        }
    }
    Ok(())
}

/// The registers' sentence and the tasks themselves agree from an empty bank.
fn controller(unit: &Unit, random: &mut Random, yard: &mut Yard) -> Checked {
    let mut bank = Bank::of_words(&[0; REGISTERS]);
    let mut machine = Machine::new();
    for _ in 0..30 {
        if random.chance(1, 3) {
            bank.tick();
            machine.tick();
            continue;
        }
        let tag = random.between(1, unit.functions);
        let rows: Vec<Vec<bool>> = (1..=unit.functions).map(|other| meetings(&unit.spots(tag), &unit.spots(other), yard)).collect();
        let granted = machine.start(&unit.spots(tag));
        equal("start", bank.start(tag, &rows), granted).map_err(|why| format!("{why} in {unit:?}"))?;
    }
    Ok(())
}

/// The model itself as the player of lists, with a plan that it stores, so that the sheet's side of a read is tried too.
struct ModelDesk {
    unit: Unit,
    plan: Option<Plan>,
    file: Vec<u8>,
    yard: Yard,
}

impl Desk for ModelDesk {
    fn edit(&mut self, set: bool, mark: Mark) -> Result<Reply<()>, String> {
        let reply = if set { self.unit.mark(mark) } else { self.unit.unmark(mark) };
        if reply.is_ok() {
            self.plan = None;
            self.file = encode(&self.unit);
        }
        Ok(reply)
    }

    fn search(&mut self, tag: u32, work_length: usize) -> Result<Reply<Option<Cycle>>, String> {
        if let Err(number) = self.unit.check_tag(tag) {
            return Ok(Err(number));
        }
        if work_length < WORKING_WORDS {
            return Ok(Err(5));
        }
        let Some(diagram) = Facts::of_file(self.file.clone(), 0).diagram(tag, &mut self.yard) else { return Ok(Err(7)) };
        let latencies = best_cycles(&diagram)[0].clone();
        self.plan = Some(Plan { tag, cycle: Cycle { sum: sum_of(&latencies), latencies } });
        Ok(Ok(None))
    }

    fn read(&mut self) -> Result<Option<Reply<Plan>>, String> {
        Ok(Some(self.plan.clone().ok_or(8)))
    }

    fn file(&self) -> Option<&[u8]> {
        Some(&self.file)
    }
}

fn lists(case: u64, yard: &mut Yard, met: &mut Met) -> Checked {
    let mut random = Random::new(seed_of(11, case));
    let (functions, segments, columns) = (random.between(1, 3), random.between(1, 3), random.between(1, 6));
    let unit = Unit::fresh(functions, segments, columns).expect("counts in their ranges");
    let mut desk = ModelDesk { file: encode(&unit), unit: unit.clone(), plan: None, yard: Yard::new() };
    play(&mut desk, unit, 25, &mut random, yard, met)
}

/// Everything above; the number of random units tried.
pub fn run() -> Result<u64, String> {
    papers_tables()?;
    bounds(10)?;
    let yard = &mut Yard::new();
    let met = &mut Met::default();
    let cases = 1_000;
    for case in 0..cases {
        let mut random = Random::new(seed_of(10, case));
        let unit = units::unit(&mut random);
        equal("file read and written", decode(&encode(&unit)).as_ref(), Ok(&unit))?;
        averages(&unit, yard)?;
        controller(&unit, &mut random, yard)?;
        lists(case, yard, met)?;
        let mut small = Unit::fresh(1, random.between(1, 3), random.between(1, 7)).expect("counts in their ranges");
        for _ in 0..random.between(0, 7) {
            let mark = Mark { tag: 1, segment: random.between(1, small.segments), column: random.between(1, small.columns) };
            small.marks.insert(mark);
        }
        rivals(&small, yard)?;
    }
    Ok(cases)
}
