//! Answers put into words and records into bytes, with best cycles and loops of the model's own.

use crate::console_folder::{File, Folder};
use crate::console_model::*;
use crate::loops::Loops;
use crate::model::*;
use crate::random::Random;
use crate::records;
use std::collections::HashMap;

/// Best cycles of a diagram and best loops of a list, any of them.
#[derive(Default)]
pub struct Finder {
    /// For each list the arcs that a best loop may run along.
    tight_loops: HashMap<*const Loops, Arcs>,
}

impl Finder {
    pub fn best(&mut self, graph: &Graph, random: &mut Random) -> Vec<u8> {
        let (_, mut cycle) = walk_around(graph.best_arcs(), random);
        while !is_first_rotation(&cycle) {
            cycle.rotate_left(1);
        }
        cycle
    }

    /// In any of its rotations that begin at position 0.
    pub fn best_loop(&mut self, loops: &Loops, random: &mut Random) -> Vec<u8> {
        let tight = self.tight_loops.entry(loops).or_insert_with(|| tight_arcs(&loops.reached.arcs, loops.least()));
        let (begin, latencies) = walk_around(tight, random);
        let count = loops.kernel.tags.len();
        let turns = random.below((latencies.len() / count) as u64) as usize;
        let mut latencies = loops.turned(begin, latencies);
        latencies.rotate_left(turns * count);
        latencies
    }
}

/// A walk from some state until one occurs again, and of it the part from there on, with that state.
fn walk_around(arcs: &Arcs, random: &mut Random) -> (usize, Vec<u8>) {
    let begins: Vec<usize> = (0..arcs.len()).filter(|state| !arcs[*state].is_empty()).collect();
    let mut states: Vec<usize> = Vec::new();
    let mut latencies: Vec<u8> = Vec::new();
    let mut state = random.pick(&begins);
    loop {
        if let Some(again) = states.iter().position(|earlier| *earlier == state) {
            return (state, latencies[again..].to_vec());
        }
        states.push(state);
        let (latency, next) = random.pick(&arcs[state]);
        latencies.push(latency as u8);
        state = next;
    }
}

/// The loop of least sum that goes around the list once. None where there are many states.
pub fn one_turn(loops: &Loops) -> Option<Vec<u8>> {
    const MOST: usize = 60;
    let (arcs, positions) = (&loops.reached.arcs, &loops.reached.positions);
    if arcs.len() > MOST {
        return None;
    }
    let from = |begin: usize| {
        // for each state the latencies of least sum that lead to it
        let mut ways: HashMap<usize, Vec<u8>> = HashMap::from([(begin, Vec::new())]);
        for _ in &loops.kernel.tags {
            let mut longer: HashMap<usize, Vec<u8>> = HashMap::new();
            for (state, way) in &ways {
                for &(latency, next) in &arcs[*state] {
                    let new = [&way[..], &[latency as u8]].concat();
                    if longer.get(&next).is_none_or(|old| sum_of(&new) < sum_of(old)) {
                        longer.insert(next, new);
                    }
                }
            }
            ways = longer;
        }
        ways.remove(&begin)
    };
    let begins = (0..arcs.len()).filter(|state| positions[*state] == 0);
    begins.filter_map(from).min_by_key(|way| (sum_of(way), way.clone()))
}

pub fn plan_drawing(tag: u32, drawn: &Drawn, latencies: &[u8]) -> String {
    let course = drawn.graph.course(latencies).expect("a cycle of the diagram");
    drawing(tag, &drawn.graph, &course.into_iter().collect())
}

/// How a chart is drawn, from it and from the plan's latencies.
pub type Draw = fn(&Chart, &[u8]) -> String;

/// Puts answers into words, with any best cycles.
pub struct Filler {
    finder: Finder,
    /// The plans that were shown, by the number of their search.
    plans: HashMap<usize, Vec<u8>>,
    draw: Draw,
}

impl Filler {
    pub fn new(draw: Draw) -> Filler {
        Filler { finder: Finder::default(), plans: HashMap::new(), draw }
    }

    pub fn text(&mut self, answer: &Answer, random: &mut Random) -> String {
        let in_words = |part: &Part| match part {
            Part::Text(text) => text.clone(),
            Part::Best(drawn) => cycle_text(&self.finder.best(&drawn.graph, random)),
            Part::Loop(loops) => cycle_text(&self.finder.best_loop(loops, random)),
            Part::Plan(search, drawn) => cycle_text(self.plan(*search, drawn, random)),
            Part::Drawing(search, tag, drawn) => plan_drawing(*tag, drawn, self.plan(*search, drawn, random)),
            Part::List(planned) => {
                let latencies = self.plan(planned.search, &planned.drawn, random);
                records::list_text(latencies.len(), latencies)
            }
            Part::Ring(planned) => {
                let latencies = self.plan(planned.search, &planned.drawn, random);
                records::ring_text(sum_of(latencies) as usize, &records::ring_of(latencies))
            }
            Part::Chart(chart) => (self.draw)(chart, self.plan(chart.planned.search, &chart.planned.drawn, random)),
        };
        answer.parts.iter().map(in_words).collect()
    }

    fn plan(&mut self, search: usize, drawn: &Drawn, random: &mut Random) -> &[u8] {
        let Filler { finder, plans, .. } = self;
        plans.entry(search).or_insert_with(|| finder.best(&drawn.graph, random))
    }

    /// The bytes of a plan's record.
    pub fn record(&mut self, planned: &Planned, random: &mut Random) -> Vec<u8> {
        records::record_of(self.plan(planned.search, &planned.drawn, random)).expect("a best cycle has a record")
    }

    /// The folder as it is found after a run: records with their bytes.
    pub fn folder(&mut self, folder: &Folder, random: &mut Random) -> Folder {
        let mut found = folder.clone();
        for file in found.files.values_mut() {
            if let File::Record(planned) = file {
                *file = File::Bytes(self.record(planned, random));
            }
        }
        found
    }
}
