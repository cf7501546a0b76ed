//! What the model says of one file, each answer worked out when it is first asked for.

use crate::model::*;
use crate::tally::Met;
use std::rc::Rc;

/// Up to so many states every least average is worked out by Karp's theorem; above that one in `KARP_SAMPLE`, and else by heights.
const KARP_STATES: usize = 48;
const KARP_SAMPLE: u64 = 3;

#[derive(Default)]
struct Function {
    spots: Rc<Vec<Spot>>,
    vector: Option<Rc<Vec<bool>>>,
    diagram: Option<Option<Rc<Diagram>>>,
    least: Option<(i64, i64)>,
    bound: Option<u32>,
}

pub struct Facts {
    pub file: Vec<u8>,
    pub unit: Reply<Unit>,
    functions: Vec<Function>,
    sampled: bool,
}

impl Facts {
    /// `case` decides whether a large diagram is among those for Karp's theorem.
    pub fn of_file(file: Vec<u8>, case: u64) -> Facts {
        let unit = decode(&file);
        let functions = match &unit {
            Ok(unit) => (1..=unit.functions).map(|tag| Function { spots: Rc::new(unit.spots(tag)), ..Function::default() }).collect(),
            Err(_) => Vec::new(),
        };
        Facts { file, unit, functions, sampled: case % KARP_SAMPLE == 0 }
    }

    /// The file's refusal, else 2 where the tag isn't in the unit: "a unit file is tried first".
    pub fn known(&self, tag: u32) -> Reply<()> {
        match &self.unit {
            Ok(unit) => unit.check_tag(tag),
            Err(number) => Err(*number),
        }
    }

    pub fn functions(&self) -> u32 {
        self.functions.len() as u32
    }

    pub fn spots(&self, tag: u32) -> Rc<Vec<Spot>> {
        self.functions[tag as usize - 1].spots.clone()
    }

    pub fn vector(&mut self, tag: u32, yard: &mut Yard) -> Rc<Vec<bool>> {
        let function = &mut self.functions[tag as usize - 1];
        let spots = &function.spots;
        function.vector.get_or_insert_with(|| Rc::new(collision_vector(spots, yard))).clone()
    }

    /// Row `tag` of the matrix of `other`: "Q started t after R would collide".
    pub fn row(&self, tag: u32, other: u32, yard: &mut Yard) -> Vec<bool> {
        meetings(&self.spots(other), &self.spots(tag), yard)
    }

    /// None where there are too many states.
    pub fn diagram(&mut self, tag: u32, yard: &mut Yard) -> Option<Rc<Diagram>> {
        let vector = self.vector(tag, yard);
        let function = &mut self.functions[tag as usize - 1];
        function.diagram.get_or_insert_with(|| diagram(&vector, MOST_STATES).map(Rc::new)).clone()
    }

    pub fn bound(&mut self, tag: u32, yard: &mut Yard) -> u32 {
        let vector = self.vector(tag, yard);
        *self.functions[tag as usize - 1].bound.get_or_insert_with(|| bound(&vector))
    }

    /// "l × K ≤ S ≤ (u + 1) × K", with Bound for l, of the best and of the greedy cycle.
    pub fn check_bounds(&mut self, tag: u32, cycle: &Cycle, yard: &mut Yard, met: &mut Met) -> Result<(), String> {
        let (least, most) = (self.bound(tag, yard) as u64, upper(&self.vector(tag, yard)) as u64);
        let (sum, count) = (cycle.sum as u64, cycle.latencies.len() as u64);
        if sum < least * count || most * count < sum {
            return Err(format!("{:?} with sum {sum} is not between the bounds {least} and {most}", cycle.latencies));
        }
        met.meet_if(sum == least * count, "average at the lower bound");
        met.meet_if(sum == most * count, "average at the upper bound");
        Ok(())
    }

    /// "It finds a cycle of the diagram in which no state occurs twice and whose S / K is least. The cycle is given in the rotation that
    /// comes first"; "K and S are the cycle's own". For a tag with a diagram.
    pub fn check_best(&mut self, tag: u32, cycle: &Cycle, yard: &mut Yard, met: &mut Met) -> Result<(), String> {
        let diagram = self.diagram(tag, yard).expect("a diagram within the limit");
        let latencies = &cycle.latencies;
        if latencies.is_empty() || latencies.len() > MOST_LATENCIES {
            return Err(format!("{} latencies", latencies.len()));
        }
        if cycle.sum != sum_of(latencies) {
            return Err(format!("sum {} of {latencies:?}, which is {}", cycle.sum, sum_of(latencies)));
        }
        if !diagram.has_cycle(latencies) {
            return Err(format!("{latencies:?} is no cycle of the diagram with no state twice"));
        }
        if !is_first_rotation(latencies) {
            return Err(format!("{latencies:?} has a rotation that comes before it"));
        }
        if !never_collides(&self.spots(tag), latencies, yard) {
            return Err(format!("{latencies:?} collides"));
        }
        let (sum, count) = (cycle.sum as i64, latencies.len() as i64);
        let function = &mut self.functions[tag as usize - 1];
        if function.least.is_none() {
            if diagram.states.len() <= KARP_STATES || self.sampled {
                met.meet("least average by Karp");
                function.least = Some(diagram.least_average());
            } else if diagram.nothing_below(sum, count) {
                met.meet("least average by heights");
                function.least = Some((sum, count));
            } else {
                return Err(format!("{latencies:?} with sum {sum}: some cycle has a lower average"));
            }
        }
        match function.least {
            Some((least, of)) if least * count == sum * of => Ok(()),
            other => Err(format!("{latencies:?} with sum {sum}: the least average is {other:?}")),
        }
    }
}
