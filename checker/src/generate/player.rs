//! A random player: takes mostly applicable steps, and ends a run with a wish, a step that is to be
//! refused by a certain number.

use crate::clause::{Atom, Clause, Closure, Literal};
use crate::constraint;
use crate::limits;
use crate::random::Random;
use crate::rules::answers;
use crate::state::{Entry, State};
use crate::step::{brings_atoms, Source, Step};
use std::ops::RangeInclusive;

/// A rule and the number by which a step of it is to be refused.
pub type Wish = (u8, u8);

/// From when on something is tried.
#[derive(Clone, Copy, Debug)]
pub enum Moment {
    /// From that step on.
    Step(usize),
    /// After a refutation.
    Refuted,
    /// While the trail has so many entries.
    Trail(usize),
    /// When there are so many learned clauses.
    Learned(usize),
}

/// How the player plays: weights of the rules, and where the run ends.
#[derive(Clone, Debug)]
pub struct Temper {
    /// At most so many steps.
    pub steps: usize,
    pub propagate: usize,
    pub decide: usize,
    pub conflict: usize,
    pub grow: usize,
    pub resolve: usize,
    pub factorize: usize,
    pub skip: usize,
    pub backtrack: usize,
    /// Whether to Grow where nothing else applies.
    pub grow_when_stuck: bool,
    /// Grow by so many constants at most.
    pub grow_most: usize,
    /// No Conflict before the trail is that long.
    pub quiet_until: usize,
    /// How often, of a hundred, literals are made false by the newest trail literals.
    pub newest: usize,
    /// How often, of a hundred, Decide takes the sign that makes the clause's literal false.
    pub against: usize,
    /// How often, of a hundred, Decide brings atoms, in a version in which it may.
    pub brings: usize,
    /// So many of them, as far as there are such.
    pub brought: RangeInclusive<usize>,
    /// How often, of a hundred, an atom is denied.
    pub denied: usize,
    /// Whether the run goes on after a refutation.
    pub past_refutation: bool,
    pub wish: Option<Wish>,
    /// When the wish is tried.
    pub moment: Moment,
    /// So many steps are put behind a refused one.
    pub behind: usize,
}

/// A constant for each variable, 0 where there is none yet.
type Partial = [u8; limits::VARIABLES];

/// How many trail literals are looked at for one instance, at most.
const PATIENCE: usize = 600;
/// How many clauses or atoms are looked at for one atom that a decision is to bring, at most.
const LOOKS: usize = 4;

pub struct Player<'a> {
    random: &'a mut Random,
    temper: &'a Temper,
    state: State,
    /// The literals on the trail.
    on_trail: Vec<Literal>,
    steps: Vec<Step>,
}

/// Plays from a state; the steps, the last of which may be refused.
pub fn play(random: &mut Random, temper: &Temper, state: State) -> Vec<Step> {
    let mut player = Player::new(random, temper, state);
    player.play();
    player.steps
}

fn literals_on(state: &State) -> Vec<Literal> {
    state.trail.iter().filter_map(Entry::literal).copied().collect()
}

impl<'a> Player<'a> {
    pub fn new(random: &'a mut Random, temper: &'a Temper, state: State) -> Player<'a> {
        let on_trail = literals_on(&state);
        Player { random, temper, state, on_trail, steps: Vec::new() }
    }

    fn play(&mut self) {
        while self.steps.len() < self.temper.steps {
            if let Some(step) = self.wish() {
                return self.end_with(step);
            }
            let Some(step) = self.applicable() else { return self.end_stuck() };
            self.take(step);
        }
    }

    pub fn take(&mut self, step: Step) {
        self.state.take(&step).expect("the step is applicable");
        self.steps.push(step);
        self.on_trail = literals_on(&self.state);
    }

    pub fn state(&self) -> &State {
        &self.state
    }

    pub fn into_steps(self) -> Vec<Step> {
        self.steps
    }

    /// Where nothing applies, a run with a wish ends with some refused step.
    fn end_stuck(&mut self) {
        for _ in 0..10 {
            let (rule, numbers) = self.random.pick(&answers(self.state.version));
            let number = self.random.pick(numbers);
            let granted = if number == 0 { None } else { self.grant(rule, number) };
            if let Some(step) = granted.filter(|_| self.temper.wish.is_some()) {
                return self.end_with(step);
            }
        }
    }

    /// Ends the run with a refused step.
    fn end_with(&mut self, step: Step) {
        self.steps.push(step);
        for _ in 0..self.temper.behind.min(self.temper.steps - self.steps.len()) {
            let rule = self.random.within(1..=8) as u8;
            let step = self.plausible(rule);
            self.steps.push(step);
        }
    }

    // Applicable steps

    fn applicable(&mut self) -> Option<Step> {
        match &self.state.conflict {
            None => self.applicable_without_conflict(),
            Some(conflict) if conflict.is_refutation() => {
                let go_on = self.temper.past_refutation && !self.state.trail.is_empty();
                go_on.then_some(Step::Skip)
            }
            Some(_) => self.applicable_with_conflict(),
        }
    }

    /// Of Propagate, Decide, Conflict and Grow: one picked by weight, else the next that applies.
    fn applicable_without_conflict(&mut self) -> Option<Step> {
        let quiet = self.state.trail.len() < self.temper.quiet_until;
        // Without room for another learned clause a conflict would hardly end.
        let full = self.state.learned.len() == limits::LEARNED_CLAUSES;
        let avoid = full && self.random.percent(95) && !self.waits_for_learned();
        let conflict = if quiet || avoid { 0 } else { self.temper.conflict };
        let mut weights = [self.temper.propagate, self.temper.decide, conflict, self.temper.grow];
        while weights.iter().sum::<usize>() > 0 {
            let kind = self.random.weighted(&weights);
            weights[kind] = 0;
            let found = match kind {
                0 => self.find_propagate(),
                1 => self.find_decide(),
                2 => self.find_conflict(),
                _ => self.find_grow(),
            };
            if found.is_some() {
                return found;
            }
        }
        if self.temper.grow_when_stuck {
            self.find_grow()
        } else {
            None
        }
    }

    fn waits_for_learned(&self) -> bool {
        self.temper.wish.is_some() && matches!(self.temper.moment, Moment::Learned(_))
    }

    fn applies(&self, step: &Step) -> bool {
        self.state.judge(step).is_ok()
    }

    /// How often to look for a step before giving up; less often where looking takes long.
    fn tries(&self) -> usize {
        if self.on_trail.len() < 40 {
            80
        } else {
            20
        }
    }

    fn find_propagate(&mut self) -> Option<Step> {
        for _ in 0..self.tries() {
            if let Some(step) = self.propagate_made_ready().filter(|step| self.applies(step)) {
                return Some(step);
            }
        }
        None
    }

    pub fn find_decide(&mut self) -> Option<Step> {
        for _ in 0..40 {
            let mut step = self.plausible_alone(2);
            self.turn_against(&mut step);
            if self.applies(&step) {
                self.bring(&mut step);
                return Some(step);
            }
        }
        None
    }

    /// Has a decision that applies bring atoms, as the temper says.
    fn bring(&mut self, step: &mut Step) {
        if !brings_atoms(self.state.version) || !self.random.percent(self.temper.brings) {
            return;
        }
        let room = limits::TRAIL - self.state.trail.len() - 1;
        let count = self.random.within(self.temper.brought.clone());
        let ready = self.atoms_made_ready(count.min(room));
        if let Step::Decide { atoms, .. } = step {
            *atoms = ready;
        }
    }

    fn turn_against(&mut self, step: &mut Step) {
        if let Step::Decide { clause, literal, positive, .. } = step {
            let literal =
                self.clause(*clause).and_then(|c| c.literals.get(*literal as usize - 1).copied());
            if let Some(literal) = literal.filter(|_| self.random.percent(self.temper.against)) {
                *positive = !literal.positive;
            }
        }
    }

    fn find_conflict(&mut self) -> Option<Step> {
        for _ in 0..self.tries() {
            if let Some(step) = self.conflict_made_ready().filter(|step| self.applies(step)) {
                return Some(step);
            }
        }
        None
    }

    fn find_grow(&mut self) -> Option<Step> {
        let room = limits::CONSTANTS - self.state.constants;
        let most = room.min(self.temper.grow_most);
        (room > 0).then(|| Step::Grow { count: self.random.within(1..=most) as u8 })
    }

    /// Of Resolve, Factorize, Skip and Backtrack: a rule picked by weight of those that apply.
    fn applicable_with_conflict(&mut self) -> Option<Step> {
        let weight_of = [
            (4, self.temper.resolve),
            (5, self.temper.factorize),
            (6, self.temper.skip),
            (7, self.temper.backtrack),
        ];
        let mut choices: Vec<Vec<Step>> = Vec::new();
        let mut weights: Vec<usize> = Vec::new();
        for (rule, weight) in weight_of {
            let mut steps = self.all_steps_on_conflict(rule);
            steps.retain(|step| self.applies(step));
            if !steps.is_empty() && weight > 0 {
                choices.push(steps);
                weights.push(weight);
            }
        }
        if choices.is_empty() {
            return None;
        }
        let kind = self.random.weighted(&weights);
        Some(self.random.pick(&choices[kind]))
    }

    /// Every step of a rule from 4 to 7 that names literals of the conflict.
    fn all_steps_on_conflict(&self, rule: u8) -> Vec<Step> {
        let Some(conflict) = &self.state.conflict else { return Vec::new() };
        let literals = 1..=conflict.clause.literals.len() as u8;
        match rule {
            4 => literals.map(|literal| Step::Resolve { literal }).collect(),
            5 => {
                let pairs = literals.clone().flat_map(|a| literals.clone().map(move |b| (a, b)));
                let pairs = pairs.filter(|(first, second)| first != second);
                pairs.map(|(first, second)| Step::Factorize { first, second }).collect()
            }
            6 => vec![Step::Skip],
            _ => literals.map(|literal| Step::Backtrack { literal }).collect(),
        }
    }

    // Instances

    fn constant(&mut self) -> u8 {
        self.random.within(1..=self.state.constants.max(1)) as u8
    }

    fn instance(&mut self, variables: u8) -> Vec<u8> {
        (0..variables).map(|_| self.constant()).collect()
    }

    /// A clause number, learned ones more often than their share. 1 where there is no clause.
    fn clause_number(&mut self) -> u8 {
        let input = self.state.input.len();
        let learned = self.state.learned.len();
        if learned > 0 && self.random.percent(30) {
            return (input + 1 + self.random.below(learned)) as u8;
        }
        self.random.within(1..=(input + learned).max(1)) as u8
    }

    fn clause(&self, number: u8) -> Option<Clause> {
        self.state.clause(number).cloned()
    }

    /// A Propagate whose other literals are false, as far as one was found.
    fn propagate_made_ready(&mut self) -> Option<Step> {
        let number = self.clause_number();
        let clause = self.clause(number).filter(|clause| !clause.literals.is_empty())?;
        let index = self.random.below(clause.literals.len());
        let mut partial = Partial::default();
        if self.random.percent(40) {
            // L's instance first
            for argument in clause.literals[index].arguments.into_iter().filter(|&x| x > 0) {
                partial[argument as usize - 1] = self.constant();
            }
        }
        let mut others = clause.literals.clone();
        let own = others.remove(index);
        self.random.shuffle(&mut others);
        let partial = self.falsify(&others, Some(&own), partial)?;
        let instance = self.complete(partial, clause.variables);
        Some(Step::Propagate { clause: number, literal: index as u8 + 1, instance })
    }

    /// A Conflict whose literals are false, as far as one was found.
    fn conflict_made_ready(&mut self) -> Option<Step> {
        let number = self.clause_number();
        let clause = self.clause(number)?;
        let mut literals = clause.literals.clone();
        self.random.shuffle(&mut literals);
        let partial = self.falsify(&literals, None, Partial::default())?;
        Some(Step::Conflict { clause: number, instance: self.complete(partial, clause.variables) })
    }

    fn complete(&mut self, partial: Partial, variables: u8) -> Vec<u8> {
        let partial = &partial[..variables as usize];
        partial.iter().map(|&c| if c == 0 { self.constant() } else { c }).collect()
    }

    /// Fills an instance in so that each literal is false or has the instance of `own`.
    fn falsify(
        &mut self,
        literals: &[Literal],
        own: Option<&Literal>,
        partial: Partial,
    ) -> Option<Partial> {
        let newest = self.random.percent(self.temper.newest);
        let turn = if newest { 0 } else { self.random.below(self.on_trail.len().max(1)) };
        let mut patience = PATIENCE;
        self.falsify_from(literals, own, partial, turn, &mut patience)
    }

    fn falsify_from(
        &self,
        literals: &[Literal],
        own: Option<&Literal>,
        partial: Partial,
        turn: usize,
        patience: &mut usize,
    ) -> Option<Partial> {
        let Some((first, rest)) = literals.split_first() else { return Some(partial) };
        let length = self.on_trail.len();
        let trail =
            (0..length).map(|index| self.on_trail[(2 * length - 1 - index - turn) % length]);
        let own_instance = own.and_then(|own| ground(own, &partial));
        let wanted = trail.map(Literal::complement).chain(own_instance);
        for wanted in wanted {
            *patience = patience.checked_sub(1)?;
            let Some(next) = matched(first, &wanted, partial) else { continue };
            let found = self.falsify_from(rest, own, next, turn, patience);
            if found.is_some() {
                return found;
            }
        }
        None
    }

    // Atoms for decisions to bring

    fn atoms_on_trail(&self) -> Vec<Atom> {
        self.state.trail.iter().filter_map(Entry::atom).copied().collect()
    }

    /// The number of a clause that has atoms, if there is one.
    fn clause_with_atoms(&mut self) -> Option<u8> {
        let has_atoms = |state: &State, number: u8| {
            state.clause(number).is_some_and(|held| !held.atoms.is_empty())
        };
        for _ in 0..LOOKS {
            let number = self.clause_number();
            if has_atoms(&self.state, number) {
                return Some(number);
            }
        }
        let mut numbers: Vec<u8> = (1..=self.state.clauses() as u8).collect();
        numbers.retain(|&number| has_atoms(&self.state, number));
        (!numbers.is_empty()).then(|| self.random.pick(&numbers))
    }

    /// The source of an atom that there is.
    fn any_source(&mut self) -> Option<Source> {
        let clause = self.clause_with_atoms()?;
        let held = self.clause(clause)?;
        Some(Source {
            clause,
            number: self.random.within(1..=held.atoms.len()) as u8,
            stands: !self.random.percent(self.temper.denied),
            instance: self.instance(held.variables),
        })
    }

    /// Up to so many sources of atoms that may be brought together. One that is not possible is denied instead.
    fn atoms_made_ready(&mut self, count: usize) -> Vec<Source> {
        let mut atoms = self.atoms_on_trail();
        let mut ready = Vec::new();
        for _ in 0..LOOKS * count {
            if ready.len() == count {
                break;
            }
            let Some(mut source) = self.any_source() else { break };
            let Ok(mut atom) = self.state.demand_atom(&source) else { continue };
            if is_defined(&atoms, &atom) {
                continue;
            }
            if !constraint::possible(self.state.constants, &[&atoms[..], &[atom]].concat()) {
                (atom, source.stands) = (atom.denial(), !source.stands);
            }
            atoms.push(atom);
            ready.push(source);
        }
        ready
    }

    /// A source of a ground atom, if some clause has it or its denial.
    fn source_of(&mut self, wanted: &Atom) -> Option<Source> {
        let clauses = self.state.clauses();
        let first = self.random.below(clauses.max(1));
        for index in 0..clauses {
            let clause = ((first + index) % clauses) as u8 + 1;
            let held = self.clause(clause)?;
            for (index, atom) in held.atoms.iter().enumerate() {
                let number = index as u8 + 1;
                for (stands, wanted) in [(true, *wanted), (false, wanted.denial())] {
                    let Some(partial) = matched_atom(atom, &wanted) else { continue };
                    let instance = self.complete(partial, held.variables);
                    return Some(Source { clause, number, stands, instance });
                }
            }
        }
        None
    }

    /// Sources of any atoms, mostly of none.
    fn plausible_atoms(&mut self) -> Vec<Source> {
        if !brings_atoms(self.state.version) || self.random.percent(60) {
            return Vec::new();
        }
        let count = self.random.pick(&[1, 1, 2, 3, limits::BROUGHT]);
        (0..count).filter_map(|_| self.any_source()).collect()
    }

    /// A decision whose literal is undefined, and nothing but a full trail against it.
    fn undefined_literal(&mut self) -> Option<Step> {
        for _ in 0..12 {
            let step = self.plausible_alone(2);
            if self.state.judge(&step).map_or_else(|refusal| refusal.number == 18, |_| true) {
                return Some(step);
            }
        }
        None
    }

    /// A decision that brings these atoms, in any order.
    fn decide_with(&mut self, mut named: Vec<Source>) -> Option<Step> {
        named.truncate(limits::BROUGHT);
        self.random.shuffle(&mut named);
        let mut step = self.undefined_literal()?;
        if let Step::Decide { atoms, .. } = &mut step {
            *atoms = named;
        }
        Some(step)
    }

    /// A decision that brings an atom which it, or its denial, is on the trail or brought before it; others beside it.
    fn brings_defined(&mut self) -> Option<Step> {
        let others = self.random.below(4);
        let mut named = self.atoms_made_ready(others);
        let on_trail = self.atoms_on_trail();
        let again = if on_trail.is_empty() || self.random.percent(40) {
            let source = self.any_source()?;
            named.push(source.clone());
            self.state.demand_atom(&source).ok()?
        } else {
            self.random.pick(&on_trail)
        };
        let wanted = if self.random.percent(50) { again } else { again.denial() };
        let source = self.source_of(&wanted)?;
        named.push(source);
        self.decide_with(named)
    }

    /// A decision that brings atoms which are not possible together with the trail's, or with each other.
    fn brings_impossible(&mut self) -> Option<Step> {
        let others = self.random.below(3);
        let mut named = self.atoms_made_ready(others);
        for _ in 0..40 {
            let source = self.any_source()?;
            named.push(source);
            let atoms: Result<Vec<Atom>, _> =
                named.iter().map(|source| self.state.demand_atom(source)).collect();
            let all = [self.atoms_on_trail(), atoms.ok()?].concat();
            let defined = (0..all.len()).any(|index| is_defined(&all[..index], &all[index]));
            if defined || named.len() == limits::BROUGHT {
                named.pop();
            } else if !constraint::possible(self.state.constants, &all) {
                return self.decide_with(named);
            } else if self.random.percent(60) {
                named.pop();
            }
        }
        None
    }

    /// A decision that brings more atoms than there is room for.
    fn brings_too_many(&mut self) -> Option<Step> {
        let room = limits::TRAIL - self.state.trail.len();
        let most = limits::BROUGHT;
        let count = if self.random.percent(60) { room } else { self.random.within(0..=most) };
        let named = self.atoms_made_ready(count.min(most));
        self.decide_with(named)
    }

    // Steps that name what is there, without regard to what applies

    /// A step of the rule whose clause, literals and instance exist where there are any.
    fn plausible(&mut self, rule: u8) -> Step {
        let mut step = self.plausible_alone(rule);
        if let Step::Decide { atoms, .. } = &mut step {
            *atoms = self.plausible_atoms();
        }
        step
    }

    /// The same; a decision brings no atoms.
    fn plausible_alone(&mut self, rule: u8) -> Step {
        let number = self.clause_number();
        let clause = self.clause(number);
        let literals = clause.as_ref().map_or(0, |clause| clause.literals.len());
        let variables = clause.as_ref().map_or(0, |clause| clause.variables);
        let standing = self.state.conflict.as_ref().map_or(3, |c| c.clause.literals.len());
        let literal = self.random.within(1..=literals.max(1)) as u8;
        let mut of_conflict = || self.random.within(1..=standing.max(1)) as u8;
        match rule {
            1 => Step::Propagate { clause: number, literal, instance: self.instance(variables) },
            2 => {
                let positive = self.random.percent(50);
                let instance = self.instance(variables);
                Step::Decide { clause: number, literal, positive, instance, atoms: Vec::new() }
            }
            3 => Step::Conflict { clause: number, instance: self.instance(variables) },
            4 => Step::Resolve { literal: of_conflict() },
            5 => Step::Factorize { first: of_conflict(), second: of_conflict() },
            6 => Step::Skip,
            7 => Step::Backtrack { literal: of_conflict() },
            _ => Step::Grow { count: self.random.within(1..=3) as u8 },
        }
    }

    // Wishes

    /// The step wished for, if its time has come and one is found.
    fn wish(&mut self) -> Option<Step> {
        let (rule, number) = self.temper.wish?;
        let has_come = match self.temper.moment {
            Moment::Step(step) => self.steps.len() >= step,
            Moment::Refuted => self.state.conflict.as_ref().is_some_and(Closure::is_refutation),
            Moment::Trail(entries) => self.state.trail.len() >= entries,
            Moment::Learned(clauses) => self.state.learned.len() >= clauses,
        };
        if has_come {
            self.grant(rule, number)
        } else {
            None
        }
    }

    /// A step refused by that number, if one is found.
    fn grant(&mut self, rule: u8, number: u8) -> Option<Step> {
        for _ in 0..12 {
            let Some(step) = self.attempt(rule, number) else { continue };
            if self.state.judge(&step).is_err_and(|refusal| refusal.number == number) {
                return Some(step);
            }
        }
        None
    }

    /// A step that may be refused by that number. Now and then it is any step of the rule, which may
    /// have several reasons against it.
    fn attempt(&mut self, rule: u8, number: u8) -> Option<Step> {
        let any = match number {
            12 => 6,
            13 => 0,
            _ => 25,
        };
        if self.random.percent(any) {
            return Some(self.plausible(rule));
        }
        if rule == 2 && brings_atoms(self.state.version) && self.random.percent(70) {
            match number {
                11 => return self.brings_defined(),
                13 => return self.brings_impossible(),
                18 => return self.brings_too_many(),
                _ => {}
            }
        }
        match (rule, number) {
            (_, 10) => Some(self.faulty(rule)),
            (_, 9) if self.random.percent(30) => Some(self.faulty(rule)),
            (1 | 2, 11) => self.already_defined(rule),
            (1 | 3, 12) => self.not_all_false(rule),
            (1, 13) => self.propagate_made_ready().filter(|step| self.is_worth_13(step)),
            (3, 13) => self.conflict_made_ready().filter(|step| self.is_worth_13(step)),
            (1, 18) => self.propagate_made_ready(),
            (8, 18) => Some(self.grow_too_far()),
            _ => Some(self.plausible(rule)),
        }
    }

    fn grow_too_far(&mut self) -> Step {
        let room = limits::CONSTANTS - self.state.constants;
        let one_more = self.random.percent(60);
        let count = if one_more { room + 1 } else { self.random.within(room + 1..=255) };
        Step::Grow { count: count as u8 }
    }

    /// Mostly the atoms of a step refused by 13 shall be possible alone, and not with the trail's.
    fn is_worth_13(&mut self, step: &Step) -> bool {
        let (Step::Propagate { clause, instance, .. } | Step::Conflict { clause, instance }) = step
        else {
            return false;
        };
        let Some(clause) = self.clause(*clause) else { return false };
        self.random.percent(10)
            || constraint::possible(self.state.constants, &clause.ground_atoms(instance))
    }

    /// A step of the rule with one fault in what it names.
    fn faulty(&mut self, rule: u8) -> Step {
        let mut step = self.plausible(rule);
        match &mut step {
            Step::Decide { atoms, .. } if !atoms.is_empty() && self.random.percent(80) => {
                let index = self.random.below(atoms.len());
                self.spoil_source(&mut atoms[index]);
            }
            Step::Propagate { clause, literal, instance }
            | Step::Decide { clause, literal, instance, .. } => match self.random.below(3) {
                0 => *clause = self.no_such(self.state.clauses()),
                1 => *literal = self.no_such_literal_of(*clause),
                _ => self.spoil(instance),
            },
            Step::Conflict { clause, instance } => match self.random.below(2) {
                0 => *clause = self.no_such(self.state.clauses()),
                _ => self.spoil(instance),
            },
            Step::Resolve { literal } | Step::Backtrack { literal } => {
                *literal = self.no_such_literal_of_conflict();
            }
            Step::Factorize { first, second } => match self.random.below(3) {
                0 => *first = self.no_such_literal_of_conflict(),
                1 => *second = self.no_such_literal_of_conflict(),
                _ => *second = *first,
            },
            Step::Skip => {}
            Step::Grow { count } => *count = 0,
        }
        step
    }

    fn spoil_source(&mut self, source: &mut Source) {
        match self.random.below(3) {
            0 => source.clause = self.no_such(self.state.clauses()),
            1 => {
                let atoms = self.state.clause(source.clause).map_or(0, |held| held.atoms.len());
                source.number = self.no_such(atoms);
            }
            _ => self.spoil(&mut source.instance),
        }
    }

    /// 0 or a number above the last one.
    fn no_such(&mut self, last: usize) -> u8 {
        match self.random.below(3) {
            0 => 0,
            1 => (last + 1).min(255) as u8,
            _ => self.random.within((last + 1).min(255)..=255) as u8,
        }
    }

    fn no_such_literal_of(&mut self, clause: u8) -> u8 {
        let literals = self.state.clause(clause).map_or(0, |clause| clause.literals.len());
        self.no_such(literals)
    }

    fn no_such_literal_of_conflict(&mut self) -> u8 {
        let literals = self.state.conflict.as_ref().map_or(0, |c| c.clause.literals.len());
        self.no_such(literals)
    }

    /// A wrong count, or a constant that does not exist.
    fn spoil(&mut self, instance: &mut Vec<u8>) {
        let shorter = self.random.percent(20) && !instance.is_empty();
        let longer = self.random.percent(20) && instance.len() < limits::INSTANCE;
        if shorter {
            instance.pop();
        } else if longer || instance.is_empty() {
            instance.push(self.constant());
        } else {
            let index = self.random.below(instance.len());
            instance[index] = self.no_such(self.state.constants);
        }
    }

    /// A step whose literal has the instance of a trail literal or of its complement.
    fn already_defined(&mut self, rule: u8) -> Option<Step> {
        if self.on_trail.is_empty() {
            return None;
        }
        let wanted = self.random.pick(&self.on_trail);
        let number = self.clause_number();
        let clause = self.clause(number)?;
        let fits = |literal: &&Literal| literal.predicate == wanted.predicate;
        let own = *clause.literals.iter().find(fits)?;
        let index = clause.literals.iter().position(|literal| *literal == own)?;
        let wanted = Literal { positive: own.positive, ..wanted };
        let partial = matched(&own, &wanted, Partial::default())?;
        let instance = self.complete(partial, clause.variables);
        let literal = index as u8 + 1;
        Some(match rule {
            1 => Step::Propagate { clause: number, literal, instance },
            _ => Step::Decide {
                clause: number,
                literal,
                positive: self.random.percent(50),
                instance,
                atoms: self.plausible_atoms(),
            },
        })
    }

    /// A Propagate or Conflict with some literals from the left false and the next one by chance.
    fn not_all_false(&mut self, rule: u8) -> Option<Step> {
        let number = self.wider_clause();
        let clause = self.clause(number).filter(|clause| !clause.literals.is_empty())?;
        let literals = clause.literals.len();
        let own = self.random.below(literals);
        let from_left = self.random.below(literals).max(self.random.below(literals));
        let mut from_left = clause.literals[..from_left].to_vec();
        if rule == 1 && own < from_left.len() {
            from_left.remove(own);
        }
        let partial = self.falsify(&from_left, None, Partial::default())?;
        let instance = self.complete(partial, clause.variables);
        Some(match rule {
            1 => Step::Propagate { clause: number, literal: own as u8 + 1, instance },
            _ => Step::Conflict { clause: number, instance },
        })
    }

    /// Of three clauses the one with most literals.
    fn wider_clause(&mut self) -> u8 {
        let numbers = [self.clause_number(), self.clause_number(), self.clause_number()];
        let literals = |number: &u8| self.state.clause(*number).map_or(0, |c| c.literals.len());
        numbers.into_iter().max_by_key(literals).unwrap_or(1)
    }
}

/// Whether an atom or its denial is among some.
fn is_defined(atoms: &[Atom], atom: &Atom) -> bool {
    atoms.contains(atom) || atoms.contains(&atom.denial())
}

/// The instance that makes the atom the ground one wanted, if that can be.
fn matched_atom(atom: &Atom, wanted: &Atom) -> Option<Partial> {
    let mut partial = Partial::default();
    for (variable, constant) in [(atom.p, wanted.p), (atom.q, wanted.q)] {
        if variable == 0 {
            if constant != 0 {
                return None;
            }
            continue;
        }
        let slot = &mut partial[variable as usize - 1];
        if constant == 0 || (*slot != 0 && *slot != constant) {
            return None;
        }
        *slot = constant;
    }
    (atom.c == wanted.c).then_some(partial)
}

/// The literal's instance, if all its variables have a constant.
fn ground(literal: &Literal, partial: &Partial) -> Option<Literal> {
    let ground = literal.at(partial);
    let complete = literal
        .arguments
        .iter()
        .zip(&ground.arguments)
        .all(|(&before, &after)| before == 0 || after > 0);
    complete.then_some(ground)
}

/// The instance with what it takes to make the literal the ground one wanted, if that can be.
fn matched(literal: &Literal, wanted: &Literal, mut partial: Partial) -> Option<Partial> {
    if (literal.positive, literal.predicate) != (wanted.positive, wanted.predicate) {
        return None;
    }
    for (&variable, &constant) in literal.arguments.iter().zip(&wanted.arguments) {
        if variable == 0 {
            continue;
        }
        let slot = &mut partial[variable as usize - 1];
        if *slot != 0 && *slot != constant {
            return None;
        }
        *slot = constant;
    }
    Some(partial)
}
