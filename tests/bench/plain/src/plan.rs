//! Plans: paths on the lanes of a module, and the best of them.
use crate::advert::{Advert, Weights};
use crate::fault::Fault;
use crate::text::{lines, small, words};
use std::fmt::Write;

#[derive(Clone, Copy, PartialEq, Eq)]
pub struct Path {
    pub app: u8,
    pub host: u8,
    pub media: u8,
}

impl Path {
    /// The three numbers of a line after its first word.
    pub fn read(numbers: &[&[u8]]) -> Option<Path> {
        match numbers {
            [app, host, media] => Some(Path { app: small(app)?, host: small(host)?, media: small(media)? }),
            _ => None,
        }
    }
}

/// A path that the module allows, with its lanes.
#[derive(Clone, Copy)]
pub struct Choice {
    pub path: Path,
    pub host_lanes: u8,
    pub media_lanes: u8,
    pub host_mask: u8,
    pub media_mask: u8,
    pub weight: u64,
}

/// The bits of so many lanes from the first on, if they end by lane 8.
fn mask(first: u8, count: u8) -> Option<u8> {
    (first >= 1 && first + count <= 9).then(|| ((((1u16 << count) - 1) << (first - 1)) & 0xFF) as u8)
}

fn begins_at(starts: u8, lane: u8) -> bool {
    (1..=8).contains(&lane) && starts >> (lane - 1) & 1 == 1
}

/// How many lanes of a set are below a lane.
fn rank(starts: u8, lane: u8) -> u32 {
    (starts & ((1u16 << (lane - 1)) - 1) as u8).count_ones()
}

/// The path, if it is allowed.
pub fn allowed(advert: &Advert, weights: &Weights, path: Path) -> Option<Choice> {
    let app = advert.app(path.app).filter(|app| app.is_usable())?;
    if !begins_at(app.host_starts, path.host) || !begins_at(app.media_starts, path.media) {
        return None;
    }
    if advert.paired && rank(app.host_starts, path.host) != rank(app.media_starts, path.media) {
        return None;
    }
    let host_mask = mask(path.host, app.host_lanes)?;
    let media_mask = mask(path.media, app.media_lanes).filter(|lanes| lanes & advert.unsupported == 0)?;
    let (host_lanes, media_lanes, weight) = (app.host_lanes, app.media_lanes, weights.of(app));
    Some(Choice { path, host_lanes, media_lanes, host_mask, media_mask, weight })
}

/// The paths with their lanes, or the number of the first that is not allowed, or shares a lane with an earlier one.
pub enum Misfit {
    NotAllowed(usize),
    LaneTwice(usize),
}

pub fn admissible(advert: &Advert, weights: &Weights, paths: &[Path]) -> Result<Vec<Choice>, Misfit> {
    let mut choices = Vec::with_capacity(paths.len());
    for (index, path) in paths.iter().enumerate() {
        choices.push(allowed(advert, weights, *path).ok_or(Misfit::NotAllowed(index + 1))?);
    }
    let (mut host, mut media) = (0, 0);
    for (index, choice) in choices.iter().enumerate() {
        if host & choice.host_mask != 0 || media & choice.media_mask != 0 {
            return Err(Misfit::LaneTwice(index + 1));
        }
        host |= choice.host_mask;
        media |= choice.media_mask;
    }
    Ok(choices)
}

/// The lines of kept paths.
pub fn read_kept(advert: &Advert, weights: &Weights, text: &[u8]) -> Result<Vec<Choice>, Fault> {
    let mut kept = Vec::new();
    for (before, line) in lines(text).enumerate() {
        let path = match words(line)[..] {
            [b"keep", ref numbers @ ..] => Path::read(numbers),
            _ => None,
        };
        let path = path.ok_or_else(|| Fault::with("KP1", before + 1))?;
        if kept.len() == 8 {
            return Err(Fault::new("KP2"));
        }
        kept.push(path);
    }
    let mut choices: Vec<Choice> = Vec::new();
    for (index, path) in kept.into_iter().enumerate() {
        let choice = allowed(advert, weights, path).filter(|choice| choices.iter().all(|other| !shares(choice, other)));
        choices.push(choice.ok_or_else(|| Fault::with("KP3", index + 1))?);
    }
    Ok(choices)
}

pub fn shares(one: &Choice, other: &Choice) -> bool {
    one.host_mask & other.host_mask != 0 || one.media_mask & other.media_mask != 0
}

/// Host lanes decided from the first on, and media lanes that are used.
pub type State = (u8, u8);

/// What may be decided at each host lane.
pub struct Problem {
    /// The paths that may begin there, by Application and then media lane.
    pub choices: [Vec<Choice>; 8],
    /// Of those that take the same lanes, one that weighs most.
    heaviest: [Vec<Choice>; 8],
    /// The host lanes of kept paths, which can't stay free.
    pub kept_host: u8,
    pub kept: Vec<Choice>,
}

impl Problem {
    pub fn new(advert: &Advert, weights: &Weights, kept: Vec<Choice>) -> Problem {
        let mut choices: [Vec<Choice>; 8] = Default::default();
        for (index, begun) in choices.iter_mut().enumerate() {
            for app in &advert.apps {
                for media in 1..=8 {
                    let path = Path { app: app.number, host: index as u8 + 1, media };
                    if let Some(choice) = allowed(advert, weights, path) {
                        if kept.iter().all(|other| other.path == path || !shares(&choice, other)) {
                            begun.push(choice);
                        }
                    }
                }
            }
        }
        let heaviest = std::array::from_fn(|index| heaviest_of(&choices[index]));
        let kept_host = kept.iter().fold(0, |lanes, choice| lanes | choice.host_mask);
        Problem { choices, heaviest, kept_host, kept }
    }

    pub fn may_stay_free(&self, boundary: u8) -> bool {
        self.kept_host >> boundary & 1 == 0
    }

    /// The paths that may begin after a boundary without a used media lane.
    pub fn paths_from(&self, (boundary, used): State) -> impl DoubleEndedIterator<Item = &Choice> {
        self.choices[usize::from(boundary)].iter().filter(move |choice| choice.media_mask & used == 0)
    }

    /// Of those that lead to the same state one that weighs most.
    pub fn heaviest_from(&self, (boundary, used): State) -> impl Iterator<Item = &Choice> {
        self.heaviest[usize::from(boundary)].iter().filter(move |choice| choice.media_mask & used == 0)
    }

    pub fn after((boundary, used): State, choice: &Choice) -> State {
        (boundary + choice.host_lanes, used | choice.media_mask)
    }

    pub fn is_kept(&self, choice: &Choice) -> bool {
        self.kept.iter().any(|other| other.path == choice.path)
    }
}

fn heaviest_of(choices: &[Choice]) -> Vec<Choice> {
    let mut heaviest: Vec<Choice> = Vec::new();
    for choice in choices {
        let same = |other: &&mut Choice| other.host_mask == choice.host_mask && other.media_mask == choice.media_mask;
        match heaviest.iter_mut().find(same) {
            Some(other) if other.weight < choice.weight => *other = *choice,
            Some(_) => {}
            None => heaviest.push(*choice),
        }
    }
    heaviest
}

/// A set of bytes.
#[derive(Clone, Copy)]
struct Bytes([u64; 4]);

impl Bytes {
    fn insert(&mut self, byte: u8) {
        self.0[usize::from(byte / 64)] |= 1 << (byte % 64);
    }

    fn iter(self) -> impl Iterator<Item = u8> {
        (0..4u8).flat_map(move |index| {
            let mut left = self.0[usize::from(index)];
            std::iter::from_fn(move || {
                let bit = left.trailing_zeros();
                left &= left.wrapping_sub(1);
                (bit < 64).then(|| 64 * index + bit as u8)
            })
        })
    }
}

/// The greatest weight that can be gained from each state that decisions reach.
pub struct Gains {
    /// By boundary, the sets of used lanes.
    reached: [Bytes; 9],
    gain: Box<[[u64; 256]; 9]>,
}

impl Gains {
    pub fn of(problem: &Problem) -> Gains {
        let mut gains = Gains { reached: reached(problem), gain: Box::new([[0; 256]; 9]) };
        for boundary in (0..8).rev() {
            for used in gains.reached[usize::from(boundary)].iter() {
                gains.gain[usize::from(boundary)][usize::from(used)] = gains.best(problem, (boundary, used));
            }
        }
        gains
    }

    fn best(&self, problem: &Problem, state: State) -> u64 {
        let free = if problem.may_stay_free(state.0) { self.at((state.0 + 1, state.1)) } else { 0 };
        let paths = problem.heaviest_from(state);
        paths.fold(free, |best, choice| best.max(choice.weight + self.at(Problem::after(state, choice))))
    }

    /// The gain from a state that is reached.
    pub fn at(&self, (boundary, used): State) -> u64 {
        self.gain[usize::from(boundary)][usize::from(used)]
    }

    /// Each state that is reached, by boundary and then used lanes, with its gain.
    pub fn states(&self) -> impl Iterator<Item = (State, u64)> + '_ {
        (0..=8u8)
            .flat_map(|boundary| self.reached[usize::from(boundary)].iter().map(move |used| (boundary, used)))
            .map(|state| (state, self.at(state)))
    }

    /// The first best plan without paths of weight 0 that aren't kept.
    pub fn plan(&self, problem: &Problem) -> Vec<Choice> {
        let mut plan = Vec::with_capacity(8);
        let mut state = (0, 0);
        while state.0 < 8 {
            let gain = self.at(state);
            let taken = problem.paths_from(state).find(|choice| {
                let counts = choice.weight > 0 || problem.is_kept(choice);
                counts && choice.weight + self.at(Problem::after(state, choice)) == gain
            });
            state = match taken {
                Some(choice) => {
                    plan.push(*choice);
                    Problem::after(state, choice)
                }
                None => (state.0 + 1, state.1),
            };
        }
        plan
    }
}

/// The states that decisions reach from the start.
fn reached(problem: &Problem) -> [Bytes; 9] {
    let mut reached = [Bytes([0; 4]); 9];
    reached[0].insert(0);
    for boundary in 0..8 {
        for used in reached[usize::from(boundary)].iter() {
            if problem.may_stay_free(boundary) {
                reached[usize::from(boundary) + 1].insert(used);
            }
            for choice in problem.heaviest_from((boundary, used)) {
                let (end, used) = Problem::after((boundary, used), choice);
                reached[usize::from(end)].insert(used);
            }
        }
    }
    reached
}

pub fn weight_of(plan: &[Choice]) -> u64 {
    plan.iter().map(|choice| choice.weight).sum()
}

/// The byte of each host lane that asks for the plan's paths.
pub fn control_bytes(plan: &[Choice]) -> [u8; 8] {
    let mut bytes = [0; 8];
    for choice in plan {
        let first = usize::from(choice.path.host - 1);
        bytes[first..first + usize::from(choice.host_lanes)].fill(choice.path.app << 4 | (choice.path.host - 1) << 1);
    }
    bytes
}

pub fn write_bytes(out: &mut String, name: &str, bytes: &[u8]) {
    out.push_str(name);
    for byte in bytes {
        write!(out, " {byte:02x}").unwrap();
    }
    out.push('\n');
}

/// The text of a plan.
pub fn plan_text(out: &mut String, plan: &[Choice]) {
    writeln!(out, "weight {}", weight_of(plan)).unwrap();
    for Choice { path, host_lanes, media_lanes, .. } in plan {
        let (host_end, media_end) = (path.host + host_lanes - 1, path.media + media_lanes - 1);
        writeln!(out, "path app {} host {}-{host_end} media {}-{media_end}", path.app, path.host, path.media).unwrap();
    }
    write_bytes(out, "control", &control_bytes(plan));
}
