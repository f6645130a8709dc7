//! Certificates: a plan, and for each state how much can at most be gained from there.
use crate::advert::{Advert, Weights};
use crate::fault::Fault;
use crate::image::Image;
use crate::plan::*;
use crate::text::{decimal, hex, lines, small, words};
use std::fmt::Write;

pub fn write(advert: &Advert, problem: &Problem, gains: &Gains, plan: &[Choice]) -> String {
    let version = 1 + u8::from(!problem.kept.is_empty()) + 2 * u8::from(advert.paired);
    let mut out = format!("certificate {version}\nweight {}\n", weight_of(plan));
    for (name, paths) in [("keep", &problem.kept[..]), ("path", plan)] {
        for Choice { path, .. } in paths {
            writeln!(out, "{name} {} {} {}", path.app, path.host, path.media).unwrap();
        }
    }
    for ((boundary, used), gain) in gains.states() {
        writeln!(out, "state {boundary} {used:02x} {gain}").unwrap();
    }
    out.push_str("end\n");
    out
}

struct Certificate {
    paired: bool,
    weight: u64,
    kept: Vec<Path>,
    paths: Vec<Path>,
    entries: Vec<(State, u64)>,
}

/// What may come next: each line is of this section or of a later one.
#[derive(PartialEq, PartialOrd)]
enum Section {
    Kept,
    Paths,
    States,
}

impl Certificate {
    fn read(text: &[u8]) -> Result<Certificate, Fault> {
        let mut lines = lines(text).enumerate().map(|(before, line)| (before + 1, line));
        let bad = |number: usize| Fault::with("CT1", number);
        let (keeps, paired) = match lines.next() {
            Some((_, b"certificate 1")) => (false, false),
            Some((_, b"certificate 2")) => (true, false),
            Some((_, b"certificate 3")) => (false, true),
            Some((_, b"certificate 4")) => (true, true),
            Some(_) => return Err(bad(1)),
            None => return Err(Fault::new("CT4")),
        };
        let weight = match lines.next() {
            Some((_, line)) => line.strip_prefix(b"weight ").and_then(|word| decimal(word, u64::MAX)),
            None => return Err(Fault::new("CT4")),
        };
        let weight = weight.ok_or_else(|| bad(2))?;
        let (kept, paths, entries) = (Vec::new(), Vec::new(), Vec::new());
        let mut certificate = Certificate { paired, weight, kept, paths, entries };
        let mut section = if keeps { Section::Kept } else { Section::Paths };
        while let Some((number, line)) = lines.next() {
            if line == b"end" && !(keeps && certificate.kept.is_empty()) {
                return match lines.next() {
                    None => Ok(certificate),
                    Some((number, _)) => Err(bad(number)),
                };
            }
            certificate.take(line, number, keeps, &mut section)?;
        }
        Err(Fault::new("CT4"))
    }

    fn take(&mut self, line: &[u8], number: usize, keeps: bool, section: &mut Section) -> Result<(), Fault> {
        let bad = || Fault::with("CT1", number);
        match words(line)[..] {
            [b"keep", ref numbers @ ..] if *section == Section::Kept => {
                push_path(&mut self.kept, Path::read(numbers).ok_or_else(bad)?)?;
            }
            [b"path", ref numbers @ ..] if *section <= Section::Paths && !(keeps && self.kept.is_empty()) => {
                *section = Section::Paths;
                push_path(&mut self.paths, Path::read(numbers).ok_or_else(bad)?)?;
            }
            [b"state", boundary, used, potential] if !(keeps && self.kept.is_empty()) => {
                *section = Section::States;
                let boundary = small(boundary).filter(|boundary| *boundary <= 8).ok_or_else(bad)?;
                let [used] = hex(used).ok_or_else(bad)?;
                let potential = decimal(potential, u64::MAX).ok_or_else(bad)?;
                if self.entries.last().map_or(false, |(last, _)| *last >= (boundary, used)) {
                    return Err(Fault::with("CT2", number));
                }
                self.entries.push(((boundary, used), potential));
            }
            _ => return Err(bad()),
        }
        Ok(())
    }
}

fn push_path(paths: &mut Vec<Path>, path: Path) -> Result<(), Fault> {
    if paths.len() == 8 {
        return Err(Fault::new("CT3"));
    }
    paths.push(path);
    Ok(())
}

/// A good certificate's plan, and whether that is the first of the best, if that is asked for.
pub struct Good {
    pub kept: Vec<Choice>,
    pub plan: Vec<Choice>,
    pub first: Option<bool>,
}

pub fn check(image: &Image, weights: &[u8], text: &[u8], paired: bool, tells_first: bool) -> Result<Good, Fault> {
    let advert = Advert::of(image, paired)?;
    let weights = Weights::read(weights)?;
    let certificate = Certificate::read(text)?;
    if certificate.paired != paired {
        return Err(Fault::with("VR10", 0));
    }
    let kept = admissible(&advert, &weights, &certificate.kept).map_err(|misfit| match misfit {
        Misfit::NotAllowed(number) | Misfit::LaneTwice(number) => Fault::with("VR8", number),
    })?;
    let plan = admissible(&advert, &weights, &certificate.paths).map_err(|misfit| match misfit {
        Misfit::NotAllowed(number) => Fault::with("VR1", number),
        Misfit::LaneTwice(number) => Fault::with("VR2", number),
    })?;
    if let Some(index) = certificate.kept.iter().position(|path| !certificate.paths.contains(path)) {
        return Err(Fault::with("VR9", index + 1));
    }
    if weight_of(&plan) != certificate.weight {
        return Err(Fault::with("VR3", 0));
    }
    let problem = Problem::new(&advert, &weights, kept);
    check_entries(&problem, &certificate)?;
    let first = tells_first.then(|| is_first(&problem, &plan));
    Ok(Good { kept: problem.kept, plan, first })
}

/// Whether each decision from an entry leads to one whose potential is not too high.
fn check_entries(problem: &Problem, certificate: &Certificate) -> Result<(), Fault> {
    let mut potentials = Box::new([[None; 256]; 9]);
    for ((boundary, used), potential) in &certificate.entries {
        potentials[usize::from(*boundary)][usize::from(*used)] = Some(*potential);
    }
    let start = potentials[0][0].ok_or_else(|| Fault::with("VR4", 0))?;
    for (index, (state, potential)) in certificate.entries.iter().enumerate() {
        let check_step = |(boundary, used): State, weight: u64| {
            let gain = potentials[usize::from(boundary)][usize::from(used)];
            let gain = gain.ok_or_else(|| Fault::with("VR5", index + 1))?;
            match gain.checked_add(weight) {
                Some(sum) if sum <= *potential => Ok(()),
                _ => Err(Fault::with("VR6", index + 1)),
            }
        };
        if state.0 == 8 {
            continue;
        }
        if problem.may_stay_free(state.0) {
            check_step((state.0 + 1, state.1), 0)?;
        }
        let check = |choice: &Choice| check_step(Problem::after(*state, choice), choice.weight);
        if problem.heaviest_from(*state).any(|choice| check(choice).is_err()) {
            // the first that is not good says why
            problem.paths_from(*state).try_for_each(check)?;
        }
    }
    if start != certificate.weight {
        return Err(Fault::with("VR7", 0));
    }
    Ok(())
}

fn is_first(problem: &Problem, plan: &[Choice]) -> bool {
    let mut paths: Vec<Path> = plan.iter().map(|choice| choice.path).collect();
    paths.sort_by_key(|path| path.host);
    let first = Gains::of(problem).plan(problem);
    first.iter().map(|choice| choice.path).eq(paths)
}
