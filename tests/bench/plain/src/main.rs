//! What `cmisctl` does, in plain Rust, to compare both by what they print and by what it takes.
mod advert;
mod bus;
mod calibration;
mod certificate;
mod details;
mod draw;
mod fault;
mod image;
mod json;
mod metrics;
mod module;
mod names;
mod observables;
mod plan;
mod procedures;
mod reports;
mod rows;
mod tables;
mod text;

use advert::{Advert, Weights};
use bus::{Bus, Script};
use fault::Fault;
use image::{Device, Image, Key};
use module::Module;
use plan::{control_bytes, Choice, Gains, Problem};
use std::fmt::Write as _;
use std::io::{Read, Write as _};
use std::process::ExitCode;

const MOST_INPUT: usize = 1_048_576;

#[derive(Default)]
struct Flags {
    json: bool,
    keep: bool,
    paired: bool,
    first: bool,
    wake: bool,
    activate: bool,
}

impl Flags {
    fn read(words: impl Iterator<Item = String>) -> Option<Flags> {
        let mut flags = Flags::default();
        for word in words {
            match word.as_str() {
                "--json" => flags.json = true,
                "--keep" => flags.keep = true,
                "--paired" => flags.paired = true,
                "--first" => flags.first = true,
                "--wake" => flags.wake = true,
                "--activate" => flags.activate = true,
                _ => return None,
            }
        }
        Some(flags)
    }
}

/// What a command prints, and the fault that ends it, which it says itself.
struct Answer {
    text: String,
    fault: Option<Fault>,
}

impl From<String> for Answer {
    fn from(text: String) -> Answer {
        Answer { text, fault: None }
    }
}

fn main() -> ExitCode {
    let mut words = std::env::args().skip(1);
    let (command, flags) = match (words.next(), Flags::read(words)) {
        (Some(command), Some(flags)) => (command, flags),
        _ => return ExitCode::from(2),
    };
    let answer = read_input().and_then(|input| answer(&command, &flags, &input));
    let answer = answer.unwrap_or_else(|fault| Answer {
        text: if flags.json { String::new() } else { format!("{fault}\n") },
        fault: Some(fault),
    });
    if std::io::stdout().write_all(answer.text.as_bytes()).is_err() {
        return ExitCode::from(6);
    }
    ExitCode::from(answer.fault.map_or(0, |fault| fault.status()))
}

fn read_input() -> Result<Vec<u8>, Fault> {
    let mut input = Vec::new();
    let limit = MOST_INPUT as u64 + 1;
    std::io::stdin().lock().take(limit).read_to_end(&mut input).map_err(|_| Fault::new("IO"))?;
    if input.len() > MOST_INPUT {
        return Err(Fault::new("PT2"));
    }
    Ok(input)
}

/// The parts between lines `---`, which have to be so many.
fn parts<const N: usize>(input: &[u8]) -> Result<[&[u8]; N], Fault> {
    let mut parts = [&input[..0]; N];
    let (mut count, mut start, mut end) = (0, 0, 0);
    for line in input.split_inclusive(|byte| *byte == b'\n') {
        if matches!(line, b"---\n" | b"---") {
            if count < N {
                parts[count] = &input[start..end];
            }
            count += 1;
            start = end + line.len();
        }
        end += line.len();
    }
    if count + 1 != N {
        return Err(Fault::with("PT1", count + 1));
    }
    parts[count] = &input[start..];
    Ok(parts)
}

fn answer(command: &str, flags: &Flags, input: &[u8]) -> Result<Answer, Fault> {
    if flags.keep && matches!(command, "plan" | "draw") {
        let [image, weights, kept] = parts(input)?;
        return planned(command, flags, image, weights, kept);
    }
    match command {
        "plan" | "draw" => {
            let [image, weights] = parts(input)?;
            planned(command, flags, image, weights, b"")
        }
        "check" => {
            let [image, weights, text] = parts(input)?;
            let good = certificate::check(&Image::read(image)?, weights, text, flags.paired, flags.first)?;
            Ok(if flags.json { json::good(&good) } else { good_text(&good) }.into())
        }
        "provision" | "trace" if flags.keep => {
            let [image, weights, kept, script] = parts(input)?;
            provisioned(command == "trace", flags, image, weights, kept, script)
        }
        "provision" | "trace" => {
            let [image, weights, script] = parts(input)?;
            provisioned(command == "trace", flags, image, weights, b"", script)
        }
        "metrics" => {
            let [image] = parts(input)?;
            let (text, fault) = metrics::metrics(&Image::read(image)?);
            Ok(Answer { text, fault })
        }
        _ => {
            let [image] = parts(input)?;
            Ok(report(command, flags, &Image::read(image)?)?.into())
        }
    }
}

fn report(command: &str, flags: &Flags, image: &Image) -> Result<String, Fault> {
    match command {
        "inventory" => reports::inventory(image).map(|report| shown(&report, flags)),
        "monitors" => reports::monitors(image).map(|report| shown(&report, flags)),
        "apps" => Advert::of(image, false).map(|advert| if flags.json { json::apps(&advert) } else { reports::apps_text(&advert) }),
        "flags" => reports::flags(image).map(|report| if flags.json { json::flags(&report) } else { report.text() }),
        "details" => details::details(image).map(|report| shown(&report, flags)),
        "observables" => observables::observables(image, flags.json),
        _ => Err(Fault::new("command")),
    }
}

fn shown(report: &rows::Report, flags: &Flags) -> String {
    if flags.json { json::text(report) } else { report.text() }
}

fn planned(command: &str, flags: &Flags, image: &[u8], weights: &[u8], kept: &[u8]) -> Result<Answer, Fault> {
    let image = Image::read(image)?;
    let advert = Advert::of(&image, flags.paired)?;
    let weights = Weights::read(weights)?;
    let kept = plan::read_kept(&advert, &weights, kept)?;
    let problem = Problem::new(&advert, &weights, kept);
    let gains = Gains::of(&problem);
    let plan = gains.plan(&problem);
    if command == "draw" {
        let media_type = image.need(Key::lower(Device::A0), "AD4")?.byte(85);
        return Ok(draw::draw(&advert, media_type, &problem, &gains, &plan).into());
    }
    Ok(if flags.json { json::plan(&problem.kept, &plan) } else { certificate::write(&advert, &problem, &gains, &plan) }.into())
}

fn good_text(good: &certificate::Good) -> String {
    let mut out = String::from("good\n");
    if !good.kept.is_empty() {
        writeln!(out, "kept {}", good.kept.len()).unwrap();
    }
    plan::plan_text(&mut out, &good.plan);
    if let Some(first) = good.first {
        out.push_str(if first { "first yes\n" } else { "first no\n" });
    }
    out
}

/// How far the procedures came, each with its steps.
#[derive(Default)]
pub struct Outcome {
    woken: Option<u16>,
    provisioned: Option<u16>,
    activated: Option<u16>,
    active: Option<[u8; 8]>,
}

fn provisioned(traced: bool, flags: &Flags, image: &[u8], weights: &[u8], kept: &[u8], script: &[u8]) -> Result<Answer, Fault> {
    let image = Image::read(image)?;
    let advert = Advert::of(&image, flags.paired)?;
    let weights = Weights::read(weights)?;
    let kept = plan::read_kept(&advert, &weights, kept)?;
    let script = Script::read(script)?;
    let problem = Problem::new(&advert, &weights, kept);
    let plan = Gains::of(&problem).plan(&problem);
    let mut bus = Bus::new(Module::new(&image, advert)?, script);
    let mut outcome = Outcome::default();
    let fault = procedures(&mut bus, flags, &plan, problem.kept_host, &mut outcome).err();
    if fault.is_none() {
        outcome.active = Some(bus.module.active());
    }
    let steps = traced.then(|| &bus.steps[..]);
    let mut text = if flags.json { json::outcome(steps, &outcome) } else { outcome_text(steps, &outcome) };
    if let (Some(fault), false) = (&fault, flags.json) {
        writeln!(text, "{fault}").unwrap();
    }
    Ok(Answer { text, fault })
}

fn procedures(bus: &mut Bus, flags: &Flags, plan: &[Choice], kept: u8, outcome: &mut Outcome) -> Result<(), Fault> {
    let control = control_bytes(plan);
    if flags.wake {
        outcome.woken = Some(procedures::wake(bus)?);
    }
    outcome.provisioned = Some(procedures::provision(bus, &control, kept)?);
    if flags.activate {
        let lanes = plan.iter().fold(0, |lanes, choice| lanes | choice.host_mask);
        outcome.activated = Some(procedures::activate(bus, &control, lanes)?);
    }
    Ok(())
}

fn outcome_text(steps: Option<&[bus::Step]>, outcome: &Outcome) -> String {
    let mut out = String::new();
    bus::trace_text(&mut out, steps.unwrap_or_default());
    for (name, steps) in [("woken", outcome.woken), ("provisioned", outcome.provisioned), ("activated", outcome.activated)] {
        if let Some(steps) = steps {
            writeln!(out, "{name} {steps}").unwrap();
        }
    }
    if let Some(active) = outcome.active {
        plan::write_bytes(&mut out, "active", &active);
    }
    out
}
