//! A plan as a picture, and why no plan weighs more.
use crate::advert::Advert;
use crate::names::{media_table, name_in};
use crate::plan::{control_bytes, plan_text, Choice, Gains, Problem};
use crate::tables::{Table, HOST_INTERFACES};
use std::fmt::Write;

pub fn draw(advert: &Advert, media_type: u8, problem: &Problem, gains: &Gains, plan: &[Choice]) -> String {
    let mut out = String::new();
    plan_text(&mut out, plan);
    out.push('\n');
    write_picture(&mut out, problem, plan);
    for app in advert.apps.iter().filter(|app| plan.iter().any(|choice| choice.path.app == app.number)) {
        let host = interface(HOST_INTERFACES, app.host_id);
        writeln!(out, "app {}: {host} to {}", app.number, interface(media_table(media_type), app.media_id)).unwrap();
    }
    out.push('\n');
    write_reasons(&mut out, advert, problem, gains, plan);
    out
}

fn interface(table: Table, code: u8) -> String {
    match name_in(table, code) {
        why @ ("reserved" | "vendor specific" | "not listed") => format!("{code:02x}h ({why})"),
        name => name.to_string(),
    }
}

fn write_picture(out: &mut String, problem: &Problem, plan: &[Choice]) {
    let labels: Vec<String> = (b'A'..)
        .zip(plan)
        .map(|(letter, choice)| {
            let kept = problem.is_kept(choice);
            format!("{}{}app{:<2}", char::from(letter), if kept { '*' } else { ' ' }, choice.path.app)
        })
        .collect();
    let control = control_bytes(plan);
    let owners = |lanes: fn(&Choice) -> u8| -> [Option<usize>; 8] {
        std::array::from_fn(|lane| plan.iter().position(|choice| lanes(choice) >> lane & 1 == 1))
    };
    let frame = |_: usize, owner: Option<usize>, _: bool| if owner.is_some() { "-------" } else { "" }.to_string();
    let name = |_: usize, owner: Option<usize>, begins: bool| match owner {
        Some(path) if begins => labels[path].clone(),
        Some(_) => String::new(),
        None => "   -   ".to_string(),
    };
    let byte = |lane: usize, owner: Option<usize>, _: bool| owner.map_or(String::new(), |_| format!(" {:02x}", control[lane]));
    for (side, owners) in [("host", owners(|choice| choice.host_mask)), ("media", owners(|choice| choice.media_mask))] {
        writeln!(out, "{:<11}       1       2       3       4       5       6       7       8", format!("{side} lanes")).unwrap();
        write_row(out, &owners, '+', frame);
        write_row(out, &owners, '|', name);
        if side == "host" {
            write_row(out, &owners, '|', byte);
        }
        write_row(out, &owners, '+', frame);
    }
}

/// A cell of seven columns for each lane, with an edge where another path begins or ends.
fn write_row(out: &mut String, owners: &[Option<usize>; 8], edge: char, cell: impl Fn(usize, Option<usize>, bool) -> String) {
    let mut line = " ".repeat(13);
    let mut before = None;
    for (lane, owner) in owners.iter().enumerate() {
        let begins = before != *owner;
        line.push(match (begins, owner) {
            (true, _) => edge,
            (false, Some(_)) if edge == '+' => '-',
            _ => ' ',
        });
        write!(line, "{:<7}", cell(lane, *owner, begins)).unwrap();
        before = *owner;
    }
    if before.is_some() {
        line.push(edge);
    }
    out.push_str(line.trim_end());
    out.push('\n');
}

/// For each host lane on which the plan decides, what could be chosen there.
fn write_reasons(out: &mut String, advert: &Advert, problem: &Problem, gains: &Gains, plan: &[Choice]) {
    let mut state = (0, 0);
    while state.0 < 8 {
        let gain = gains.at(state);
        let taken = plan.iter().find(|choice| choice.path.host == state.0 + 1);
        writeln!(out, "host lane {}, {gain} to gain", state.0 + 1).unwrap();
        let mut options: Vec<(Option<&Choice>, u64)> = Vec::new();
        for app in &advert.apps {
            let own = problem.paths_from(state).filter(|choice| choice.path.app == app.number);
            let own = own.filter(|choice| choice.weight > 0 || problem.is_kept(choice));
            let best = own.rev().max_by_key(|choice| choice.weight + gains.at(Problem::after(state, choice)));
            options.extend(best.map(|choice| (Some(choice), gains.at(Problem::after(state, choice)))));
        }
        if problem.may_stay_free(state.0) {
            options.push((None, gains.at((state.0 + 1, state.1))));
        }
        options.sort_by_key(|(choice, rest)| std::cmp::Reverse(choice.map_or(0, |choice| choice.weight) + rest));
        for (choice, rest) in options {
            let weight = choice.map_or(0, |choice| choice.weight);
            let name = choice.map_or("left free".to_string(), |choice| format!("app {}, media lane {}", choice.path.app, choice.path.media));
            write!(out, "  {name:<24} {weight:>6} + {rest:>6} = {:>6}  ", weight + rest).unwrap();
            match gain - (weight + rest) {
                _ if choice.map(|choice| choice.path) == taken.map(|choice| choice.path) => out.push_str("taken\n"),
                0 => out.push_str("as much\n"),
                less => writeln!(out, "{less} less").unwrap(),
            }
        }
        state = taken.map_or((state.0 + 1, state.1), |choice| Problem::after(state, choice));
    }
}
