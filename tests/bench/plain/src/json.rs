//! Answers as JSON.
use crate::advert::Advert;
use crate::bus::{Operation, Reply, Step};
use crate::certificate::Good;
use crate::names::{known_path_state, known_state, known_status};
use crate::plan::{control_bytes, weight_of, Choice};
use crate::reports::Flags;
use crate::Outcome;
use serde::Serialize;

pub fn text(value: &impl Serialize) -> String {
    let mut text = serde_json::to_string_pretty(value).expect("nothing of it fails");
    text.push('\n');
    text
}

#[derive(Serialize)]
struct App {
    number: u8,
    host: u8,
    media: u8,
    host_lanes: u8,
    media_lanes: u8,
    host_starts: u8,
    media_starts: u8,
    usable: bool,
}

#[derive(Serialize)]
struct Apps {
    dovecounter: u8,
    apps: usize,
    app: Vec<App>,
    unsupported_media: u8,
}

pub fn apps(advert: &Advert) -> String {
    let apps = advert.apps.iter().map(|app| App {
        number: app.number,
        host: app.host_id,
        media: app.media_id,
        host_lanes: app.host_lanes,
        media_lanes: app.media_lanes,
        host_starts: app.host_starts,
        media_starts: app.media_starts,
        usable: app.is_usable(),
    });
    text(&Apps { dovecounter: 1, apps: advert.apps.len(), app: apps.collect(), unsupported_media: advert.unsupported })
}

#[derive(Serialize)]
struct Lane {
    path_state: u8,
    #[serde(skip_serializing_if = "Option::is_none")]
    path_state_name: Option<&'static str>,
    config_status: u8,
    #[serde(skip_serializing_if = "Option::is_none")]
    config_status_name: Option<&'static str>,
}

#[derive(Serialize)]
struct Flag {
    name: String,
    #[serde(skip_serializing_if = "Option::is_none")]
    lane: Option<u8>,
}

#[derive(Serialize)]
struct FlagsReport {
    dovecounter: u8,
    #[serde(skip_serializing_if = "Option::is_none")]
    state: Option<u8>,
    #[serde(skip_serializing_if = "Option::is_none")]
    state_name: Option<&'static str>,
    #[serde(skip_serializing_if = "Vec::is_empty")]
    lane: Vec<Lane>,
    flag: Vec<Flag>,
}

pub fn flags(flags: &Flags) -> String {
    let lane = flags.lanes.iter().map(|(state, status)| Lane {
        path_state: *state,
        path_state_name: known_path_state(*state),
        config_status: *status,
        config_status_name: known_status(*status),
    });
    let flag = flags.raised().map(|flag| {
        let mut name = String::new();
        flag.write_name(&mut name);
        Flag { name, lane: flag.lane }
    });
    text(&FlagsReport {
        dovecounter: 1,
        state: flags.state,
        state_name: flags.state.and_then(known_state),
        lane: lane.collect(),
        flag: flag.collect(),
    })
}

#[derive(Serialize)]
struct Path {
    app_number: u8,
    host_lane_numbers: Vec<u8>,
    media_lane_numbers: Vec<u8>,
}

fn paths(plan: &[Choice]) -> Vec<Path> {
    let numbers = |first: u8, count: u8| (first..first + count).collect();
    let paths = plan.iter().map(|choice| Path {
        app_number: choice.path.app,
        host_lane_numbers: numbers(choice.path.host, choice.host_lanes),
        media_lane_numbers: numbers(choice.path.media, choice.media_lanes),
    });
    paths.collect()
}

#[derive(Serialize)]
struct Plan {
    dovecounter: u8,
    #[serde(skip_serializing_if = "Option::is_none")]
    good: Option<bool>,
    #[serde(skip_serializing_if = "Option::is_none")]
    first: Option<bool>,
    weight: u64,
    kept_paths: Vec<Path>,
    paths: Vec<Path>,
    control_bytes: [u8; 8],
}

impl Plan {
    fn of(kept: &[Choice], plan: &[Choice]) -> Plan {
        let mut plan = plan.to_vec();
        plan.sort_by_key(|choice| choice.path.host);
        Plan {
            dovecounter: 1,
            good: None,
            first: None,
            weight: weight_of(&plan),
            kept_paths: paths(kept),
            paths: paths(&plan),
            control_bytes: control_bytes(&plan),
        }
    }
}

pub fn plan(kept: &[Choice], plan: &[Choice]) -> String {
    text(&Plan::of(kept, plan))
}

pub fn good(good: &Good) -> String {
    text(&Plan { good: Some(true), first: good.first, ..Plan::of(&good.kept, &good.plan) })
}

#[derive(Serialize)]
#[serde(tag = "operation", rename_all = "lowercase")]
enum Transaction<'a> {
    Fetch {
        device: &'static str,
        offset: u8,
        count: u8,
        reply: &'static str,
        #[serde(skip_serializing_if = "Option::is_none")]
        read: Option<&'a [u8]>,
    },
    Store {
        device: &'static str,
        offset: u8,
        stored: &'a [u8],
        reply: &'static str,
    },
}

#[derive(Serialize)]
struct Procedures<'a> {
    dovecounter: u8,
    #[serde(skip_serializing_if = "Option::is_none")]
    operations: Option<Vec<Transaction<'a>>>,
    #[serde(skip_serializing_if = "Option::is_none")]
    woken_steps: Option<u16>,
    #[serde(skip_serializing_if = "Option::is_none")]
    provisioned_steps: Option<u16>,
    #[serde(skip_serializing_if = "Option::is_none")]
    activated_steps: Option<u16>,
    #[serde(skip_serializing_if = "Option::is_none")]
    active_bytes: Option<[u8; 8]>,
}

fn transaction(step: &Step) -> Transaction {
    let (reply, read) = match &step.reply {
        Reply::Bytes(bytes) => ("bytes", Some(&bytes[..])),
        Reply::Done => ("done", None),
        Reply::Refused => ("refused", None),
    };
    match &step.operation {
        Operation::Fetch { offset, count } => Transaction::Fetch { device: "A0", offset: *offset, count: *count, reply, read },
        Operation::Store { offset, bytes } => Transaction::Store { device: "A0", offset: *offset, stored: bytes, reply },
    }
}

pub fn outcome(steps: Option<&[Step]>, outcome: &Outcome) -> String {
    text(&Procedures {
        dovecounter: 1,
        operations: steps.map(|steps| steps.iter().map(transaction).collect()),
        woken_steps: outcome.woken,
        provisioned_steps: outcome.provisioned,
        activated_steps: outcome.activated,
        active_bytes: outcome.active,
    })
}
