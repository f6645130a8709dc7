//! The Applications that a CMIS module advertises, and what paths of them weigh.
use crate::fault::Fault;
use crate::image::{Device, Image, Key, Page};

#[derive(Clone, Copy)]
pub struct App {
    pub number: u8,
    pub host_id: u8,
    pub media_id: u8,
    pub host_lanes: u8,
    pub media_lanes: u8,
    pub host_starts: u8,
    pub media_starts: u8,
}

impl App {
    pub fn is_usable(&self) -> bool {
        (1..=8).contains(&self.host_lanes) && (1..=8).contains(&self.media_lanes)
    }
}

pub struct Advert {
    pub apps: Vec<App>,
    /// The media lanes that no path may use.
    pub unsupported: u8,
    /// Whether an Application's first host lanes go with its first media lanes in their order.
    pub paired: bool,
}

impl Advert {
    pub fn of(image: &Image, paired: bool) -> Result<Advert, Fault> {
        let lower = image.need(Key::lower(Device::A0), "AD4")?;
        let identifier = lower.byte(0);
        if !matches!(identifier, 0x18 | 0x19 | 0x1E) {
            return Err(Fault::with("AD1", identifier));
        }
        if !matches!(lower.byte(1) >> 4, 4 | 5) {
            return Err(Fault::with("AD2", lower.byte(1)));
        }
        if identifier == 0x1E {
            return Err(Fault::with("AD6", identifier));
        }
        if lower.bit(2, 7) {
            return Err(Fault::new("AD3"));
        }
        let administrative = image.need(Key::upper(0, 0), "AD4")?;
        let advertising = image.need(Key::upper(0, 1), "AD4")?;
        if !administrative.sum_right(222, 128, 221) {
            return Err(Fault::with("AD5", 0));
        }
        if !advertising.sum_right(255, 130, 254) {
            return Err(Fault::with("AD5", 1));
        }
        let unsupported = administrative.byte(210);
        Ok(Advert { apps: descriptors(lower, advertising), unsupported, paired })
    }

    pub fn app(&self, number: u8) -> Option<&App> {
        self.apps.get(usize::from(number.wrapping_sub(1)))
    }
}

/// Those before the one whose HostInterfaceID ends the list: eight in the lower half, and seven on page 01h.
fn descriptors(lower: &Page, advertising: &Page) -> Vec<App> {
    let mut apps = Vec::with_capacity(15);
    for index in 0..15 {
        let (page, at) = if index < 8 { (lower, 86 + 4 * index) } else { (advertising, 223 + 4 * (index - 8)) };
        if page.byte(at) == 0xFF {
            break;
        }
        apps.push(App {
            number: index + 1,
            host_id: page.byte(at),
            media_id: page.byte(at + 1),
            host_lanes: page.byte(at + 2) >> 4,
            media_lanes: page.byte(at + 2) & 15,
            host_starts: page.byte(at + 3),
            media_starts: advertising.byte(176 + index),
        });
    }
    apps
}

/// What a path weighs by its Application's identifiers and number.
pub struct Weights {
    host: [u32; 256],
    media: [u32; 256],
    app: [u32; 16],
}

impl Weights {
    pub fn read(text: &[u8]) -> Result<Weights, Fault> {
        let document: toml::value::Table = toml::from_slice(text).map_err(|_| Fault::new("WT1"))?;
        let host = document.get("host").and_then(|host| host.as_table()).ok_or_else(|| Fault::new("WT2"))?;
        let mut weights = Weights { host: [0; 256], media: [0; 256], app: [0; 16] };
        let (mut media, mut app) = (None, None);
        for (key, value) in &document {
            match (key.as_str(), value) {
                ("host", _) => {}
                ("media", toml::Value::Table(table)) => media = Some(table),
                ("app", toml::Value::Table(table)) => app = Some(table),
                ("stay", toml::Value::Integer(0..=0xFFFF_FFFF)) => {}
                _ => return Err(Fault::new("WT6")),
            }
        }
        read_table("", host, identifier, &mut weights.host)?;
        if let Some(media) = media {
            read_table("media ", media, identifier, &mut weights.media)?;
        }
        if let Some(app) = app {
            read_table("app ", app, app_number, &mut weights.app)?;
        }
        Ok(weights)
    }

    pub fn of(&self, app: &App) -> u64 {
        let [host, media] = [app.host_id, app.media_id].map(usize::from);
        u64::from(self.host[host]) + u64::from(self.media[media]) + u64::from(self.app[usize::from(app.number)])
    }
}

/// Two hexadecimal digits and `h`.
fn identifier(key: &str) -> Option<u8> {
    let digits = key.strip_suffix('h')?;
    let right = digits.len() == 2 && digits.bytes().all(|digit| digit.is_ascii_hexdigit());
    right.then(|| u8::from_str_radix(digits, 16).ok())?
}

fn app_number(key: &str) -> Option<u8> {
    crate::text::decimal(key.as_bytes(), 15).map(|number| number as u8).filter(|number| *number != 0)
}

fn read_table(
    name: &str,
    table: &toml::value::Table,
    number_of: fn(&str) -> Option<u8>,
    weights: &mut [u32],
) -> Result<(), Fault> {
    let mut known = [false; 256];
    for (key, value) in table {
        let number = number_of(key).ok_or_else(|| match name {
            "" => Fault::new("WT3"),
            _ => Fault::with("WT3", name.trim_end()),
        })?;
        if known[usize::from(number)] {
            return Err(Fault::with("WT4", format_args!("{name}{number}")));
        }
        known[usize::from(number)] = true;
        let weight = value.as_integer().and_then(|weight| u32::try_from(weight).ok());
        weights[usize::from(number)] = weight.ok_or_else(|| Fault::with("WT5", format_args!("{name}{number}")))?;
    }
    Ok(())
}
