//! The numbers of a set-up, as the last put into each field left them.

use recorder::Event;

use super::recorded::Half;

/// The fields of a unit of the new chip, without tx_ and rx_, in the order of the answer's line. The
/// 16 fields of channels stand as one number.
const UNIT: [&str; 18] = [
    "clkm_div_x",
    "clkm_div_y",
    "clkm_div_yn1",
    "clkm_div_z",
    "clkm_div_num",
    "bck_div_num",
    "msb_shift",
    "tdm_ws_width",
    "bits_mod",
    "tdm_chan_bits",
    "half_sample_bits",
    "chan_equal",
    "big_endian",
    "bit_order",
    "ws_idle_pol",
    "tdm_tot_chan_num",
    CHANNELS,
    "single_data",
];

const CHANNELS: &str = "tdm_chan_en";

/// Those that the transmit half alone has.
const TRANSMIT_ALONE: [&str; 2] = ["chan_equal", "single_data"];

/// Where the split stands in the line of a unit.
pub const SPLIT: [&str; 4] = ["clkm_div_x", "clkm_div_y", "clkm_div_z", "clkm_div_yn1"];

/// The fields of both units of the old chip.
const BOTH: [&str; 16] = [
    "clkm_div_num",
    "clkm_div_a",
    "clkm_div_b",
    "tx_bck_div_num",
    "rx_bck_div_num",
    "tx_bits_mod",
    "rx_bits_mod",
    "tx_msb_shift",
    "tx_short_sync",
    "tx_fifo_mod",
    "sigle_data",
    "tx_chan_mod",
    "rx_msb_shift",
    "rx_short_sync",
    "rx_fifo_mod",
    "rx_chan_mod",
];

/// Numbers by name, and the puts into all other fields.
#[derive(Clone, Debug, Default)]
pub struct Numbers {
    pub named: Vec<(&'static str, u32)>,
    pub others: Vec<(&'static str, u32)>,
}

impl Numbers {
    pub fn get(&self, name: &str) -> Option<u32> {
        self.named.iter().find(|(known, _)| *known == name).map(|(_, number)| *number)
    }

    pub fn set(&mut self, name: &'static str, number: u32) {
        match self.named.iter_mut().find(|(known, _)| *known == name) {
            Some((_, old)) => *old = number,
            None => self.named.push((name, number)),
        }
    }

    pub fn line(&self) -> String {
        let words: Vec<String> =
            self.named.iter().map(|(name, number)| format!("{name} {number}")).collect();
        words.join(" ")
    }

    /// Those of the names, each of which must be there.
    fn in_order(mut self, names: &[&'static str]) -> Result<Numbers, String> {
        let get = |name: &&'static str| {
            let number = self.get(name).ok_or(format!("nothing is put into {name}"))?;
            Ok((*name, number))
        };
        let named: Result<_, String> = names.iter().map(get).collect();
        self.named = named?;
        Ok(self)
    }
}

fn puts(events: &[Event]) -> impl Iterator<Item = (&'static str, u32)> {
    events.iter().filter_map(|event| match event {
        Event::Put { field, value, .. } => Some((*field, *value)),
        _ => None,
    })
}

pub fn of_half(events: &[Event], half: Half) -> Result<Numbers, String> {
    let prefix = match half {
        Half::Transmit => "tx_",
        Half::Receive => "rx_",
    };
    let mut numbers = Numbers::default();
    let (mut mask, mut channels) = (0, 0);
    for (field, number) in puts(events) {
        let name = field.strip_prefix(prefix).unwrap_or(field);
        if let Some(channel) = channel(name) {
            channels |= 1 << channel;
            mask |= number << channel;
        } else if let Some(known) = UNIT.iter().find(|known| **known == name) {
            numbers.set(known, number);
        } else {
            numbers.others.push((field, number));
        }
    }
    if channels != 0xffff {
        return Err(format!("channels without a put: {channels:#x} have one"));
    }
    numbers.set(CHANNELS, mask);
    let held = |name: &&str| half == Half::Transmit || !TRANSMIT_ALONE.contains(name);
    numbers.in_order(&UNIT.into_iter().filter(held).collect::<Vec<_>>())
}

/// The channel whose own field this is.
fn channel(name: &str) -> Option<u32> {
    let name = name.strip_prefix("tdm_")?;
    let name = name.strip_prefix("pdm_").unwrap_or(name);
    name.strip_prefix("chan")?.strip_suffix("_en")?.parse().ok()
}

pub fn of_both(events: &[Event]) -> Result<Numbers, String> {
    let mut numbers = Numbers::default();
    for (field, number) in puts(events) {
        match BOTH.iter().find(|known| **known == field) {
            Some(known) => numbers.set(known, number),
            None => numbers.others.push((field, number)),
        }
    }
    numbers.in_order(&BOTH)
}
