//! The fields that are wider than a bit, and how many bits each keeps.

use crate::published::Chip;

const OLD: [(&str, u32); 13] = [
    ("clkm_div_num", 8),
    ("clkm_div_a", 6),
    ("clkm_div_b", 6),
    ("tx_bck_div_num", 6),
    ("rx_bck_div_num", 6),
    ("tx_bits_mod", 6),
    ("rx_bits_mod", 6),
    ("tx_fifo_mod", 3),
    ("rx_fifo_mod", 3),
    ("tx_chan_mod", 3),
    ("rx_chan_mod", 2),
    ("rx_eof_num", 32),
    ("sigle_data", 32),
];

/// The same in both halves, without tx_ and rx_.
const NEW: [(&str, u32); 11] = [
    ("clkm_div_num", 8),
    ("clkm_div_x", 9),
    ("clkm_div_y", 9),
    ("clkm_div_z", 9),
    ("bck_div_num", 6),
    ("bits_mod", 5),
    ("half_sample_bits", 6),
    ("tdm_chan_bits", 5),
    ("tdm_ws_width", 7),
    ("tdm_tot_chan_num", 4),
    ("clk_sel", 2),
];

const NEW_OF_ONE: [(&str, u32); 4] =
    [("tx_chan_mod", 3), ("rx_stop_mode", 2), ("rx_eof_num", 12), ("single_data", 32)];

/// What the field stores of a number.
pub fn stored(chip: Chip, field: &str, number: u32) -> u32 {
    number & u32::MAX >> (32 - width(chip, field))
}

fn width(chip: Chip, field: &str) -> u32 {
    match chip {
        Chip::Old => of(&OLD, field).unwrap_or(1),
        Chip::New => {
            let either = field.strip_prefix("tx_").or(field.strip_prefix("rx_"));
            let of_both = either.and_then(|name| of(&NEW, name));
            of_both.or(of(&NEW_OF_ONE, field)).unwrap_or(1)
        }
    }
}

fn of(table: &[(&str, u32)], name: &str) -> Option<u32> {
    table.iter().find(|(known, _)| *known == name).map(|(_, width)| *width)
}
