//! The registers and fields of the old chip that the published sources name.

block!(i2s0 {
    int_raw { in_suc_eof: bool }
    int_st { rx_hung tx_hung: bool }
    int_ena { rx_hung tx_hung: bool }
    int_clr { rx_hung tx_hung in_done in_suc_eof out_done out_total_eof: bool }
    clkm_conf { clk_en clka_ena: bool, clkm_div_num clkm_div_a clkm_div_b: u8 }
    sample_rate_conf { tx_bck_div_num rx_bck_div_num tx_bits_mod rx_bits_mod: u8 }
    conf {
        tx_reset rx_reset tx_fifo_reset rx_fifo_reset tx_start rx_start tx_slave_mod rx_slave_mod
        tx_right_first rx_right_first tx_msb_shift rx_msb_shift tx_short_sync rx_short_sync
        tx_mono rx_mono tx_msb_right rx_msb_right sig_loopback: bool
    }
    conf1 { tx_pcm_bypass rx_pcm_bypass: bool }
    conf2 { camera_en lcd_en: bool }
    conf_chan { tx_chan_mod rx_chan_mod: u8 }
    conf_sigle_data { sigle_data: u32 }
    fifo_conf {
        dscr_en tx_fifo_mod_force_en rx_fifo_mod_force_en: bool,
        tx_fifo_mod rx_fifo_mod: u8
    }
    lc_conf { in_rst out_rst: bool }
    pd_conf { fifo_force_pd fifo_force_pu: bool }
    rxeof_num { rx_eof_num: u32 }
    state { tx_idle: bool }
});

pub use i2s0 as i2s1;

block!(io_mux {
    pin_ctrl { clk1 clk2 clk3: u8 }
});

block!(timg0 {
    lactconfig { divider: u16 }
    lactlo { }
    lacthi { }
    lactupdate { update: u32 }
});
