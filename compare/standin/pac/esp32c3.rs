//! The registers and fields of the new chip that the published sources name.

block!(i2s0 {
    int_raw { rx_done: bool }
    int_st { rx_done tx_done rx_hung tx_hung: bool }
    int_ena { rx_done tx_done rx_hung tx_hung: bool }
    int_clr { rx_done tx_done rx_hung tx_hung: bool }
    tx_clkm_conf { clk_en tx_clk_active: bool, tx_clk_sel tx_clkm_div_num: u8 }
    rx_clkm_conf { rx_clk_active mclk_sel: bool, rx_clk_sel rx_clkm_div_num: u8 }
    tx_clkm_div_conf { tx_clkm_div_x tx_clkm_div_y tx_clkm_div_z: u16, tx_clkm_div_yn1: bool }
    rx_clkm_div_conf { rx_clkm_div_x rx_clkm_div_y rx_clkm_div_z: u16, rx_clkm_div_yn1: bool }
    tx_conf {
        tx_reset tx_fifo_reset tx_start tx_slave_mod tx_update tx_mono tx_mono_fst_vld tx_stop_en
        tx_chan_equal tx_tdm_en tx_pdm_en tx_pcm_bypass tx_big_endian tx_bit_order
        tx_ws_idle_pol: bool,
        tx_chan_mod: u8
    }
    rx_conf {
        rx_reset rx_fifo_reset rx_start rx_slave_mod rx_update rx_mono rx_mono_fst_vld rx_tdm_en
        rx_pdm_en rx_pcm_bypass rx_big_endian rx_bit_order rx_ws_idle_pol: bool,
        rx_stop_mode: u8
    }
    tx_conf1 {
        tx_msb_shift: bool,
        tx_bck_div_num tx_tdm_ws_width tx_bits_mod tx_tdm_chan_bits tx_half_sample_bits: u8
    }
    rx_conf1 {
        rx_msb_shift: bool,
        rx_bck_div_num rx_tdm_ws_width rx_bits_mod rx_tdm_chan_bits rx_half_sample_bits: u8
    }
    tx_tdm_ctrl {
        tx_tdm_chan0_en tx_tdm_chan1_en tx_tdm_chan2_en tx_tdm_chan3_en
        tx_tdm_chan4_en tx_tdm_chan5_en tx_tdm_chan6_en tx_tdm_chan7_en
        tx_tdm_chan8_en tx_tdm_chan9_en tx_tdm_chan10_en tx_tdm_chan11_en
        tx_tdm_chan12_en tx_tdm_chan13_en tx_tdm_chan14_en tx_tdm_chan15_en
        tx_tdm_skip_msk_en: bool,
        tx_tdm_tot_chan_num: u8
    }
    rx_tdm_ctrl {
        rx_tdm_pdm_chan0_en rx_tdm_pdm_chan1_en rx_tdm_pdm_chan2_en rx_tdm_pdm_chan3_en
        rx_tdm_pdm_chan4_en rx_tdm_pdm_chan5_en rx_tdm_pdm_chan6_en rx_tdm_pdm_chan7_en
        rx_tdm_chan8_en rx_tdm_chan9_en rx_tdm_chan10_en rx_tdm_chan11_en
        rx_tdm_chan12_en rx_tdm_chan13_en rx_tdm_chan14_en rx_tdm_chan15_en: bool,
        rx_tdm_tot_chan_num: u8
    }
    conf_sigle_data { single_data: u32 }
    rxeof_num { rx_eof_num: u16 }
    state { tx_idle: bool }
});
