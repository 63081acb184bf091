//! Stand-ins for what the originals name and the text does not hold. Each is listed in README.md.
//!
//! All but one draw or watch, and nothing of that feeds back into a kept field. So they do nothing, with the arguments that the
//! originals give them. Refresh is told (02 (xiv)), and has its read and its counter.

use super::sprite_unit::SpriteUnit;
use super::state::VicII;
use crate::memory::Memory;
use crate::reads::REFRESH;

impl VicII {
    /// Sprite pixels and collisions.
    pub(super) fn draw_active_sprites(&mut self, _previous_cycle: u8) {}

    /// The body is ours, by 02 (xiv): a read whose byte goes nowhere, and then the counter is one less. The originals set it to 0xFF where
    /// a frame ends, and say in which cycles this is called.
    pub(super) fn dram_refresh(&mut self, memory: &mut Memory, bank: u8, clock: u64) {
        memory.vic_read(REFRESH + u16::from(self.dram_refresh_counter), bank, clock);
        self.dram_refresh_counter = self.dram_refresh_counter.wrapping_sub(1);
    }

    /// The light pen is left out; its two bytes come from the caller of a register read.
    pub(super) fn rearm_light_pen(&mut self) {}

    /// Two delay stages before the pixels. No kept field is read from them.
    pub(super) fn shift_graphics_pipelines(&mut self) {
        self.char_data_pipeline_2 = self.char_data_pipeline_1;
        self.char_data_pipeline_1 = self.char_data_fetched;
        self.graphics_data_pipeline_2 = self.graphics_data_pipeline_1;
        self.graphics_data_pipeline_1 = self.graphics_data_fetched;
    }
}

impl SpriteUnit {
    /// The pixel shifters are left out. The display mask is set beside this call.
    pub(super) fn arm_sprite(&mut self, _index: usize) {}

    pub(super) fn idle_sprite(&mut self, _index: usize) {}
}

pub mod telemetry {
    /// Counts for the emulator's own display.
    pub struct VicTelemetry;

    impl VicTelemetry {
        pub fn new() -> Self {
            Self
        }
    }
}

pub mod foreground {
    use crate::vic::fsm::GraphicsMode;

    /// One cell on its way to the pixels, with the fields that the compiled renderer reads.
    #[derive(Clone, Copy)]
    pub struct ForegroundCell {
        pub gfx_data: u8,
        pub horizontal_scroll: i8,
        pub char_data: u16,
        pub mode: GraphicsMode,
        pub vertical_border: bool,
        pub cycle: u16,
    }

    impl ForegroundCell {
        pub fn new(gfx_data: u8, horizontal_scroll: i8, char_data: u16, mode: GraphicsMode, _offset: u8, vertical_border: bool, cycle: u16) -> Self {
            Self { gfx_data, horizontal_scroll, char_data, mode, vertical_border, cycle }
        }

        pub fn blank(horizontal_scroll: u8, char_data: u16, mode: GraphicsMode, cycle: u16) -> Self {
            Self::new(0, horizontal_scroll as i8, char_data, mode, 0, false, cycle)
        }

        pub fn with_scroll(self, horizontal_scroll: i8) -> Self {
            Self { horizontal_scroll, ..self }
        }
    }

    pub struct PixelSpan;

    impl PixelSpan {
        pub fn new(_start: u8, _count: u8) -> Self {
            Self
        }
    }
}

pub mod foreground_transition {
    use super::foreground::{ForegroundCell, PixelSpan};
    use crate::vic::screen::Screen;

    pub fn render_foreground_span(_screen: &mut Screen, _cell: ForegroundCell, _span: PixelSpan, _pixels_to_skip: &mut u8) {}
}

pub mod graphics_pixels {
    use crate::vic::screen::Screen;

    pub fn write_color_byte8(_screen: &mut Screen, _colour: u8, _scroll: i8, _cycle: u16) {}

    pub fn write_std2_byte(_screen: &mut Screen, _data: u8, _scroll: i8, _colours: [u8; 2], _cycle: u16) {}

    pub fn write_mcm4_byte(_screen: &mut Screen, _data: u8, _scroll: i8, _colours: [u8; 4], _cycle: u16) {}
}

pub mod graphics_mask {
    use crate::vic::screen::Screen;

    pub fn write_fore_mask_std(_screen: &mut Screen, _data: u8, _scroll: i8, _cycle: u16) {}

    pub fn write_fore_mask_mcm(_screen: &mut Screen, _data: u8, _scroll: i8, _cycle: u16) {}
}
