//! A chip state in plain numbers, and its 311 bytes (docs/FORMATS.md, "Scene"). `decode` takes the newest version alone, as `replay`
//! does; `renewed` makes it of an older one.

use crate::kind::MOS6569;

pub const SCENE: usize = 311;
pub const HEAD: [u8; 4] = [b'N', b'P', b'S', 5];
/// Where the version stands.
const VERSION: usize = 3;
/// Version 4 ends before the refresh counter, versions 2 and 3 before the lost cycles too, version 1 before the kind too.
pub const WITHOUT_REFRESH: usize = SCENE - 1;
pub const WITHOUT_LOST: usize = SCENE - 2;
pub const WITHOUT_KIND: usize = SCENE - 3;
/// What the refresh counter begins with, at power-up and after a frame's end (02 (xiv)).
pub const FIRST_REFRESH: u8 = 0xFF;
/// Where the sprites of a scene begin, the bytes of each, and where in them versions 1 and 2 have a flag of DMA (02 (ix)).
const SPRITES: usize = 75;
const SPRITE: usize = 12;
const FLAG: usize = 4;
const NOTHING_PENDING: u8 = 255;

#[derive(Clone, Copy, Debug, Default, PartialEq, Eq)]
pub struct Sprite {
    pub number: u8,
    pub pointer: u8,
    pub mc: u8,
    pub base: u8,
    pub word: u32,
    pub bytes: [u8; 3],
}

/// The forty entries of the matrix line: an array of this length has no default of its own.
#[derive(Clone, Debug, PartialEq, Eq)]
pub struct Matrix(pub [u16; 40]);

impl Default for Matrix {
    fn default() -> Self {
        Self([0; 40])
    }
}

/// Every kept field. Flags whose scene value names a state are true for 1: BA output high,
/// displaying (0 Idle), entering (0 Stable), accessing (0 off). The default is all 0, not power-up.
#[derive(Clone, Debug, Default, PartialEq, Eq)]
pub struct State {
    pub cycle: u16,
    pub raster: u16,
    pub den: bool,
    pub rsel: bool,
    pub yscroll: u8,
    pub bad_line: bool,
    pub rising_edge: bool,
    pub ba_output_high: bool,

    pub x: [u8; 8],
    pub y: [u8; 8],
    pub sprite_colours: [u8; 8],
    pub backgrounds: [u8; 4],
    pub x_high: u8,
    pub enable: u8,
    pub y_expand: u8,
    pub x_expand: u8,
    pub priority: u8,
    pub multicolour: u8,
    pub multicolour_0: u8,
    pub multicolour_1: u8,
    pub ctrl1: u8,
    pub ctrl2: u8,
    pub compare: u16,
    pub memory_pointers: u8,
    pub border_colour: u8,

    pub irq_flags: u8,
    pub irq_enable: u8,
    pub irq_line: bool,

    pub vertical_border: bool,
    pub main_border: bool,
    pub main_remembered: bool,
    pub output_disabled: bool,
    pub part_40: u8,
    pub part_38: u8,
    pub top: u16,
    pub bottom: u16,

    pub flip: u8,
    pub clear_pending: u8,
    pub dma: u8,
    pub previous_dma: u8,
    pub sprite_display: u8,
    pub vertical_match: u8,

    pub sprites: [Sprite; 8],
    pub matrix: Matrix,

    pub vc: u16,
    pub vc_base: u16,
    pub rc: u8,
    pub vmli: u8,
    pub ba_low: bool,
    pub aec_low: bool,
    pub irq_changed: bool,
    pub displaying: bool,
    pub entering: bool,
    pub accessing: bool,
    pub mode: u8,
    pub previous_mode: u8,
    pub mode_changing: bool,
    pub character: u16,
    pub carry: u16,
    pub graphics: u8,
    pub den_latch: bool,
    pub frame_flag: bool,
    pub raster_match: bool,
    pub aec_counter: i8,
    pub clock_fall: i64,
    pub clock_rise: i64,
    pub forced_clock: i64,
    pub clock: i64,
    pub pending: Option<u8>,
    pub kind: u8,
    pub lost: u8,
    pub refresh: u8,
}

/// A field's name in two parts, so that no text is built while states are read and written.
type Name = (&'static str, Option<usize>, &'static str);

fn plain(name: &'static str) -> Name {
    (name, None, "")
}

/// Something that passes over all fields in the scene's order.
trait Visit {
    fn byte(&mut self, name: Name, field: &mut u8);
    fn word(&mut self, name: Name, field: &mut u16);
    fn long(&mut self, name: Name, field: &mut u32);
    fn clock(&mut self, name: Name, field: &mut i64);
    fn counter(&mut self, name: Name, field: &mut i8);
    fn flag(&mut self, name: Name, field: &mut bool);
    fn mode(&mut self, name: Name, field: &mut u8);
    fn place(&mut self, name: Name, field: &mut Option<u8>);
    /// A byte that is no field and is 0.
    fn zero(&mut self, name: Name);
}

impl State {
    /// The order of docs/FORMATS.md, "Scene", said once for reading, writing and naming.
    fn visit(&mut self, v: &mut impl Visit) {
        v.word(plain("cycle"), &mut self.cycle);
        v.word(plain("raster"), &mut self.raster);
        v.flag(plain("latched DEN"), &mut self.den);
        v.flag(plain("latched RSEL"), &mut self.rsel);
        v.byte(plain("latched YSCROLL"), &mut self.yscroll);
        v.flag(plain("bad line"), &mut self.bad_line);
        v.flag(plain("rising edge"), &mut self.rising_edge);
        v.flag(plain("BA output"), &mut self.ba_output_high);

        for (k, field) in self.x.iter_mut().enumerate() {
            v.byte(("X ", Some(k), ""), field);
        }
        for (k, field) in self.y.iter_mut().enumerate() {
            v.byte(("Y ", Some(k), ""), field);
        }
        for (k, field) in self.sprite_colours.iter_mut().enumerate() {
            v.byte(("sprite colour ", Some(k), ""), field);
        }
        for (k, field) in self.backgrounds.iter_mut().enumerate() {
            v.byte(("background colour ", Some(k), ""), field);
        }
        v.byte(plain("X high bits"), &mut self.x_high);
        v.byte(plain("enable"), &mut self.enable);
        v.byte(plain("Y-expand"), &mut self.y_expand);
        v.byte(plain("X-expand"), &mut self.x_expand);
        v.byte(plain("priority"), &mut self.priority);
        v.byte(plain("multicolour"), &mut self.multicolour);
        v.byte(plain("multicolour 0"), &mut self.multicolour_0);
        v.byte(plain("multicolour 1"), &mut self.multicolour_1);
        v.byte(plain("ctrl1"), &mut self.ctrl1);
        v.byte(plain("ctrl2"), &mut self.ctrl2);
        v.word(plain("compare line"), &mut self.compare);
        v.byte(plain("memory pointers"), &mut self.memory_pointers);
        v.byte(plain("border colour"), &mut self.border_colour);

        v.byte(plain("interrupt flags"), &mut self.irq_flags);
        v.byte(plain("interrupt enable"), &mut self.irq_enable);
        v.flag(plain("interrupt line"), &mut self.irq_line);

        v.flag(plain("vertical border"), &mut self.vertical_border);
        v.flag(plain("main border"), &mut self.main_border);
        v.flag(plain("main border remembered"), &mut self.main_remembered);
        v.flag(plain("output disabled"), &mut self.output_disabled);
        v.byte(plain("border part 40"), &mut self.part_40);
        v.byte(plain("border part 38"), &mut self.part_38);
        v.word(plain("border top"), &mut self.top);
        v.word(plain("border bottom"), &mut self.bottom);

        v.byte(plain("expansion flip"), &mut self.flip);
        v.byte(plain("clear pending"), &mut self.clear_pending);
        v.byte(plain("DMA mask"), &mut self.dma);
        v.byte(plain("previous DMA mask"), &mut self.previous_dma);
        v.byte(plain("sprite display mask"), &mut self.sprite_display);
        v.byte(plain("vertical match mask"), &mut self.vertical_match);

        for (k, sprite) in self.sprites.iter_mut().enumerate() {
            v.byte(("sprite ", Some(k), " number"), &mut sprite.number);
            v.byte(("sprite ", Some(k), " pointer"), &mut sprite.pointer);
            v.byte(("sprite ", Some(k), " MC"), &mut sprite.mc);
            v.byte(("sprite ", Some(k), " MC base"), &mut sprite.base);
            v.zero(("sprite ", Some(k), " zero"));
            v.long(("sprite ", Some(k), " word"), &mut sprite.word);
            v.byte(("sprite ", Some(k), " byte 0"), &mut sprite.bytes[0]);
            v.byte(("sprite ", Some(k), " byte 1"), &mut sprite.bytes[1]);
            v.byte(("sprite ", Some(k), " byte 2"), &mut sprite.bytes[2]);
        }
        for (k, field) in self.matrix.0.iter_mut().enumerate() {
            v.word(("matrix entry ", Some(k), ""), field);
        }

        v.word(plain("VC"), &mut self.vc);
        v.word(plain("VC base"), &mut self.vc_base);
        v.byte(plain("RC"), &mut self.rc);
        v.byte(plain("VMLI"), &mut self.vmli);
        v.flag(plain("BA low"), &mut self.ba_low);
        v.flag(plain("AEC low"), &mut self.aec_low);
        v.flag(plain("IRQ-changed"), &mut self.irq_changed);
        v.flag(plain("display"), &mut self.displaying);
        v.flag(plain("transition"), &mut self.entering);
        v.flag(plain("character access"), &mut self.accessing);
        v.mode(plain("mode"), &mut self.mode);
        v.mode(plain("previous mode"), &mut self.previous_mode);
        v.flag(plain("mode-changing"), &mut self.mode_changing);
        v.word(plain("character fetched"), &mut self.character);
        v.word(plain("carry"), &mut self.carry);
        v.byte(plain("graphics byte"), &mut self.graphics);
        v.flag(plain("DEN latch"), &mut self.den_latch);
        v.flag(plain("frame flag"), &mut self.frame_flag);
        v.flag(plain("raster match"), &mut self.raster_match);
        v.counter(plain("AEC counter"), &mut self.aec_counter);
        v.clock(plain("clock of BA's fall"), &mut self.clock_fall);
        v.clock(plain("clock of BA's rise"), &mut self.clock_rise);
        v.clock(plain("forced clock"), &mut self.forced_clock);
        v.clock(plain("clock"), &mut self.clock);
        v.place(plain("pending place"), &mut self.pending);
        v.byte(plain("kind"), &mut self.kind);
        v.byte(plain("lost cycles"), &mut self.lost);
        v.byte(plain("refresh counter"), &mut self.refresh);
    }

    pub fn encode(&self) -> [u8; SCENE] {
        let mut writer = Writer { bytes: [0; SCENE], at: 0 };
        writer.put(&HEAD);
        self.clone().visit(&mut writer);
        assert_eq!(writer.at, SCENE);
        writer.bytes
    }

    /// Nothing where the bytes are not a scene of the newest version.
    pub fn decode(bytes: &[u8]) -> Option<Self> {
        if bytes.len() != SCENE || bytes[..HEAD.len()] != HEAD {
            return None;
        }
        let mut reader = Reader { bytes, at: HEAD.len(), sound: true };
        let mut state = Self::default();
        state.visit(&mut reader);
        reader.sound.then_some(state)
    }
}

/// Where a version before 3 has the flag of sprite k.
pub fn flag_at(k: usize) -> usize {
    SPRITES + SPRITE * k + FLAG
}

/// The bytes of an older scene as the newest version has them; any other bytes are themselves. Version 1 has no kind and gets the 6569's.
/// Up to version 2 each sprite has a flag: 0 or 1, or it is no scene; what it says is not looked at, since the mask decides (02 (ix)).
/// Up to version 3 the lost cycles are not told, and are 0 (02 (xi)); up to version 4 the refresh counter is not, and is 0xFF (02 (xiv)).
pub fn renewed(bytes: &[u8]) -> Vec<u8> {
    let mut bytes = bytes.to_vec();
    if bytes.len() == WITHOUT_KIND && bytes[VERSION] == 1 {
        bytes.push(MOS6569);
        bytes[VERSION] = 2;
    }
    if bytes.len() == WITHOUT_LOST && bytes[VERSION] == 2 && (0..8).all(|k| bytes[flag_at(k)] <= 1) {
        (0..8).for_each(|k| bytes[flag_at(k)] = 0);
        bytes[VERSION] = 3;
    }
    if bytes.len() == WITHOUT_LOST && bytes[VERSION] == 3 {
        bytes.push(0);
        bytes[VERSION] = 4;
    }
    if bytes.len() == WITHOUT_REFRESH && bytes[VERSION] == 4 {
        bytes.push(FIRST_REFRESH);
        bytes[VERSION] = 5;
    }
    bytes
}

/// One field's place in a scene.
pub struct Field {
    pub name: String,
    pub offset: usize,
    pub size: usize,
    pub sort: Sort,
}

/// What the bytes of a field may be.
#[derive(Clone, Copy, PartialEq, Eq)]
pub enum Sort {
    Number,
    Signed,
    Flag,
    Mode,
    Place,
    Zero,
}

impl Sort {
    pub fn word(self) -> &'static str {
        match self {
            Sort::Number => "number",
            Sort::Signed => "signed",
            Sort::Flag => "flag",
            Sort::Mode => "mode",
            Sort::Place => "place",
            Sort::Zero => "zero",
        }
    }
}

/// All fields in order, from the byte after the head.
pub fn fields() -> Vec<Field> {
    let mut names = Names { fields: Vec::new(), at: HEAD.len() };
    State::default().visit(&mut names);
    assert_eq!(names.at, SCENE);
    names.fields
}

struct Writer {
    bytes: [u8; SCENE],
    at: usize,
}

impl Writer {
    fn put(&mut self, bytes: &[u8]) {
        self.bytes[self.at..self.at + bytes.len()].copy_from_slice(bytes);
        self.at += bytes.len();
    }
}

impl Visit for Writer {
    fn byte(&mut self, _: Name, field: &mut u8) {
        self.put(&[*field]);
    }
    fn word(&mut self, _: Name, field: &mut u16) {
        self.put(&field.to_le_bytes());
    }
    fn long(&mut self, _: Name, field: &mut u32) {
        self.put(&field.to_le_bytes());
    }
    fn clock(&mut self, _: Name, field: &mut i64) {
        self.put(&field.to_le_bytes());
    }
    fn counter(&mut self, _: Name, field: &mut i8) {
        self.put(&field.to_le_bytes());
    }
    fn flag(&mut self, _: Name, field: &mut bool) {
        self.put(&[*field as u8]);
    }
    fn mode(&mut self, _: Name, field: &mut u8) {
        self.put(&[*field]);
    }
    fn place(&mut self, _: Name, field: &mut Option<u8>) {
        self.put(&[field.unwrap_or(NOTHING_PENDING)]);
    }
    fn zero(&mut self, _: Name) {
        self.put(&[0]);
    }
}

struct Reader<'a> {
    bytes: &'a [u8],
    at: usize,
    sound: bool,
}

impl Reader<'_> {
    fn get<const N: usize>(&mut self) -> [u8; N] {
        let part = self.bytes[self.at..self.at + N].try_into().expect("the part has this length");
        self.at += N;
        part
    }
}

impl Visit for Reader<'_> {
    fn byte(&mut self, _: Name, field: &mut u8) {
        [*field] = self.get();
    }
    fn word(&mut self, _: Name, field: &mut u16) {
        *field = u16::from_le_bytes(self.get());
    }
    fn long(&mut self, _: Name, field: &mut u32) {
        *field = u32::from_le_bytes(self.get());
    }
    fn clock(&mut self, _: Name, field: &mut i64) {
        *field = i64::from_le_bytes(self.get());
    }
    fn counter(&mut self, _: Name, field: &mut i8) {
        *field = i8::from_le_bytes(self.get());
    }
    fn flag(&mut self, _: Name, field: &mut bool) {
        let [byte] = self.get();
        self.sound &= byte <= 1;
        *field = byte == 1;
    }
    fn mode(&mut self, _: Name, field: &mut u8) {
        let [byte] = self.get();
        self.sound &= byte <= 7;
        *field = byte;
    }
    fn place(&mut self, _: Name, field: &mut Option<u8>) {
        let [byte] = self.get();
        self.sound &= byte == NOTHING_PENDING || byte <= 39;
        *field = (byte != NOTHING_PENDING).then_some(byte);
    }
    fn zero(&mut self, _: Name) {
        let [byte] = self.get();
        self.sound &= byte == 0;
    }
}

struct Names {
    fields: Vec<Field>,
    at: usize,
}

impl Names {
    fn add(&mut self, (before, index, after): Name, size: usize, sort: Sort) {
        let index = index.map_or(String::new(), |k| k.to_string());
        self.fields.push(Field { name: format!("{before}{index}{after}"), offset: self.at, size, sort });
        self.at += size;
    }
}

impl Visit for Names {
    fn byte(&mut self, name: Name, _: &mut u8) {
        self.add(name, 1, Sort::Number);
    }
    fn word(&mut self, name: Name, _: &mut u16) {
        self.add(name, 2, Sort::Number);
    }
    fn long(&mut self, name: Name, _: &mut u32) {
        self.add(name, 4, Sort::Number);
    }
    fn clock(&mut self, name: Name, _: &mut i64) {
        self.add(name, 8, Sort::Signed);
    }
    fn counter(&mut self, name: Name, _: &mut i8) {
        self.add(name, 1, Sort::Signed);
    }
    fn flag(&mut self, name: Name, _: &mut bool) {
        self.add(name, 1, Sort::Flag);
    }
    fn mode(&mut self, name: Name, _: &mut u8) {
        self.add(name, 1, Sort::Mode);
    }
    fn place(&mut self, name: Name, _: &mut Option<u8>) {
        self.add(name, 1, Sort::Place);
    }
    fn zero(&mut self, name: Name) {
        self.add(name, 1, Sort::Zero);
    }
}
