//! The files that are timed.

/// Octets of the big frames' waveforms.
pub const WAVEFORM: usize = 16_000_000;
/// Items of the files that ask for much work with few octets, groups and what they hold.
pub const HOSTILE: usize = 100_000;
/// The most frames and channels that a file may have.
pub const FRAMES: u32 = 4096;
pub const CHANNELS: u32 = 256;

/// A definition of each attribute that a channel may have.
const ATTRIBUTES: [u8; 30] = [
    0x04, 1, 1, 0x08, 1, 1, 0x09, 1, 2, 0x0A, 1, 0, 0x0B, 4, 1, 0xFD, 0, 1, 0x0C, 4, 0, 0xF7, 3,
    0xE8, 0x0D, 0, 0x12, 2, 0x80, 0,
];

#[derive(Clone, Copy, PartialEq)]
pub enum Order {
    Big,
    Little,
}

/// One frame of one channel that fills the file.
pub fn one_frame(order: Order, data_type: u8) -> Vec<u8> {
    let mut file = vec![0x01, 1, (order == Order::Little).into(), 0x0A, 1, data_type];
    waveform(&mut file, WAVEFORM);
    file
}

/// One frame of twelve channels of two octets, with blocks of one length.
pub fn twelve_channels(block: u16) -> Vec<u8> {
    let mut file = vec![0x05, 1, 12, 0x04, 2];
    file.extend(block.to_be_bytes());
    waveform(&mut file, WAVEFORM);
    file
}

/// 4,096 frames of twelve channels, each with a group that sets all eight attributes: the canonical
/// form of as many short frames.
pub fn many_frames() -> Vec<u8> {
    let mut file = vec![0x05, 1, 12];
    for _ in 0..FRAMES {
        waveform(&mut file, 12 * 2 * 10);
    }
    let file = mfer::File::new(&file).canonical_vec();
    file.expect("an accepted file")
}

/// As many frames as there may be, of channels that groups set once in all eight attributes, with so
/// many sequences of one sample of two octets.
pub fn set_once(channels: u32, sequences: usize) -> Vec<u8> {
    set_channels(channels, sequences, |_| Vec::new())
}

/// The same, with a root definition before each frame.
pub fn set_once_and_root(channels: u32, sequences: usize) -> Vec<u8> {
    set_channels(channels, sequences, |frame| {
        vec![0x08, 1, 1 + (frame % 2) as u8]
    })
}

/// The fewest sequences of a frame with which as many frames as there may be come to the octets of a
/// big frame.
pub fn sequences(channels: u32) -> usize {
    WAVEFORM.div_ceil(FRAMES as usize * 2 * channels as usize)
}

fn set_channels(channels: u32, sequences: usize, before: impl Fn(u32) -> Vec<u8>) -> Vec<u8> {
    let mut file = vec![0x05, 2];
    file.extend((channels as u16).to_be_bytes());
    for channel in 0..channels {
        group(&mut file, channel, &ATTRIBUTES);
    }
    for frame in 0..FRAMES {
        file.extend(before(frame));
        waveform(&mut file, 2 * channels as usize * sequences);
    }
    file
}

/// One frame of eight channels of two octets, big-endian, with blocks of one sample.
pub fn eight_channels() -> Vec<u8> {
    let mut file = vec![0x05, 1, 8];
    waveform(&mut file, WAVEFORM);
    file
}

/// Two frames of twelve channels of two octets with blocks of one, each declared to have half the octets of a
/// big frame. The second ends in its middle, one octet into a sample.
pub fn cut_off(order: Order) -> Vec<u8> {
    let sequences = WAVEFORM / 2 / 24;
    let mut file = vec![0x01, 1, 0, 0x05, 1, 12, 0x06, 4];
    file.extend((sequences as u32).to_be_bytes());
    file.extend([0x01, 1, (order == Order::Little).into()]);
    waveform(&mut file, 24 * sequences);
    waveform(&mut file, 24 * (sequences / 2) + 2 * 7 + 1);
    file
}

/// Four octets of a frame that declares so many sequences of as many channels as there may be.
pub fn declared(sequences: u32) -> Vec<u8> {
    let mut file = vec![0x05, 2, 1, 0, 0x06, 4];
    file.extend(sequences.to_be_bytes());
    waveform(&mut file, 4);
    file
}

/// Items that are stepped over, of a few octets each.
pub fn unknown_items(count: usize) -> Vec<u8> {
    let items: [&[u8]; 4] = [
        &[0x02, 3, 1, 0, 0],
        &[0x16, 2, 0x41, 0x42],
        &[0x41, 1, 7],
        &[0x85, 4, 1, 2, 3, 4],
    ];
    repeated(&items, count)
}

/// Definitions of all kinds outside groups.
pub fn root_definitions(count: usize) -> Vec<u8> {
    let items: [&[u8]; 10] = [
        &[0x04, 1, 2],
        &[0x05, 1, 12],
        &[0x06, 1, 10],
        &[0x08, 1, 1],
        &[0x09, 1, 2],
        &[0x0A, 1, 0],
        &[0x0B, 4, 1, 0xFD, 0, 1],
        &[0x0C, 4, 0, 0xF7, 3, 0xE8],
        &[0x0D, 2, 0, 0],
        &[0x12, 2, 0x80, 0],
    ];
    repeated(&items, count)
}

/// Groups of eight definitions each, for twelve channels in turn.
pub fn group_items(count: usize) -> Vec<u8> {
    let mut file = vec![0x05, 1, 12];
    for group in 0..count / 8 {
        file.extend([0x3F, (group % 12) as u8, ATTRIBUTES.len() as u8]);
        file.extend(ATTRIBUTES);
    }
    file
}

/// A group of the highest channel and a root definition in turn: three items.
pub fn group_and_root() -> Vec<u8> {
    let mut file = vec![0x05, 2, 1, 0];
    file.extend([0x3F, 0x81, 0x7F, 3, 0x04, 1, 2, 0x04, 0].repeat(HOSTILE / 3));
    file
}

/// The same with definitions of all eight attributes in the group and at the root: 17 items.
pub fn full_group_and_root() -> Vec<u8> {
    let group = [0x3F, 0x81, 0x7F, ATTRIBUTES.len() as u8];
    let mut file = vec![0x05, 2, 1, 0];
    file.extend(
        [&group[..], &ATTRIBUTES, &ATTRIBUTES]
            .concat()
            .repeat(HOSTILE / 17),
    );
    file
}

/// A channel count and a group of the highest channel in turn: three items.
pub fn count_and_group() -> Vec<u8> {
    [0x05, 2, 1, 0, 0x3F, 0x81, 0x7F, 3, 0x04, 1, 2].repeat(HOSTILE / 3)
}

/// As many frames as there may be, of as many channels, which groups set once. A root definition
/// stands before each frame.
pub fn wide_frames() -> Vec<u8> {
    let mut file = vec![0x05, 2, 1, 0];
    for channel in 0..CHANNELS {
        group(&mut file, channel, &[0x0A, 1, 3]);
    }
    for frame in 0..FRAMES {
        file.extend([0x04, 1, 1 + (frame % 2) as u8]);
        waveform(&mut file, 2 * CHANNELS as usize);
    }
    file
}

/// A group of a channel, whose number takes two octets.
fn group(file: &mut Vec<u8>, channel: u32, items: &[u8]) {
    let number = [0x80 | (channel >> 7) as u8, (channel & 0x7F) as u8];
    file.extend([0x3F, number[0], number[1], items.len() as u8]);
    file.extend(items);
}

fn repeated(items: &[&[u8]], count: usize) -> Vec<u8> {
    items
        .iter()
        .cycle()
        .take(count)
        .copied()
        .flatten()
        .copied()
        .collect()
}

/// A waveform of so many octets, none like its neighbours.
fn waveform(file: &mut Vec<u8>, length: usize) {
    file.extend([0x1E, 0x84]);
    file.extend((length as u32).to_be_bytes());
    file.extend((0..length as u32).map(|number| (number.wrapping_mul(0x9E37_79B9) >> 24) as u8));
}
