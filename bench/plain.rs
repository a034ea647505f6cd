//! A frame reader in plain Rust, with the same checks as the proved one.

pub const KEY: usize = 36;

/// Why a frame is not read.
#[derive(Clone, Copy, Debug, PartialEq, Eq)]
pub enum Fault {
    InPort,
    Short,
    Long,
    ShortTagged,
}

impl Fault {
    pub fn number(self) -> u8 {
        match self {
            Fault::InPort => 1,
            Fault::Short => 2,
            Fault::Long => 3,
            Fault::ShortTagged => 4,
        }
    }
}

fn word(bytes: &[u8], at: usize) -> u16 {
    u16::from_be_bytes([bytes[at], bytes[at + 1]])
}

/// Fills the last 18 bytes of the key from the bytes behind the type word, if they hold a sound IPv4 header.
fn read_ipv4(net: &[u8], key: &mut [u8; KEY]) {
    if net.len() < 20 || net[0] >> 4 != 4 {
        return;
    }
    let header = usize::from(net[0] & 0x0F) * 4;
    let total = usize::from(word(net, 2));
    if header < 20 || total < header || total > net.len() {
        return;
    }
    let frag = word(net, 6);
    key[18] = if frag & 0x1FFF != 0 {
        3
    } else if frag & 0x2000 != 0 {
        1
    } else {
        0
    };
    key[19] = net[9];
    key[20] = net[1];
    key[21] = net[8];
    key[24..32].copy_from_slice(&net[12..20]);
    if key[18] == 3 {
        return;
    }
    let transport = &net[header..total];
    match net[9] {
        6 if transport.len() >= 20 => {
            key[32..36].copy_from_slice(&transport[0..4]);
            key[22] = transport[12] & 0x0F;
            key[23] = transport[13];
        }
        17 if transport.len() >= 8 => key[32..36].copy_from_slice(&transport[0..4]),
        _ => {}
    }
}

/// The key of a frame that came in at a port.
pub fn read(in_port: u16, frame: &[u8]) -> Result<[u8; KEY], Fault> {
    if !(1..=63).contains(&in_port) {
        return Err(Fault::InPort);
    }
    if frame.len() < 14 {
        return Err(Fault::Short);
    }
    if frame.len() > 9216 {
        return Err(Fault::Long);
    }
    let mut kind = word(frame, 12);
    let mut net = &frame[14..];
    let mut key = [0; KEY];
    if kind == 0x8100 {
        if frame.len() < 18 {
            return Err(Fault::ShortTagged);
        }
        key[16..18].copy_from_slice(&(word(frame, 14) | 0x1000).to_be_bytes());
        kind = word(frame, 16);
        net = &frame[18..];
    }
    key[0..2].copy_from_slice(&in_port.to_be_bytes());
    key[2..14].copy_from_slice(&frame[0..12]);
    let shown = if kind < 0x0600 { 0x05FF } else { kind };
    key[14..16].copy_from_slice(&shown.to_be_bytes());
    if kind == 0x0800 {
        read_ipv4(net, &mut key);
    }
    Ok(key)
}

/// The same under the signature of the proved reader's export.
///
/// # Safety
/// The pointers are good for their lengths, and the key's is not shared.
#[inline(never)]
pub unsafe extern "C" fn plain_key(in_port: u16, frame: *const u8, len: usize, key: *mut u8, key_len: usize) -> u8 {
    let frame = unsafe { std::slice::from_raw_parts(frame, len) };
    let out = unsafe { std::slice::from_raw_parts_mut(key, key_len) };
    if out.len() != KEY {
        return 255;
    }
    match read(in_port, frame) {
        Ok(key) => {
            out.copy_from_slice(&key);
            0
        }
        Err(fault) => fault.number(),
    }
}
