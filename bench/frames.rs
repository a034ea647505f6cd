//! Frames made up from a random source: of every kind, and damaged.

/// xorshift64*, which is enough to make frames.
pub struct Random(u64);

impl Random {
    pub fn new(seed: u64) -> Random {
        Random(seed | 1)
    }

    pub fn next(&mut self) -> u64 {
        self.0 ^= self.0 >> 12;
        self.0 ^= self.0 << 25;
        self.0 ^= self.0 >> 27;
        self.0.wrapping_mul(0x2545_F491_4F6C_DD1D)
    }

    /// A number below `n`.
    pub fn below(&mut self, n: u64) -> u64 {
        (self.next() >> 11) % n
    }

    pub fn one_in(&mut self, n: u64) -> bool {
        self.below(n) == 0
    }

    fn byte(&mut self) -> u8 {
        (self.next() >> 56) as u8
    }

    pub fn bytes(&mut self, n: usize) -> Vec<u8> {
        (0..n).map(|_| self.byte()).collect()
    }
}

#[derive(Clone, Copy, Debug, PartialEq, Eq)]
pub enum Kind {
    Udp,
    Tcp,
    TaggedUdp,
    TaggedTcp,
    First,
    Later,
    Icmp,
    Arp,
    Ipv6,
    Length,
    Broken,
}

pub const KINDS: [Kind; 11] = [
    Kind::Udp,
    Kind::Tcp,
    Kind::TaggedUdp,
    Kind::TaggedTcp,
    Kind::First,
    Kind::Later,
    Kind::Icmp,
    Kind::Arp,
    Kind::Ipv6,
    Kind::Length,
    Kind::Broken,
];

impl Kind {
    /// A kind, about as often as a switch sees it.
    pub fn mixed(r: &mut Random) -> Kind {
        match r.below(100) {
            0..30 => Kind::Udp,
            30..62 => Kind::Tcp,
            62..72 => Kind::TaggedUdp,
            72..82 => Kind::TaggedTcp,
            82..85 => Kind::First,
            85..88 => Kind::Later,
            88..90 => Kind::Icmp,
            90..94 => Kind::Arp,
            94..96 => Kind::Ipv6,
            96..97 => Kind::Length,
            _ => Kind::Broken,
        }
    }
}

fn addresses(r: &mut Random) -> Vec<u8> {
    r.bytes(12)
}

fn with_type(r: &mut Random, tagged: bool, kind: u16) -> Vec<u8> {
    let mut f = addresses(r);
    if tagged {
        f.extend([0x81, 0x00]);
        f.extend(r.bytes(2));
    }
    f.extend(kind.to_be_bytes());
    f
}

fn ipv4(r: &mut Random, f: &mut Vec<u8>, proto: u8, frag: u16, payload: &[u8]) {
    let options = if r.one_in(20) { 4 * r.below(11) as usize } else { 0 };
    let total = (20 + options + payload.len()) as u16;
    f.push(0x45 + (options / 4) as u8);
    f.push(r.byte());
    f.extend(total.to_be_bytes());
    f.extend(r.bytes(2));
    f.extend(frag.to_be_bytes());
    f.push(r.byte());
    f.push(proto);
    f.extend(r.bytes(10 + options));
    f.extend(payload);
}

fn transport(r: &mut Random, proto: u8) -> Vec<u8> {
    let least = if proto == 6 { 20 } else { 8 };
    let n = least + r.below(60) as usize;
    r.bytes(n)
}

fn pad(f: &mut Vec<u8>) {
    while f.len() < 60 {
        f.push(0);
    }
}

/// A frame of a kind.
pub fn frame(r: &mut Random, kind: Kind) -> Vec<u8> {
    let tagged = matches!(kind, Kind::TaggedUdp | Kind::TaggedTcp);
    let mut f;
    match kind {
        Kind::Udp | Kind::TaggedUdp => {
            f = with_type(r, tagged, 0x0800);
            let t = transport(r, 17);
            ipv4(r, &mut f, 17, 0x4000, &t);
        }
        Kind::Tcp | Kind::TaggedTcp => {
            f = with_type(r, tagged, 0x0800);
            let t = transport(r, 6);
            ipv4(r, &mut f, 6, 0x4000, &t);
        }
        Kind::First | Kind::Later => {
            f = with_type(r, false, 0x0800);
            let proto = if r.one_in(2) { 6 } else { 17 };
            let t = transport(r, proto);
            let frag = if kind == Kind::First { 0x2000 } else { 1 + r.below(0x3FFF) as u16 };
            ipv4(r, &mut f, proto, frag, &t);
        }
        Kind::Icmp => {
            f = with_type(r, false, 0x0800);
            let t = transport(r, 1);
            ipv4(r, &mut f, 1, 0, &t);
        }
        Kind::Arp => {
            f = with_type(r, false, 0x0806);
            f.extend(r.bytes(28));
        }
        Kind::Ipv6 => {
            f = with_type(r, false, 0x86DD);
            f.extend(r.bytes(60));
        }
        Kind::Length => {
            let n = r.below(0x0600) as u16;
            f = with_type(r, false, n);
            f.extend(r.bytes(46));
        }
        Kind::Broken => {
            let whole = KINDS[r.below(7) as usize];
            f = frame(r, whole);
            damage(r, &mut f);
            return f;
        }
    }
    pad(&mut f);
    f
}

/// Spoils a frame: cuts it, changes bytes, or puts odd values where the headers' lengths and types are.
pub fn damage(r: &mut Random, f: &mut Vec<u8>) {
    for _ in 0..1 + r.below(3) {
        match r.below(6) {
            0 => f.truncate(r.below(f.len() as u64 + 1) as usize),
            1 => f.truncate(r.below(64) as usize),
            2 => change(r, f, 70),
            3 => change(r, f, 40),
            4 => put(r, f, 12),
            _ => put(r, f, 14),
        }
    }
}

fn change(r: &mut Random, f: &mut [u8], most: usize) {
    let n = f.len().min(most);
    if n > 0 {
        f[r.below(n as u64) as usize] = r.byte();
    }
}

fn put(r: &mut Random, f: &mut [u8], from: usize) {
    let odd = [0x81, 0x00, 0x08, 0x05, 0x06, 0x45, 0x46, 0x4F, 0x40, 0x44, 0x55, 0x11, 0x20, 0x14, 0x1C, 0x28];
    let at = from + r.below(16) as usize;
    if at < f.len() {
        f[at] = odd[r.below(odd.len() as u64) as usize];
    }
}

/// Any frame at all: of a kind and sound, damaged, or bytes without sense; sometimes long.
pub fn any(r: &mut Random) -> Vec<u8> {
    match r.below(16) {
        0 => {
            let n = r.below(80) as usize;
            r.bytes(n)
        }
        1 => {
            let mut f = with_type(r, r.0 & 0x100 != 0, 0x0800);
            let n = r.below(64) as usize;
            f.extend(r.bytes(n));
            f
        }
        2 if r.one_in(64) => {
            let kind = KINDS[r.below(10) as usize];
            let mut f = frame(r, kind);
            f.resize(9200 + r.below(32) as usize, 0);
            f
        }
        3..8 => {
            let kind = KINDS[r.below(11) as usize];
            let mut f = frame(r, kind);
            damage(r, &mut f);
            f
        }
        _ => {
            let kind = KINDS[r.below(11) as usize];
            frame(r, kind)
        }
    }
}
