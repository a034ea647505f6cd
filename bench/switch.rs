//! A plain Rust switch over linear tables that does what the program does with `frames`, to compare and to measure.
//!
//!     switch make DIR FRAMES     writes DIR/frames.pcap and the scripts DIR/rules-1.txt, -8 and -64
//!     switch run RULES PCAP      prints what the program prints for such a script
#[allow(dead_code)]
mod plain;

use std::fs::File;
use std::io::{BufReader, BufWriter, Read, Write};

const PORT: u16 = 5;

#[derive(Clone)]
struct Rule {
    priority: u16,
    id: u32,
    mask: [u8; 36],
    value: [u8; 36],
    ports: u64,
    next: u16,
    count: u64,
}

/// Four tables, each with its rules by falling priority, then rising id.
struct Switch {
    tables: [Vec<Rule>; 4],
    frames: u64,
}

impl Switch {
    fn new() -> Switch {
        Switch { tables: [const { Vec::new() }; 4], frames: 0 }
    }

    fn add(&mut self, table: usize, rule: Rule) {
        let rules = &mut self.tables[table];
        let at = rules.partition_point(|r| (std::cmp::Reverse(r.priority), r.id) < (std::cmp::Reverse(rule.priority), rule.id));
        rules.insert(at, rule);
    }

    /// The ports of the walk, with the union of the masks looked at, as a level gives it.
    #[inline(never)]
    fn decide(&mut self, key: &[u8; 36]) -> (u64, [u8; 36]) {
        let (mut ports, mut mask, mut table) = (0, [0u8; 36], 0usize);
        for _ in 0..4 {
            let mut found = None;
            for rule in self.tables[table].iter_mut() {
                let mut differ = 0;
                for i in 0..36 {
                    mask[i] |= rule.mask[i];
                    differ |= (rule.mask[i] & key[i]) ^ rule.value[i];
                }
                if differ == 0 {
                    found = Some(rule);
                    break;
                }
            }
            let Some(rule) = found else { break };
            rule.count = rule.count.wrapping_add(1);
            ports |= rule.ports;
            if rule.next == 0 {
                break;
            }
            table = usize::from(rule.next);
        }
        self.frames = self.frames.wrapping_add(1);
        (ports, mask)
    }
}

/// Rule i sends 10.0.i.0/24 to one port; the frames go to 64 such networks.
fn rule(i: u32) -> Rule {
    let (mut mask, mut value) = ([0; 36], [0; 36]);
    mask[14..16].fill(255);
    value[14] = 8;
    mask[28..31].fill(255);
    value[28] = 10;
    value[30] = i as u8;
    Rule { priority: 100 + (i * 7 % 64) as u16, id: i + 1, mask, value, ports: 1 << (1 + i % 63), next: 0, count: 0 }
}

fn script(rules: u32) -> String {
    let mut text = String::new();
    for i in 0..rules {
        let r = rule(i);
        let port = r.ports.trailing_zeros();
        text += &format!("add table=0 id={} priority={} dl_type=0x0800 nw_dst=10.0.{i}.0/24 ports={port}\n", r.id, r.priority);
    }
    text
}

/// A UDP frame of 64 bytes to 10.0.NET.HOST.
fn udp(net: u8, host: u8) -> Vec<u8> {
    let mut f = vec![2, 0, 0, 0, 0, 2, 2, 0, 0, 0, 0, 1, 8, 0];
    f.extend([0x45, 0, 0, 50, 0, 1, 0, 0, 64, 17, 0, 0, 10, 9, 9, 9, 10, 0, net, host, 0, 53, 18, 52, 0, 30, 0, 0]);
    f.resize(64, 0);
    f
}

fn make(dir: &str, frames: u32) -> std::io::Result<()> {
    let mut out = BufWriter::new(File::create(format!("{dir}/frames.pcap"))?);
    out.write_all(&[0xd4, 0xc3, 0xb2, 0xa1, 2, 0, 4, 0, 0, 0, 0, 0, 0, 0, 0, 0, 0, 0, 4, 0, 1, 0, 0, 0])?;
    let mut x = 1u32;
    for _ in 0..frames {
        x = x.wrapping_mul(1_664_525).wrapping_add(1_013_904_223);
        out.write_all(&[0, 0, 0, 0, 0, 0, 0, 0, 64, 0, 0, 0, 64, 0, 0, 0])?;
        out.write_all(&udp((x >> 20) as u8 % 64, (x >> 8) as u8))?;
    }
    for rules in [1, 8, 64] {
        let text = script(rules) + &format!("frames {PORT} {dir}/frames.pcap\n");
        std::fs::write(format!("{dir}/rules-{rules}.txt"), text)?;
    }
    Ok(())
}

fn run(rules: u32, pcap: &str) -> std::io::Result<()> {
    let (mut a, mut b) = (Switch::new(), Switch::new());
    let mut out = BufWriter::with_capacity(1 << 16, std::io::stdout().lock());
    for i in 0..rules {
        a.add(0, rule(i));
        b.add(0, rule(i));
        writeln!(out, "{} add: ok", i + 1)?;
    }
    let mut file = BufReader::new(File::open(pcap)?);
    let mut head = [0; 24];
    file.read_exact(&mut head)?;
    let (mut record, mut frame, mut n) = ([0; 16], vec![0; 65536], 0u64);
    while file.read_exact(&mut record).is_ok() {
        let len = u32::from_le_bytes([record[8], record[9], record[10], record[11]]) as usize;
        file.read_exact(&mut frame[..len])?;
        n += 1;
        let key = plain::read(PORT, &frame[..len]).unwrap();
        let (ports, _) = a.decide(&key);
        assert_eq!(ports, b.decide(&key).0);
        write!(out, "{}.{n} frame: ports=", rules + 1)?;
        if ports == 0 {
            write!(out, "none")?;
        }
        let mut first = true;
        for p in (1..64).filter(|p| ports >> p & 1 == 1) {
            write!(out, "{}{p}", if first { "" } else { "," })?;
            first = false;
        }
        writeln!(out, " depth=A:1,B:1")?;
    }
    Ok(())
}

fn main() -> std::io::Result<()> {
    let args: Vec<String> = std::env::args().collect();
    match args.iter().map(String::as_str).collect::<Vec<_>>()[1..] {
        ["make", dir, frames] => make(dir, frames.parse().unwrap()),
        ["run", rules, pcap] => run(rules.parse().unwrap(), pcap),
        _ => panic!("switch make DIR FRAMES | switch run RULES PCAP"),
    }
}
