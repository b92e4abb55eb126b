//! What the calls are run on: all short inputs, every length round each boundary, good ones, and damaged copies of good ones.

use crate::calls::Call;
use crate::sink::Sink;

const KINDS: [u8; 11] = [1, 2, 3, 4, 128, 129, 133, 134, 135, 136, 137];

/// Lengths near which something changes: the fixed parts, the largest option, usual limits of packets, the largest packet.
const EDGES: [usize; 10] = [8, 16, 32, 40, 72, 1280, 2040, 2048, 4096, 65527];

/// xorshift64, from a fixed start: every run makes the same inputs.
pub struct Random(u64);

impl Random {
    fn next(&mut self) -> u64 {
        self.0 ^= self.0 << 13;
        self.0 ^= self.0 >> 7;
        self.0 ^= self.0 << 17;
        self.0
    }
    fn below(&mut self, n: usize) -> usize {
        (self.next() % n as u64) as usize
    }
    fn pick<T: Copy>(&mut self, of: &[T]) -> T {
        of[self.below(of.len())]
    }
    fn byte(&mut self) -> u8 {
        self.next() as u8
    }
    fn bytes(&mut self, n: usize) -> Vec<u8> {
        (0..n).map(|_| self.byte()).collect()
    }
    /// A length near an edge, or short.
    fn length(&mut self) -> usize {
        if self.below(4) == 0 {
            return self.below(80);
        }
        let edge = self.pick(&EDGES);
        (edge + self.below(18)).saturating_sub(9).min(65535)
    }
    /// One byte changed, some cut off, or some added.
    fn damage(&mut self, good: &[u8]) -> Vec<u8> {
        let mut bad = good.to_vec();
        match self.below(4) {
            0 => bad.truncate(self.below(good.len() + 1)),
            1 => {
                let more = self.pick(&[1, 2, 8, 9]);
                bad.extend(self.bytes(more));
            }
            _ if bad.is_empty() => {}
            2 => {
                let i = self.below(bad.len().min(8));
                bad[i] = self.pick(&[0, 1, 2, 3, 4, 5, 6, 8, 64, 128, 255]);
            }
            _ => {
                let i = self.below(bad.len());
                bad[i] = self.byte();
            }
        }
        bad.truncate(65535);
        bad
    }
}

fn packet_calls(sink: &mut Sink, packet: &[u8]) {
    for call in [Call::Packet, Call::Type, Call::PayloadOfPacket] {
        sink.run(call, packet);
    }
}

fn payload_calls(sink: &mut Sink, payload: &[u8]) {
    sink.run(Call::AdvertPayload, payload);
    sink.run(Call::RedirectPayload, payload);
}

/// A walk; and the whole list counted and looked through, where every reader that it comes to is there.
fn list_calls(sink: &mut Sink, options: &[u8]) {
    sink.run(Call::Walk, options);
    if options.len() < 65535 && sink.further() {
        sink.run(Call::Count, options);
        let wanted = options.len() as u8 % 3 + 4;
        sink.run(Call::HasType, &[&[wanted], options].concat());
    }
}

fn reader_calls(sink: &mut Sink, option: &[u8]) {
    for call in [
        Call::OptionHeaderFromSlice,
        Call::PrefixFromSlice,
        Call::Mtu,
        Call::RedirectedHeader,
    ] {
        sink.run(call, option);
    }
    if option.len() == 32 {
        sink.run(Call::PrefixFromBytes, option);
    }
}

/// Lines of published.txt: a call, the input in hexadecimal, and the numbers of the answer; `#` begins a remark.
pub fn published(sink: &mut Sink, text: &str) {
    for line in text.lines() {
        let line = line.split('#').next().unwrap();
        if line.trim().is_empty() {
            continue;
        }
        let [call, input, answer] = line.split('|').collect::<Vec<_>>()[..] else {
            panic!("{line}")
        };
        let digits: String = input.split_whitespace().collect();
        let bytes: Vec<u8> = (0..digits.len())
            .step_by(2)
            .map(|i| u8::from_str_radix(&digits[i..i + 2], 16).unwrap())
            .collect();
        let numbers = answer.split_whitespace().map(|n| n.parse().unwrap()).collect();
        let call = Call::from_number(call.trim().parse().unwrap()).unwrap();
        sink.published(call, &bytes, numbers);
    }
}

pub fn all(sink: &mut Sink) {
    short(sink);
    lists(sink);
    heads(sink);
    values(sink);
    lengths(sink);
    readers(sink);
    prefixes(sink);
    walks(sink);
}

/// Every input of no, one and two bytes, to every call that takes any.
fn short(sink: &mut Sink) {
    let run = |sink: &mut Sink, input: &[u8]| {
        if sink.wants() {
            packet_calls(sink, input);
            payload_calls(sink, input);
            reader_calls(sink, input);
            list_calls(sink, input);
        }
    };
    sink.every(1);
    run(sink, &[]);
    sink.every(37);
    for a in 0..=255 {
        run(sink, &[a]);
    }
    sink.every(2053);
    for a in 0..=255 {
        for b in 0..=255 {
            run(sink, &[a, b]);
        }
    }
    sink.every(2048);
    for a in 0..=255 {
        for b in 0..=255 {
            if sink.wants() {
                sink.run(Call::OptionHeaderBytes, &[a, b]);
            }
        }
    }
}

const TYPES: [u8; 8] = [1, 2, 3, 4, 5, 6, 0, 255];
const UNITS: [u8; 4] = [0, 1, 2, 4];

/// An option whose body is its own places, so that two options differ in their bytes.
fn option(list: &mut Vec<u8>, id: u8, units: u8) {
    let from = list.len();
    list.extend([id, units]);
    while list.len() < from + 8 * units as usize {
        list.push(list.len() as u8);
    }
}

/// The options that a sample puts before others. After each of them the excerpt goes on: its reader is there and takes it.
const OPEN: [(u8, u8); 3] = [(4, 1), (4, 2), (5, 1)];

/// All lists of up to three options over the types and units above, each whole, cut short by one byte and by seven, and with one, two and eight bytes more.
/// A sample keeps those in which the excerpt's answer depends on the last option and on what is behind it: all before are of the three above.
fn lists(sink: &mut Sink) {
    fn extend(sink: &mut Sink, list: &[u8], kept: bool, open: bool, more_options: usize) {
        let mut walks = |kept: bool, tailed: &[Vec<u8>]| {
            sink.every(kept as u64);
            for list in tailed {
                if sink.wants() {
                    list_calls(sink, list);
                }
            }
        };
        let cut = |n: usize| list[..list.len() - n.min(list.len())].to_vec();
        let more = |tail: &[u8]| [list, tail].concat();
        walks(kept, &[list.to_vec(), cut(1), cut(7)]);
        walks(open, &[more(&[5]), more(&[5, 0]), more(&[5, 1, 0, 0, 0, 0, 5, 0])]);
        if more_options == 0 {
            return;
        }
        for id in TYPES {
            for units in UNITS {
                let mut longer = list.to_vec();
                option(&mut longer, id, units);
                let goes_on = open && OPEN.contains(&(id, units));
                extend(sink, &longer, open, goes_on, more_options - 1);
            }
        }
    }
    extend(sink, &[], true, true, 3);
}

/// Every type with every code, and the bits of the known types.
fn heads(sink: &mut Sink) {
    let mut random = Random(0x0b0b_1a55);
    let mut packet = |kind: u8, code: u8, len: usize| {
        let mut packet = random.bytes(8 + len);
        packet[0] = kind;
        packet[1] = code;
        packet
    };
    sink.every(499);
    for kind in 0..=255 {
        for code in 0..=255 {
            if sink.wants() {
                packet_calls(sink, &packet(kind, code, 0));
                packet_calls(sink, &packet(kind, code, (kind ^ code) as usize % 49));
            }
        }
    }
    for kind in KINDS {
        for code in [0, 1, 255] {
            sink.every(50);
            for len in 0..=100 {
                if sink.wants() {
                    packet_calls(sink, &packet(kind, code, len));
                }
            }
        }
    }
    sink.every(61);
    for byte in 4..8 {
        for value in 0..=255 {
            for kind in [2, 128, 133, 134, 135, 136, 137] {
                let mut one = packet(kind, 0, 0);
                one[byte] = value;
                if sink.wants() {
                    packet_calls(sink, &one);
                }
            }
        }
    }
}

/// Type values, written and dispatched, and the four bytes of an advertisement.
fn values(sink: &mut Sink) {
    let mut random = Random(0x0ff1_ce5e);
    let mut run = |sink: &mut Sink, value: [u8; 7]| {
        if sink.wants() {
            let len = random.pick(&[0, 0, 7, 8, 9, 15, 16, 31, 32, 33, 64]);
            let checksum = random.bytes(2);
            let payload = random.bytes(len);
            sink.run(Call::HeaderToBytes, &[&value[..], &checksum].concat());
            sink.run(Call::PayloadOfType, &[&value[..], &payload].concat());
        }
    };
    let mut bits = Random(0xfeed_beef);
    sink.every(997);
    for kind in 0..=255 {
        for code in 0..=255 {
            let b = bits.bytes(4);
            run(sink, [0, kind, code, b[0], b[1], b[2], b[3]]);
        }
    }
    sink.every(100);
    for _ in 0..10000 {
        let kind = bits.pick(&[2, 133, 134, 134, 135, 137]);
        let b = bits.bytes(4);
        run(
            sink,
            match kind {
                2 => [2, 0, 0, b[0], b[1], b[2], b[3]],
                134 => [134, b[0], bits.byte() & 1, bits.byte() & 1, b[1], b[2], 0],
                _ => [kind, 0, 0, 0, 0, 0, 0],
            },
        );
    }
    sink.every(300);
    for flags in 0..=255 {
        for _ in 0..64 {
            let b = bits.bytes(4);
            if sink.wants() {
                sink.run(Call::AdvertFromBytes, &[b[0], flags, b[2], b[3]]);
                sink.run(Call::AdvertToBytes, &[b[0], flags >> 7, flags >> 6 & 1, b[2], b[3]]);
            }
        }
    }
}

/// Random bytes of every length round each edge, as packets of each kind and as payloads.
fn lengths(sink: &mut Sink) {
    let mut random = Random(0xacce_55ed);
    let near = |edge: usize| edge.saturating_sub(9)..=(edge + 8).min(65535);
    for edge in EDGES {
        sink.every(if edge < 100 { 23 } else { 0 });
        for len in near(edge) {
            for kind in [2, 128, 133, 134, 135, 136, 137, 200] {
                for code in [0, 1] {
                    let mut packet = random.bytes(len);
                    if len >= 2 {
                        packet[0] = kind;
                        packet[1] = code;
                    }
                    if sink.wants() {
                        packet_calls(sink, &packet);
                        payload_calls(sink, &packet);
                    }
                }
            }
        }
    }
    sink.every(0);
    for _ in 0..10000 {
        let len = random.length();
        let mut packet = random.bytes(len);
        if len >= 2 {
            packet[0] = random.pick(&KINDS);
            packet[1] = random.pick(&[0, 0, 0, 1, 7]);
        }
        if sink.wants() {
            packet_calls(sink, &packet);
            payload_calls(sink, &packet);
        }
    }
}

/// The readers of one option: every type and unit count with every size near the one that fits, and every length round each edge.
fn readers(sink: &mut Sink) {
    let mut random = Random(0x0dd5_0dd5);
    for id in 0..=255 {
        sink.every(if id < 8 { 607 } else { 0 });
        for units in 0..=255 {
            let whole = 8 * units as usize;
            let sizes = if id < 8 {
                vec![2, 8, 32, whole, whole + 1]
            } else {
                vec![8, 32]
            };
            for size in sizes {
                let mut one = random.bytes(size.max(2));
                one[0] = id;
                one[1] = units;
                if sink.wants() {
                    reader_calls(sink, &one);
                }
            }
        }
    }
    for edge in EDGES {
        sink.every(if edge < 100 { 31 } else { 0 });
        for len in edge.saturating_sub(9)..=(edge + 8).min(65535) {
            for id in [0, 3, 4, 5, 255] {
                for units in [0, 1, 4, 5, (len / 8) as u8] {
                    let mut one = random.bytes(len.max(2));
                    one[0] = id;
                    one[1] = units;
                    if sink.wants() {
                        reader_calls(sink, &one);
                    }
                }
            }
        }
    }
    sink.every(250);
    for _ in 0..20000 {
        let (id, units) = random.pick(&[(3, 4), (4, 1), (4, 2), (4, 9), (5, 1)]);
        let mut good = random.bytes(8 * units as usize);
        good[0] = id;
        good[1] = units;
        let bad = random.damage(&good);
        if sink.wants() {
            reader_calls(sink, &good);
            reader_calls(sink, &bad);
        }
    }
}

/// Prefix options: every prefix length, every flag byte, random fields; and values to write.
fn prefixes(sink: &mut Sink) {
    let mut random = Random(0x2001_0db8);
    sink.every(60);
    for byte in [2, 3] {
        for value in 0..=255 {
            let mut good = random.bytes(32);
            good[..2].copy_from_slice(&[3, 4]);
            good[byte] = value;
            if sink.wants() {
                sink.run(Call::PrefixFromSlice, &good);
                sink.run(Call::PrefixFromBytes, &good);
            }
        }
    }
    sink.every(400);
    for _ in 0..20000 {
        let mut v = random.bytes(27);
        v[1] &= 1;
        v[2] &= 1;
        if sink.wants() {
            sink.run(Call::PrefixToBytes, &v);
        }
    }
}

/// Lists of options whose readers are there, of every length; damaged copies; and other types among them.
fn walks(sink: &mut Sink) {
    let mut random = Random(0x4861_4861);
    let run = |sink: &mut Sink, random: &mut Random, limit: usize, strange: bool| {
        let mut list = vec![];
        while list.len() < limit {
            let (id, units) = match random.below(8) {
                0..=3 => (5, 1),
                4 | 5 => (4, 1 + random.below(3) as u8),
                6 => (4, random.pick(&[1, 2, 4, 64, 255])),
                _ if strange => (random.byte(), random.pick(&UNITS)),
                _ => (5, 1),
            };
            let from = list.len();
            list.extend(random.bytes(8 * units.max(1) as usize));
            list[from] = id;
            list[from + 1] = units;
        }
        list.truncate(65535);
        if sink.wants() {
            list_calls(sink, &list);
            list_calls(sink, &random.damage(&list));
        }
    };
    sink.every(150);
    for _ in 0..20000 {
        let limit = random.below(120);
        let strange = random.below(3) == 0;
        run(sink, &mut random, limit, strange);
    }
    sink.every(0);
    for _ in 0..3000 {
        let limit = random.length();
        run(sink, &mut random, limit, false);
    }
    for len in 65519..=65535 {
        let list: Vec<u8> = [5, 1, 0, 0, 0, 0, 5, 220].into_iter().cycle().take(len).collect();
        if sink.wants() {
            list_calls(sink, &list);
        }
    }
}

/// The packets of a capture (records of docs/RULES.md C1), their option lists, and each option by itself.
pub fn traffic(sink: &mut Sink, capture: &[u8]) {
    let mut rest = capture;
    sink.every(6);
    while let Some((head, after)) = rest.split_at_checked(37) {
        assert_eq!(&head[..2], b"I6");
        let (packet, next) = after.split_at(u16::from_be_bytes([head[35], head[36]]) as usize);
        rest = next;
        if !sink.wants() {
            continue;
        }
        packet_calls(sink, packet);
        let fixed = match packet[0] {
            134 => 16,
            137 => 40,
            _ => continue,
        };
        list_calls(sink, &packet[fixed..]);
    }
    assert!(rest.is_empty());
}
