//! The calls of the excerpt, each as the numbers of its answer (FORMAT.md): first the number of the refusal (docs/RULES.md N1 to N14), 0 for none.

use etherparse::err::LenError;
use etherparse::icmpv6::*;
use etherparse::{Icmpv6Header, Icmpv6Slice, Icmpv6Type};
use std::any::Any;
use std::panic::{catch_unwind, resume_unwind, AssertUnwindSafe};

#[derive(Clone, Copy, PartialEq)]
pub enum Call {
    Packet = 1,
    Type = 2,
    HeaderToBytes = 3,
    AdvertFromBytes = 4,
    AdvertToBytes = 5,
    OptionHeaderFromSlice = 6,
    OptionHeaderBytes = 7,
    PrefixFromSlice = 8,
    PrefixFromBytes = 9,
    PrefixToBytes = 10,
    Mtu = 11,
    RedirectedHeader = 12,
    Walk = 13,
    WalkToAbsent = 14,
    PayloadOfType = 15,
    PayloadOfTypeToAbsent = 16,
    PayloadOfPacket = 17,
    PayloadOfPacketToAbsent = 18,
    AdvertPayload = 19,
    RedirectPayload = 20,
    Count = 21,
    HasType = 22,
}

const CALLS: [Call; 22] = [
    Call::Packet,
    Call::Type,
    Call::HeaderToBytes,
    Call::AdvertFromBytes,
    Call::AdvertToBytes,
    Call::OptionHeaderFromSlice,
    Call::OptionHeaderBytes,
    Call::PrefixFromSlice,
    Call::PrefixFromBytes,
    Call::PrefixToBytes,
    Call::Mtu,
    Call::RedirectedHeader,
    Call::Walk,
    Call::WalkToAbsent,
    Call::PayloadOfType,
    Call::PayloadOfTypeToAbsent,
    Call::PayloadOfPacket,
    Call::PayloadOfPacketToAbsent,
    Call::AdvertPayload,
    Call::RedirectPayload,
    Call::Count,
    Call::HasType,
];

pub enum Answer {
    Told(Call, Vec<u64>),
    Absent(String),
}

/// Where a call stopped: the absent thing's name, and the length of what its reader was given.
pub struct Absent {
    what: String,
    len: u64,
}

pub fn absent(payload: &(dyn Any + Send)) -> Option<Absent> {
    let text = match payload.downcast_ref::<String>() {
        Some(text) => text.as_str(),
        None => payload.downcast_ref::<&str>()?,
    };
    let mut words = text.strip_prefix("absent ")?.split(' ');
    Some(Absent {
        what: words.next()?.to_string(),
        len: words.next().map_or(0, |n| n.parse().unwrap()),
    })
}

/// Runs a part of the excerpt up to its answer or to an absent file; any other panic goes on.
fn stops<T>(run: impl FnOnce() -> T) -> Result<T, Absent> {
    catch_unwind(AssertUnwindSafe(run)).map_err(|payload| match absent(&*payload) {
        Some(at) => at,
        None => resume_unwind(payload),
    })
}

impl Call {
    pub fn from_number(n: u8) -> Option<Call> {
        CALLS.into_iter().find(|call| *call as u8 == n)
    }

    pub fn name(self) -> &'static str {
        match self {
            Call::Packet => "Icmpv6Slice",
            Call::Type => "Icmpv6Slice::icmp_type",
            Call::HeaderToBytes => "Icmpv6Header::to_bytes",
            Call::AdvertFromBytes => "RouterAdvertisementHeader::from_bytes",
            Call::AdvertToBytes => "RouterAdvertisementHeader::to_bytes",
            Call::OptionHeaderFromSlice => "NdpOptionHeader::from_slice",
            Call::OptionHeaderBytes => "NdpOptionHeader::from_bytes, to_bytes, byte_len",
            Call::PrefixFromSlice => "PrefixInformation::from_slice",
            Call::PrefixFromBytes => "PrefixInformation::from_bytes",
            Call::PrefixToBytes => "PrefixInformation::to_bytes",
            Call::Mtu => "MtuOptionSlice",
            Call::RedirectedHeader => "RedirectedHeaderOptionSlice",
            Call::Walk => "NdpOptionsIterator",
            Call::WalkToAbsent => "NdpOptionsIterator up to an absent reader",
            Call::PayloadOfType => "Icmpv6PayloadSlice::from_slice",
            Call::PayloadOfTypeToAbsent => "Icmpv6PayloadSlice::from_slice up to an absent reader",
            Call::PayloadOfPacket => "Icmpv6Slice::payload_slice",
            Call::PayloadOfPacketToAbsent => "Icmpv6Slice::payload_slice up to an absent reader",
            Call::AdvertPayload => "RouterAdvertisementPayloadSlice",
            Call::RedirectPayload => "RedirectPayloadSlice",
            Call::Count => "NdpOptionsIterator, counted",
            Call::HasType => "NdpOptionsIterator, a type looked for",
        }
    }

    pub fn run(self, input: &[u8]) -> Answer {
        let told = stops(|| match self {
            Call::Packet => packet(input),
            Call::Type => kind(input),
            Call::HeaderToBytes => header_to_bytes(input),
            Call::AdvertFromBytes => advert_from_bytes(input),
            Call::AdvertToBytes => advert_to_bytes(input),
            Call::OptionHeaderFromSlice => option_header_from_slice(input),
            Call::OptionHeaderBytes => option_header_bytes(input),
            Call::PrefixFromSlice => prefix(PrefixInformation::from_slice(input)),
            Call::PrefixFromBytes => prefix(PrefixInformation::from_bytes(input.try_into().unwrap())),
            Call::PrefixToBytes => prefix_to_bytes(input),
            Call::Mtu => mtu(input),
            Call::RedirectedHeader => redirected_header(input),
            Call::AdvertPayload => advert_payload(input),
            Call::RedirectPayload => redirect_payload(input),
            Call::Count => whole_list(input, |options| options.len() as u64),
            Call::HasType => whole_list(&input[1..], |options| {
                options.iter().any(|o| o.option_type().0 == input[0]) as u64
            }),
            _ => vec![],
        });
        match self {
            Call::Walk => walk(input),
            Call::PayloadOfType => payload_of_type(input),
            Call::PayloadOfPacket => payload_of_packet(input),
            _ => match told {
                Ok(numbers) => Answer::Told(self, numbers),
                Err(at) => Answer::Absent(at.what),
            },
        }
    }
}

/// How far into the whole a part of it begins.
fn place(whole: &[u8], part: &[u8]) -> u64 {
    let from = part.as_ptr() as usize - whole.as_ptr() as usize;
    assert!(from + part.len() <= whole.len());
    from as u64
}

fn part(whole: &[u8], part: &[u8]) -> Vec<u64> {
    vec![place(whole, part), part.len() as u64]
}

/// Bytes in fours, the high one first.
fn words(bytes: &[u8]) -> Vec<u64> {
    bytes
        .chunks(4)
        .map(|w| u32::from_be_bytes(w.try_into().unwrap()) as u64)
        .collect()
}

fn short(number: u64, e: LenError) -> Vec<u64> {
    assert_eq!(e.layer_start_offset, 0);
    vec![number, e.required_len as u64, e.len as u64]
}

fn refusal(e: NdpOptionReadError) -> Vec<u64> {
    use NdpOptionReadError::*;
    match e {
        UnexpectedSize {
            option_id,
            expected_size,
            actual_size,
        } => vec![5, option_id.0 as u64, expected_size as u64, actual_size as u64],
        ZeroLength { option_id } => vec![6, option_id.0 as u64],
        UnexpectedEndOfSlice {
            option_id,
            expected_size,
            actual_size,
        } => vec![7, option_id.0 as u64, expected_size as u64, actual_size as u64],
        UnexpectedHeader {
            expected_option_id,
            actual_option_id,
            expected_length_units,
            actual_length_units,
        } => vec![
            8,
            expected_option_id.0 as u64,
            actual_option_id.0 as u64,
            expected_length_units as u64,
            actual_length_units as u64,
        ],
    }
}

fn packet(input: &[u8]) -> Vec<u64> {
    match Icmpv6Slice::from_slice(input) {
        Err(e) => {
            assert_eq!(Icmpv6Header::from_slice(input).unwrap_err(), e);
            short(1, e)
        }
        Ok(s) => {
            assert_eq!(s.slice(), input);
            assert_eq!(s.header_len(), 8);
            let mut told = vec![0, s.type_u8() as u64, s.code_u8() as u64];
            told.extend(words(&s.bytes5to8()));
            told.extend(part(input, s.payload()));
            told
        }
    }
}

fn advert(h: RouterAdvertisementHeader) -> Vec<u64> {
    vec![
        h.cur_hop_limit as u64,
        h.managed_address_config as u64,
        h.other_config as u64,
        h.router_lifetime as u64,
    ]
}

fn kind(input: &[u8]) -> Vec<u64> {
    let t = match Icmpv6Slice::from_slice(input) {
        Err(e) => return short(1, e),
        Ok(s) => s.icmp_type(),
    };
    assert_eq!((t.type_u8(), t.code_u8()), (input[0], input[1]));
    let mut told = vec![0];
    match t {
        Icmpv6Type::Unknown {
            type_u8,
            code_u8,
            bytes5to8,
        } => {
            told.extend([0, type_u8 as u64, code_u8 as u64]);
            told.extend(words(&bytes5to8));
        }
        Icmpv6Type::PacketTooBig { mtu } => told.extend([2, mtu as u64]),
        Icmpv6Type::RouterSolicitation => told.push(133),
        Icmpv6Type::RouterAdvertisement(h) => {
            told.push(134);
            told.extend(advert(h));
        }
        Icmpv6Type::NeighborSolicitation => told.push(135),
        Icmpv6Type::Redirect => told.push(137),
        // the others hold a thing that has no value here
        other => unreachable!("{other:?}"),
    }
    told
}

/// A type value from seven bytes: its kind, 0 for Unknown, and six for its fields.
fn value(v: &[u8]) -> Icmpv6Type {
    match v[0] {
        0 => Icmpv6Type::Unknown {
            type_u8: v[1],
            code_u8: v[2],
            bytes5to8: v[3..7].try_into().unwrap(),
        },
        2 => Icmpv6Type::PacketTooBig {
            mtu: u32::from_be_bytes(v[3..7].try_into().unwrap()),
        },
        133 => Icmpv6Type::RouterSolicitation,
        134 => Icmpv6Type::RouterAdvertisement(advert_value(&v[1..6])),
        135 => Icmpv6Type::NeighborSolicitation,
        137 => Icmpv6Type::Redirect,
        other => unreachable!("{other}"),
    }
}

/// Hop limit, M, O, and the lifetime in two bytes.
fn advert_value(v: &[u8]) -> RouterAdvertisementHeader {
    RouterAdvertisementHeader {
        cur_hop_limit: v[0],
        managed_address_config: v[1] != 0,
        other_config: v[2] != 0,
        router_lifetime: u16::from_be_bytes([v[3], v[4]]),
    }
}

fn header_to_bytes(input: &[u8]) -> Vec<u64> {
    let icmp_type = value(&input[..7]);
    let checksum = u16::from_be_bytes([input[7], input[8]]);
    assert_eq!(Icmpv6Header::new(icmp_type).checksum, 0);
    let header = Icmpv6Header { icmp_type, checksum };
    assert_eq!((header.header_len(), header.fixed_payload_size()), (8, None));
    let mut told = vec![0, icmp_type.type_u8() as u64, icmp_type.code_u8() as u64];
    told.extend(words(header.to_bytes().as_slice()));
    told
}

fn advert_from_bytes(input: &[u8]) -> Vec<u64> {
    let mut told = vec![0, 134];
    told.extend(advert(RouterAdvertisementHeader::from_bytes(input.try_into().unwrap())));
    told
}

fn advert_to_bytes(input: &[u8]) -> Vec<u64> {
    let mut told = vec![0];
    told.extend(words(&advert_value(input).to_bytes()));
    told
}

fn option_header(h: NdpOptionHeader) -> Vec<u64> {
    vec![0, h.option_type.0 as u64, h.length_units as u64, h.byte_len() as u64]
}

fn option_header_from_slice(input: &[u8]) -> Vec<u64> {
    match NdpOptionHeader::from_slice(input) {
        Err(e) => refusal(e),
        Ok((h, rest)) => {
            let mut told = option_header(h);
            told.extend(part(input, rest));
            told
        }
    }
}

fn option_header_bytes(input: &[u8]) -> Vec<u64> {
    let h = NdpOptionHeader::from_bytes(input.try_into().unwrap());
    let mut told = option_header(h);
    told.extend(h.to_bytes().map(u64::from));
    told
}

fn prefix(read: Result<PrefixInformation, NdpOptionReadError>) -> Vec<u64> {
    match read {
        Err(e) => refusal(e),
        Ok(p) => {
            let mut told = vec![
                0,
                p.prefix_length as u64,
                p.on_link as u64,
                p.autonomous_address_configuration as u64,
                p.valid_lifetime as u64,
                p.preferred_lifetime as u64,
            ];
            told.extend(words(&p.prefix));
            told
        }
    }
}

/// Prefix length, both flags, both lifetimes, the prefix: 27 bytes. The first byte written is left out: it goes through an absent conversion.
fn prefix_to_bytes(input: &[u8]) -> Vec<u64> {
    let p = PrefixInformation {
        prefix_length: input[0],
        on_link: input[1] != 0,
        autonomous_address_configuration: input[2] != 0,
        valid_lifetime: u32::from_be_bytes(input[3..7].try_into().unwrap()),
        preferred_lifetime: u32::from_be_bytes(input[7..11].try_into().unwrap()),
        prefix: input[11..27].try_into().unwrap(),
    };
    let mut bytes = p.to_bytes();
    bytes[0] = 0;
    let mut told = vec![0];
    told.extend(words(&bytes));
    told
}

fn mtu(input: &[u8]) -> Vec<u64> {
    match MtuOptionSlice::from_slice(input) {
        Err(e) => refusal(e),
        Ok(o) => {
            assert_eq!(o.as_bytes(), input);
            vec![0, o.option_type().0 as u64, o.mtu() as u64]
        }
    }
}

fn redirected_header(input: &[u8]) -> Vec<u64> {
    match RedirectedHeaderOptionSlice::from_slice(input) {
        Err(e) => refusal(e),
        Ok(o) => {
            assert_eq!(o.as_bytes(), input);
            let mut told = vec![0, o.option_type().0 as u64];
            told.extend(part(input, o.redirected_packet()));
            told
        }
    }
}

/// Step by step, each told as a number and values: an option is 0, 2, its type, place, length and the length of the rest after it; the end is 0, 0 and its
/// place; a refusal is its number, what it carries, and its place.
fn walk(input: &[u8]) -> Answer {
    let mut options = NdpOptionsIterator::from_slice(input);
    let mut told = vec![];
    loop {
        let at = (input.len() - options.rest().len()) as u64;
        match stops(|| options.next()) {
            Ok(Some(Ok(option))) => {
                told.extend([0, 2, option.option_type().0 as u64]);
                told.extend(part(input, option.as_bytes()));
                told.push(options.rest().len() as u64);
                continue;
            }
            Ok(Some(Err(e))) => told.extend(refusal(e)),
            Ok(None) => told.extend([0, 0]),
            Err(stop) => {
                told.extend([input[at as usize] as u64, at, stop.len]);
                return Answer::Told(Call::WalkToAbsent, told);
            }
        }
        told.push(at);
        assert!(options.rest().is_empty());
        assert!(options.next().is_none());
        return Answer::Told(Call::Walk, told);
    }
}

/// Something of a whole list, or the refusal and its place.
fn whole_list(input: &[u8], tell: impl Fn(&[NdpOptionSlice]) -> u64) -> Vec<u64> {
    let mut options = vec![];
    for option in NdpOptionsIterator::from_slice(input) {
        match option {
            Ok(option) => options.push(option),
            Err(e) => {
                let at = options.iter().map(|o| o.as_bytes().len() as u64).sum();
                let mut told = refusal(e);
                told.push(at);
                return told;
            }
        }
    }
    vec![0, tell(&options)]
}

/// The kind of a payload, the length of its fixed part, how many bytes are behind it, and the fields of the fixed part.
fn payload_told(payload: &[u8], kind: u64, behind: &[u8], fields: Vec<u64>) -> Vec<u64> {
    let mut told = vec![0, kind];
    told.extend(part(payload, behind));
    told.extend(fields);
    told
}

fn advert_told(payload: &[u8], s: &RouterAdvertisementPayloadSlice) -> Vec<u64> {
    assert_eq!(s.slice(), payload);
    assert_eq!(s.options(), s.options_iterator().rest());
    let (fixed, options) = s.to_payload();
    let fields = vec![fixed.reachable_time as u64, fixed.retrans_timer as u64];
    payload_told(payload, 134, options, fields)
}

fn redirect_told(payload: &[u8], s: &RedirectPayloadSlice) -> Vec<u64> {
    assert_eq!(s.slice(), payload);
    assert_eq!(s.options(), s.options_iterator().rest());
    let (fixed, options) = s.to_payload();
    let mut fields = words(&fixed.target_address.octets());
    fields.extend(words(&fixed.destination_address.octets()));
    payload_told(payload, 137, options, fields)
}

fn advert_payload(input: &[u8]) -> Vec<u64> {
    match RouterAdvertisementPayloadSlice::from_slice(input) {
        Err(e) => short(4, e),
        Ok(s) => advert_told(input, &s),
    }
}

fn redirect_payload(input: &[u8]) -> Vec<u64> {
    match RedirectPayloadSlice::from_slice(input) {
        Err(e) => short(4, e),
        Ok(s) => redirect_told(input, &s),
    }
}

/// What a dispatch chose for a payload.
fn chosen(payload: &[u8], dispatched: Result<Icmpv6PayloadSlice, LenError>) -> Vec<u64> {
    let s = match dispatched {
        Err(e) => return short(4, e),
        Ok(s) => s,
    };
    assert_eq!(s.slice(), payload);
    match (&s, s.to_payload()) {
        (Icmpv6PayloadSlice::RouterAdvertisement(p), Some((_, rest))) => {
            assert_eq!(rest, p.options());
            advert_told(payload, p)
        }
        (Icmpv6PayloadSlice::Redirect(p), Some((_, rest))) => {
            assert_eq!(rest, p.options());
            redirect_told(payload, p)
        }
        (Icmpv6PayloadSlice::Raw(p), None) => payload_told(payload, 0, p, vec![]),
        other => unreachable!("{other:?}"),
    }
}

/// The kind whose reader is absent.
fn reader(what: &str) -> Option<u64> {
    Some(match what {
        "PacketTooBigPayloadSlice" => 2,
        "EchoRequestPayloadSlice" => 128,
        "EchoReplyPayloadSlice" => 129,
        "RouterSolicitationPayloadSlice" => 133,
        "NeighborSolicitationPayloadSlice" => 135,
        "NeighborAdvertisementPayloadSlice" => 136,
        _ => return None,
    })
}

fn dispatch(call: Call, to_absent: Call, told: Result<Vec<u64>, Absent>) -> Answer {
    match told {
        Ok(numbers) => Answer::Told(call, numbers),
        Err(at) => match reader(&at.what) {
            Some(kind) => Answer::Told(to_absent, vec![kind, at.len]),
            None => Answer::Absent(at.what),
        },
    }
}

/// The seven bytes of a type value, then the payload.
fn payload_of_type(input: &[u8]) -> Answer {
    let t = value(&input[..7]);
    let payload = &input[7..];
    dispatch(
        Call::PayloadOfType,
        Call::PayloadOfTypeToAbsent,
        stops(|| chosen(payload, t.payload_slice(payload))),
    )
}

fn payload_of_packet(input: &[u8]) -> Answer {
    dispatch(
        Call::PayloadOfPacket,
        Call::PayloadOfPacketToAbsent,
        stops(|| match Icmpv6Slice::from_slice(input) {
            Err(e) => short(1, e),
            Ok(s) => chosen(s.payload(), s.payload_slice()),
        }),
    )
}

/// What no vector holds, as text: refusals 2 and 3, of a packet and a payload that are one byte too long (memory that nothing ever touches), and the
/// calls that stop at an absent file on every input that they do not refuse.
pub fn others() {
    let long = vec![0u8; u32::MAX as usize + 1];
    let most = &long[1..];
    let e = Icmpv6Slice::from_slice(&long).unwrap_err();
    println!("Icmpv6Slice::from_slice: 2 {} {}", e.required_len, e.len);
    assert_eq!(Icmpv6Slice::from_slice(most).unwrap().slice().len(), u32::MAX as usize);
    let e = Icmpv6Type::Redirect
        .calc_checksum([0; 16], [0; 16], &most[..most.len() - 7])
        .unwrap_err();
    println!("Icmpv6Type::calc_checksum: 3 {} {}", e.max_allowed, e.actual);

    let packet = Icmpv6Slice::from_slice(&long[..8]).unwrap();
    let longest = &most[..most.len() - 8];
    let (a, b) = ([0; 16], [0; 16]);
    let mut header = Icmpv6Header::new(Icmpv6Type::Redirect);
    stopped("Icmpv6Slice::checksum", || packet.checksum());
    stopped("Icmpv6Slice::header", || packet.header());
    stopped("Icmpv6Header::from_slice", || Icmpv6Header::from_slice(&long[..8]));
    stopped("Icmpv6Slice::is_checksum_valid", || packet.is_checksum_valid(a, b));
    stopped("Icmpv6Type::calc_checksum", || {
        Icmpv6Type::Redirect.calc_checksum(a, b, longest)
    });
    stopped("Icmpv6Type::to_header", || {
        Icmpv6Type::Redirect.to_header(a, b, longest)
    });
    stopped("Icmpv6Header::with_checksum", || {
        Icmpv6Header::with_checksum(Icmpv6Type::Redirect, a, b, longest)
    });
    stopped("Icmpv6Header::update_checksum", || {
        header.update_checksum(a, b, longest)
    });
}

fn stopped<T>(name: &str, run: impl FnOnce() -> T) {
    match stops(run) {
        Ok(_) => unreachable!("{name}"),
        Err(at) => println!("{name}: absent {}", at.what),
    }
}
