// The plain reader beside which bench/read sets the proved one: the same grammar and the same
// answer, with std alone. It reads standard input and prints the first fault, or how many lines and
// bytes of objects it read.
use std::collections::BTreeMap;
use std::io::Read;

enum Request {
    Make(Vec<u8>, Vec<u8>),
    Write(Vec<u8>, usize, Vec<u8>),
    Named(usize, Vec<u8>),
    Facing(usize, u8),
    Alone(usize),
}

const NAMED: [&[u8]; 6] = [b"read", b"free", b"pin", b"peek", b"unpin", b"filter"];
const FACING: [&[u8]; 2] = [b"crash", b"join"];
const ALONE: [&[u8]; 12] = [
    b"leave", b"evict", b"begin", b"ship", b"commit", b"abort", b"pair", b"patch", b"merge",
    b"part", b"compact", b"rebuild",
];

fn number(word: &[u8]) -> Option<u32> {
    let plain = !word.is_empty() && word.len() <= 9 && word.iter().all(u8::is_ascii_digit);
    if !plain || (word.len() > 1 && word[0] == b'0') {
        return None;
    }
    Some(word.iter().fold(0, |n, digit| n * 10 + u32::from(digit - b'0')))
}

fn digit(byte: u8) -> Option<u8> {
    match byte {
        b'0'..=b'9' => Some(byte - b'0'),
        b'a'..=b'f' => Some(byte - b'a' + 10),
        _ => None,
    }
}

fn bytes(hex: &[u8]) -> Result<Vec<u8>, u32> {
    if hex.is_empty() || hex.len() % 2 != 0 || !hex.iter().all(|byte| digit(*byte).is_some()) {
        return Err(10);
    }
    if hex.len() > 8192 {
        return Err(11);
    }
    Ok(hex.chunks(2).map(|pair| digit(pair[0]).unwrap() * 16 + digit(pair[1]).unwrap()).collect())
}

fn name_form(name: &[u8]) -> Result<(), u32> {
    let form = |byte: &u8| byte.is_ascii_lowercase() || byte.is_ascii_digit();
    if name.is_empty() || name.len() > 16 || !name.iter().all(form) { Err(7) } else { Ok(()) }
}

fn config(line: &[u8]) -> Result<u32, u32> {
    let words: Vec<&[u8]> = line.split(|byte| *byte == b' ').collect();
    let names: [&[u8]; 7] = [b"k=", b"r=", b"nodes=", b"frames=", b"room=", b"handles=", b"turns="];
    if words.len() != 9 || words[0] != b"carbink" || words[1] != b"1" {
        return Err(2);
    }
    let mut values = [0; 7];
    for (i, name) in names.iter().enumerate() {
        values[i] = words[i + 2].strip_prefix(*name).and_then(number).ok_or(2u32)?;
    }
    let [k, r, nodes, frames, room, handles, turns] = values;
    let within = (1..=16).contains(&k) && (1..=4).contains(&r) && (k + r..=64).contains(&nodes);
    let sizes = (1..=4096).contains(&frames) && (1..=4096).contains(&room);
    if within && sizes && (1..=65536).contains(&handles) && turns <= 2500 { Ok(nodes) } else { Err(3) }
}

fn request<'a>(
    words: &[&'a [u8]],
    lane: u32,
    nodes: u32,
    made: &mut BTreeMap<&'a [u8], u32>,
) -> Result<Request, u32> {
    let known = |made: &BTreeMap<&[u8], u32>, name: &[u8]| match made.get(name) {
        Some(maker) if *maker == lane || *maker == 0 => Ok(()),
        _ => Err(8u32),
    };
    match words {
        [b"make", name, hex] => {
            name_form(name)?;
            if made.contains_key(name) {
                return Err(8);
            }
            let bytes = bytes(hex)?;
            made.insert(name, lane);
            Ok(Request::Make(name.to_vec(), bytes))
        }
        [b"write", name, at, hex] => {
            name_form(name)?;
            known(made, name)?;
            let at = number(at).filter(|at| *at <= 4096).ok_or(9u32)?;
            let bytes = if *hex == b"-" { Vec::new() } else { bytes(hex)? };
            Ok(Request::Write(name.to_vec(), at as usize, bytes))
        }
        [verb, word] => {
            if let Some(verb) = NAMED.iter().position(|named| named == verb) {
                name_form(word)?;
                known(made, word)?;
                return Ok(Request::Named(verb, word.to_vec()));
            }
            let verb = FACING.iter().position(|facing| facing == verb).ok_or(5u32)?;
            let node = number(word).filter(|node| *node < nodes).ok_or(9u32)?;
            Ok(Request::Facing(verb, node as u8))
        }
        [verb] => ALONE.iter().position(|alone| alone == verb).map(Request::Alone).ok_or(5),
        _ => Err(5),
    }
}

fn is_shaped(words: &[&[u8]]) -> bool {
    !words.iter().any(|word| word.is_empty())
        && match &words[1..] {
            [b"make", _, _] | [b"write", _, _, _] => true,
            [verb, _] => NAMED.contains(verb) || FACING.contains(verb),
            [verb] => ALONE.contains(verb),
            _ => false,
        }
}

fn script(input: &[u8]) -> Result<Vec<(u32, Request)>, (u32, u32)> {
    if input.len() > 1_048_576 {
        return Err((0, 1));
    }
    let text = input.strip_suffix(b"\n").unwrap_or(input);
    let mut lines = text.split(|byte| *byte == b'\n');
    let nodes = config(lines.next().unwrap_or(b"")).map_err(|reason| (1, reason))?;
    let mut made = BTreeMap::new();
    let mut read = Vec::new();
    let mut least = 0;
    for line in lines {
        let place = read.len() as u32 + 2;
        if read.len() >= 20_000 {
            return Err((place, 4));
        }
        let words: Vec<&[u8]> = line.split(|byte| *byte == b' ').collect();
        if !is_shaped(&words) {
            return Err((place, 5));
        }
        let lane = number(words[0]).filter(|lane| (least..=15).contains(lane)).ok_or((place, 6))?;
        let request = request(&words[1..], lane, nodes, &mut made).map_err(|reason| (place, reason))?;
        least = least.max(lane.min(1));
        read.push((lane, request));
    }
    Ok(read)
}

fn main() {
    let mut input = Vec::new();
    std::io::stdin().read_to_end(&mut input).unwrap();
    match script(&input) {
        Err((line, reason)) => println!("{line} {reason}"),
        Ok(lines) => {
            let size = |request: &Request| match request {
                Request::Make(name, bytes) => name.len() + bytes.len(),
                Request::Write(name, at, bytes) => name.len() + at + bytes.len(),
                Request::Named(verb, name) => verb + name.len(),
                Request::Facing(verb, node) => verb + usize::from(*node),
                Request::Alone(verb) => *verb,
            };
            let bytes: usize = lines.iter().map(|(lane, request)| *lane as usize + size(request)).sum();
            println!("{} lines {bytes}", lines.len());
        }
    }
}
