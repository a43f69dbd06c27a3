//! A plain Rust program that answers scripts of makes, reads, writes and frees, to time `carbink seq`
//! beside it. It keeps the lines, the answers and the objects, of up to 1,024 bytes, as carbink does: the
//! bytes of an object lie in a slot of a span of its class, in a frame of 4,096 bytes. It tests what carbink
//! tests of words, names and bytes, and ends with status 2 at the first line that is not in the form.
use std::collections::{BTreeMap, BTreeSet, HashSet};
use std::io::{Read, Write};
use std::process::exit;

enum Request<'a> {
    Make(&'a [u8], Vec<u8>),
    Read(&'a [u8]),
    Write(&'a [u8], usize, Vec<u8>),
    Free(&'a [u8]),
}

enum Reply {
    Version(u64),
    Bytes(u64, Vec<u8>),
    Full(usize),
    NoRoom(usize),
    Unmade,
    Freed,
    Range(usize),
}

/// A version, a length and the first byte in memory; or freed.
enum Object {
    Held(u64, usize, usize),
    Freed,
}

const CLASSES: [usize; 12] = [16, 32, 48, 64, 96, 128, 192, 256, 384, 512, 768, 1024];
const FRAME: usize = 4096;

/// A span: its class, which of its slots are taken, and how many are.
struct Span {
    class: usize,
    taken: [bool; FRAME / 16],
    live: usize,
}

/// Local memory: frames, the spans in them, the free frames, and for each class those with a free slot.
struct Memory {
    bytes: Vec<u8>,
    spans: Vec<Option<Span>>,
    free: BTreeSet<usize>,
    open: [BTreeSet<usize>; 12],
}

impl Memory {
    fn new(frames: usize) -> Memory {
        Memory {
            bytes: vec![0; frames * FRAME],
            spans: (0..frames).map(|_| None).collect(),
            free: (0..frames).collect(),
            open: Default::default(),
        }
    }

    /// The place of a new object of so many bytes: the least frame with a free slot of its class, or the
    /// least free frame.
    fn place(&mut self, len: usize) -> Option<usize> {
        let class = CLASSES.iter().position(|c| *c >= len)?;
        let slots = FRAME / CLASSES[class];
        let frame = match self.open[class].first() {
            Some(frame) => *frame,
            None => {
                let frame = self.free.pop_first()?;
                self.spans[frame] = Some(Span { class, taken: [false; FRAME / 16], live: 0 });
                self.open[class].insert(frame);
                frame
            }
        };
        let span = self.spans[frame].as_mut()?;
        let slot = span.taken[..slots].iter().position(|taken| !taken)?;
        span.taken[slot] = true;
        span.live += 1;
        if span.live == slots {
            self.open[class].remove(&frame);
        }
        Some(frame * FRAME + slot * CLASSES[class])
    }

    fn clear(&mut self, place: usize) {
        let frame = place / FRAME;
        let Some(span) = self.spans[frame].as_mut() else { return };
        span.taken[place % FRAME / CLASSES[span.class]] = false;
        span.live -= 1;
        if span.live == 0 {
            self.open[span.class].remove(&frame);
            self.spans[frame] = None;
            self.free.insert(frame);
        } else {
            self.open[span.class].insert(frame);
        }
    }
}

struct Line<'a> {
    lane: &'a [u8],
    request: Request<'a>,
}

fn name_of(word: &[u8]) -> Option<&[u8]> {
    let is_name = (1..=16).contains(&word.len())
        && word.iter().all(|b| b.is_ascii_lowercase() || b.is_ascii_digit());
    is_name.then_some(word)
}

fn digit(byte: u8) -> Option<u8> {
    match byte {
        b'0'..=b'9' => Some(byte - b'0'),
        b'a'..=b'f' => Some(byte - b'a' + 10),
        _ => None,
    }
}

fn bytes_of(word: &[u8]) -> Option<Vec<u8>> {
    if word.len() % 2 != 0 || word.len() > 2048 {
        return None;
    }
    word.chunks(2).map(|pair| Some(digit(pair[0])? * 16 + digit(pair[1])?)).collect()
}

fn number(word: &[u8]) -> Option<usize> {
    std::str::from_utf8(word).ok()?.parse().ok()
}

fn line_of<'a>(text: &'a [u8], made: &mut HashSet<&'a [u8]>) -> Option<Line<'a>> {
    let words: Vec<&[u8]> = text.split(|b| *b == b' ').collect();
    if number(words[0])? > 15 {
        return None;
    }
    let request = match words[1..] {
        [b"make", name, hex] => {
            let name = name_of(name)?;
            made.insert(name).then_some(())?;
            Request::Make(name, bytes_of(hex)?)
        }
        [b"read", name] => Request::Read(*made.get(name)?),
        [b"write", name, at, b"-"] => Request::Write(*made.get(name)?, number(at)?, Vec::new()),
        [b"write", name, at, hex] => Request::Write(*made.get(name)?, number(at)?, bytes_of(hex)?),
        [b"free", name] => Request::Free(*made.get(name)?),
        _ => return None,
    };
    Some(Line { lane: words[0], request })
}

fn answer<'a>(
    line: &Line<'a>,
    handles: usize,
    memory: &mut Memory,
    objects: &mut Vec<Object>,
    names: &mut BTreeMap<&'a [u8], usize>,
) -> Reply {
    let name = match &line.request {
        Request::Make(name, bytes) => {
            if objects.len() >= handles {
                return Reply::Full(handles);
            }
            let Some(place) = memory.place(bytes.len()) else {
                return Reply::NoRoom(memory.spans.len());
            };
            memory.bytes[place..place + bytes.len()].copy_from_slice(bytes);
            names.insert(name, objects.len());
            objects.push(Object::Held(1, bytes.len(), place));
            return Reply::Version(1);
        }
        Request::Read(name) | Request::Write(name, _, _) | Request::Free(name) => *name,
    };
    let Some(handle) = names.get(name) else { return Reply::Unmade };
    let object = &mut objects[*handle];
    let Object::Held(version, len, place) = object else { return Reply::Freed };
    match &line.request {
        Request::Write(_, at, new) => {
            if at + new.len() > *len {
                return Reply::Range(*len);
            }
            memory.bytes[*place + at..*place + at + new.len()].copy_from_slice(new);
            *version += 1;
            Reply::Version(*version)
        }
        Request::Free(_) => {
            let version = *version + 1;
            memory.clear(*place);
            *object = Object::Freed;
            Reply::Version(version)
        }
        _ => Reply::Bytes(*version, memory.bytes[*place..*place + *len].to_vec()),
    }
}

fn tell(text: &mut Vec<u8>, line: &Line, reply: &Reply) {
    text.extend_from_slice(line.lane);
    let (verb, name): (&[u8], &[u8]) = match &line.request {
        Request::Make(name, _) => (b" make ", name),
        Request::Read(name) => (b" read ", name),
        Request::Write(name, _, _) => (b" write ", name),
        Request::Free(name) => (b" free ", name),
    };
    text.extend_from_slice(verb);
    text.extend_from_slice(name);
    match reply {
        Reply::Version(version) => write!(text, " v{version}").unwrap(),
        Reply::Bytes(version, bytes) => {
            write!(text, " v{version} ").unwrap();
            for byte in bytes {
                text.push(b"0123456789abcdef"[(byte >> 4) as usize]);
                text.push(b"0123456789abcdef"[(byte & 15) as usize]);
            }
        }
        Reply::Full(handles) => write!(text, " full {handles}").unwrap(),
        Reply::NoRoom(frames) => {
            write!(text, " noroom frames {frames} loose {frames} nodes 0").unwrap()
        }
        Reply::Unmade => text.extend_from_slice(b" unmade"),
        Reply::Freed => text.extend_from_slice(b" freed"),
        Reply::Range(len) => write!(text, " range {len}").unwrap(),
    }
    text.push(b'\n');
}

fn main() {
    let mut input = Vec::new();
    std::io::stdin().read_to_end(&mut input).unwrap();
    let mut pieces = input.strip_suffix(b"\n").unwrap_or(&input).split(|b| *b == b'\n');
    let header = pieces.next().unwrap();
    let field = |key: &[u8]| {
        header.split(|b| *b == b' ').find_map(|word| number(word.strip_prefix(key)?)).unwrap()
    };
    let (frames, handles) = (field(b"frames="), field(b"handles="));
    let mut made = HashSet::new();
    let lines: Option<Vec<Line>> = pieces.map(|text| line_of(text, &mut made)).collect();
    let Some(lines) = lines else { exit(2) };
    let (mut objects, mut names) = (Vec::new(), BTreeMap::new());
    let mut memory = Memory::new(frames);
    let replies: Vec<Reply> = lines
        .iter()
        .map(|line| answer(line, handles, &mut memory, &mut objects, &mut names))
        .collect();
    let mut text = Vec::new();
    for (line, reply) in lines.iter().zip(&replies) {
        tell(&mut text, line, reply);
    }
    std::io::stdout().write_all(&text).unwrap();
}
