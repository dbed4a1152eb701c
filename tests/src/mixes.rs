//! 02, No. 5: every tag, count and length, each byte that is not used, the edges of
//! level and pan, names and places, with the answers written by hand.

use crate::answer::Answer;
use crate::area::{Card, Chip, Entry, Place, ENTRY, PLACE};
use crate::calls::Call;
use crate::ciphers::Checked;
use crate::library::Library;
use crate::record::{Flags, Record, DATA_MAX};
use crate::show;
use crate::stories::same_answer;

const KEY: [u8; 16] = *b"0123456789abcdef";
const IV: [u8; 8] = *b"iv-iv-iv";
const SESSION: u64 = 0x0123_4567_89ab_cdef;
const NAME: &[u8] = b"mix/a";
/// Confidentiality, integrity and replay protection.
const FLAGS: u32 = 14;

/// A pattern, whether it is a level, and whether it is a pan.
const FLOATS: [(u32, bool, bool); 30] = [
    (0x0000_0000, true, true),
    (0x0000_0001, true, true),
    (0x007f_ffff, true, true),
    (0x0080_0000, true, true),
    (0x3f7f_ffff, true, true),
    (0x3f80_0000, true, true),
    (0x3f80_0001, true, false),
    (0x4000_0000, true, false),
    (0x407f_ffff, true, false),
    (0x4080_0000, true, false),
    (0x4080_0001, false, false),
    (0x7f7f_ffff, false, false),
    (0x7f80_0000, false, false),
    (0x7f80_0001, false, false),
    (0x7fbf_ffff, false, false),
    (0x7fc0_0000, false, false),
    (0x7fff_ffff, false, false),
    (0x8000_0000, true, true),
    (0x8000_0001, false, true),
    (0x807f_ffff, false, true),
    (0x8080_0000, false, true),
    (0xbf7f_ffff, false, true),
    (0xbf80_0000, false, true),
    (0xbf80_0001, false, false),
    (0xc080_0000, false, false),
    (0xff7f_ffff, false, false),
    (0xff80_0000, false, false),
    (0xff80_0001, false, false),
    (0xffc0_0000, false, false),
    (0xffff_ffff, false, false),
];

fn number_of(good: bool) -> u32 {
    if good {
        0
    } else {
        20
    }
}

/// A mix of these sends, nine bytes each, of which the header tells so many.
fn mix(session: u64, count: u8, sends: &[[u8; 9]]) -> Vec<u8> {
    let header = [&session.to_le_bytes()[..], &[count]].concat();
    [header, sends.concat()].concat()
}

fn whole(sends: &[[u8; 9]]) -> Vec<u8> {
    mix(SESSION, sends.len() as u8, sends)
}

fn send(tag: u8, level: u32, pan: u32) -> [u8; 9] {
    let ([a, b, c, d], [e, f, g, h]) = (level.to_le_bytes(), pan.to_le_bytes());
    [tag, a, b, c, d, e, f, g, h]
}

const MUTED: [u8; 9] = [0; 9];

fn set(name: &[u8], data: &[u8]) -> Call {
    Call::Set {
        key: KEY.to_vec(),
        name: name.to_vec(),
        flags: FLAGS,
        iv: IV.to_vec(),
        data: data.to_vec(),
    }
}

fn store(name: &[u8], mix: &[u8]) -> Call {
    Call::StoreMix {
        key: KEY.to_vec(),
        name: name.to_vec(),
        flags: FLAGS,
        iv: IV.to_vec(),
        mix: mix.to_vec(),
    }
}

fn find(session: u64) -> Call {
    Call::FindMix {
        key: KEY.to_vec(),
        session,
        mix_buffer: vec![0xee; 160],
    }
}

fn decode(mix: &[u8], lengths: [usize; 3]) -> Call {
    Call::DecodeMix {
        mix: mix.to_vec(),
        tags: vec![0xee; lengths[0]],
        levels: vec![0xeeee_eeee; lengths[1]],
        pans: vec![0x7fee_eeee; lengths[2]],
    }
}

fn encode(tags: &[u8], levels: &[u32], pans: &[u32]) -> Call {
    Call::EncodeMix {
        session: SESSION,
        tags: tags.to_vec(),
        levels: levels.to_vec(),
        pans: pans.to_vec(),
        mix_buffer: vec![0xee; 153],
    }
}

type Tried = Result<(), String>;

struct Trials<'a> {
    library: &'a dyn Library,
    tried: usize,
}

impl Trials<'_> {
    /// The call answers this number, and as the reference does in all else.
    fn call(
        &mut self,
        (card, chip): (&[u8], &[u8]),
        call: &Call,
        number: u32,
    ) -> Result<Answer, String> {
        let answer = same_answer(self.library, card, chip, call)?;
        self.tried += 1;
        let got = answer.number;
        if got == number {
            return Ok(answer);
        }
        let (call, card) = (show::call(call), show::buffer(card));
        Err(format!("{got}, not {number}\n  {call}\n  card {card}"))
    }

    fn alone(&mut self, call: &Call, number: u32) -> Result<Answer, String> {
        self.call((&[], &[]), call, number)
    }

    /// Whether these bytes are a mix, as each call sees it that is given them or finds
    /// them; and if so, that they come back as they are.
    fn bytes(&mut self, bytes: &[u8], good: bool) -> Tried {
        let (card, chip) = (&[0; PLACE][..], &[0; ENTRY][..]);
        let number = number_of(good);
        self.alone(&decode(bytes, [16; 3]), number)?;
        let stored = self.call((card, chip), &store(NAME, bytes), number)?;
        if bytes.len() > DATA_MAX {
            return Ok(());
        }
        let planted = self.call((card, chip), &set(NAME, bytes), 0)?;
        let find = find(session_of(bytes));
        let found = self.call((&planted.card, &planted.chip), &find, number)?;
        if !good {
            return Ok(());
        }
        if (stored.card, stored.chip) != (planted.card, planted.chip) {
            return Err("stored otherwise than by a set".into());
        }
        let back = [bytes, &find.output()[bytes.len()..]].concat();
        if found.output == back && found.returned == [bytes.len() as u64, 0] {
            return Ok(());
        }
        Err(format!(
            "{} came back as {}",
            show::hex(bytes),
            show::hex(&found.output)
        ))
    }
}

/// 0 where there are too few bytes.
fn session_of(bytes: &[u8]) -> u64 {
    u64::from_le_bytes(std::array::from_fn(|i| bytes.get(i).copied().unwrap_or(0)))
}

fn tags(trials: &mut Trials) -> Tried {
    for tag in 0..=u8::MAX {
        trials.bytes(&whole(&[send(tag, 0, 0)]), tag <= 2)?;
        trials.bytes(
            &whole(&[MUTED, send(tag, 0x3f80_0000, 0)]),
            matches!(tag, 1 | 2),
        )?;
        trials.bytes(&whole(&[send(tag, 0x3f80_0000, 0xbf00_0000)]), tag == 2)?;
        let mut last = vec![MUTED; 16];
        last[15] = send(tag, 0, 0x8000_0000);
        trials.bytes(&whole(&last), tag == 2)?;
        let encode = encode(&[1, tag], &[0, 0], &[0, 0]);
        trials.alone(&encode, number_of(tag <= 2))?;
    }
    Ok(())
}

/// Every count, over as many sends and over others.
fn counts(trials: &mut Trials) -> Tried {
    for count in 0..=u8::MAX {
        let sends = vec![send(1, 0, 0); usize::from(count)];
        trials.bytes(&mix(0, count, &sends), count <= 16)?;
        for there in 0..=17 {
            let good = count == there && count <= 16;
            let sends = vec![MUTED; usize::from(there)];
            trials.bytes(&mix(u64::MAX, count, &sends), good)?;
        }
    }
    Ok(())
}

/// Every length, cut off or with zeros behind.
fn lengths(trials: &mut Trials) -> Tried {
    for count in 0..=17 {
        for length in 0..=200 {
            let mut bytes = mix(SESSION, count, &[send(2, 0x4080_0000, 0xbf80_0000); 17]);
            bytes.truncate(9 + 9 * usize::from(count));
            bytes.resize(length, 0);
            let good = count <= 16 && length == 9 + 9 * usize::from(count);
            trials.bytes(&bytes, good)?;
        }
    }
    Ok(())
}

/// Each byte that the tag doesn't use, with each number but 0.
fn unused(trials: &mut Trials) -> Tried {
    for (tag, first) in [(0, 1), (1, 5)] {
        for at in first..9 {
            for byte in 1..=u8::MAX {
                let mut wrong = send(tag, 0, 0);
                wrong[at] = byte;
                trials.bytes(&whole(&[wrong]), false)?;
                let mut sends = [send(2, 0x3f80_0000, 0x3f80_0000); 16];
                sends[usize::from(byte % 16)] = wrong;
                trials.bytes(&whole(&sends), false)?;
            }
        }
    }
    Ok(())
}

/// Each pattern as a level and as a pan, in the first, a middle and the last send.
fn floats(trials: &mut Trials) -> Tried {
    for (bits, level, pan) in FLOATS {
        for (count, at) in [(1, 0), (16, 0), (16, 7), (16, 15)] {
            for (tag, a, b, good) in [
                (1, bits, 0, level),
                (2, bits, 0, level),
                (2, 0, bits, pan),
                (2, bits, bits, level && pan),
                (2, 0x4080_0000, bits, pan),
                (2, bits, 0xbf80_0000, level),
                (0, bits, 0, bits == 0),
                (1, 0, bits, bits == 0),
            ] {
                let mut sends = vec![send(2, 0x3f00_0000, 0x8000_0000); count];
                sends[at] = send(tag, a, b);
                trials.bytes(&whole(&sends), good)?;
                if good {
                    bits_kept(trials, &whole(&sends), at, (tag, a, b))?;
                }
            }
            encoded(trials, (bits, level, pan), count, at)?;
        }
    }
    Ok(())
}

/// The decoder hands out the very bits, zeros for what a send has not, and no more
/// sends than there are.
fn bits_kept(trials: &mut Trials, bytes: &[u8], at: usize, (tag, a, b): (u8, u32, u32)) -> Tried {
    let answer = trials.alone(&decode(bytes, [16, 17, 20]), 0)?;
    let count = usize::from(bytes[8]);
    let kept = (answer.output[at], answer.levels[at], answer.pans[at]) == (tag, a, b)
        && answer.returned == [SESSION, count as u64]
        && answer.output[count..].iter().all(|tag| *tag == 0xee)
        && answer.levels[count..].iter().all(|l| *l == 0xeeee_eeee)
        && answer.pans[count..].iter().all(|p| *p == 0x7fee_eeee);
    if kept {
        Ok(())
    } else {
        Err(format!("{} decoded otherwise", show::hex(bytes)))
    }
}

/// The encoder looks at a level with tags 1 and 2 and at a pan with tag 2 alone.
fn encoded(
    trials: &mut Trials,
    (bits, level, pan): (u32, bool, bool),
    count: usize,
    at: usize,
) -> Tried {
    for (tag, a, b, good, kept) in [
        (0, bits, bits, true, MUTED),
        (1, bits, 0x7fc0_0000, level, send(1, bits, 0)),
        (1, 0x8000_0000, bits, true, send(1, 0x8000_0000, 0)),
        (2, bits, 0x3f80_0000, level, send(2, bits, 0x3f80_0000)),
        (2, 0x3f80_0000, bits, pan, send(2, 0x3f80_0000, bits)),
        (2, bits, bits, level && pan, send(2, bits, bits)),
    ] {
        let mut tags = vec![1; count];
        let (mut levels, mut pans) = (vec![0x4080_0000; count], vec![0xffff_ffff; count]);
        (tags[at], levels[at], pans[at]) = (tag, a, b);
        let answer = trials.alone(&encode(&tags, &levels, &pans), number_of(good))?;
        if good {
            let mut sends = vec![send(1, 0x4080_0000, 0); count];
            sends[at] = kept;
            let expected = whole(&sends);
            let length = answer.returned[0] as usize;
            if length != expected.len() || answer.output[..length] != expected {
                return Err(format!("{} encoded otherwise", show::hex(&expected)));
            }
        }
    }
    Ok(())
}

/// Each bit of a session counts.
fn sessions(trials: &mut Trials) -> Tried {
    let bits = (0..64).map(|bit| 1 << bit);
    for session in [0, u64::MAX, SESSION].into_iter().chain(bits) {
        let bytes = mix(session, 1, &[send(2, 0x8000_0000, 0x8000_0000)]);
        trials.bytes(&bytes, true)?;
        let stored = trials.call((&[0; PLACE], &[0; ENTRY]), &store(NAME, &bytes), 0)?;
        let areas = (&stored.card[..], &stored.chip[..]);
        for bit in 0..64 {
            trials.call(areas, &find(session ^ 1 << bit), 6)?;
        }
    }
    Ok(())
}

/// Names that are tried, and others that are not: what they hold is no mix to a search,
/// be it good or bad.
fn names(trials: &mut Trials) -> Tried {
    let longest = [&b"mix/"[..], &[b'n'; 60]].concat();
    let too_long = [&b"mix/"[..], &[b'n'; 61]].concat();
    let tried: [&[u8]; 8] = [
        b"mix/",
        b"mix/x",
        b"mix//",
        b"mix/mix/",
        b"mix/\xff",
        b"mix/ ",
        "mix/Flöte".as_bytes(),
        &longest,
    ];
    for name in tried {
        named(trials, name, true)?;
    }
    let others: [&[u8]; 16] = [
        b"m", b"mi", b"mix", b"mix.", b"mixx", b"mixx/", b"mix\\x", b"Mix/x", b"miX/x", b"MIX/x",
        b"mixer/x", b"a/mix/x", b"/mix/x", b" mix/x", b"ix/mix/", b"a/mix/",
    ];
    for name in others {
        named(trials, name, false)?;
    }
    // Each byte in each place of the front.
    for at in 0..4 {
        for byte in 0..=u8::MAX {
            let mut name = b"mix/x".to_vec();
            name[at] = byte;
            if byte < 0x20 || byte == 0x7f {
                refused_name(trials, &name)?;
            } else {
                named(trials, &name, byte == b"mix/"[at])?;
            }
        }
    }
    for name in [&b""[..], b"mix/\x7f", b"mix/x\0", b"mix/\x14", &too_long] {
        refused_name(trials, name)?;
    }
    Ok(())
}

fn refused_name(trials: &mut Trials, name: &[u8]) -> Tried {
    let store = store(name, &mix(SESSION, 0, &[]));
    let free = (&[0; PLACE][..], &[0; ENTRY][..]);
    trials.call(free, &store, 3).map(|_| ())
}

fn named(trials: &mut Trials, name: &[u8], tried: bool) -> Tried {
    let free = (&[0; PLACE][..], &[0; ENTRY][..]);
    let good = mix(SESSION, 1, &[send(1, 0, 0)]);
    trials.call(free, &store(name, &good), if tried { 0 } else { 3 })?;
    for (bytes, number) in [(&good[..], 0), (&good[1..], 20)] {
        let set = trials.call(free, &set(name, bytes), 0)?;
        let number = if tried { number } else { 6 };
        trials.call((&set.card, &set.chip), &find(SESSION), number)?;
        // The chip alone has the name: nothing is there to be tried.
        trials.call((free.0, &set.chip), &find(SESSION), 6)?;
    }
    Ok(())
}

/// What stands in a place of the card, each under a name of its own.
#[derive(Clone, Copy, Debug, PartialEq, Eq)]
enum Held {
    Nothing,
    ThisSession,
    OtherSession,
    /// This session, under a name that is not tried.
    OtherName,
    /// Bytes that are no mix, under a name that is not tried.
    OtherBytes,
    OutOfForm,
    Forged,
    /// The chip has another CMAC: an old card.
    Old,
    Unkept,
    /// A record without replay protection, though the chip holds the name.
    Downgraded,
    /// One byte too many.
    Trailing,
}

use Held::*;

const HELD: [Held; 11] = [
    Nothing,
    ThisSession,
    OtherSession,
    OtherName,
    OtherBytes,
    OutOfForm,
    Forged,
    Old,
    Unkept,
    Downgraded,
    Trailing,
];

/// The number by which a record decides the search, all above it aside.
fn decides(held: Held) -> Option<u32> {
    match held {
        Nothing | ThisSession | OtherSession | OtherName | OtherBytes => None,
        OutOfForm => Some(8),
        Forged => Some(11),
        Old | Unkept | Downgraded => Some(12),
        Trailing => Some(20),
    }
}

/// Puts it on the card, and on the chip what belongs to it. The numbers in the names are in
/// the order of the places; names that aren't tried stand before or behind all others.
fn put(card: &mut Card, chip: &mut Chip, at: usize, held: Held, flags: u32) {
    let front = match held {
        OtherName => "mux/",
        OtherBytes => "max/",
        _ => "mix/",
    };
    let name = format!("{front}{at:02}").into_bytes();
    let session = if held == OtherSession {
        !SESSION
    } else {
        SESSION
    };
    let mut bytes = mix(session, 1, &[send(1, at as u32, 0)]);
    if let Trailing | OtherBytes = held {
        bytes.push(0);
    }
    let flags = match held {
        Nothing => return,
        Downgraded => flags & 7,
        Forged => flags | 4,
        Old | Unkept => 12,
        _ => flags,
    };
    let flags = Flags::accept(flags).expect("good flags");
    let record = Record::seal(&KEY, &name, flags, &IV, &bytes);
    let mut stored = record.encode();
    match held {
        OutOfForm => stored[0] = 21,
        Forged => stored[20] ^= 1,
        _ => {}
    }
    let mut cmac = record.cmac;
    if held == Old {
        cmac[15] ^= 1;
    }
    let kept = flags.replay_protection() && held != Unkept || held == Downgraded;
    if kept {
        let name = name.clone();
        chip.put(Entry { name, cmac });
    }
    let record = stored;
    card.put(Place { name, record });
}

fn search(trials: &mut Trials, scene: &[Held], flags: u32) -> Tried {
    let (mut card, mut chip) = (Card::free(scene.len()), Chip::free(scene.len()));
    for (at, held) in scene.iter().enumerate() {
        put(&mut card, &mut chip, at, *held, flags);
    }
    let (card, chip) = (card.encode(), chip.encode());
    let holding = scene.iter().filter(|held| **held == ThisSession).count();
    let number = scene.iter().find_map(|held| decides(*held));
    let number = number.unwrap_or(match holding {
        0 => 6,
        1 => 0,
        _ => 21,
    });
    let answer = trials.call((&card, &chip), &find(SESSION), number);
    let answer = answer.map_err(|why| format!("{scene:?}: {why}"))?;
    // The one record's own level tells which it was.
    let at = scene.iter().position(|held| *held == ThisSession);
    match at.filter(|_| number == 0) {
        Some(at) if answer.output[10] != at as u8 => Err(format!("{scene:?}: another mix")),
        _ => Ok(()),
    }
}

/// All that four places can hold.
fn places(trials: &mut Trials) -> Tried {
    for scene in 0..HELD.len().pow(4) {
        let held = |at: u32| HELD[scene / HELD.len().pow(at) % HELD.len()];
        let flags = [0, 2, 4, 6, 12, 14, 15][scene % 7];
        search(trials, &[held(0), held(1), held(2), held(3)], flags)?;
    }
    Ok(())
}

/// A full card of mixes, of which one has the session and one is refused; then two and
/// three that have it.
fn full_cards(trials: &mut Trials) -> Tried {
    for one in (0..64).step_by(7) {
        for other in 0..64 {
            let bad = [OutOfForm, Forged, Old, Unkept, Downgraded, Trailing][other % 6];
            for held in [bad, ThisSession] {
                let mut scene = [OtherSession; 64];
                scene[one] = ThisSession;
                scene[other] = held;
                search(trials, &scene, 0)?;
                scene[63 - other] = ThisSession;
                search(trials, &scene, 0)?;
            }
        }
    }
    Ok(())
}

/// Every length of what is lent, beside the right ones.
fn lent(trials: &mut Trials) -> Tried {
    let bytes = whole(&[send(1, 0, 0)]);
    let stored = trials.call((&[0; PLACE], &[0; ENTRY]), &store(NAME, &bytes), 0)?;
    for length in 0..=320 {
        let number = u32::from(length < 153);
        let find = Call::FindMix {
            key: KEY.to_vec(),
            session: SESSION,
            mix_buffer: vec![0xee; length],
        };
        trials.call((&stored.card, &stored.chip), &find, number)?;
        let encode = Call::EncodeMix {
            session: SESSION,
            tags: vec![0],
            levels: vec![0],
            pans: vec![0],
            mix_buffer: vec![0xee; length],
        };
        trials.alone(&encode, number)?;
    }
    let lengths =
        (0..=18).flat_map(|a| (0..=18).flat_map(move |b| (0..=18).map(move |c| [a, b, c])));
    for [tags, levels, pans] in lengths {
        let number = match (tags == levels && tags == pans, tags) {
            (false, _) => 1,
            (true, 17..) => 20,
            (true, _) => 0,
        };
        trials.alone(
            &encode(&vec![2; tags], &vec![0; levels], &vec![0; pans]),
            number,
        )?;
        let few = tags < 16 || levels < 16 || pans < 16;
        let decode = |bytes: &[u8]| decode(bytes, [tags, levels, pans]);
        trials.alone(&decode(&bytes), u32::from(few))?;
        trials.alone(&decode(&bytes[1..]), if few { 1 } else { 20 })?;
    }
    Ok(())
}

type Part = fn(&mut Trials) -> Tried;

const PARTS: [(&str, Part); 10] = [
    ("names", names),
    ("places", places),
    ("sessions", sessions),
    ("tags", tags),
    ("counts", counts),
    ("lengths", lengths),
    ("unused-bytes", unused),
    ("floats", floats),
    ("lent", lent),
    ("full-cards", full_cards),
];

pub fn checks(library: &dyn Library) -> Vec<(String, Checked)> {
    each(library).collect()
}

/// One after the other.
pub fn each(library: &dyn Library) -> impl Iterator<Item = (String, Checked)> + '_ {
    PARTS.iter().map(move |(name, part)| {
        let mut trials = Trials { library, tried: 0 };
        let checked = part(&mut trials);
        let passed = format!("{} calls", trials.tried);
        (format!("mix-{name}"), checked.map(|()| passed))
    })
}

#[cfg(test)]
mod tests {
    use super::*;
    use crate::library::Reference;

    #[test]
    fn the_reference_answers_as_by_hand() {
        for (name, checked) in checks(&Reference) {
            assert!(checked.is_ok(), "{name}: {checked:?}");
        }
    }
}
