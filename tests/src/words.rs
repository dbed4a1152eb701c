//! What each word of the edges' files does, and with what it answers.

use crate::answer::Answer;
use crate::area::{ENTRY, PLACE};
use crate::calls::Call;
use crate::handle::{Handle, HandleBytes};
use crate::keyfile::Attributes;
use crate::library::{Library, Observed};
use crate::mix::SENDS_MAX;
use crate::script::{self, refuse, spell_all, Line, Place, Read, Value};
use crate::show;

const SLOTS_MAX: usize = 65;
/// Name bytes from 0x21 to 0x7e.
const NAMES_MAX: u64 = 94;
/// More than the bytes of the longest card.
const SWEPT_MAX: u64 = 65_535;
/// More than a staging buffer's 480 bytes.
const STAGING_MAX: usize = 512;
/// What the sends' entries of a mix hold before it is decoded.
const LENT: u8 = 0xee;
const LENT_FLOAT: u32 = 0xeeee_eeee;
const PREPARING: [&[u8]; 13] = [
    b"slots",
    b"card",
    b"chip",
    b"key",
    b"iv",
    b"attributes",
    b"handle",
    b"staging",
    b"poke",
    b"flip",
    b"keep",
    b"put",
    b"say",
];

/// What lasts from line to line of a file.
#[derive(Clone)]
pub struct Bench<'a> {
    library: &'a dyn Library,
    card: Vec<u8>,
    chip: Vec<u8>,
    key: Vec<u8>,
    iv: Vec<u8>,
    attributes: Attributes,
    handle: HandleBytes,
    staging: Vec<u8>,
    kept: [Option<(Vec<u8>, Vec<u8>)>; 4],
}

impl Bench<'_> {
    pub fn new(library: &dyn Library) -> Bench<'_> {
        Bench {
            library,
            card: Vec::new(),
            chip: Vec::new(),
            key: b"the device's key".to_vec(),
            iv: b"the iv 8".to_vec(),
            attributes: Attributes::default(),
            handle: Handle::ZERO,
            staging: Vec::new(),
            kept: Default::default(),
        }
    }

    fn area(&mut self, place: Place) -> &mut [u8] {
        match place {
            Place::Card => &mut self.card,
            Place::Chip => &mut self.chip,
            Place::Handle => &mut self.handle,
            Place::Staging => &mut self.staging,
        }
    }

    /// Whether the line counts and is as expected; an error says what it did instead.
    pub fn line(&mut self, text: &[u8]) -> Read<bool> {
        let mut line = Line::new(text);
        if PREPARING.contains(&line.word) {
            self.prepare(&mut line)?;
            return Ok(false);
        }
        let values = self.answer(&mut line)?;
        if line.expects(&values) {
            Ok(true)
        } else {
            Err(format!("answered\t{}", spell_all(&values)))
        }
    }

    fn prepare(&mut self, line: &mut Line) -> Read<()> {
        match line.word {
            b"slots" => {
                let mut slots = || line.number::<usize>(SLOTS_MAX as u64);
                (self.card, self.chip) = (vec![0; slots()? * PLACE], vec![0; slots()? * ENTRY]);
            }
            b"card" => self.card = line.bytes_to(SLOTS_MAX * PLACE)?,
            b"chip" => self.chip = line.bytes_to(SLOTS_MAX * ENTRY)?,
            b"key" => self.key = line.bytes_to(64)?,
            b"iv" => self.iv = line.bytes_to(64)?,
            b"attributes" => self.attributes = line.attributes()?,
            b"handle" => self.handle = line.bytes()?.try_into().or_else(|_| refuse())?,
            b"staging" => self.staging = line.bytes_to(STAGING_MAX)?,
            b"poke" => self.change(line, |_, byte| byte)?,
            b"flip" => self.change(line, |old, byte| old ^ byte)?,
            b"keep" => {
                let copy: usize = line.number(3)?;
                self.kept[copy] = Some((self.card.clone(), self.chip.clone()));
            }
            b"put" => {
                let place = line.medium()?;
                let (card, chip) = self.copy(line)?;
                if place == Place::Card {
                    self.card = card;
                } else {
                    self.chip = chip;
                }
            }
            // Told by the product's program alone.
            _ => drop(line.field()?),
        }
        line.end()
    }

    fn change(&mut self, line: &mut Line, mix: fn(u8, u8) -> u8) -> Read<()> {
        let (place, index, bytes) = (line.place()?, line.number(u64::MAX)?, line.bytes()?);
        let area = self.area(place);
        let end = usize::checked_add(index, bytes.len()).filter(|end| *end <= area.len());
        let end = end.map_or_else(refuse, Ok)?;
        for (old, byte) in area[index..end].iter_mut().zip(bytes) {
            *old = mix(*old, byte);
        }
        Ok(())
    }

    fn copy(&self, line: &mut Line) -> Read<(Vec<u8>, Vec<u8>)> {
        let copy: usize = line.number(3)?;
        self.kept[copy].clone().map_or_else(refuse, Ok)
    }

    fn answer(&mut self, line: &mut Line) -> Read<Vec<Value>> {
        match line.word {
            b"at" => self.at(line),
            b"same" => self.same(line),
            b"fill" => self.fill(line),
            b"bits" => self.bits(line),
            b"each" => self.each(line),
            _ => {
                let call = self.call(line)?;
                line.equals()?;
                let answer = self.run(&call)?;
                match call {
                    Call::DecodeMix { .. } => decoded(&answer),
                    _ => Ok(values(&call, &answer)),
                }
            }
        }
    }

    fn set(&self, name: Vec<u8>, flags: u32, data: Vec<u8>) -> Call {
        Call::Set {
            key: self.key.clone(),
            name,
            flags,
            iv: self.iv.clone(),
            data,
        }
    }

    fn get(&self, name: Vec<u8>, offset: usize, output: Vec<u8>) -> Call {
        Call::Get {
            key: self.key.clone(),
            name,
            offset,
            output,
        }
    }

    fn info(&self, name: Vec<u8>) -> Call {
        let key = self.key.clone();
        Call::Info { key, name }
    }

    /// The line's call, with the key, IV and attributes of the lines before.
    fn call(&self, line: &mut Line) -> Read<Call> {
        Ok(match line.word {
            b"set" => self.set(line.bytes()?, flags(line)?, line.bytes()?),
            b"get" => self.get(line.bytes()?, line.number(u64::MAX)?, line.bytes()?),
            b"info" => self.info(line.bytes()?),
            b"remove" => Call::Remove {
                name: line.bytes()?,
            },
            b"reset" => Call::Reset,
            b"next" => Call::Walk {
                prefix: line.bytes()?,
                start: line.number(u64::MAX)?,
                name_buffer: line.bytes()?,
            },
            b"start" | b"add" | b"finalize" => return self.incremental_call(line),
            b"store_mix" | b"find_mix" | b"encode_mix" | b"decode_mix" => {
                return self.mix_call(line)
            }
            _ => return self.key_call(line),
        })
    }

    fn mix_call(&self, line: &mut Line) -> Read<Call> {
        let key = self.key.clone();
        Ok(match line.word {
            b"store_mix" => Call::StoreMix {
                key,
                name: line.bytes()?,
                flags: flags(line)?,
                iv: self.iv.clone(),
                mix: line.bytes()?,
            },
            b"find_mix" => Call::FindMix {
                key,
                session: line.number(u64::MAX)?,
                mix_buffer: line.bytes()?,
            },
            b"encode_mix" => Call::EncodeMix {
                session: line.number(u64::MAX)?,
                tags: line.bytes()?,
                levels: line.fours()?,
                pans: line.fours()?,
                mix_buffer: line.bytes()?,
            },
            _ => Call::DecodeMix {
                mix: line.bytes()?,
                tags: vec![LENT; SENDS_MAX],
                levels: vec![LENT_FLOAT; SENDS_MAX],
                pans: vec![LENT_FLOAT; SENDS_MAX],
            },
        })
    }

    /// A call of the set whose data arrive in chunks, on the handle and staging
    /// buffer of the lines before.
    fn incremental_call(&self, line: &mut Line) -> Read<Call> {
        let (handle, staging) = (self.handle, self.staging.clone());
        Ok(match line.word {
            b"start" => Call::SetStart {
                name: line.bytes()?,
                flags: flags(line)?,
                iv: self.iv.clone(),
                declared: line.number(u64::MAX)?,
                handle,
            },
            b"add" => Call::SetAddData {
                handle,
                staging,
                chunk: line.bytes()?,
            },
            _ => Call::SetFinalize {
                key: self.key.clone(),
                handle,
                staging,
            },
        })
    }

    fn key_call(&self, line: &mut Line) -> Read<Call> {
        let key = self.key.clone();
        Ok(match line.word {
            b"save" => Call::KeepKey {
                key,
                identifier: line.number(u32::MAX.into())?,
                attributes: self.attributes,
                material: line.bytes()?,
                flags: flags(line)?,
                iv: self.iv.clone(),
            },
            b"load" => Call::LoadKey {
                key,
                identifier: line.number(u32::MAX.into())?,
                key_buffer: line.bytes()?,
            },
            b"format" => Call::WriteKeyFile {
                attributes: self.attributes,
                material: line.bytes()?,
                key_buffer: line.bytes()?,
            },
            _ => return refuse(),
        })
    }

    /// Carries the call out. A refusal, and a call that only reads, may change
    /// neither card nor chip, and no call what it is lent to read.
    fn run(&mut self, call: &Call) -> Read<Answer> {
        let Observed { answer, strays } = self.library.call(&self.card, &self.chip, call);
        if let Some(stray) = strays.first() {
            return Err(stray.clone());
        }
        let writes = matches!(
            call,
            Call::Set { .. }
                | Call::Remove { .. }
                | Call::Reset
                | Call::KeepKey { .. }
                | Call::SetFinalize { .. }
                | Call::StoreMix { .. }
        );
        if answer.number != 0 || !writes {
            let card = show::first_difference("the card", &self.card, &answer.card);
            let chip = show::first_difference("the chip", &self.chip, &answer.chip);
            if let Some(changed) = card.or(chip) {
                return Err(format!("answered {}, but {changed}", answer.number));
            }
        }
        (self.card, self.chip) = (answer.card.clone(), answer.chip.clone());
        if let Call::SetStart { .. } | Call::SetAddData { .. } = call {
            self.handle = answer.handle.clone().try_into().or_else(|_| refuse())?;
        }
        if let Call::SetAddData { .. } = call {
            self.staging = answer.output.clone();
        }
        Ok(answer)
    }

    fn at(&mut self, line: &mut Line) -> Read<Vec<Value>> {
        let (place, index): (_, usize) = (line.place()?, line.number(u64::MAX)?);
        line.equals()?;
        let expected = match line.expected() {
            [field] => script::bytes(field).map_or_else(refuse, Ok)?,
            _ => return refuse(),
        };
        let end = index.checked_add(expected.len());
        let bytes = end.and_then(|end| self.area(place).get(index..end));
        bytes.map_or_else(refuse, |bytes| Ok(vec![Value::Bytes(bytes.to_vec())]))
    }

    fn same(&mut self, line: &mut Line) -> Read<Vec<Value>> {
        let (card, chip) = self.copy(line)?;
        line.equals()?;
        let card = show::first_difference("the card", &card, &self.card);
        let chip = show::first_difference("the chip", &chip, &self.chip);
        card.or(chip).map_or(Ok(Vec::new()), Err)
    }

    fn fill(&mut self, line: &mut Line) -> Read<Vec<Value>> {
        let (count, flags, data): (usize, _, _) =
            (line.number(NAMES_MAX)?, flags(line)?, line.bytes()?);
        line.equals()?;
        let mut done = 0;
        for byte in (0x21..).take(count) {
            let call = self.set(vec![b'n', byte], flags, data.clone());
            done += u64::from(self.run(&call)?.number == 0);
        }
        Ok(vec![Value::Number(done)])
    }

    fn bits(&mut self, line: &mut Line) -> Read<Vec<Value>> {
        let (place, index) = (line.medium()?, line.number::<usize>(SWEPT_MAX)?);
        let count: usize = line.number(SWEPT_MAX)?;
        let call = self.swept_call(line)?;
        let bytes = self.area(place).get(index..index + count);
        let bytes = bytes.map_or_else(refuse, |bytes| Ok(bytes.to_vec()))?;
        let trials = (0..count * 8).map(|bit| (index + bit / 8, bytes[bit / 8] ^ 1 << (bit % 8)));
        self.sweep(place, trials.collect(), &call)
    }

    fn each(&mut self, line: &mut Line) -> Read<Vec<Value>> {
        let (place, index) = (line.medium()?, line.number(SWEPT_MAX)?);
        let (first, last): (u8, u8) = (line.number(255)?, line.number(255)?);
        let call = self.swept_call(line)?;
        let there = index < self.area(place).len();
        let trials = (first..=last).filter(|_| there).map(|byte| (index, byte));
        self.sweep(place, trials.collect(), &call)
    }

    fn swept_call(&self, line: &mut Line) -> Read<Call> {
        let (word, name) = (line.field()?, line.bytes()?);
        line.equals()?;
        Ok(match word {
            b"get" => self.get(name, 0, vec![0; 480]),
            b"info" => self.info(name),
            b"remove" => Call::Remove { name },
            b"set" => self.set(name, 0, Vec::new()),
            _ => return refuse(),
        })
    }

    /// The number that the call answers in every trial, each with one byte of card
    /// or chip as given; there has to be a trial.
    fn sweep(&mut self, place: Place, trials: Vec<(usize, u8)>, call: &Call) -> Read<Vec<Value>> {
        let mut common = None;
        for (index, byte) in trials {
            let old = std::mem::replace(&mut self.area(place)[index], byte);
            let answer = self.run(call);
            self.area(place)[index] = old;
            let number = answer?.number;
            let common = *common.get_or_insert(number);
            if number != common {
                return Err(format!(
                    "answered {number} with byte {index} as {byte:02x}, and {common} before"
                ));
            }
        }
        common.map_or_else(refuse, |number| Ok(vec![Value::Number(number.into())]))
    }
}

fn flags(line: &mut Line) -> Read<u32> {
    line.number(u32::MAX.into())
}

/// The number, and what the call hands back besides: how many numbers, its handle,
/// and what it was lent to write.
fn values(call: &Call, answer: &Answer) -> Vec<Value> {
    let (returned, handle, output) = match call {
        Call::Info { .. } => (2, false, false),
        Call::Walk { .. } => (2, false, true),
        Call::Get { .. } | Call::LoadKey { .. } | Call::WriteKeyFile { .. } => (1, false, true),
        Call::FindMix { .. } | Call::EncodeMix { .. } => (1, false, true),
        Call::SetStart { .. } => (0, true, false),
        Call::SetAddData { .. } => (0, true, true),
        _ => (0, false, false),
    };
    let mut values = vec![Value::Number(answer.number.into())];
    let numbers = answer.returned[..returned].iter();
    values.extend(numbers.map(|number| Value::Number(*number)));
    values.extend(handle.then(|| Value::Bytes(answer.handle.clone())));
    values.extend(output.then(|| Value::Bytes(answer.output.clone())));
    values
}

/// The number, the session, and tags, levels and pans of as many sends as there are. The
/// entries behind them have to be as lent.
fn decoded(answer: &Answer) -> Read<Vec<Value>> {
    let [session, sends] = answer.returned;
    let sends = usize::try_from(sends).unwrap_or(usize::MAX);
    if sends > SENDS_MAX {
        return Err(format!("answered {}, with {sends} sends", answer.number));
    }
    let (tags, levels, pans) = (&answer.output, &answer.levels, &answer.pans);
    let floats = levels[sends..].iter().chain(&pans[sends..]);
    let behind = tags[sends..].iter().all(|tag| *tag == LENT);
    if !behind || floats.into_iter().any(|bits| *bits != LENT_FLOAT) {
        return Err(format!(
            "answered {}, but wrote behind {sends} sends",
            answer.number
        ));
    }
    Ok(vec![
        Value::Number(answer.number.into()),
        Value::Number(session),
        Value::Bytes(tags[..sends].to_vec()),
        Value::Bytes(show::float_bytes(&levels[..sends])),
        Value::Bytes(show::float_bytes(&pans[..sends])),
    ])
}
