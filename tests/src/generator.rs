//! Stories: a start card and chip, then calls, with tampering between them.
//!
//! The teller runs the reference along, so that it knows what the card holds:
//! most calls are then accepted or refused for one reason only.

use crate::answer::Answer;
use crate::area::{Card, Chip, PLACE};
use crate::calls::{answer, Call};
use crate::cast::{self, Cast, GOOD_IDENTIFIERS};
use crate::handle::{Handle, HandleBytes, STAGING};
use crate::keyfile::key_name;
use crate::mix::{self, SENDS_MAX};
use crate::mixing;
use crate::record::Record;
use crate::rng::Rng;
use crate::tamper::Tamperer;

#[derive(Clone, Debug)]
pub struct Story {
    pub card: Vec<u8>,
    pub chip: Vec<u8>,
    pub steps: Vec<Step>,
}

#[derive(Clone, Debug)]
pub enum Step {
    Call(Call),
    /// Someone puts these bytes in place of card and chip.
    Tamper {
        what: &'static str,
        card: Vec<u8>,
        chip: Vec<u8>,
    },
}

const ODD_KEYS: [usize; 6] = [0, 1, 8, 15, 17, 32];
const ODD_IVS: [usize; 5] = [0, 1, 7, 9, 16];
const BAD_IDENTIFIERS: [u32; 4] = [0, 0xffff_0000, 0xffff_ffff, 0xffff_ff52];
const LONG_NAMES: [usize; 6] = [63, 64, 65, 66, 200, 257];
const LONG_SIZES: [usize; 6] = [481, 482, 1 << 16, 1 << 32, (1 << 32) + 16, usize::MAX];
const ODD_STAGINGS: [usize; 6] = [0, 1, 88, 479, 481, 960];
/// Sets in chunks that go on at once.
const STARTED_MAX: usize = 3;

/// Of a set, whether it comes at once or in chunks.
struct SetArguments {
    key: Vec<u8>,
    name: Vec<u8>,
    flags: u32,
    iv: Vec<u8>,
    data: Vec<u8>,
}

impl From<SetArguments> for Call {
    fn from(set: SetArguments) -> Call {
        Call::Set {
            key: set.key,
            name: set.name,
            flags: set.flags,
            iv: set.iv,
            data: set.data,
        }
    }
}

struct Teller {
    rng: Rng,
    cast: Cast,
    /// Half of its calls store a mix or look for one.
    about_mixes: bool,
    card: Vec<u8>,
    chip: Vec<u8>,
    /// Card and chip before each step.
    past: Vec<(Vec<u8>, Vec<u8>)>,
    /// The last undamaged ones of right length.
    sound: (Vec<u8>, Vec<u8>),
    /// Handle and staging buffer of each set in chunks that the story has started.
    started: Vec<(HandleBytes, Vec<u8>)>,
}

/// A story of 10 to 40 steps.
pub fn story(mut rng: Rng) -> Story {
    let about_mixes = rng.percent(25);
    let cast = Cast::new(&mut rng);
    let cast = if about_mixes {
        cast.about_mixes(&mut rng)
    } else {
        cast.with_mixes(&mut rng)
    };
    let places = rng.pick(&[1, 1, 1, 2, 2, 2, 3, 3, 4, 5, 8]);
    let entries = rng.pick(&[1, 1, 1, 2, 2, 3, 4, 6]);
    let (places, entries) = match rng.below(50) {
        0 => (64, 64),
        1 => (places, 64),
        _ if about_mixes => (2 + rng.below(7), 2 + rng.below(5)),
        _ => (places, entries),
    };
    // Many records of a start are bad in some way, and one bad mix decides a search.
    let (mut card, mut chip) = if about_mixes && rng.percent(70) {
        (Card::free(places), Chip::free(entries))
    } else {
        cast::sound_start(&mut rng, &cast, places, entries)
    };
    if places == 64 && rng.percent(50) {
        cast::fill(&mut rng, &cast, &mut card, &mut chip);
    }
    let (card, chip) = (card.encode(), chip.encode());
    let mut teller = Teller {
        rng,
        cast,
        about_mixes,
        sound: (card.clone(), chip.clone()),
        card: card.clone(),
        chip: chip.clone(),
        past: Vec::new(),
        started: Vec::new(),
    };
    let count = 10 + teller.rng.below(31);
    let steps = (0..count).map(|_| teller.step()).collect();
    Story { card, chip, steps }
}

impl Teller {
    fn step(&mut self) -> Step {
        let undamaged = self.areas().is_some();
        if undamaged {
            self.sound = (self.card.clone(), self.chip.clone());
        }
        let step = match self.rng.below(100) {
            0..=39 if !undamaged => Step::Tamper {
                what: "the last sound card and chip are put back",
                card: self.sound.0.clone(),
                chip: self.sound.1.clone(),
            },
            40..=59 if undamaged => {
                let mut tamperer = Tamperer {
                    rng: &mut self.rng,
                    cast: &self.cast,
                    past: &self.past,
                };
                let (what, card, chip) = tamperer.tamper(&self.card, &self.chip);
                Step::Tamper { what, card, chip }
            }
            60..=65 if !undamaged => Step::Call(Call::Reset),
            _ => Step::Call(self.call()),
        };
        self.past.push((self.card.clone(), self.chip.clone()));
        match &step {
            Step::Call(call) => {
                let (answer, _) = answer(&self.card, &self.chip, call);
                if answer.number == 0 {
                    self.go_on(call, &answer);
                }
                (self.card, self.chip) = (answer.card, answer.chip);
            }
            Step::Tamper { card, chip, .. } => {
                (self.card, self.chip) = (card.clone(), chip.clone());
            }
        }
        step
    }

    /// A done call starts a set in chunks, or one that has started goes on.
    fn go_on(&mut self, call: &Call, answer: &Answer) {
        let handle = || answer.handle.clone().try_into().expect("88 bytes");
        match call {
            Call::SetStart { .. } => {
                self.started.truncate(STARTED_MAX - 1);
                self.started.insert(0, (handle(), self.rng.bytes(STAGING)));
            }
            Call::SetAddData {
                handle: old,
                staging,
                ..
            } => {
                let mut started = self.started.iter_mut();
                if let Some(own) = started.find(|own| own.0 == *old && own.1 == *staging) {
                    *own = (handle(), answer.output.clone());
                }
            }
            _ => {}
        }
    }

    fn areas(&self) -> Option<(Card, Chip)> {
        let right = Card::right_length(&self.card) && Chip::right_length(&self.chip);
        right
            .then(|| Some((Card::decode(&self.card)?, Chip::decode(&self.chip)?)))
            .flatten()
    }

    /// What the card holds under the name, where it can be read.
    fn record_of(&self, name: &[u8]) -> Option<Record> {
        let (card, _) = self.areas()?;
        Record::decode(&card.find(name)?.record)
    }

    fn key(&mut self, wild: bool) -> Vec<u8> {
        match self.rng.below(100) {
            0..=1 => self.odd(&ODD_KEYS),
            2..=24 if wild => self.odd(&ODD_KEYS),
            25..=30 => self.cast.other_key.to_vec(),
            _ => self.cast.key.to_vec(),
        }
    }

    fn iv(&mut self, wild: bool) -> Vec<u8> {
        match self.rng.below(100) {
            0..=1 => self.odd(&ODD_IVS),
            2..=24 if wild => self.odd(&ODD_IVS),
            _ => self.rng.bytes(8),
        }
    }

    fn odd(&mut self, lengths: &[usize]) -> Vec<u8> {
        let length = self.rng.pick(lengths);
        self.rng.bytes(length)
    }

    fn name(&mut self, wild: bool) -> Vec<u8> {
        let chance = if wild { 30 } else { 4 };
        if self.rng.percent(chance) {
            return cast::hostile_name(&mut self.rng);
        }
        let known: Vec<Vec<u8>> = match self.areas() {
            Some((card, chip)) if self.rng.percent(70) => {
                let entries = chip.used().map(|(_, entry)| entry.name.clone());
                let places = card.used().map(|(_, place)| place.name.clone());
                places.chain(entries).collect()
            }
            _ => Vec::new(),
        };
        if known.is_empty() {
            self.rng.pick(&self.cast.names)
        } else {
            self.rng.pick(&known)
        }
    }

    fn identifier(&mut self, wild: bool) -> u32 {
        let chance = if wild { 30 } else { 5 };
        if self.rng.percent(chance) {
            return self.rng.pick(&BAD_IDENTIFIERS);
        }
        let known: Vec<u32> = match self.areas() {
            Some((card, chip)) if self.rng.percent(60) => {
                let known = |name: &[u8]| card.find(name).is_some() || chip.find(name).is_some();
                let identifiers = GOOD_IDENTIFIERS.into_iter();
                let kept = |id: &u32| key_name(*id).map_or(false, |name| known(&name));
                identifiers.filter(kept).collect()
            }
            _ => Vec::new(),
        };
        if !known.is_empty() {
            self.rng.pick(&known)
        } else if self.rng.percent(85) {
            self.rng.pick(&self.cast.identifiers)
        } else {
            self.rng.pick(&GOOD_IDENTIFIERS)
        }
    }

    fn flags(&mut self, name: &[u8], wild: bool) -> u32 {
        let chance = if wild { 30 } else { 4 };
        if self.rng.percent(chance) {
            return cast::wild_flags(&mut self.rng);
        }
        // Which flags may follow is asked most where the chip holds the name.
        let held = self
            .areas()
            .map_or(false, |(_, chip)| chip.find(name).is_some());
        if held && self.rng.percent(30) {
            return self.rng.pick(&cast::GOOD_FLAGS);
        }
        let old = self.record_of(name).map(|record| record.flags.bits());
        cast::flags(&mut self.rng, old)
    }

    /// Mostly one thing is wrong or none; a wild call has several.
    fn call(&mut self) -> Call {
        let wild = self.rng.percent(12);
        let kind = match self.about_mixes && self.rng.percent(50) {
            true => 124 + self.rng.below(38),
            false => self.rng.below(170),
        };
        match kind {
            0..=29 => Call::from(self.set(wild)),
            30..=49 => {
                let name = self.name(wild);
                let size = self
                    .record_of(&name)
                    .map_or(20, |record| record.stored.len());
                Call::Get {
                    key: self.key(wild),
                    name,
                    offset: cast::offset(&mut self.rng, size),
                    output: cast::output(&mut self.rng, size),
                }
            }
            50..=57 => Call::Info {
                key: self.key(wild),
                name: self.name(wild),
            },
            58..=65 => Call::Remove {
                name: self.name(wild),
            },
            66 => Call::Reset,
            67..=74 => self.walk(wild),
            75..=78 => Call::WriteKeyFile {
                attributes: cast::attributes(&mut self.rng),
                material: self.any_material(wild),
                key_buffer: self.key_buffer(wild),
            },
            79..=89 => {
                let identifier = self.identifier(wild);
                let name = key_name(identifier).unwrap_or_default();
                Call::KeepKey {
                    key: self.key(wild),
                    identifier,
                    attributes: cast::attributes(&mut self.rng),
                    material: self.any_material(wild),
                    flags: self.flags(&name, wild),
                    iv: self.iv(wild),
                }
            }
            90..=99 => Call::LoadKey {
                key: self.key(wild),
                identifier: self.identifier(wild),
                key_buffer: self.key_buffer(wild),
            },
            100..=105 => self.set_start(wild),
            106..=113 => self.set_add_data(wild),
            114..=123 => self.set_finalize(wild),
            124..=141 => self.store_mix(wild),
            142..=161 => Call::FindMix {
                key: self.key(wild),
                session: self.session(),
                mix_buffer: self.mix_buffer(wild),
            },
            162..=165 => self.encode_mix(wild),
            _ => self.decode_mix(wild),
        }
    }

    fn store_mix(&mut self, wild: bool) -> Call {
        let name = self.mix_name(wild);
        let chance = if wild { 70 } else { 92 };
        let sound = self.rng.percent(chance);
        Call::StoreMix {
            key: self.key(wild),
            flags: self.flags(&name, wild),
            name,
            iv: self.iv(wild),
            mix: cast::mix(&mut self.rng, &self.cast, sound),
        }
    }

    /// Mostly a mix's; at times one that is none, or bad behind its front.
    fn mix_name(&mut self, wild: bool) -> Vec<u8> {
        let chance = if wild { 15 } else { 3 };
        if self.rng.percent(chance) {
            return [mix::PREFIX, &cast::hostile_name(&mut self.rng)].concat();
        }
        if self.rng.percent(chance) {
            return self.name(wild);
        }
        let mut named = self.cast.names.clone();
        if let Some((card, chip)) = self.areas() {
            named.extend(card.used().map(|(_, place)| place.name.clone()));
            named.extend(chip.used().map(|(_, entry)| entry.name.clone()));
        }
        named.retain(|name| mixing::mix_like(name));
        self.rng.pick(&named)
    }

    /// One that the card holds, one that it might, or another.
    fn session(&mut self) -> u64 {
        let held = match self.areas() {
            Some((card, _)) if self.rng.percent(60) => mixing::held(&card, &self.cast.key),
            _ => Vec::new(),
        };
        if held.is_empty() {
            mixing::session(&mut self.rng, &self.cast.sessions)
        } else {
            self.rng.pick(&held)
        }
    }

    fn mix_buffer(&mut self, wild: bool) -> Vec<u8> {
        let chance = if wild { 30 } else { 4 };
        let length = if self.rng.percent(chance) {
            self.rng.pick(&[0, 1, 9, 144, 152])
        } else {
            self.rng.pick(&[153, 153, 154, 480])
        };
        self.rng.bytes(length)
    }

    fn encode_mix(&mut self, wild: bool) -> Call {
        let rng = &mut self.rng;
        let mix = mixing::mix(rng, &self.cast.sessions);
        let mut tags: Vec<u8> = mix.sends.iter().map(|send| send.tag()).collect();
        let mut levels: Vec<u32> = mix.sends.iter().map(|send| send.level()).collect();
        let mut pans: Vec<u32> = mix.sends.iter().map(|send| send.pan()).collect();
        // What a send has not may be anything.
        for (at, tag) in tags.iter().enumerate() {
            if *tag == mix::MUTED {
                levels[at] = rng.number() as u32;
            }
            if *tag != mix::LEVEL_AND_PAN {
                pans[at] = rng.number() as u32;
            }
        }
        let chance = if wild { 60 } else { 25 };
        if rng.percent(chance) {
            let at = rng.below(tags.len().max(1));
            match rng.below(6) {
                0 => tags.resize(rng.pick(&[17, 18, 40]), 0),
                1 if !tags.is_empty() => tags[at] = rng.pick(&[3, 4, 0x82, 0xff]),
                2 if !tags.is_empty() => {
                    tags[at] = rng.pick(&[mix::LEVEL, mix::LEVEL_AND_PAN]);
                    levels[at] = mixing::wrong_level(rng);
                }
                3 if !tags.is_empty() => {
                    tags[at] = mix::LEVEL_AND_PAN;
                    pans[at] = mixing::wrong_pan(rng);
                }
                4 => levels.resize(levels.len() + rng.pick(&[1, 16]), 0),
                _ => pans.truncate(at),
            }
            if tags.len() > SENDS_MAX || rng.percent(50) {
                levels.resize(tags.len(), 0);
                pans.resize(tags.len(), 0);
            }
        }
        Call::EncodeMix {
            session: mix.session,
            tags,
            levels,
            pans,
            mix_buffer: self.mix_buffer(wild),
        }
    }

    fn decode_mix(&mut self, wild: bool) -> Call {
        let chance = if wild { 50 } else { 70 };
        let sound = self.rng.percent(chance);
        let mix = cast::mix(&mut self.rng, &self.cast, sound);
        let mut length = || match self.rng.below(30) {
            0 => self.rng.pick(&[0, 1, 14, 15]),
            1 => 0,
            2..=4 => self.rng.pick(&[17, 20, 64]),
            _ => SENDS_MAX,
        };
        let lengths = [length(), length(), length()];
        let mut bits =
            |length: usize| -> Vec<u32> { (0..length).map(|_| self.rng.number() as u32).collect() };
        let (levels, pans) = (bits(lengths[1]), bits(lengths[2]));
        Call::DecodeMix {
            mix,
            tags: self.rng.bytes(lengths[0]),
            levels,
            pans,
        }
    }

    fn set(&mut self, wild: bool) -> SetArguments {
        let name = self.name(wild);
        let chance = if wild { 30 } else { 4 };
        let data = if self.rng.percent(chance) {
            let size = self.rng.pick(&[481, 482, 516, 600]);
            self.rng.bytes(size)
        } else if cast::key_like(&self.cast, &name) && self.rng.percent(70) {
            let sound = self.rng.percent(50);
            cast::key_file(&mut self.rng, sound)
        } else if mixing::mix_like(&name) && self.rng.percent(95) {
            // Bytes that no call for mixes would have stored, at times.
            let sound = self.rng.percent(70);
            cast::mix(&mut self.rng, &self.cast, sound)
        } else {
            cast::data(&mut self.rng)
        };
        SetArguments {
            key: self.key(wild),
            flags: self.flags(&name, wild),
            name,
            iv: self.iv(wild),
            data,
        }
    }

    fn set_start(&mut self, wild: bool) -> Call {
        let chance = if wild { 30 } else { 6 };
        let name = if self.rng.percent(chance) {
            self.odd(&LONG_NAMES)
        } else {
            self.name(wild)
        };
        let declared = if self.rng.percent(chance) {
            self.rng.pick(&LONG_SIZES)
        } else {
            self.rng.pick(&cast::DATA_SIZES)
        };
        Call::SetStart {
            flags: self.flags(&name, wild),
            name,
            iv: self.iv(wild),
            declared,
            handle: self.rng.array(),
        }
    }

    /// A set that the story has started, or another one that has all its data.
    /// At times they were tampered with.
    fn in_chunks(&mut self, wild: bool) -> (Vec<u8>, Handle, Vec<u8>) {
        let set = self.set(wild);
        let own = cast::held(&mut self.rng, &set.name, set.flags, &set.iv, &set.data);
        let (mut handle, mut staging) = if !self.started.is_empty() && self.rng.percent(45) {
            let (handle, staging) = self.rng.pick(&self.started);
            (Handle::decode(&handle), staging)
        } else {
            own
        };
        let chance = if wild { 40 } else { 10 };
        if self.rng.percent(chance) {
            match self.rng.below(10) {
                0 => handle = Handle::decode(&self.rng.array()),
                1 => handle = Handle::decode(&Handle::ZERO),
                // Behind the name, or in it.
                2 => handle.name[self.rng.below(64)] = self.rng.number() as u8,
                3 => handle.name_length = self.rng.below(65) as u32,
                _ => cast::break_handle(&mut self.rng, &mut handle),
            }
        }
        if self.rng.percent(chance) {
            let at = self.rng.below(staging.len());
            staging[at] ^= 1 << self.rng.below(8);
        }
        if self.rng.percent(chance / 3) {
            staging = self.odd(&ODD_STAGINGS);
        }
        (set.key, handle, staging)
    }

    fn set_add_data(&mut self, wild: bool) -> Call {
        let (_, mut handle, staging) = self.in_chunks(wild);
        if handle.count == handle.declared && self.rng.percent(60) {
            handle.count = self.rng.below(handle.count as usize + 1) as u32;
        }
        let rest = handle.declared.saturating_sub(handle.count).min(600) as usize;
        let length = match self.rng.below(20) {
            0 | 1 => 0,
            2 | 3 => 1,
            4..=10 => rest,
            11 | 12 => rest + 1,
            13 => self.rng.pick(&[480, 481, 1000]),
            14 if self.rng.percent(20) => (1 << 16) + rest,
            _ => self.rng.below(rest + 1),
        };
        Call::SetAddData {
            handle: handle.encode(),
            staging,
            chunk: self.rng.bytes(length),
        }
    }

    fn set_finalize(&mut self, wild: bool) -> Call {
        let (key, handle, staging) = self.in_chunks(wild);
        Call::SetFinalize {
            key,
            handle: handle.encode(),
            staging,
        }
    }

    fn any_material(&mut self, wild: bool) -> Vec<u8> {
        let chance = if wild { 30 } else { 5 };
        if self.rng.percent(chance) {
            let size = self.rng.pick(&[445, 446, 480, 481, 600]);
            self.rng.bytes(size)
        } else {
            cast::material(&mut self.rng)
        }
    }

    fn key_buffer(&mut self, wild: bool) -> Vec<u8> {
        let chance = if wild { 30 } else { 5 };
        let length = if self.rng.percent(chance) {
            self.rng.pick(&[0, 1, 36, 444, 479])
        } else {
            self.rng.pick(&[480, 480, 481, 516, 600])
        };
        self.rng.bytes(length)
    }

    fn walk(&mut self, wild: bool) -> Call {
        let hostile = if wild { 30 } else { 5 };
        let prefix = if self.rng.percent(hostile) {
            cast::hostile_name(&mut self.rng)
        } else if self.rng.percent(40) {
            Vec::new()
        } else {
            let name = self.name(false);
            let length = self.rng.below(name.len() + 1);
            let length = self.rng.pick(&[1.min(name.len()), length, name.len()]);
            name[..length].to_vec()
        };
        let places = self.card.len() / PLACE;
        let start = match self.rng.below(10) {
            0..=4 => 0,
            5..=7 => self.rng.below(places + 2),
            8 => places.saturating_sub(1),
            _ => {
                let wild = [
                    places,
                    places + 1,
                    usize::MAX,
                    1 << 32,
                    usize::MAX / PLACE + 1,
                ];
                self.rng.pick(&wild)
            }
        };
        let length = if self.rng.percent(hostile) {
            self.rng.pick(&[0, 1, 63])
        } else {
            self.rng.pick(&[64, 64, 65, 100])
        };
        Call::Walk {
            prefix,
            start,
            name_buffer: self.rng.bytes(length),
        }
    }
}
