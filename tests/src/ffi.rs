//! The product's static library, called with guarded copies of every buffer.

use std::mem::{align_of, size_of};
use std::ops::Range;
use std::os::raw::{c_float, c_uchar};

use reference::aes::Block;
use reference::answer::Answer;
use reference::calls::Call;
use reference::ctr::Iv;
use reference::handle::HandleBytes;
use reference::keyfile::Attributes;
use reference::library::{Library, Observed, Seen};

type Bytes = *const c_uchar;
type BytesMut = *mut c_uchar;

extern "C" {
    fn securestore_set(
        kv: BytesMut,
        kv_len: usize,
        rbp: BytesMut,
        rbp_len: usize,
        key: Bytes,
        key_len: usize,
        name: Bytes,
        name_len: usize,
        flags: u32,
        iv: Bytes,
        iv_len: usize,
        data: Bytes,
        data_len: usize,
    ) -> u32;
    fn securestore_get(
        kv: Bytes,
        kv_len: usize,
        rbp: Bytes,
        rbp_len: usize,
        key: Bytes,
        key_len: usize,
        name: Bytes,
        name_len: usize,
        offset: usize,
        out: BytesMut,
        out_len: usize,
        count: *mut usize,
    ) -> u32;
    fn securestore_get_info(
        kv: Bytes,
        kv_len: usize,
        rbp: Bytes,
        rbp_len: usize,
        key: Bytes,
        key_len: usize,
        name: Bytes,
        name_len: usize,
        data_size: *mut u32,
        flags: *mut u32,
    ) -> u32;
    fn securestore_remove(
        kv: BytesMut,
        kv_len: usize,
        rbp: BytesMut,
        rbp_len: usize,
        name: Bytes,
        name_len: usize,
    ) -> u32;
    fn securestore_reset(kv: BytesMut, kv_len: usize, rbp: BytesMut, rbp_len: usize) -> u32;
    fn securestore_iterator_next(
        kv: Bytes,
        kv_len: usize,
        rbp: Bytes,
        rbp_len: usize,
        prefix: Bytes,
        prefix_len: usize,
        start: usize,
        name_buf: BytesMut,
        name_buf_len: usize,
        name_len: *mut usize,
        next: *mut usize,
    ) -> u32;
    fn securestore_aes128_encrypt(key: Bytes, block: BytesMut);
    fn securestore_cmac(key: Bytes, message: Bytes, message_len: usize, tag: BytesMut);
    fn securestore_tag_difference(a: Bytes, b: Bytes) -> u32;
    fn securestore_ctr(key: Bytes, iv: Bytes, data: BytesMut, data_len: usize);
    fn securestore_derive(
        device_key: Bytes,
        prefix: Bytes,
        prefix_len: usize,
        name: Bytes,
        name_len: usize,
        out: BytesMut,
    );
    fn securestore_format_key_file(
        lifetime: u32,
        kind: u32,
        usage: u32,
        alg: u32,
        enrollment_alg: u32,
        material: Bytes,
        material_len: usize,
        key_buf: BytesMut,
        key_buf_len: usize,
        count: *mut usize,
    ) -> u32;
    fn securestore_save_key(
        kv: BytesMut,
        kv_len: usize,
        rbp: BytesMut,
        rbp_len: usize,
        key: Bytes,
        key_len: usize,
        id: u32,
        lifetime: u32,
        kind: u32,
        usage: u32,
        alg: u32,
        enrollment_alg: u32,
        material: Bytes,
        material_len: usize,
        flags: u32,
        iv: Bytes,
        iv_len: usize,
    ) -> u32;
    fn securestore_load_key(
        kv: Bytes,
        kv_len: usize,
        rbp: Bytes,
        rbp_len: usize,
        key: Bytes,
        key_len: usize,
        id: u32,
        key_buf: BytesMut,
        key_buf_len: usize,
        count: *mut usize,
    ) -> u32;
    fn securestore_parse_key_file(
        file: Bytes,
        file_len: usize,
        lifetime: *mut u32,
        kind: *mut u32,
        usage: *mut u32,
        alg: *mut u32,
        enrollment_alg: *mut u32,
        material_len: *mut u32,
    ) -> u32;
    pub fn securestore_set_start(
        name: Bytes,
        name_len: usize,
        flags: u32,
        iv: Bytes,
        iv_len: usize,
        final_data_size: usize,
        handle: BytesMut,
    ) -> u32;
    pub fn securestore_set_add_data(
        handle: BytesMut,
        staging: BytesMut,
        staging_len: usize,
        chunk: Bytes,
        chunk_len: usize,
    ) -> u32;
    pub fn securestore_set_finalize(
        kv: BytesMut,
        kv_len: usize,
        rbp: BytesMut,
        rbp_len: usize,
        key: Bytes,
        key_len: usize,
        handle: Bytes,
        staging: Bytes,
        staging_len: usize,
    ) -> u32;
    pub fn securestore_store_mix(
        kv: BytesMut,
        kv_len: usize,
        rbp: BytesMut,
        rbp_len: usize,
        key: Bytes,
        key_len: usize,
        name: Bytes,
        name_len: usize,
        flags: u32,
        iv: Bytes,
        iv_len: usize,
        mix: Bytes,
        mix_len: usize,
    ) -> u32;
    pub fn securestore_find_mix(
        kv: Bytes,
        kv_len: usize,
        rbp: Bytes,
        rbp_len: usize,
        key: Bytes,
        key_len: usize,
        session_id: u64,
        mix_buf: BytesMut,
        mix_buf_len: usize,
        count: *mut usize,
    ) -> u32;
    pub fn securestore_encode_mix(
        session_id: u64,
        tags: Bytes,
        tags_len: usize,
        levels: *const c_float,
        levels_len: usize,
        pans: *const c_float,
        pans_len: usize,
        mix_buf: BytesMut,
        mix_buf_len: usize,
        count: *mut usize,
    ) -> u32;
    pub fn securestore_decode_mix(
        mix: Bytes,
        mix_len: usize,
        session_id: *mut u64,
        tags: BytesMut,
        tags_len: usize,
        levels: *mut c_float,
        levels_len: usize,
        pans: *mut c_float,
        pans_len: usize,
        sends: *mut usize,
    ) -> u32;
}

const GUARD: usize = 64;

/// A copy of a lent buffer between two guards, so that a write outside is seen.
struct Lent {
    what: &'static str,
    /// Where the content starts.
    front: usize,
    bytes: Vec<u8>,
    before: Vec<u8>,
}

impl Lent {
    fn new(what: &'static str, content: &[u8]) -> Lent {
        Lent::aligned(what, content, 1)
    }

    /// Floats, given as bits: they pass through no float here.
    fn floats(what: &'static str, bits: &[u32]) -> Lent {
        let content: Vec<u8> = bits.iter().flat_map(|bits| bits.to_ne_bytes()).collect();
        Lent::aligned(what, &content, align_of::<c_float>())
    }

    fn aligned(what: &'static str, content: &[u8], align: usize) -> Lent {
        // Firmware's buffers start at any address that suits their type. The content
        // decides, so that a repeated call is lent the same.
        let sum: usize = content.iter().map(|byte| usize::from(*byte)).sum();
        let front = GUARD + (sum + content.len()) % 16;
        // All the room is taken at once: the bytes stay where they are.
        let mut bytes = Vec::with_capacity(front + align + content.len() + GUARD);
        let start = bytes.as_ptr() as usize + front;
        let front = front + (align - start % align) % align;
        bytes.resize(front, 0xa5);
        bytes.extend(content);
        bytes.extend([0x5a; GUARD]);
        Lent {
            what,
            front,
            before: bytes.clone(),
            bytes,
        }
    }

    fn place(&self) -> Range<usize> {
        self.front..self.bytes.len() - GUARD
    }

    fn len(&self) -> usize {
        self.place().len()
    }

    fn ptr(&self) -> Bytes {
        self.bytes[self.front..].as_ptr()
    }

    fn ptr_mut(&mut self) -> BytesMut {
        self.bytes[self.front..].as_mut_ptr()
    }

    fn content(&self) -> &[u8] {
        &self.bytes[self.place()]
    }

    fn floats_ptr(&mut self) -> (*mut c_float, usize) {
        (self.ptr_mut().cast(), self.len() / size_of::<c_float>())
    }

    fn float_bits(&self) -> Vec<u32> {
        let four = |bytes: &[u8]| u32::from_ne_bytes(bytes.try_into().expect("four bytes"));
        self.content().chunks_exact(4).map(four).collect()
    }

    /// A write outside the buffer.
    fn overrun(&self) -> Option<String> {
        let changed = (0..self.bytes.len())
            .filter(|at| !self.place().contains(at))
            .find(|at| self.bytes[*at] != self.before[*at]);
        changed.map(|at| {
            let at = at as i64 - self.front as i64;
            format!("{} was written outside, at byte {at}", self.what)
        })
    }

    /// A write to a buffer that the call may only read.
    fn written(&self) -> Option<String> {
        let changed = self.content() != &self.before[self.place()];
        let note = format!("{} was written, though only lent to read", self.what);
        changed.then_some(note).or_else(|| self.overrun())
    }
}

/// A number that the call returns, between guards and with a value that no call
/// returns, so that a number left unwritten is seen.
struct Number<T>([T; 3]);

const UNWRITTEN: usize = 0x5eed_5eed;

impl Number<usize> {
    fn new() -> Self {
        Number([UNWRITTEN; 3])
    }
}

impl Number<u32> {
    fn new() -> Self {
        Number([UNWRITTEN as u32; 3])
    }
}

impl Number<u64> {
    fn new() -> Self {
        Number([UNWRITTEN as u64; 3])
    }
}

impl<T> Number<T> {
    fn ptr(&mut self) -> *mut T {
        &mut self.0[1]
    }
}

impl<T: Copy + PartialEq + TryInto<u64>> Number<T> {
    fn value(&self, unwritten: T, strays: &mut Vec<String>) -> u64 {
        if self.0[0] != unwritten || self.0[2] != unwritten {
            strays.push("a write beside a returned number".into());
        }
        self.0[1].try_into().unwrap_or(u64::MAX)
    }
}

pub struct Product;

impl Library for Product {
    fn call(&self, card: &[u8], chip: &[u8], call: &Call) -> Observed {
        let mut lent = Lending {
            card: Lent::new("card", card),
            chip: Lent::new("chip", chip),
            output: Lent::new("output", call.output()),
            handle: Lent::new("handle", call.handle()),
            levels: Lent::floats("levels", call.floats()[0]),
            pans: Lent::floats("pans", call.floats()[1]),
            read_only: Vec::new(),
            returned: [0; 2],
            strays: Vec::new(),
        };
        let number = lent.run(call);
        lent.observe(number)
    }

    fn aes(&self, key: &Block, block: &Block) -> Seen<Block> {
        let key = Lent::new("key", key);
        let mut block = Lent::new("block", block);
        // SAFETY: both buffers have the 16 bytes that the call asks for.
        unsafe { securestore_aes128_encrypt(key.ptr(), block.ptr_mut()) };
        cipher_result(&[&key], &block).map(to_block)
    }

    fn cmac(&self, key: &Block, message: &[u8]) -> Seen<Block> {
        let (key, message) = (Lent::new("key", key), Lent::new("message", message));
        let mut tag = Lent::new("tag", &[0xee; 16]);
        // SAFETY: key and tag have 16 bytes, and the message its length.
        unsafe { securestore_cmac(key.ptr(), message.ptr(), message.len(), tag.ptr_mut()) };
        cipher_result(&[&key, &message], &tag).map(to_block)
    }

    fn tag_difference(&self, a: &Block, b: &Block) -> Seen<u32> {
        let (a, b) = (Lent::new("first tag", a), Lent::new("second tag", b));
        // SAFETY: both buffers have the 16 bytes that the call asks for.
        let number = unsafe { securestore_tag_difference(a.ptr(), b.ptr()) };
        match a.written().or_else(|| b.written()) {
            Some(stray) => Err(stray),
            None => Ok(number),
        }
    }

    fn ctr(&self, key: &Block, iv: &Iv, data: &[u8]) -> Seen<Vec<u8>> {
        let (key, iv) = (Lent::new("key", key), Lent::new("IV", iv));
        let mut data = Lent::new("data", data);
        // SAFETY: key and IV have 16 and 8 bytes, and the data its length.
        unsafe { securestore_ctr(key.ptr(), iv.ptr(), data.ptr_mut(), data.len()) };
        cipher_result(&[&key, &iv], &data)
    }

    fn derive(&self, key: &Block, prefix: &[u8], name: &[u8]) -> Seen<Block> {
        let key = Lent::new("key", key);
        let (prefix, name) = (Lent::new("prefix", prefix), Lent::new("name", name));
        let mut out = Lent::new("derived key", &[0xee; 16]);
        // SAFETY: key and output have 16 bytes, prefix and name their lengths.
        unsafe {
            securestore_derive(
                key.ptr(),
                prefix.ptr(),
                prefix.len(),
                name.ptr(),
                name.len(),
                out.ptr_mut(),
            )
        };
        cipher_result(&[&key, &prefix, &name], &out).map(to_block)
    }

    fn parse_key_file(&self, file: &[u8]) -> Seen<(u32, [u32; 6])> {
        let lent = Lent::new("file", file);
        let mut numbers: [Number<u32>; 6] = std::array::from_fn(|_| Number::<u32>::new());
        let [lifetime, kind, usage, alg, enrollment, material_len] = &mut numbers;
        // SAFETY: the file has its length, and each number a place of its own.
        let number = unsafe {
            securestore_parse_key_file(
                lent.ptr(),
                lent.len(),
                lifetime.ptr(),
                kind.ptr(),
                usage.ptr(),
                alg.ptr(),
                enrollment.ptr(),
                material_len.ptr(),
            )
        };
        let unwritten = UNWRITTEN as u32;
        let mut strays: Vec<String> = lent.written().into_iter().collect();
        for number in &numbers {
            number.value(unwritten, &mut strays);
        }
        let values = numbers.map(|number| number.0[1]);
        // A file can carry this very number, but hardly by chance.
        let carried = file.windows(4).any(|four| four == unwritten.to_le_bytes());
        if values.contains(&unwritten) && !carried {
            strays.push("a number was left unwritten".into());
        }
        match strays.pop() {
            Some(stray) => Err(stray),
            None => Ok((number, values)),
        }
    }
}

fn cipher_result(read_only: &[&Lent], result: &Lent) -> Seen<Vec<u8>> {
    let stray = read_only.iter().find_map(|lent| lent.written());
    match stray.or_else(|| result.overrun()) {
        Some(stray) => Err(stray),
        None => Ok(result.content().to_vec()),
    }
}

fn to_block(bytes: Vec<u8>) -> Block {
    bytes.try_into().expect("16 bytes were lent")
}

/// All that one call is lent.
struct Lending {
    card: Lent,
    chip: Lent,
    output: Lent,
    handle: Lent,
    levels: Lent,
    pans: Lent,
    read_only: Vec<Lent>,
    returned: [u64; 2],
    strays: Vec<String>,
}

impl Lending {
    fn observe(mut self, number: u32) -> Observed {
        let bytes = [&self.card, &self.chip, &self.output, &self.handle];
        let writable = bytes.into_iter().chain([&self.levels, &self.pans]);
        let overruns = writable.filter_map(Lent::overrun);
        let written = self.read_only.iter().filter_map(Lent::written);
        self.strays.extend(overruns.chain(written));
        Observed {
            answer: Answer {
                number,
                returned: self.returned,
                card: self.card.content().to_vec(),
                chip: self.chip.content().to_vec(),
                output: self.output.content().to_vec(),
                handle: self.handle.content().to_vec(),
                levels: self.levels.float_bits(),
                pans: self.pans.float_bits(),
            },
            strays: self.strays,
        }
    }

    /// Lends a buffer to read; the pointer holds as long as the lending.
    fn read(&mut self, what: &'static str, content: &[u8]) -> (Bytes, usize) {
        let lent = Lent::new(what, content);
        let place = (lent.ptr(), lent.len());
        self.read_only.push(lent);
        place
    }

    /// The same for floats.
    fn read_floats(&mut self, what: &'static str, bits: &[u32]) -> (*const c_float, usize) {
        let lent = Lent::floats(what, bits);
        let place = (lent.ptr().cast(), bits.len());
        self.read_only.push(lent);
        place
    }

    /// Card, chip and output, with their lengths.
    fn areas(&mut self) -> [(BytesMut, usize); 3] {
        [&mut self.card, &mut self.chip, &mut self.output].map(|lent| (lent.ptr_mut(), lent.len()))
    }

    fn run(&mut self, call: &Call) -> u32 {
        match call {
            Call::Set {
                key,
                name,
                flags,
                iv,
                data,
            } => self.set(key, name, *flags, iv, data),
            Call::Get {
                key, name, offset, ..
            } => self.get(key, name, *offset),
            Call::Info { key, name } => self.info(key, name),
            Call::Remove { name } => self.remove(name),
            Call::Reset => self.reset(),
            Call::Walk { prefix, start, .. } => self.walk(prefix, *start),
            Call::WriteKeyFile {
                attributes,
                material,
                ..
            } => self.write_key_file(attributes, material),
            Call::KeepKey {
                key,
                identifier,
                attributes,
                material,
                flags,
                iv,
            } => self.keep_key(key, *identifier, attributes, material, *flags, iv),
            Call::LoadKey {
                key, identifier, ..
            } => self.load_key(key, *identifier),
            Call::SetStart {
                name,
                flags,
                iv,
                declared,
                ..
            } => self.set_start(name, *flags, iv, *declared),
            Call::SetAddData { chunk, .. } => self.set_add_data(chunk),
            Call::SetFinalize {
                key,
                handle,
                staging,
            } => self.set_finalize(key, handle, staging),
            Call::StoreMix {
                key,
                name,
                flags,
                iv,
                mix,
            } => self.store_mix(key, name, *flags, iv, mix),
            Call::FindMix { key, session, .. } => self.find_mix(key, *session),
            Call::EncodeMix {
                session,
                tags,
                levels,
                pans,
                ..
            } => self.encode_mix(*session, tags, levels, pans),
            Call::DecodeMix { mix, .. } => self.decode_mix(mix),
        }
    }
}

/// The calls, one each.
// SAFETY, of every one: each pointer is to a live buffer of the length beside it,
// or of a handle's 88 bytes, no two overlap, and numbers are returned to places
// of their own type.
impl Lending {
    fn set(&mut self, key: &[u8], name: &[u8], flags: u32, iv: &[u8], data: &[u8]) -> u32 {
        let [(kv, kv_len), (rbp, rbp_len), _] = self.areas();
        let (key, key_len) = self.read("device key", key);
        let (name, name_len) = self.read("name", name);
        let (iv, iv_len) = self.read("IV", iv);
        let (data, data_len) = self.read("data", data);
        unsafe {
            securestore_set(
                kv, kv_len, rbp, rbp_len, key, key_len, name, name_len, flags, iv, iv_len, data,
                data_len,
            )
        }
    }

    fn get(&mut self, key: &[u8], name: &[u8], offset: usize) -> u32 {
        let [(kv, kv_len), (rbp, rbp_len), (out, out_len)] = self.areas();
        let (key, key_len) = self.read("device key", key);
        let (name, name_len) = self.read("name", name);
        let mut count = Number::<usize>::new();
        let number = unsafe {
            securestore_get(
                kv,
                kv_len,
                rbp,
                rbp_len,
                key,
                key_len,
                name,
                name_len,
                offset,
                out,
                out_len,
                count.ptr(),
            )
        };
        self.returned[0] = count.value(UNWRITTEN, &mut self.strays);
        number
    }

    fn info(&mut self, key: &[u8], name: &[u8]) -> u32 {
        let [(kv, kv_len), (rbp, rbp_len), _] = self.areas();
        let (key, key_len) = self.read("device key", key);
        let (name, name_len) = self.read("name", name);
        let (mut data_size, mut flags) = (Number::<u32>::new(), Number::<u32>::new());
        let number = unsafe {
            securestore_get_info(
                kv,
                kv_len,
                rbp,
                rbp_len,
                key,
                key_len,
                name,
                name_len,
                data_size.ptr(),
                flags.ptr(),
            )
        };
        let unwritten = UNWRITTEN as u32;
        self.returned[0] = data_size.value(unwritten, &mut self.strays);
        self.returned[1] = flags.value(unwritten, &mut self.strays);
        number
    }

    fn remove(&mut self, name: &[u8]) -> u32 {
        let [(kv, kv_len), (rbp, rbp_len), _] = self.areas();
        let (name, name_len) = self.read("name", name);
        unsafe { securestore_remove(kv, kv_len, rbp, rbp_len, name, name_len) }
    }

    fn reset(&mut self) -> u32 {
        let [(kv, kv_len), (rbp, rbp_len), _] = self.areas();
        unsafe { securestore_reset(kv, kv_len, rbp, rbp_len) }
    }

    fn walk(&mut self, prefix: &[u8], start: usize) -> u32 {
        let [(kv, kv_len), (rbp, rbp_len), (out, out_len)] = self.areas();
        let (prefix, prefix_len) = self.read("prefix", prefix);
        let (mut name_len, mut next) = (Number::<usize>::new(), Number::<usize>::new());
        let number = unsafe {
            securestore_iterator_next(
                kv,
                kv_len,
                rbp,
                rbp_len,
                prefix,
                prefix_len,
                start,
                out,
                out_len,
                name_len.ptr(),
                next.ptr(),
            )
        };
        self.returned[0] = name_len.value(UNWRITTEN, &mut self.strays);
        self.returned[1] = next.value(UNWRITTEN, &mut self.strays);
        number
    }

    fn write_key_file(&mut self, attributes: &Attributes, material: &[u8]) -> u32 {
        let [_, _, (out, out_len)] = self.areas();
        let (material, material_len) = self.read("material", material);
        let mut count = Number::<usize>::new();
        let number = unsafe {
            securestore_format_key_file(
                attributes.lifetime,
                attributes.kind,
                attributes.usage,
                attributes.algorithm,
                attributes.enrollment,
                material,
                material_len,
                out,
                out_len,
                count.ptr(),
            )
        };
        self.returned[0] = count.value(UNWRITTEN, &mut self.strays);
        number
    }

    fn keep_key(
        &mut self,
        key: &[u8],
        identifier: u32,
        attributes: &Attributes,
        material: &[u8],
        flags: u32,
        iv: &[u8],
    ) -> u32 {
        let [(kv, kv_len), (rbp, rbp_len), _] = self.areas();
        let (key, key_len) = self.read("device key", key);
        let (material, material_len) = self.read("material", material);
        let (iv, iv_len) = self.read("IV", iv);
        unsafe {
            securestore_save_key(
                kv,
                kv_len,
                rbp,
                rbp_len,
                key,
                key_len,
                identifier,
                attributes.lifetime,
                attributes.kind,
                attributes.usage,
                attributes.algorithm,
                attributes.enrollment,
                material,
                material_len,
                flags,
                iv,
                iv_len,
            )
        }
    }

    fn load_key(&mut self, key: &[u8], identifier: u32) -> u32 {
        let [(kv, kv_len), (rbp, rbp_len), (out, out_len)] = self.areas();
        let (key, key_len) = self.read("device key", key);
        let mut count = Number::<usize>::new();
        let number = unsafe {
            securestore_load_key(
                kv,
                kv_len,
                rbp,
                rbp_len,
                key,
                key_len,
                identifier,
                out,
                out_len,
                count.ptr(),
            )
        };
        self.returned[0] = count.value(UNWRITTEN, &mut self.strays);
        number
    }
    fn set_start(&mut self, name: &[u8], flags: u32, iv: &[u8], declared: usize) -> u32 {
        let (name, name_len) = self.read("name", name);
        let (iv, iv_len) = self.read("IV", iv);
        let handle = self.handle.ptr_mut();
        unsafe { securestore_set_start(name, name_len, flags, iv, iv_len, declared, handle) }
    }

    fn set_add_data(&mut self, chunk: &[u8]) -> u32 {
        let [_, _, (staging, staging_len)] = self.areas();
        let (chunk, chunk_len) = self.read("chunk", chunk);
        let handle = self.handle.ptr_mut();
        unsafe { securestore_set_add_data(handle, staging, staging_len, chunk, chunk_len) }
    }

    fn set_finalize(&mut self, key: &[u8], handle: &HandleBytes, staging: &[u8]) -> u32 {
        let [(kv, kv_len), (rbp, rbp_len), _] = self.areas();
        let (key, key_len) = self.read("device key", key);
        let (handle, _) = self.read("handle", handle);
        let (staging, staging_len) = self.read("staging buffer", staging);
        unsafe {
            securestore_set_finalize(
                kv,
                kv_len,
                rbp,
                rbp_len,
                key,
                key_len,
                handle,
                staging,
                staging_len,
            )
        }
    }

    fn store_mix(&mut self, key: &[u8], name: &[u8], flags: u32, iv: &[u8], mix: &[u8]) -> u32 {
        let [(kv, kv_len), (rbp, rbp_len), _] = self.areas();
        let (key, key_len) = self.read("device key", key);
        let (name, name_len) = self.read("name", name);
        let (iv, iv_len) = self.read("IV", iv);
        let (mix, mix_len) = self.read("mix", mix);
        unsafe {
            securestore_store_mix(
                kv, kv_len, rbp, rbp_len, key, key_len, name, name_len, flags, iv, iv_len, mix,
                mix_len,
            )
        }
    }

    fn find_mix(&mut self, key: &[u8], session: u64) -> u32 {
        let [(kv, kv_len), (rbp, rbp_len), (out, out_len)] = self.areas();
        let (key, key_len) = self.read("device key", key);
        let mut count = Number::<usize>::new();
        let number = unsafe {
            securestore_find_mix(
                kv,
                kv_len,
                rbp,
                rbp_len,
                key,
                key_len,
                session,
                out,
                out_len,
                count.ptr(),
            )
        };
        self.returned[0] = count.value(UNWRITTEN, &mut self.strays);
        number
    }

    fn encode_mix(&mut self, session: u64, tags: &[u8], levels: &[u32], pans: &[u32]) -> u32 {
        let [_, _, (out, out_len)] = self.areas();
        let (tags, tags_len) = self.read("tags", tags);
        let (levels, levels_len) = self.read_floats("levels", levels);
        let (pans, pans_len) = self.read_floats("pans", pans);
        let mut count = Number::<usize>::new();
        let number = unsafe {
            securestore_encode_mix(
                session,
                tags,
                tags_len,
                levels,
                levels_len,
                pans,
                pans_len,
                out,
                out_len,
                count.ptr(),
            )
        };
        self.returned[0] = count.value(UNWRITTEN, &mut self.strays);
        number
    }

    fn decode_mix(&mut self, mix: &[u8]) -> u32 {
        let [_, _, (tags, tags_len)] = self.areas();
        let (levels, levels_len) = self.levels.floats_ptr();
        let (pans, pans_len) = self.pans.floats_ptr();
        let (mix, mix_len) = self.read("mix", mix);
        let (mut session, mut sends) = (Number::<u64>::new(), Number::<usize>::new());
        let number = unsafe {
            securestore_decode_mix(
                mix,
                mix_len,
                session.ptr(),
                tags,
                tags_len,
                levels,
                levels_len,
                pans,
                pans_len,
                sends.ptr(),
            )
        };
        self.returned[0] = session.value(UNWRITTEN as u64, &mut self.strays);
        self.returned[1] = sends.value(UNWRITTEN, &mut self.strays);
        number
    }
}
