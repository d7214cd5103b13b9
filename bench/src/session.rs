//! The same session three times: by the original, by the port, and the bare transfers, which are the part's own share.
use crate::part::Part;
use crate::port::{self, Reply, Start};
use catcard_nfc::tag::{Bus, Tag, USER_MEMORY};
use core::hint::black_box;
use core::ptr::null;

/// What a session starts from: bytes of an earlier visitor, the label, what the phone writes back.
pub struct Story {
    pub litter: Vec<(usize, usize)>,
    pub label: Vec<u8>,
    pub partner: Vec<u8>,
}

impl Story {
    pub fn part(&self) -> Part {
        let mut part = Part::new();
        self.restore(&mut part);
        part
    }

    fn restore(&self, part: &mut Part) {
        for &(at, n) in &self.litter {
            part.memory[at..at + n].fill(0x41);
        }
    }
}

/// begin, write, go_live, a phone's write, read_whole, finish; the original.
pub fn original(story: &Story, mut part: Part, out: &mut [u8]) -> Part {
    story.restore(&mut part);
    let mut tag = Tag::new(part, USER_MEMORY);
    tag.begin().unwrap();
    tag.write(0, &story.label).unwrap();
    tag.go_live().unwrap();
    let mut part = tag.into_bus();
    part.phone(&story.partner);
    let mut tag = Tag::new(part, story.label.len());
    tag.read_whole(out).unwrap();
    tag.finish().unwrap();
    tag.into_bus()
}

pub struct Host {
    pub part: Part,
    state: [u8; 20],
    transfer: [u8; 19],
    reply: [u8; 64],
}

impl Host {
    pub fn new(part: Part) -> Self {
        let mut host = Self { part, state: [0; 20], transfer: [0; 19], reply: [0; 64] };
        host.restart();
        host
    }

    pub fn restart(&mut self) {
        unsafe { port::skp_tag_new(self.state.as_mut_ptr(), 20, USER_MEMORY as u64) };
    }

    pub fn start(&mut self, call: Start) -> u64 {
        unsafe {
            call(
                self.state.as_mut_ptr(),
                20,
                self.transfer.as_mut_ptr(),
                19,
                self.reply.as_mut_ptr(),
                64,
            )
        }
    }

    /// Takes an open call to its answer.
    pub fn carry_out(&mut self, step: u64, data: &[u8], out: &mut [u8]) {
        self.carry_out_with(port::skp_tag_reply, step, data, out);
    }

    #[inline(always)]
    fn carry_out_with(&mut self, reply: Reply, mut step: u64, data: &[u8], out: &mut [u8]) {
        while step & 0xFF != 0 {
            let (dev, send, read) =
                ((step >> 8) as u8, (step >> 16) as u16 as usize, (step >> 32) as u16 as usize);
            let sent = &self.transfer[..send];
            let taken = match step & 0xFF {
                1 => self.part.write(dev, sent),
                2 => self.part.write_read(dev, sent, &mut self.reply[..read]),
                3 => self.part.write_read(dev, sent, &mut out[..read]),
                _ => Ok(self.part.delay_ms((step >> 32) as u32)),
            };
            let (lent, room) = (data.as_ptr(), if out.is_empty() { null() } else { out.as_ptr() });
            step = unsafe {
                reply(
                    self.state.as_mut_ptr(),
                    20,
                    self.transfer.as_mut_ptr(),
                    19,
                    self.reply.as_mut_ptr(),
                    64,
                    lent,
                    data.len() as u64,
                    room,
                    out.len() as u64,
                    taken.is_ok() as u32,
                )
            };
        }
        assert_eq!(step >> 8 & 0xFF, 0);
    }

    fn call(&mut self, call: Start) {
        let step = self.start(call);
        self.carry_out(step, &[], &mut []);
    }
}

/// The same by the port.
pub fn port(story: &Story, host: &mut Host, out: &mut [u8]) {
    story.restore(&mut host.part);
    host.restart();
    host.call(port::skp_tag_begin);
    let (s, t, r) = (host.state.as_mut_ptr(), host.transfer.as_mut_ptr(), host.reply.as_mut_ptr());
    let step = unsafe {
        port::skp_tag_write(s, 20, t, 19, r, 64, 0, story.label.as_ptr(), story.label.len() as u64)
    };
    host.carry_out(step, &story.label, &mut []);
    host.call(port::skp_tag_go_live);
    host.part.phone(&story.partner);
    let step =
        unsafe { port::skp_tag_read_whole(s, 20, t, 19, r, 64, out.as_ptr(), out.len() as u64) };
    host.carry_out(step, &[], out);
    host.call(port::skp_tag_finish);
}

/// The wipe of a part that is zero already: nothing but reading and looking.
pub fn scan_original(part: Part) -> Part {
    let mut tag = Tag::new(part, USER_MEMORY);
    tag.scrub().unwrap();
    tag.into_bus()
}

pub fn scan_port(host: &mut Host) {
    host.restart();
    host.call(port::skp_tag_scrub);
}

/// What a host does for a scan, whoever tells it how to go on.
pub fn scan_host(host: &mut Host) {
    host.restart();
    let step = host.start(port::skp_tag_scrub);
    host.carry_out_with(black_box(next_chunk), step, &[], &mut []);
}

/// Stands in for `skp_tag_reply`, and decides nothing: the next chunk is read, whatever was in this one.
#[rustfmt::skip]
unsafe extern "C" fn next_chunk(
    _: *mut u8, _: u64, transfer: *mut u8, _: u64, _: *mut u8, _: u64, _: *const u8, _: u64, _: *const u8, _: u64, _: u32,
) -> u64 {
    let place = transfer.cast::<[u8; 2]>();
    let next = u16::from_be_bytes(place.read()) + 64;
    place.write(next.to_be_bytes());
    if usize::from(next) < USER_MEMORY { 2 | 0x53 << 8 | 2 << 16 | 64 << 32 } else { 0 }
}

/// The transfers of a session once more, with nobody to decide on them.
pub fn bare(part: &mut Part, heard: &[(u8, Vec<u8>, usize)], out: &mut [u8]) {
    for (dev, sent, read) in heard {
        let _ = if *read == 0 {
            part.write(*dev, sent)
        } else {
            part.write_read(*dev, sent, &mut out[..*read])
        };
    }
}
