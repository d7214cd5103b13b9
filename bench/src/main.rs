//! The port against the Rust original: the same inputs, one process, turn and turn about; the middle of many rounds.
mod layout;
mod part;
mod port;
mod session;

use catcard_nfc::{self as original, tag};
use std::hint::black_box;
use std::time::Instant;

const ROUNDS: usize = 1000;
const MIME: &[u8] = original::OCTET_STREAM;

/// What comes out must not be worked out beforehand, nor left out.
fn sink<T>(made: T) {
    black_box(made);
}

/// A job that is told how often to run.
type Job<'a> = &'a mut dyn FnMut(u32);

/// How often a job runs in a fifth of a millisecond, to a power of two.
fn often(job: Job) -> u32 {
    let mut often = 1;
    while timed(job, often) * f64::from(often) < 200_000.0 && often < 1 << 22 {
        often *= 2;
    }
    often
}

/// The time of one run, in nanoseconds.
fn timed(job: Job, often: u32) -> f64 {
    let start = Instant::now();
    job(often);
    start.elapsed().as_nanos() as f64 / f64::from(often)
}

/// The jobs turn and turn about, in short rounds: what slows the machine for a while slows all of them.
fn rounds<const N: usize>(mut jobs: [Job; N]) -> Vec<[f64; N]> {
    let counts = jobs.each_mut().map(|job| often(job));
    (0..ROUNDS)
        .map(|_| {
            let mut times = [0.0; N];
            for i in 0..N {
                times[i] = timed(jobs[i], counts[i]);
            }
            times
        })
        .collect()
}

fn both(mut rust: impl FnMut(), mut port: impl FnMut()) -> Vec<[f64; 2]> {
    rounds([&mut |n| (0..n).for_each(|_| rust()), &mut |n| (0..n).for_each(|_| port())])
}

/// Both sides' times, of three jobs or more.
fn whole<const N: usize>(times: &[[f64; N]]) -> Vec<[f64; 2]> {
    times.iter().map(|t| [t[0], t[1]]).collect()
}

/// Both sides' times over `n`, the third job's taken off.
fn share<const N: usize>(times: &[[f64; N]], n: f64) -> Vec<[f64; 2]> {
    times.iter().map(|t| [(t[0] - t[2]) / n, (t[1] - t[2]) / n]).collect()
}

fn median(values: impl Iterator<Item = f64>) -> f64 {
    let mut values: Vec<f64> = values.collect();
    values.sort_by(f64::total_cmp);
    values[values.len() / 2]
}

fn line(job: &str, goal: &str, times: &[[f64; 2]]) {
    let side = |i: usize| median(times.iter().map(|t| t[i]));
    let ratio = median(times.iter().map(|[rust, port]| port / rust));
    println!("| {job} | {:.1} | {:.1} | {ratio:.2} | {goal} |", side(0), side(1));
}

fn building_text() {
    let text = black_box("MARCHF1-9");
    let (mut a, mut b, mut values) = ([0u8; 64], [0u8; 64], [0u64; 2]);
    let times = both(
        || {
            let text = black_box(text);
            core::str::from_utf8(text.as_bytes()).unwrap();
            black_box(original::text_image(black_box(&mut a), 8184, text)).unwrap();
        },
        || {
            let text = black_box(text);
            unsafe {
                port::skp_text_image(
                    black_box(b.as_mut_ptr()),
                    64,
                    8184,
                    text.as_ptr(),
                    text.len() as u64,
                    values.as_mut_ptr(),
                )
            };
        },
    );
    assert_eq!(a, b);
    line("build a 9-byte text image", "1.0", &times);
}

fn building_mime() {
    let payload: Vec<u8> = (0..4096u32).map(|i| (i * 7) as u8).collect();
    let (mut a, mut b, mut values) = (vec![0u8; 4200], vec![0u8; 4200], [0u64; 2]);
    let times = both(
        || {
            black_box(original::mime_image(black_box(&mut a), 8184, MIME, black_box(&payload)))
                .unwrap();
        },
        || {
            let (p, n) = (black_box(payload.as_ptr()), payload.len() as u64);
            unsafe {
                port::skp_mime_image(
                    black_box(b.as_mut_ptr()),
                    4200,
                    8184,
                    MIME.as_ptr(),
                    MIME.len() as u64,
                    p,
                    n,
                    values.as_mut_ptr(),
                )
            };
        },
    );
    assert_eq!(a, b);
    line("build a 4 KB MIME image", "1.0", &times);
}

/// 8 KB with as many records of seven bytes as fit.
fn many_records() -> Vec<u8> {
    let count = (8192 - 8 - 4 - 1) / 7;
    let mut image = vec![
        0xE2,
        0x40,
        0,
        1,
        0,
        0,
        3,
        0xFF,
        3,
        0xFF,
        (count * 7 / 256) as u8,
        (count * 7 % 256) as u8,
    ];
    for i in 0..count {
        image.extend([if i + 1 == count { 0x51 } else { 0x11 }, 1, 3, b'T', 2, b'e', b'n']);
    }
    image.push(0xFE);
    image.resize(8192, 0);
    image
}

fn walk_original(image: &[u8]) -> usize {
    original::read(image).unwrap().map(|r| r.unwrap()).map(|r| r.kind.len() + r.payload.len()).sum()
}

fn walk_port(image: &[u8]) -> usize {
    let (mut cursor, mut record, mut sum) = (port::Cursor::default(), port::Record::default(), 0);
    let (p, n) = (image.as_ptr(), image.len() as u64);
    unsafe {
        port::skp_read(p, n, &mut cursor);
        while port::skp_next(p, n, &mut cursor, &mut record) == 0 {
            sum += record.kind_len + record.payload_len;
        }
    }
    sum as usize
}

/// An image whose one text fills 8 KB.
fn long_text(words: &str) -> Vec<u8> {
    let mut text = words.repeat(8160 / words.len());
    while text.len() < 8160 {
        text.push('x');
    }
    let mut image = vec![0; 8192];
    original::text_image(&mut image, 8184, &text).unwrap();
    image
}

/// Words of one script, and words of all of them side by side.
const TEXTS: [(&str, &str); 6] = [
    ("mixed text", "MARCH1 and HOXA13, þorskur og ýsa, Прогулка, 遺伝子, 🧬 genes; "),
    ("English", "A tile holds one gene symbol, and a visitor's phone writes its partner back. "),
    ("Icelandic", "Hver flís geymir eitt gen og sími gestsins skrifar félaga þess til baka. "),
    ("Russian", "Каждая плитка хранит один ген, а телефон гостя пишет в ответ его пару. "),
    ("Japanese", "タイルには遺伝子の名前が一つあり、来館者の電話がその相手を書き込む。"),
    ("emoji", "🧬🐟🐙🦑🦐🦀🐡🐠🐬🐳🐋🦈"),
];

fn texts() {
    for (name, words) in TEXTS {
        let image = long_text(words);
        let record = original::read(&image).unwrap().next().unwrap().unwrap();
        let (mut cursor, mut places, mut part) =
            (port::Cursor::default(), port::Record::default(), [0u64; 2]);
        unsafe {
            port::skp_read(image.as_ptr(), 8192, &mut cursor);
            assert_eq!(port::skp_next(image.as_ptr(), 8192, &mut cursor, &mut places), 0);
            assert_eq!(port::skp_text(image.as_ptr(), 8192, &places, part.as_mut_ptr()), 1);
        }
        assert_eq!(record.text().unwrap().len() as u64, part[1]);
        let times = both(
            || sink(black_box(&record).text()),
            || {
                sink(unsafe {
                    port::skp_text(black_box(image.as_ptr()), 8192, &places, part.as_mut_ptr())
                })
            },
        );
        line(&format!("UTF-8 over 8 KB, {name}"), "1.0", &times);
    }
}

fn reading() {
    let image = many_records();
    assert_eq!(walk_original(&image), walk_port(&image));
    let times =
        both(|| sink(walk_original(black_box(&image))), || sink(walk_port(black_box(&image))));
    line("read and walk 8 KB of 1,168 records", "1.0", &times);
}

fn marks() {
    for (name, end) in [("empty", 0), ("half full", 4096), ("full", 8192)] {
        let mut image = vec![0u8; 8192];
        image[..end].fill(0x41);
        assert_eq!(tag::high_water(&image) as u64, unsafe {
            port::skp_high_water(image.as_ptr(), 8192)
        });
        let times = both(
            || sink(tag::high_water(black_box(&image))),
            || sink(unsafe { port::skp_high_water(black_box(image.as_ptr()), 8192) }),
        );
        line(&format!("`high_water`, 8 KB {name}"), "far below 1", &times);
    }
}

/// A whole session. The part's own share, the same transfers with nobody to decide on them, is taken off both.
fn a_session() {
    let (mut label, mut partner) = (vec![0; 24], vec![0; 25]);
    original::text_image(&mut label, 8184, "MARCH1").unwrap();
    original::text_image(&mut partner, 8184, "HLA-DRA").unwrap();
    let story = session::Story { litter: vec![(0, 520), (2600, 240), (6992, 108)], label, partner };
    let (mut a, mut b, mut c) = (vec![0; 8192], vec![0; 8192], vec![0; 8192]);

    let mut part = story.part();
    part.heard = Some(Vec::new());
    let mut host = session::Host::new(story.part());
    host.part.heard = Some(Vec::new());
    part = session::original(&story, part, &mut a);
    session::port(&story, &mut host, &mut b);
    let heard = part.heard.take().unwrap();
    assert!(a == b && Some(&heard) == host.part.heard.as_ref() && part.memory == host.part.memory);
    host.part.heard = None;

    let (mut rust, mut bare) = (Some(part), story.part());
    let times = rounds([
        &mut |n| {
            (0..n)
                .for_each(|_| rust = Some(session::original(&story, rust.take().unwrap(), &mut a)))
        },
        &mut |n| (0..n).for_each(|_| session::port(&story, &mut host, &mut b)),
        &mut |n| (0..n).for_each(|_| session::bare(&mut bare, &heard, &mut c)),
    ]);
    let steps = heard.len() as f64;
    line(
        &format!("a whole session, {steps} transfers, with the part's share"),
        "1.5",
        &whole(&times),
    );
    line("one step of it, the part's share taken off", "1.5", &share(&times, steps));
}

/// The wipe's scan of a clean tile: with the part's share, as for a session; without it; and without the host's either, which is the
/// same host and part with nobody to look at the bytes. The original is called once and has its host inside.
fn a_scan() {
    let (mut clean, mut bare, mut c) = (Some(part::Part::new()), part::Part::new(), vec![0; 8192]);
    let (mut host, mut blind) =
        (session::Host::new(part::Part::new()), session::Host::new(part::Part::new()));
    let reads: Vec<_> = (0..128u16).map(|i| (0x53, (i * 64).to_be_bytes().to_vec(), 64)).collect();
    let times = rounds([
        &mut |n| (0..n).for_each(|_| clean = Some(session::scan_original(clean.take().unwrap()))),
        &mut |n| (0..n).for_each(|_| session::scan_port(&mut host)),
        &mut |n| (0..n).for_each(|_| session::bare(&mut bare, &reads, &mut c)),
        &mut |n| (0..n).for_each(|_| session::scan_host(&mut blind)),
    ]);
    assert_eq!(host.part.transfers % 128 + blind.part.transfers % 128, 0);
    let name = "the wipe's scan of a clean tile, 128 reads, with the part's share";
    line(name, "far below 1", &whole(&times));
    line("one read of it, the part's share taken off", "far below 1", &share(&times, 128.0));
    let own: Vec<_> = times
        .iter()
        .map(|[rust, port, part, host]| [rust - part, port - host].map(|t| t / 128.0))
        .collect();
    line("the library's own share of that read, the host's taken off too", "far below 1", &own);
}

fn main() {
    println!("| job | Rust, ns | port, ns | ratio | goal |\n|---|---|---|---|---|");
    building_text();
    building_mime();
    reading();
    texts();
    marks();
    a_session();
    a_scan();
}
