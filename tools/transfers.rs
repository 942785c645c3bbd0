// The Rust's side of tools/transfers: a microframe of its host that moves some bytes less one in which nothing is primed, in nanoseconds.
use oracle::run::Run;
use std::time::Instant;

const LIST: u32 = 0x4000_0000;
const DATA: u32 = 0x4001_0020;
const TD: u32 = 0x4002_0000;
const PAGE: u32 = 0xFC0B_0000;
const REPEATS: usize = 15;

// A host in streaming; each control request is stalled, so that nothing of a device is needed.
fn streaming(new: &str) -> Run {
    let mut r = Run::new();
    for line in [new, "h 0", "d 4 158 40000000", "d 4 140 1"] {
        r.apply(line).unwrap();
    }
    for k in 0..20_000 {
        if r.view().phase == 4 {
            break;
        }
        r.apply("w fc0b01c0 00010001").unwrap();
        r.apply("d 4 144 ffffffff").unwrap();
        r.apply(&format!("u {k:x}")).unwrap();
    }
    assert_eq!(r.view().phase, 4);
    for i in 0..9 {
        r.bus.poke32(TD + 8 + 4 * i, if i == 0 { DATA } else { (DATA & !0xFFF) + 4096 * i });
    }
    r
}

// One active dTD of `total` bytes at endpoint 2, primed if `bit` is not 0.
fn prime(r: &mut Run, head: u32, total: u32, bit: u32) {
    r.bus.poke32(head + 4, 0);
    r.bus.poke32(head + 8, TD);
    r.bus.poke32(TD, 1);
    r.bus.poke32(TD + 4, total << 16 | 0x8080);
    r.bus.poke32(PAGE + 0x1B8, bit);
}

// The best time of `moves` after each other, each primed in turn with one of the totals.
fn best(r: &mut Run, head: u32, totals: &[u32], bit: u32, moves: usize, out: bool) -> f64 {
    let mut best = f64::MAX;
    for _ in 0..REPEATS {
        if out && bit != 0 {
            let bytes: usize = totals.iter().sum::<u32>() as usize * moves;
            r.host.cdc_to_device.clear();
            r.host.cdc_to_device.extend((0..bytes).map(|k| k as u8));
        }
        let start = Instant::now();
        for _ in 0..moves {
            for &total in totals {
                prime(r, head, total, bit);
                r.host.microframe(&mut r.bus, &mut r.sending);
            }
        }
        best = best.min(start.elapsed().as_nanos() as f64 / moves as f64);
        if out && bit != 0 {
            assert!(r.host.cdc_to_device.is_empty());
        }
    }
    best
}

// In: the vendor endpoint, which keeps no byte. Out: the serial endpoint, of which a microframe takes at most 512 bytes.
fn main() {
    let mut vendor = streaming("n 400000 32 1 0 0 0 0 0 0");
    let mut serial = streaming("n 400000 32 0 0 1 0 0 0 0");
    let head = LIST + 64 * 5;
    let none = best(&mut vendor, head, &[0], 1 << 18, 40_000, false);
    println!("in 0 {:.1}", none - best(&mut vendor, head, &[0], 0, 40_000, false));
    for (total, moves) in [(368, 40_000), (32_767, 400)] {
        let head = LIST + 64 * 5;
        let before = vendor.host.stats.vendor_in_bytes;
        let full = best(&mut vendor, head, &[total], 1 << 18, moves, false);
        assert_eq!(vendor.host.stats.vendor_in_bytes - before, total as u64 * (moves * REPEATS) as u64);
        let empty = best(&mut vendor, head, &[total], 0, moves, false);
        println!("in {total} {:.1}", full - empty);
        let head = LIST + 64 * 4;
        let mut parts = vec![512; total as usize / 512];
        parts.push(total % 512);
        let full = best(&mut serial, head, &parts, 1 << 2, moves, true);
        let empty = best(&mut serial, head, &parts, 0, moves, true);
        println!("out {total} {:.1}", full - empty);
    }
}
