// Calls of target/staticlib/libexports.a from Rust, on document 01's worked examples. tools/example builds and runs it.

// A slice is its address and its length, an array its address alone.
extern "C" {
    fn usb_device_read(page: *const u8, length: usize, offset: u32, size: u32) -> u64;
    fn usb_device_write(page: *mut u8, length: usize, offset: u32, size: u32, value: u32, line: bool) -> u64;
    fn usb_parse_config(bytes: *const u8, length: usize, interfaces: &mut [u8; 256], alternates: &mut [u8; 256]) -> u64;
    fn usb_midi_send(packer: u64, cable: u8, bytes: *const u8, length: usize, queue: &mut [u8; 4096], held: u16) -> u64;
}

// The value, or the number of the refusal.
fn read(page: &[u8], offset: u32, size: u32) -> Result<u32, u8> {
    let answer = unsafe { usb_device_read(page.as_ptr(), page.len(), offset, size) };
    if answer >> 32 == 0 { Ok(answer as u32) } else { Err((answer >> 32) as u8) }
}

// The line's flag then, or the number of the refusal.
fn write(page: &mut [u8], offset: u32, size: u32, value: u32, line: bool) -> Result<bool, u8> {
    let answer = unsafe { usb_device_write(page.as_mut_ptr(), page.len(), offset, size, value, line) };
    if answer >> 32 == 0 { Ok(answer & 1 == 1) } else { Err((answer >> 32) as u8) }
}

// The pairs of interface and alternate, the input size and the output size.
fn parse_config(bytes: &[u8]) -> (Vec<(u8, u8)>, u16, u16) {
    let (mut interfaces, mut alternates) = ([0; 256], [0; 256]);
    let answer = unsafe { usb_parse_config(bytes.as_ptr(), bytes.len(), &mut interfaces, &mut alternates) };
    let pairs = interfaces.into_iter().zip(alternates).take((answer >> 32) as usize).collect();
    (pairs, answer as u16, (answer >> 16) as u16)
}

// The next packer and the bytes then queued, or the number of the refusal.
fn midi_send(packer: u64, cable: u8, bytes: &[u8], queue: &mut [u8; 4096], held: u16) -> Result<(u64, u16), u8> {
    let answer = unsafe { usb_midi_send(packer, cable, bytes.as_ptr(), bytes.len(), queue, held) };
    if answer >> 56 == 0 { Ok((answer & 0xFF_FFFF_FFFF, (answer >> 40) as u16)) } else { Err((answer >> 56) as u8) }
}

fn main() {
    let mut page = vec![0; 4096];
    page[0x147] = 0x45;
    page[0x14B] = 0x40;
    assert_eq!(write(&mut page, 0x144, 4, 0x41, true), Ok(false));
    assert_eq!(read(&page, 0x144, 4), Ok(4));
    assert_eq!(read(&page, 0xFFE, 4), Err(4));
    assert_eq!(read(&page[1..], 0x144, 4), Err(1));
    let descriptors = [9, 4, 1, 2, 1, 0xFF, 0, 0, 0, 7, 5, 0x83, 3, 0x70, 1, 1];
    assert_eq!(parse_config(&descriptors), (vec![(1, 2)], 368, 0));
    let mut queue = [0; 4096];
    assert_eq!(midi_send(0, 3, &[0xF8], &mut queue, 0), Ok((0, 4)));
    assert_eq!(queue[..4], [0x3F, 0xF8, 0, 0]);
    assert_eq!(midi_send(0, 16, &[0xF8], &mut queue, 4), Err(8));
    assert_eq!(midi_send(0, 16, &[], &mut queue, 4095), Err(8));
    println!("the same calls from Rust: as in document 01");
}
