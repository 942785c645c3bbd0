// Calls of target/staticlib/libexports.a from C, on document 01's worked examples. tools/example builds and runs it.
#include <stdbool.h>
#include <stdint.h>
#include <stdio.h>
#include <string.h>

// A slice is its address and its length, an array its address alone. Areas lent to one call must not overlap.
uint64_t usb_device_read(const uint8_t *page, size_t page_length, uint32_t offset, uint32_t size);
uint64_t usb_device_write(uint8_t *page, size_t page_length, uint32_t offset, uint32_t size, uint32_t value, bool line);
uint64_t usb_peek32(const uint8_t *dynamic, size_t dynamic_length, const uint8_t *sram, size_t sram_length, const uint8_t *page, size_t page_length, uint32_t address);
uint64_t usb_poke32(uint8_t *dynamic, size_t dynamic_length, uint8_t *sram, size_t sram_length, uint8_t *page, size_t page_length, uint32_t address, uint32_t value);
uint64_t usb_parse_config(const uint8_t *bytes, size_t length, uint8_t interfaces[256], uint8_t alternates[256]);
uint64_t usb_midi_send(uint64_t packer, uint8_t cable, const uint8_t *bytes, size_t length, uint8_t queue[4096], uint16_t held);

enum { USBSTS = 0x144, USBINTR = 0x148, DYNAMIC = 4096, SRAM = 65536, PAGE = 4096 };
static uint8_t dynamic[DYNAMIC], sram[SRAM], page[PAGE], queue[4096];
static int wrong;

static void expect(const char *what, uint64_t got, uint64_t right) {
    printf("%-48s 0x%llx\n", what, (unsigned long long)got);
    if (got != right) {
        printf("  differs: 0x%llx is right\n", (unsigned long long)right);
        wrong = 1;
    }
}

int main(void) {
    // USBSTS 45, bit 6 of it enabled: the line is up until the device clears that bit by writing 41.
    page[USBSTS + 3] = 0x45;
    page[USBINTR + 3] = 0x40;
    expect("USBSTS", usb_device_read(page, PAGE, USBSTS, 4), 0x45);
    expect("write 41 to USBSTS: the line", usb_device_write(page, PAGE, USBSTS, 4, 0x41, true), 0);
    expect("USBSTS then", usb_device_read(page, PAGE, USBSTS, 4), 4);
    expect("read across the page's end: refusal 4", usb_device_read(page, PAGE, 0xFFE, 4) >> 32, 4);
    expect("read of a short page: refusal 1", usb_device_read(page, PAGE - 1, USBSTS, 4) >> 32, 1);

    expect("a word stored: bytes dropped", usb_poke32(dynamic, DYNAMIC, sram, SRAM, page, PAGE, 0x40000010, 0x12345678), 0);
    expect("the word, one length of memory further", usb_peek32(dynamic, DYNAMIC, sram, SRAM, page, PAGE, 0x40001010), 0x12345678);
    expect("USBSTS by its address", usb_peek32(dynamic, DYNAMIC, sram, SRAM, page, PAGE, 0xFC0B0000 + USBSTS), 4);
    expect("a word stored outside: bytes dropped", usb_poke32(dynamic, DYNAMIC, sram, SRAM, page, PAGE, 0, 1), 4);

    const uint8_t descriptors[] = {9, 4, 1, 2, 1, 0xFF, 0, 0, 0, 7, 5, 0x83, 3, 0x70, 1, 1};
    uint8_t interfaces[256], alternates[256];
    uint64_t choice = usb_parse_config(descriptors, sizeof descriptors, interfaces, alternates);
    expect("interface choice: pairs", choice >> 32, 1);
    expect("interface", interfaces[0], 1);
    expect("alternate", alternates[0], 2);
    expect("input size", choice & 0xFFFF, 368);
    expect("output size", choice >> 16 & 0xFFFF, 0);

    // A message in two parts: the first answer is the packer of the second send.
    const uint8_t note[] = {0x90, 0x3C, 0x40};
    uint64_t first = usb_midi_send(0, 0, note, 2, queue, 0);
    expect("90 3C sent: bytes queued", first >> 40, 0);
    uint64_t second = usb_midi_send(first, 0, note + 2, 1, queue, first >> 40 & 0xFFFF);
    expect("40 sent: bytes queued", second >> 40, 4);
    expect("the packet is 09 90 3C 40", memcmp(queue, "\x09\x90\x3C\x40", 4) == 0, 1);
    expect("part of a packet held: refusal 5, before 7", usb_midi_send(second, 0, note, 3, queue, 4095) >> 56, 5);
    expect("no room: refusal 7", usb_midi_send(second, 0, note, 3, queue, 4096) >> 56, 7);
    uint64_t third = usb_midi_send(0, 15, note, 3, queue, second >> 40 & 0xFFFF);
    expect("a note on the last cable: bytes queued", third >> 40, 8);
    expect("its packet is F9 90 3C 40", memcmp(queue + 4, "\xF9\x90\x3C\x40", 4) == 0, 1);
    expect("no cable 16: refusal 8, before 5 and 7", usb_midi_send(second, 16, note, 3, queue, 4095) >> 56, 8);
    expect("nor for an empty send", usb_midi_send(second, 255, note, 0, queue, 4096) >> 56, 8);
    return wrong;
}
