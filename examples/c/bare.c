/* A mute and a gain on a processor without an operating system: AArch64, the board `virt` of QEMU, with a heap of 24,576 bytes. Datagrams come
 * and go over its serial line: the length in 2 bytes, the peer's address in 4 and its port in 2, the highest byte first, and the bytes. It needs
 * a stack, memory in which words may lie anywhere (here by the MMU), memcpy, memmove, memset and a clock; docs/EMBEDDING-C.md has the commands. */
#define OCA_NO_POSIX
#include <oca.h>

/* ---- the board: where it begins, its memory, its serial line and its clock ---- */

__asm__(".section .text\n.global _start\n_start:\n"
        "ldr x0, =stack_top\nmov sp, x0\nmov x0, #(3 << 20)\nmsr cpacr_el1, x0\nisb\n" /* the stack; registers of vectors may be used */
        "ldr x1, =__bss_start\nldr x2, =_end\n2: strb wzr, [x1], #1\ncmp x1, x2\nb.lo 2b\n" /* what is 0 at first */
        "bl begin\n1: wfi\nb 1b\n.global stack_top\nstack_top = stack + 32768\n");

__attribute__((aligned(16))) uint8_t stack[32768];

/* A GB a row: devices from 0 on, memory from 1 GB on. Without it each access to a word that is not aligned would fail. */
__attribute__((aligned(4096))) static uint64_t table[4] = {0x401, 0x40000705, 0, 0};

static void use_memory(void) {
    __asm__ volatile("msr mair_el1, %0\nmsr tcr_el1, %1\nmsr ttbr0_el1, %2\nisb\ntlbi vmalle1\ndsb sy\nisb\n"
                     "mrs x9, sctlr_el1\norr x9, x9, #1\norr x9, x9, #4\nbic x9, x9, #2\nmsr sctlr_el1, x9\nisb\n"
                     : : "r"(0xff00ul), "r"(0x803520ul), "r"(table) : "x9", "memory");
}

static volatile uint32_t *const serial = (volatile uint32_t *)0x09000000;
static bool has_byte(void) { return (serial[6] & 0x10) == 0; }
static uint64_t now_ms(void) {
    uint64_t ticks, each_second;
    __asm__ volatile("isb\nmrs %0, cntvct_el0\nmrs %1, cntfrq_el0" : "=r"(ticks), "=r"(each_second));
    return ticks / (each_second / 1000);
}

/* ---- what the library needs of the C library ---- */

void *memcpy(void *to, const void *from, size_t size), *memmove(void *to, const void *from, size_t size), *memset(void *to, int byte, size_t size);
void *memcpy(void *to, const void *from, size_t size) { return memmove(to, from, size); }

void *memmove(void *to, const void *from, size_t size) {
    const bool is_up = (uintptr_t)to <= (uintptr_t)from;
    for (size_t i = 0; i < size; i++) ((volatile uint8_t *)to)[is_up ? i : size - 1 - i] = ((const uint8_t *)from)[is_up ? i : size - 1 - i];
    return to;
}

void *memset(void *to, int byte, size_t size) {
    for (size_t i = 0; i < size; i++) ((volatile uint8_t *)to)[i] = (uint8_t)byte;
    return to;
}

static struct { size_t size; uint32_t ip; uint16_t port; uint8_t bytes[OCA_MOST_BYTES]; } came;

static uint32_t take(int size) {
    uint32_t number = 0;
    for (; size > 0; size--) {
        while (!has_byte()) {}
        number = number << 8 | (uint8_t)serial[0];
    }
    return number;
}

static void give(uint32_t number, int size) {
    for (; size > 0; size--) {
        while (serial[6] & 0x20) {}
        serial[0] = (uint8_t)(number >> (8 * size - 8));
    }
}

/* Receives a datagram into `came`, and waits for it until this moment; whether one came that has at most 1,472 bytes. */
static bool receive(uint64_t until) {
    while (!has_byte())
        if (now_ms() >= until) return false;
    came.size = take(2), came.ip = take(4), came.port = (uint16_t)take(2);
    for (size_t i = 0; i < came.size; i++) came.bytes[i < sizeof came.bytes ? i : sizeof came.bytes - 1] = (uint8_t)take(1);
    return came.size <= sizeof came.bytes;
}

/* ---- the device ---- */

static uint64_t behind; /* by how much its clock is behind now_ms */

/* Whether the device stood still between these moments: then what waits is dropped, and its clock counts 1,000 ms of at most a minute. */
static bool stood_still(uint64_t since, uint64_t now) {
    if (now <= since + 1000) return false;
    if (now - since <= 60000) behind += now - since - 1000;
    for (int left = OCA_DROPPED_AT_MOST; left > 0 && has_byte(); left--) (void)receive(0);
    return true;
}

static enum oca_result build(struct oca_device *device) {
    const struct oca_spec mute = oca_spec_of("mute", oca_alone(oca_mute(true)));
    const struct oca_spec gain = oca_spec_of("gain", oca_within(oca_int16(0), oca_int16(-600), oca_int16(100)));
    enum oca_result answer = oca_device_open(device, 3);
    if (answer == OCA_DONE) answer = oca_device_add(device, 100, 4097, &mute);
    if (answer == OCA_DONE) answer = oca_device_add(device, 100, 4098, &gain);
    return answer == OCA_DONE ? oca_device_start_within(device, 1, 1, 4) : answer;
}

__attribute__((used)) static void begin(void) {
    struct oca_device device = OCA_DEVICE_INIT;
    struct oca_verdict verdict = {0, 0, 0, 0, 0, 0, 0};
    use_memory();
    const enum oca_result built = build(&device);
    give(built, 2);
    uint64_t last = now_ms(); /* when the last receive returned */
    while (built == OCA_DONE) {
        (void)stood_still(last, now_ms());
        const uint64_t until = now_ms() + 500;
        const bool has_come = receive(until);
        last = now_ms();
        if (stood_still(until, last) || !has_come) {
            (void)oca_device_tick(&device, last - behind);
            continue;
        }
        (void)oca_device_datagram(&device, came.ip, came.port, came.bytes, came.size, last - behind, &verdict);
        for (size_t i = 0, size = 0; oca_device_packet(&device, i, came.bytes, sizeof came.bytes, &size) == OCA_DONE; i++) {
            give((uint32_t)size, 2), give(came.ip, 4), give(came.port, 2);
            for (size_t k = 0; k < size; k++) give(came.bytes[k], 1);
        }
    }
}
