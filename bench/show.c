/* What `durability show` is measured against: reads a plan and a capture from standard input, decodes each datagram's
 * DDSI-RTPS submessages down to the inline QoS of DATA, and prints the line of each record. It reads 64 KiB at a time,
 * and its lines go out together. A faulty submessage ends a datagram with `stopped`, its place and no kind: such
 * captures are not measured. */
#include <stdint.h>
#include <stdio.h>
#include <string.h>
#include <unistd.h>

static unsigned char input[1 << 20];
static size_t from, to;
static char held[1 << 16];
static size_t length;

/* Whether so many octets are at hand, after reading more where they are not. */
static int has(size_t count) {
    while (to - from < count) {
        if (from > 0) { memmove(input, input + from, to - from); to -= from; from = 0; }
        size_t room = sizeof input - to;
        ssize_t more = read(0, input + to, room < 65536 ? room : 65536);
        if (more <= 0) return 0;
        to += (size_t)more;
    }
    return 1;
}

static void flush(void) {
    for (size_t sent = 0; sent < length;) {
        ssize_t count = write(1, held + sent, length - sent);
        if (count < 0) _exit(6);
        sent += (size_t)count;
    }
    length = 0;
}

static void number(uint64_t value) {
    char digits[20];
    int at = 20;
    do digits[--at] = (char)('0' + value % 10); while (value /= 10);
    memcpy(held + length, digits + at, 20 - at);
    length += 20 - at;
}

static void text(const char *octets) {
    size_t count = strlen(octets);
    memcpy(held + length, octets, count);
    length += count;
}

static uint16_t u16(const unsigned char *p, int little) {
    return little ? p[0] | p[1] << 8 : p[0] << 8 | p[1];
}

static uint32_t u32(const unsigned char *p, int little) {
    return little ? p[0] | p[1] << 8 | p[2] << 16 | (uint32_t)p[3] << 24 : (uint32_t)p[0] << 24 | p[1] << 16 | p[2] << 8 | p[3];
}

static int64_t sequence(const unsigned char *p, int little) {
    return (int64_t)((uint64_t)u32(p, little) << 32 | u32(p + 4, little));
}

/* Whether the parameters end by their sentinel, and what the ones that count say. */
static int list(const unsigned char *p, size_t count, int little, unsigned char *key, int64_t *set, size_t *used) {
    for (size_t at = 0; at + 4 <= count;) {
        unsigned id = u16(p + at, little), size = u16(p + at + 2, little);
        if (id == 1) { *used = at + 4; return 1; }
        if (size % 4 || at + 4 + size > count) return 0;
        if (id == 0x70 && size >= 16) memcpy(key, p + at + 4, 16);
        if (id == 0x56 && size >= 8) *set = sequence(p + at + 4, little);
        at += 4 + size;
    }
    return 0;
}

static int set_of(const unsigned char *p, size_t count, int little) {
    if (count < 12 || sequence(p, little) < 1 || u32(p + 8, little) > 256) return 0;
    return count >= 12 + (u32(p + 8, little) + 31) / 32 * 4;
}

/* How many facts a submessage tells, or -1 where it is faulty. */
static int facts_of(unsigned id, unsigned flags, const unsigned char *p, size_t count) {
    int little = flags & 1;
    unsigned char key[16];
    int64_t set = 0;
    size_t used = 0;
    switch (id) {
    case 0x06: return count >= 24 && set_of(p + 8, count - 12, little) ? 1 : -1;
    case 0x07: return count >= 28 && sequence(p + 8, little) > 0 && sequence(p + 16, little) >= 0 ? 1 : -1;
    case 0x08: return count >= 28 && sequence(p + 8, little) > 0 && set_of(p + 16, count - 16, little) ? 1 : -1;
    case 0x09: return flags & 2 || count >= 8 ? 0 : -1;
    case 0x0c: return count >= 20 ? 0 : -1;
    case 0x0e: return count >= 12 ? 0 : -1;
    case 0x15: {
        if (count < 20 || sequence(p + 12, little) < 1 || (flags & 12) == 12) return -1;
        size_t behind = 4 + (size_t)u16(p + 2, little);
        if (behind < 20 || behind > count) return -1;
        if (flags & 2 && !list(p + behind, count - behind, little, key, &set, &used)) return -1;
        return set >= 0 ? 1 : -1;
    }
    default: return 0;
    }
}

static void datagram(const unsigned char *p, size_t count) {
    unsigned told = 0;
    size_t at = 20;
    if (count < 20 || memcmp(p, "RTPS", 4) || p[4] != 2) { text("0 badheader\n"); return; }
    while (at + 4 <= count) {
        unsigned id = p[at], flags = p[at + 1], size = u16(p + at + 2, flags & 1);
        if (size == 0 && id != 1 && id != 9) size = (unsigned)(count - at - 4);
        int more = at + 4 + size > count ? -1 : facts_of(id, flags, p + at + 4, size);
        if (more < 0) break;
        told += (unsigned)more;
        at += 4 + size;
    }
    number(told);
    if (at == count) { text(" whole\n"); return; }
    text(" stopped ");
    number(at);
    text("\n");
}

int main(void) {
    uint64_t index = 0;
    for (int line = 0; has(4) && memcmp(input + from, "end\n", 4) != 0; line++)
        while (has(1) && input[from++] != '\n') {}
    from += 4;
    while (has(14)) {
        size_t count = u32(input + from + 10, 1);
        if (!has(14 + count)) break;
        if (length > sizeof held - 128) flush();
        const unsigned char *p = input + from;
        number(++index);
        held[length++] = ' ';
        number((uint64_t)u32(p, 1) | (uint64_t)u32(p + 4, 1) << 32);
        held[length++] = ' ';
        number(u16(p + 8, 1));
        held[length++] = ' ';
        datagram(p + 14, count);
        from += 14 + count;
    }
    flush();
    return 0;
}
