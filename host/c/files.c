/* Cartridge files that are accepted: read, filled into buffers, created, and their bytes found again through the
 * board. */
#include "cart.h"
#include "file.h"

/* As long as any file wants them, and a byte behind. */
static uint8_t rom[1024 + 262144 + 262144 + 1], ram[8192 + 8192 + 4096 + 1];
static size_t rom_len, ram_len;
static Vrc6MemoryLayout layout;
static Vrc6Board board;

/* Reads the file's header, fills the buffers from the file and creates the board. */
static Vrc6Cartridge insert(size_t length) {
    static uint8_t file_before[sizeof file];
    memcpy(file_before, file, sizeof file);
    memset(rom, 0xEE, sizeof rom);
    memset(ram, 0xEE, sizeof ram);
    Vrc6Cartridge read = vrc6_read_header(file, length);
    expect("read_header", read.refusal, VRC6_OK);
    layout = read.layout;
    rom_len = vrc6_fixed_length(layout);
    ram_len = vrc6_changing_length(layout);
    expect("fill", vrc6_fill(file, length, rom, rom_len, ram, ram_len), VRC6_OK);
    Vrc6Settings settings = vrc6_settings_of(read);
    expect("create", vrc6_create(&board, layout, settings, rom, rom_len, ram, ram_len), VRC6_OK);
    expect("file after fill", memcmp(file, file_before, sizeof file), 0);
    return read;
}

static void all_are(const char *what, const uint8_t *bytes, size_t n, uint8_t wanted) {
    size_t wrong = 0;
    for (size_t i = 0; i < n; i++) wrong += bytes[i] != wanted;
    expect(what, (int64_t)wrong, 0);
}

/* The fixed buffer is zeros, PRG and CHR, the changing one zeros, and what lies behind them stays. */
static void filled(Vrc6Cartridge read) {
    size_t rom_chr = layout.chr_writable ? 0 : layout.chr;
    expect("fixed length", (int64_t)rom_len, (int64_t)(1024 + layout.prg_rom + rom_chr));
    all_are("first page", rom, 1024, 0);
    expect("PRG in the buffer", memcmp(rom + 1024, file + read.prg_start, layout.prg_rom), 0);
    expect("CHR in the buffer", memcmp(rom + 1024 + layout.prg_rom, file + read.chr_start, rom_chr), 0);
    all_are("changing buffer", ram, ram_len, 0);
    all_are("behind the fixed buffer", rom + rom_len, sizeof rom - rom_len, 0xEE);
    all_are("behind the changing buffer", ram + ram_len, sizeof ram - ram_len, 0xEE);
}

static void write_register(uint16_t addr, int val) {
    uint8_t refusal = vrc6_cpu_write(&board, rom, rom_len, ram, ram_len, addr, (uint8_t)val);
    expect("cpu_write", refusal, VRC6_OK);
}

/* Every byte of PRG, each 16 KiB bank shown at $8000. */
static void prg_shown(size_t prg_start) {
    size_t wrong = 0;
    for (uint32_t at = 0; at < layout.prg_rom; at++) {
        uint16_t addr = (uint16_t)(0x8000 + at % PRG_UNIT);
        if (at % PRG_UNIT == 0) write_register(0x8000, (int)(at / PRG_UNIT));
        Vrc6Peeked seen = vrc6_cpu_read(&board, rom, rom_len, ram, ram_len, addr, BUS);
        wrong += seen.refusal != VRC6_OK || seen.byte != file[prg_start + at];
    }
    expect("PRG through the board", (int64_t)wrong, 0);
}

/* Every byte of CHR that is ROM, each page shown at picture $0000; a write changes none. */
static void chr_shown(size_t chr_start) {
    size_t wrong = 0;
    for (uint32_t at = 0; at < layout.chr; at++) {
        uint16_t addr = (uint16_t)(at % 1024);
        if (at % 1024 == 0) write_register(0xD000, (int)(at / 1024));
        wrong += vrc6_picture_write(&board, rom, rom_len, ram, ram_len, addr, 0xEE) != VRC6_OK;
        Vrc6Peeked seen = vrc6_picture_read(&board, rom, rom_len, ram, ram_len, addr);
        wrong += seen.refusal != VRC6_OK || seen.byte != file[chr_start + at];
    }
    expect("CHR through the board", (int64_t)wrong, 0);
}

/* Writes to a picture address, and says what another shows. */
static int stored(uint16_t addr, uint8_t val, uint16_t other) {
    expect("picture_write", vrc6_picture_write(&board, rom, rom_len, ram, ram_len, addr, val), VRC6_OK);
    return vrc6_picture_read(&board, rom, rom_len, ram, ram_len, other).byte;
}

/* Small files of both revisions and all flags: they read, fill, and show their bytes. */
static void small_files(void) {
    static const int screens[] = {0, VERTICAL_BIT, FOUR_SCREENS_BIT, FOUR_SCREENS_BIT | VERTICAL_BIT};
    static const int wanted[] = {VRC6_HORIZONTAL, VRC6_VERTICAL, VRC6_FOUR_SCREEN, VRC6_FOUR_SCREEN};
    for (int i = 0; i < 16; i++) {
        int trainer = i & 4 ? TRAINER_BIT : 0, mapper = i & 8 ? 26 : 24;
        size_t length = make_file(2, 3, mapper, screens[i % 4] | trainer);
        Vrc6Cartridge read = insert(length);
        expect("mirroring", read.mirroring, wanted[i % 4]);
        expect("ciram", layout.ciram, i & 2 ? 4096 : 2048);
        expect("revision", read.revision, i & 8 ? VRC6_REVISION_B : VRC6_REVISION_A);
        expect("prg_start", read.prg_start, trainer ? HEADER + TRAINER : HEADER);
        expect("chr_start", read.chr_start, read.prg_start + 2 * PRG_UNIT);
        expect("board's mirroring", board.banking.mirroring, read.mirroring);
        expect("board's revision", board.banking.revision_b, read.revision);
        expect("board's open_bus", board.open_bus, 0);
        filled(read);
        prg_shown(read.prg_start);
        chr_shown(read.chr_start);
    }
}

/* What the mirrorings of a file come to: which nametables share their bytes. */
static void screens(void) {
    insert(make_file(1, 1, 24, VERTICAL_BIT));
    expect("vertical, $2400", stored(0x2000, 7, 0x2400), 0);
    expect("vertical, $2800", stored(0x2000, 8, 0x2800), 8);
    insert(make_file(1, 1, 24, 0));
    expect("horizontal, $2400", stored(0x2000, 7, 0x2400), 7);
    expect("horizontal, $2800", stored(0x2000, 8, 0x2800), 0);
    insert(make_file(1, 1, 24, FOUR_SCREENS_BIT | VERTICAL_BIT));
    for (uint16_t addr = 0x2400; addr < 0x3000; addr += 0x400) expect("four screens", stored(0x2000, 7, addr), 0);
}

/* CHR of no units is RAM: it takes no bytes of the file, and takes writes. */
static void chr_ram(void) {
    size_t length = make_file(2, 0, 26, TRAINER_BIT);
    Vrc6Cartridge read = insert(length);
    expect("chr", layout.chr, 8192);
    expect("chr_writable", layout.chr_writable, 1);
    expect("chr_start", read.chr_start, (int64_t)length);
    expect("changing length", (int64_t)ram_len, 8192 + 8192 + 2048);
    filled(read);
    prg_shown(read.prg_start);
    for (uint16_t addr = 0; addr < 0x400; addr += 93) {
        expect("CHR RAM before", vrc6_picture_read(&board, rom, rom_len, ram, ram_len, addr).byte, 0);
        expect("CHR RAM", stored(addr, 0x77, addr), 0x77);
    }
}

/* The limits: no PRG, and as much PRG and CHR as a board takes. Bytes behind CHR do not count. */
static void limits(void) {
    Vrc6Cartridge none = insert(make_file(0, 1, 24, 0));
    expect("prg_rom", layout.prg_rom, 0);
    expect("chr_start", none.chr_start, none.prg_start);
    filled(none);
    chr_shown(none.chr_start);
    size_t length = make_file(16, 32, 26, TRAINER_BIT | FOUR_SCREENS_BIT);
    expect("longest file", (int64_t)length, LONGEST);
    for (size_t behind = 0; behind < 2; behind++) {
        Vrc6Cartridge most = insert(length + behind);
        expect("longest fixed buffer", (int64_t)rom_len, sizeof rom - 1);
        filled(most);
        prg_shown(most.prg_start);
        chr_shown(most.chr_start);
    }
    insert(make_file(16, 0, 24, FOUR_SCREENS_BIT));
    expect("longest changing buffer", (int64_t)ram_len, sizeof ram - 1);
}

/* The number by the order of the request's words (02, change 2), of a file whose first bytes are right. */
static int wanted_number(size_t length) {
    int mapper = file[7] / 16 * 16 + file[6] / 16;
    bool newer = (file[7] & 8) && !(file[7] & 4), trainer = file[6] & TRAINER_BIT;
    size_t prg = (size_t)file[4] * PRG_UNIT, chr = (size_t)file[5] * CHR_UNIT;
    if (length < HEADER) return VRC6_HEADER;
    if ((mapper != 24 && mapper != 26) || newer) return VRC6_MAPPER;
    if (prg > 262144 || chr > 262144) return VRC6_FILE;
    return length < HEADER + (trainer ? TRAINER : 0) + prg + chr ? VRC6_FILE : VRC6_OK;
}

/* Every value of two neighbouring header bytes. */
static void every_pair(size_t at, size_t length) {
    for (int n = 0; n < 65536; n++) {
        file[at] = (uint8_t)n;
        file[at + 1] = (uint8_t)(n / 256);
        expect("number of a header", vrc6_read_header(file, length).refusal, wanted_number(length));
    }
}

static void every_header(void) {
    size_t length = make_file(2, 3, 24, 0);
    every_pair(6, length);
    make_file(2, 3, 26, TRAINER_BIT);
    every_pair(4, LONGEST);
    make_file(2, 3, 24, 0);
    every_pair(4, HEADER + 8 * PRG_UNIT);
    /* Bytes 8 to 15 do not count. */
    make_file(2, 3, 24, 0);
    memset(file + 8, 0xFF, HEADER - 8);
    Vrc6Cartridge read = insert(length);
    expect("prg_start", read.prg_start, HEADER);
    expect("chr_start", read.chr_start, HEADER + 2 * PRG_UNIT);
    filled(read);
}

int main(void) {
    small_files();
    screens();
    chr_ram();
    limits();
    every_header();
    return verdict("files");
}
