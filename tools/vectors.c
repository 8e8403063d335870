/* Writes what crates/vectors must print, with the processor's own instructions (PEXT, PDEP, IMUL, POPCNT, TZCNT) and with
   arithmetic on squares of its own. It shares no code with the crates. On an x86-64 processor with BMI2:

     gcc -O2 -mbmi2 -mbmi -mpopcnt tools/vectors.c -o vectors && ./vectors > crates/vectors/stdout

   The stored file was made on an Arm machine, by the processor that QEMU 7.2 emulates:

     x86_64-linux-gnu-gcc -O2 -static -mbmi2 -mbmi -mpopcnt tools/vectors.c -o vectors
     qemu-x86_64 -cpu max ./vectors > crates/vectors/stdout

   The first ten lines are the example of Intel's PDEP and PEXT figures (mask bits 28, 7, 5, 2), typed in by hand; so are
   the answers to names and to ranks and files. */
#include <immintrin.h>
#include <stdint.h>
#include <stdio.h>

static const char *figure[] = {
    "0000000000000001 0000000000000004 0000000000000000 ",
    "0000000000000002 0000000000000020 0000000000000000 ",
    "0000000000000004 0000000000000080 0000000000000001 ",
    "0000000000000008 0000000010000000 0000000000000000 ",
    "000000000000000a 0000000010000020 0000000000000000 ",
    "000000000000000f 00000000100000a4 0000000000000001 ",
    "fffffffffffffff0 0000000000000000 000000000000000e ",
    "00000000100000a4 0000000000000080 000000000000000f ",
    "ffffffffefffff5b 0000000010000024 0000000000000000 ",
    "0000000000000020 0000000000000000 0000000000000002 ",
};

static uint64_t next_state(uint64_t s) { return s * 0x5851F42D4C957F2DULL + 0x14057B7EF767814FULL; }

static void row(uint64_t x, uint64_t mask) {
    unsigned by = mask % 128, size = mask % 256;
    printf("%016lx %016lx %016lx %016lx %016lx %016lx %016lx %016lx \n", x, mask, _pext_u64(x, mask), _pdep_u64(x, mask),
           x * mask, x * mask, by < 64 ? x >> by : 0UL, size < 64 ? x >> size : 0UL);
    printf("%016lx %016lx %016lx %016lx %016lx ", x & mask, x | mask, x ^ mask, ~mask, (uint64_t)_mm_popcnt_u64(mask));
    if (mask == 0)
        printf("R%016x end \n", 2);
    else
        printf("%016lx %016lx %016lx \n", (uint64_t)_tzcnt_u64(mask), (uint64_t)_tzcnt_u64(mask), _blsr_u64(mask));
}

static void step(int rank, int file) {
    if (rank < 0 || rank > 7 || file < 0 || file > 7)
        printf("off ");
    else
        printf("%016x ", rank * 8 + file);
}

int main(void) {
    for (int i = 0; i < 10; i++)
        puts(figure[i]);
    uint64_t state = 20261115;
    for (int n = 0; n < 100; n++) {
        uint64_t a = next_state(state), b = next_state(a), c = next_state(b);
        row(a, b & c);
        row(b, a | c);
        row(c, a & b & (c >> 17));
        state = c;
    }
    row(state, 0);
    row(state, ~0UL);
    for (int rank = 0; rank < 8; rank++)
        for (int file = 0; file < 8; file++) {
            printf("%016x %016x ", rank, file);
            step(rank, file - 1);
            step(rank, file + 1);
            step(rank + 1, file);
            step(rank - 1, file);
            printf("%016lx %c%cx %016x \n", 1UL << (rank * 8 + file), "abcdefgh"[file], "12345678"[rank], rank * 8 + file);
        }
    for (int past = 0; past < 2; past++) {
        for (int i = 0; i < 7; i++)
            printf("R%016x ", 2);
        puts("");
    }
    /* rank, file: the square and its set, or refusal 2 */
    static const char *rank_file[] = {
        "0000000000000000 0000000000000001 ", "0000000000000038 0100000000000000 ", "0000000000000007 0000000000000080 ",
        "000000000000001c 0000000010000000 ", "000000000000003f 8000000000000000 ", "R0000000000000002 R0000000000000002 ",
        "R0000000000000002 R0000000000000002 ", "R0000000000000002 R0000000000000002 ",
    };
    for (int i = 0; i < 8; i++)
        puts(rank_file[i]);
    /* names: none, a, a1, h8, d4, d4 and more, i1, `1, a9, a0, A1, 1a, space, a with a byte above 127, such a byte, NULs */
    static const int name[] = {-1, -1, 0, 63, 27, 27, -1, -1, -1, -1, -1, -1, -1, -1, -1, -1};
    for (int i = 0; i < 16; i++)
        if (name[i] < 0)
            printf("R%016x \n", 2);
        else
            printf("%016x \n", name[i]);
    static const int number[] = {1, 2, 3, 4, 5, 6, 7, 7, 8, 8, 9, 10, 11};
    for (int i = 0; i < 13; i++)
        printf("%016x ", number[i]);
    puts("");
    return 0;
}
