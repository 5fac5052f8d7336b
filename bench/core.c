/* A 1401 in C: how fast an interpreter can be that makes every check of the machine. It is a
 * yardstick: nothing of it is proved, and nothing of the bureau is built from it.
 *
 * It runs a deck as `bureau run` does and prints the same listing and report. An instruction is
 * decoded when it is first met and kept with the characters and word marks that it consists of; it
 * is used again where storage still has them. The usual operations are done at once, on fields of
 * up to 8 or 16 characters or in one long move, and everything else position by position. A line
 * is written when it is printed. Cards that are punched are kept, their pockets are not.
 *
 * Build: gcc -O3 -march=x86-64-v3 -o core core.c     (the processor has AVX2 and BMI2)
 * Run:   core run DECK SIZE SWITCHES                 (at most 1,000,000 instructions) */
#include <immintrin.h>
#include <stdint.h>
#include <stdio.h>
#include <stdlib.h>
#include <string.h>
#include <unistd.h>

typedef uint64_t u64;
typedef uint32_t u32;
typedef uint16_t u16;
typedef uint8_t u8;
#define likely(x) __builtin_expect(!!(x), 1)
#define unlikely(x) __builtin_expect(!!(x), 0)
#define AT_ONCE static inline __attribute__((always_inline))
#define RARELY static __attribute__((noinline, cold))

/* A position of storage: the word mark, and the character's code of zone and digit. */
enum { MARK = 0x80, CODE = 0x3f, ZONE = 0x30, DIGIT = 0x0f };
enum {
    RUNNING, HALTED, ADDRESS, INSTRUCTION, DATA, OVERLAP, READER_EMPTY, PUNCH_FULL, PRINTER_FULL
};
enum { EQUAL, LOW, HIGH };
enum { LIMIT = 1000000, MOST_LINES = 20000, MOST_CARDS = 10000, MOST_FORMS = 2000000000 };
enum { AROUND = 16000 };            /* addresses go round here */

static const char *checks[] = {
    [ADDRESS] = "ADDRESS", [INSTRUCTION] = "INSTRUCTION", [DATA] = "DATA", [OVERLAP] = "OVERLAP",
    [READER_EMPTY] = "READER EMPTY", [PUNCH_FULL] = "PUNCH FULL", [PRINTER_FULL] = "PRINTER FULL"
};
/* The characters by code, and in the order in which Compare ranks them. */
static const char glyphs[65] = " 1234567890#@:>\"^/STUVWXYZ|,%=\\+-JKLMNOPQR!$*];_&ABCDEFGHI?.)[<}";
static const char order[65] = " .)[<}&$*];_-/,%=\\+^#@:>\"?ABCDEFGHI!JKLMNOPQR|STUVWXYZ0123456789";
static const char without_type[] = ":>\"^=\\+];_[<}";
static u8 code_of[256], rank_of[64], shown[64];
static const int8_t value_of[16] = { 0, 1, 2, 3, 4, 5, 6, 7, 8, 9, 0, -1, -1, -1, -1, -1 };

/* The three characters of an address as numbers; UNREADABLE where one is no digit. */
enum { UNREADABLE = 20000 };
static u16 hundreds[64], tens[64], units[64];
/* By an operation's code the lengths that it may have, and what its last character may be. */
static u16 lengths[64];
static u64 conditions, tests, orders, pockets;

/* Storage, with room on both sides for what is loaded at once. */
static u8 bytes[16 + AROUND + 64] __attribute__((aligned(64)));
#define storage (bytes + 16)

static struct {
    u32 size, i, a, b, after, compare, overflow, switches, channel, waiting, form, line;
    u32 taken, cards, punched, lines, standing;
    u8 (*deck)[80], (*out)[80];
} machine;

static inline u32 code_at(u32 p) { return storage[p] & CODE; }
static inline void put(u32 p, u8 code) { storage[p] = (storage[p] & MARK) | code; }
static inline u32 around(int p) { return p < 0 ? p + AROUND : p; }
static inline int is_minus(u32 code) { return (code & ZONE) == 0x20; }

/* The number of the three characters up to p; UNREADABLE or more where they are none. */
static inline u32 number_at(u32 p)
{
    return hundreds[code_at(p - 2)] + tens[code_at(p - 1)] + units[code_at(p)];
}

/* ---- The printer, the reader, the punch and the carriage ---- */

static u8 text[1 << 16];
static u32 filled, text_form, text_line;

static void flush(void)
{
    for (u32 k = 0; k < filled;) {
        ssize_t n = write(1, text + k, filled - k);
        if (n <= 0) exit(3);
        k += n;
    }
    filled = 0;
}

static inline void write_byte(u8 c)
{
    if (unlikely(filled > sizeof text - 200)) flush();
    text[filled++] = c;
}

/* A quarter of the table of glyphs, in both halves. */
AT_ONCE __m256i quarter(u32 k)
{
    return _mm256_broadcastsi128_si256(_mm_loadu_si128((void *)(shown + 16 * k)));
}

/* The glyphs of 32 codes. */
AT_ONCE __m256i typed(__m256i codes)
{
    __m256i c = _mm256_and_si256(codes, _mm256_set1_epi8(CODE));
    __m256i fifth = _mm256_slli_epi16(c, 3), sixth = _mm256_slli_epi16(c, 2);
    __m256i low = _mm256_blendv_epi8(
        _mm256_shuffle_epi8(quarter(0), c), _mm256_shuffle_epi8(quarter(1), c), fifth);
    __m256i high = _mm256_blendv_epi8(
        _mm256_shuffle_epi8(quarter(2), c), _mm256_shuffle_epi8(quarter(3), c), fifth);
    return _mm256_blendv_epi8(low, high, sixth);
}

/* Prints positions 201 to 332 without the blanks at their end. */
static inline void print(void)
{
    if (machine.form != text_form) {
        if (text_form) write_byte('\f');
        text_form = machine.form;
        text_line = 1;
    }
    for (; text_line < machine.line; text_line++) write_byte('\n');
    if (unlikely(filled > sizeof text - 400)) flush();
    u32 end = 0;
    for (int k = 0; k < 160; k += 32) {
        __m256i row = typed(_mm256_loadu_si256((void *)(storage + 201 + k)));
        _mm256_storeu_si256((void *)(text + filled + k), row);
        u32 full = ~_mm256_movemask_epi8(_mm256_cmpeq_epi8(row, _mm256_set1_epi8(' ')));
        if (k == 128) full &= 15;
        if (full) end = k + 32 - __builtin_clz(full);
    }
    text[filled + end] = '\n';
    filled += end + 1;
    text_line++;
}

static void space(u32 n)
{
    if (machine.line < 60 && machine.line + n >= 60) machine.channel = 1;
    machine.line += n;
    if (machine.line > 66) {
        machine.line -= 66;
        machine.form++;
    }
}

static void skip(void)
{
    machine.form++;
    machine.line = 1;
    machine.channel = 0;
}

/* Prints, punches and reads, in this order: bit 1 prints, bit 2 punches, bit 0 reads. */
static int transfer(u32 devices)
{
    if (devices & 1 && machine.taken == machine.cards) return READER_EMPTY;
    if (devices & 4 && machine.punched == MOST_CARDS) return PUNCH_FULL;
    if (devices & 2 && machine.lines == MOST_LINES) return PRINTER_FULL;
    if (devices & 2 && machine.form >= MOST_FORMS) return PRINTER_FULL;
    if (devices & 2) {
        print();
        machine.lines++;
        u32 waiting = machine.waiting;
        machine.waiting = 0;
        if (waiting == 4) skip(); else space(waiting ? waiting : 1);
    }
    if (devices & 4) {
        u8 *card = machine.out[machine.punched++];
        for (int k = 0; k < 80; k++) card[k] = code_at(101 + k);
    }
    if (devices & 1) {
        const u8 *card = machine.deck[machine.taken++];
        for (int k = 0; k < 80; k++) put(1 + k, card[k]);
    }
    return RUNNING;
}

static void carriage(u32 code)
{
    switch (glyphs[code]) {
    case 'J': case 'K': case 'L': space(code & DIGIT); break;
    case '/': case 'S': case 'T': machine.waiting = code & DIGIT; break;
    case 'A': machine.waiting = 4; break;
    default: skip();
    }
}

/* ---- Every operation, position by position ---- */

/* The length of the field with its units at p, at most `most`; -1 where it has no end. */
static int cut(int p, int most)
{
    for (int n = 1;; n++, p--) {
        if (p < 0) return -1;
        if (storage[p] & MARK || n == most) return n;
    }
}

static int field(int p) { return cut(p, AROUND + 1); }
static int overlaps(int a, int b, int n) { return a > b && a - b < n; }
static int digit_at(int p) { return value_of[storage[p] & DIGIT]; }
static u8 digit_code(int digit) { return digit ? digit : 10; }

static int has_digits(int p, int n)
{
    for (int k = 0; k < n; k++) if (digit_at(p - k) < 0) return 0;
    return 1;
}

/* The registers left of both fields. */
static int leave(int a, int a_length, int b, int b_length)
{
    machine.a = around(a - a_length);
    machine.b = around(b - b_length);
    return RUNNING;
}

static void add_digits(int a, int na, int b, int nb)
{
    u8 zone = storage[b] & ZONE;
    int carry = 0;
    for (int k = 0; k < nb; k++) {
        int d = digit_at(b - k) + (k < na ? digit_at(a - k) : 0) + carry;
        carry = d >= 10;
        put(b - k, digit_code(d - 10 * carry) | (k ? 0 : zone));
    }
    machine.overflow |= carry;
}

static void subtract_digits(int a, int na, int b, int nb)
{
    int borrow = 0, sign = is_minus(storage[b]);
    for (int k = 0; k < nb; k++) {
        int d = digit_at(b - k) - (k < na ? digit_at(a - k) : 0) - borrow;
        borrow = d < 0;
        put(b - k, digit_code(d + 10 * borrow));
    }
    if (borrow) {                                   /* the complement was wanted */
        int carry = 1;
        sign = !sign;
        for (int k = 0; k < nb; k++) {
            int d = 9 - digit_at(b - k) + carry;
            carry = d >= 10;
            put(b - k, digit_code(d - 10 * carry));
        }
    }
    storage[b] |= sign ? 0x20 : 0x30;
}

static int combine(int a, int b, int reversed)
{
    int nb = field(b), na = nb < 0 ? -1 : cut(a, nb);
    if (na < 0) return ADDRESS;
    if (overlaps(a, b, na)) return OVERLAP;
    if (!has_digits(a, na) || !has_digits(b, nb)) return DATA;
    if ((is_minus(storage[a]) != reversed) == is_minus(storage[b])) add_digits(a, na, b, nb);
    else subtract_digits(a, na, b, nb);
    return leave(a, na, b, nb);
}

static int replace(int a, int b, int reversed)
{
    int nb = field(b), na = nb < 0 ? -1 : cut(a, nb);
    if (na < 0) return ADDRESS;
    if (overlaps(a, b, na)) return OVERLAP;
    if (!has_digits(a, na)) return DATA;
    u8 zone = is_minus(storage[a]) != reversed ? 0x20 : 0x30;
    for (int k = 0; k < nb; k++)
        put(b - k, digit_code(k < na ? digit_at(a - k) : 0) | (k ? 0 : zone));
    return leave(a, na, b, nb);
}

static int compare(int a, int b)
{
    int nb = field(b), na = nb < 0 ? -1 : cut(a, nb), found = EQUAL;
    if (na < 0) return ADDRESS;
    for (int k = 0; k < na; k++) {
        int difference = rank_of[code_at(b - k)] - rank_of[code_at(a - k)];
        if (difference) found = difference < 0 ? LOW : HIGH;
    }
    machine.compare = na < nb ? HIGH : found;
    return leave(a, na, b, nb);
}

static void put_address(u32 p, u32 n)
{
    u32 thousands = n / 1000;
    put(p - 2, digit_code(n / 100 % 10) | (thousands & 3) << 4);
    put(p - 1, digit_code(n / 10 % 10));
    put(p, digit_code(n % 10) | (thousands >> 2) << 4);
}

static int modify(u32 a, u32 b)
{
    if (a < 2 || b < 2) return ADDRESS;
    u32 x = number_at(a), y = number_at(b);
    if (x >= UNREADABLE || y >= UNREADABLE) return DATA;
    u8 tag = storage[b - 1] & ZONE;
    put_address(b, (x + y) % AROUND);
    storage[b - 1] |= tag;
    return leave(a, 3, b, 3);
}

static int move(int a, int b)
{
    int n = 0;
    do {
        if (a - n < 0 || b - n < 0) return ADDRESS;
    } while (!((storage[a - n] | storage[b - n]) & MARK) && ++n);
    for (int k = 0; k <= n; k++) put(b - k, code_at(a - k));
    return leave(a, n + 1, b, n + 1);
}

static int load(int a, int b)
{
    int n = field(a);
    if (n < 0 || n > b + 1 || overlaps(a, b, n)) return ADDRESS;
    for (int k = 0; k < n; k++) storage[b - k] = storage[a - k];
    return leave(a, n, b, n);
}

static int suppress(int a, int b)
{
    int n = field(a);
    if (n < 0 || n > b + 1) return ADDRESS;
    if (overlaps(a, b, n)) return OVERLAP;
    for (int k = 0; k < n; k++) storage[b - k] = storage[a - k] & (k ? CODE : DIGIT);
    for (int p = b - n + 1; p <= b; p++) {
        char glyph = glyphs[code_at(p)];
        if (glyph != '0' && glyph != ' ' && glyph != ',') break;
        put(p, 0);
    }
    return leave(a, n, b, n);
}

/* Moves the characters of A into the control field, from the right. */
static void fill_control(int a, int na, int b, int first)
{
    int negative = is_minus(storage[a]), next = 0;
    for (int p = b; p >= first; p--) {
        u8 code = code_at(p);
        char glyph = glyphs[code];
        if (glyph == ' ' || glyph == '0') {
            code = next < na ? storage[a - next] & (next ? CODE : DIGIT) : 0;
            next++;
        } else if (glyph == '&' || (glyph == ',' && next >= na)) {
            code = 0;
        } else if (strchr("CR-", glyph) && !next && !negative) {
            code = 0;
        }
        storage[p] = code;
    }
}

static int edit(int a, int b)
{
    int nb = field(b), places = 0, zero = -1;
    if (nb < 0) return ADDRESS;
    int first = b - nb + 1;
    for (int p = first; p <= b; p++) {
        char glyph = glyphs[code_at(p)];
        if (glyph == '0') zero = p;
        places += glyph == '0' || glyph == ' ';
    }
    int na = cut(a, places ? places : 1);
    if (na < 0) return ADDRESS;
    if (a >= first && a - na + 1 <= b) return OVERLAP;
    fill_control(a, na, b, first);
    for (int p = first; p <= zero; p++) {
        char glyph = glyphs[code_at(p)];
        if (glyph >= '1' && glyph <= '9') break;
        if (glyph == '0' || glyph == ',') put(p, 0);
    }
    return leave(a, na, b, nb);
}

/* Whether the condition of a branch is met. */
static int is_met(u32 code)
{
    switch (glyphs[code]) {
    case ' ': return 1;
    case '@': return machine.channel;
    case '/': return machine.compare != EQUAL;
    case 'S': return machine.compare == EQUAL;
    case 'T': return machine.compare == LOW;
    case 'U': return machine.compare == HIGH;
    case 'Z': return machine.overflow;
    case 'A': return machine.switches & 1 && machine.taken == machine.cards;
    default: return machine.switches >> ((code & DIGIT) - 1) & 1;
    }
}

/* Whether a position passes the test of Branch if Word Mark or Zone. */
static int passes(u32 code, u8 position)
{
    u32 digit = code & DIGIT, is_zone = (position & ZONE) == (code & ZONE);
    return (digit != 1 && is_zone) || (digit != 2 && position & MARK);
}

static void branch(u32 to)
{
    machine.a = to;
    machine.b = machine.after;
    machine.after = to;
}

static void branch_if(int taken, u32 a, u32 b)
{
    machine.a = a;
    if (taken) branch(a); else machine.b = around((int)b - 1);
}

static void branch_on(u32 condition, u32 a)
{
    int taken = is_met(condition);
    if (glyphs[condition] == 'Z') machine.overflow = 0;
    machine.a = a;
    if (taken) branch(a);
}

static int clear(u32 length, u32 a, u32 b)
{
    if (b >= machine.size) return ADDRESS;
    u32 low = b / 100 * 100;
    memset(storage + low, 0, b - low + 1);
    if (length == 4) machine.a = a;
    if (length == 7) branch(a); else machine.b = around((int)low - 1);
    return RUNNING;
}

static int store(char operation, u32 a)
{
    if (a < 2) return ADDRESS;
    put_address(a, operation == 'Q' ? machine.a : machine.b);
    *(operation == 'Q' ? &machine.b : &machine.a) = around((int)a - 3);
    return RUNNING;
}

static int operate(char operation, u32 length, u32 last, u32 a, u32 b)
{
    switch (operation) {
    case 'A': return combine(a, b, 0);
    case 'S': return combine(a, b, 1);
    case '?': return replace(a, b, 0);
    case '!': return replace(a, b, 1);
    case 'C': return compare(a, b);
    case '#': return modify(a, b);
    case 'M': return move(a, b);
    case 'L': return load(a, b);
    case 'Z': return suppress(a, b);
    case 'E': return edit(a, b);
    case 'D': put(b, (storage[b] & ZONE) | (storage[a] & DIGIT)); return leave(a, 1, b, 1);
    case 'Y': put(b, (storage[b] & DIGIT) | (storage[a] & ZONE)); return leave(a, 1, b, 1);
    case ',': storage[a] |= MARK; storage[b] |= MARK; return leave(a, 1, b, 1);
    case ')': storage[a] &= CODE; storage[b] &= CODE; return leave(a, 1, b, 1);
    case '/': return clear(length, a, b);
    case 'V': branch_if(passes(last, storage[b]), a, b); return RUNNING;
    case 'B':
        if (length == 8) branch_if(code_at(b) == last, a, b);
        else if (length == 5) branch_on(last, a);
        else branch(a);
        return RUNNING;
    case 'Q': case 'H': return store(operation, a);
    case 'F': carriage(last); return RUNNING;
    case '.': if (length == 4) machine.a = machine.after = a; return HALTED;
    case 'N': case 'K': return RUNNING;
    default: {                                      /* 1 to 7 */
        int standing = transfer(operation - '0');
        if (standing == RUNNING && length == 4) branch(a);
        return standing; }
    }
}

/* The number of the three characters from i on, with its index location; -1: an Address check. */
static int address(u32 i)
{
    u32 n = number_at(i + 2), tag = code_at(i + 1) >> 4, location = 84 + 5 * tag;
    if (n >= UNREADABLE) return -1;
    if (tag) {
        if (location >= machine.size || number_at(location) >= UNREADABLE) return -1;
        n = (n + number_at(location)) % AROUND;
    }
    return n < machine.size ? (int)n : -1;
}

/* The length of the instruction at i: 0 where none begins or ends there. */
static u32 length_at(u32 i)
{
    if (!(storage[i] & MARK)) return 0;
    u32 n = 1;
    while (n <= 8 && i + n < machine.size && !(storage[i + n] & MARK)) n++;
    if (glyphs[code_at(i)] == ',' && n >= 7) return i + 7 <= machine.size ? 7 : 0;
    return n <= 8 && i + n < machine.size ? n : 0;
}

static int is_form(u32 code, u32 length, u32 last)
{
    char operation = glyphs[code];
    if (!(lengths[code] >> length & 1)) return 0;
    if (operation == 'N' || length == 1 || length == 4 || length == 7) return 1;
    if (length == 5) return conditions >> last & 1;
    if (length == 2) return (operation == 'K' ? pockets : orders) >> last & 1;
    return operation == 'V' ? tests >> last & 1 : 1;
}

/* Carries out one instruction from storage alone. */
RARELY int step(void)
{
    u32 i = machine.i;
    if (i >= machine.size) return ADDRESS;
    u32 length = length_at(i), code = code_at(i), last = length ? code_at(i + length - 1) : 0;
    if (!length || !is_form(code, length, last)) return INSTRUCTION;
    char operation = glyphs[code];
    int a = machine.a, b = machine.b;
    if (operation != 'N' && length >= 4) {
        if ((a = b = address(i + 1)) < 0) return ADDRESS;
        if (length >= 7 && (b = address(i + 4)) < 0) return ADDRESS;
    } else if (length == 1 && lengths[code] >> 7 & 1 && operation != '/') {
        if ((u32)a >= machine.size || (u32)b >= machine.size) return ADDRESS;
    }
    machine.after = i + length == AROUND ? 0 : i + length;
    int standing = operate(operation, length, last, a, b);
    if (standing <= HALTED) machine.i = machine.after;
    return standing;
}

/* ---- Kept instructions ---- */

/* What is done for a kept instruction. The first kinds work on fields, at once where both addresses
 * are 16 or more. The last three are fronts of another kind. */
#define KINDS(KIND) \
    KIND(add) KIND(subtract) KIND(compare) KIND(move) KIND(load) KIND(suppress) KIND(edit) \
    KIND(zero_and_add) KIND(zero_and_subtract) KIND(modify) \
    KIND(branch) KIND(unequal) KIND(equal) KIND(low) KIND(high) KIND(condition) \
    KIND(character) KIND(mark_or_zone) KIND(clear) KIND(units) KIND(carriage) KIND(nothing) \
    KIND(any) KIND(tagged) KIND(chained) KIND(ninth)
#define NUMBER(kind) kind_##kind,
enum { KINDS(NUMBER) };

typedef struct {
    u64 word, mask;                 /* of eight positions the characters and marks that matter */
    const void *go, *go_behind;     /* where its kind is carried out, and the kind behind a front */
    u16 a, b;                       /* addresses before indexing */
    u8 length, last, tag_a, tag_b, kind, behind;
} Kept;

/* Each at its position modulo their number. It says only what its own characters say. */
enum { KEPT = 512 };
static Kept kept[KEPT];

static inline u64 eight(u32 p)
{
    u64 x;
    memcpy(&x, storage + p, 8);
    return x;
}

/* The eight positions up to p, the units lowest. */
AT_ONCE u64 eight_to(u32 p) { return __builtin_bswap64(eight(p - 7)); }
AT_ONCE void put_eight(u32 p, u64 x) { memcpy(storage + p, &x, 8); }
AT_ONCE void put_eight_to(u32 p, u64 x) { put_eight(p - 7, __builtin_bswap64(x)); }
#define EACH 0x0101010101010101ull

static u32 kind_of(char operation, u32 length, u32 last)
{
    switch (operation) {
    case 'A': return kind_add;
    case 'S': return kind_subtract;
    case 'C': return kind_compare;
    case 'M': return kind_move;
    case 'L': return kind_load;
    case 'Z': return kind_suppress;
    case 'E': return kind_edit;
    case '?': return kind_zero_and_add;
    case '!': return kind_zero_and_subtract;
    case '#': return kind_modify;
    case 'V': return kind_mark_or_zone;
    case '/': return length == 7 ? kind_any : kind_clear;
    case 'F': return kind_carriage;
    case 'N': case 'K': return kind_nothing;
    case '1': case '2': case '3': case '4': case '5': case '6': case '7':
        return length == 1 ? kind_units : kind_any;
    case 'B':
        if (length == 8) return kind_character;
        if (length == 4) return kind_branch;
        switch (glyphs[last]) {
        case ' ': return kind_branch;
        case '/': return kind_unequal;
        case 'S': return kind_equal;
        case 'T': return kind_low;
        case 'U': return kind_high;
        default: return kind_condition;
        }
    default: return kind_any;
    }
}

/* The length by the marks of `word`, which has the eight positions from i on, and by the ninth's
 * mark; 9 if it is longer. */
static u32 length_by(u64 word, u32 i)
{
    u64 marks = (word & EACH * MARK) >> 8;
    u32 n = marks ? (__builtin_ctzll(marks) >> 3) + 1 : storage[i + 8] & MARK ? 8 : 9;
    return glyphs[word & CODE] == ',' && n > 7 ? 7 : n;
}

/* Reads the addresses of a kept instruction. Says whether they can be used. */
static int keep_addresses(Kept *e, u64 word, int two, u32 *kind, u32 *front)
{
    u32 x = hundreds[word >> 8 & CODE] + tens[word >> 16 & CODE] + units[word >> 24 & CODE], y = x;
    e->tag_a = e->tag_b = word >> 20 & 3;
    if (two) {
        y = hundreds[word >> 32 & CODE] + tens[word >> 40 & CODE] + units[word >> 48 & CODE];
        e->tag_b = word >> 44 & 3;
    }
    if (x >= UNREADABLE || y >= UNREADABLE) return 0;
    if ((!e->tag_a && x >= machine.size) || (!e->tag_b && y >= machine.size)) return 0;
    if (e->tag_a | e->tag_b) *front = kind_tagged;
    if (e->tag_a && *kind >= kind_branch && *kind <= kind_mark_or_zone) *kind = kind_any;
    if (*kind <= kind_modify && ((!e->tag_a && x < 16) || (!e->tag_b && y < 16))) *kind = kind_any;
    e->a = x;
    e->b = y;
    return 1;
}

/* Keeps the instruction at i. Says whether it can be used. */
RARELY int keep(Kept *e, u32 i)
{
    e->mask = 0;                                    /* is nowhere met */
    e->word = 1;
    if (i + 16 > machine.size || !(storage[i] & MARK)) return 0;
    u64 word = eight(i);
    u32 code = word & CODE, length = length_by(word, i), front = kind_any;
    if (length > 8 || !is_form(code, length, code_at(i + length - 1))) return 0;
    char operation = glyphs[code];
    e->length = length;
    e->last = code_at(i + length - 1);
    e->tag_a = e->tag_b = 0;
    u32 kind = kind_of(operation, length, e->last);
    if (operation != 'N' && length >= 4) {
        if (!keep_addresses(e, word, length >= 7, &kind, &front)) return 0;
    } else if (kind <= kind_modify) front = kind_chained;
    if (length == 8) front = kind_ninth;
    if (kind == kind_any) front = kind_any;
    e->kind = front == kind_any ? kind : front;
    e->behind = kind;
    /* The characters with their marks, and the mark behind them; the ninth is looked at apart. */
    e->mask = length == 8 ? ~0ull : ((1ull << 8 * length) - 1) | (u64)MARK << 8 * length;
    e->word = word & e->mask;
    return 1;
}

/* The address with the number of its index location; UNREADABLE or more where that is none. */
AT_ONCE u32 indexed(u32 base, u32 tag)
{
    if (!tag) return base;
    u32 number = number_at(84 + 5 * tag), sum = base + number;
    if (unlikely(number >= UNREADABLE)) return UNREADABLE;
    return sum >= AROUND ? sum - AROUND : sum;
}

AT_ONCE int is_usual(u32 p) { return likely(p - 16 < machine.size - 16); }

/* ---- The usual operations at once ----
 *
 * Each says whether it was done. If not, nothing was changed and step() has to do it. Both
 * addresses are at least 16, so that 16 positions can be loaded. */

typedef struct { u32 a, b, compare; } Registers;

AT_ONCE int left_of(Registers *r, u32 a, u32 b)
{
    r->a = a;
    r->b = b;
    return 1;
}

/* Whether a field of n at a reaches into the place left of it at b. */
AT_ONCE int reaches(u32 a, u32 b, u32 n) { return unlikely(a - b - 1 < n - 1); }
/* All bits up to and with the lowest one; all where there is none. */
AT_ONCE u64 up_to_lowest(u64 x) { return x ^ (x - 1); }
AT_ONCE __m128i sixteen(u32 p) { return _mm_loadu_si128((void *)(storage + p)); }
AT_ONCE __m256i thirty_two(u32 p) { return _mm256_loadu_si256((void *)(storage + p)); }
AT_ONCE __m128i each(u32 value) { return _mm_set1_epi8(value); }
/* A bit for each lane whose top bit is set. */
AT_ONCE u32 top_bits(__m128i lanes) { return _mm_movemask_epi8(lanes); }

/* The same lanes from right to left. */
AT_ONCE __m128i turned(__m128i lanes)
{
    const __m128i places = _mm_setr_epi8(15, 14, 13, 12, 11, 10, 9, 8, 7, 6, 5, 4, 3, 2, 1, 0);
    return _mm_shuffle_epi8(lanes, places);
}

/* All bits in the first n of 16 lanes, or in the last n. */
static const u8 edge[48] = { [16] = 255, 255, 255, 255, 255, 255, 255, 255,
                             [24] = 255, 255, 255, 255, 255, 255, 255, 255 };
AT_ONCE __m128i first_lanes(u32 n) { return _mm_loadu_si128((void *)(edge + 32 - n)); }
AT_ONCE __m128i last_lanes(u32 n) { return _mm_loadu_si128((void *)(edge + n)); }

/* The sum of two numbers, one digit in a lane, the units first. */
AT_ONCE __m128i sum(__m128i x, __m128i y, u32 length)
{
    __m128i t = _mm_add_epi8(x, y);
    u32 carries = top_bits(_mm_cmpgt_epi8(t, each(9)));
    if (carries) {
        /* A 9 hands a carry on: one addition of bits finds all digits that receive one. */
        u32 nines = top_bits(_mm_cmpeq_epi8(t, each(9)));
        u32 received = ((carries << 1) + nines) ^ nines;
        if (received >> length & 1) machine.overflow = 1;
        const __m128i spread = _mm_setr_epi8(0, 0, 0, 0, 0, 0, 0, 0, 1, 1, 1, 1, 1, 1, 1, 1);
        const __m128i bit = _mm_set1_epi64x(0x8040201008040201);
        __m128i bits = _mm_and_si128(_mm_shuffle_epi8(_mm_cvtsi32_si128(received), spread), bit);
        t = _mm_sub_epi8(t, _mm_cmpeq_epi8(bits, bit));
        t = _mm_sub_epi8(t, _mm_and_si128(_mm_cmpgt_epi8(t, each(9)), each(10)));
    }
    return t;
}

/* The difference of two numbers without its sign; says which one is greater. */
AT_ONCE __m128i difference(__m128i x, __m128i y, int *x_is_greater)
{
    unsigned __int128 p, q, r;
    __m128i t;
    memcpy(&p, &x, 16);
    memcpy(&q, &y, 16);
    *x_is_greater = p > q;
    r = p > q ? p - q : q - p;
    memcpy(&t, &r, 16);
    /* Bytes borrow 256 of their neighbour where digits borrow 10: such a byte is 246 too great. */
    return _mm_sub_epi8(t, _mm_and_si128(_mm_cmpgt_epi8(_mm_setzero_si128(), t), each(246)));
}

/* The digits of the kept lanes of a field; a top bit where a character has none. */
AT_ONCE __m128i digits_of(__m128i field, __m128i lanes)
{
    const __m128i values = _mm_setr_epi8(0, 1, 2, 3, 4, 5, 6, 7, 8, 9, 0, -1, -1, -1, -1, -1);
    return _mm_shuffle_epi8(values, _mm_and_si128(_mm_and_si128(field, each(DIGIT)), lanes));
}

AT_ONCE int combine_at_once(Registers *r, u32 a, u32 b, int reversed)
{
    __m128i x = turned(sixteen(a - 15)), y = turned(sixteen(b - 15)), t, zone;
    u32 marks = top_bits(y);
    if (unlikely(!marks)) return 0;
    u32 nb = __builtin_ctz(marks) + 1, na = __builtin_ctz(top_bits(x) | 0x10000) + 1;
    if (na > nb) na = nb;
    if (reaches(a, b, na)) return 0;
    __m128i lanes = first_lanes(nb), p = digits_of(x, first_lanes(na)), q = digits_of(y, lanes);
    if (unlikely(top_bits(_mm_or_si128(p, q)))) return 0;
    u32 zone_a = _mm_cvtsi128_si32(x) & ZONE, zone_b = _mm_cvtsi128_si32(y) & ZONE;
    if (likely(((zone_a == 0x20) ^ reversed) == (zone_b == 0x20))) {
        t = sum(p, q, nb);
        zone = _mm_cvtsi32_si128(zone_b);
    } else {
        int a_is_greater;
        t = difference(p, q, &a_is_greater);
        zone = _mm_cvtsi32_si128(a_is_greater != (zone_b == 0x20) ? 0x20 : 0x30);
    }
    t = _mm_max_epu8(t, _mm_and_si128(_mm_cmpeq_epi8(t, _mm_setzero_si128()), each(10)));
    t = _mm_or_si128(_mm_or_si128(t, zone), _mm_and_si128(y, each(MARK)));
    _mm_storeu_si128((void *)(storage + b - 15), turned(_mm_blendv_epi8(y, t, lanes)));
    return left_of(r, a - na, b - nb);
}

AT_ONCE int replace_at_once(Registers *r, u32 a, u32 b, int reversed)
{
    u64 x = eight_to(a), y = eight_to(b), marks = y & EACH * MARK, lanes_b = up_to_lowest(marks);
    u64 lanes_a = up_to_lowest(x & EACH * MARK) & lanes_b, digits = x & EACH * DIGIT & lanes_a;
    u32 na = __builtin_popcountll(lanes_a) >> 3, nb = __builtin_popcountll(lanes_b) >> 3;
    if (unlikely(!marks) || reaches(a, b, na)) return 0;
    if (unlikely((digits + EACH * 5) & EACH * 16)) return 0;
    u64 codes = digits + (~(digits + EACH * 0x7f) >> 7 & EACH & lanes_b) * 10;
    codes |= is_minus(x) != reversed ? 0x20 : 0x30;
    put_eight_to(b, codes | (y & marks & lanes_b) | (y & ~lanes_b));
    return left_of(r, a - na, b - nb);
}

AT_ONCE u32 compared(u32 code_b, u32 code_a)
{
    return rank_of[code_b] < rank_of[code_a] ? LOW : HIGH;
}

AT_ONCE int compare_sixteen(Registers *r, u32 a, u32 b)
{
    __m128i x = sixteen(a - 15), y = sixteen(b - 15);
    u32 marks_a = top_bits(x), marks_b = top_bits(y);
    if (!marks_b) return 0;
    u32 nb = __builtin_clz(marks_b) - 15, na = marks_a ? __builtin_clz(marks_a) - 15 : 16;
    if (na > nb) na = nb;
    __m128i same = _mm_cmpeq_epi8(_mm_and_si128(x, each(CODE)), _mm_and_si128(y, each(CODE)));
    u32 others = (0xffff ^ top_bits(same)) >> (16 - na);
    u32 k = na - 1 - __builtin_ctz(others | 0x10000);
    r->compare = na < nb ? HIGH : others ? compared(code_at(b - k), code_at(a - k)) : EQUAL;
    return left_of(r, a - na, b - nb);
}

AT_ONCE int compare_at_once(Registers *r, u32 a, u32 b)
{
    u64 x = eight_to(a), y = eight_to(b), marks = y & EACH * MARK, lanes_b = up_to_lowest(marks);
    u64 lanes_a = up_to_lowest(x & EACH * MARK) & lanes_b;
    if (unlikely(!marks)) return compare_sixteen(r, a, b);
    u32 na = __builtin_popcountll(lanes_a) >> 3, nb = __builtin_popcountll(lanes_b) >> 3;
    u64 others = (x ^ y) & EACH * CODE & lanes_a;
    if (likely(others)) {
        int place = (63 - __builtin_clzll(others)) & ~7;
        r->compare = compared(y >> place & CODE, x >> place & CODE);
    } else r->compare = EQUAL;
    if (na < nb) r->compare = HIGH;
    return left_of(r, a - na, b - nb);
}

/* How long the field at a is, or at b if b's marks count too: 32 positions at a time, the first 16
 * having no mark. 0 where the end is near 000. */
AT_ONCE u32 long_length(u32 a, u32 b, int both)
{
    const int most = both && b < a ? b : a;
    for (int k = 16; k + 32 <= most + 1; k += 32) {
        __m256i lanes = thirty_two(a - k - 31);
        if (both) lanes = _mm256_or_si256(lanes, thirty_two(b - k - 31));
        u32 marks = _mm256_movemask_epi8(lanes);
        if (marks) return k + __builtin_clz(marks) + 1;
    }
    return 0;
}

AT_ONCE int move_long(Registers *r, u32 a, u32 b)
{
    u32 n = long_length(a, b, 1);
    if (!n || reaches(a, b, n)) return 0;
    /* Only the leftmost position of either can have a mark; that of B stays. */
    u8 mark = storage[b - n + 1] & MARK, code = code_at(a - n + 1);
    memmove(storage + b - n + 1, storage + a - n + 1, n);
    storage[b - n + 1] = code | mark;
    return left_of(r, around((int)(a - n)), around((int)(b - n)));
}

AT_ONCE int move_at_once(Registers *r, u32 a, u32 b)
{
    u64 x = eight(a - 7), y = eight(b - 7), marks = (x | y) & EACH * MARK;
    if (likely(marks)) {
        u32 left = __builtin_clzll(marks), n = (left >> 3) + 1;
        u64 codes = ~0ull << (56 - left) & EACH * CODE;
        if (reaches(a, b, n)) return 0;
        put_eight(b - 7, (y & ~codes) | (x & codes));
        return left_of(r, a - n, b - n);
    }
    __m128i p = sixteen(a - 15), q = sixteen(b - 15);
    u32 more = top_bits(_mm_or_si128(p, q));
    if (unlikely(!more)) return move_long(r, a, b);
    u32 n = __builtin_clz(more) - 15;
    if (reaches(a, b, n)) return 0;
    __m128i codes = _mm_and_si128(last_lanes(n), each(CODE));
    p = _mm_or_si128(_mm_andnot_si128(codes, q), _mm_and_si128(codes, p));
    _mm_storeu_si128((void *)(storage + b - 15), p);
    return left_of(r, a - n, b - n);
}

AT_ONCE int load_long(Registers *r, u32 a, u32 b)
{
    u32 n = long_length(a, b, 0);
    if (!n || n > b + 1 || reaches(a, b, n)) return 0;
    memmove(storage + b - n + 1, storage + a - n + 1, n);
    return left_of(r, around((int)(a - n)), around((int)(b - n)));
}

AT_ONCE int load_at_once(Registers *r, u32 a, u32 b)
{
    u64 x = eight(a - 7), y = eight(b - 7), marks = x & EACH * MARK;
    if (likely(marks)) {
        u32 left = __builtin_clzll(marks), n = (left >> 3) + 1;
        u64 lanes = ~0ull << (56 - left);
        if (reaches(a, b, n)) return 0;
        put_eight(b - 7, (y & ~lanes) | (x & lanes));
        return left_of(r, a - n, b - n);
    }
    __m128i p = sixteen(a - 15);
    u32 more = top_bits(p);
    if (unlikely(!more)) return load_long(r, a, b);
    u32 n = __builtin_clz(more) - 15;
    if (reaches(a, b, n)) return 0;
    p = _mm_blendv_epi8(sixteen(b - 15), p, last_lanes(n));
    _mm_storeu_si128((void *)(storage + b - 15), p);
    return left_of(r, a - n, b - n);
}

/* 1 in each byte of these lanes that has this code; codes have no marks. */
AT_ONCE u64 with_code(u64 codes, u32 code, u64 lanes)
{
    return ~((codes ^ EACH * code) + EACH * 0x7f) >> 7 & EACH & lanes;
}

AT_ONCE int suppress_at_once(Registers *r, u32 a, u32 b)
{
    u64 x = eight_to(a), y = eight_to(b), marks = x & EACH * MARK, lanes = up_to_lowest(marks);
    u32 n = __builtin_popcountll(lanes) >> 3;
    if (unlikely(!marks) || reaches(a, b, n)) return 0;
    u64 codes = x & lanes & EACH * CODE & ~(u64)ZONE;
    u64 zeros = with_code(codes, 0, lanes) | with_code(codes, 10, lanes);
    u64 others = EACH & lanes & ~(zeros | with_code(codes, 27, lanes));
    u64 stay = others ? ~0ull >> (__builtin_clzll(others) & ~7) : 0;
    put_eight_to(b, (codes & stay) | (y & ~lanes));
    return left_of(r, a - n, b - n);
}

/* Sixteen positions of an edit, the units lowest. */
typedef struct { u64 low, high; } Both;

AT_ONCE Both in_both(Both codes, u32 code, Both lanes)
{
    return (Both){ with_code(codes.low, code, lanes.low), with_code(codes.high, code, lanes.high) };
}

/* All bits left of the only one. */
AT_ONCE u64 left_of_byte(u64 one) { return ~(one - 1) & ~one; }

/* Blanks the control's commas left of its nth place; `low` of its places are in the low half. */
AT_ONCE void blank_commas(Both *result, Both places, Both lanes, u32 n, u32 low)
{
    Both commas = in_both(*result, 27, lanes);
    if (!(commas.low | commas.high)) return;
    Both left = { 0, ~0ull };
    if (n <= low) left.low = left_of_byte(_pdep_u64(1ull << 8 * (n - 1), places.low * 255));
    else left.high = left_of_byte(_pdep_u64(1ull << 8 * (n - 1 - low), places.high * 255));
    result->low &= ~((commas.low & ~places.low & left.low) * 255);
    result->high &= ~((commas.high & ~places.high & left.high) * 255);
}

/* The bytes left of the leftmost that is not 0; all where there is none. */
AT_ONCE u64 left_of_first(u64 x)
{
    if (!x) return ~0ull;
    return __builtin_clzll(x) < 8 ? 0 : ~(~0ull >> (__builtin_clzll(x) & ~7));
}

/* Blanks zeros and commas from the left up to the control's last zero, until a digit of 1 to 9. */
AT_ONCE void blank_zeros(Both *result, Both zeros, Both lanes)
{
    if (!(zeros.low | zeros.high)) return;
    u64 over_0 = EACH * 0x7f, over_9 = EACH * 0x76;
    u64 high = (result->high + over_0) & ~(result->high + over_9) & EACH * MARK & lanes.high;
    u64 low = (result->low + over_0) & ~(result->low + over_9) & EACH * MARK & lanes.low;
    Both left = { high ? 0 : left_of_first(low), left_of_first(high) };
    left.low &= zeros.low ? -(zeros.low & -zeros.low) : 0;
    left.high &= zeros.low ? ~0ull : -(zeros.high & -zeros.high);
    Both zero = in_both(*result, 10, lanes), comma = in_both(*result, 27, lanes);
    result->low &= ~((zero.low | comma.low) * 255 & left.low);
    result->high &= ~((zero.high | comma.high) * 255 & left.high);
}

/* Whether the control has a character that only step() does: & C R - */
AT_ONCE int is_rare(Both control, Both lanes)
{
    static const u8 rare[4] = { 48, 51, 41, 32 };
    u64 found = 0;
    for (int k = 0; k < 4; k++) {
        Both one = in_both(control, rare[k], lanes);
        found |= one.low | one.high;
    }
    return unlikely(found);
}

AT_ONCE int edit_at_once(Registers *r, u32 a, u32 b)
{
    u32 marks = top_bits(sixteen(b - 15));
    if (unlikely(!marks)) return 0;
    u32 nb = __builtin_clz(marks) - 15;
    Both old = { eight_to(b), eight_to(b - 8) };
    Both lanes = { nb >= 8 ? ~0ull : (1ull << 8 * nb) - 1, nb > 8 ? ~0ull >> (128 - 8 * nb) : 0 };
    Both control = { old.low & lanes.low & EACH * CODE, old.high & lanes.high & EACH * CODE };
    Both zeros = in_both(control, 10, lanes), places = in_both(control, 0, lanes);
    places.low |= zeros.low;
    places.high |= zeros.high;
    u32 low = __builtin_popcountll(places.low), all = low + __builtin_popcountll(places.high);
    u64 x = eight_to(a), ends = x & EACH * MARK;
    u32 na = ends ? (__builtin_ctzll(ends) >> 3) + 1 : 9;
    if (na > all) na = all;
    if (unlikely(na == 0 || na > 8 || (a >= b - nb + 1 && a - na + 1 <= b))) return 0;
    if (is_rare(control, lanes)) return 0;
    u64 data = x & EACH * CODE & ~(u64)ZONE & (na == 8 ? ~0ull : (1ull << 8 * na) - 1);
    u64 rest = low >= 8 ? 0 : data >> 8 * low;
    Both result = { (control.low & ~(places.low * 255)) | _pdep_u64(data, places.low * 255),
                    (control.high & ~(places.high * 255)) | _pdep_u64(rest, places.high * 255) };
    blank_commas(&result, places, lanes, na, low);
    blank_zeros(&result, zeros, lanes);
    put_eight_to(b - 8, (result.high & lanes.high) | (old.high & ~lanes.high));
    put_eight_to(b, (result.low & lanes.low) | (old.low & ~lanes.low));
    return left_of(r, a - na, b - nb);
}

AT_ONCE int modify_at_once(Registers *r, u32 a, u32 b)
{
    u32 x = number_at(a), y = number_at(b), tag = storage[b - 1] & ZONE;
    if (unlikely(x >= UNREADABLE || y >= UNREADABLE)) return 0;
    put_address(b, x + y >= AROUND ? x + y - AROUND : x + y);
    storage[b - 1] |= tag;
    return left_of(r, a - 3, b - 3);
}

AT_ONCE int clear_at_once(Registers *r, const Kept *e, u32 b)
{
    if (e->length == 1) b = r->b;
    if (unlikely(b >= machine.size)) return 0;
    u32 low = b / 100 * 100;
    memset(storage + low, 0, b - low + 1);
    return left_of(r, e->length == 4 ? b : r->a, low ? low - 1 : AROUND - 1);
}

/* ---- The cycle ---- */

/* Goes to the instruction at a position: to its kept form if storage still has its characters. */
#define STEP(position) do { \
        i = (position); \
        e = &kept[i % KEPT]; \
        if (unlikely(--left < 0)) goto out; \
        if (unlikely((eight(i) & e->mask) != e->word)) goto unknown; \
        a = e->a; \
        b = e->b; \
        goto *e->go; \
    } while (0)
#define NEXT STEP(i + e->length)
#define DONE(is_done) do { if (unlikely(!(is_done))) goto at_any; NEXT; } while (0)
#define LABEL(kind) &&at_##kind,

static void run(void)
{
    static const void *const labels[] = { KINDS(LABEL) };
    u32 i, a, b;
    int left = LIMIT, is_reversed;
    Registers r = { machine.a, machine.b, machine.compare };
    Kept *e;
    for (u32 k = 0; k < KEPT; k++) kept[k].word = 1;
    STEP(machine.i);
unknown:
    if (!keep(e, i)) goto at_any;
    e->go = labels[e->kind];
    e->go_behind = labels[e->behind];
    a = e->a;
    b = e->b;
    goto *e->go;

at_ninth:
    if (unlikely(!(storage[i + 8] & MARK))) goto at_any;
    if (!(e->tag_a | e->tag_b)) goto *e->go_behind;
at_tagged:
    a = indexed(a, e->tag_a);
    b = indexed(b, e->tag_b);
    if (!is_usual(a) || !is_usual(b)) goto at_any;
    goto *e->go_behind;
at_chained:
    a = r.a;
    b = r.b;
    if (!is_usual(a) || !is_usual(b)) goto at_any;
    goto *e->go_behind;

at_subtract: is_reversed = 1; goto combine;
at_add: is_reversed = 0;
combine: DONE(combine_at_once(&r, a, b, is_reversed));
at_zero_and_subtract: is_reversed = 1; goto replace;
at_zero_and_add: is_reversed = 0;
replace: DONE(replace_at_once(&r, a, b, is_reversed));
at_compare: DONE(compare_at_once(&r, a, b));
at_move: DONE(move_at_once(&r, a, b));
at_load: DONE(load_at_once(&r, a, b));
at_suppress: DONE(suppress_at_once(&r, a, b));
at_edit: DONE(edit_at_once(&r, a, b));
at_modify: DONE(modify_at_once(&r, a, b));
at_clear: DONE(clear_at_once(&r, e, b));
at_units: DONE(transfer(e->last) == RUNNING);
at_carriage: carriage(e->last); NEXT;
at_nothing: NEXT;

at_unequal: if (r.compare != EQUAL) goto at_branch; r.a = a; NEXT;
at_equal: if (r.compare == EQUAL) goto at_branch; r.a = a; NEXT;
at_low: if (r.compare == LOW) goto at_branch; r.a = a; NEXT;
at_high: if (r.compare == HIGH) goto at_branch; r.a = a; NEXT;
at_condition: {
        machine.compare = r.compare;
        int taken = is_met(e->last);
        if (glyphs[e->last] == 'Z') machine.overflow = 0;
        if (taken) goto at_branch;
        r.a = a;
        NEXT;
    }
at_character:
    if (code_at(b) == e->last) goto at_branch;
    left_of(&r, a, around((int)b - 1));
    NEXT;
at_mark_or_zone:
    if (passes(e->last, storage[b])) goto at_branch;
    left_of(&r, a, around((int)b - 1));
    NEXT;
at_branch:
    left_of(&r, a, i + e->length);
    STEP(a);

at_any:
    machine.i = i;
    machine.a = r.a;
    machine.b = r.b;
    machine.compare = r.compare;
    machine.standing = step();
    if (machine.standing != RUNNING) return;
    r = (Registers){ machine.a, machine.b, machine.compare };
    STEP(machine.i);
out:
    machine.i = i;
}

/* ---- The deck and the report ---- */

static u64 codes_in(const char *some)
{
    u64 found = 0;
    for (; *some; some++) found |= 1ull << code_of[(u8)*some];
    return found;
}

static void make_tables(void)
{
    static const struct { const char *operations; u16 lengths; } forms[] = {
        { "1234567.", 1 << 1 | 1 << 4 }, { "#", 1 << 7 }, { "/S!A?", 1 << 1 | 1 << 4 | 1 << 7 },
        { "V", 1 << 8 }, { "YZLMCDE", 1 << 1 | 1 << 7 }, { ",)", 1 << 4 | 1 << 7 },
        { "N", 1 << 1 | 1 << 2 | 1 << 4 | 1 << 5 | 1 << 7 | 1 << 8 }, { "QH", 1 << 4 },
        { "B", 1 << 4 | 1 << 5 | 1 << 8 }, { "FK", 1 << 2 }
    };
    memset(code_of, 255, sizeof code_of);
    for (int k = 0; k < 64; k++) {
        code_of[(u8)glyphs[k]] = k;
        shown[k] = strchr(without_type, glyphs[k]) ? ' ' : glyphs[k];
        int value = value_of[k & DIGIT], zone = k >> 4;
        hundreds[k] = value < 0 ? UNREADABLE : 100 * value + 1000 * zone;
        tens[k] = value < 0 ? UNREADABLE : 10 * value;
        units[k] = value < 0 ? UNREADABLE : value + 4000 * zone;
    }
    for (int k = 0; k < 64; k++) rank_of[code_of[(u8)order[k]]] = k;
    for (u32 k = 0; k < sizeof forms / sizeof *forms; k++)
        for (const char *c = forms[k].operations; *c; c++)
            lengths[code_of[(u8)*c]] = forms[k].lengths;
    pockets = codes_in("1248");
    conditions = codes_in(" @/STUZABCDEFG");
    tests = codes_in("123STKLBC");
    orders = codes_in("1/STJKLA");
}

/* Reads the cards, each of 80 characters and a line end. Says whether the file is such a deck. */
static int read_deck(const char *path)
{
    FILE *file = fopen(path, "rb");
    if (!file || fseek(file, 0, SEEK_END)) return 0;
    long size = ftell(file);
    u8 *rows = malloc(size + 1);
    rewind(file);
    if (size <= 0 || size % 81 || fread(rows, 1, size, file) != (size_t)size) return 0;
    fclose(file);
    machine.cards = size / 81;
    machine.deck = malloc(machine.cards * 80);
    u8 all = 0;
    for (u32 card = 0; card < machine.cards; card++) {
        const u8 *row = rows + 81 * card;
        for (int k = 0; k < 80; k++) all |= machine.deck[card][k] = code_of[row[k]];
        if (row[80] != '\n') return 0;
    }
    free(rows);
    return all <= CODE;
}

static void report(void)
{
    fprintf(stderr, "cards %u lines %u ", machine.punched, machine.lines);
    if (machine.standing == RUNNING) fputs("running\n", stderr);
    else if (machine.standing == HALTED) fprintf(stderr, "halted next %u\n", machine.i);
    else fprintf(stderr, "check %s at %u\n", checks[machine.standing], machine.i);
}

int main(int count, char **words)
{
    if (count != 5 || strcmp(words[1], "run")) {
        fputs("core run DECK SIZE SWITCHES\n", stderr);
        return 2;
    }
    make_tables();
    machine.size = atoi(words[3]);
    for (const char *c = words[4]; *c; c++)
        if (*c >= 'A' && *c <= 'G') machine.switches |= 1 << (*c - 'A');
    if (!read_deck(words[2])) {
        fprintf(stderr, "core: %s is not a deck\n", words[2]);
        return 1;
    }
    machine.out = malloc(MOST_CARDS * 80);
    memcpy(storage + 1, machine.deck[0], 80);
    storage[1] |= MARK;
    machine.i = machine.taken = machine.form = machine.line = 1;
    run();
    flush();
    report();
    return machine.standing != HALTED;
}
