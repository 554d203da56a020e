#include "vex_words.h"

#include <string.h>

#include "vex_say.h"

/* Words of the numbers. */

uint32_t vex_word(const uint8_t *at) {
    return (uint32_t)at[0] << 24 | (uint32_t)at[1] << 16 | (uint32_t)at[2] << 8 | at[3];
}

struct vex_answer vex_read_room(const uint8_t room[VEX_ROOM_BYTES]) {
    struct vex_answer a = {vex_word(room + VEX_ROOM_NUMBER), vex_word(room + VEX_ROOM_COUNT), vex_word(room + VEX_ROOM_PLACE)};
    return a;
}

const char *vex_words(struct vex_answer answer) {
    static const char *const lengths[] = {
        "the program is not 1 to 4,096 syllables of 4 bytes, or more than was lent for it",
        "the memory has more than 65,536 bytes",
        "the state image is not 2,888 bytes",
        "the answer room is not 12 bytes",
    };
    switch (answer.number) {
    case VEX_GOOD: return "good, or paused"; /* assemble, load and check; run */
    case VEX_BAD_TABLE: return "the delay table breaks a limit";
    case VEX_BAD_LENGTH: return lengths[answer.place & 3];
    case VEX_NO_END: return "the last syllable does not end its instruction";
    case VEX_BAD_BITS: return "a bit that should be zero is set";
    case VEX_BAD_CLUSTER: return "a cluster is not opened, is not there, or is none for this operation";
    case VEX_TOO_WIDE: return "the instruction has more syllables or operations than a cluster takes, or two control syllables";
    case VEX_TWO_WRITES: return "the instruction writes one register twice";
    case VEX_BAD_CONTROL: return "a target starts no instruction, a stop or return has company, or the last instruction has no goto, stop or return";
    case VEX_TOO_SOON: return "a register is read or written before a result for it is due";
    case VEX_BAD_STATE: return "the state is not valid";
    case VEX_IN_FLIGHT: return "a register is read or written while its result is in flight";
    case VEX_MISALIGNED: return "an address is no multiple of the access size";
    case VEX_OUT_OF_BOUNDS: return "an access goes beyond the memory";
    case VEX_STORES_CLASH: return "two stores of one instruction share a byte";
    case 16: return "a line of the text is bad or missing"; /* the text program's */
    case VEX_BAD_LINK: return "a return goes to a link that starts no instruction";
    case VEX_BAD_TEXT: return "a line is not in the notation";
    case VEX_BAD_LABEL: return "a label is given twice, or is not given";
    case VEX_BAD_VALUE: return "a value leaves the signed 32-bit range, or does not fit its field";
    case VEX_STOPPED: return "stopped";
    default: return "no number of the sandbox";
    }
}

/* Syllables. docs/MACHINE.md has the table of opcodes. */

enum form { STILL, TWO, ONE, CARRY, TEST, SELECT, LOAD, STORE, COPY, GOTO, FORK };
enum still { NOP, STOP, CALL, RETURN, STILLS }; /* the numbers of opcode 0 */

static enum form form_of(unsigned opcode) {
    return opcode == 0 ? STILL : opcode <= 18 ? TWO : opcode <= 22 ? ONE : opcode == 23 ? CARRY : opcode <= 39 ? TWO : opcode <= 49 ? TEST
        : opcode <= 51 ? SELECT : opcode <= 56 ? LOAD : opcode <= 59 ? STORE : opcode == 60 ? COPY : opcode == 61 ? GOTO : FORK;
}

static uint32_t bits(uint32_t s, unsigned hi, unsigned lo) {
    return (s >> lo) & (((uint32_t)2 << (hi - lo)) - 1);
}

static uint32_t widened(uint32_t v, unsigned width) {
    uint32_t sign = (uint32_t)1 << (width - 1);
    return (v ^ sign) - sign;
}

/* Whether it is this one of opcode 0. */
static int is_still(uint32_t s, enum still kind) {
    return bits(s, 29, 24) == 0 && bits(s, 23, 18) == (uint32_t)kind;
}

static const char *name_of(uint32_t s) {
    static const char stills[STILLS][8] = {"nop", "stop", "call", "return"};
    static const char names[64][8] = {
        "nop",    "add",    "sub",    "and",    "andc",   "or",     "orc",    "xor",    "shl",    "shr",    "shru",   "sh1add", "sh2add",
        "sh3add", "sh4add", "max",    "maxu",   "min",    "minu",   "sxtb",   "sxth",   "zxtb",   "zxth",   "addcg",  "mpyll",  "mpyllu",
        "mpylh",  "mpylhu", "mpyhh",  "mpyhhu", "cmpeq",  "cmpne",  "cmplt",  "cmple",  "cmpgt",  "cmpge",  "cmpltu", "cmpleu", "cmpgtu",
        "cmpgeu", "cmpeq",  "cmpne",  "cmplt",  "cmple",  "cmpgt",  "cmpge",  "cmpltu", "cmpleu", "cmpgtu", "cmpgeu", "slct",   "slctf",
        "ldw",    "ldh",    "ldhu",   "ldb",    "ldbu",   "stw",    "sth",    "stb",    "copy",   "goto",   "br",     "brf"};
    return bits(s, 29, 24) == 0 && bits(s, 23, 18) < STILLS ? stills[bits(s, 23, 18)] : names[bits(s, 29, 24)];
}

static int has_target(uint32_t s) {
    return bits(s, 29, 24) > 60 || is_still(s, CALL);
}

/* Stop and return stand alone. */
static int is_solitary(uint32_t s) {
    return is_still(s, STOP) || is_still(s, RETURN);
}

static int is_control(uint32_t s) {
    return has_target(s) || is_solitary(s);
}

/* Goto, stop and return never go on to the instruction after them; what has one of them may end a program. */
static int leaves(uint32_t s) {
    return bits(s, 29, 24) == 61 || is_solitary(s);
}

/* Registers by their index in the image; general register 0 is none. */
static unsigned general(unsigned cluster, uint32_t r) {
    return r == 0 ? VEX_NO_REGISTER : 64 * (cluster & 3) + r;
}

static unsigned branch(unsigned cluster, uint32_t r) {
    return 256 + 8 * (cluster & 3) + r;
}

const char *vex_register_name(unsigned r, char name[VEX_NAME_BYTES]) {
    if (r < 256)
        snprintf(name, VEX_NAME_BYTES, "general register %u of cluster %u", r % 64, r / 64);
    else
        snprintf(name, VEX_NAME_BYTES, "branch register %u of cluster %u", r % 8, (r - 256) / 8 % 4);
    return name;
}

/* The fields of o, of which place, opened and cluster are known. */
static void decode(struct vex_operation *o) {
    uint32_t s = o->syllable;
    unsigned c = o->cluster, t = general(c, bits(s, 23, 18)), s1 = general(c, bits(s, 17, 12)), s2 = general(c, bits(s, 5, 0));
    unsigned immediate = bits(s, 11, 11);
    static const unsigned sizes[] = {4, 2, 2, 1, 1, 4, 2, 1}; /* 52 to 59 */
    o->name = name_of(s);
    o->opcode = bits(s, 29, 24);
    o->last = (int)(s >> 31);
    o->number = 0;
    o->reads[0] = o->reads[1] = o->reads[2] = o->results[0] = o->results[1] = VEX_NO_REGISTER;
    o->reads_every = is_still(s, CALL) || is_still(s, RETURN);
    o->bytes = o->opcode >= 52 && o->opcode <= 59 ? sizes[o->opcode - 52] : 0;
    switch (form_of(o->opcode)) {
    case STILL:
        if (is_still(s, CALL)) o->number = bits(s, 17, 0);
        break;
    case TWO:
    case TEST:
        o->reads[0] = s1;
        if (immediate) o->number = widened(bits(s, 10, 0), 11);
        else o->reads[1] = s2;
        o->results[0] = form_of(o->opcode) == TEST ? branch(c, bits(s, 20, 18)) : t;
        break;
    case ONE: o->reads[0] = s1, o->results[0] = t; break;
    case CARRY: o->results[1] = branch(c, bits(s, 8, 6)); /* fall through */
    case SELECT: o->reads[0] = s1, o->reads[1] = s2, o->reads[2] = branch(c, bits(s, 11, 9)), o->results[0] = t; break;
    case LOAD: o->reads[0] = s1, o->number = widened(bits(s, 11, 0), 12), o->results[0] = t; break;
    case STORE: o->reads[0] = s1, o->number = widened(bits(s, 11, 0), 12), o->reads[2] = t; break;
    case COPY: o->reads[0] = general(bits(s, 1, 0), bits(s, 17, 12)), o->results[0] = t; break;
    case GOTO: o->number = bits(s, 23, 0); break;
    case FORK: o->number = bits(s, 20, 0), o->reads[2] = branch(c, bits(s, 23, 21)); break;
    }
}

/* The bits of a syllable that must be zero. */
static uint32_t zero_bits(uint32_t s) {
    uint32_t beside = bits(s, 11, 11) ? 0 : 0x7C0; /* 10..6 */
    switch (form_of(bits(s, 29, 24))) {
    case STILL: return is_still(s, CALL) ? 0 : 0x3FFFF;
    case TWO: return beside;
    case ONE: return 0xFFF;
    case TEST: return 0xE00000 | beside;
    case SELECT: return 0x1C0;
    case COPY: return 0xFFC;
    default: return 0;
    }
}

/* Instructions. */

static size_t syllables(const struct vex_given *g) {
    return g->program_len / VEX_SYLLABLE_BYTES;
}

static uint32_t syllable_at(const struct vex_given *g, size_t place) {
    return vex_word(g->program + VEX_SYLLABLE_BYTES * place);
}

static int starts(const struct vex_given *g, size_t place) {
    return place < syllables(g) && (place == 0 || syllable_at(g, place - 1) >> 31);
}

/* The operation at o's place, with o's clusters opened before it. */
static int operation_at(const struct vex_given *g, struct vex_operation *o) {
    if (o->place >= syllables(g)) return 0;
    o->syllable = syllable_at(g, o->place);
    o->opened += bits(o->syllable, 30, 30);
    o->cluster = o->opened > 0 ? o->opened - 1 : 0;
    decode(o);
    return 1;
}

int vex_first_operation(const struct vex_given *given, uint32_t place, struct vex_operation *operation) {
    operation->place = place;
    operation->opened = 0;
    return operation_at(given, operation);
}

int vex_next_operation(const struct vex_given *given, struct vex_operation *operation) {
    if (operation->last) return 0;
    operation->place++;
    return operation_at(given, operation);
}

#define EACH_OPERATION(o, given, first) \
    for (int there_ = vex_first_operation(given, first, &o); there_; there_ = vex_next_operation(given, &o))

/* The table's numbers; 0 where it has none. */
static unsigned table_at(const struct vex_given *g, size_t i) {
    return i < g->table_len ? g->table[i] : 0;
}

unsigned vex_delay(const struct vex_given *given, const struct vex_operation *operation, unsigned register_index) {
    enum { ALU, CMPB, MUL, MEMORY, COPIED } of = ALU;
    unsigned opcode = operation->opcode;
    if (register_index >= 256) of = CMPB;
    else if (opcode >= 24 && opcode <= 29) of = MUL;
    else if (opcode >= 52) of = opcode == 60 ? COPIED : MEMORY;
    return table_at(given, 1 + 5 * (size_t)table_at(given, 0) + of);
}

static const uint8_t *state_at(const struct vex_given *g, unsigned r) {
    static const uint8_t zeros[10];
    return g->state_len == VEX_STATE_BYTES ? g->state + VEX_STATE_REGISTER(r) : zeros;
}

uint32_t vex_address(const struct vex_given *given, const struct vex_operation *operation) {
    return vex_word(state_at(given, operation->reads[0]) + VEX_REGISTER_VALUE) + operation->number;
}

/* Whether o reads or writes a register; in words, or NULL. */
static const char *touches(const struct vex_operation *o, unsigned r) {
    if (r == VEX_NO_REGISTER) return NULL;
    for (int i = 0; i < 3; i++)
        if (o->reads[i] == r) return "reads";
    for (int i = 0; i < 2; i++)
        if (o->results[i] == r) return "writes";
    return o->reads_every ? "reads" : NULL;
}

/* The causes. Each says one, or nothing. */

static void limit(struct text *t, unsigned value, unsigned least, unsigned most, const char *format, unsigned cluster, const char *name) {
    if (t->length > 0 || (value >= least && value <= most)) return;
    say(t, format, name, cluster);
    say(t, " is %u, and may be %u to %u", value, least, most);
}

static const char *const classes[] = {"ALU", "MUL", "MEM", "COPY"};

static void bad_table(const struct vex_given *g, struct text *t) {
    static const char *const delays[] = {"ALU", "CMPB", "MUL", "LOAD", "COPY"};
    unsigned clusters = table_at(g, 0);
    if (g->table_len == 0) {
        say(t, "the table has no byte");
        return;
    }
    limit(t, clusters, 1, VEX_CLUSTERS_MAX, "the cluster count", 0, "");
    if (t->length == 0 && g->table_len != VEX_TABLE_BYTES(clusters))
        say(t, "the table has %lu bytes, and a cluster count of %u wants %u", (unsigned long)g->table_len, clusters, VEX_TABLE_BYTES(clusters));
    for (unsigned k = 0; k < clusters && t->length == 0; k++) {
        limit(t, table_at(g, 1 + 5 * k), 1, VEX_WIDTH_MAX, "the %s of cluster %u", k, "width");
        for (unsigned j = 0; j < 4; j++)
            limit(t, table_at(g, 2 + 5 * k + j), 0, j == 0 ? VEX_ALU_MAX : VEX_UNITS_MAX, "the %s count of cluster %u", k, classes[j]);
    }
    for (unsigned j = 0; j < 5; j++) limit(t, table_at(g, 1 + 5 * clusters + j), 1, VEX_DELAY_MAX, "the delay of %s", 0, delays[j]);
}

static void bad_bits(const struct vex_given *g, uint32_t place, struct text *t) {
    if (place >= syllables(g)) return;
    uint32_t s = syllable_at(g, place), stray = s & zero_bits(s);
    if (bits(s, 29, 24) == 0 && bits(s, 23, 18) >= STILLS) {
        say(t, "opcode 0 has %lu in bits 23..18, and may have 0 (nop), 1 (stop), 2 (call) or 3 (return)", (unsigned long)bits(s, 23, 18));
    } else if (stray != 0) {
        say(t, "%s must have zero in bits", name_of(s));
        for (unsigned bit = 24; bit-- > 0;)
            if (stray >> bit & 1) say(t, " %u", bit);
    }
}

static void bad_cluster(const struct vex_given *g, uint32_t place, struct text *t) {
    struct vex_operation o;
    unsigned clusters = table_at(g, 0);
    uint32_t first = place;
    if (place >= syllables(g)) return;
    while (!starts(g, first)) first--;
    EACH_OPERATION(o, g, first)
        if (o.place == place) break;
    unsigned source = bits(o.syllable, 1, 0);
    if (place == first && o.opened == 0)
        say(t, "the first syllable of an instruction lacks bit 30");
    else if (o.opened > clusters)
        say(t, "it opens cluster %u, and the table has %u clusters", o.cluster, clusters);
    else if (is_control(o.syllable) && o.cluster != 0)
        say(t, "%s stands in cluster %u, and control stands in cluster 0 only", o.name, o.cluster);
    else if (o.opcode == 60 && source == o.cluster)
        say(t, "copy is from cluster %u, its own", source);
    else if (o.opcode == 60 && source >= clusters)
        say(t, "copy is from cluster %u, and the table has %u clusters", source, clusters);
}

/* The class of an opcode as an index of `classes`, or 4. */
static unsigned class_of(unsigned opcode) {
    return opcode == 0 || opcode > 60 ? 4 : opcode == 60 ? 3 : opcode >= 52 ? 2 : opcode >= 24 && opcode <= 29 ? 1 : 0;
}

static void too_wide(const struct vex_given *g, uint32_t place, struct text *t) {
    struct vex_operation o;
    unsigned count[VEX_CLUSTERS_MAX][5] = {{0}}, control = 0; /* of each cluster: all, then by class */
    EACH_OPERATION(o, g, place) {
        unsigned class = class_of(o.opcode);
        if (o.cluster < VEX_CLUSTERS_MAX) count[o.cluster][0]++;
        if (o.cluster < VEX_CLUSTERS_MAX && class < 4) count[o.cluster][1 + class]++;
        if (class == 3 && bits(o.syllable, 1, 0) != o.cluster) count[bits(o.syllable, 1, 0)][1 + class]++;
        control += is_control(o.syllable) != 0;
    }
    for (unsigned k = 0; k < VEX_CLUSTERS_MAX && k < table_at(g, 0); k++)
        for (unsigned j = 0; j < 5; j++) {
            unsigned most = table_at(g, 1 + 5 * k + j);
            if (count[k][j] <= most) continue;
            if (j == 0) say(t, "cluster %u has %u syllables, and its width is %u", k, count[k][j], most);
            else say(t, "cluster %u has %u %s operations, and the table allows %u", k, count[k][j], classes[j - 1], most);
            return;
        }
    if (control > 1) say(t, "it has %u control syllables", control);
}

static void two_writes(const struct vex_given *g, uint32_t place, struct text *t) {
    struct vex_operation o, p;
    char name[VEX_NAME_BYTES];
    uint8_t seen[288] = {0};
    EACH_OPERATION(o, g, place)
        for (int i = 0; i < 2; i++) {
            unsigned r = o.results[i];
            if (r == VEX_NO_REGISTER || !seen[r]++) continue;
            EACH_OPERATION(p, g, place)
                if (p.results[0] == r || p.results[1] == r) break;
            say(t, "%s at syllable %lu and %s at syllable %lu write %s", p.name, (unsigned long)p.place, o.name, (unsigned long)o.place,
                vex_register_name(r, name));
            return;
        }
}

static void bad_control(const struct vex_given *g, uint32_t place, struct text *t) {
    struct vex_operation o;
    if (!vex_first_operation(g, place, &o)) return;
    if (has_target(o.syllable) && !starts(g, o.number)) {
        say(t, "%s goes to syllable %lu, which starts no instruction", o.name, (unsigned long)o.number);
    } else if (is_solitary(o.syllable) && !(starts(g, place) && o.last)) {
        say(t, "%s is not alone in its instruction", o.name);
    } else if (starts(g, place)) {
        int left = 0, calls = 0;
        EACH_OPERATION(o, g, place) {
            left |= leaves(o.syllable);
            calls |= is_still(o.syllable, CALL);
            if (!o.last || o.place + 1 != syllables(g) || left) continue;
            say(t, "the last instruction has %s goto, stop nor return", calls ? "a call, but neither" : "neither");
        }
    }
}

/* Sets of places: those that are reached by so many nexts. */
enum { PLACES = VEX_PROGRAM_BYTES_MAX / VEX_SYLLABLE_BYTES };

static void reach(const struct vex_given *g, uint32_t place, uint8_t into[PLACES]) {
    struct vex_operation o;
    size_t following = place, count = syllables(g);
    int along = 1;
    EACH_OPERATION(o, g, place) {
        following = (size_t)o.place + 1;
        if (has_target(o.syllable) && o.number < count) into[o.number] = 1;
        if (leaves(o.syllable) || is_still(o.syllable, CALL)) along = 0;
    }
    if (along && following < count) into[following] = 1;
}

static const char *touched_at(const struct vex_given *g, uint32_t place, unsigned r, struct vex_operation *by) {
    EACH_OPERATION(*by, g, place)
        if (touches(by, r) != NULL) return touches(by, r);
    return NULL;
}

static void too_soon(const struct vex_given *g, uint32_t p, uint32_t q, struct text *t) {
    uint8_t now[PLACES] = {0}, then[PLACES];
    size_t count = syllables(g);
    if (count > PLACES || !starts(g, p) || !starts(g, q)) return;
    now[p] = 1;
    for (unsigned k = 1; k < VEX_DELAY_MAX; k++) {
        struct vex_operation o, by;
        memset(then, 0, sizeof then);
        for (uint32_t i = 0; i < count; i++)
            if (now[i]) reach(g, i, then);
        memcpy(now, then, sizeof now);
        if (!now[q]) continue;
        EACH_OPERATION(o, g, p)
            for (int i = 0; i < 2; i++) {
                char name[VEX_NAME_BYTES];
                const char *how = touched_at(g, q, o.results[i], &by);
                unsigned delay = vex_delay(g, &o, o.results[i]);
                if (how == NULL || k >= delay) continue;
                say(t, "%s at syllable %lu takes %u instructions for %s, and %s at syllable %lu %s %s %u instruction%s later", o.name,
                    (unsigned long)o.place, delay, vex_register_name(o.results[i], name), by.name, (unsigned long)by.place, how,
                    by.reads_every ? "every register" : "it", k, k == 1 ? "" : "s");
                return;
            }
    }
}

static void bad_state(const struct vex_given *g, struct text *t) {
    if (g->state_len != VEX_STATE_BYTES) return;
    uint32_t place = vex_word(g->state + VEX_STATE_PLACE);
    if (!starts(g, place)) {
        say(t, "the place, %lu, is no instruction's first syllable", (unsigned long)place);
        return;
    }
    for (unsigned r = 0; r < 288; r++) {
        const uint8_t *at = state_at(g, r), *zero = (const uint8_t[10]){0};
        uint32_t value = vex_word(at + VEX_REGISTER_VALUE), waiting = vex_word(at + VEX_REGISTER_WAITING);
        unsigned busy = at[VEX_REGISTER_BUSY], landing = at[VEX_REGISTER_LANDING];
        const char *why = r < 256 && r % 64 == 0 && memcmp(at, zero, 10) != 0 ? "is not all zero"
            : landing > busy ? "has landing above busy"
            : busy > VEX_BUSY_MAX ? "has busy above 7"
            : landing == 0 && waiting != 0 ? "has a waiting value with landing 0"
            : r >= 256 && (value > 1 || waiting > 1) ? "holds or awaits more than 1" : NULL;
        char name[VEX_NAME_BYTES];
        if (why == NULL) continue;
        say(t, "%s %s", vex_register_name(r, name), why);
        return;
    }
}

static void in_flight(const struct vex_given *g, uint32_t place, struct text *t) {
    struct vex_operation o;
    char name[VEX_NAME_BYTES];
    EACH_OPERATION(o, g, place)
        for (unsigned r = 0; r < 288; r++) {
            unsigned busy = state_at(g, r)[VEX_REGISTER_BUSY];
            const char *how = touches(&o, r);
            if (how == NULL || busy == 0) continue;
            say(t, "%s at syllable %lu %s %s%s%s is busy for %u more instruction%s", o.name, (unsigned long)o.place, how,
                o.reads_every ? "every register, and " : "", vex_register_name(r, name), o.reads_every ? "" : ", which", busy,
                busy == 1 ? "" : "s");
            return;
        }
}

/* An access: what it does, with which register, and its address with the register that it comes from. */
static void say_access(const struct vex_given *g, const struct vex_operation *o, struct text *t) {
    char name[VEX_NAME_BYTES], base[VEX_NAME_BYTES];
    int store = o->opcode >= 57;
    unsigned r = store ? o->reads[2] : o->results[0];
    if (r == VEX_NO_REGISTER) r = 64 * (o->cluster & 3);
    unsigned from = o->reads[0] == VEX_NO_REGISTER ? 64 * (o->cluster & 3) : o->reads[0];
    long offset = o->number >> 31 ? -(long)(uint32_t)(0 - o->number) : (long)o->number;
    say(t, "%s of %s at address %08lX (%s %c %ld)", o->name, vex_register_name(r, name), (unsigned long)vex_address(g, o),
        vex_register_name(from, base), offset < 0 ? '-' : '+', offset < 0 ? -offset : offset);
}

static void bad_access(const struct vex_given *g, uint32_t place, int aligned, struct text *t) {
    struct vex_operation o;
    EACH_OPERATION(o, g, place) {
        if (o.bytes == 0) continue;
        uint32_t address = vex_address(g, &o);
        if (aligned ? (uint64_t)address + o.bytes <= g->memory_len : address % o.bytes == 0) continue;
        say_access(g, &o, t);
        if (aligned) say(t, ": %u byte%s, and the memory has %lu", o.bytes, o.bytes == 1 ? "" : "s", (unsigned long)g->memory_len);
        else say(t, ": no multiple of %u", o.bytes);
        return;
    }
}

static void stores_clash(const struct vex_given *g, uint32_t place, struct text *t) {
    struct vex_operation o, p;
    EACH_OPERATION(o, g, place) {
        if (o.opcode < 57 || o.opcode > 59) continue;
        EACH_OPERATION(p, g, place) {
            if (p.place == o.place) break;
            if (p.opcode < 57 || p.opcode > 59) continue;
            uint64_t a = vex_address(g, &p), b = vex_address(g, &o);
            if (a >= b + o.bytes || b >= a + p.bytes) continue;
            say_access(g, &p, t);
            say(t, " and ");
            say_access(g, &o, t);
            return;
        }
    }
}

static void bad_link(const struct vex_given *g, uint32_t place, struct text *t) {
    struct vex_operation o;
    uint32_t link = g->state_len == VEX_STATE_BYTES ? vex_word(g->state + VEX_STATE_LINK) : 0;
    if (!vex_first_operation(g, place, &o) || !is_still(o.syllable, RETURN) || starts(g, link)) return;
    say(t, "return goes to the link register's place, %lu, which starts no instruction", (unsigned long)link);
}

size_t vex_cause(const struct vex_given *given, struct vex_answer answer, char *cause, size_t size) {
    struct text t = {cause, size, 0};
    if (size > 0) cause[0] = '\0';
    switch (answer.number) {
    case VEX_BAD_TABLE: bad_table(given, &t); break;
    case VEX_BAD_BITS: bad_bits(given, answer.place, &t); break;
    case VEX_BAD_CLUSTER: bad_cluster(given, answer.place, &t); break;
    case VEX_TOO_WIDE: too_wide(given, answer.place, &t); break;
    case VEX_TWO_WRITES: two_writes(given, answer.place, &t); break;
    case VEX_BAD_CONTROL: bad_control(given, answer.place, &t); break;
    case VEX_TOO_SOON: too_soon(given, answer.count, answer.place, &t); break;
    case VEX_BAD_STATE: bad_state(given, &t); break;
    case VEX_IN_FLIGHT: in_flight(given, answer.place, &t); break;
    case VEX_MISALIGNED: bad_access(given, answer.place, 0, &t); break;
    case VEX_OUT_OF_BOUNDS: bad_access(given, answer.place, 1, &t); break;
    case VEX_STORES_CLASH: stores_clash(given, answer.place, &t); break;
    case VEX_BAD_LINK: bad_link(given, answer.place, &t); break;
    default: break;
    }
    return t.length;
}
