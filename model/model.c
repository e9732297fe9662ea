/*
 * A second model of the manifold vote.
 *
 * It plays recorded votes and prints their listings. It shares no line with
 * the library and has no proofs: it is the plain C program that the library
 * is compared with, in what it prints and in how fast it prints it.
 *
 *   model        plays the one vote file on standard input
 *   model batch  plays a sequence of vote files, each preceded by its length
 *                in four bytes, low byte first; a line "V k" precedes the
 *                listing of the k-th file, counted from 1
 *   model drives drives the votes of a table; a line "V k" precedes the
 *                listing of the k-th vote, counted from 1
 *
 * Sets of heads are 64-bit words in which bit i stands for head i.
 */
#include <stdint.h>
#include <stdio.h>
#include <stdlib.h>
#include <string.h>

enum {
    MAX_HEADS = 64,
    MAX_ROUNDS = 10000,
    HEADER_START = 5,   /* mark, vote, kind, n */
    ROUND_START = 26    /* mark, turns, stops, alarms */
};

enum { SHORT = 1, BIT = 2, SPLIT = 3 };
enum { RECIPE = 1, TICKET = 2 };
enum { NONE = -1 };

/* The numbers of the refusals that a file or a table can meet. */
enum {
    BALLOT_RANGE = 1,
    ROLL_FULL = 2,
    ROLL_EMPTY = 3,
    TABLE_SHORT = 4,
    ROUNDS_USED_UP = 5,
    NO_HEAD_RUNS = 6,
    TURN_NOT_RUNNING = 7,
    LIST_LENGTH = 8,
    STOP_NOT_RUNNING = 9,
    REPORT_NOT_RUNNING = 10,
    HEARD_NON_SENDER = 11,
    OWN_MESSAGE_LOST = 12,
    ALARM_MISSING = 13,
    ALARM_FALSE = 14,
    PART_UNFIT = 17,
    FILE_ENDS = 20,
    WRONG_MARK = 21,
    HEADER_RANGE = 22
};

struct fault {
    int number;
    int round, head, other;     /* NONE where the fault does not name it */
};

struct vote {
    int method, n;
    int width;                  /* bits of a code */
    unsigned flip;              /* code = rank ^ flip, see rank_flip() */
    int heard;                  /* rounds heard so far */
    uint64_t running, decided;  /* neither: stopped, or beyond the roll */

    /* Short and bit votes: the ranks of the heads' estimates. */
    uint16_t estimate[MAX_HEADS];
    /* Short: heard exactly one ballot, or must veto, after a ballot round. */
    uint64_t one_ballot, veto;
    /* Bit: heads whose flag is up. */
    uint64_t flag;

    /* Split: first codes, prefixes and their lengths; who had noise in the
       first round of the step. */
    uint16_t code[MAX_HEADS], prefix[MAX_HEADS];
    uint8_t length[MAX_HEADS];
    uint64_t first_noise;
};

static void die(const char *why)
{
    fflush(stdout);
    fprintf(stderr, "model: %s\n", why);
    exit(1);
}

static inline int lowest(uint64_t set)
{
    return __builtin_ctzll(set);
}

static inline int count(uint64_t set)
{
    return __builtin_popcountll(set);
}

static inline uint64_t only(int head)
{
    return UINT64_C(1) << head;
}

static inline int has(uint64_t set, int head)
{
    return set >> head & 1;
}

static uint16_t get16(const uint8_t *p)
{
    return (uint16_t)(p[0] | p[1] << 8);
}

static uint32_t get32(const uint8_t *p)
{
    return get16(p) | (uint32_t)get16(p + 2) << 16;
}

static inline uint64_t get64(const uint8_t *p)
{
    uint64_t x = 0;
    for (int i = 0; i < 8; i++)
        x |= (uint64_t)p[i] << 8 * i;
    return x;
}

/*
 * The rank of a ballot is its place in the order of its kind, the least
 * ballot having rank 0. A recipe's rank is its code. Of tickets the higher
 * grade comes first, then the lower tank, so the rank is the code with the
 * four grade bits inverted.
 */
static unsigned rank_flip(int kind)
{
    return kind == TICKET ? 15u << 6 : 0;
}

/* ---- A round ---- */

/* Rounds in which the heads with a turn send their estimates. */
static int ballot_round(const struct vote *v)
{
    return v->method == SHORT ? v->heard % 2 == 0
                              : v->heard % (v->width + 2) == 0;
}

static uint64_t short_senders(const struct vote *v, uint64_t turns)
{
    return ballot_round(v) ? turns : v->veto & v->running;
}

static uint64_t bit_senders(const struct vote *v, uint64_t turns)
{
    int phase = v->heard % (v->width + 2);
    uint64_t senders = 0;

    if (phase == 0)
        return turns;
    if (phase == v->width + 1)
        return v->running & ~v->flag;
    for (uint64_t s = v->running; s; s &= s - 1) {
        int i = lowest(s);
        unsigned code = v->estimate[i] ^ v->flip;
        senders |= (uint64_t)(code >> (v->width - phase) & 1) << i;
    }
    return senders;
}

static uint64_t split_senders(const struct vote *v)
{
    int bit = v->heard % 2;
    uint64_t senders = 0;

    for (uint64_t s = v->running; s; s &= s - 1) {
        int i = lowest(s);
        int start = v->code[i] >> (v->width - v->length[i] - 1);
        if (start == (v->prefix[i] << 1 | bit))
            senders |= only(i);
    }
    return senders;
}

/* Opens the next round: checks the turns and fixes the senders. */
static struct fault open_round(const struct vote *v, uint64_t turns,
                               uint64_t *senders)
{
    struct fault f = { 0, v->heard + 1, NONE, NONE };

    if (v->heard == MAX_ROUNDS) {
        f.number = ROUNDS_USED_UP;
    } else if (!v->running) {
        f.number = NO_HEAD_RUNS;
    } else if (turns & ~v->running) {
        f.number = TURN_NOT_RUNNING;
        f.head = lowest(turns & ~v->running);
    } else {
        *senders = v->method == SHORT ? short_senders(v, turns)
                 : v->method == BIT ? bit_senders(v, turns)
                 : split_senders(v);
    }
    return f;
}

/* Checks a round report: the stops, then head by head. */
static struct fault check_report(const struct vote *v, uint64_t senders,
                                 uint64_t stops, uint64_t alarms,
                                 const uint64_t *word)
{
    struct fault f = { 0, v->heard + 1, NONE, NONE };
    int c = count(senders);

    if (stops & ~v->running) {
        f.number = STOP_NOT_RUNNING;
        f.head = lowest(stops & ~v->running);
        return f;
    }
    for (int i = 0; i < v->n; i++) {
        int alarm = has(alarms, i);

        f.head = i;
        if (!has(v->running, i)) {
            if (word[i] || alarm) {
                f.number = REPORT_NOT_RUNNING;
                return f;
            }
            continue;
        }
        if (word[i] & ~senders) {
            f.number = HEARD_NON_SENDER;
            f.other = lowest(word[i] & ~senders);
            return f;
        }
        if (has(senders & ~word[i], i)) {
            f.number = OWN_MESSAGE_LOST;
            return f;
        }
        int t = count(word[i]);
        int due = c > 0 && (v->method == SHORT ? 2 * t <= c : t == 0);
        if (due && !alarm) {
            f.number = ALARM_MISSING;
            return f;
        }
        if (v->method == SPLIT && alarm && t == c) {
            f.number = ALARM_FALSE;
            return f;
        }
    }
    uint64_t beyond = alarms & ~(~UINT64_C(0) >> (MAX_HEADS - v->n));
    if (beyond) {
        f.number = REPORT_NOT_RUNNING;
        f.head = lowest(beyond);
    }
    return f;
}

/*
 * A round of ballots: a head without alarm takes the least ballot it heard.
 * Estimates are read as they stood before the round.
 */
static void hear_ballots(struct vote *v, uint64_t alarms, const uint64_t *word)
{
    uint16_t sent[MAX_HEADS];

    memcpy(sent, v->estimate, sizeof sent);
    v->one_ballot = 0;
    v->veto = alarms;
    for (uint64_t s = v->running; s; s &= s - 1) {
        int i = lowest(s);
        if (!word[i])
            continue;
        uint16_t least = UINT16_MAX, most = 0;
        for (uint64_t w = word[i]; w; w &= w - 1) {
            uint16_t rank = sent[lowest(w)];
            if (rank < least)
                least = rank;
            if (rank > most)
                most = rank;
        }
        if (least == most)
            v->one_ballot |= only(i);
        else
            v->veto |= only(i);
        if (!has(alarms, i))
            v->estimate[i] = least;
    }
}

static void decide(struct vote *v, uint64_t heads)
{
    v->running &= ~heads;
    v->decided |= heads;
}

static void short_step(struct vote *v, uint64_t alarms, uint64_t noise,
                       const uint64_t *word)
{
    if (ballot_round(v))
        hear_ballots(v, alarms, word);
    else
        decide(v, v->running & v->one_ballot & ~noise);
}

static void bit_step(struct vote *v, uint64_t senders, uint64_t alarms,
                     uint64_t noise, const uint64_t *word)
{
    int phase = v->heard % (v->width + 2);

    if (phase == 0) {
        hear_ballots(v, alarms, word);
        v->flag = v->running;
    } else if (phase <= v->width) {
        v->flag &= senders | ~noise;    /* who sends has a 1 */
    } else {
        decide(v, v->running & ~noise);
    }
}

static void split_step(struct vote *v, uint64_t noise)
{
    if (v->heard % 2 == 0) {
        v->first_noise = noise;
        return;
    }
    uint64_t done = 0;
    for (uint64_t s = v->running; s; s &= s - 1) {
        int i = lowest(s);
        if (has(v->first_noise | noise, i)) {
            unsigned bit = !has(v->first_noise, i);
            v->prefix[i] = (uint16_t)(v->prefix[i] << 1 | bit);
            if (++v->length[i] == v->width)
                done |= only(i);
        } else {
            v->prefix[i] = 0;
            v->length[i] = 0;
        }
    }
    decide(v, done);
}

/* Hears a checked round. Stopping heads have sent but take no step. */
static void hear_round(struct vote *v, uint64_t senders, uint64_t stops,
                       uint64_t alarms, const uint64_t *word)
{
    uint64_t noise = alarms;

    for (int i = 0; i < v->n; i++)
        noise |= (uint64_t)(word[i] != 0) << i;
    v->running &= ~stops;
    switch (v->method) {
    case SHORT:
        short_step(v, alarms, noise, word);
        break;
    case BIT:
        bit_step(v, senders, alarms, noise, word);
        break;
    case SPLIT:
        split_step(v, noise);
        break;
    }
    v->heard++;
}

/* ---- The vote file ---- */

/* Begins the vote of a file's header. */
static struct fault read_header(struct vote *v, const uint8_t *file,
                                size_t size)
{
    struct fault f = { 0, NONE, NONE, NONE };

    memset(v, 0, sizeof *v);
    if (size < HEADER_START) {
        f.number = FILE_ENDS;
        return f;
    }
    if (file[0] != 0x56 || file[1] != 0x48) {
        f.number = WRONG_MARK;
        return f;
    }
    int method = file[2], kind = file[3], n = file[4];
    if (method < SHORT || method > SPLIT || kind < RECIPE || kind > TICKET ||
        n < 1 || n > MAX_HEADS) {
        f.number = HEADER_RANGE;
        return f;
    }
    if (size < HEADER_START + 2 * (size_t)n) {
        f.number = FILE_ENDS;
        return f;
    }
    v->method = method;
    v->n = n;
    v->width = kind == RECIPE ? 12 : 10;
    v->flip = rank_flip(kind);
    v->running = ~UINT64_C(0) >> (MAX_HEADS - n);
    for (int i = 0; i < n; i++) {
        uint16_t code = get16(file + HEADER_START + 2 * i);
        if (code >> v->width) {
            f.number = BALLOT_RANGE;
            return f;
        }
        v->code[i] = code;
        v->estimate[i] = (uint16_t)(code ^ v->flip);
    }
    return f;
}

static void print_round(const struct vote *v, uint64_t senders, uint64_t alarms)
{
    printf("R %d %d %d %d %d\n", v->heard, count(senders), count(alarms),
           count(v->decided), count(v->running));
}

/* Checks the report of an open round; if it breaks no rule, hears and prints. */
static struct fault take_report(struct vote *v, uint64_t senders,
                                uint64_t stops, uint64_t alarms,
                                const uint64_t *word)
{
    struct fault f = check_report(v, senders, stops, alarms, word);
    if (f.number)
        return f;
    hear_round(v, senders, stops, alarms, word);
    print_round(v, senders, alarms);
    return f;
}

/* Reads, opens and hears the round whose record starts at p. */
static struct fault read_round(struct vote *v, const uint8_t *p, size_t left)
{
    struct fault f = { 0, NONE, NONE, NONE };
    uint64_t word[MAX_HEADS], senders;

    if (left < ROUND_START + 8 * (size_t)v->n) {
        f.number = FILE_ENDS;
        return f;
    }
    if (p[0] != 0x52 || p[1] != 0x44) {
        f.number = WRONG_MARK;
        return f;
    }
    uint64_t turns = get64(p + 2), stops = get64(p + 10);
    uint64_t alarms = get64(p + 18);
    for (int i = 0; i < v->n; i++)
        word[i] = get64(p + ROUND_START + 8 * i);

    f = open_round(v, turns, &senders);
    if (f.number)
        return f;
    return take_report(v, senders, stops, alarms, word);
}

static void print_field(int value)
{
    if (value == NONE)
        printf(" -");
    else
        printf(" %d", value);
}

static void print_named(const struct fault *f)
{
    print_field(f->round);
    print_field(f->head);
    print_field(f->other);
    putchar('\n');
}

static void print_fault(const struct fault *f, size_t byte)
{
    printf("F %d %zu", f->number, byte);
    print_named(f);
}

static void print_heads(const struct vote *v)
{
    for (int i = 0; i < v->n; i++) {
        unsigned code = v->method == SPLIT ? v->prefix[i]
                                           : v->estimate[i] ^ v->flip;
        if (has(v->decided, i))
            printf("H %d d %u\n", i, code);
        else
            printf("H %d %c -\n", i, has(v->running, i) ? 'r' : 's');
    }
}

/* Plays one vote file and prints its listing. */
static void play(const uint8_t *file, size_t size)
{
    struct vote v;
    struct fault f = read_header(&v, file, size);

    if (f.number) {
        print_fault(&f, 0);
        return;
    }
    size_t at = HEADER_START + 2 * (size_t)v.n;
    size_t record = ROUND_START + 8 * (size_t)v.n;
    for (; at < size; at += record) {
        f = read_round(&v, file + at, size - at);
        if (f.number) {
            print_fault(&f, at);
            return;
        }
    }
    print_heads(&v);
}

/* ---- Driven votes ---- */

enum { CLEAR = 1, CAPTURE = 2, RECORDED_AIR = 3 };
enum { COUNTING = 1, SQUELCH = 2, RECORDED_ZERO = 3, RECORDED_MAJORITY = 4 };
enum { LOWEST = 1, ROTATION = 2, EVERYONE = 3 };
enum { MAX_LAYERS = 2, MAX_SPELLS = 16, FAR = 999 };

/* A counted list of the table: groups of a few numbers. */
struct list {
    uint64_t groups;
    const uint64_t *number;
};

/* A part: its layers, whose spells are pairs of rounds, and its kind. The
   list has positions, words or alarm words; n is the heads of a recording. */
struct part {
    uint64_t layers, kind, n;
    struct list spells[MAX_LAYERS];
    struct list list;
};

struct drive {
    uint64_t method, kind, manager, drivings;
    struct list codes;
    struct part air, detector;
    struct list settings;       /* round, stops, records, words */
};

/* The numbers of the table that are not read yet. */
struct table {
    const uint64_t *next, *end;
};

static uint64_t take(struct table *t)
{
    if (t->next == t->end)
        die("the table ends inside a vote");
    return *t->next++;
}

static uint64_t take_up_to(struct table *t, uint64_t least, uint64_t most)
{
    uint64_t x = take(t);

    if (x < least || x > most)
        die("the table has a number out of range");
    return x;
}

static struct list take_list(struct table *t, uint64_t size)
{
    struct list l = { take(t), t->next };

    if (l.groups > (uint64_t)(t->end - t->next) / size)
        die("the table ends inside a vote");
    l.number = t->next;
    t->next += l.groups * size;
    return l;
}

static void take_layers(struct table *t, struct part *p)
{
    p->layers = take_up_to(t, 0, MAX_LAYERS);
    for (uint64_t i = 0; i < p->layers; i++)
        p->spells[i] = take_list(t, 2);
}

static struct drive take_drive(struct table *t)
{
    struct drive d;

    memset(&d, 0, sizeof d);
    d.method = take_up_to(t, SHORT, SPLIT);
    d.kind = take_up_to(t, RECIPE, TICKET);
    d.codes = take_list(t, 1);
    take_layers(t, &d.air);
    d.air.kind = take_up_to(t, CLEAR, RECORDED_AIR);
    if (d.air.kind == RECORDED_AIR)
        d.air.n = take(t);
    if (d.air.kind != CLEAR)
        d.air.list = take_list(t, 1);
    take_layers(t, &d.detector);
    d.detector.kind = take_up_to(t, COUNTING, RECORDED_MAJORITY);
    if (d.detector.kind >= RECORDED_ZERO)
        d.detector.list = take_list(t, 1);
    d.manager = take_up_to(t, LOWEST, EVERYONE);
    d.drivings = take(t);
    d.settings = take_list(t, 4);
    return d;
}

/* Enrolls the heads and begins the vote. */
static struct fault begin_drive(struct vote *v, const struct drive *d)
{
    struct fault f = { 0, NONE, NONE, NONE };

    memset(v, 0, sizeof *v);
    v->method = (int)d->method;
    v->width = d->kind == RECIPE ? 12 : 10;
    v->flip = rank_flip((int)d->kind);
    for (uint64_t i = 0; i < d->codes.groups; i++) {
        uint64_t code = d->codes.number[i];
        if (code >> v->width) {
            f.number = BALLOT_RANGE;
            return f;
        }
        if (v->n == MAX_HEADS) {
            f.number = ROLL_FULL;
            return f;
        }
        v->code[v->n] = (uint16_t)code;
        v->estimate[v->n] = (uint16_t)(code ^ v->flip);
        v->running |= only(v->n);
        v->n++;
    }
    if (!v->n)
        f.number = ROLL_EMPTY;
    return f;
}

static int spells_fit(const struct part *p)
{
    for (uint64_t i = 0; i < p->layers; i++) {
        if (p->spells[i].groups > MAX_SPELLS)
            return 0;
        for (uint64_t k = 0; k < p->spells[i].groups; k++) {
            uint64_t first = p->spells[i].number[2 * k];
            uint64_t last = p->spells[i].number[2 * k + 1];
            if (first == 0 || first > last || last > MAX_ROUNDS)
                return 0;
        }
    }
    return 1;
}

static int air_fits(const struct part *p)
{
    uint64_t heads = p->kind == CAPTURE ? p->list.groups : p->n;

    if (p->kind == CLEAR)
        return 1;
    if (heads < 1 || heads > MAX_HEADS)
        return 0;
    if (p->kind == RECORDED_AIR)
        return p->list.groups % heads == 0 &&
               p->list.groups / heads <= MAX_ROUNDS;
    for (uint64_t i = 0; i < heads; i++)
        if (p->list.number[i] > FAR)
            return 0;
    return 1;
}

static struct fault check_parts(const struct drive *d)
{
    struct fault f = { 0, NONE, NONE, NONE };

    if (!spells_fit(&d->air) || !spells_fit(&d->detector) ||
        !air_fits(&d->air) || d->detector.list.groups > MAX_ROUNDS)
        f.number = PART_UNFIT;
    return f;
}

/* Whether the round lies in a spell of one of the part's layers. */
static int in_spell(const struct part *p, uint64_t round)
{
    for (uint64_t i = 0; i < p->layers; i++)
        for (uint64_t k = 0; k < p->spells[i].groups; k++)
            if (p->spells[i].number[2 * k] <= round &&
                round <= p->spells[i].number[2 * k + 1])
                return 1;
    return 0;
}

/* Where a head stands; those that the list does not reach stand at 0. */
static int position(const struct part *air, int head)
{
    return (uint64_t)head < air->list.groups ? (int)air->list.number[head] : 0;
}

static uint64_t nearest_other(const struct part *air, int hearer,
                              uint64_t senders)
{
    int best = NONE, least = 0;

    for (uint64_t s = senders & ~only(hearer); s; s &= s - 1) {
        int i = lowest(s);
        int apart = abs(position(air, i) - position(air, hearer));
        if (best == NONE || apart < least) {
            best = i;
            least = apart;
        }
    }
    return best == NONE ? 0 : only(best);
}

/* Those of the senders that the hearer hears. */
static uint64_t heard_on(const struct part *air, int round, int hearer,
                         uint64_t senders)
{
    uint64_t own = senders & only(hearer), word = 0;

    if (in_spell(air, (uint64_t)round))
        return own;
    if (air->kind == CAPTURE)
        return own | nearest_other(air, hearer, senders);
    if (air->kind == CLEAR || (uint64_t)round > air->list.groups / air->n)
        return senders;
    if ((uint64_t)hearer < air->n)
        word = air->list.number[(uint64_t)(round - 1) * air->n + hearer];
    return own | (senders & word);
}

/* Whether the detector alarms a head that heard t of c messages. */
static int alarmed_by(const struct part *detector, int round, int head, int c,
                      int t)
{
    int deaf = c > 0 && t == 0, half = c > 0 && 2 * t <= c;

    if (in_spell(detector, (uint64_t)round))
        return 1;
    if (detector->kind == COUNTING)
        return t < c;
    if (detector->kind == SQUELCH)
        return deaf;
    if (detector->kind == RECORDED_ZERO ? deaf : half)
        return 1;
    return (uint64_t)round <= detector->list.groups &&
           has(detector->list.number[round - 1], head);
}

/* The heads with a turn; told is the round last told of. */
static uint64_t turn_of(uint64_t manager, int told, uint64_t running)
{
    int start = manager == ROTATION ? told % 64 : 0;

    if (manager == EVERYONE)
        return running;
    for (int k = 0; k < 64; k++)
        if (has(running, (start + k) % 64))
            return only((start + k) % 64);
    return 0;
}

/* Drives one round; told is moved on if it is heard. */
static struct fault drive_round(struct vote *v, const struct drive *d,
                                int *told)
{
    int round = v->heard + 1;
    uint64_t stops = 0, records = (uint64_t)v->n, words = (uint64_t)v->n;
    uint64_t word[MAX_HEADS], senders = 0, alarms = 0;

    for (uint64_t i = d->settings.groups; i-- > 0;) {
        const uint64_t *s = d->settings.number + 4 * i;
        if (s[0] == (uint64_t)round) {
            stops = s[1];
            records = s[2];
            words = s[3];
        }
    }
    if (records < (uint64_t)v->n)
        return (struct fault){ TABLE_SHORT, NONE, NONE, NONE };
    if (words != (uint64_t)v->n)
        return (struct fault){ LIST_LENGTH, round, NONE, NONE };
    struct fault f = open_round(v, turn_of(d->manager, *told, v->running),
                                &senders);
    if (f.number)
        return f;
    for (int i = 0; i < v->n; i++) {
        word[i] = 0;
        if (!has(v->running, i))
            continue;
        word[i] = heard_on(&d->air, round, i, senders);
        if (alarmed_by(&d->detector, round, i, count(senders), count(word[i])))
            alarms |= only(i);
    }
    f = take_report(v, senders, stops, alarms, word);
    if (!f.number)
        *told = round;
    return f;
}

/* Drives one vote and prints its listing. */
static void follow(const struct drive *d)
{
    struct vote v;
    int told = 0;
    struct fault f = begin_drive(&v, d);

    if (!f.number)
        f = check_parts(d);
    for (uint64_t k = 0; k < d->drivings && !f.number; k++)
        f = drive_round(&v, d, &told);
    if (f.number) {
        printf("F %d -", f.number);
        print_named(&f);
    } else {
        print_heads(&v);
    }
}

/* The numbers of a text; how many is written to *size. */
static uint64_t *read_numbers(const uint8_t *text, size_t length, size_t *size)
{
    uint64_t *number = malloc((length / 2 + 1) * sizeof *number);
    int inside = 0;

    if (!number)
        die("out of memory");
    *size = 0;
    for (size_t i = 0; i < length; i++) {
        if (text[i] == ' ' || text[i] == '\n') {
            inside = 0;
            continue;
        }
        if (text[i] < '0' || text[i] > '9')
            die("the table has something else than numbers");
        if (!inside)
            number[(*size)++] = 0;
        inside = 1;
        uint64_t *x = &number[*size - 1], digit = text[i] - '0';
        if (*x > (UINT64_MAX - digit) / 10)
            die("the table has a number out of range");
        *x = 10 * *x + digit;
    }
    return number;
}

static void drive_table(const uint8_t *text, size_t length)
{
    size_t size;
    uint64_t *number = read_numbers(text, length, &size);
    struct table t = { number, number + size };

    for (int k = 1; t.next != t.end; k++) {
        struct drive d = take_drive(&t);
        printf("V %d\n", k);
        follow(&d);
    }
    free(number);
}

/* ---- Program ---- */

static uint8_t *read_all(FILE *in, size_t *size)
{
    size_t room = 1 << 16, used = 0, got;
    uint8_t *buffer = malloc(room);

    if (!buffer)
        die("out of memory");
    while ((got = fread(buffer + used, 1, room - used, in)) > 0) {
        used += got;
        if (used == room) {
            room *= 2;
            buffer = realloc(buffer, room);
            if (!buffer)
                die("out of memory");
        }
    }
    if (ferror(in))
        die("cannot read standard input");
    *size = used;
    return buffer;
}

static void play_batch(const uint8_t *p, size_t left)
{
    for (int k = 1; left > 0; k++) {
        if (left < 4 || get32(p) > left - 4)
            die("the batch ends inside a recording");
        size_t size = get32(p);
        printf("V %d\n", k);
        play(p + 4, size);
        p += 4 + size;
        left -= 4 + size;
    }
}

int main(int argc, char **argv)
{
    int batch = argc == 2 && strcmp(argv[1], "batch") == 0;
    int drives = argc == 2 && strcmp(argv[1], "drives") == 0;
    size_t size;

    if (argc > 1 && !batch && !drives)
        die("usage: model [batch | drives] < file");
    setvbuf(stdout, NULL, _IOFBF, 1 << 16);
    uint8_t *data = read_all(stdin, &size);
    if (batch)
        play_batch(data, size);
    else if (drives)
        drive_table(data, size);
    else
        play(data, size);
    free(data);
    if (fflush(stdout) != 0 || ferror(stdout))
        die("cannot write standard output");
    return 0;
}
