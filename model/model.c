/* The station machine of document 01, a second time: one program in C11, written from the document's text alone.
 *
 *     model events  [--trust]    the event program
 *     model page    [--trust]    the same events, and at the end the reach of each station as a page
 *     model backlog [--trust]    the events up to the first refused one, as one list
 *     model wire                 the sheet and letters as bytes
 *
 * Each reads `network.sheet` from the current folder and standard input, `backlog` up to the first refused event and the
 * others to its end. Quoted sentences are document 01's; for the backlog, document 02's (L1).
 *
 * The proved programs' times are measured beside this one's (bench/run), so it is written to be fast as well: marks are
 * words with a bit for each link, an event changes the station in its place, input and output go in large blocks. Beside
 * C11 it has POSIX's read and write and two builtins of gcc and clang.
 *
 * In this order: sizes and shapes; output; the sheet as bytes; letters as bytes; well formed; reach and purge; what one
 * station does; one event; lines of input; the four programs.
 */

#define _POSIX_C_SOURCE 200809L

#include <errno.h>
#include <stdbool.h>
#include <stdint.h>
#include <stdio.h>
#include <stdlib.h>
#include <string.h>
#include <unistd.h>

/* ---- sizes and shapes ------------------------------------------------------------------------------------------- */

enum {
    MOST_STATIONS = 32,
    MOST_LINKS = 64,
    MOST_LETTERS = 4096,
    MOST_SHEET_BYTES = 4096,
    HIGHEST_COUNTER = 65535
};

/* "The numbers that say no"; "Acceptance is 0." Refusal 10 cannot arise here: no output is lent. */
enum {
    ACCEPTED = 0,
    ENDS_EARLY = 1,
    WRONG_FIELD = 2,
    OUT_OF_RANGE = 3,
    OUT_OF_ORDER = 4,
    TOO_MANY_LINKS = 5,
    NO_SUCH = 6,
    NOT_ALLOWED = 7,
    COUNTER_FULL = 8,
    LETTERS_FULL = 9
};

/* A link joins two stations, the lower-numbered one first. */
struct link {
    uint8_t lower, higher;
};

struct network {
    uint8_t stations, links;
    struct link link[MOST_LINKS];
};

enum letter_kind { REQUEST = 0, REPLY = 1, NOTICE = 2 };

/* "A letter is a request, a reply with a counter, or a notice with a subject link and a counter; each also names the
 * link it travels on and its sender." What a kind does not have is 0. */
struct letter {
    uint8_t kind, link, sender, subject;
    uint16_t counter;
};

enum condition { DOWN = 0, WAITING = 1, LIVE = 2 };

/* "five marks: token, turn, testing, asked, quiet", each one word for all links: bit k stands for link k. */
struct station {
    uint64_t condition, token, turn, testing, asked, quiet;
    uint16_t counter[MOST_LINKS];
};

/* What follows from the network alone, found once, when a state is made of it. */
struct found {
    uint64_t own[MOST_STATIONS];  /* bit k: link k is the station's own */
    uint32_t ends[MOST_LINKS];    /* bit s: station s is an end of the link */
    uint16_t initial[MOST_LINKS]; /* 1 for each link, 0 in unused room: the counters of a station that is not live */
};

struct state {
    struct network network;
    struct found found;
    struct station station[MOST_STATIONS];
    uint32_t letters;
    struct letter letter[MOST_LETTERS];
};

/* Stations and letters have no gaps, so that unused ones are compared as whole blocks. */
_Static_assert(sizeof(struct station) == 6 * 8 + MOST_LINKS * 2, "a gap in a station");
_Static_assert(sizeof(struct letter) == 6, "a gap in a letter");

static bool is_even(uint16_t counter) { return counter % 2 == 0; }

static bool is_end(struct link link, uint32_t station) { return link.lower == station || link.higher == station; }

static uint8_t other_end(struct link link, uint8_t station) { return link.lower == station ? link.higher : link.lower; }

/* Words of bits. */
static uint64_t bit(uint32_t link) { return (uint64_t)1 << link; }

static uint32_t count(uint64_t word) { return (uint32_t)__builtin_popcountll(word); }

static uint32_t lowest(uint64_t word) { return (uint32_t)__builtin_ctzll(word); } /* of a word that is not 0 */

static uint64_t without_lowest(uint64_t word) { return word & (word - 1); }

/* ---- output ------------------------------------------------------------------------------------------------------ */

/* Input and output go in blocks; nothing that is printed at once is longer than MOST_PUT. */
enum { BLOCK = 65536, MOST_PUT = 128 };

static char printed[BLOCK];
static size_t printed_size;

/* Writes what is printed so far. */
static void write_out(void)
{
    for (size_t at = 0; at < printed_size;) {
        ssize_t wrote = write(STDOUT_FILENO, printed + at, printed_size - at);
        if (wrote < 0 && errno != EINTR) {
            perror("model");
            exit(1);
        }
        if (wrote > 0)
            at += (size_t)wrote;
    }
    printed_size = 0;
}

/* Where to print next, at most MOST_PUT bytes. */
static char *place(void)
{
    if (printed_size > BLOCK - MOST_PUT)
        write_out();
    return printed + printed_size;
}

static void printed_to(const char *end) { printed_size = (size_t)(end - printed); }

/* The digits of a number, the last one known first; the place behind them. */
static char *spell(char *to, uint64_t number)
{
    char digit[20];
    size_t many = 0;
    do {
        digit[many++] = (char)('0' + number % 10);
        number /= 10;
    } while (number != 0);
    while (many > 0)
        *to++ = digit[--many];
    return to;
}

static void put_number(uint64_t number) { printed_to(spell(place(), number)); }

static void put_text(const char *text)
{
    size_t size = strlen(text);
    printed_to((char *)memcpy(place(), text, size) + size);
}

/* "A refused sheet prints its number alone." */
static void print_refusal(int number)
{
    put_number((uint64_t)number);
    put_text("\n");
}

/* ---- the sheet as bytes ------------------------------------------------------------------------------------------ */

enum { TAG_STATIONS = 0x01, TAG_LINK = 0x02, TAG_END = 0x0F, TAG_REQUEST = 0x21, TAG_REPLY = 0x22, TAG_NOTICE = 0x23 };

struct field {
    uint8_t tag;
    size_t length;
    const uint8_t *value;
};

/* "one-byte tag, two-byte length with the high byte first, value". Cuts the field that starts at *at and moves *at
 * behind it. Refusal 1, "bytes end inside a field", comes before anything is said about the tag. */
static int cut_field(const uint8_t *bytes, size_t size, size_t *at, struct field *field)
{
    if (size - *at < 3)
        return ENDS_EARLY;
    field->tag = bytes[*at];
    field->length = (size_t)bytes[*at + 1] * 256 + bytes[*at + 2];
    field->value = bytes + *at + 3;
    if (size - *at - 3 < field->length)
        return ENDS_EARLY;
    *at += 3 + field->length;
    return ACCEPTED;
}

/* The link rules a sheet and a network share: 3 before 4. `number` is the link's own number. */
static int judge_link(const struct network *network, uint32_t number, struct link link)
{
    if (link.lower >= network->stations || link.higher >= network->stations || link.lower >= link.higher)
        return OUT_OF_RANGE;
    if (number > 0) {
        struct link before = network->link[number - 1];
        /* "strictly rising by first then second end" */
        if (link.lower < before.lower || (link.lower == before.lower && link.higher <= before.higher))
            return OUT_OF_ORDER;
    }
    return ACCEPTED;
}

/* "Bytes go field by field: 1, 2, 3, 4, 5 in each." */
static int read_sheet(const uint8_t *bytes, size_t size, struct network *network)
{
    size_t at = 0;
    struct field field;
    int no;

    memset(network, 0, sizeof *network);

    /* "tag 01 length 1 (number of stations) once and first" */
    no = cut_field(bytes, size, &at, &field);
    if (no != ACCEPTED)
        return no;
    if (field.tag != TAG_STATIONS || field.length != 1)
        return WRONG_FIELD;
    if (field.value[0] < 1 || field.value[0] > MOST_STATIONS)
        return OUT_OF_RANGE;
    network->stations = field.value[0];

    for (;;) {
        no = cut_field(bytes, size, &at, &field);
        if (no != ACCEPTED)
            return no;
        if (field.tag == TAG_END && field.length == 0)
            break;
        if (field.tag != TAG_LINK || field.length != 2)
            return WRONG_FIELD;
        struct link link = {field.value[0], field.value[1]};
        no = judge_link(network, network->links, link);
        if (no != ACCEPTED)
            return no;
        if (network->links == MOST_LINKS)
            return TOO_MANY_LINKS;
        network->link[network->links] = link;
        network->links++;
    }

    /* "Any byte after the last field is refused as 2, once that field is good." */
    return at == size ? ACCEPTED : WRONG_FIELD;
}

/* "A file that can't be opened counts as empty bytes; one above 4,096 bytes is refused as 2." */
static int read_sheet_file(struct network *network)
{
    uint8_t bytes[MOST_SHEET_BYTES + 1];
    size_t size = 0;
    FILE *file = fopen("network.sheet", "rb");
    if (file != NULL) {
        size = fread(bytes, 1, sizeof bytes, file);
        fclose(file);
    }
    if (size > MOST_SHEET_BYTES)
        return WRONG_FIELD;
    return read_sheet(bytes, size, network);
}

static size_t put_head(uint8_t *out, uint8_t tag, uint8_t length)
{
    out[0] = tag;
    out[1] = 0;
    out[2] = length;
    return 3;
}

/* The longest sheet is 4 + 64 * 5 + 3 bytes. */
static size_t write_sheet(const struct network *network, uint8_t *out)
{
    size_t at = put_head(out, TAG_STATIONS, 1);
    out[at++] = network->stations;
    for (uint32_t k = 0; k < network->links; k++) {
        at += put_head(out + at, TAG_LINK, 2);
        out[at++] = network->link[k].lower;
        out[at++] = network->link[k].higher;
    }
    at += put_head(out + at, TAG_END, 0);
    return at;
}

/* ---- letters as bytes -------------------------------------------------------------------------------------------- */

/* "one field each. Tag 21 length 2: link, side (0 = sent by the lower-numbered end, 1 = the higher). Tag 22 length 4:
 * link, side, counter (high byte first). Tag 23 length 5: link, side, subject link, counter." */
static int read_letter(const struct network *network, const uint8_t *bytes, size_t size, struct letter *letter)
{
    size_t at = 0;
    struct field field;
    int no = cut_field(bytes, size, &at, &field);
    if (no != ACCEPTED)
        return no;

    memset(letter, 0, sizeof *letter);
    const uint8_t *counter = NULL; /* where the two counter bytes stand, if any */
    if (field.tag == TAG_REQUEST && field.length == 2) {
        letter->kind = REQUEST;
    } else if (field.tag == TAG_REPLY && field.length == 4) {
        letter->kind = REPLY;
        counter = field.value + 2;
    } else if (field.tag == TAG_NOTICE && field.length == 5) {
        letter->kind = NOTICE;
        letter->subject = field.value[2];
        counter = field.value + 3;
    } else {
        return WRONG_FIELD;
    }

    uint8_t link = field.value[0], side = field.value[1];
    if (link >= network->links || side > 1 || (letter->kind == NOTICE && letter->subject >= network->links))
        return OUT_OF_RANGE;
    letter->link = link;
    letter->sender = side == 0 ? network->link[link].lower : network->link[link].higher;
    if (counter != NULL) {
        letter->counter = (uint16_t)(counter[0] * 256 + counter[1]);
        if (letter->counter == 0)
            return OUT_OF_RANGE;
    }

    /* "Any byte after the last field is refused as 2, once that field is good." */
    return at == size ? ACCEPTED : WRONG_FIELD;
}

/* Of a letter that was read against this network, so that nothing is left to refuse. At most 8 bytes. */
static size_t write_letter(const struct network *network, const struct letter *letter, uint8_t *out)
{
    size_t at = 0;
    switch (letter->kind) {
    case REQUEST:
        at = put_head(out, TAG_REQUEST, 2);
        break;
    case REPLY:
        at = put_head(out, TAG_REPLY, 4);
        break;
    case NOTICE:
        at = put_head(out, TAG_NOTICE, 5);
        break;
    }
    out[at++] = letter->link;
    out[at++] = letter->sender == network->link[letter->link].lower ? 0 : 1;
    if (letter->kind == NOTICE)
        out[at++] = letter->subject;
    if (letter->kind != REQUEST) {
        out[at++] = (uint8_t)(letter->counter / 256);
        out[at++] = (uint8_t)(letter->counter % 256);
    }
    return at;
}

/* ---- well formed ------------------------------------------------------------------------------------------------- */

/* "unused room is zero": compared as one block, each byte with the one 16 places before it. */
static bool is_zero(const void *room, size_t size)
{
    static const uint8_t zero[16];
    const uint8_t *byte = room;
    if (size < sizeof zero)
        return memcmp(byte, zero, size) == 0;
    return memcmp(byte, zero, sizeof zero) == 0 && memcmp(byte + sizeof zero, byte, size - sizeof zero) == 0;
}

/* "the sheet rules hold", and no unused room of the network is other than zero. */
static bool network_well_formed(const struct network *network)
{
    if (network->stations < 1 || network->stations > MOST_STATIONS || network->links > MOST_LINKS)
        return false;
    for (uint32_t k = 0; k < network->links; k++)
        if (judge_link(network, k, network->link[k]) != ACCEPTED)
            return false;
    return is_zero(&network->link[network->links], (MOST_LINKS - network->links) * sizeof network->link[0]);
}

/* "a down station has no mark, a waiting one has token alone on each own link; marks stand only on own links; testing
 * never stands with token, turn or quiet; token never with turn; asked only with testing": on all links at once. */
static bool marks_well_formed(const struct station *s, uint64_t own)
{
    uint64_t others = s->turn | s->testing | s->asked | s->quiet;
    if (s->condition == DOWN)
        return (s->token | others) == 0;
    if (s->condition == WAITING)
        return s->token == own && others == 0;
    return (((s->token | others) & ~own) | (s->testing & (s->token | s->turn | s->quiet)) | (s->token & s->turn) |
            (s->asked & ~s->testing)) == 0;
}

/* "counters ... are 1 to 65,535"; "a down or waiting station has all counters 1"; behind the last link is unused room.
 * A live station's counter is 0 there and only there: gathered over all places, with one question at the end. */
static bool counters_well_formed(const struct station *station, const uint16_t *initial)
{
    if (station->condition != LIVE)
        return memcmp(station->counter, initial, sizeof station->counter) == 0;
    uint16_t faults = 0;
    for (uint32_t k = 0; k < MOST_LINKS; k++)
        faults |= (uint16_t)((station->counter[k] == 0) ^ (initial[k] == 0));
    return faults == 0;
}

static bool station_well_formed(const struct found *found, uint32_t number, const struct station *station)
{
    return station->condition <= LIVE && marks_well_formed(station, found->own[number]) &&
           counters_well_formed(station, found->initial);
}

/* "counters, in letters too, are 1 to 65,535"; "each letter's sender is an end of its link and its links exist". What a
 * letter holds cannot be foreseen, so nothing is decided letter by letter: all is gathered, and asked at the end. */
static bool letters_well_formed(const struct state *state)
{
    /* a notice's subject is one of the links, any other's is 0; kind 3 can have none */
    const uint32_t subjects[4] = {[REQUEST] = 1, [REPLY] = 1, [NOTICE] = state->network.links, [3] = 0};
    uint32_t kinds = 0, links = 0, senders = 0, faults = 0, ended = 1;
    for (uint32_t i = 0; i < state->letters; i++) {
        struct letter x = state->letter[i];
        kinds |= x.kind;
        links |= x.link;
        senders |= x.sender;
        /* a link that does not exist has no ends */
        ended &= state->found.ends[x.link % MOST_LINKS] >> x.sender % MOST_STATIONS;
        faults |= (uint32_t)(x.subject >= subjects[x.kind % 4]);
        /* a request's counter is 0, and no other's */
        faults |= (uint32_t)((x.counter == 0) ^ (x.kind == REQUEST));
    }
    /* the remainders above were the numbers themselves */
    return kinds < 4 && links < MOST_LINKS && senders < MOST_STATIONS && faults == 0 && ended == 1;
}

static bool well_formed(const struct state *state)
{
    const struct network *network = &state->network;
    if (!network_well_formed(network) || state->letters > MOST_LETTERS)
        return false;
    for (uint32_t s = 0; s < network->stations; s++)
        if (!station_well_formed(&state->found, s, &state->station[s]))
            return false;
    return is_zero(&state->station[network->stations], (MOST_STATIONS - network->stations) * sizeof state->station[0]) &&
           letters_well_formed(state) &&
           is_zero(&state->letter[state->letters], (MOST_LETTERS - state->letters) * sizeof state->letter[0]);
}

static void find(const struct network *network, struct found *found)
{
    memset(found, 0, sizeof *found);
    for (uint32_t k = 0; k < network->links; k++) {
        struct link link = network->link[k];
        found->own[link.lower] |= bit(k);
        found->own[link.higher] |= bit(k);
        found->ends[k] = (uint32_t)1 << link.lower | (uint32_t)1 << link.higher;
        found->initial[k] = 1;
    }
}

/* "Right after reading a sheet every station is down and no letter is in flight." */
static void fresh(struct state *state, const struct network *network)
{
    memset(state, 0, sizeof *state);
    state->network = *network;
    find(network, &state->found);
    for (uint32_t s = 0; s < network->stations; s++)
        memcpy(state->station[s].counter, state->found.initial, sizeof state->station[s].counter);
}

/* ---- reach and purge --------------------------------------------------------------------------------------------- */

/* "Station s reaches t if a list of stations leads from s to t, each next one joined by a link that is even in s's
 * table". Bit t of the answer stands for station t. The links are gone through again and again until none leads on;
 * "no promise says which link was taken". */
static uint32_t reach_of(const struct state *state, uint32_t self)
{
    const uint16_t *counter = state->station[self].counter;
    uint32_t reach = (uint32_t)1 << self, before; /* "s reaches itself" */
    do {
        before = reach;
        for (uint32_t k = 0; k < state->network.links; k++)
            if (is_even(counter[k]) && (reach & state->found.ends[k]) != 0)
                reach |= state->found.ends[k];
    } while (reach != before);
    return reach;
}

/* "every link neither of whose ends s reaches gets counter 1" */
static void purge(struct state *state, uint32_t self)
{
    uint32_t reach = reach_of(state, self);
    for (uint32_t k = 0; k < state->network.links; k++)
        if ((reach & state->found.ends[k]) == 0)
            state->station[self].counter[k] = 1;
}

/* ---- what one station does --------------------------------------------------------------------------------------- */

struct event {
    uint32_t kind, a, b;
};

/* An event changes at most one station, in its place, and sends to the end of the list. "Each refusal hands back the
 * state it was given", so each kind of work first counts what it will send and asks for room; nothing is changed before. */
struct work {
    struct state *state;
    uint64_t *settled;
    uint32_t self;
    struct station *station;
    uint64_t own;
    bool takes_letter; /* events 7 and 8 */
    uint32_t number;   /* the letter's */
};

/* Refusal 9: "more than 4,096 letters would be in flight after the event"; there is always room for none. Where there is
 * room the event is taken, and its letter with it: "It leaves the list, the later ones close up"; the place left free is
 * zero again. */
static int take(struct work *work, uint32_t sends)
{
    struct state *state = work->state;
    uint32_t number = work->number, left = state->letters - (work->takes_letter ? 1 : 0);
    if (left + sends > MOST_LETTERS)
        return LETTERS_FULL;
    if (work->takes_letter) {
        /* "notices taken off by events 7 and 8" */
        if (state->letter[number].kind == NOTICE && *work->settled < UINT64_MAX)
            ++*work->settled;
        memmove(&state->letter[number], &state->letter[number + 1], (left - number) * sizeof state->letter[0]);
        memset(&state->letter[left], 0, sizeof state->letter[0]);
        state->letters = left;
    }
    return ACCEPTED;
}

/* "new letters go to the end" */
static void send(struct work *work, enum letter_kind kind, uint32_t link, uint32_t subject, uint16_t counter)
{
    struct state *state = work->state;
    state->letter[state->letters++] =
        (struct letter){(uint8_t)kind, (uint8_t)link, (uint8_t)work->self, (uint8_t)subject, counter};
}

/* A notice of one link, with its counter, on each of the ways, by link number. */
static void send_notice(struct work *work, uint64_t ways, uint32_t subject)
{
    for (; ways != 0; ways = without_lowest(ways))
        send(work, NOTICE, lowest(ways), subject, work->station->counter[subject]);
}

/* "every own link that isn't quiet" */
static uint64_t ways_of(const struct work *work) { return work->own & ~work->station->quiet; }

/* "every link whose counter is above 1" */
static uint64_t above_one(const struct work *work)
{
    uint64_t links = 0;
    for (uint32_t k = 0; k < work->state->network.links; k++)
        links |= (uint64_t)(work->station->counter[k] > 1) << k;
    return links;
}

/* Event 1: "It becomes waiting, token on for each own link." */
static int start(struct work *work)
{
    work->station->condition = WAITING;
    work->station->token = work->own;
    return ACCEPTED;
}

/* Event 2: "Down, marks off, counters 1." */
static int stop(struct work *work)
{
    memset(work->station, 0, sizeof *work->station);
    memcpy(work->station->counter, work->state->found.initial, sizeof work->station->counter);
    return ACCEPTED;
}

/* Event 4's work on some links, by link number: "With token: token off, testing on, request sent. With turn: turn off,
 * testing on, request sent. With neither: turn on." */
static int interval_ends(struct work *work, uint64_t links)
{
    struct station *station = work->station;
    uint64_t tested = links & (station->token | station->turn);
    int no = take(work, count(tested));
    if (no != ACCEPTED)
        return no;
    station->token &= ~tested;
    station->turn = (station->turn | links) & ~tested;
    station->testing |= tested;
    for (; tested != 0; tested = without_lowest(tested))
        send(work, REQUEST, lowest(tested), 0, 0);
    return ACCEPTED;
}

/* Event 3: "It becomes live and event 4's work is done on each own link, by link number." */
static int recovery_wait_ends(struct work *work)
{
    int no = interval_ends(work, work->own);
    if (no == ACCEPTED)
        work->station->condition = LIVE;
    return no;
}

/* Event 5. An even counter is at most 65,534, so the sum has room. */
static int timeout_ends(struct work *work, uint32_t link)
{
    struct station *station = work->station;
    bool even = is_even(station->counter[link]);
    /* "send a notice of b on every other own link that isn't quiet": with the new counter */
    uint64_t ways = even ? ways_of(work) & ~bit(link) : 0;
    int no = take(work, count(ways));
    if (no != ACCEPTED)
        return no;
    station->testing &= ~bit(link);
    station->token |= station->asked & bit(link);
    station->asked &= ~bit(link);
    if (even) {
        station->counter[link]++;
        send_notice(work, ways, link);
        station->quiet |= bit(link);
        purge(work->state, work->self);
    }
    return ACCEPTED;
}

static int hear_request(struct work *work, struct letter letter)
{
    struct station *station = work->station;
    uint64_t here = bit(letter.link);
    if ((station->testing & here) != 0 && work->self > letter.sender) {
        station->asked |= here;
        return take(work, 0);
    }
    /* "if its counter for the link is odd ... a notice of every other link whose counter is above 1": other links of the
     * network, sent on this link */
    uint64_t told = is_even(station->counter[letter.link]) ? 0 : above_one(work) & ~here;
    int no = take(work, count(told) + 1);
    if (no != ACCEPTED)
        return no;
    station->testing &= ~here;
    station->asked &= ~here;
    station->token |= here;
    station->turn &= ~here;
    for (; told != 0; told = without_lowest(told))
        send_notice(work, here, lowest(told));
    send(work, REPLY, letter.link, 0, station->counter[letter.link]);
    return ACCEPTED;
}

/* The only work that can be refused as 8, "a reply would make a counter 65,536". */
static int hear_reply(struct work *work, struct letter letter)
{
    struct station *station = work->station;
    uint64_t here = bit(letter.link);
    if ((station->testing & here) == 0)
        return take(work, 0);

    uint16_t own = station->counter[letter.link], carried = letter.counter;
    uint16_t m = own > carried ? own : carried;
    if (m == HIGHEST_COUNTER)
        return COUNTER_FULL;
    uint16_t risen = is_even(m) ? m : (uint16_t)(m + 1);

    /* an odd one: "a notice of every link whose counter is now above 1, ... each on every own link ...; then purge". This
     * link's is above 1 now, and the others' are what they were. Both even: "a notice of this link alone", if they differ */
    bool odd = !is_even(own) || !is_even(carried);
    uint64_t ways = ways_of(work), told = odd ? above_one(work) | here : own != carried ? here : 0;
    int no = take(work, count(told) * count(ways));
    if (no != ACCEPTED)
        return no;
    station->testing &= ~here;
    station->asked &= ~here;
    station->counter[letter.link] = risen;
    for (; told != 0; told = without_lowest(told))
        send_notice(work, ways, lowest(told));
    if (odd)
        purge(work->state, work->self);
    return ACCEPTED;
}

/* "If its counter is above the own one: take it, and send the same on every own link that isn't quiet, other than the
 * one it came on". "No purge here". */
static int hear_notice(struct work *work, struct letter letter)
{
    if (letter.counter <= work->station->counter[letter.subject])
        return take(work, 0);
    uint64_t ways = ways_of(work) & ~bit(letter.link);
    int no = take(work, count(ways));
    if (no != ACCEPTED)
        return no;
    work->station->counter[letter.subject] = letter.counter;
    send_notice(work, ways, letter.subject);
    return ACCEPTED;
}

static int hear(struct work *work, struct letter letter)
{
    /* "If the receiver isn't live, or quiet on that link, the letter is gone and nothing else happens." */
    if (work->station->condition != LIVE || (work->station->quiet & bit(letter.link)) != 0)
        return take(work, 0);
    switch (letter.kind) {
    case REQUEST:
        return hear_request(work, letter);
    case REPLY:
        return hear_reply(work, letter);
    default:
        return hear_notice(work, letter);
    }
}

/* ---- one event --------------------------------------------------------------------------------------------------- */

enum {
    START = 1,
    STOP = 2,
    RECOVERY_WAIT_ENDS = 3,
    INTERVAL_ENDS = 4,
    TIMEOUT_ENDS = 5,
    QUIET_ENDS = 6,
    DELIVER = 7,
    LOSE = 8
};

/* Refusal 6: "no such event kind, station, link at that station or letter; an unused number that isn't 0" */
static bool names_something(const struct state *state, struct event event)
{
    const struct network *network = &state->network;
    switch (event.kind) {
    case START:
    case STOP:
    case RECOVERY_WAIT_ENDS:
        return event.a < network->stations && event.b == 0;
    case INTERVAL_ENDS:
    case TIMEOUT_ENDS:
    case QUIET_ENDS:
        return event.a < network->stations && event.b < network->links && is_end(network->link[event.b], event.a);
    case DELIVER:
    case LOSE:
        return event.a < state->letters && event.b == 0;
    default:
        return false;
    }
}

/* Refusal 7: "the station's condition or marks don't allow it". Of an event 1 to 6 that names something. */
static bool is_allowed(const struct station *station, struct event event)
{
    switch (event.kind) {
    case START:
        return station->condition == DOWN;
    case STOP:
        return station->condition != DOWN;
    case RECOVERY_WAIT_ENDS:
        return station->condition == WAITING;
    case INTERVAL_ENDS:
        return station->condition == LIVE && ((station->testing | station->quiet) & bit(event.b)) == 0;
    case TIMEOUT_ENDS:
        return (station->testing & bit(event.b)) != 0;
    default: /* QUIET_ENDS */
        return (station->quiet & bit(event.b)) != 0;
    }
}

/* One event. "Calls over a state go 11, 6, 7, 8, 9, 10. Each refusal hands back the state it was given and touches ...
 * no tally". *settled counts "notices taken off by events 7 and 8". */
static int step(struct state *state, struct event event, bool trust, uint64_t *settled)
{
    /* Refusal 11 can never arise from the program's own states. */
    if (!trust && !well_formed(state)) {
        write_out();
        fprintf(stderr, "model: the state is not well formed\n");
        abort();
    }
    if (!names_something(state, event))
        return NO_SUCH;

    struct work work = {.state = state, .settled = settled};
    struct letter letter = {0, 0, 0, 0, 0};
    if (event.kind == DELIVER || event.kind == LOSE) {
        /* a letter's receiver is the other end of its link */
        letter = state->letter[event.a];
        work.self = other_end(state->network.link[letter.link], letter.sender);
        work.takes_letter = true;
        work.number = event.a;
    } else {
        work.self = event.a;
    }
    work.station = &state->station[work.self];
    work.own = state->found.own[work.self];
    if (!work.takes_letter && !is_allowed(work.station, event))
        return NOT_ALLOWED;

    switch (event.kind) {
    case START:
        return start(&work);
    case STOP:
        return stop(&work);
    case RECOVERY_WAIT_ENDS:
        return recovery_wait_ends(&work);
    case INTERVAL_ENDS:
        return interval_ends(&work, bit(event.b));
    case TIMEOUT_ENDS:
        return timeout_ends(&work, event.b);
    case QUIET_ENDS:
        work.station->quiet &= ~bit(event.b);
        return ACCEPTED;
    case DELIVER:
        return hear(&work, letter);
    default: /* LOSE */
        return take(&work, 0);
    }
}

/* ---- lines of input ---------------------------------------------------------------------------------------------- */

enum line { NO_LINE, GOOD_LINE, MALFORMED_LINE };

/* No good line of either kind is as long as this. */
enum { LONG_LINE = 100 };

/* Standard input in large blocks: the bytes not yet used are input[used] to input[got - 1], and a newline stands behind
 * them, so that whoever reads a line meets one before the block ends. */
static uint8_t input[BLOCK + 1] = {'\n'};
static size_t used, got;
static bool over; /* the input has no more */

/* Reads on, behind the line under way. Whatever is printed is written first: who waits for an answer before giving the
 * next line has it. */
static void read_on(void)
{
    write_out();
    /* a line may have any length; the front of a long one says already that it is malformed */
    size_t kept = got - used > LONG_LINE ? LONG_LINE : got - used;
    memmove(input, input + used, kept);
    ssize_t more;
    do
        more = read(STDIN_FILENO, input + kept, BLOCK - kept);
    while (more < 0 && errno == EINTR);
    over = more <= 0;
    used = 0;
    got = kept + (over ? 0 : (size_t)more);
    input[got] = '\n';
}

enum sight { WHOLE, PART, NOTHING };

/* After a look at the line that begins at input[used], up to the newline met: whether it is the line's own. If it is the one
 * behind the block, more is read, and the line is to be looked at again. "the last newline may be missing"; no byte at all
 * is no line. */
static enum sight seen(const uint8_t *newline)
{
    if (newline < input + got) {
        used = (size_t)(newline - input) + 1;
        return WHOLE;
    }
    if (!over) {
        read_on();
        return PART;
    }
    if (used == got)
        return NOTHING;
    used = got;
    return WHOLE;
}

/* A number of 1 to 9 digits. Leading zeros are digits like others. */
static const uint8_t *read_number(const uint8_t *at, uint32_t *number, bool *good)
{
    const uint8_t *first = at;
    uint32_t value = 0;
    for (uint32_t digit; (digit = (uint32_t)*at - '0') <= 9; at++)
        value = value * 10 + digit;
    *number = value;
    *good &= at - first >= 1 && at - first <= 9;
    return at;
}

/* "lines of three decimal numbers with one space between, each of 1 to 9 digits; the last newline may be missing" */
static enum line read_event_line(struct event *event)
{
    bool good;
    enum sight sight;
    do {
        good = true;
        const uint8_t *at = read_number(input + used, &event->kind, &good);
        good &= *at == ' ';
        at = read_number(at + good, &event->a, &good);
        good &= *at == ' ';
        at = read_number(at + good, &event->b, &good);
        good &= *at == '\n';
        while (*at != '\n')
            at++;
        sight = seen(at);
    } while (sight == PART);
    if (sight == NOTHING)
        return NO_LINE;
    return good ? GOOD_LINE : MALFORMED_LINE;
}

static int hexadecimal_digit(uint8_t c)
{
    if (c >= '0' && c <= '9')
        return c - '0';
    if (c >= 'a' && c <= 'f')
        return c - 'a' + 10;
    if (c >= 'A' && c <= 'F')
        return c - 'A' + 10;
    return -1;
}

enum { MOST_DIGITS = 64 };

/* A line of hexadecimal digits of either case, an even number of them, at most 64. An empty line is no bytes. */
static enum line read_hexadecimal_line(uint8_t *bytes, size_t *size)
{
    size_t digits;
    bool good;
    enum sight sight;
    do {
        const uint8_t *at = input + used;
        digits = 0;
        good = true;
        for (; *at != '\n'; at++) {
            int value = hexadecimal_digit(*at);
            if (value < 0 || digits == MOST_DIGITS) {
                good = false;
            } else if (good) {
                if (digits % 2 == 0)
                    bytes[digits / 2] = (uint8_t)(value * 16);
                else
                    bytes[digits / 2] = (uint8_t)(bytes[digits / 2] + value);
                digits++;
            }
        }
        sight = seen(at);
    } while (sight == PART);
    if (sight == NOTHING)
        return NO_LINE;
    *size = digits / 2;
    return good && digits % 2 == 0 ? GOOD_LINE : MALFORMED_LINE;
}

/* ---- the four programs ------------------------------------------------------------------------------------------- */

static struct state the_state;

/* "At the end: one line per station, its number and its counters by link." */
static void print_counters(const struct state *state)
{
    for (uint32_t s = 0; s < state->network.stations; s++) {
        put_number(s);
        for (uint32_t k = 0; k < state->network.links; k++) {
            put_text(" ");
            put_number(state->station[s].counter[k]);
        }
        put_text("\n");
    }
}

/* "For each it prints: answer, letters in flight, notices settled so far" */
static void print_answer(int answer, uint32_t letters, uint64_t settled)
{
    char *to = place();
    *to++ = (char)('0' + answer);
    *to++ = ' ';
    to = spell(to, letters);
    *to++ = ' ';
    to = spell(to, settled);
    *to++ = '\n';
    printed_to(to);
}

static void events(bool trust)
{
    struct network network;
    int no = read_sheet_file(&network);
    if (no != ACCEPTED) {
        print_refusal(no);
        return;
    }
    fresh(&the_state, &network);

    uint64_t settled = 0;
    struct event event;
    enum line line;
    while ((line = read_event_line(&event)) != NO_LINE) {
        /* "A malformed line, an empty one among them, changes nothing and prints answer 6" */
        int answer = line == GOOD_LINE ? step(&the_state, event, trust, &settled) : NO_SUCH;
        print_answer(answer, the_state.letters, settled);
    }
    print_counters(&the_state);
}

/* "it equals the calls one by one, stops at the first refused event, and hands back the state after those taken, how
 * many, and the refusal's number". A malformed line ends the list, as "one or two left over" would: "an event refused
 * as 6". What stands behind is not looked at. */
static void backlog(bool trust)
{
    struct network network;
    int no = read_sheet_file(&network);
    if (no != ACCEPTED) {
        print_refusal(no);
        return;
    }
    fresh(&the_state, &network);

    uint64_t settled = 0, taken = 0;
    int answer = ACCEPTED;
    struct event event;
    enum line line;
    while (answer == ACCEPTED && (line = read_event_line(&event)) != NO_LINE) {
        answer = line == GOOD_LINE ? step(&the_state, event, trust, &settled) : NO_SUCH;
        if (answer == ACCEPTED)
            taken++;
    }

    put_number(taken);
    put_text(" ");
    print_answer(answer, the_state.letters, settled);
    print_counters(&the_state);
}

/* "For a live station: one byte per station (0 unreachable, 1 working), then one per link", here in words. */
static void print_report(const struct state *state, uint32_t self)
{
    const struct network *network = &state->network;
    uint32_t reach = reach_of(state, self), stations = network->stations;
    uint32_t others = ~reach & (uint32_t)(bit(stations) - 1); /* not reached */
    put_text("station ");
    put_number(self);
    put_text(" live, reaches ");
    put_number(count(reach));
    put_text(" of ");
    put_number(stations);
    if (others != 0) { /* "the lowest station not reached" */
        put_text(", lowest not reached ");
        put_number(lowest(others));
    }
    put_text("\n");

    for (uint32_t t = 0; t < stations; t++) {
        put_text("  station ");
        put_number(t);
        put_text((reach >> t & 1) != 0 ? " working\n" : " unreachable\n");
    }
    for (uint32_t k = 0; k < network->links; k++) {
        put_text("  link ");
        put_number(k);
        put_text(" (");
        put_number(network->link[k].lower);
        put_text("-");
        put_number(network->link[k].higher);
        if ((reach & state->found.ends[k]) == 0)
            put_text(") perceived unreachable\n");
        else
            put_text(is_even(state->station[self].counter[k]) ? ") working\n" : ") unresponsive\n");
    }
}

static void page(bool trust)
{
    struct network network;
    int no = read_sheet_file(&network);
    if (no != ACCEPTED) {
        print_refusal(no);
        return;
    }
    fresh(&the_state, &network);

    uint64_t settled = 0, taken = 0, refused = 0;
    struct event event;
    enum line line;
    while ((line = read_event_line(&event)) != NO_LINE) {
        if (line == GOOD_LINE && step(&the_state, event, trust, &settled) == ACCEPTED)
            taken++;
        else
            refused++;
    }

    put_number(taken);
    put_text(" events taken, ");
    put_number(refused);
    put_text(" refused\n");
    for (uint32_t s = 0; s < network.stations; s++) {
        if (the_state.station[s].condition == LIVE) {
            print_report(&the_state, s);
        } else {
            put_text("station ");
            put_number(s);
            put_text(the_state.station[s].condition == DOWN ? " down\n" : " waiting\n");
        }
    }
}

static void put_bytes(const uint8_t *bytes, size_t size)
{
    for (size_t i = 0; i < size; i++) {
        char *to = place();
        to[0] = "0123456789ABCDEF"[bytes[i] / 16];
        to[1] = "0123456789ABCDEF"[bytes[i] % 16];
        printed_to(to + 2);
    }
}

static void put_field(uint64_t number)
{
    put_number(number);
    put_text(" ");
}

static void wire(void)
{
    struct network network;
    uint8_t bytes[4 + MOST_LINKS * 5 + 3];
    size_t size;
    int no = read_sheet_file(&network);
    put_text("sheet ");
    if (no != ACCEPTED) {
        print_refusal(no);
        return;
    }
    put_text("0 ");
    put_field(network.stations);
    put_field(network.links);
    put_bytes(bytes, write_sheet(&network, bytes));
    put_text("\n");

    enum line line;
    while ((line = read_hexadecimal_line(bytes, &size)) != NO_LINE) {
        struct letter letter;
        if (line == MALFORMED_LINE) {
            put_text("malformed\n");
            continue;
        }
        no = read_letter(&network, bytes, size, &letter);
        if (no != ACCEPTED) {
            print_refusal(no);
            continue;
        }
        put_text(letter.kind == REQUEST ? "0 request " : letter.kind == REPLY ? "0 reply " : "0 notice ");
        put_field(letter.link);
        put_field(letter.sender);
        if (letter.kind == NOTICE)
            put_field(letter.subject);
        if (letter.kind != REQUEST)
            put_field(letter.counter);
        put_bytes(bytes, write_letter(&network, &letter, bytes));
        put_text("\n");
    }
}

int main(int argc, char **argv)
{
    const char *program = argc >= 2 ? argv[1] : "";
    bool trust = argc == 3 && strcmp(argv[2], "--trust") == 0, known = argc == 2 || trust;
    if (known && strcmp(program, "events") == 0) {
        events(trust);
    } else if (known && strcmp(program, "page") == 0) {
        page(trust);
    } else if (known && strcmp(program, "backlog") == 0) {
        backlog(trust);
    } else if (known && strcmp(program, "wire") == 0) {
        wire();
    } else {
        fprintf(stderr, "usage: model events|page|backlog|wire [--trust]\n");
        return 2;
    }
    write_out();
    return 0;
}
