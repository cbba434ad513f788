/* A C lister of the same rules, tuned: it lists a captured line from standard input as `dialspark` does, with the word --exchanged
   one of a board that exchanges CR and LF. Telegrams are judged where they lie in the input, by rows of places that are made once
   from the layouts as printed; their digits go to the listing as they stand, and the rest of a row is laid out beforehand. The
   few declarations that it needs of the C library stand here, so that no header for the target has to be installed. */
typedef unsigned char byte;
typedef unsigned int count; /* runs free and wraps, as positions and stray bytes do */
typedef unsigned long size, word;

void *memchr(const void *bytes, int wanted, size length);
void *memcpy(void *to, const void *from, size length);
void *memmove(void *to, const void *from, size length);
int strcmp(const char *one, const char *other);
char *stpcpy(char *to, const char *from);
size strlen(const char *text);
long read(int file, void *to, size length);
long write(int file, const void *from, size length);

enum { STX = 2, ETX = 3, LONGEST = 39 };

/* --- the layouts --- */

/* What stands between STX and ETX: s status, w weekday, h hour, m minute, c second, d day, o month, y year, and the year's first two
   digits x; the rest is fixed. */
static const struct {
    const char *kind, *row;
} printed[] = {
    {"6021", "swhhmmccddooyy\n\r"},
    {"6021t", "hhmmcc\n\r"},
    {"2000", "swhhmmccddooxxyy\n\r"},
    {"5500", "s hhmmcc ddooyy w\r\n"},
    {"5500t", "hhmmcc\r\n"},
    {"5050", "hh mm cc dd oo yy sw \r\n"},
    {"5050t", "hh mm cc \r\n"},
};

enum { LAYOUTS = sizeof printed / sizeof *printed, PLACES = 24 };

/* A place holds a character from `low` on, `span` behind it at most: none in a fixed place, 9 in a decimal one. A field stands where its
   last character does; none stands at 0 but a status. In the text of a row stands all but the fields. */
struct layout {
    byte low[PLACES], span[PLACES];
    byte status, weekday, hour, minute, second, day, month, century, year;
    byte length, is_dated, is_as_6021;
    byte time_at, text_length;
    char text[32];
    const struct layout *other; /* of the same length, and with another trailer */
};

enum { FIXED = 0, DECIMAL = 9, CODE = 'F' - '0' };

static struct layout layouts[LAYOUTS];
static const struct layout *of_length[LONGEST];

static void make_place(struct layout *layout, int at, char letter) {
    byte *const field[] = {['s'] = &layout->status, ['w'] = &layout->weekday, ['h'] = &layout->hour, ['m'] = &layout->minute,
                           ['c'] = &layout->second, ['d'] = &layout->day,     ['o'] = &layout->month, ['x'] = &layout->century,
                           ['y'] = &layout->year};
    int is_fixed = letter <= ' ', is_code = letter == 's' || letter == 'w';
    layout->low[at] = is_fixed ? letter : '0';
    layout->span[at] = is_fixed ? FIXED : is_code ? CODE : DECIMAL;
    if (!is_fixed)
        *field[(byte)letter] = at;
}

static void make_text(struct layout *layout, const char *kind) {
    char *end = stpcpy(stpcpy(stpcpy(layout->text, ";"), kind), ";");
    end = stpcpy(end, layout->is_dated ? "    -  -  ;" : "-;");
    layout->time_at = end - layout->text;
    end = stpcpy(end, layout->is_dated ? "  :  :  ; ;" : "  :  :  ;-;-\n");
    layout->text_length = end - layout->text;
}

static void make_layout(struct layout *layout, const char *kind, const char *row, int is_exchanged) {
    int length = strlen(row);
    for (int at = 0; at < length; at++)
        make_place(layout, at, row[at]);
    for (int at = length; at < PLACES; at++)
        layout->span[at] = 255;
    if (is_exchanged) {
        layout->low[length - 2] = row[length - 1];
        layout->low[length - 1] = row[length - 2];
    }
    layout->length = length;
    layout->is_dated = layout->day > 0;
    layout->is_as_6021 = row[0] == 's' && row[1] == 'w';
    layout->other = of_length[length];
    of_length[length] = layout;
    make_text(layout, kind);
}

/* --- what a status says, and the calendar --- */

/* By a status character's four bits, and 16 more where the weekday marks UTC. No length: the layout does not allow it. */
struct meaning {
    byte length, is_daylight, is_utc;
    char words[32];
};

static struct meaning meanings[2][32];
static byte four_bits[256];
static byte month_begins_on[100][12]; /* the weekday of its first day, Monday as 0 */
static byte days_in[100][12];

enum { NO_BITS = 255 };

static void make_meaning(struct meaning *meaning, const char *reception, int is_daylight, int is_utc, int is_announced) {
    char *end = stpcpy(stpcpy(meaning->words, reception), is_daylight ? ",daylight" : ",standard");
    if (is_utc)
        end = stpcpy(end, ",utc");
    if (is_announced)
        end = stpcpy(end, ",announced");
    end = stpcpy(end, "\n");
    meaning->length = end - meaning->words;
    meaning->is_daylight = is_daylight;
    meaning->is_utc = is_utc;
}

static void make_meanings(void) {
    static const char *const receptions[] = {"invalid", "crystal", "radio", "high"};
    for (int bits = 0; bits < 32; bits++)
        make_meaning(&meanings[1][bits], receptions[bits >> 2 & 3], bits >> 1 & 1, bits >> 4, bits & 1);
    for (int bits = 0; bits < 10; bits++)
        make_meaning(&meanings[0][bits], bits & 1 ? "crystal" : "radio", bits >> 2 & 1, bits >> 3, bits >> 1 & 1);
}

static void make_tables(int is_exchanged) {
    static const byte days[] = {31, 28, 31, 30, 31, 30, 31, 31, 30, 31, 30, 31};
    int weekday = 1; /* 1 January 1980 is a Tuesday */
    for (int year = 0; year < 100; year++)
        for (int month = 0; month < 12; month++) {
            month_begins_on[year][month] = weekday;
            days_in[year][month] = days[month] + (month == 1 && year % 4 == 0);
            weekday = (weekday + days_in[year][month]) % 7;
        }
    for (int c = 0; c < 256; c++)
        four_bits[c] = c >= '0' && c <= '9' ? c - '0' : c >= 'A' && c <= 'F' ? c - 'A' + 10 : NO_BITS;
    for (int at = 0; at < LAYOUTS; at++)
        make_layout(&layouts[at], printed[at].kind, printed[at].row, is_exchanged);
    make_meanings();
}

/* --- the listing --- */

enum { LONGEST_ROW = 80, OUTPUT = 65536 };

static byte output[OUTPUT + LONGEST_ROW];
static byte *out = output;
static int is_whole = 1;

static void flush(void) {
    const byte *from = output;
    while (from < out && is_whole) {
        long put = write(1, from, out - from);
        is_whole = put > 0;
        from += is_whole ? put : 0;
    }
    out = output;
}

/* Where the next row goes. */
static byte *room(void) {
    if (out >= output + OUTPUT)
        flush();
    return out;
}

static byte *put_text(byte *to, const char *text) {
    return (byte *)stpcpy((char *)to, text);
}

static byte *put_number(byte *to, count number) {
    static const char pairs[] = "00010203040506070809101112131415161718192021222324252627282930313233343536373839404142434445464748"
                                "49505152535455565758596061626364656667686970717273747576777879808182838485868788899091929394959697"
                                "9899";
    int length = 1;
    for (count least = 10; length < 10 && number >= least; least *= 10)
        length++;
    byte *at = to + length;
    for (; number >= 10; number /= 100)
        memcpy(at -= 2, pairs + 2 * (number % 100), 2);
    if (at > to)
        *to = '0' + number;
    return to + length;
}

static void put_refused(count start, int refusal) {
    out = put_text(put_number(put_text(put_number(room(), start), ";refused "), refusal), "\n");
}

static void put_time(byte *to, const struct layout *layout, const byte *body) {
    memcpy(to, body + layout->hour - 1, 2);
    memcpy(to + 3, body + layout->minute - 1, 2);
    memcpy(to + 6, body + layout->second - 1, 2);
}

static void put_good(count start, const struct layout *layout, const byte *body, const struct meaning *meaning, int weekday) {
    byte *to = put_number(room(), start);
    memcpy(to, layout->text, sizeof layout->text);
    put_time(to + layout->time_at, layout, body);
    out = to + layout->text_length;
    if (!layout->is_dated)
        return;
    const byte *year = body + layout->year - 1;
    memcpy(to + 6, layout->century ? body + layout->century - 1 : (const byte *)(*year >= '8' ? "19" : "20"), 2);
    memcpy(to + 8, year, 2);
    memcpy(to + 11, body + layout->month - 1, 2);
    memcpy(to + 14, body + layout->day - 1, 2);
    to[26] = '0' + weekday;
    memcpy(out, meaning->words, sizeof meaning->words);
    out += meaning->length;
}

/* --- one telegram --- */

/* Every place holds what it may, as far as one character tells. */
static int fits(const struct layout *layout, const byte *body) {
    byte wrong = 0;
    for (int at = 0; at < PLACES; at++)
        wrong |= (byte)(body[at] - layout->low[at]) > layout->span[at];
    return !wrong;
}

/* Of a telegram that does not fit: 3, 4 or 5, the lowest that holds. */
static int misfit(const struct layout *layout, const byte *body) {
    int lowest = 5;
    for (int at = 0; at < layout->length && lowest > 3; at++)
        if ((byte)(body[at] - layout->low[at]) > layout->span[at] && layout->span[at] != CODE)
            lowest = layout->span[at] == FIXED ? 3 : 4;
    return lowest;
}

/* The two digits of a field. */
static count two(const byte *body, byte field) {
    return 10 * body[field - 1] + body[field] - 11 * '0';
}

static int judge_time_only(count start, const struct layout *layout, const byte *body) {
    count hour = two(body, layout->hour), minute = two(body, layout->minute), second = two(body, layout->second);
    if (hour > 23 || minute > 59 || second > (minute == 59 ? 60 : 59))
        return 6;
    put_good(start, layout, body, 0, 0);
    return 0;
}

/* The UTC month ends at midnight: in local time one hour later, in daylight time two, on the next month's first day. The calendar's
   first month has none before it. */
static int ends_a_utc_month(const struct meaning *meaning, count hour, count day, count month, count year) {
    if (meaning->is_utc)
        return hour == 23 && day == days_in[year][month - 1];
    return hour == meaning->is_daylight && day == 1 && (month > 1 || year > 0);
}

static int judge_dated(count start, const struct layout *layout, const byte *body) {
    count status = four_bits[body[layout->status]], weekday = four_bits[body[layout->weekday]];
    if (status == NO_BITS || weekday == NO_BITS)
        return 5;
    const struct meaning *meaning = &meanings[layout->is_as_6021][layout->is_as_6021 ? status + 2 * (weekday & 8) : status];
    if (layout->is_as_6021)
        weekday &= 7;
    if (!meaning->length || weekday < 1 || weekday > 7)
        return 5;
    count hour = two(body, layout->hour), minute = two(body, layout->minute), second = two(body, layout->second);
    count day = two(body, layout->day), month = two(body, layout->month), year = two(body, layout->year);
    year = layout->century ? year + 100 * two(body, layout->century) - 1980 : (year + 20) % 100;
    if (hour > 23 || minute > 59 || second > 60 || day < 1 || day > 31 || month < 1 || month > 12 || year > 99)
        return 6;
    if (second == 60 && (minute != 59 || !ends_a_utc_month(meaning, hour, day, month, year)))
        return 6;
    if (day > days_in[year][month - 1])
        return 7;
    if ((month_begins_on[year][month - 1] + day - 1) % 7 + 1 != weekday)
        return 8;
    put_good(start, layout, body, meaning, weekday);
    return 0;
}

/* Lists a telegram that begins with STX and ends with ETX: 0, or its refusal. */
static int judge(count start, const byte *telegram, size length) {
    const byte *body = telegram + 1;
    const struct layout *layout = of_length[length - 2];
    if (!layout)
        return 1;
    if (layout->other && body[layout->length - 1] != layout->low[layout->length - 1])
        layout = layout->other;
    if (!fits(layout, body))
        return misfit(layout, body);
    return layout->is_dated ? judge_dated(start, layout, body) : judge_time_only(start, layout, body);
}

/* --- the line --- */

/* How many bytes a read takes at most; few of them, and every telegram lies across reads. */
#ifndef INPUT
#define INPUT 65536
#endif

enum { WORD = sizeof(word) };

static byte input[LONGEST + INPUT + LONGEST + WORD];
static count stray;

/* How many bytes stand before the first STX or ETX, a word at a time; no fewer than `most` where none stands among those. */
static size before_mark(const byte *bytes, size most) {
    const word ones = ~0UL / 255;
    for (size at = 0; at < most; at += WORD) {
        word some;
        memcpy(&some, bytes + at, WORD);
        word others = (some ^ STX * ones) & ~ones; /* no bit of a byte is left where it is STX or ETX */
        word marks = (others - ones) & ~others & 128 * ones;
        if (marks)
            return at + __builtin_ctzl(marks) / 8;
    }
    return most;
}

/* Lists the input up to its end; its first byte has that position. Gives where a telegram begins that has no end yet, else the end. */
static const byte *list(count position, const byte *end) {
    const byte *at = input;
    while (at < end) {
        const byte *stx = *at == STX ? at : memchr(at, STX, end - at);
        if (!stx)
            stx = end;
        stray += stx - at;
        at = stx;
        size most = end - stx < LONGEST ? end - stx : LONGEST;
        if (most == 0)
            break;
        size length = 1 + before_mark(stx + 1, most - 1);
        count start = position + (stx - input);
        int refusal;
        if (length < most && stx[length] == ETX)
            refusal = judge(start, stx, ++length);
        else if (length < most)
            refusal = 9;
        else if (most == LONGEST)
            refusal = 10, length = LONGEST;
        else
            break;
        if (refusal)
            put_refused(start, refusal);
        at += length;
    }
    return at;
}

/* The line's end: a telegram that was begun, and the count of stray bytes. */
static void end_line(count position, size held) {
    if (held > 0)
        put_refused(position, 11);
    out = put_text(put_number(put_text(room(), "stray "), stray), "\n");
}

int main(int words, char **word_of) {
    make_tables(words == 2 && strcmp(word_of[1], "--exchanged") == 0);
    out = put_text(out, "start;kind;date;time;weekday;status\n");
    count position = 0;
    size held = 0;
    long got = 0;
    while (is_whole && (got = read(0, input + held, INPUT)) > 0) {
        const byte *end = input + held + got;
        const byte *rest = list(position, end);
        position += rest - input;
        held = end - rest;
        memmove(input, rest, held);
    }
    if (got == 0)
        end_line(position, held);
    flush();
    return got < 0 || !is_whole;
}
