/* A plain C reader of the same telegrams, lines and logs, to be measured beside the proved one: the same seven layouts, the same
   refusals, the same line, the same blocks. It takes what the program `measured` takes, and prints what that prints: a
   letter, r, w, l, v or a, and then 6021 telegrams of 18 bytes to read or to write anew, a line to feed, or a region to verify or to
   add to. With the letter p it prints the listing of a line, as `dialspark` does. Compiled with MEMCHR it skips stray bytes by the C
   library's memchr, and without it takes them one by one. */
typedef unsigned char byte;
typedef unsigned int count;

enum { STX = 2, LF = 10, CR = 13, ETX = 3, HELD = 38 };

/* Where things stand between STX and ETX, counted from 0: status and weekday, the tens of each field, and what is fixed, as pairs of
   a place and a character. NONE is a field that the layout does not carry. */
enum { NONE = 255 };

struct layout {
    byte status, weekday, hour, minute, second, day, month, century, year;
    byte fixed[20];
    byte fixed_size;
};

enum { L6021, L6021T, L2000, L5500, L5500T, L5050, L5050T };

static const struct layout layouts[] = {
    [L6021] = {0, 1, 2, 4, 6, 8, 10, NONE, 12, {14, LF, 15, CR}, 4},
    [L6021T] = {NONE, NONE, 0, 2, 4, NONE, NONE, NONE, NONE, {6, LF, 7, CR}, 4},
    [L2000] = {0, 1, 2, 4, 6, 8, 10, 12, 14, {16, LF, 17, CR}, 4},
    [L5500] = {0, 16, 2, 4, 6, 9, 11, NONE, 13, {1, ' ', 8, ' ', 15, ' ', 17, CR, 18, LF}, 10},
    [L5500T] = {NONE, NONE, 0, 2, 4, NONE, NONE, NONE, NONE, {6, CR, 7, LF}, 4},
    [L5050] = {18, 19, 0, 3, 6, 9, 12, NONE, 15,
               {2, ' ', 5, ' ', 8, ' ', 11, ' ', 14, ' ', 17, ' ', 20, ' ', 21, CR, 22, LF}, 18},
    [L5050T] = {NONE, NONE, 0, 3, 6, NONE, NONE, NONE, NONE, {2, ' ', 5, ' ', 8, ' ', 9, CR, 10, LF}, 10},
};

struct record {
    int layout, status, weekday, utc, hour, minute, second, day, month, year, century;
};

static int hex(byte c) {
    if (c >= '0' && c <= '9')
        return c - '0';
    return c >= 'A' && c <= 'F' ? c - 'A' + 10 : -1;
}

static int layout_of(const byte *body, int length) {
    switch (length) {
    case 16: return L6021;
    case 8: return body[6] == LF && body[7] == CR ? L6021T : L5500T;
    case 18: return L2000;
    case 19: return L5500;
    case 23: return L5050;
    case 11: return L5050T;
    default: return -1;
    }
}

/* Two digits, or a number above 99 where one of them is none. */
static int two(const byte *digits) {
    count tens = digits[0] - '0', ones = digits[1] - '0';
    return tens > 9 || ones > 9 ? 100 : (int)(10 * tens + ones);
}

/* The places of a layout: 3, 4, 5 or 0, and the fields. */
static int scan(const struct layout *layout, const byte *body, struct record *r) {
    for (int at = 0; at < layout->fixed_size; at += 2)
        if (body[layout->fixed[at]] != layout->fixed[at + 1])
            return 3;
    r->hour = two(body + layout->hour);
    r->minute = two(body + layout->minute);
    r->second = two(body + layout->second);
    if (r->hour > 99 || r->minute > 99 || r->second > 99)
        return 4;
    if (layout->status == NONE)
        return 0;
    r->day = two(body + layout->day);
    r->month = two(body + layout->month);
    r->year = two(body + layout->year);
    r->century = layout->century == NONE ? 0 : two(body + layout->century);
    if (r->day > 99 || r->month > 99 || r->year > 99 || r->century > 99)
        return 4;
    r->status = hex(body[layout->status]);
    r->weekday = hex(body[layout->weekday]);
    return r->status < 0 || r->weekday < 0 ? 5 : 0;
}

static int days_in(int month, int year) {
    static const byte days[] = {31, 28, 31, 30, 31, 30, 31, 31, 30, 31, 30, 31};
    return days[month - 1] + (month == 2 && year % 4 == 0);
}

/* 1 Monday to 7 Sunday; 1980 to 2079 has a leap year every fourth. */
static int weekday_of(int day, int month, int year) {
    static const short before[] = {0, 31, 59, 90, 120, 151, 181, 212, 243, 273, 304, 334};
    int years = year - 1980;
    int number = 365 * years + (years + 3) / 4 + before[month - 1] + (month > 2 && years % 4 == 0) + day - 1;
    return (number + 1) % 7 + 1;
}

/* Second 60 at the end of a UTC month: 23:59:60 on its last day in UTC, on the next month's first day an hour, in daylight time two,
   behind midnight, but for the calendar's first. */
static int takes_60(const struct record *r, int year, int daylight) {
    if (r->second != 60 || r->minute != 59 || r->month < 1 || r->month > 12 || year < 1980 || year > 2079)
        return 0;
    if (r->utc)
        return r->hour == 23 && r->day == days_in(r->month, year);
    return r->hour == daylight && r->day == 1 && (year != 1980 || r->month != 1);
}

static int judge(struct record *r) {
    int late = r->hour > 23 || r->minute > 59 || r->second > 59;
    if (r->layout == L6021T || r->layout == L5500T || r->layout == L5050T)
        return late && (r->hour > 23 || r->minute != 59 || r->second != 60) ? 6 : 0;
    int daylight;
    if (r->layout == L6021 || r->layout == L2000) {
        daylight = r->status >> 1 & 1, r->utc = r->weekday >> 3;
        r->weekday &= 7;
    } else if (r->status > 9) {
        return 5;
    } else {
        daylight = r->status >> 2 & 1, r->utc = r->status >> 3;
    }
    if (r->weekday < 1 || r->weekday > 7)
        return 5;
    int year = r->layout == L2000 ? 100 * r->century + r->year : r->year + (r->year < 80 ? 2000 : 1900);
    if (late && !takes_60(r, year, daylight))
        return 6;
    if (r->day < 1 || r->day > 31 || r->month < 1 || r->month > 12 || year < 1980 || year > 2079)
        return 6;
    if (r->day > days_in(r->month, year))
        return 7;
    return weekday_of(r->day, r->month, year) != r->weekday ? 8 : 0;
}

/* One telegram with STX and ETX: 0, or 1 to 8. */
static int read_telegram(const byte *bytes, int length, struct record *r) {
    int layout = length < 2 ? -1 : layout_of(bytes + 1, length - 2);
    if (layout < 0)
        return 1;
    if (bytes[0] != STX || bytes[length - 1] != ETX)
        return 2;
    r->layout = layout;
    int refusal = scan(&layouts[layout], bytes + 1, r);
    return refusal ? refusal : judge(r);
}

static void put_two(byte *digits, int number) {
    digits[0] = '0' + number / 10;
    digits[1] = '0' + number % 10;
}

/* Writes a 6021 telegram of local time with STX and ETX, in 18 bytes: 0, or 5 to 8. */
static int write_6021(struct record *r, byte *bytes) {
    const struct layout *layout = &layouts[L6021];
    byte *body = bytes + 1;
    int refusal = judge(r);
    if (refusal)
        return refusal;
    bytes[0] = STX;
    body[layout->status] = "0123456789ABCDEF"[r->status];
    body[layout->weekday] = '0' + r->weekday;
    put_two(body + layout->hour, r->hour);
    put_two(body + layout->minute, r->minute);
    put_two(body + layout->second, r->second);
    put_two(body + layout->day, r->day);
    put_two(body + layout->month, r->month);
    put_two(body + layout->year, r->year);
    for (int at = 0; at < layout->fixed_size; at += 2)
        body[layout->fixed[at]] = layout->fixed[at + 1];
    bytes[17] = ETX;
    return 0;
}

struct reader {
    byte held[HELD + 1];
    int length;
    count fed, stray, start;
};

struct event {
    int refusal;
    count start, length;
    struct record record;
};

/* One byte: whether it gave an event. */
static int take(struct reader *reader, byte c, struct event *event) {
    reader->fed++;
    if (reader->length == 0) {
        if (c == STX) {
            reader->start = reader->fed - 1;
            reader->held[reader->length++] = c;
        } else {
            reader->stray++;
        }
        return 0;
    }
    event->start = reader->start;
    if (c == ETX) {
        reader->held[reader->length++] = c;
        event->length = reader->length;
        event->refusal = read_telegram(reader->held, reader->length, &event->record);
        reader->length = 0;
        return 1;
    }
    if (c == STX) {
        event->length = reader->length;
        event->refusal = 9;
        reader->start = reader->fed - 1;
        reader->length = 1;
        return 1;
    }
    if (reader->length == HELD) {
        event->length = HELD + 1;
        event->refusal = 10;
        reader->length = 0;
        return 1;
    }
    reader->held[reader->length++] = c;
    return 0;
}

/* How many bytes are skipped to the next STX before any is taken: none, or, with the C library's search, the whole run. An event
   ends a call, so that a reader gets outside at the start of one only. */
#ifdef MEMCHR
void *memchr(const void *bytes, int wanted, unsigned long length);

static count skip(struct reader *reader, const byte *piece, count length) {
    if (reader->length > 0)
        return 0;
    const byte *stx = memchr(piece, STX, length);
    count run = stx ? (count)(stx - piece) : length;
    reader->fed += run;
    reader->stray += run;
    return run;
}
#else
static count skip(struct reader *reader, const byte *piece, count length) {
    (void)reader, (void)piece, (void)length;
    return 0;
}
#endif

/* Takes bytes up to the first event, or all; how many is told in `taken`. */
static int feed(struct reader *reader, const byte *piece, count length, count *taken, struct event *event) {
    for (count at = skip(reader, piece, length); at < length; at++) {
        if (take(reader, piece[at], event)) {
            *taken = at + 1;
            return 1;
        }
    }
    *taken = length;
    return 0;
}

/* --- the log --- */

enum { SLOTS = 15, SLOT = 32, COUNT = 480, CHECK = 510, BLOCK = 512 };

static count check_of(const byte *block) {
    count sum = 0;
    for (count at = 0; at < CHECK; at++)
        sum += block[at] * (at + 1);
    return sum % 65521;
}

static int is_zero(const byte *bytes, count length) {
    for (count at = 0; at < length; at++)
        if (bytes[at] != 0)
            return 0;
    return 1;
}

static int is_good(const byte *block) {
    struct record record;
    count used = block[COUNT];
    if (used > SLOTS || !is_zero(block + SLOT * used, COUNT - SLOT * used) || !is_zero(block + COUNT + 1, CHECK - COUNT - 1))
        return 0;
    if ((count)(block[CHECK] + 256 * block[CHECK + 1]) != check_of(block))
        return 0;
    for (const byte *slot = block; slot < block + SLOT * used; slot += SLOT) {
        count length = slot[0];
        if (length >= SLOT || read_telegram(slot + 1, length, &record) != 0 || !is_zero(slot + 1 + length, SLOT - 1 - length))
            return 0;
    }
    return 1;
}

/* The first bad block, or the number of blocks. */
static count good_blocks(const byte *region, count length) {
    for (count at = 0; at < length / BLOCK; at++)
        if (!is_good(region + BLOCK * at))
            return at;
    return length / BLOCK;
}

/* Whether a telegram found a place: behind the last slot used in any good block. */
static int add(byte *region, count length, const byte *telegram, count size) {
    struct record record;
    byte *found = 0;
    if (read_telegram(telegram, size, &record) != 0 || length % BLOCK != 0)
        return 0;
    for (byte *block = region; block < region + length; block += BLOCK) {
        if (!is_good(block))
            continue;
        if (block[COUNT] > 0)
            found = block[COUNT] < SLOTS ? block : 0;
        else if (!found)
            found = block;
    }
    if (!found)
        return 0;
    byte *slot = found + SLOT * found[COUNT]++;
    slot[0] = size;
    for (count at = 0; at < size; at++)
        slot[1 + at] = telegram[at];
    count check = check_of(found);
    found[CHECK] = check % 256;
    found[CHECK + 1] = check / 256;
    return 1;
}

/* --- the program --- */

static long system_call(long number, long a, long b, long c) {
    long result;
    __asm__ volatile("syscall" : "=a"(result) : "a"(number), "D"(a), "S"(b), "d"(c) : "rcx", "r11", "memory");
    return result;
}

/* Input is worked on in pieces of whole telegrams and whole blocks. */
static byte input[64512], output[65536 + 80];
static count output_length;

static count read_piece(void) {
    count length = 0;
    long got;
    while (length < sizeof input && (got = system_call(0, 0, (long)(input + length), (long)(sizeof input - length))) > 0)
        length += got;
    return length;
}

static void flush(void) {
    long put;
    for (count at = 0; at < output_length; at += put)
        if ((put = system_call(1, 1, (long)(output + at), (long)(output_length - at))) <= 0)
            break;
    output_length = 0;
}

static void put(byte c) {
    output[output_length++] = c;
}

static void put_text(const char *text) {
    while (*text)
        put(*text++);
}

static void put_number(count n) {
    char text[11];
    int at = sizeof text;
    text[--at] = 0;
    do
        text[--at] = '0' + n % 10;
    while (n /= 10);
    put_text(text + at);
}

static void put_digits(int number) {
    put_two(output + output_length, number);
    output_length += 2;
}

/* --- the listing --- */

static void put_status(const struct record *r) {
    static const char *const receptions[] = {"invalid", "crystal", "radio", "high"};
    int is_6021 = r->layout == L6021 || r->layout == L2000, status = r->status;
    put_text(is_6021 ? receptions[status >> 2] : status & 1 ? "crystal" : "radio");
    put_text((is_6021 ? status >> 1 & 1 : status >> 2 & 1) ? ",daylight" : ",standard");
    if (r->utc)
        put_text(",utc");
    if (is_6021 ? status & 1 : status >> 1 & 1)
        put_text(",announced");
}

static void put_record(const struct record *r) {
    static const char *const kinds[] = {"6021", "6021t", "2000", "5500", "5500t", "5050", "5050t"};
    int is_dated = layouts[r->layout].status != NONE;
    put_text(kinds[r->layout]);
    put(';');
    if (is_dated) {
        put_digits(r->layout == L2000 ? r->century : r->year < 80 ? 20 : 19);
        put_digits(r->year);
        put('-');
        put_digits(r->month);
        put('-');
        put_digits(r->day);
    } else {
        put('-');
    }
    put(';');
    put_digits(r->hour);
    put(':');
    put_digits(r->minute);
    put(':');
    put_digits(r->second);
    put(';');
    put(is_dated ? '0' + r->weekday : '-');
    put(';');
    if (is_dated)
        put_status(r);
    else
        put('-');
}

static void put_row(const struct event *event) {
    put_number(event->start);
    put(';');
    if (event->refusal) {
        put_text("refused ");
        put_number(event->refusal);
    } else {
        put_record(&event->record);
    }
    put('\n');
    if (output_length > sizeof output - 80)
        flush();
}

static void list(void) {
    struct reader reader = {.length = 0};
    struct event event;
    count length, taken;
    put_text("start;kind;date;time;weekday;status\n");
    while ((length = read_piece()) > 0)
        for (count at = 0; at < length; at += taken)
            if (feed(&reader, input + at, length - at, &taken, &event))
                put_row(&event);
    if (reader.length > 0)
        put_row(&(struct event){.refusal = 11, .start = reader.start});
    put_text("stray ");
    put_number(reader.stray);
    put('\n');
    flush();
}

/* --- the other letters --- */

static count good_telegrams(const byte *data, count length) {
    count good = 0;
    struct record record;
    for (count at = 0; at + 18 <= length; at += 18)
        good += read_telegram(data + at, 18, &record) == 0;
    return good;
}

static int number(const byte *digits) {
    return 10 * (digits[0] % 16) + digits[1] % 16;
}

/* The records of telegrams of 1980 to 1999, taken as radio time in winter without judging them, go to the output. */
static void write_telegrams(const byte *data, count length) {
    for (count at = 0; at + 18 <= length; at += 18) {
        const byte *body = data + at + 1;
        struct record record = {.layout = L6021, .status = 8, .weekday = body[1] % 8, .hour = number(body + 2),
                                .minute = number(body + 4), .second = number(body + 6), .day = number(body + 8),
                                .month = number(body + 10), .year = number(body + 12)};
        if (write_6021(&record, output + output_length) == 0)
            output_length += 18;
    }
    flush();
}

static count events_of(const byte *data, count length) {
    struct reader reader = {.length = 0};
    struct event event;
    count events = 0, taken;
    for (count at = 0; at < length; at += taken)
        events += feed(&reader, data + at, length - at, &taken, &event);
    return events;
}

static count added(byte *region, count length) {
    count adds = 0;
    while (add(region, length, (const byte *)"\x02" "E3123456170496\n\r\x03", 18))
        adds++;
    return adds;
}

static count work(byte letter, byte *data, count length) {
    switch (letter) {
    case 'l': return events_of(data, length);
    case 'v': return good_blocks(data, length);
    case 'a': return added(data, length);
    default: return good_telegrams(data, length);
    }
}

static void work_on_input(byte letter) {
    count length, sum = 0;
    do {
        length = read_piece();
        if (letter == 'w')
            write_telegrams(input, length);
        else
            sum += work(letter, input, length);
    } while (length == sizeof input);
    if (letter != 'w') {
        put_number(sum);
        put('\n');
        flush();
    }
}

/* The stack is where the kernel left it, and not as a call would leave it. */
__attribute__((force_align_arg_pointer)) void _start(void) {
    byte letter;
    if (system_call(0, 0, (long)&letter, 1) == 1) {
        if (letter == 'p')
            list();
        else
            work_on_input(letter);
    }
    system_call(60, 0, 0, 0);
}
