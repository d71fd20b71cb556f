/* The exported calls for a host that cannot link them: an x86-64 program with one resident dock, which takes requests on its
 * standard input and replies on its standard output, in their order. It ends with status 0 when the requests end, and with
 * status 2 and a line on standard error when they are no requests.
 *
 * All numbers are little-endian. A request is a struct request and the bytes that it says follow. Which of its fields count:
 *
 *   LOAD           call: the set, 0 plain, 1 robust. number: the capacity. wide: the word. What follows: a struct extent, the
 *                  slots or cells, the custody, the records. It replaces the whole dock, and is the one that has no reply.
 *   SETUP          number: the capacity asked
 *   START          who, call, number: the index or the room, wide: the owner, mode
 *   STEP, DEATH    who
 *   DRAIN          who, number: the budget
 *   LIST           who. What follows: the owners, 8 bytes each
 *   POKE_WORD      wide: the word
 *   POKE_SLOT      number: which, wide: its value; so do POKE_CUSTODY and POKE_CELL
 *   POKE_RECORDS   number: the offset. What follows: the bytes
 *   FETCH          none
 *
 * A reply is a struct reply, the slots or cells, the custody, and the records, all of them as they are after the request. A dock
 * of more than SMALL slots, custody entries and cells together has two digests of 8 bytes in place of these: of the slots and
 * the custody, or of the cells and 0. Only FETCH replies with every dock whole. */
#include "simmerhusk.h"

long read(int descriptor, void *into, size_t length);
long write(int descriptor, const void *from, size_t length);
int fcntl(int descriptor, int command, ...);
void *malloc(size_t length);
void free(void *block);
void *memcpy(void *to, const void *from, size_t length);
size_t strlen(const char *text);
_Noreturn void _exit(int status);

enum { STANDARD_INPUT, STANDARD_OUTPUT, STANDARD_ERROR };
enum { SET_PIPE_SIZE = 1031 }; /* Linux's F_SETPIPE_SZ */
enum { PLAIN, ROBUST };
enum { DIGESTED = 2 }; /* added to the set in a reply with digests */
enum { SMALL = 4096, PIPE_BYTES = 1 << 20, BUFFER_LIMIT = 1 << 27 };

enum op {
    LOAD, SETUP, START, STEP, DRAIN, LIST, DEATH, POKE_WORD, POKE_SLOT, POKE_CUSTODY, POKE_CELL, POKE_RECORDS, FETCH
};

struct request {
    uint8_t op, who, call, mode;
    uint32_t number;
    uint64_t wide;
    uint64_t follows;
};

/* How many bytes each part of a dock has. */
struct extent {
    uint64_t first, custody, records;
};

struct reply {
    struct husk_outcome outcome;
    uint64_t word;
    uint32_t capacity;
    uint32_t set;
    uint32_t first, custody, records; /* as in struct extent */
    uint32_t unused;
};

struct buffer {
    void *bytes; /* null if there are none */
    size_t length, room;
};

static struct {
    uint32_t set, capacity;
    uint64_t word;
    struct buffer first; /* the slots, or the cells */
    struct buffer custody, records;
} dock;

static _Noreturn void stop(const char *why)
{
    static const char name[] = "driver: ";
    write(STANDARD_ERROR, name, sizeof name - 1);
    write(STANDARD_ERROR, why, strlen(why));
    write(STANDARD_ERROR, "\n", 1);
    _exit(2);
}

/* Output */

static uint8_t output[PIPE_BYTES];
static size_t output_used;

static void write_all(const uint8_t *from, size_t length)
{
    while (length > 0) {
        long written = write(STANDARD_OUTPUT, from, length);
        if (written <= 0)
            stop("a reply cannot be written");
        from += written;
        length -= (size_t)written;
    }
}

static void flush(void)
{
    write_all(output, output_used);
    output_used = 0;
}

/* What came is no request: the replies to those before it still go out. */
static _Noreturn void malformed(const char *why)
{
    flush();
    stop(why);
}

static void put(const void *from, size_t length)
{
    if (length > sizeof output - output_used)
        flush();
    if (length > sizeof output) {
        write_all(from, length);
        return;
    }
    if (length > 0)
        memcpy(output + output_used, from, length);
    output_used += length;
}

/* Input */

static uint8_t input[PIPE_BYTES];
static size_t input_at, input_end;

/* The replies so far go out first, as nothing more may come before they are read. At the end of the input it is 0. */
static size_t read_some(void *into, size_t length)
{
    flush();
    long got = read(STANDARD_INPUT, into, length);
    if (got < 0)
        stop("a request cannot be read");
    return (size_t)got;
}

static int more_input(void)
{
    if (input_at == input_end) {
        input_at = 0;
        input_end = read_some(input, sizeof input);
    }
    return input_at < input_end;
}

static void take(void *into, size_t length)
{
    uint8_t *to = into;
    while (length > 0) {
        if (!more_input())
            malformed("the input ends within a request");
        size_t some = input_end - input_at;
        if (some > length)
            some = length;
        memcpy(to, input + input_at, some);
        input_at += some;
        to += some;
        length -= some;
    }
}

/* Buffers */

static void take_buffer(struct buffer *into, uint64_t length)
{
    if (length > BUFFER_LIMIT)
        malformed("a buffer is above the limit");
    if (length > into->room || length == 0) {
        free(into->bytes);
        into->room = (size_t)length;
        into->bytes = length == 0 ? NULL : malloc(into->room);
        if (length > 0 && into->bytes == NULL)
            stop("there is no memory for a buffer");
    }
    into->length = (size_t)length;
    take(into->bytes, into->length);
}

static void poke(struct buffer *into, uint64_t offset, const void *from, size_t length)
{
    if (offset > into->length || length > into->length - offset)
        malformed("a poke is outside of its buffer");
    if (length > 0)
        memcpy((uint8_t *)into->bytes + offset, from, length);
}

static void poke_u32(struct buffer *into, const struct request *request)
{
    uint32_t value = (uint32_t)request->wide;
    if (dock.set != PLAIN)
        malformed("slots and custody are the plain set's");
    poke(into, (uint64_t)request->number * sizeof value, &value, sizeof value);
}

static void poke_cell(const struct request *request)
{
    if (dock.set != ROBUST)
        malformed("cells are the robust set's");
    poke(&dock.first, (uint64_t)request->number * sizeof request->wide, &request->wide, sizeof request->wide);
}

static void poke_records(const struct request *request)
{
    static struct buffer taken;
    take_buffer(&taken, request->follows);
    poke(&dock.records, request->number, taken.bytes, taken.length);
}

/* Calls */

static size_t slots_length(void)
{
    return dock.first.length / sizeof(uint32_t);
}

static size_t custody_length(void)
{
    return dock.custody.length / sizeof(uint32_t);
}

static size_t cells_length(void)
{
    return dock.first.length / sizeof(uint64_t);
}

static struct husk_outcome setup(const struct request *request)
{
    if (dock.set == ROBUST)
        return husk_robust_setup(&dock.capacity, &dock.word, dock.records.bytes, dock.records.length, dock.first.bytes,
            cells_length(), request->number);
    return husk_plain_setup(&dock.capacity, &dock.word, dock.records.bytes, dock.records.length, dock.first.bytes,
        slots_length(), dock.custody.bytes, custody_length(), request->number);
}

static struct husk_outcome start(const struct request *request)
{
    if (dock.set == ROBUST)
        return husk_robust_start(dock.capacity, dock.word, dock.records.bytes, dock.records.length, request->who,
            dock.first.bytes, cells_length(), request->call, request->number, request->wide, request->mode);
    return husk_plain_start(dock.capacity, dock.word, dock.records.bytes, dock.records.length, request->who,
        dock.first.bytes, slots_length(), dock.custody.bytes, custody_length(), request->call, request->number, request->wide,
        request->mode);
}

static struct husk_outcome step(const struct request *request)
{
    if (dock.set == ROBUST)
        return husk_robust_step(dock.capacity, &dock.word, dock.records.bytes, dock.records.length, request->who,
            dock.first.bytes, cells_length());
    return husk_plain_step(dock.capacity, &dock.word, dock.records.bytes, dock.records.length, request->who,
        dock.first.bytes, slots_length(), dock.custody.bytes, custody_length());
}

static struct husk_outcome drain(const struct request *request)
{
    if (dock.set == ROBUST)
        return husk_robust_drain(dock.capacity, &dock.word, dock.records.bytes, dock.records.length, request->who,
            dock.first.bytes, cells_length(), request->number);
    return husk_plain_drain(dock.capacity, &dock.word, dock.records.bytes, dock.records.length, request->who,
        dock.first.bytes, slots_length(), dock.custody.bytes, custody_length(), request->number);
}

static struct husk_outcome list(const struct request *request)
{
    static struct buffer owners;
    if (request->follows % sizeof(uint64_t) != 0)
        malformed("a list has a part of an owner");
    take_buffer(&owners, request->follows);
    size_t count = owners.length / sizeof(uint64_t);
    if (dock.set == ROBUST)
        return husk_robust_list(dock.records.bytes, dock.records.length, request->who, owners.bytes, count);
    return husk_plain_list(dock.records.bytes, dock.records.length, request->who, owners.bytes, count);
}

/* Replies */

static uint64_t digest(const struct buffer *of) /* FNV-1a */
{
    const uint8_t *bytes = of->bytes;
    uint64_t hash = 0xcbf29ce484222325;
    for (size_t i = 0; i < of->length; i++)
        hash = (hash ^ bytes[i]) * 0x100000001b3;
    return hash;
}

static int is_small(void)
{
    if (dock.set == ROBUST)
        return cells_length() <= SMALL;
    return slots_length() + custody_length() <= SMALL;
}

static void put_digests(void)
{
    uint64_t digests[2] = {digest(&dock.first), dock.set == ROBUST ? 0 : digest(&dock.custody)};
    put(digests, sizeof digests);
}

static void put_buffers(void)
{
    put(dock.first.bytes, dock.first.length);
    put(dock.custody.bytes, dock.custody.length);
}

static void put_reply(struct husk_outcome outcome, int whole)
{
    struct reply reply = {
        .outcome = outcome,
        .word = dock.word,
        .capacity = dock.capacity,
        .set = whole ? dock.set : dock.set + DIGESTED,
        .first = (uint32_t)dock.first.length,
        .custody = (uint32_t)dock.custody.length,
        .records = (uint32_t)dock.records.length,
    };
    put(&reply, sizeof reply);
    if (whole)
        put_buffers();
    else
        put_digests();
    put(dock.records.bytes, dock.records.length);
}

/* Requests */

static void load(const struct request *request)
{
    struct extent extent;
    size_t entry = request->call == ROBUST ? sizeof(uint64_t) : sizeof(uint32_t);
    take(&extent, sizeof extent);
    if (request->call > ROBUST)
        malformed("a dock is loaded of no known set");
    if (extent.first % entry != 0 || extent.custody % entry != 0)
        malformed("a buffer is loaded with a part of an entry");
    if (request->call == ROBUST && extent.custody != 0)
        malformed("custody is the plain set's");
    dock.set = request->call;
    dock.capacity = request->number;
    dock.word = request->wide;
    take_buffer(&dock.first, extent.first);
    take_buffer(&dock.custody, extent.custody);
    take_buffer(&dock.records, extent.records);
    if (request->follows != sizeof extent + extent.first + extent.custody + extent.records)
        malformed("a dock is loaded with more or less than it says");
}

static struct husk_outcome perform(const struct request *request)
{
    struct husk_outcome none = {0};
    switch (request->op) {
    case SETUP: return setup(request);
    case START: return start(request);
    case STEP: return step(request);
    case DRAIN: return drain(request);
    case LIST: return list(request);
    case DEATH: return husk_death(dock.records.bytes, dock.records.length, request->who);
    case POKE_WORD: dock.word = request->wide; return none;
    case POKE_SLOT: poke_u32(&dock.first, request); return none;
    case POKE_CUSTODY: poke_u32(&dock.custody, request); return none;
    case POKE_CELL: poke_cell(request); return none;
    case POKE_RECORDS: poke_records(request); return none;
    case FETCH: return none;
    default: malformed("there is no such request");
    }
}

static void answer(const struct request *request)
{
    if (request->op == LOAD) {
        load(request);
        return;
    }
    if (request->follows != 0 && request->op != LIST && request->op != POKE_RECORDS)
        malformed("bytes follow where none may");
    struct husk_outcome outcome = perform(request);
    put_reply(outcome, request->op == FETCH || is_small());
}

int main(void)
{
    fcntl(STANDARD_INPUT, SET_PIPE_SIZE, PIPE_BYTES); /* only for speed, and no pipe need be there */
    fcntl(STANDARD_OUTPUT, SET_PIPE_SIZE, PIPE_BYTES);
    while (more_input()) {
        struct request request;
        take(&request, sizeof request);
        answer(&request);
    }
    return 0;
}
