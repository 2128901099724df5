/*
 * The calls of rp.h: each has an instance of its own, with all its memory, that is given back before the call returns. So
 * any number of threads may call at once.
 */

/* What a call is given: bytes or numbers that it reads, room that it fills, or a number that it sets. */
typedef enum { BYTES, NUMBERS, ROOM, LENGTH } Kind;
typedef struct {
    Kind kind;
    const void *from;   /* BYTES, NUMBERS */
    void *to;           /* ROOM, LENGTH */
    size_t count;       /* of bytes, or of numbers */
    int length;         /* ROOM: the argument that tells how much was to be written */
    u32 at;             /* where it lies in the memory of the instance */
} Argument;

/* A call of the module over the numbers that it takes. */
typedef u32 Function(Instance *instance, const u64 *given);

/* The most arguments of a call, and the most numbers that they are. */
enum { MOST_ARGUMENTS = 16, MOST_NUMBERS = 32 };

/* How many bytes an argument takes in the memory of the instance: at least one, so that it has a place. */
static u64 bytes_of(const Argument *it) {
    u64 width = it->kind == NUMBERS || it->kind == LENGTH ? 8 : 1;
    if (it->count > UINT32_MAX) return UINT64_MAX;
    return it->count ? width * it->count : 1;
}

/* Takes room in the instance and puts there what is given; whether there was memory. */
static int places(Instance *instance, Argument *it) {
    u64 count = bytes_of(it), at = count == UINT64_MAX ? 0 : RP_MALLOC(instance, count);
    if (!at) return 0;
    CHECK(&instance->w2c_memory, at, count);
    it->at = (u32)at;
    u8 *place = instance->w2c_memory.data + it->at;
    if (it->kind == BYTES && it->count) memcpy(place, it->from, it->count);
    if (it->kind == LENGTH) put64(place, 0);
    for (size_t number = 0; it->kind == NUMBERS && number < it->count; number++)
        put64(place + 8 * number, ((const uint64_t *)it->from)[number]);
    return 1;
}

/* Gives out what the call set or wrote. */
static void gives(Instance *instance, const Argument *list, const Argument *it) {
    CHECK(&instance->w2c_memory, it->at, bytes_of(it));
    const u8 *place = instance->w2c_memory.data + it->at;
    if (it->kind == LENGTH) {
        *(uint64_t *)it->to = get64(place);
    } else if (it->kind == ROOM) {
        u64 written = get64(instance->w2c_memory.data + list[it->length].at);
        if (written > it->count) written = it->count;
        if (written) memcpy(it->to, place, (size_t)written);
    }
}

/* Calls with the arguments in the memory of the instance. */
static int32_t calls(Instance *instance, Function *function, Argument *list, int count) {
    u64 given[MOST_NUMBERS];
    int numbers = 0;
    for (int it = 0; it < count; it++)
        if (!places(instance, &list[it])) return RP_NO_MEMORY;
    for (int it = 0; it < count; it++) {
        given[numbers++] = list[it].at;
        if (list[it].kind != LENGTH) given[numbers++] = list[it].count;
    }
    int32_t status = (int32_t)function(instance, given);
    for (int it = 0; it < count; it++) gives(instance, list, &list[it]);
    return status;
}

/* The same, and where the module stops in the middle, that is the status. */
static int32_t guarded(Instance *instance, Function *function, Argument *list, int count) {
    jmp_buf stopped;
    instance->w2c_memory.stopped = &stopped;
    if (setjmp(stopped)) return RP_STOPPED;
    init_globals(instance);
    init_memory(instance);
    return calls(instance, function, list, count);
}

/* Tells that a call has no answer: each length is 0; or that of the line, where memory was short. */
static void tells(const Argument *list, int count, int told, const char *line, int32_t status) {
    for (int it = 0; it < count; it++)
        if (list[it].kind == LENGTH) *(uint64_t *)list[it].to = 0;
    if (status == RP_NO_MEMORY && told >= 0) {
        size_t length = 0, room = list[told].count;
        while (line[length]) length++;
        memcpy(list[told].to, line, length < room ? length : room);
        *(uint64_t *)list[list[told].length].to = length;
    }
}

/* Makes an instance, calls it, and gives it back. `told` is the argument that takes lines, or -1; `line` is that of memory. */
static int32_t asks(Function *function, Argument *list, int count, int told, const char *line) {
    int32_t status = RP_NO_MEMORY;
    Instance *instance = (Instance *)calloc(1, sizeof *instance);
    u8 *data = instance ? (u8 *)calloc(FIRST_PAGES, PAGE) : NULL;
    int is_answered = 0;
    if (data) {
        wasm_rt_memory_t *memory = &instance->w2c_memory;
        memory->data = data;
        memory->pages = memory->room = FIRST_PAGES;
        memory->size = FIRST_PAGES * PAGE;
        /* No address passes the last page but one, and the size is a number of 32 bits. */
        memory->most = 65535;
        status = guarded(instance, function, list, count);
        is_answered = status != RP_NO_MEMORY && status != RP_STOPPED;
        free(memory->data);
    }
    free(instance);
    if (!is_answered) tells(list, count, told, line, status);
    return status;
}
