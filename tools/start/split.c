/* Splits an LLVM module, as the kit's compiler writes it, into parts that are compiled side by side.

       split MODULE FOLDER COUNT

   writes FOLDER/part0.bc and so on, and FOLDER/names: the names of the functions that have bodies, each in a line. A part has functions
   to itself, those that they alone call among them, and a copy of each small function that they reach; it declares the others. Which other
   part calls a function that one has to itself is known, so that the others can be taken into their calls whole. What nothing reaches is in
   no part. What the program writes, and each constant whose address may be asked for, stands in the first part.

   The kit has each local filled with a pattern before it is written, by which a reader of its memory sees what was not; that is left out.

   The form is LLVM's bitcode without abbreviations. Where the module has another, or what is not followed here, the status is 3, and
   standard error says what was met. Each call is compared with the type of the function that it names: it would differ if numbers were
   read wrongly. */

typedef unsigned char byte;
typedef unsigned int word;
typedef unsigned long number;

void *calloc(number, number);
void *realloc(void *, number);
void *memcpy(void *, const void *, number);
int memcmp(const void *, const void *, number);
int open(const char *, int, ...);
int close(int);
long read(int, void *, number);
long write(int, const void *, number);
long lseek(int, long, int);
int dprintf(int, const char *, ...);
int snprintf(char *, number, const char *, ...);
int atoi(const char *);
void exit(int);

enum { OTHER_FORM = 3 };
/* Functions whose bodies are no longer than so many bytes are copied. */
enum { SMALL = 800 };
/* A function is not kept beside its only caller where it is longer than this share of a part, with those that it alone calls. */
enum { SHARE = 4 };
/* So many calls stand within one another at most, of those that are kept together. */
enum { DEEPEST = 1000 };

static void fail(const char *why) {
    dprintf(2, "%s\n", why);
    exit(OTHER_FORM);
}

static void *resized(void *old, number size) {
    void *made = realloc(old, size);
    if (!made)
        fail("no memory");
    return made;
}

typedef struct {
    number *at, count, room;
} List;

static void add(List *list, number value) {
    if (list->count == list->room) {
        list->room = 2 * list->room + 16;
        list->at = resized(list->at, list->room * sizeof(number));
    }
    list->at[list->count++] = value;
}

/* --- Reading bits --- */

/* The file, and the bit that is read next. */
static byte *data;
static number size, at;

static number bits(number count) {
    number place = at >> 3, shift = at & 7, value;
    at += count;
    if (place >= size)
        fail("a module that is cut short");
    /* (some bytes of zero follow the file) */
    memcpy(&value, data + place, 8);
    return value >> shift & (((number)1 << count) - 1);
}

/* A number in pieces of this width. */
static number pieces(number width) {
    number more = (number)1 << (width - 1), value = 0;
    for (number shift = 0; shift < 64; shift += width - 1) {
        number piece = bits(width);
        value |= (piece & (more - 1)) << shift;
        if (!(piece & more))
            return value;
    }
    fail("a number that is too long");
    return 0;
}

/* What begins here in a block, or in the file, whose width is 2. */
enum { END_BLOCK = 0, ENTER_BLOCK = 1, UNABBREVIATED = 3, FILE_WIDTH = 2 };

/* A block: its kind, the width of what stands in it, and the bytes between which that lies. */
typedef struct {
    number kind, width, first, after;
} Block;

enum {
    MODULE = 8,
    CONSTANTS = 11,
    FUNCTION_BLOCK = 12,
    IDENTIFICATION = 13,
    LOCAL_NAMES = 14,
    ATTACHED = 16,
    TYPES = 17,
    SYMBOL_NAMES = 23
};

static Block read_block(void) {
    Block it;
    it.kind = pieces(8);
    it.width = pieces(4);
    at = (at + 31) / 32 * 32;
    number words = bits(32);
    it.first = at / 8;
    it.after = it.first + 4 * words;
    if (it.width < 2 || it.width > 32 || it.after > size)
        fail("a block that is cut short");
    return it;
}

/* A record: its code, and its numbers. */
typedef struct {
    number code;
    List values;
} Record;

static void read_record(Record *it) {
    it->code = pieces(6);
    it->values.count = 0;
    for (number left = pieces(6); left; left--)
        add(&it->values, pieces(6));
}

/* Reads the next record of a block that has only records. Gives whether there is one. */
static int has_record(Record *it, const Block *of) {
    number kind = bits(of->width);
    if (kind != END_BLOCK && kind != UNABBREVIATED)
        fail("an abbreviation");
    if (kind == UNABBREVIATED)
        read_record(it);
    return kind == UNABBREVIATED;
}

static Record copy_of(const Record *it) {
    Record made = {it->code, {0, 0, 0}};
    for (number place = 0; place < it->values.count; place++)
        add(&made.values, it->values.at[place]);
    return made;
}

/* --- Writing bits --- */

typedef struct {
    byte *made;
    number count, room, rest, held;
} Bits;

static void make_room(Bits *to, number more) {
    if (to->count + more > to->room) {
        to->room = 2 * (to->room + more) + 4096;
        to->made = resized(to->made, to->room);
    }
}

/* Writes up to 32 bits. */
static void put(Bits *to, number value, number count) {
    to->rest |= value << to->held;
    to->held += count;
    if (to->held >= 32) {
        make_room(to, 4);
        memcpy(to->made + to->count, &to->rest, 4);
        to->count += 4;
        to->rest >>= 32;
        to->held -= 32;
    }
}

static void put_pieces(Bits *to, number value, number width) {
    number more = (number)1 << (width - 1);
    for (; value >= more; value >>= width - 1)
        put(to, (value & (more - 1)) | more, width);
    put(to, value, width);
}

static void align(Bits *to) {
    if (to->held)
        put(to, 0, 32 - to->held);
}

static void put_bytes(Bits *to, const byte *from, number count) {
    align(to);
    make_room(to, count);
    memcpy(to->made + to->count, from, count);
    to->count += count;
}

/* Writes bits of the file. */
static void put_bits(Bits *to, number from, number until) {
    for (at = from; at < until;) {
        number count = until - at > 32 ? 32 : until - at;
        put(to, bits(count), count);
    }
}

static void put_record(Bits *to, number width, const Record *it) {
    put(to, UNABBREVIATED, width);
    put_pieces(to, it->code, 6);
    put_pieces(to, it->values.count, 6);
    for (number place = 0; place < it->values.count; place++)
        put_pieces(to, it->values.at[place], 6);
}

/* Begins a block within one of this width. Gives where it begins, for `put_end` and `put_size`. */
static number put_head(Bits *to, number outer, const Block *block) {
    put(to, ENTER_BLOCK, outer);
    put_pieces(to, block->kind, 8);
    put_pieces(to, block->width, 4);
    align(to);
    put(to, 0, 32);
    return to->count;
}

static void put_size(Bits *to, number first) {
    word words = (word)((to->count - first) / 4);
    memcpy(to->made + first - 4, &words, 4);
}

static void put_end(Bits *to, number first, const Block *block) {
    put(to, END_BLOCK, block->width);
    align(to);
    put_size(to, first);
}

static void put_block(Bits *to, number outer, const Block *block) {
    number first = put_head(to, outer, block);
    put_bytes(to, data + block->first, block->after - block->first);
    put_size(to, first);
}

/* --- Types, constants and values --- */

/* A type: whether it is that of functions, and then what one gives and how many it takes. */
typedef struct {
    int is_function, is_void, is_byte;
    number gives, takes;
} Type;

static Type *types;
static number count_types, room_types;

enum { COUNT_OF_TYPES = 1, VOID = 2, INTEGER_TYPE = 7, STRUCT_NAME = 19, FUNCTION_TYPE = 21 };

static void read_types(const Block *block) {
    static Record it;
    at = block->first * 8;
    while (has_record(&it, block)) {
        if (it.code == COUNT_OF_TYPES || it.code == STRUCT_NAME)
            continue;
        if (count_types == room_types) {
            room_types = 2 * room_types + 64;
            types = resized(types, room_types * sizeof(Type));
        }
        number count = it.values.count;
        Type made = {it.code == FUNCTION_TYPE && count > 1, it.code == VOID, 0, 0, 0};
        made.is_byte = it.code == INTEGER_TYPE && count && it.values.at[0] == 8;
        if (made.is_function) {
            made.gives = it.values.at[1];
            made.takes = count - 2;
        }
        types[count_types++] = made;
    }
}

static const Type *function_type(number type) {
    if (type >= count_types || !types[type].is_function || types[type].gives >= count_types)
        fail("a function without a type of functions");
    return &types[type];
}

/* A value by its number, of the module first and then of the body that is read: the number of a function, or none; and whether it is the
   byte of which the pattern consists. */
typedef struct {
    long function;
    int is_pattern;
} Value;

enum { NO_FUNCTION = -1 };

static Value *values;
static number room_values, count_of_module;

static void set_value(number value, long function, int is_pattern) {
    if (value >= room_values) {
        room_values = 2 * value + 1024;
        values = resized(values, room_values * sizeof(Value));
    }
    values[value] = (Value){function, is_pattern};
}

enum { SET_TYPE = 1, INTEGER = 4, AGGREGATE = 7, FIRST_EXPRESSION = 10, DATA = 22 };
/* The byte 0xAA as a number with a sign, as a constant has it. */
enum { PATTERN = 86 << 1 | 1 };

/* Reads constants, which are the values from this one on, and adds the values that they name. Gives the value after them. */
static number read_constants(const Block *block, number value, List *named) {
    static Record it;
    number type = 0;
    at = block->first * 8;
    while (has_record(&it, block)) {
        int has_values = it.values.count > 0;
        if (it.code == SET_TYPE && has_values) {
            type = it.values.at[0];
            continue;
        }
        if (it.code == AGGREGATE || (it.code >= FIRST_EXPRESSION && it.code != DATA))
            for (number place = 0; place < it.values.count; place++)
                add(named, it.values.at[place]);
        int is_byte = it.code == INTEGER && type < count_types && types[type].is_byte;
        set_value(value++, NO_FUNCTION, is_byte && has_values && it.values.at[0] == PATTERN);
    }
    return value;
}

/* --- The module --- */

/* Records of a module, and those of them that are not followed. */
enum { GLOBAL = 7, FUNCTION = 8, OLD_ALIAS = 9, GROUP = 12, ALIAS = 14, INDIRECT_FUNCTION = 15 };
/* What stands at these places of both records; of a function's only; of a global's only. */
enum { NAME = 0, NAME_LENGTH = 1, LINKAGE = 5 };
enum { TYPE = 2, IS_DECLARED = 4, FUNCTION_VISIBILITY = 9 };
enum { GLOBAL_FLAGS = 3, GLOBAL_VALUE = 4, GLOBAL_VISIBILITY = 8, IS_UNNAMED = 10 };
enum { IS_CONSTANT = 1, EXTERNAL = 0, INTERNAL = 3, PRIVATE = 9, HIDDEN = 1 };

/* What stands in the module beside bodies: a block, or a record. */
typedef struct {
    int is_block;
    Block block;
    Record record;
} Item;

typedef struct {
    Item *at;
    number count, room;
} Items;

static Items before, behind;
static Block module_block;
static List file_blocks; /* (four numbers each) */
static const byte *names;
static number size_names;

/* A function. Its body lies between two bytes of `bodies`, and names the functions of `calls`, once for each time. */
typedef struct {
    const Record *record;
    int has_body, is_own, is_shared, part;
    number first, after, uses, weight;
    long caller;
    List calls;
} Function;

static Function *functions;
static number count_functions;
static long fill_function = NO_FUNCTION;
static Bits bodies;

static void add_item(Items *items, Item item) {
    if (items->count == items->room) {
        items->room = 2 * items->room + 64;
        items->at = resized(items->at, items->room * sizeof(Item));
    }
    items->at[items->count++] = item;
}

static void read_file(const char *path) {
    int file = open(path, 0);
    long length = file < 0 ? -1 : lseek(file, 0, 2);
    if (length < 8 || length % 4 || lseek(file, 0, 0))
        fail("no module");
    size = (number)length;
    data = calloc(size + 16, 1);
    if (!data)
        fail("no memory");
    for (number have = 0; have < size;) {
        long more = read(file, data + have, size - have);
        if (more <= 0)
            fail("no module");
        have += (number)more;
    }
    close(file);
    if (memcmp(data, "BC\xc0\xde", 4))
        fail("no bitcode");
}

static void read_blocks(void) {
    int modules = 0;
    for (at = 32; at < 8 * size;) {
        if (bits(FILE_WIDTH) != ENTER_BLOCK)
            fail("no block");
        Block it = read_block();
        add(&file_blocks, it.kind);
        add(&file_blocks, it.width);
        add(&file_blocks, it.first);
        add(&file_blocks, it.after);
        if (it.kind == MODULE) {
            module_block = it;
            modules++;
        } else if (it.kind == SYMBOL_NAMES && it.after >= it.first + 8) {
            /* (an abbreviation and the size stand before them) */
            names = data + it.first + 8;
            size_names = it.after - it.first - 8;
        }
        at = it.after * 8;
    }
    if (modules != 1 || !names)
        fail("not one module with its names");
}

/* Reads what stands in the module, and where the bodies are: three numbers each. */
static void read_module(List *body_blocks) {
    static Record it;
    for (at = module_block.first * 8;;) {
        Items *items = body_blocks->count ? &behind : &before;
        number from = at, kind = bits(module_block.width);
        if (kind == END_BLOCK)
            return;
        if (kind == UNABBREVIATED) {
            read_record(&it);
            int is_global = it.code == GLOBAL || it.code == FUNCTION;
            if (it.code == OLD_ALIAS || it.code == GROUP || it.code == ALIAS || it.code == INDIRECT_FUNCTION)
                fail("an alias or a section group");
            if (is_global && (items == &behind || it.values.count <= FUNCTION_VISIBILITY))
                fail("a global in another form");
            Block none = {0, 0, 0, 0};
            add_item(items, (Item){0, none, copy_of(&it)});
        } else if (kind == ENTER_BLOCK) {
            Block block = read_block();
            if (block.kind == FUNCTION_BLOCK) {
                /* (bodies are written one after another, from a full word on) */
                if (behind.count || from % 32)
                    fail("bodies at several places");
                add(body_blocks, block.width);
                add(body_blocks, block.first);
                add(body_blocks, block.after);
            } else
                add_item(items, (Item){1, block, {0, {0, 0, 0}}});
            at = block.after * 8;
        } else
            fail("an abbreviation");
    }
}

static int is_named(const Record *it, const char *name, number length) {
    number first = it->values.at[NAME];
    return it->values.at[NAME_LENGTH] == length && first + length <= size_names && !memcmp(names + first, name, length);
}

/* Numbers the values of the module, and adds those that its constants name. */
static void number_values(List *named) {
    for (number place = 0; place < before.count; place++)
        count_functions += !before.at[place].is_block && before.at[place].record.code == FUNCTION;
    functions = calloc(count_functions + 1, sizeof(Function));
    if (!functions)
        fail("no memory");
    long function = 0;
    for (number place = 0; place < before.count; place++) {
        const Item *item = &before.at[place];
        const Record *it = &item->record;
        if (item->is_block && item->block.kind == TYPES)
            read_types(&item->block);
        else if (item->is_block && item->block.kind == CONSTANTS)
            count_of_module = read_constants(&item->block, count_of_module, named);
        else if (!item->is_block && it->code == GLOBAL)
            set_value(count_of_module++, NO_FUNCTION, 0);
        else if (!item->is_block && it->code == FUNCTION) {
            functions[function].record = it;
            functions[function].has_body = !it->values.at[IS_DECLARED];
            if (is_named(it, "llvm.memset.p0.i64", 18))
                fill_function = function;
            set_value(count_of_module++, function++, 0);
        }
    }
}

/* --- Bodies --- */

enum { PHI = 16, ALLOCATE = 19, CALL = 34 };
/* A call has its type as a number, and further flags. */
enum { HAS_TYPE = 1 << 15, HAS_FLAGS = 1 << 17 };

/* Whether the instruction gives a value; a call is not asked for. */
static int gives_value(number code) {
    switch (code) {
    case 2: /* of two numbers */
    case 3: /* a cast */
    case 5: case 6: case 7: case 8: case 9: case PHI: case ALLOCATE:
    case 20: /* a load */
    case 23: case 26: case 27: case 28: case 29:
    case 41: case 43: /* a load that is atomic; an address */
    case 46: case 56: case 58: case 59:
        return 1;
    case 1: /* how many blocks there are */
    case 10: case 11: case 12: case 15: /* what ends a block */
    case 36: case 44: case 45: /* a fence, and stores */
        return 0;
    default:
        fail("an instruction that is not known");
        return 0;
    }
}

/* Writes what is attached to instructions by their numbers, of which these were left out. */
static void put_attached(number outer, const Block *block, const List *left_out) {
    static Record it;
    number first = put_head(&bodies, outer, block);
    at = block->first * 8;
    while (has_record(&it, block)) {
        if (it.values.count % 2) {
            number gone = 0;
            while (gone < left_out->count && left_out->at[gone] < it.values.at[0])
                gone++;
            it.values.at[0] -= gone;
        }
        put_record(&bodies, block->width, &it);
    }
    put_end(&bodies, first, block);
}

static void note_named(Function *of, number value) {
    if (value < count_of_module && values[value].function != NO_FUNCTION)
        add(&of->calls, (number)values[value].function);
}

/* Reads a call, where this value comes next. Gives the place of the function in its record, and whether it gives a value. */
static number read_call(const Record *it, number next, int *gives) {
    const number *v = it->values.at;
    if (it->values.count < 4 || !(v[1] & HAS_TYPE))
        fail("a call in another form");
    number place = v[1] & HAS_FLAGS ? 3 : 2, called;
    const Type *type = function_type(v[place++]);
    if (place >= it->values.count)
        fail("a call in another form");
    called = (word)(next - v[place]);
    if (called < count_of_module && values[called].function != NO_FUNCTION &&
        functions[values[called].function].record->values.at[TYPE] != v[place - 1])
        fail("a call of another type than its function's");
    *gives = !types[type->gives].is_void;
    return place;
}

/* Whether a call, of the function at this place, fills the local with the pattern that comes just before it. */
static int is_fill(const Record *it, number place, number next) {
    const number *v = it->values.at;
    if (it->values.count != place + 5 || v[place + 1] != 1)
        return 0;
    number called = (word)(next - v[place]), with = (word)(next - v[place + 2]);
    return called < count_of_module && values[called].function != NO_FUNCTION && values[called].function == fill_function && with < next &&
           values[with].is_pattern;
}

/* Reads a body, notes the functions that it names, and writes it among the bodies. */
static void read_body(Function *of, const Block *block) {
    static Record it;
    static List named, left_out;
    number next = count_of_module, instruction = 0, last = 0;
    left_out.count = 0;
    for (number left = function_type(of->record->values.at[TYPE])->takes; left; left--)
        set_value(next++, NO_FUNCTION, 0);
    of->first = bodies.count;
    number begun = put_head(&bodies, module_block.width, block);
    for (at = block->first * 8;;) {
        number from = at, kind = bits(block->width);
        if (kind == END_BLOCK)
            break;
        if (kind == ENTER_BLOCK) {
            Block inner = read_block();
            if (inner.kind == CONSTANTS) {
                named.count = 0;
                next = read_constants(&inner, next, &named);
                for (number place = 0; place < named.count; place++)
                    note_named(of, named.at[place]);
            }
            if (inner.kind == ATTACHED)
                put_attached(block->width, &inner, &left_out);
            else if (inner.kind == CONSTANTS || inner.kind == LOCAL_NAMES)
                put_block(&bodies, block->width, &inner);
            else
                fail("another block in a body");
            at = inner.after * 8;
            continue;
        }
        if (kind != UNABBREVIATED)
            fail("an abbreviation");
        read_record(&it);
        number place = 0, until = at;
        int gives = 0;
        if (it.code == CALL)
            place = read_call(&it, next, &gives);
        else
            gives = gives_value(it.code);
        if (it.code == CALL && last == ALLOCATE && is_fill(&it, place, next))
            add(&left_out, instruction);
        else {
            /* (each number is taken for a value by its distance: one too many costs a copy, or a call that is not taken in) */
            for (; place < it.values.count; place++) {
                number back = it.values.at[place];
                if (it.code == PHI)
                    back = back & 1 ? -(back >> 1) : back >> 1;
                note_named(of, (word)(next - back));
            }
            put_bits(&bodies, from, until);
        }
        last = it.code;
        instruction += it.code != 1;
        if (gives)
            set_value(next++, NO_FUNCTION, 0);
    }
    put_end(&bodies, begun, block);
    of->after = bodies.count;
}

static void read_all_bodies(const List *body_blocks) {
    number place = 0;
    for (number it = 0; it < count_functions; it++)
        if (functions[it].has_body) {
            if (place == body_blocks->count)
                fail("functions without bodies");
            const number *found = body_blocks->at + place;
            Block block = {FUNCTION_BLOCK, found[0], found[1], found[2]};
            read_body(&functions[it], &block);
            place += 3;
        }
    if (place != body_blocks->count)
        fail("bodies without functions");
}

/* --- Parts --- */

static number length(const Function *it) { return it->after - it->first; }

/* Weighs a function with those that it alone calls. Such a one that weighs more than this is a part's own. */
static number weigh(number function, number most, int depth) {
    Function *of = &functions[function];
    of->weight = length(of);
    for (number call = 0; call < of->calls.count; call++) {
        number name = of->calls.at[call];
        Function *called = &functions[name];
        if (called->has_body && !called->is_own && called->caller == (long)function && name != function) {
            number more = depth < DEEPEST ? weigh(name, most, depth + 1) : most + 1;
            if (more > most)
                called->is_own = 1;
            else
                of->weight += more;
        }
    }
    return of->weight;
}

/* Notes who calls each function, where it is named once. */
static void note_callers(const List *named) {
    for (number it = 0; it < count_functions; it++)
        functions[it].caller = NO_FUNCTION;
    for (number it = 0; it < count_functions; it++)
        for (number call = 0; call < functions[it].calls.count; call++) {
            Function *called = &functions[functions[it].calls.at[call]];
            called->caller = called->uses++ ? NO_FUNCTION : (long)it;
        }
    for (number place = 0; place < named->count; place++)
        if (named->at[place] < count_of_module && values[named->at[place]].function != NO_FUNCTION)
            functions[values[named->at[place]].function].is_shared = 1;
    for (number it = 0; it < count_functions; it++) {
        Function *of = &functions[it];
        of->is_shared |= of->record->values.at[LINKAGE] != INTERNAL;
        if (of->is_shared)
            of->caller = NO_FUNCTION;
    }
}

/* Says which functions a part has to itself, and which part: in their order, so that each part has as much as the others. */
static void share_out(number count) {
    number whole = 0, done = 0;
    for (number it = 0; it < count_functions; it++) {
        Function *of = &functions[it];
        of->is_own = of->has_body && of->caller == NO_FUNCTION && (of->is_shared || (of->uses && length(of) > SMALL));
        whole += of->is_own || of->caller != NO_FUNCTION ? length(of) : 0;
    }
    for (number it = 0; it < count_functions; it++)
        if (functions[it].has_body && functions[it].caller == NO_FUNCTION)
            weigh(it, functions[it].is_own ? whole / count / SHARE : SMALL, 0);
    whole = 0;
    for (number it = 0; it < count_functions; it++)
        whole += functions[it].is_own ? functions[it].weight : 0;
    for (number it = 0; it < count_functions; it++) {
        Function *of = &functions[it];
        if (of->is_own) {
            of->part = (int)((done + of->weight / 2) * count / (whole + 1));
            done += of->weight;
        }
    }
}

/* The functions of the part that was listed last have its number. */
static word *listed, list_number;

static void list(number function, List *found) {
    if (listed[function] != list_number) {
        listed[function] = list_number;
        add(found, function);
    }
}

/* Lists the functions of a part. Those that another part has to itself are shared. */
static void list_part(int part) {
    static List found;
    found.count = 0;
    list_number++;
    for (number it = 0; it < count_functions; it++)
        if (functions[it].is_own && functions[it].part == part)
            list(it, &found);
    for (number place = 0; place < found.count; place++) {
        const Function *it = &functions[found.at[place]];
        for (number call = 0; call < it->calls.count; call++) {
            Function *called = &functions[it->calls.at[call]];
            if (called->has_body && !called->is_own)
                list(it->calls.at[call], &found);
            else if (called->part != part)
                called->is_shared = 1;
        }
    }
}

static void put_function(Bits *to, number function) {
    const Function *of = &functions[function];
    Record made = copy_of(of->record);
    number *v = made.values.at;
    int is_here = listed[function] == list_number;
    if (of->has_body && !is_here)
        v[IS_DECLARED] = 1;
    if (of->has_body && v[LINKAGE] == INTERNAL && (!is_here || (of->is_own && of->is_shared))) {
        v[LINKAGE] = EXTERNAL;
        v[FUNCTION_VISIBILITY] = HIDDEN;
    }
    put_record(to, module_block.width, &made);
}

static void put_global(Bits *to, const Record *it, int part) {
    Record made = copy_of(it);
    number *v = made.values.at;
    int is_copied = v[GLOBAL_FLAGS] & IS_CONSTANT && made.values.count > IS_UNNAMED && v[IS_UNNAMED];
    if ((v[LINKAGE] == INTERNAL || v[LINKAGE] == PRIVATE) && !is_copied) {
        v[LINKAGE] = EXTERNAL;
        v[GLOBAL_VISIBILITY] = HIDDEN;
        if (part > 0)
            v[GLOBAL_VALUE] = 0;
    }
    put_record(to, module_block.width, &made);
}

static void put_items(Bits *to, const Items *items, int part) {
    number function = 0;
    for (number place = 0; place < items->count; place++) {
        const Item *it = &items->at[place];
        if (it->is_block)
            put_block(to, module_block.width, &it->block);
        else if (it->record.code == FUNCTION)
            put_function(to, function++);
        else if (it->record.code == GLOBAL)
            put_global(to, &it->record, part);
        else
            put_record(to, module_block.width, &it->record);
    }
}

static void put_module(Bits *to, int part) {
    number first = put_head(to, FILE_WIDTH, &module_block);
    put_items(to, &before, part);
    for (number it = 0; it < count_functions; it++)
        if (functions[it].has_body && listed[it] == list_number)
            put_bytes(to, bodies.made + functions[it].first, length(&functions[it]));
    put_items(to, &behind, part);
    put_end(to, first, &module_block);
}

static void write_file(const char *path, const byte *from, number count) {
    enum { TO_WRITE = 1, CREATED = 0100, EMPTIED = 01000 };
    int file = open(path, TO_WRITE | CREATED | EMPTIED, 0644);
    for (number have = 0; have < count;) {
        long more = write(file, from + have, count - have);
        if (more <= 0)
            fail("a file that cannot be written");
        have += (number)more;
    }
    close(file);
}

static void write_part(const char *folder, int part) {
    static char path[4096];
    static Bits to;
    to.count = 0;
    list_part(part);
    put_bytes(&to, data, 4);
    for (number place = 0; place < file_blocks.count; place += 4) {
        const number *found = file_blocks.at + place;
        Block block = {found[0], found[1], found[2], found[3]};
        if (block.kind == MODULE)
            put_module(&to, part);
        else if (block.kind == IDENTIFICATION || block.kind == SYMBOL_NAMES)
            put_block(&to, FILE_WIDTH, &block);
    }
    snprintf(path, sizeof path, "%s/part%d.bc", folder, part);
    write_file(path, to.made, to.count);
}

static void write_names(const char *folder) {
    static char path[4096];
    Bits to = {0, 0, 0, 0, 0};
    for (number it = 0; it < count_functions; it++) {
        const number *v = functions[it].record->values.at;
        if (functions[it].has_body && v[NAME] + v[NAME_LENGTH] <= size_names) {
            put_bytes(&to, names + v[NAME], v[NAME_LENGTH]);
            put_bytes(&to, (const byte *)"\n", 1);
        }
    }
    snprintf(path, sizeof path, "%s/names", folder);
    write_file(path, to.made, to.count);
}

int main(int count, char **words) {
    List body_blocks = {0, 0, 0}, named = {0, 0, 0};
    int parts = count == 4 ? atoi(words[3]) : 0;
    if (parts < 1)
        fail("split MODULE FOLDER COUNT");
    read_file(words[1]);
    read_blocks();
    read_module(&body_blocks);
    number_values(&named);
    read_all_bodies(&body_blocks);
    note_callers(&named);
    share_out((number)parts);
    listed = calloc(count_functions + 1, sizeof(word));
    if (!listed)
        fail("no memory");
    for (int part = 0; part < parts; part++)
        list_part(part);
    for (int part = 0; part < parts; part++)
        write_part(words[2], part);
    write_names(words[2]);
    return 0;
}
