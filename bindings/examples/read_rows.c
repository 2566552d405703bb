/*
 * read_rows FILE: prints the tables of FILE, whose lines rows.txt explains: the columns with their types, the primary key, then a line for
 * each row, and for a rows event a line for each of its images, with the names of the columns that it has. Values of ENUM and SET columns
 * are shown as the strings that the map has for them.
 * Every row is also read again step by step, and once more as it would arrive in small blocks, and must have the same values; and written
 * again from its values, and must have the bytes that it was read from, but for the spare null bits; and once more by a plan, and must have
 * the bytes that were written before.
 */
#include "../feed.h"

#include <inttypes.h>
#include <stdio.h>
#include <stdlib.h>
#include <string.h>

enum { LINE_MOST = 4096, PARTS = 7, POST_HEADER = 8, BLOCK = 7 };

struct bytes {
    uint8_t at[LINE_MOST];
    size_t length;
};

/* a part of an event; at is NULL where it is not there */
struct part {
    const uint8_t *at;
    size_t length;
};

/* a checked map, with the values of its optional fields, by their types */
struct table {
    struct bytes event;
    uint64_t id;
    struct part fields[FEED_OPTIONAL_DIMENSIONS + 1];
    uint8_t record[FEED_RECORD_MOST];
    size_t record_length;
    size_t columns;
};

/* the strings of an ENUM or SET column: how many, in which value, and where the first stands in it */
struct strings {
    uint64_t count;
    struct part value;
    size_t first;
};

struct value {
    uint64_t column;
    uint64_t kind;
    uint64_t parts[PARTS];
};

struct row {
    struct bytes presence;
    struct bytes image;
    struct value values[FEED_COLUMNS_MOST];
    size_t count;
};

static void stop(const char *why)
{
    fprintf(stderr, "read_rows: %s\n", why);
    exit(1);
}

/* the part of a date or time that a refusal names */
static const char *part_name(uint64_t part)
{
    static const char *const names[] = {
        "", " (year)", " (month)", " (day)", " (hour)", " (minute)", " (second)", " (fraction)", " (negative datetime)",
    };

    return part < sizeof names / sizeof names[0] ? names[part] : "";
}

/* A refusal ends the program: the number tells the rule that was broken, the first numbers of out the place and the part. */
static void answered(const char *call, uint64_t status, const uint64_t *out)
{
    if (status == FEED_OK)
        return;
    fprintf(stderr, "read_rows: %s refused %" PRIu64 " %" PRIu64 " %" PRIu64 "%s\n",
            call, status, out[FEED_PLACE], out[FEED_PART], part_name(out[FEED_PART]));
    exit(1);
}

static void from_hex(const char *word, struct bytes *bytes)
{
    unsigned byte;

    bytes->length = 0;
    if (word == NULL)
        stop("a word is missing");
    for (; *word != '\0'; word += 2) {
        if (sscanf(word, "%2x", &byte) != 1 || word[1] == '\0')
            stop("a word is not hexadecimal");
        bytes->at[bytes->length++] = (uint8_t)byte;
    }
}

static void print_hex(const uint8_t *bytes, size_t length)
{
    size_t i;

    for (i = 0; i < length; i++)
        printf("%02x", bytes[i]);
}

/* 'text' where every byte is a plain character, else x'hexadecimal' */
static void print_bytes(const uint8_t *bytes, size_t length)
{
    size_t i;

    for (i = 0; i < length; i++)
        if (bytes[i] < ' ' || bytes[i] > '~' || bytes[i] == '\'')
            break;
    if (i == length) {
        printf("'%.*s'", (int)length, (const char *)bytes);
        return;
    }
    printf("x'");
    print_hex(bytes, length);
    printf("'");
}

/* one of the numbers that feed_column tells of a column */
static uint64_t column_number(const struct table *table, size_t column, int which)
{
    uint64_t out[FEED_OUT_NUMBERS];

    answered("feed_column", feed_column(table->record, table->record_length, column, out, FEED_OUT_NUMBERS), out);
    return out[which];
}

static uint64_t type_of(const struct table *table, size_t column)
{
    return column_number(table, column, FEED_COLUMN_TYPE);
}

/* The item at an offset of a list, which a checked map has whole. Returns whether there is one. */
static int item(uint64_t list, const struct part *value, uint64_t offset, uint64_t *out)
{
    answered("feed_item", feed_item(list, value->at, value->length, (size_t)offset, out, FEED_OUT_NUMBERS), out);
    return out[FEED_ITEM_FOUND] != 0;
}

/* Finds the strings of a column. The groups of its field are in the order of the columns of its type. Returns whether the map has them. */
static int find_strings(const struct table *table, size_t column, struct strings *strings)
{
    uint64_t out[FEED_OUT_NUMBERS] = {0}, type = type_of(table, column);
    size_t i;

    if (type != FEED_TYPE_ENUM && type != FEED_TYPE_SET)
        return 0;
    strings->value = table->fields[type == FEED_TYPE_ENUM ? FEED_OPTIONAL_ENUM_STRINGS : FEED_OPTIONAL_SET_STRINGS];
    if (strings->value.at == NULL)
        return 0;
    for (i = 0; i <= column; i++)
        if (type_of(table, i) == type && !item(FEED_LIST_GROUPS, &strings->value, out[FEED_ITEM_NEXT], out))
            return 0;
    strings->count = out[FEED_ITEM_FIRST];
    strings->first = (size_t)out[FEED_ITEM_SECOND];
    return 1;
}

/* Whether string i is that of an ENUM's number, or its bit is set in a SET's bytes. Without a value every string is. */
static int is_chosen(const struct value *value, const uint8_t *image, uint64_t i)
{
    const uint64_t *p;

    if (value == NULL)
        return 1;
    p = value->parts;
    if (value->kind == FEED_UINT)
        return p[0] == i + 1;
    return i / 8 < p[1] && (image[p[0] + i / 8] >> i % 8 & 1) != 0;
}

/* Prints the strings that are chosen. Returns how many. */
static int print_strings(const struct strings *strings, const struct value *value, const uint8_t *image)
{
    uint64_t out[FEED_OUT_NUMBERS] = {0}, i;
    int shown = 0;

    out[FEED_ITEM_NEXT] = strings->first;
    for (i = 0; i < strings->count && item(FEED_LIST_STRINGS, &strings->value, out[FEED_ITEM_NEXT], out); i++) {
        if (!is_chosen(value, image, i))
            continue;
        printf("%s", shown++ ? ", " : "");
        print_bytes(strings->value.at + out[FEED_ITEM_FIRST], (size_t)out[FEED_ITEM_SECOND]);
    }
    return shown;
}

/* The string of an ENUM, which is empty for number 0, or the strings of a SET. */
static void print_choice(const struct strings *strings, const struct value *value, const uint8_t *image)
{
    if (value->kind == FEED_UINT) {
        if (print_strings(strings, value, image) == 0)
            printf("''");
        return;
    }
    printf("(");
    print_strings(strings, value, image);
    printf(")");
}

static void print_value(const struct table *table, const struct value *value, const uint8_t *image)
{
    const uint64_t *p = value->parts;
    struct strings strings;

    if (value->kind != FEED_NULL && find_strings(table, (size_t)value->column, &strings)) {
        print_choice(&strings, value, image);
        return;
    }
    switch (value->kind) {
    case FEED_NULL:
        printf("NULL");
        break;
    case FEED_INT:
        printf("%" PRId64, (int64_t)p[0]);
        break;
    case FEED_UINT:
    case FEED_YEAR:
        printf("%" PRIu64, p[0]);
        break;
    case FEED_FLOAT:
    case FEED_DOUBLE:
        printf("bits %016" PRIx64, p[0]);
        break;
    case FEED_SECONDS:
        printf("%" PRIu64 ".%06" PRIu64, p[0], p[1]);
        break;
    case FEED_DATE:
        printf("%04" PRIu64 "-%02" PRIu64 "-%02" PRIu64, p[0], p[1], p[2]);
        break;
    case FEED_DATETIME:
        printf("%04" PRIu64 "-%02" PRIu64 "-%02" PRIu64 " ", p[0], p[1], p[2]);
        printf("%02" PRIu64 ":%02" PRIu64 ":%02" PRIu64 ".%06" PRIu64, p[3], p[4], p[5], p[6]);
        break;
    case FEED_TIME:
        printf("%s%02" PRIu64 ":%02" PRIu64 ":%02" PRIu64 ".%06" PRIu64, p[0] ? "-" : "", p[1], p[2], p[3], p[4]);
        break;
    case FEED_BYTES:
        print_bytes(image + p[0], (size_t)p[1]);
        break;
    }
}

/* Where each optional field of a checked map stands. None of them stands twice. */
static void read_fields(struct table *table, uint8_t dialect)
{
    uint64_t at[FEED_OUT_NUMBERS], out[FEED_OUT_NUMBERS];
    const struct bytes *event = &table->event;
    struct part *field;

    memset(table->fields, 0, sizeof table->fields);
    answered("feed_fields", feed_fields(event->at, event->length, POST_HEADER, dialect, at, FEED_OUT_NUMBERS), at);
    out[FEED_FIELD_NEXT] = at[FEED_FIELDS_OFFSET];
    for (;;) {
        answered("feed_field",
                 feed_field(event->at, event->length, (size_t)out[FEED_FIELD_NEXT], (size_t)at[FEED_FIELDS_NUMERIC],
                            (size_t)at[FEED_FIELDS_COLUMNS], out, FEED_OUT_NUMBERS), out);
        if (out[FEED_FIELD_FOUND] == 0)
            return;
        field = &table->fields[out[FEED_FIELD_TYPE]];
        field->at = event->at + out[FEED_FIELD_START];
        field->length = (size_t)out[FEED_FIELD_LENGTH];
    }
}

/* Holds the record of a map against its type bytes and nullable bits: a real type may be another than the type byte has, a flag not. */
static void check_parts(const struct table *table)
{
    uint64_t out[FEED_OUT_NUMBERS], flags;
    const uint8_t *nullable;
    size_t i;

    answered("feed_parts", feed_parts(table->event.at, table->event.length, POST_HEADER, out, FEED_OUT_NUMBERS), out);
    if (out[FEED_PARTS_TYPES_LENGTH] != table->columns)
        stop("a map has another number of columns than its record");
    nullable = table->event.at + out[FEED_PARTS_NULLABLE_START];
    for (i = 0; i < table->columns; i++) {
        flags = column_number(table, i, FEED_COLUMN_FLAGS);
        if ((nullable[i / 8] >> i % 8 & 1) != ((flags & FEED_NULLABLE) != 0))
            stop("a nullable bit of a map is not what its record says");
    }
}

static void read_map(struct table *table, uint8_t dialect)
{
    uint64_t out[FEED_OUT_NUMBERS];
    const struct bytes *event = &table->event;

    answered("feed_map", feed_map(event->at, event->length, POST_HEADER, out, FEED_OUT_NUMBERS), out);
    table->id = out[FEED_MAP_ID];
    answered("feed_check",
             feed_check(event->at, event->length, POST_HEADER, dialect, table->record, FEED_RECORD_MOST, out, FEED_OUT_NUMBERS), out);
    table->record_length = (size_t)out[FEED_RECORD_LENGTH];
    table->columns = (size_t)out[FEED_RECORD_COLUMNS];
    read_fields(table, dialect);
    answered("feed_names", feed_names(event->at, event->length, POST_HEADER, dialect, out, FEED_OUT_NUMBERS), out);
    if (out[FEED_HAS_NAMES] == 0)
        stop("a map has no names");
    if (table->fields[FEED_OPTIONAL_NAMES].at != event->at + out[FEED_NAMES_START])
        stop("the names of a map are not where its fields have them");
    check_parts(table);
}

static const char *type_name(uint64_t type)
{
    switch (type) {
    case FEED_TYPE_TINY: return "TINY";
    case FEED_TYPE_SHORT: return "SHORT";
    case FEED_TYPE_LONG: return "LONG";
    case FEED_TYPE_FLOAT: return "FLOAT";
    case FEED_TYPE_DOUBLE: return "DOUBLE";
    case FEED_TYPE_TIMESTAMP: return "TIMESTAMP";
    case FEED_TYPE_LONGLONG: return "LONGLONG";
    case FEED_TYPE_INT24: return "INT24";
    case FEED_TYPE_TIME: return "TIME";
    case FEED_TYPE_DATETIME: return "DATETIME";
    case FEED_TYPE_YEAR: return "YEAR";
    case FEED_TYPE_NEWDATE: return "NEWDATE";
    case FEED_TYPE_VARCHAR: return "VARCHAR";
    case FEED_TYPE_BIT: return "BIT";
    case FEED_TYPE_TIMESTAMP2: return "TIMESTAMP2";
    case FEED_TYPE_DATETIME2: return "DATETIME2";
    case FEED_TYPE_TIME2: return "TIME2";
    case FEED_TYPE_VECTOR: return "VECTOR";
    case FEED_TYPE_JSON: return "JSON";
    case FEED_TYPE_NEWDECIMAL: return "NEWDECIMAL";
    case FEED_TYPE_ENUM: return "ENUM";
    case FEED_TYPE_SET: return "SET";
    case FEED_TYPE_TINY_BLOB: return "TINY_BLOB";
    case FEED_TYPE_MEDIUM_BLOB: return "MEDIUM_BLOB";
    case FEED_TYPE_LONG_BLOB: return "LONG_BLOB";
    case FEED_TYPE_BLOB: return "BLOB";
    case FEED_TYPE_VAR_STRING: return "VAR_STRING";
    case FEED_TYPE_STRING: return "STRING";
    case FEED_TYPE_GEOMETRY: return "GEOMETRY";
    default: return "?";
    }
}

/* the real type of a column, with the strings of an ENUM or SET, and whether it is known to be unsigned and cannot be NULL */
static void print_type(const struct table *table, size_t column)
{
    uint64_t flags = column_number(table, column, FEED_COLUMN_FLAGS);
    struct strings strings;

    printf(" %s", type_name(type_of(table, column)));
    if (find_strings(table, column, &strings)) {
        printf("(");
        print_strings(&strings, NULL, NULL);
        printf(")");
    }
    printf("%s%s", flags & FEED_UNSIGNED ? " unsigned" : "", flags & FEED_NULLABLE ? "" : " not null");
}

static void print_part(const uint8_t *bytes, const uint64_t *part)
{
    printf("%.*s", (int)part[1], (const char *)bytes + part[0]);
}

static void print_name(const struct table *table, size_t column)
{
    uint64_t out[FEED_OUT_NUMBERS];
    const struct part *names = &table->fields[FEED_OPTIONAL_NAMES];

    answered("feed_name", feed_name(names->at, names->length, names->at, 0, column, out, FEED_OUT_NUMBERS), out);
    print_part(names->at, out + FEED_NAME_START);
}

/* the names of database and table */
static void print_table(const struct table *table)
{
    uint64_t out[FEED_OUT_NUMBERS];

    answered("feed_map", feed_map(table->event.at, table->event.length, POST_HEADER, out, FEED_OUT_NUMBERS), out);
    print_part(table->event.at, out + FEED_MAP_DATABASE_START);
    printf(".");
    print_part(table->event.at, out + FEED_MAP_TABLE_START);
}

static void print_columns(const struct table *table)
{
    size_t i;

    for (i = 0; i < table->columns; i++) {
        printf("%s", i == 0 ? "" : " | ");
        print_name(table, i);
        print_type(table, i);
    }
    printf("\n");
}

/* The columns of the primary key, those with a prefix with its length. A map has one of the two fields at most. */
static void print_key(const struct table *table)
{
    int prefixed = table->fields[FEED_OPTIONAL_PREFIX_KEY].at != NULL;
    const struct part *key = &table->fields[prefixed ? FEED_OPTIONAL_PREFIX_KEY : FEED_OPTIONAL_SIMPLE_KEY];
    uint64_t out[FEED_OUT_NUMBERS] = {0};
    int shown = 0;

    if (key->at == NULL)
        return;
    printf("  key ");
    while (item(prefixed ? FEED_LIST_PAIRS : FEED_LIST_INTEGERS, key, out[FEED_ITEM_NEXT], out)) {
        printf("%s", shown++ ? ", " : "");
        print_name(table, (size_t)out[FEED_ITEM_FIRST]);
        if (out[FEED_ITEM_SECOND] != 0)
            printf("(%" PRIu64 ")", out[FEED_ITEM_SECOND]);
    }
    printf("\n");
}

/* Reads the values of a row by the plan of its presence bits. Returns the bytes that it took. */
static size_t read_row(const struct table *table, struct row *row)
{
    static uint8_t plan[FEED_PLAN_BYTES(FEED_COLUMNS_MOST)];
    static uint64_t values[FEED_VALUE_NUMBERS * FEED_COLUMNS_MOST];
    uint64_t out[FEED_OUT_NUMBERS];
    size_t plan_length, items, column = 0, done = 0, offset;

    answered("feed_plan",
             feed_plan(table->record, table->record_length, row->presence.at, row->presence.length, plan, sizeof plan,
                       out, FEED_OUT_NUMBERS), out);
    plan_length = (size_t)out[FEED_PLAN_LENGTH];
    items = (size_t)out[FEED_PLAN_ITEMS];
    offset = FEED_BYTES_FOR(items);
    /* a run may stop before a value that is refused: the next one tells why */
    while (done < items) {
        answered("feed_run",
                 feed_run(plan, plan_length, row->image.at, row->image.length, 0, done, offset, values + FEED_VALUE_NUMBERS * done,
                          FEED_VALUE_NUMBERS * (items - done), out, FEED_OUT_NUMBERS), out);
        if (out[FEED_RUN_VALUES] == 0)
            stop("a row has no image");
        done = (size_t)out[FEED_RUN_ITEM];
        offset = (size_t)out[FEED_RUN_OFFSET];
    }
    for (row->count = 0; row->count < items; column++)
        if (row->presence.at[column / 8] >> column % 8 & 1) {
            const uint64_t *numbers = values + FEED_VALUE_NUMBERS * row->count;
            struct value *value = &row->values[row->count++];

            value->column = column;
            value->kind = numbers[0];
            memcpy(value->parts, numbers + 1, sizeof value->parts);
        }
    return offset;
}

/* Reads the row again step by step: the same values, and the same number of bytes. */
static void check_steps(const struct table *table, const struct row *row, size_t used)
{
    uint64_t out[FEED_OUT_NUMBERS];
    size_t column, offset, i;
    const struct value *value;

    answered("feed_first",
             feed_first(table->record, table->record_length, row->presence.at, row->presence.length, out, FEED_OUT_NUMBERS), out);
    column = (size_t)out[FEED_CURSOR_COLUMN];
    offset = (size_t)out[FEED_CURSOR_OFFSET];
    for (i = 0;; i++) {
        answered("feed_step",
                 feed_step(table->record, table->record_length, row->presence.at, row->presence.length, row->image.at, row->image.length,
                           column, offset, out, FEED_OUT_NUMBERS), out);
        column = (size_t)out[FEED_STEP_NEXT_COLUMN];
        offset = (size_t)out[FEED_STEP_NEXT_OFFSET];
        if (out[FEED_STEP_KIND] == FEED_END || i == row->count)
            break;
        value = &row->values[i];
        if (out[FEED_STEP_KIND] != value->kind || out[FEED_STEP_COLUMN] != value->column
            || memcmp(out + FEED_STEP_PARTS, value->parts, sizeof value->parts) != 0)
            stop("a step gives another value than the plan");
    }
    if (out[FEED_STEP_KIND] != FEED_END || i != row->count || offset != used)
        stop("the steps end elsewhere than the plan");
}

/* Whether what feed_give told is the value: bytes stand in the carry, and where the plan found them in the image. */
static int is_value(const uint64_t *out, const uint8_t *carry, const struct value *value, const uint8_t *image)
{
    const uint64_t *parts = out + FEED_GIVE_PARTS;

    if (out[FEED_GIVE_KIND] != value->kind || out[FEED_GIVE_COLUMN] != value->column)
        return 0;
    if (value->kind != FEED_BYTES)
        return memcmp(parts, value->parts, sizeof value->parts) == 0;
    return parts[1] == value->parts[1] && memcmp(carry + parts[0], image + value->parts[0], (size_t)parts[1]) == 0;
}

/* Reads the row once more in blocks: the same values, and the same number of bytes. No value of a line is too long for the carry. */
static void check_blocks(const struct table *table, const struct row *row, size_t used)
{
    static uint8_t carry[FEED_CARRY_LEAST + LINE_MOST];
    uint64_t out[FEED_OUT_NUMBERS];
    size_t at = 0, count = 0, left;

    answered("feed_begin",
             feed_begin(table->record, table->record_length, row->presence.at, row->presence.length, carry, sizeof carry,
                        out, FEED_OUT_NUMBERS), out);
    for (;;) {
        left = row->image.length - at;
        answered("feed_give",
                 feed_give(table->record, table->record_length, row->presence.at, row->presence.length, carry, sizeof carry,
                           row->image.at + at, left < BLOCK ? left : BLOCK, out[FEED_STATE_PHASE], (size_t)out[FEED_STATE_COLUMN],
                           (size_t)out[FEED_STATE_HELD], (size_t)out[FEED_STATE_LEFT], (size_t)out[FEED_STATE_USED],
                           out, FEED_OUT_NUMBERS), out);
        at += (size_t)out[FEED_GIVE_TAKEN];
        if (out[FEED_GIVE_KIND] == FEED_END || (out[FEED_GIVE_KIND] == FEED_MORE && left == 0))
            break;
        if (out[FEED_GIVE_KIND] == FEED_MORE)
            continue;
        if (count == row->count || !is_value(out, carry, &row->values[count++], row->image.at))
            stop("a block gives another value than the plan");
    }
    answered("feed_end",
             feed_end(table->record, table->record_length, row->presence.at, row->presence.length, carry, sizeof carry,
                      out[FEED_STATE_PHASE], (size_t)out[FEED_STATE_COLUMN], (size_t)out[FEED_STATE_HELD],
                      (size_t)out[FEED_STATE_LEFT], (size_t)out[FEED_STATE_USED], out, FEED_OUT_NUMBERS), out);
    if (count != row->count || at != used || out[FEED_GIVE_PARTS] != used)
        stop("the blocks end elsewhere than the plan");
}

static void print_row(const struct table *table, const struct row *row)
{
    size_t column, next = 0;

    for (column = 0; column < table->columns; column++) {
        printf("%s", column == 0 ? "" : " | ");
        if (next < row->count && row->values[next].column == column)
            print_value(table, &row->values[next++], row->image.at);
        else
            printf("absent");
    }
    printf("\n");
}

/* The null bits of the row's values. Returns how many bytes they take. */
static size_t null_bits(const struct row *row, uint8_t *nulls)
{
    size_t i;

    memset(nulls, 0, FEED_BYTES_FOR(row->count));
    for (i = 0; i < row->count; i++)
        if (row->values[i].kind == FEED_NULL)
            nulls[i / 8] |= (uint8_t)(1 << i % 8);
    return FEED_BYTES_FOR(row->count);
}

/* Writes the row again from its values. Values of bytes are taken from the image that they were read from. Returns the bytes written. */
static size_t write_row(const struct table *table, const struct row *row, uint8_t *written, size_t room)
{
    uint64_t out[FEED_OUT_NUMBERS];
    uint8_t nulls[FEED_BYTES_FOR(FEED_COLUMNS_MOST)];
    size_t nulls_length = null_bits(row, nulls);
    size_t i, length;

    answered("feed_start",
             feed_start(table->record, table->record_length, row->presence.at, row->presence.length, nulls, nulls_length,
                        written, room, out, FEED_OUT_NUMBERS), out);
    for (i = 0; i < row->count; i++)
        answered("feed_put",
                 feed_put(table->record, table->record_length, row->presence.at, row->presence.length, nulls, nulls_length,
                          (size_t)out[FEED_CURSOR_COLUMN], (size_t)out[FEED_CURSOR_OFFSET], row->values[i].kind,
                          row->values[i].parts, PARTS, row->image.at, row->image.length, written, room, out, FEED_OUT_NUMBERS), out);
    length = (size_t)out[FEED_CURSOR_OFFSET];
    answered("feed_room",
             feed_room(table->record, table->record_length, row->presence.at, row->presence.length, out, FEED_OUT_NUMBERS), out);
    if (out[FEED_ROOM_BYTES] < length)
        stop("an image is larger than its room");
    return length;
}

/* Writes the row once more, by the plan of its presence bits: the same bytes. */
static void check_items(const struct table *table, const struct row *row, const uint8_t *written, size_t length)
{
    static uint8_t plan[FEED_PLAN_BYTES(FEED_COLUMNS_MOST)];
    uint64_t out[FEED_OUT_NUMBERS];
    uint8_t nulls[FEED_BYTES_FOR(FEED_COLUMNS_MOST)], image[LINE_MOST];
    size_t nulls_length = null_bits(row, nulls);
    size_t plan_length, item = 0, offset;

    answered("feed_plan",
             feed_plan(table->record, table->record_length, row->presence.at, row->presence.length, plan, sizeof plan,
                       out, FEED_OUT_NUMBERS), out);
    plan_length = (size_t)out[FEED_PLAN_LENGTH];
    answered("feed_start",
             feed_start(table->record, table->record_length, row->presence.at, row->presence.length, nulls, nulls_length,
                        image, sizeof image, out, FEED_OUT_NUMBERS), out);
    offset = (size_t)out[FEED_CURSOR_OFFSET];
    while (item < row->count) {
        answered("feed_put_item",
                 feed_put_item(plan, plan_length, nulls, nulls_length, item, offset, row->values[item].kind, row->values[item].parts, PARTS,
                               row->image.at, row->image.length, image, sizeof image, out, FEED_OUT_NUMBERS), out);
        item = (size_t)out[FEED_PUT_ITEM_NEXT];
        offset = (size_t)out[FEED_PUT_ITEM_OFFSET];
    }
    if (offset != length || memcmp(image, written, length) != 0)
        stop("the plan writes another row");
}

/* Whether two images of so many present columns are the same but for the spare bits in the last byte of their null bits. */
static int same_row(const uint8_t *a, const uint8_t *b, size_t length, size_t present)
{
    size_t i;
    uint8_t mask;

    for (i = 0; i < length; i++) {
        mask = i == present / 8 && present % 8 != 0 ? (uint8_t)((1 << present % 8) - 1) : 0xff;
        if ((a[i] & mask) != (b[i] & mask))
            return 0;
    }
    return 1;
}

static void do_row(const struct table *table, struct row *row, int show)
{
    uint8_t written[LINE_MOST];
    size_t used = read_row(table, row);

    check_steps(table, row, used);
    check_blocks(table, row, used);
    print_row(table, row);
    if (used != row->image.length)
        stop("the row does not take its whole image");
    if (write_row(table, row, written, sizeof written) != used || !same_row(row->image.at, written, used, row->count))
        stop("the row that was written is not the one that was read");
    check_items(table, row, written, used);
    if (show) {
        printf("  logged  ");
        print_hex(row->image.at, used);
        printf("\n  written ");
        print_hex(written, used);
        printf("\n");
    }
}

/* the image of an event, and the presence bits that it stands under */
static void cut(struct bytes *bytes, const struct bytes *event, uint64_t start, uint64_t length)
{
    bytes->length = (size_t)length;
    memcpy(bytes->at, event->at + start, bytes->length);
}

/* An image of an event: the values that it has, with their names. */
static void print_image(const struct table *table, const struct row *row, int after)
{
    size_t i;

    printf("  %s ", after ? "after " : "before");
    for (i = 0; i < row->count; i++) {
        printf("%s", i == 0 ? "" : ", ");
        print_name(table, (size_t)row->values[i].column);
        printf(" = ");
        print_value(table, &row->values[i], row->image.at);
    }
    printf("\n");
}

/* A rows event: its body, without header and checksum. An insert has images after the change alone, a delete images before it alone. */
static void do_event(const struct table *table, uint64_t code, const struct bytes *event, struct row *row)
{
    uint64_t rows[FEED_OUT_NUMBERS], out[FEED_OUT_NUMBERS] = {0};
    int writes = code == FEED_WRITE_ROWS || code == FEED_WRITE_ROWS_V1;

    answered("feed_rows",
             feed_rows(code, table->record, table->record_length, table->id, event->at, event->length, rows, FEED_OUT_NUMBERS), rows);
    printf("event %" PRIu64 " of ", code);
    print_table(table);
    printf("\n");
    out[FEED_IMAGE_NEXT_OFFSET] = rows[FEED_ROWS_IMAGES];
    for (;;) {
        answered("feed_image",
                 feed_image(table->record, table->record_length, event->at, event->length, (size_t)rows[FEED_ROWS_FIRST_START],
                            (size_t)rows[FEED_ROWS_FIRST_LENGTH], rows[FEED_ROWS_HAS_SECOND], (size_t)rows[FEED_ROWS_SECOND_START],
                            (size_t)rows[FEED_ROWS_SECOND_LENGTH], (size_t)out[FEED_IMAGE_NEXT_OFFSET], out[FEED_IMAGE_NEXT_SECOND],
                            out, FEED_OUT_NUMBERS), out);
        if (out[FEED_IMAGE_FOUND] == 0)
            return;
        cut(&row->image, event, out[FEED_IMAGE_START], out[FEED_IMAGE_LENGTH]);
        if (out[FEED_IMAGE_SECOND])
            cut(&row->presence, event, rows[FEED_ROWS_SECOND_START], rows[FEED_ROWS_SECOND_LENGTH]);
        else
            cut(&row->presence, event, rows[FEED_ROWS_FIRST_START], rows[FEED_ROWS_FIRST_LENGTH]);
        read_row(table, row);
        print_image(table, row, writes || out[FEED_IMAGE_SECOND] != 0);
    }
}

static uint8_t dialect_of(const char *server)
{
    if (server != NULL && strcmp(server, "mysql") == 0)
        return FEED_MYSQL;
    if (server != NULL && strcmp(server, "mariadb") == 0)
        return FEED_MARIADB;
    stop("a server is mysql or mariadb");
    return FEED_DOCUMENT;
}

int main(int argc, char **argv)
{
    static char line[LINE_MOST];
    static struct table table;
    static struct row row;
    static struct bytes event;
    uint8_t dialect = FEED_DOCUMENT;
    unsigned long rows = 0;
    int first = 0, checked = 0;
    const char *word;
    FILE *file;

    if (argc != 2 || (file = fopen(argv[1], "r")) == NULL)
        stop("usage: read_rows FILE");
    while (fgets(line, sizeof line, file) != NULL) {
        if (strchr(line, '\n') == NULL)
            stop("a line is too long, or its end is missing");
        word = strtok(line, " \n");
        if (word == NULL || word[0] == '#')
            continue;
        if (strcmp(word, "server") == 0) {
            dialect = dialect_of(strtok(NULL, " \n"));
        } else if (strcmp(word, "map") == 0) {
            from_hex(strtok(NULL, " \n"), &table.event);
            read_map(&table, dialect);
            print_columns(&table);
            print_key(&table);
            first = checked = 1;
        } else if (strcmp(word, "row") == 0 && checked) {
            from_hex(strtok(NULL, " \n"), &row.presence);
            from_hex(strtok(NULL, " \n"), &row.image);
            do_row(&table, &row, first);
            first = 0;
            rows++;
        } else if (strcmp(word, "event") == 0 && checked) {
            word = strtok(NULL, " \n");
            from_hex(strtok(NULL, " \n"), &event);
            do_event(&table, strtoull(word, NULL, 10), &event, &row);
        } else {
            stop("a line is none of server, map, row and event, or a row or event has no map before it");
        }
    }
    fclose(file);
    printf("%lu rows read, and written again: the same bytes but for the spare null bits\n", rows);
    return 0;
}
