/*
 * feed.h: the calls of libfeed_abi.a, which reads MySQL's table map event, rows events and row images, and writes row images. A map is
 * checked by feed_check, and its columns are told by feed_column and feed_name; the strings of ENUM and SET columns, keys and geometry
 * types stand in its optional fields (feed_fields, feed_field, feed_item).
 *
 * An event is lent WITHOUT its header of 19 bytes and WITHOUT its checksum (4 bytes at its end, if the format description event says that
 * the log has checksums). No call can tell a checksum from rows: left on, it is read as rows. Under one TINYINT column, a rows event with
 * the row 5 and behind it the checksum d2 41 9c 07 is accepted, with three rows: 5, 65 and 7.
 *
 * The library is for x86-64 Linux. docs/ABI.md tells the calls in full; this file has what is needed beside the code.
 *
 * A slice is a pointer and then a length, counted in elements: bytes, or 64-bit numbers. What the proofs of the library
 * take for granted, and C does not check:
 *  - a pointer is not NULL, also where the length is 0 (any pointer will do there), and one to numbers is aligned to 8;
 *  - as many elements as the length says can be read, or written where the parameter is not const;
 *  - what is written (image, profile, plan, values, carry, out) overlaps nothing else that the same call is lent;
 *  - the elements lent for reading have been written before.
 * Given that, every call returns, whatever the bytes and numbers are. The library keeps no state and takes no memory.
 *
 * Every call returns a status: 0 for an answer, else the number of a refusal. The last parameter is a buffer of numbers, out.
 *  - Status 0: the first numbers of out are the answer (the count stands with each call), all behind them are as they were.
 *  - A refusal: out[0] is its place and out[1] its part, which is 0 but for FEED_OUT_OF_RANGE; all else that was lent is as it was.
 *  - out shorter than the answer: the status is FEED_NO_ROOM, and nothing is changed, not even out[0]. Lend FEED_OUT_NUMBERS
 *    numbers to every call, and this cannot happen. No answer has fewer than two numbers.
 */
#ifndef FEED_H
#define FEED_H

#include <stddef.h>
#include <stdint.h>

#ifdef __cplusplus
extern "C" {
#endif

/* Numbers that are enough for the answer of any call. */
#define FEED_OUT_NUMBERS 15

/* The most columns that a map may have; bytes of the record of a map with n columns, and of the longest record there is. */
#define FEED_COLUMNS_MOST 4096
#define FEED_RECORD_BYTES(n) (6 + 6 * (size_t)(n))
#define FEED_RECORD_MOST FEED_RECORD_BYTES(FEED_COLUMNS_MOST)

/* Bytes that so many bits take: presence bits of n columns, null bits of p present columns. */
#define FEED_BYTES_FOR(bits) (((size_t)(bits) + 7) / 8)

/* Bytes of a plan for p present columns; numbers of a value that a run stores: its kind and seven parts. */
#define FEED_PLAN_BYTES(present) (3 * (size_t)(present))
#define FEED_VALUE_NUMBERS 8

/* The least bytes of a carry, which an image that arrives in blocks is kept in. */
#define FEED_CARRY_LEAST 1024

/* Which columns a server counts where its map has a bit or a charset per column. Use the one of the server that wrote the map. */
enum {
    FEED_DOCUMENT = 0, /* the specification to the letter: refuses or misreads real maps with YEAR, VECTOR or geometry columns */
    FEED_MYSQL = 1,
    FEED_MARIADB = 2
};

/* The status of a call. Places are offsets in the lent bytes, or columns counted from 0, or 0. */
enum {
    FEED_OK = 0,
    FEED_SHORT = 1,            /* bytes end inside a part of the event, an optional field, or an item of a list;
                                  place: its first byte, or its length's */
    FEED_NOT_PACKED = 2,       /* first byte 251 or 255 of a packed integer; place: that byte */
    FEED_TOO_MANY_COLUMNS = 3, /* more than 4,096 columns; place: 0 */
    FEED_TYPE_NOT_TAKEN = 4,   /* a column type that is not taken; place: the column */
    FEED_BAD_METADATA = 5,     /* metadata short, not accepted, or left over; place: the column, or the number of columns if left over */
    FEED_UNKNOWN_FIELD = 6,    /* an optional field of unknown type; place: its type byte */
    FEED_BAD_FIELD = 7,        /* contents of an optional field break a rule; place: its type byte, or the repeated key */
    FEED_NO_ROOM = 8,          /* a lent buffer is too small; place: 0 */
    FEED_IMAGE_SHORT = 9,      /* the image ends early, or bytes are left over where no column is present;
                                  place: the column, 0 in the null bits and for bytes left over;
                                  of feed_image 0 also for an offset past the event */
    FEED_OUT_OF_RANGE = 10,    /* a part of a date or time is out of range; place: the column;
                                  part: the first such one, a FEED_PART_ below */
    FEED_BAD_RECORD = 11,      /* the record is not valid; place: 0,
                                  of feed_run and feed_put_item the column of an item whose first byte is 0 */
    FEED_BAD_BITS = 12,        /* presence or null bits have the wrong length; place: 0 */
    FEED_NOT_TAKEN = 13,       /* a value that the column cannot hold, or a number that the call does not take; place: the column, or 0 */
    FEED_NO_COLUMN = 14,       /* there is no such column, or in a plan no such item; place: the column or item asked */
    FEED_BAD_EXTRA = 15,       /* the length of a rows event's extra data is below 2; place: where that length stands, 8 */
    FEED_OTHER_EVENT = 16,     /* a rows event of another code, another table id, or another number of columns;
                                  place: 0 for code and table id, else where the event's column count stands */
    FEED_SMALL_CARRY = 20,     /* a carry of fewer than FEED_CARRY_LEAST bytes; place: 0 */
    FEED_UNFIT_STATE = 21      /* the closed state, or one that is unfit; place: 0 */
};

/* Which part of a date or time is out of range. FEED_PART_NEGATIVE is tested first, then the others in their order; the first is told. */
enum {
    FEED_PART_YEAR = 1,
    FEED_PART_MONTH = 2,
    FEED_PART_DAY = 3,
    FEED_PART_HOUR = 4,
    FEED_PART_MINUTE = 5,
    FEED_PART_SECOND = 6,
    FEED_PART_FRACTION = 7, /* 1,000,000 microseconds or more */
    FEED_PART_NEGATIVE = 8  /* a datetime below zero */
};

/* Kinds of values (sorts, in the crates), with their parts in order. feed_step and feed_give answer them, feed_run stores, and feed_put and
   feed_put_item take all but FEED_END. */
enum {
    FEED_END = 0,      /* no value: the image is at its end; of feed_give and feed_end: the bytes used */
    FEED_NULL = 1,     /* (no part) */
    FEED_INT = 2,      /* the signed integer, as two's complement in 64 bits */
    FEED_UINT = 3,     /* the unsigned integer; also the number of an ENUM's string */
    FEED_FLOAT = 4,    /* the 32 bits of a float */
    FEED_DOUBLE = 5,   /* the 64 bits of a double */
    FEED_SECONDS = 6,  /* seconds since 1970, microseconds */
    FEED_YEAR = 7,     /* year: 0 for MySQL's year 0000, else 1901 to 2155 */
    FEED_DATE = 8,     /* year, month, day */
    FEED_DATETIME = 9, /* year, month, day, hour, minute, second, microseconds */
    FEED_TIME = 10,    /* 1 if negative else 0, hours, minutes, seconds, microseconds */
    FEED_BYTES = 11    /* start, length: in the image for feed_step, in images for feed_run, in lent for feed_put and feed_put_item,
                          in carry for feed_give. Strings, BLOB, SET, BIT, DECIMAL, JSON, geometry, VECTOR */
};

/* What feed_give answers beside these, with its part. */
enum {
    FEED_MORE = 12,     /* (no part) all of the block was taken, and nothing can be told without another byte */
    FEED_LONG = 13,     /* the length of a value that is too long for the carry: its bytes follow in parts */
    FEED_LONG_PART = 14 /* the length of a part of it, which is the front of the block: the bytes taken */
};

/* The phases of an image that arrives in blocks. Any other number is taken as FEED_CLOSED. */
enum {
    FEED_OPEN = 0,    /* in the null bits, at or in a value that is not long, or behind the last one */
    FEED_IN_LONG = 1, /* in a long value */
    FEED_CLOSED = 2   /* behind a refusal or feed_end: with it every call is refused with FEED_UNFIT_STATE */
};

/*
 * Types of columns, by MySQL's names for them. feed_column tells the real type: an ENUM has FEED_TYPE_ENUM there, and a DATE
 * FEED_TYPE_NEWDATE. Among the type bytes that feed_parts finds, an ENUM or SET has FEED_TYPE_STRING, and a DATE FEED_TYPE_DATE.
 */
enum {
    FEED_TYPE_TINY = 1,       /* TINYINT */
    FEED_TYPE_SHORT = 2,      /* SMALLINT */
    FEED_TYPE_LONG = 3,       /* INT */
    FEED_TYPE_FLOAT = 4,
    FEED_TYPE_DOUBLE = 5,
    FEED_TYPE_TIMESTAMP = 7,  /* of old */
    FEED_TYPE_LONGLONG = 8,   /* BIGINT */
    FEED_TYPE_INT24 = 9,      /* MEDIUMINT */
    FEED_TYPE_DATE = 10,
    FEED_TYPE_TIME = 11,      /* of old */
    FEED_TYPE_DATETIME = 12,  /* of old */
    FEED_TYPE_YEAR = 13,
    FEED_TYPE_NEWDATE = 14,   /* DATE */
    FEED_TYPE_VARCHAR = 15,   /* VARCHAR, VARBINARY */
    FEED_TYPE_BIT = 16,
    FEED_TYPE_TIMESTAMP2 = 17,
    FEED_TYPE_DATETIME2 = 18,
    FEED_TYPE_TIME2 = 19,
    FEED_TYPE_VECTOR = 242,
    FEED_TYPE_JSON = 245,
    FEED_TYPE_NEWDECIMAL = 246, /* DECIMAL */
    FEED_TYPE_ENUM = 247,
    FEED_TYPE_SET = 248,
    FEED_TYPE_TINY_BLOB = 249,
    FEED_TYPE_MEDIUM_BLOB = 250,
    FEED_TYPE_LONG_BLOB = 251,
    FEED_TYPE_BLOB = 252,       /* BLOB, TEXT of any size */
    FEED_TYPE_VAR_STRING = 253, /* VARCHAR, VARBINARY */
    FEED_TYPE_STRING = 254,     /* CHAR, BINARY */
    FEED_TYPE_GEOMETRY = 255
};

/* Types of optional fields, and what stands in the value of each. The record of a map has what 1, 2, 3, 10, 11 and 12 say. */
enum {
    FEED_OPTIONAL_SIGNEDNESS = 1,        /* bits, highest first: set for an unsigned column */
    FEED_OPTIONAL_DEFAULT_CHARSET = 2,   /* an integer, and behind it pairs: rank among character columns, charset */
    FEED_OPTIONAL_COLUMN_CHARSET = 3,    /* integers: a charset for each character column */
    FEED_OPTIONAL_NAMES = 4,             /* strings: a name for each column */
    FEED_OPTIONAL_SET_STRINGS = 5,       /* groups: the strings of each SET column. Bit i of a SET's bytes, lowest first, is for string i */
    FEED_OPTIONAL_ENUM_STRINGS = 6,      /* groups: the strings of each ENUM column.
                                            Number i of an ENUM is string i - 1; 0 is none of them */
    FEED_OPTIONAL_GEOMETRY_TYPES = 7,    /* integers: a FEED_GEOMETRY_ below for each geometry column */
    FEED_OPTIONAL_SIMPLE_KEY = 8,        /* integers: the columns of the primary key */
    FEED_OPTIONAL_PREFIX_KEY = 9,        /* pairs: the same, each with the length of its prefix, 0 for the whole column */
    FEED_OPTIONAL_CHOICE_CHARSET = 10,   /* as 2 and 3, of ENUM and SET columns together */
    FEED_OPTIONAL_CHOICE_CHARSETS = 11,
    FEED_OPTIONAL_VISIBILITY = 12,       /* bits, highest first: set for a visible column */
    FEED_OPTIONAL_DIMENSIONS = 13        /* integers: the dimensions of each VECTOR column */
};

/* The lists that feed_item steps over, and the two numbers that it tells of an item. */
enum {
    FEED_LIST_INTEGERS = 1, /* the integer, 0 */
    FEED_LIST_PAIRS = 2,    /* both integers */
    FEED_LIST_STRINGS = 3,  /* start and length of the string in the value */
    FEED_LIST_GROUPS = 4    /* how many strings, and where the first stands:
                               that many steps over FEED_LIST_STRINGS from there are its strings */
};

/* Which geometries a geometry column takes. */
enum {
    FEED_GEOMETRY_ANY = 0,
    FEED_GEOMETRY_POINT = 1,
    FEED_GEOMETRY_LINESTRING = 2,
    FEED_GEOMETRY_POLYGON = 3,
    FEED_GEOMETRY_MULTIPOINT = 4,
    FEED_GEOMETRY_MULTILINESTRING = 5,
    FEED_GEOMETRY_MULTIPOLYGON = 6,
    FEED_GEOMETRY_COLLECTION = 7
};

/* Flags of a column. */
enum {
    FEED_UNSIGNED = 1,
    FEED_NULLABLE = 2,
    FEED_SIGN_KNOWN = 4,
    FEED_VISIBLE = 8
};

/* Where each number of an answer stands in out. */
enum {
    FEED_PLACE = 0, /* every refusal */
    FEED_PART = 1,

    FEED_MAP_ID = 0, /* feed_map */
    FEED_MAP_FLAGS = 1,
    FEED_MAP_DATABASE_START = 2,
    FEED_MAP_DATABASE_LENGTH = 3,
    FEED_MAP_TABLE_START = 4,
    FEED_MAP_TABLE_LENGTH = 5,

    FEED_RECORD_LENGTH = 0, /* feed_check */
    FEED_RECORD_COLUMNS = 1,

    FEED_COLUMN_TYPE = 0, /* feed_column */
    FEED_COLUMN_FLAGS = 1,
    FEED_COLUMN_M0 = 2,
    FEED_COLUMN_M1 = 3,
    FEED_COLUMN_CHARSET = 4,

    FEED_CURSOR_COLUMN = 0, /* feed_first, feed_start, feed_put */
    FEED_CURSOR_OFFSET = 1,

    FEED_ROOM_BYTES = 0, /* feed_room */

    FEED_STEP_KIND = 0, /* feed_step: the number of the value's sort, as above */
    FEED_STEP_COLUMN = 1,
    FEED_STEP_NEXT_COLUMN = 2,
    FEED_STEP_NEXT_OFFSET = 3,
    FEED_STEP_PARTS = 4, /* seven numbers from here on; those that the kind has not are 0 */

    FEED_STATE_PHASE = 0, /* feed_begin, feed_give, feed_end: the state to give the next call */
    FEED_STATE_COLUMN = 1,
    FEED_STATE_HELD = 2,
    FEED_STATE_LEFT = 3,
    FEED_STATE_USED = 4,
    FEED_GIVE_KIND = 5, /* feed_give, feed_end: a kind of value, or FEED_END, FEED_MORE, FEED_LONG, FEED_LONG_PART */
    FEED_GIVE_COLUMN = 6,
    FEED_GIVE_TAKEN = 7, /* bytes taken from the front of the block */
    FEED_GIVE_PARTS = 8, /* seven numbers from here on; those that the kind has not are 0 */

    FEED_PLAN_LENGTH = 0, /* feed_plan */
    FEED_PLAN_ITEMS = 1,

    FEED_RUN_VALUES = 0, /* feed_run */
    FEED_RUN_START = 1,
    FEED_RUN_ITEM = 2,
    FEED_RUN_OFFSET = 3,

    FEED_PUT_ITEM_NEXT = 0, /* feed_put_item */
    FEED_PUT_ITEM_OFFSET = 1,

    FEED_HAS_NAMES = 0, /* feed_names */
    FEED_NAMES_START = 1,
    FEED_NAMES_LENGTH = 2,

    FEED_NAME_START = 0, /* feed_name */
    FEED_NAME_LENGTH = 1,

    FEED_PARTS_TYPES_START = 0, /* feed_parts */
    FEED_PARTS_TYPES_LENGTH = 1,
    FEED_PARTS_METADATA_START = 2,
    FEED_PARTS_METADATA_LENGTH = 3,
    FEED_PARTS_NULLABLE_START = 4,
    FEED_PARTS_NULLABLE_LENGTH = 5,
    FEED_PARTS_OPTIONAL_START = 6,
    FEED_PARTS_OPTIONAL_LENGTH = 7,

    FEED_FIELDS_OFFSET = 0, /* feed_fields */
    FEED_FIELDS_NUMERIC = 1,
    FEED_FIELDS_COLUMNS = 2,

    FEED_FIELD_FOUND = 0, /* feed_field */
    FEED_FIELD_TYPE = 1,
    FEED_FIELD_START = 2,
    FEED_FIELD_LENGTH = 3,
    FEED_FIELD_NEXT = 4,

    FEED_ITEM_FOUND = 0, /* feed_item */
    FEED_ITEM_FIRST = 1,
    FEED_ITEM_SECOND = 2,
    FEED_ITEM_NEXT = 3,

    FEED_ROWS_FLAGS = 0, /* feed_rows */
    FEED_ROWS_HAS_EXTRA = 1,
    FEED_ROWS_EXTRA_START = 2,
    FEED_ROWS_EXTRA_LENGTH = 3,
    FEED_ROWS_FIRST_START = 4,
    FEED_ROWS_FIRST_LENGTH = 5,
    FEED_ROWS_HAS_SECOND = 6,
    FEED_ROWS_SECOND_START = 7,
    FEED_ROWS_SECOND_LENGTH = 8,
    FEED_ROWS_IMAGES = 9,

    FEED_IMAGE_FOUND = 0, /* feed_image */
    FEED_IMAGE_START = 1,
    FEED_IMAGE_LENGTH = 2,
    FEED_IMAGE_SECOND = 3,
    FEED_IMAGE_NEXT_OFFSET = 4,
    FEED_IMAGE_NEXT_SECOND = 5
};

/* The codes of rows events, as an event's header has them: write, update and delete,
   and the same in the first edition, which MariaDB logs. */
enum {
    FEED_WRITE_ROWS = 30,
    FEED_UPDATE_ROWS = 31,
    FEED_DELETE_ROWS = 32,
    FEED_WRITE_ROWS_V1 = 23,
    FEED_UPDATE_ROWS_V1 = 24,
    FEED_DELETE_ROWS_V1 = 25
};

/*
 * Whose map it is. The event is lent as to feed_check.
 * Answer, 6 numbers: table id, flags, and in the event start and length of the name of the database and of the name of the table.
 */
uint64_t feed_map(const uint8_t *event, size_t event_length, uint8_t post_header, uint64_t *out, size_t out_length);

/*
 * Checks the body of a table map event (what follows the 19-byte event header, without a checksum) and writes the record that the
 * other calls read. post_header is the event's post-header length from the format description event: 8, or 6 in very old logs.
 * Lend FEED_RECORD_MOST bytes to be sure of the room. Keys are compared each with each: the most that a map can have, 4,096, cost 8.4
 * million comparisons.
 * Answer, 2 numbers: the length of the record, which stands at the start of profile, and how many columns there are.
 */
uint64_t feed_check(const uint8_t *event, size_t event_length, uint8_t post_header, uint8_t dialect,
                    uint8_t *profile, size_t profile_length, uint64_t *out, size_t out_length);

/* One column of a record. Answer, 5 numbers: real type, flags, m0, m1, charset (0 if none was given). */
uint64_t feed_column(const uint8_t *profile, size_t profile_length, size_t column, uint64_t *out, size_t out_length);

/*
 * The cursor that a walk over a row image begins with. presence has a bit for each column, lowest first, in FEED_BYTES_FOR(columns)
 * bytes: set where the column is in the image. It comes with the rows event.
 * Answer, 2 numbers: column, offset.
 */
uint64_t feed_first(const uint8_t *profile, size_t profile_length, const uint8_t *presence, size_t presence_length,
                    uint64_t *out, size_t out_length);

/*
 * Reads the first present column at or behind the cursor (column, offset). image may be longer than the row: bytes behind it are not read.
 * Answer, 11 numbers: kind, column, next column, next offset, and seven parts of the value. At the end the kind is FEED_END,
 * column and next column are 0, and next offset is the number of bytes that the row took.
 * Each step tests the whole record anew, so a walk over p present columns of n costs p times n: a row of 900 columns took 6 milliseconds,
 * and one of 4,096 took 120. Read rows of many columns by feed_plan and feed_run, where a row costs its columns. Where an image ends,
 * feed_image tells in a tenth of a millisecond.
 */
uint64_t feed_step(const uint8_t *profile, size_t profile_length, const uint8_t *presence, size_t presence_length,
                   const uint8_t *image, size_t image_length, size_t column, size_t offset, uint64_t *out, size_t out_length);

/*
 * Makes the plan of a record and presence bits, which feed_run reads rows by, and feed_put_item writes them by. Make it once for all rows
 * under the same bits. It has FEED_PLAN_BYTES(present columns) bytes; FEED_PLAN_BYTES(columns) are always enough.
 * Answer, 2 numbers: the length of the plan, which stands at the start of plan, and its items: one for each present column, in order.
 */
uint64_t feed_plan(const uint8_t *profile, size_t profile_length, const uint8_t *presence, size_t presence_length,
                   uint8_t *plan, size_t plan_length, uint64_t *out, size_t out_length);

/*
 * Reads many values at once, from the cursor (start, item, offset) on: where its image starts in images, which item of the plan comes
 * next, and where its value starts in its image. The cursor of a row that starts at s is (s, 0, FEED_BYTES_FOR(items)).
 * images has row images laid end to end, all under the plan's presence bits, and the run goes on from one to the next. Each value takes
 * FEED_VALUE_NUMBERS numbers of values: its kind and seven parts, 0 for those that the kind has not, as feed_step answers them. NULL is a
 * value too, so the k-th value of a row is its k-th present column. The bytes of a FEED_BYTES value start in images, not in the row.
 * The run stops where values has no room for one more, at the end of images, or before a value that is refused. If that is the first
 * value, the call is refused, with the place and part that feed_step tells. So call again at the cursor told: no value stored is the end
 * of images, which are all accepted only then; a refusal is that of the value which stands there.
 * values shorter than FEED_VALUE_NUMBERS: FEED_NO_ROOM.
 * Answer, 4 numbers: how many values were stored, and the cursor to go on from. If the values of a row came to their end with the room,
 * the next item is the number of items, and start + offset is where the row ends; the next call goes on behind it.
 * plan is lent with the length that feed_plan told. Any bytes are a plan: that of one record, used for images under another record or
 * under other presence bits, is read as it stands, and nothing tells. An item whose first byte is 0 is refused: FEED_BAD_RECORD, at
 * the column that it names. A cursor may be made up too. It is refused at its item, where feed_step names a column: FEED_NO_COLUMN for an
 * item above the items, FEED_IMAGE_SHORT for an offset past the image.
 */
uint64_t feed_run(const uint8_t *plan, size_t plan_length, const uint8_t *images, size_t images_length,
                  size_t start, size_t item, size_t offset, uint64_t *values, size_t values_length, uint64_t *out, size_t out_length);

/*
 * Stores one value of a row image by a plan, nothing for NULL. The image is begun by feed_start. Then comes this call for each present
 * column, in order, NULL too. It stores what feed_put stores, and looks at no record: a row costs its start and its columns, by feed_put
 * their square.
 * nulls are the null bits that feed_start was given, FEED_BYTES_FOR(items) bytes. item tells which of the present columns it is, counted
 * from 0. offset is where its value goes in the image: of the first what feed_start told, then what the call before told. kind, parts and
 * lent are as for feed_put.
 * Answer, 2 numbers: the next item, and its offset. Behind the last item that is the image's length.
 * plan is lent with the length that feed_plan told. Any bytes are a plan, as for feed_run: that of other presence bits or of another record
 * is obeyed as it stands. An item that the plan has not is FEED_NO_COLUMN, at the item. At the column that the item names are told
 * FEED_NOT_TAKEN, for a value that it does not take or that disagrees with its null bit, and FEED_BAD_RECORD, for a value of an item whose
 * first byte is 0, which no plan that was made has; such an item takes NULL.
 * A call that is refused changes nothing: the image then holds the null bits and the values before this one, and another value may be put
 * at the same item and offset.
 */
uint64_t feed_put_item(const uint8_t *plan, size_t plan_length, const uint8_t *nulls, size_t nulls_length,
                       size_t item, size_t offset, uint64_t kind, const uint64_t *parts, size_t parts_length,
                       const uint8_t *lent, size_t lent_length, uint8_t *image, size_t image_length,
                       uint64_t *out, size_t out_length);

/*
 * Begins a row image: stores the null bits, one for each present column, lowest first, in FEED_BYTES_FOR(present columns) bytes.
 * The spare bits of the last byte are set in the image.
 * Answer, 2 numbers: the cursor for the first value, column and offset.
 */
uint64_t feed_start(const uint8_t *profile, size_t profile_length, const uint8_t *presence, size_t presence_length,
                    const uint8_t *nulls, size_t nulls_length, uint8_t *image, size_t image_length, uint64_t *out, size_t out_length);

/*
 * Stores one value at the cursor, nothing for NULL. The null bits are lent again, and value and bit must agree. parts are those of the
 * kind, more are ignored; lent has the bytes of a FEED_BYTES value, and may be empty for other kinds.
 * Put a value for each present column, NULL too. There is no call for the end: after the last value the next offset is the image's length.
 * Answer, 2 numbers: the next cursor, column and offset.
 * Each call tests the whole record anew, as feed_step does. Write rows of many columns by feed_plan and feed_put_item.
 */
uint64_t feed_put(const uint8_t *profile, size_t profile_length, const uint8_t *presence, size_t presence_length,
                  const uint8_t *nulls, size_t nulls_length, size_t column, size_t offset, uint64_t kind,
                  const uint64_t *parts, size_t parts_length, const uint8_t *lent, size_t lent_length,
                  uint8_t *image, size_t image_length, uint64_t *out, size_t out_length);

/*
 * The most bytes that a row image under these presence bits can take: null bits, and the largest value of each present column, its length
 * bytes included. An image of feed_start and feed_put, or feed_put_item, that is lent so many is never refused with FEED_NO_ROOM, whatever
 * its values.
 * A string counts as long as its length bytes can tell, and not as long as the column declares: a VARCHAR(20) takes up to 256 bytes, a
 * LONGBLOB up to 4,294,967,299.
 * Answer, 2 numbers: the bytes, and 0.
 */
uint64_t feed_room(const uint8_t *profile, size_t profile_length, const uint8_t *presence, size_t presence_length,
                   uint64_t *out, size_t out_length);

/*
 * Begins a row image that arrives in blocks. carry is a buffer of FEED_CARRY_LEAST bytes or more, for the null bits and then for the value
 * in progress; here it is only measured. A value that takes more than what the null bits leave of it, its length bytes included, is long,
 * and is answered in parts that never go through it.
 * Answer, 5 numbers: the first state, phase, column, held, left and used, to give feed_give and feed_end. Record, presence bits, state and
 * carry go from call to call as each left them. States may be made up: one that docs/DECISIONS.md, Q10.6, lists as unfit is refused with
 * FEED_UNFIT_STATE, and any other is obeyed as it stands.
 */
uint64_t feed_begin(const uint8_t *profile, size_t profile_length, const uint8_t *presence, size_t presence_length,
                    const uint8_t *carry, size_t carry_length, uint64_t *out, size_t out_length);

/*
 * Takes bytes from the front of a block, as many as one answer needs. Give what is left of the block again, until the answer is FEED_MORE,
 * which took all of it, or FEED_END, behind which the rest is not the image's. A block may be empty. What is answered does not depend on
 * how the image was cut, but for the lengths of FEED_LONG_PART. FEED_IMAGE_SHORT is never answered: that is for feed_end to tell.
 * Answer, 15 numbers: the next state, kind, column, bytes taken, and seven parts. A FEED_BYTES value stands in carry until the next call.
 * After a refusal the next state is the closed one: give FEED_CLOSED as phase, not the numbers of out, which then has place and part.
 * Each call costs as much as the record has columns: give blocks of some hundred bytes, and not single bytes.
 */
uint64_t feed_give(const uint8_t *profile, size_t profile_length, const uint8_t *presence, size_t presence_length,
                   uint8_t *carry, size_t carry_length, const uint8_t *block, size_t block_length,
                   uint64_t phase, size_t column, size_t held, size_t left, size_t used, uint64_t *out, size_t out_length);

/*
 * Tells that no more bytes come. FEED_IMAGE_SHORT if the image is not at its end: at 0 in the null bits, else at the first column that is
 * not NULL and was not answered.
 * Answer, 15 numbers, as of feed_give: the closed state, FEED_END, 0, 0, and the bytes used.
 */
uint64_t feed_end(const uint8_t *profile, size_t profile_length, const uint8_t *presence, size_t presence_length,
                  const uint8_t *carry, size_t carry_length,
                  uint64_t phase, size_t column, size_t held, size_t left, size_t used, uint64_t *out, size_t out_length);

/*
 * Where the column names of an event stand. Answer, 3 numbers: 1, and start and length, in the event, of the value of its first names
 * field, which may have no bytes; or three zeros if its optional fields come to their end without one. It is refused if the event is, or an
 * optional field before the names, as in a map that is asked in another dialect than its server's: its names are not known then, and a list
 * of your own does not stand in for them. What stands behind the names is not looked at.
 */
uint64_t feed_names(const uint8_t *event, size_t event_length, uint8_t post_header, uint8_t dialect, uint64_t *out, size_t out_length);

/*
 * The name of one column, looked up in names (what feed_names found), or in fallback where names is empty: a list of your own in the same
 * layout, each name a length byte (for up to 250 bytes) and its bytes.
 * Answer, 2 numbers: start and length in the list that was looked at.
 */
uint64_t feed_name(const uint8_t *names, size_t names_length, const uint8_t *fallback, size_t fallback_length,
                   size_t column, uint64_t *out, size_t out_length);

/*
 * Where the bytes that an event has for its columns stand. Nothing of them is judged; feed_check does that.
 * Answer, 8 numbers, start and length each: type bytes, one for each column; metadata; nullable bits, one for each column, lowest first,
 * set where it can be NULL; optional fields.
 */
uint64_t feed_parts(const uint8_t *event, size_t event_length, uint8_t post_header, uint64_t *out, size_t out_length);

/*
 * The cursor that a walk over the optional fields of an event begins with.
 * Answer, 3 numbers: the offset of the first field, and two numbers that every step is given: how many columns have a signedness bit in
 * the dialect, and how many columns there are.
 */
uint64_t feed_fields(const uint8_t *event, size_t event_length, uint8_t post_header, uint8_t dialect, uint64_t *out, size_t out_length);

/*
 * The optional field at an offset of the event. numeric and columns are what feed_fields told; only the length of fields 1 and 12 is held
 * against them.
 * Answer, 5 numbers: 1, the field's type (a FEED_OPTIONAL_ above), start and length of its value in the event, and the offset of the next
 * field; or five zeros at the end. Of a map that feed_check accepts no step is refused, and no type stands twice.
 */
uint64_t feed_field(const uint8_t *event, size_t event_length, size_t offset, size_t numeric, size_t columns,
                    uint64_t *out, size_t out_length);

/*
 * The item at an offset of a list (a FEED_LIST_ above) in the value of an optional field. The first is at 0; in fields 2 and 10 the pairs
 * begin behind the integer.
 * Answer, 4 numbers: 1, two numbers of the item, and the offset of the next; or four zeros at the end. Places and offsets are in the
 * value. Of a map that feed_check accepts no step over a list as it is named with its field is refused, and the lists of fields 5, 6, 7
 * and 13 have one item for each SET, ENUM, geometry and VECTOR column, in the order of the columns.
 */
uint64_t feed_item(uint64_t list, const uint8_t *value, size_t value_length, size_t offset, uint64_t *out, size_t out_length);

/*
 * Reads the parts of a rows event under the record of its map. code is the event's type from its header, table the table id that feed_map
 * tells of the map. event is the body WITHOUT the 19-byte header and WITHOUT the checksum: bytes left on are taken for rows (see above).
 * Answer, 10 numbers: flags; 1 and start and length of the extra data, or three zeros; start and length of the presence bits, in updates
 * of the images before the change; in updates 1 and start and length of the presence bits of those after it, else three zeros; and where
 * the images begin.
 */
uint64_t feed_rows(uint64_t code, const uint8_t *profile, size_t profile_length, uint64_t table, const uint8_t *event, size_t event_length,
                   uint64_t *out, size_t out_length);

/*
 * The image at a cursor (offset, second) of a rows event: where it stands, and under which presence bits. The first cursor is where the
 * images begin, and 0. first_start to second_length are what feed_rows told; has_second and second are 0 or any other number.
 * Answer, 6 numbers: 1, start and length of the image in the event, 1 if it stands under the second presence bits else 0, and the next
 * cursor; or six zeros at the end. An update has whole pairs: an image under the first bits, then one under the second. An event is
 * accepted only if the walk comes to its end: until then a refusal may follow.
 * Read the values of an image with feed_plan and feed_run, or feed_first and feed_step, under the presence bits that it stands under.
 */
uint64_t feed_image(const uint8_t *profile, size_t profile_length, const uint8_t *event, size_t event_length,
                    size_t first_start, size_t first_length, uint64_t has_second, size_t second_start, size_t second_length,
                    size_t offset, uint64_t second, uint64_t *out, size_t out_length);

#ifdef __cplusplus
}
#endif

#endif
