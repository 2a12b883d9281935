/*
 * Helvidrane: a proved reader of Casacore tables, from C and C++. docs/RULES.md has the rules that it keeps.
 *
 * Link libhelvidrane, static or shared: `pkg-config --cflags --libs helvidrane` tells how, once `make install` has run.
 *
 * Bytes. The caller lends the whole of table.dat and of the file of one data manager, table.f<i>, in memory or mapped, and
 * nothing may change or shorten them before the function returns. A run of bytes or numbers is a pointer and the number of
 * its elements; a run of 0 elements may have any pointer, a null one too, and no other is null. `room` and `out` are written
 * and share no byte with each other or with anything else that is lent.
 *
 * Byte order. table.dat is big endian. In the manager's file the numbers of the header, of the index and of IncrementalStMan's
 * buckets are in the table's endianness, which hv_description tells (HV_DESCRIPTION_BIG_ENDIAN), and so are the cells; the links
 * from bucket to bucket are big endian in every file.
 *
 * Answers. A function that returns enum hv_number gives 0 and writes the numbers of its answer into `out`, or it gives the
 * number of a refusal and writes as many zeros, but for the byte. If `out` is shorter than the answer, it gets the first numbers
 * of it, as many as it holds; if it is longer, what stands behind the answer is left alone. The lengths are the constants
 * HV_.._LEN.
 *
 * The byte. Every answer has a number HV_.._BYTE: in a refusal of 1 to 7 the byte at which the failing field begins; in all
 * others, and where nothing is refused, 0. Byte 0 is a field's too, so the number that the function gives, and not this one,
 * tells whether anything is refused. The byte is counted in the file that the field is in, from its start: in table.dat if
 * hv_description refuses the table or the function is lent no other file, else in the manager's file. The index text of a
 * StandardStMan file may lie in several buckets, so its bytes are counted from the text's start. To know whether a byte is one
 * of the text, ask hv_check with a room of 0 bytes: it is if that gives HV_REFUSED_ROOM in place of the refusal. A String is
 * one field, which begins with its length. An object that is longer than its container, longer than its fields use or too
 * short for its header is blamed at its header, behind the mark if it has one; a file that is too short for its buckets at its
 * end; index text that is left over at the first byte left over; a table.dat of more than 65,536 bytes at 65,536.
 *
 * Later versions. A later version of this library may write a longer answer, may know more refusals and may have more
 * functions; all numbers that are here keep their place and their meaning. So a program that was compiled with this header
 * goes on with a later library unchanged: it lends an `out` of today's length and gets today's numbers. It should take
 * every number that it does not know for a refusal. A change that is more than this has another soname.
 *
 * Numbers that the caller passes may be any 64-bit numbers. A row count is 0 to 2^62, so rows do not fit into 32 bits.
 *
 * Room. hv_check, hv_plan, hv_place, hv_view and hv_padded_view are lent a room for the index text of a StandardStMan file. It
 * needs the file's index length, else HV_REFUSED_ROOM; HV_ROOM_MOST bytes are always enough. An IncrementalStMan file needs none (0
 * bytes will do). Afterwards the whole room is zero where the function refused and for every IncrementalStMan file; else it
 * holds the index text, then zeros. hv_place_in_bucket, which is about IncrementalStMan files alone, is lent a room as the others
 * are: of any length, 0 too, and all zero afterwards.
 *
 * Keywords. The table has a keyword set, and each of its columns has one: a record of fields, in table.dat, each with a name,
 * a type and a value. A field may hold a record itself. A path names a keyword: it is a run of AipsIO Strings, for each name a
 * length of 4 bytes, big endian, and its bytes; all but the last name records, each held by the one before. Of equal names in
 * a record the first counts. The functions check the whole set that is asked, and no other; those that do not ask for keywords
 * look inside none. A value is told as a part of table.dat, all its bytes as stored, which are big endian: table[start] to
 * table[start + length - 1]. Of a scalar they are its bytes, of a Bool one byte; of a String or a Table its length, 4 bytes,
 * and its text; of an array the whole object, with its header; of a record the values of its fields, one behind the other, or,
 * where the set's description has no fields for it, a whole TableRecord object.
 *
 * The functions keep nothing between calls, allocate nothing and may run in several threads at once.
 */
#ifndef HELVIDRANE_H
#define HELVIDRANE_H

#include <stddef.h>
#include <stdint.h>

#ifdef __cplusplus
extern "C" {
#endif

/* The version: here, and nowhere else. */
#define HV_VERSION_MAJOR 4
#define HV_VERSION_MINOR 1
#define HV_VERSION_PATCH 0
#define HV_IN_QUOTES(major, minor, patch) #major "." #minor "." #patch
#define HV_QUOTED(major, minor, patch) HV_IN_QUOTES(major, minor, patch)
#define HV_VERSION HV_QUOTED(HV_VERSION_MAJOR, HV_VERSION_MINOR, HV_VERSION_PATCH)

/* The refusals: X(name, number, when it is given). */
#define HV_REFUSALS(X)                                                                                                    \
    X(HV_REFUSED_END, 1,                                                                                                  \
      "bytes, or the enclosing object, end before the field or object does, or the file is shorter than 512 + buckets x " \
      "bucket size")                                                                                                      \
    X(HV_REFUSED_NAME, 2, "the mark or an object or table type name is not the expected one")                             \
    X(HV_REFUSED_VERSION, 3, "a version is not one that is read")                                                         \
    X(HV_REFUSED_RANGE, 4, "a number or string length is out of range, or table.dat has more than 65,536 bytes")          \
    X(HV_REFUSED_VALUE, 5,                                                                                                \
      "a column type string, data type number, options, dimensionality, shape, Bool byte or endianness value does not "   \
      "fit")                                                                                                              \
    X(HV_REFUSED_FACTS, 6,                                                                                                \
      "two stated facts disagree: row counts, a column name or a sequence number twice, a sequence number above the "     \
      "highest or unknown, endianness, or a Block's length and the entry count or the number of bound columns")           \
    X(HV_REFUSED_LENGTH, 7, "an object, DMInfo or index text has a length other than its fields use")                     \
    X(HV_REFUSED_MISSING, 8, "no such column or manager, or the manager is not of the asked kind")                        \
    X(HV_REFUSED_ROW, 9, "row not below the row count")                                                                   \
    X(HV_REFUSED_CHAIN, 10, "a bucket chain is wrong")                                                                    \
    X(HV_REFUSED_MAP, 11, "the map of rows, buckets and extents is wrong")                                                \
    X(HV_REFUSED_PLAN, 12, "stale plan")                                                                                  \
    X(HV_REFUSED_ROOM, 13, "lent index room shorter than the index length")                                               \
    X(HV_REFUSED_BOOL, 14, "view of a Bool column, scalar or any array, in StandardStMan")                                \
    X(HV_REFUSED_DEPTH, 15, "records are held more than eight deep")                                                      \
    X(HV_REFUSED_KEYWORD, 16,                                                                                             \
      "no such keyword or field, a step through what is no record, or a path that is empty or torn")

#define HV_CONSTANT(name, number, text) name = number,

/* What a function gives. HV_SHORT is no refusal of the files: a plan has too few numbers, and nothing was written. */
enum hv_number { HV_ACCEPTED = 0, HV_REFUSALS(HV_CONSTANT) HV_SHORT = 255 };

/* The data types: X(name, number, spelling in listings). */
#define HV_DATA_TYPES(X)                \
    X(HV_TYPE_BOOL, 0, "Bool")          \
    X(HV_TYPE_UCHAR, 2, "uChar")        \
    X(HV_TYPE_SHORT, 3, "Short")        \
    X(HV_TYPE_USHORT, 4, "uShort")      \
    X(HV_TYPE_INT, 5, "Int")            \
    X(HV_TYPE_UINT, 6, "uInt")          \
    X(HV_TYPE_FLOAT, 7, "float")        \
    X(HV_TYPE_DOUBLE, 8, "double")      \
    X(HV_TYPE_COMPLEX, 9, "Complex")    \
    X(HV_TYPE_DCOMPLEX, 10, "DComplex") \
    X(HV_TYPE_STRING, 11, "String")     \
    X(HV_TYPE_INT64, 29, "Int64")

enum hv_data_type { HV_DATA_TYPES(HV_CONSTANT) };

/* The types of arrays, which keywords may have: X(name, number, data type of an element). */
#define HV_ARRAY_TYPES(X)                          \
    X(HV_ARRAY_BOOL, 13, HV_TYPE_BOOL)             \
    X(HV_ARRAY_UCHAR, 15, HV_TYPE_UCHAR)           \
    X(HV_ARRAY_SHORT, 16, HV_TYPE_SHORT)           \
    X(HV_ARRAY_USHORT, 17, HV_TYPE_USHORT)         \
    X(HV_ARRAY_INT, 18, HV_TYPE_INT)               \
    X(HV_ARRAY_UINT, 19, HV_TYPE_UINT)             \
    X(HV_ARRAY_FLOAT, 20, HV_TYPE_FLOAT)           \
    X(HV_ARRAY_DOUBLE, 21, HV_TYPE_DOUBLE)         \
    X(HV_ARRAY_COMPLEX, 22, HV_TYPE_COMPLEX)       \
    X(HV_ARRAY_DCOMPLEX, 23, HV_TYPE_DCOMPLEX)     \
    X(HV_ARRAY_STRING, 24, HV_TYPE_STRING)         \
    X(HV_ARRAY_INT64, 30, HV_TYPE_INT64)

/* What a keyword may be beside a scalar of a data type. */
enum hv_keyword_type { HV_TYPE_TABLE = 12, HV_ARRAY_TYPES(HV_CONSTANT) HV_TYPE_RECORD = 25 };

#undef HV_CONSTANT

/* The kind of a data manager. */
enum hv_kind { HV_OTHER_KIND = 0, HV_STANDARD = 1, HV_INCREMENTAL = 2 };

/* A room of this many bytes is enough for every file. */
#define HV_ROOM_MOST 65536

/* The numbers of hv_description. */
enum hv_description_number {
    HV_DESCRIPTION_ROWS,
    HV_DESCRIPTION_BIG_ENDIAN, /* 1: big endian, 0: little endian */
    HV_DESCRIPTION_COLUMNS,
    HV_DESCRIPTION_MANAGERS,
    HV_DESCRIPTION_BYTE,
    HV_DESCRIPTION_LEN
};

/* The numbers of hv_column. */
enum hv_column_number {
    HV_COLUMN_NAME, /* where its name begins in table.dat */
    HV_COLUMN_NAME_LEN,
    HV_COLUMN_DATA_TYPE,
    HV_COLUMN_ARRAY, /* 1: array, 0: scalar */
    HV_COLUMN_OPTIONS,
    HV_COLUMN_ELEMENTS, /* 0 where the shape is not fixed */
    HV_COLUMN_STRING_MOST,
    HV_COLUMN_BITS, /* of a cell, not rounded to bytes */
    HV_COLUMN_SEQUENCE, /* the sequence number of its manager */
    HV_COLUMN_SET, /* this and the offset: as DMInfo tells, 0 where it tells none */
    HV_COLUMN_OFFSET,
    HV_COLUMN_BYTE,
    HV_COLUMN_LEN
};

/* The numbers of hv_manager. */
enum hv_manager_number {
    HV_MANAGER_SEQUENCE, /* its file is table.f<sequence number> */
    HV_MANAGER_KIND, /* enum hv_kind */
    HV_MANAGER_NAME, /* where its name begins in table.dat */
    HV_MANAGER_NAME_LEN,
    HV_MANAGER_BYTE,
    HV_MANAGER_LEN
};

/* The numbers of hv_column_by_name. */
enum hv_position_number { HV_POSITION, HV_POSITION_BYTE, HV_POSITION_LEN };

/* The numbers of hv_check. */
enum hv_check_number {
    HV_CHECK_BUCKET_SIZE, /* in bytes */
    HV_CHECK_BYTE,
    HV_CHECK_LEN
};

/*
 * The numbers of hv_plan. The first HV_PLAN_NUMBERS are the plan. Set, offset and rows per bucket are 0 for IncrementalStMan, whose
 * cells are whole bytes.
 */
enum hv_plan_number {
    HV_PLAN_POSITION,
    HV_PLAN_SEQUENCE,
    HV_PLAN_DATA_TYPE,
    HV_PLAN_ELEMENTS,
    HV_PLAN_BITS,
    HV_PLAN_SET,
    HV_PLAN_OFFSET,
    HV_PLAN_ROWS_PER_BUCKET,
    HV_PLAN_BUCKET_SIZE,
    HV_PLAN_BYTE,
    HV_PLAN_LEN,
    HV_PLAN_NUMBERS = HV_PLAN_BYTE
};

/*
 * The numbers of a place. First bit and bit count are counted in bits from the file's start; bits count from a byte's lowest.
 * Looks is how many last-row entries of the index the search for the row looked at, those that the check read not counted, and
 * entries how many the column's set has. The search halves: looks is 0 for one entry, and at most the bit length of entries - 1,
 * which is at most 12, since no accepted file has more than 4,095 entries in a set. Both are 0 for IncrementalStMan.
 */
enum hv_place_number {
    HV_PLACE_FIRST_BIT,
    HV_PLACE_BIT_COUNT,
    HV_PLACE_LOOKS,
    HV_PLACE_ENTRIES,
    HV_PLACE_BYTE,
    HV_PLACE_LEN
};

/*
 * The numbers of hv_place_in_bucket. First bit and bit count are as in a place; the bucket is
 * (first bit / 8 - 512) / bucket size.
 */
enum hv_in_bucket_number {
    HV_IN_BUCKET_FIRST_BIT,
    HV_IN_BUCKET_BIT_COUNT,
    HV_IN_BUCKET_BUCKET_SIZE, /* of the file, in bytes */
    HV_IN_BUCKET_BYTE,
    HV_IN_BUCKET_LEN
};

/*
 * The numbers of a view, padded or not. Start and length are counted in bytes, from the file's start. The length is 0 in a
 * refusal, and of an empty text, whose start is the cell's; the number that the function gives tells the two apart.
 */
enum hv_view_number { HV_VIEW_START, HV_VIEW_LENGTH, HV_VIEW_BYTE, HV_VIEW_LEN };

/* The numbers of hv_table_keyword and hv_column_keyword. Start and length are counted in bytes, from the start of table.dat. */
enum hv_keyword_number {
    HV_KEYWORD_TYPE, /* enum hv_data_type or enum hv_keyword_type, as stored */
    HV_KEYWORD_START, /* where the value begins in table.dat */
    HV_KEYWORD_LENGTH,
    HV_KEYWORD_BYTE,
    HV_KEYWORD_LEN
};

/* The numbers of hv_table_field and hv_column_field: where the field's name begins in table.dat, its length; then as above. */
enum hv_field_number {
    HV_FIELD_NAME,
    HV_FIELD_NAME_LEN,
    HV_FIELD_TYPE,
    HV_FIELD_START,
    HV_FIELD_LENGTH,
    HV_FIELD_BYTE,
    HV_FIELD_LEN
};

/*
 * Description: what table.dat says of the table.
 * out: HV_DESCRIPTION_LEN numbers. Refusals: 1 to 7.
 */
enum hv_number hv_description(const uint8_t *table, size_t table_len, uint64_t *out, size_t out_len);

/*
 * Description: the column at a position, from 0 in stored order.
 * out: HV_COLUMN_LEN numbers. Refusals: 1 to 7; 8, no such column.
 */
enum hv_number hv_column(const uint8_t *table, size_t table_len, uint64_t position, uint64_t *out, size_t out_len);

/*
 * Description: the data manager at an index, from 0 in stored order (its sequence number is in the answer).
 * out: HV_MANAGER_LEN numbers. Refusals: 1 to 7; 8, no such manager.
 */
enum hv_number hv_manager(const uint8_t *table, size_t table_len, uint64_t index, uint64_t *out, size_t out_len);

/*
 * Column by name: the position of the column with exactly these bytes as its name.
 * out: HV_POSITION_LEN numbers. Refusals: 1 to 7; 8, no such column.
 */
enum hv_number hv_column_by_name(const uint8_t *table, size_t table_len, const uint8_t *name, size_t name_len, uint64_t *out,
                                 size_t out_len);

/*
 * File check: whether `file` is a right file of the manager with this sequence number.
 * out: HV_CHECK_LEN numbers. Refusals: 1 to 7, of table.dat or of the file; 8, no such manager, or one of another kind; 10; 11;
 * 13.
 */
enum hv_number hv_check(const uint8_t *table, size_t table_len, const uint8_t *file, size_t file_len, uint64_t sequence,
                        uint8_t *room, size_t room_len, uint64_t *out, size_t out_len);

/*
 * Plan: where the cells of the column at a position are kept, after a check of the file, which is its manager's.
 * out: HV_PLAN_LEN numbers. Refusals: 1 to 7; 8, no such column, its manager of another kind, or a String column in
 * IncrementalStMan; 10; 11; 13.
 */
enum hv_number hv_plan(const uint8_t *table, size_t table_len, const uint8_t *file, size_t file_len, uint64_t position,
                       uint8_t *room, size_t room_len, uint64_t *out, size_t out_len);

/*
 * Place: the bits of the file that hold the cell of a row and a column position, after a check of the file; and how many
 * last-row entries the search for the row looked at.
 * out: HV_PLACE_LEN numbers. Refusals: those of hv_plan; 9.
 */
enum hv_number hv_place(const uint8_t *table, size_t table_len, const uint8_t *file, size_t file_len, uint64_t row,
                        uint64_t position, uint8_t *room, size_t room_len, uint64_t *out, size_t out_len);

/*
 * Place, of the column that a plan was made for. A plan whose first HV_PLAN_NUMBERS numbers are not all those of a fresh plan for its
 * position is stale. HV_SHORT where it has fewer, and then nothing is written, the room included; numbers behind them are not
 * looked at.
 * out: HV_PLACE_LEN numbers. Refusals: those of hv_plan; 12; 9.
 */
enum hv_number hv_place_planned(const uint8_t *table, size_t table_len, const uint8_t *file, size_t file_len, uint64_t row,
                                const uint64_t *plan, size_t plan_len, uint8_t *room, size_t room_len, uint64_t *out,
                                size_t out_len);

/*
 * Place in one bucket, of a column that IncrementalStMan keeps, by row and column position. It checks table.dat, and of the file the
 * header, the length, the index, the free chain, the bucket numbers and the first rows; then the row; and of the buckets only the
 * row's own, whole, for all columns. So its time grows with the index, and not with what the other buckets hold. First bit and
 * bit count are those of hv_place on every file that hv_check accepts; of other files it does not see what is wrong in another
 * bucket.
 * out: HV_IN_BUCKET_LEN numbers. Refusals: 1 to 7; 8, no such column, its manager no IncrementalStMan, or a String column; 10; 11;
 * 9, which comes behind the first rows and before the bucket.
 */
enum hv_number hv_place_in_bucket(const uint8_t *table, size_t table_len, const uint8_t *file, size_t file_len, uint64_t row,
                                  uint64_t position, uint8_t *room, size_t room_len, uint64_t *out, size_t out_len);

/*
 * View: the bytes of the file that hold the cell of a row and a column position, after a check of the file. Of a String scalar
 * with a maximum (HV_COLUMN_STRING_MOST above 0) they are its text: they stop before the cell's first zero byte, or run to the
 * maximum if there is none. What stands behind that byte does not count, whatever it is. A text that begins with a zero byte is
 * accepted, with length 0. A String without a maximum and a String array have no padding: their views are the whole cells.
 * out: HV_VIEW_LEN numbers; the bytes are file[start] to file[start + length - 1]. Refusals: those of hv_plan; 9; 14, since the
 * cells of a Bool column in StandardStMan need not be whole bytes: hv_place gives their bits.
 */
enum hv_number hv_view(const uint8_t *table, size_t table_len, const uint8_t *file, size_t file_len, uint64_t row,
                       uint64_t position, uint8_t *room, size_t room_len, uint64_t *out, size_t out_len);

/*
 * View, of the column that a plan was made for; of the plan as hv_place_planned has it.
 * out: HV_VIEW_LEN numbers. Refusals: those of hv_plan; 12; 9; 14.
 */
enum hv_number hv_view_planned(const uint8_t *table, size_t table_len, const uint8_t *file, size_t file_len, uint64_t row,
                               const uint64_t *plan, size_t plan_len, uint8_t *room, size_t room_len, uint64_t *out,
                               size_t out_len);

/*
 * Padded view: the bytes of the whole cell, of a String scalar with a maximum as many as that. Of every other column the answer is
 * hv_view's, and of every column refusal, byte and room are.
 * out: HV_VIEW_LEN numbers. Refusals: those of hv_view.
 */
enum hv_number hv_padded_view(const uint8_t *table, size_t table_len, const uint8_t *file, size_t file_len, uint64_t row,
                              uint64_t position, uint8_t *room, size_t room_len, uint64_t *out, size_t out_len);

/*
 * Padded view, of the column that a plan was made for; of the plan as hv_place_planned has it.
 * out: HV_VIEW_LEN numbers. Refusals: those of hv_view_planned.
 */
enum hv_number hv_padded_view_planned(const uint8_t *table, size_t table_len, const uint8_t *file, size_t file_len, uint64_t row,
                                      const uint64_t *plan, size_t plan_len, uint8_t *room, size_t room_len, uint64_t *out,
                                      size_t out_len);

/*
 * Keyword: the type of a keyword of the table, and the part of table.dat that holds its value.
 * out: HV_KEYWORD_LEN numbers. Refusals: 1 to 7, of the table or of the keyword set; 15, of the set; 16, no such keyword, a
 * path that goes through what is no record, or one that is empty or torn.
 */
enum hv_number hv_table_keyword(const uint8_t *table, size_t table_len, const uint8_t *path, size_t path_len, uint64_t *out,
                                size_t out_len);

/*
 * Keyword of the column at a position, from 0 in stored order, of any manager.
 * out: HV_KEYWORD_LEN numbers. Refusals: 1 to 7 of the table; 8, no such column; then those of hv_table_keyword.
 */
enum hv_number hv_column_keyword(const uint8_t *table, size_t table_len, uint64_t position, const uint8_t *path, size_t path_len,
                                 uint64_t *out, size_t out_len);

/*
 * Field: the name, the type and the part of a field, by its number, from 0 in stored order, in the record that a path names.
 * The empty path names the whole keyword set. So all keywords are found: field after field, until 16.
 * out: HV_FIELD_LEN numbers. Refusals: 1 to 7 and 15 as of hv_table_keyword; 16, no such record, no field of that number, or a
 * path that is torn.
 */
enum hv_number hv_table_field(const uint8_t *table, size_t table_len, const uint8_t *path, size_t path_len, uint64_t number,
                              uint64_t *out, size_t out_len);

/*
 * Field, of the column at a position.
 * out: HV_FIELD_LEN numbers. Refusals: 1 to 7 of the table; 8, no such column; then those of hv_table_field.
 */
enum hv_number hv_column_field(const uint8_t *table, size_t table_len, uint64_t position, const uint8_t *path, size_t path_len,
                               uint64_t number, uint64_t *out, size_t out_len);

/*
 * The bits of an element, from the number of a data type (enum hv_data_type): 1 for a Bool, 8 times its bytes for every other
 * type but HV_TYPE_STRING, which has 0, since its size is its column's. 0 also for every number that is none of them: the types
 * of arrays, and negative numbers, which become large ones here. It asks of no file and is never refused.
 */
uint64_t hv_element_bits(uint64_t number);

/*
 * When a refusal is given, in words. "accepted" for 0, and words for HV_SHORT and for every other number too: never null. The
 * text is constant.
 */
const char *hv_refusal_text(uint64_t number);

/* The version of the library that is linked, as HV_VERSION has that of this header. */
const char *hv_version(void);

#ifdef __cplusplus
}
#endif

#endif
