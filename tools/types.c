/* hv types: the bits of an element of each data type, beside the sizes in Note 260. */
#include "command.h"
#include "helvidrane.h"
#include "json.h"
#include "names.h"

#include <inttypes.h>
#include <stddef.h>
#include <stdio.h>

/* The table of Note 260, 3.4.2, from Bool to DComplex, word for word, without its column "Directly". */
static const struct row {
    const char *note_type, *note_size;
    enum hv_data_type number;
    const char *corrected; /* what RULES.md 4.3 has in place of the note's size, or null */
} rows[] = {
    {"Bool", "1 byte", HV_TYPE_BOOL, "a bit"},
    {"uChar", "1 byte", HV_TYPE_UCHAR, NULL},
    {"Short", "1 byte", HV_TYPE_SHORT, "two bytes"},
    {"uShort", "2 byte", HV_TYPE_USHORT, NULL},
    {"Int", "4 byte", HV_TYPE_INT, NULL},
    {"uInt", "4 byte", HV_TYPE_UINT, NULL},
    {"Int64", "8 byte", HV_TYPE_INT64, NULL},
    {"Float", "4 byte", HV_TYPE_FLOAT, NULL},
    {"Double", "8 bytes", HV_TYPE_DOUBLE, NULL},
    {"Complex", "8 bytes", HV_TYPE_COMPLEX, NULL},
    {"DComplex", "16 bytes", HV_TYPE_DCOMPLEX, NULL},
};
enum { ROWS = sizeof rows / sizeof *rows };

static void print_types(void)
{
    const struct row *row;

    printf("%-22s%s\n", "Note 260, 3.4.2", "here");
    printf("%-11s%-11s%-10s%6s%6s\n", "Data Type", "Size", "type", "number", "bits");
    for (row = rows; row < rows + ROWS; row++) {
        printf("%-11s%-11s%-10s%6d%6" PRIu64, row->note_type, row->note_size, data_type_name(row->number), (int)row->number,
               hv_element_bits(row->number));
        if (row->corrected != NULL)
            printf("  corrected: %s", row->corrected);
        printf("\n");
    }
    printf("Every other number has 0 bits. So has a %s, %d, whose size is its column's.\n", data_type_name(HV_TYPE_STRING),
           (int)HV_TYPE_STRING);
}

static void json_types(void)
{
    const struct row *row;

    json_begin("types", STATUS_ACCEPTED, NULL);
    json_list("types");
    for (row = rows; row < rows + ROWS; row++) {
        json_object(NULL);
        json_text("note_type", row->note_type);
        json_text("note_size", row->note_size);
        json_text("type", data_type_name(row->number));
        json_number("data_type", row->number);
        json_number("element_bits", hv_element_bits(row->number));
        json_text("corrected", row->corrected);
        json_object_end();
    }
    json_list_end();
    json_end();
}

static int types(const struct arguments *given)
{
    if (given->json)
        json_types();
    else
        print_types();
    return STATUS_ACCEPTED;
}

const struct command types_command = {
    .name = "types",
    .usage = "[--json]",
    .summary = "the data types and their sizes, beside the note's table",
    .help = "Prints the table of Note 260, 3.4.2, from Bool to DComplex, in its order: a type and its size, as the\n"
            "note has them; then the name of the type in column types, its number, and the bits of an element by\n"
            "docs/RULES.md, 4.3, which corrects two of the note's sizes.\n",
    .least = 0,
    .most = 0,
    .json = true,
    .run = types,
};
