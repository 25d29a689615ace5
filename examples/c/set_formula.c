/*
 * Sets a formula over a font table and prints its sizes and nodes.
 *
 *   set_formula TABLE FORMULA [--typed NAMES STYLE] [--client CLIENT]
 *
 * A formula is a stored record, a style byte and the formula's bytes; or typed
 * text with the words of a name table, to be set in a style from 0 to 7. A
 * client's table has symbols that go before the font table's. An empty record
 * is refused as style, a font table that can't be read as table. The status is
 * 1 for a refusal, 2 if another file can't be read.
 */
#include <inttypes.h>
#include <stdio.h>
#include <stdlib.h>
#include <string.h>

#include "torfianka.h"

struct bytes {
    uint8_t *start;
    size_t length;
};

static void fail(const char *what)
{
    perror(what);
    exit(2);
}

/* At least one byte, so that the pointer is never null. */
static uint8_t *allocated(size_t length)
{
    uint8_t *start = malloc(length + 1);
    if (start == NULL)
        fail("set_formula");
    return start;
}

/* Null if it can't be read. */
static struct bytes read_file(const char *path)
{
    struct bytes read = {NULL, 0};
    FILE *file = fopen(path, "rb");
    if (file == NULL)
        return read;
    long end = fseek(file, 0, SEEK_END) == 0 ? ftell(file) : -1;
    if (end >= 0 && fseek(file, 0, SEEK_SET) == 0) {
        read.start = allocated((size_t)end);
        read.length = fread(read.start, 1, (size_t)end, file);
    }
    fclose(file);
    return read;
}

/* What can't be read is empty. */
static struct bytes read_or_empty(const char *path)
{
    struct bytes read = read_file(path);
    if (read.start == NULL)
        read.start = allocated(0);
    return read;
}

static struct bytes read_or_fail(const char *path)
{
    struct bytes read = read_file(path);
    if (read.start == NULL)
        fail(path);
    return read;
}

static int32_t signed_word(const uint8_t *bytes)
{
    uint32_t word = bytes[0] | (uint32_t)bytes[1] << 8 | (uint32_t)bytes[2] << 16
                    | (uint32_t)bytes[3] << 24;
    int32_t value;
    memcpy(&value, &word, sizeof value);
    return value;
}

static void print_node(const uint8_t *node)
{
    int32_t x = signed_word(node + 2), y = signed_word(node + 6);
    if (memcmp(node, "GL", 2) == 0)
        printf("glyph %" PRId32 " %" PRId32 " %d %d %d\n", x, y, node[10], node[11], node[12]);
    else
        printf("rule %" PRId32 " %" PRId32 " %" PRId32 " %" PRId32 "\n", x, y,
               signed_word(node + 10), signed_word(node + 14));
}

static void print_answer(const int64_t *answer, const uint8_t *nodes)
{
    printf("w %" PRId64 " h %" PRId64 " d %" PRId64 " n %" PRId64 "\n", answer[TORFIANKA_WIDTH],
           answer[TORFIANKA_HEIGHT], answer[TORFIANKA_DEPTH], answer[TORFIANKA_COUNT]);
    for (int64_t i = 0; i < answer[TORFIANKA_COUNT]; i++)
        print_node(nodes + i * TORFIANKA_NODE_BYTES);
}

/* Measures for the room, then sets; the nodes are the caller's to free. */
static uint8_t set(struct torfianka_font *font, uint8_t style, struct bytes formula,
                   uint8_t **nodes, int64_t *answer)
{
    torfianka_measure_in(font, style, formula.start, formula.length, answer);
    size_t room = (size_t)answer[TORFIANKA_COUNT] * TORFIANKA_NODE_BYTES;
    *nodes = allocated(room);
    return torfianka_set_in(font, style, formula.start, formula.length, *nodes, room, answer);
}

/* What is to be set. */
struct formula {
    uint8_t style;
    struct bytes bytes;
};

static struct formula stored(const char *path)
{
    struct formula formula = {UINT8_MAX, read_or_empty(path)};
    if (formula.bytes.length > 0) {
        formula.style = formula.bytes.start[0];
        formula.bytes.length--;
        memmove(formula.bytes.start, formula.bytes.start + 1, formula.bytes.length);
    }
    return formula;
}

static int refused(uint8_t number, int64_t place)
{
    printf("refused %d at %" PRId64 "\n", number, place);
    return 1;
}

/* Reads typed text, and ends here if it is refused. */
static struct formula typed(const char *path, const char *names_path, uint8_t style)
{
    enum { LONGEST = 131072 }; /* no formula has more bytes */
    struct bytes text = read_or_fail(path), names = read_or_fail(names_path);
    struct formula formula = {style, {allocated(LONGEST), 0}};
    int64_t answer[TORFIANKA_EQN_ANSWER_WORDS];
    uint8_t number = torfianka_eqn_read(names.start, names.length, text.start, text.length,
                                        formula.bytes.start, LONGEST, answer,
                                        TORFIANKA_EQN_ANSWER_WORDS);
    if (number != TORFIANKA_ACCEPTED)
        exit(refused(number, answer[TORFIANKA_EQN_PLACE]));
    formula.bytes.length = (size_t)answer[TORFIANKA_EQN_BYTES];
    free(names.start);
    free(text.start);
    return formula;
}

/* Sets and prints, and gives the status. */
static int show(const char *table_path, const char *client_path, struct formula formula)
{
    struct bytes table = read_or_empty(table_path), client = {NULL, 0};
    if (client_path != NULL)
        client = read_or_fail(client_path);
    struct torfianka_font font = {table.start, table.length, client.start, client.length,
                                  {0}, {0}};
    uint8_t *nodes;
    int64_t answer[TORFIANKA_ANSWER_WORDS];
    int status = 0;
    uint8_t number = set(&font, formula.style, formula.bytes, &nodes, answer);
    if (number == TORFIANKA_ACCEPTED)
        print_answer(answer, nodes);
    else
        status = refused(number, answer[TORFIANKA_PLACE]);
    free(nodes);
    free(client.start);
    free(table.start);
    return status;
}

/* What the words after the first two ask for. */
struct options {
    const char *client; /* null if there is none */
    const char *names;  /* null for a stored record */
    uint8_t style;      /* of typed text */
};

static int is_style(const char *word)
{
    return word[0] >= '0' && word[0] <= '7' && word[1] == '\0';
}

/* Whether the words are as in the usage; the last is followed by a null. */
static int read_options(char **words, struct options *options)
{
    while (*words != NULL) {
        if (strcmp(words[0], "--client") == 0 && words[1] != NULL) {
            options->client = words[1];
            words += 2;
        } else if (strcmp(words[0], "--typed") == 0 && words[1] != NULL && words[2] != NULL
                   && is_style(words[2])) {
            options->names = words[1];
            options->style = (uint8_t)(words[2][0] - '0');
            words += 3;
        } else {
            return 0;
        }
    }
    return 1;
}

int main(int argc, char **argv)
{
    struct options options = {NULL, NULL, 0};
    if (argc < 3 || !read_options(argv + 3, &options)) {
        fprintf(stderr, "usage: set_formula TABLE FORMULA [--typed NAMES STYLE]"
                        " [--client CLIENT]\n");
        return 2;
    }
    struct formula formula = options.names == NULL
                                 ? stored(argv[2])
                                 : typed(argv[2], options.names, options.style);
    int status = show(argv[1], options.client, formula);
    free(formula.bytes.start);
    return status;
}
