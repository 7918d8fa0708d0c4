/* Calls the library as C does: accepted files, refused ones, tables and a room of length 0 and pointers to nothing. */
#include "woffulent.h"

#include <assert.h>
#include <stdio.h>
#include <string.h>

#define ROWS 96
#define ROOM 64
#define GUARD 0x5a

static uint8_t token_kinds[ROWS + 1], node_kinds[ROWS + 1], answer_kinds[ROWS + 1], answer_lengths[ROWS + 1];
static uint32_t token_starts[ROWS], token_lengths[ROWS], node_tokens[ROWS], node_sizes[ROWS], node_bindings[ROWS];
static int64_t answer_numbers[ROWS];
static uint8_t room[ROOM + 1], record_room[ROOM + 1];
static struct woffulent_record records[ROWS + 1];
static uint32_t number, tokens, nodes, constants;

static uint8_t check_in(const char *text, size_t rows, size_t bytes)
{
    memset(token_kinds, GUARD, sizeof token_kinds);
    memset(node_kinds, GUARD, sizeof node_kinds);
    memset(answer_kinds, GUARD, sizeof answer_kinds);
    memset(answer_numbers, GUARD, sizeof answer_numbers);
    memset(answer_lengths, GUARD, sizeof answer_lengths);
    memset(room, GUARD, sizeof room);
    return woffulent_check((const uint8_t *)text, strlen(text), token_kinds, rows, token_starts, rows, token_lengths, rows, node_kinds,
                           rows, node_tokens, rows, node_sizes, rows, node_bindings, rows, answer_kinds, rows, answer_numbers, rows,
                           answer_lengths, rows, room, bytes, &number, &tokens, &nodes, &constants);
}

static uint8_t check(const char *text, size_t rows)
{
    return check_in(text, rows, ROOM);
}

static uint8_t check_records(const char *text, size_t rows)
{
    memset(records, GUARD, sizeof records);
    memset(record_room, GUARD, sizeof record_room);
    return woffulent_check_records((const uint8_t *)text, strlen(text), token_kinds, ROWS, token_starts, ROWS, token_lengths, ROWS,
                                   node_kinds, ROWS, node_tokens, ROWS, node_sizes, ROWS, node_bindings, ROWS, records, rows, record_room,
                                   ROOM, &number, &tokens, &nodes, &constants);
}

static const char text[] = "SCHEMA s; CONSTANT a : INTEGER := -7 DIV 2; b : BINARY := %10 + %011; c : h := y; d : BOOLEAN := ?; "
                           "e : LOGICAL := a < 0; f : INTEGER := 1 DIV 0; END_CONSTANT; TYPE h = ENUMERATION OF (x, y); END_TYPE; "
                           "END_SCHEMA;";

static void accepted(void)
{
    assert(check(text, ROWS) == WOFFULENT_ACCEPTED);
    assert(number == 0 && tokens == 66 && constants == 6);
    assert(answer_kinds[0] == WOFFULENT_ANSWER_INTEGER && answer_numbers[0] == -4);
    assert(answer_kinds[1] == WOFFULENT_ANSWER_BINARY && answer_numbers[1] == 19 && answer_lengths[1] == 5);
    assert(answer_kinds[2] == WOFFULENT_ANSWER_ITEM && node_kinds[answer_numbers[2]] == WOFFULENT_NODE_ITEM);
    assert(answer_kinds[3] == WOFFULENT_ANSWER_INDETERMINATE && answer_numbers[3] == 0);
    assert(answer_kinds[4] == WOFFULENT_ANSWER_LOGICAL && answer_numbers[4] == WOFFULENT_LOGICAL_TRUE);
    assert(answer_kinds[5] == WOFFULENT_END_ZERO_DIVISOR);
    assert(answer_kinds[6] == 0 && answer_kinds[ROWS - 1] == 0 && answer_kinds[ROWS] == GUARD);
    assert(node_kinds[nodes - 1] == WOFFULENT_NODE_FILE && node_sizes[nodes - 1] == nodes);
    assert(token_kinds[0] == WOFFULENT_TOKEN_WORD && token_starts[1] == 7 && token_lengths[1] == 1);
    assert(token_kinds[tokens] == WOFFULENT_TOKEN_NONE && token_kinds[ROWS] == GUARD && node_kinds[ROWS] == GUARD);
}

/* Each record is the row that the columns have. */
static void as_records(void)
{
    assert(check(text, ROWS) == WOFFULENT_ACCEPTED);
    assert(check_records(text, ROWS) == WOFFULENT_ACCEPTED && constants == 6 && nodes == 33);
    for (size_t row = 0; row < ROWS; row++) {
        assert(records[row].kind == answer_kinds[row] && records[row].number == answer_numbers[row]);
        assert(records[row].length == answer_lengths[row]);
    }
    assert(records[ROWS].kind == GUARD && records[ROWS].length == GUARD);
    assert(check_records(text, 5) == WOFFULENT_ANSWERS_SHORT && number == 6);
    assert(records[0].kind == 0 && records[4].number == 0 && records[5].kind == GUARD);
}

static const char strings[] = "SCHEMA s; CONSTANT lot : STRING := die + '''!'; die : STRING := 'xy'; none : STRING := ''; END_CONSTANT; END_SCHEMA;";

/* Strings lie in the room in the order of their rows, and zeros behind them. */
static void with_strings(void)
{
    assert(check(strings, ROWS) == WOFFULENT_ACCEPTED && constants == 3);
    assert(answer_kinds[0] == WOFFULENT_ANSWER_STRING && answer_numbers[0] == 0 && answer_lengths[0] == 4);
    assert(answer_kinds[1] == WOFFULENT_ANSWER_STRING && answer_numbers[1] == 4 && answer_lengths[1] == 2);
    assert(answer_kinds[2] == WOFFULENT_ANSWER_STRING && answer_numbers[2] == 6 && answer_lengths[2] == 0);
    assert(memcmp(room, "xy'!xy", 6) == 0 && room[6] == 0 && room[ROOM - 1] == 0 && room[ROOM] == GUARD);
    assert(check_records(strings, ROWS) == WOFFULENT_ACCEPTED && records[1].number == 4 && records[1].length == 2);
    assert(memcmp(record_room, room, sizeof room) == 0);
    assert(check_in(strings, ROWS, 6) == WOFFULENT_ACCEPTED && memcmp(room, "xy'!xy", 6) == 0 && room[6] == GUARD);
    assert(check_in(strings, ROWS, 5) == WOFFULENT_ROOM_SHORT && number == 5 && constants == 0);
    assert(room[0] == 0 && room[4] == 0 && room[5] == GUARD && answer_kinds[0] == 0 && answer_lengths[0] == 0);
    assert(WOFFULENT_STRING_BYTES == 255);
}

static void refused(void)
{
    assert(check("SCHEMA s; CONSTANT a : INTEGER := b; END_CONSTANT; END_SCHEMA;", ROWS) == WOFFULENT_NOT_FOUND);
    assert(number == 34 && tokens == 0 && nodes == 0 && constants == 0);
    assert(token_kinds[0] == 0 && node_kinds[ROWS - 1] == 0 && answer_kinds[0] == 0 && answer_numbers[0] == 0);
    assert(room[0] == 0 && room[ROOM - 1] == 0 && room[ROOM] == GUARD);
    assert(check("SCHEMA s; END_SCHEMA;", 4) == WOFFULENT_TOKENS_SHORT && number == 5);
    assert(check("SCHEMA s; END_SCHEMA;", 5) == WOFFULENT_ACCEPTED && constants == 0);
    assert(check("", ROWS) == WOFFULENT_UNEXPECTED && number == 0);
}

static void without_tables(void)
{
    uint8_t reply = woffulent_check(NULL, 0, NULL, 0, NULL, 0, NULL, 0, NULL, 0, NULL, 0, NULL, 0, NULL, 0, NULL, 0, NULL, 0, NULL, 0,
                                    NULL, 0, &number, &tokens, &nodes, &constants);
    assert(reply == WOFFULENT_UNEXPECTED && number == 0);
}

int main(void)
{
    accepted();
    as_records();
    with_strings();
    refused();
    without_tables();
    puts("ok");
    return 0;
}
