/* Calls the library as C++ does: both calls on one file. */
#include "woffulent.h"

#include <cassert>
#include <cstdio>
#include <cstring>

static const size_t ROWS = 96;
static uint8_t token_kinds[ROWS], node_kinds[ROWS], answer_kinds[ROWS], answer_lengths[ROWS];
static uint32_t token_starts[ROWS], token_lengths[ROWS], node_tokens[ROWS], node_sizes[ROWS], node_bindings[ROWS];
static int64_t answer_numbers[ROWS];
static uint8_t room[WOFFULENT_STRING_BYTES];
static woffulent_record records[ROWS];
static uint32_t number, tokens, nodes, constants;

int main()
{
    const char *text = "SCHEMA s; CONSTANT a : INTEGER := -7 DIV 2; b : STRING := 'xy'; END_CONSTANT; END_SCHEMA;";
    const uint8_t *bytes = reinterpret_cast<const uint8_t *>(text);
    uint8_t reply = woffulent_check(bytes, std::strlen(text), token_kinds, ROWS, token_starts, ROWS, token_lengths, ROWS, node_kinds, ROWS,
                                    node_tokens, ROWS, node_sizes, ROWS, node_bindings, ROWS, answer_kinds, ROWS, answer_numbers, ROWS,
                                    answer_lengths, ROWS, room, sizeof room, &number, &tokens, &nodes, &constants);
    assert(reply == WOFFULENT_ACCEPTED && constants == 2);
    assert(answer_kinds[0] == WOFFULENT_ANSWER_INTEGER && answer_numbers[0] == -4);
    assert(answer_kinds[1] == WOFFULENT_ANSWER_STRING && answer_lengths[1] == 2 && room[1] == 'y' && room[2] == 0);
    reply = woffulent_check_records(bytes, std::strlen(text), token_kinds, ROWS, token_starts, ROWS, token_lengths, ROWS, node_kinds, ROWS,
                                    node_tokens, ROWS, node_sizes, ROWS, node_bindings, ROWS, records, ROWS, room, sizeof room, &number,
                                    &tokens, &nodes, &constants);
    assert(reply == WOFFULENT_ACCEPTED && records[0].kind == WOFFULENT_ANSWER_INTEGER && records[0].number == -4);
    std::puts("ok");
    return 0;
}
