/* A board's own half. */

/* Begins a call on a board's line. */
static struct lent begin_with_line(const uint8_t *line, size_t line_length)
{
    struct lent lent;

    begin_call();
    lent.length = cut(line_length, VCUBE_LINE_LENGTH(MOST_STATIONS));
    lent.at = bytes_in(line, lent.length);
    return lent;
}

/* A packed row behind it: room for it, and the bytes of one. */

static struct lent room_for_packed(size_t packed_length)
{
    struct lent lent;

    lent.length = cut(packed_length, VCUBE_PACKED_LENGTH(MOST_STATIONS));
    lent.at = room(lent.length);
    return lent;
}

static struct lent packed_in(const uint8_t *packed, size_t packed_length)
{
    const struct lent lent = room_for_packed(packed_length);

    put_bytes(lent.at, packed, lent.length);
    return lent;
}

uint8_t vcube_board_fresh(size_t wiring, size_t n, size_t board, uint8_t *line, size_t line_length)
{
    const struct lent lent = begin_with_line(line, line_length);

    return give_back(CALL(vcube_board_fresh, wiring, size_in(n), board, lent.at, lent.length), lent, line);
}

uint8_t vcube_board_next(size_t wiring, size_t n, size_t board, const uint8_t *line, size_t line_length, size_t *tested)
{
    const struct lent lent = begin_with_line(line, line_length);
    const uint32_t tested_at = room_for_number();
    uint8_t number;

    number = CALL(vcube_board_next, wiring, size_in(n), board, lent.at, lent.length, tested_at);
    *tested = get_size(tested_at);
    return number;
}

uint8_t vcube_board_row(size_t wiring, size_t n, size_t board, const uint8_t *line, size_t line_length, uint8_t *packed,
                        size_t packed_length)
{
    const struct lent lent = begin_with_line(line, line_length), to_fill = room_for_packed(packed_length);
    uint8_t number;

    number = CALL(vcube_board_row, wiring, size_in(n), board, lent.at, lent.length, to_fill.at, to_fill.length);
    return give_back(number, to_fill, packed);
}

uint8_t vcube_board_replied(size_t wiring, size_t n, size_t board, uint8_t *line, size_t line_length, const uint8_t *packed,
                            size_t packed_length, size_t *outcome)
{
    const struct lent lent = begin_with_line(line, line_length), reply = packed_in(packed, packed_length);
    const uint32_t outcome_at = room_for_number();
    uint8_t number;

    number = CALL(vcube_board_replied, wiring, size_in(n), board, lent.at, lent.length, reply.at, reply.length, outcome_at);
    *outcome = get_size(outcome_at);
    return give_back(number, lent, line);
}

uint8_t vcube_board_not_replied(size_t wiring, size_t n, size_t board, uint8_t *line, size_t line_length, size_t *outcome)
{
    const struct lent lent = begin_with_line(line, line_length);
    const uint32_t outcome_at = room_for_number();
    uint8_t number;

    number = CALL(vcube_board_not_replied, wiring, size_in(n), board, lent.at, lent.length, outcome_at);
    *outcome = get_size(outcome_at);
    return give_back(number, lent, line);
}

uint8_t vcube_board_told(size_t wiring, size_t n, size_t board, uint8_t *line, size_t line_length, size_t by)
{
    const struct lent lent = begin_with_line(line, line_length);

    return give_back(CALL(vcube_board_told, wiring, size_in(n), board, lent.at, lent.length, by), lent, line);
}

uint8_t vcube_board_exchanged(size_t wiring, size_t n, size_t board, uint8_t *line, size_t line_length, size_t from, const uint8_t *packed,
                              size_t packed_length)
{
    const struct lent lent = begin_with_line(line, line_length), sent = packed_in(packed, packed_length);
    uint8_t number;

    number = CALL(vcube_board_exchanged, wiring, size_in(n), board, lent.at, lent.length, from, sent.at, sent.length);
    return give_back(number, lent, line);
}

uint8_t vcube_board_round_closed(size_t wiring, size_t n, size_t board, uint8_t *line, size_t line_length)
{
    const struct lent lent = begin_with_line(line, line_length);

    return give_back(CALL(vcube_board_round_closed, wiring, size_in(n), board, lent.at, lent.length), lent, line);
}
