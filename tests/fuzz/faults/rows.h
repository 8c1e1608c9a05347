/* Faults 64 to 91, of bad rows and odd counts: 3, 11, 12 and 13. */

/* A call's input as rows. */
struct rows {
    uint32_t entry, setting;
    const uint8_t *bytes;
    size_t bytes_len;
    const struct dt_token_row *row;
    size_t count;
    int odd;
};

static struct rows rows_of(uint32_t entry, uint32_t setting, const uint8_t *bytes, size_t bytes_len,
                           const uint32_t *tokens, size_t tokens_len)
{
    struct rows in = {entry, setting, bytes, bytes_len, (const struct dt_token_row *)tokens,
                      tokens_len / DT_ROW_TOKEN, tokens_len % DT_ROW_TOKEN};
    return in;
}

static struct dt_answer refused(uint32_t number, size_t place)
{
    struct dt_answer a = {.number = number, .place = place};
    return a;
}

/* A call that takes the rows for good ones. */
static struct dt_answer passed(void)
{
    return refused(DT_ACCEPTED, 0);
}

/* What the library says of so many rows over so many bytes. It is lent nothing, so that nothing is written. */
static struct dt_answer of_front(const struct rows *in, size_t count, size_t bytes_len)
{
    return dt_parse_good(in->entry, in->setting, in->bytes, bytes_len, (const uint32_t *)in->row,
                         DT_ROW_TOKEN * count, NULL, 0, NULL, 0, NULL, 0, NULL, 0, NULL, 0);
}

/* Where so many rows end. */
static uint64_t end_of(const struct rows *in, size_t count)
{
    uint64_t end = 0;
    for (size_t i = 0; i < count; i++)
        end += in->row[i].length;
    return end;
}

static int is_kind(uint32_t kind)
{
    return (kind <= DT_TOKEN_QUESTION_MARK && kind != DT_TOKEN_UNRECOGNIZED && kind != DT_TOKEN_NAME) ||
           (kind >= DT_TOKEN_FIRST_LEX_ERROR && kind <= DT_TOKEN_LAST_LEX_ERROR);
}

/* The first row with this cause, whatever others it or a row before it has; the count of rows if there is none. */
static size_t first_with(const struct rows *in, uint32_t number)
{
    uint64_t end = 0;
    for (size_t i = 0; i < in->count; i++) {
        end += in->row[i].length;
        if (number == DT_REFUSAL_BAD_KIND      ? !is_kind(in->row[i].kind)
            : number == DT_REFUSAL_ZERO_LENGTH ? in->row[i].length == 0
                                               : end > in->bytes_len)
            return i;
    }
    return in->count;
}

/* This cause at its first row if it has one, else the answer. */
static struct dt_answer instead(const struct rows *in, struct dt_answer a, uint32_t number)
{
    size_t row = first_with(in, number);
    return row < in->count ? refused(number, row) : a;
}

/* Whether a row is refused, and not all of them for a short total. */
static int is_of_row(const struct rows *in, const struct dt_answer *a)
{
    return a->number >= DT_REFUSAL_BAD_KIND && a->number <= DT_REFUSAL_BAD_END && a->place < in->count;
}

static int is_short_total(const struct rows *in, const struct dt_answer *a)
{
    return a->number == DT_REFUSAL_BAD_END && a->place == in->count;
}

/* Faults of the order of causes, within a row and over all rows. */
static struct dt_answer damaged_order(const struct rows *in, struct dt_answer a)
{
    struct dt_answer front;
    switch (fault()) {
    case 64: /* 12 before 11 within a row */
        if (a.number == DT_REFUSAL_BAD_KIND && in->row[a.place].length == 0)
            a.number = DT_REFUSAL_ZERO_LENGTH;
        break;
    case 65: /* 13 before 11 within a row */
        if (a.number == DT_REFUSAL_BAD_KIND && first_with(in, DT_REFUSAL_BAD_END) == a.place)
            a.number = DT_REFUSAL_BAD_END;
        break;
    case 66: /* 11 over all rows before 12 */
        return a.number == DT_REFUSAL_ZERO_LENGTH ? instead(in, a, DT_REFUSAL_BAD_KIND) : a;
    case 67: /* 11 over all rows before 13 */
        return a.number == DT_REFUSAL_BAD_END ? instead(in, a, DT_REFUSAL_BAD_KIND) : a;
    case 68: /* 12 over all rows before 11 */
        return a.number == DT_REFUSAL_BAD_KIND ? instead(in, a, DT_REFUSAL_ZERO_LENGTH) : a;
    case 69: /* 13 over all rows before 12 */
        return a.number == DT_REFUSAL_ZERO_LENGTH ? instead(in, a, DT_REFUSAL_BAD_END) : a;
    case 70: /* a short total before a bad row */
        return is_of_row(in, &a) && end_of(in, in->count) < in->bytes_len ? refused(DT_REFUSAL_BAD_END, in->count) : a;
    case 71: /* 4 before a later bad row */
        front = is_of_row(in, &a) ? of_front(in, a.place, end_of(in, a.place)) : a;
        return front.number == DT_REFUSAL_BAD_TEXT ? front : a;
    case 72: /* 4 before a short total */
        front = is_short_total(in, &a) ? of_front(in, in->count, end_of(in, in->count)) : a;
        return front.number == DT_REFUSAL_BAD_TEXT ? front : a;
    }
    return a;
}

/* The first cause where ends are summed in 32 bits; a row is known to be refused. */
static struct dt_answer with_short_sums(const struct rows *in)
{
    uint32_t end = 0;
    for (size_t i = 0; i < in->count; i++) {
        end += in->row[i].length;
        if (!is_kind(in->row[i].kind))
            return refused(DT_REFUSAL_BAD_KIND, i);
        if (in->row[i].length == 0)
            return refused(DT_REFUSAL_ZERO_LENGTH, i);
        if (end > in->bytes_len)
            return refused(DT_REFUSAL_BAD_END, i);
    }
    return end < in->bytes_len ? refused(DT_REFUSAL_BAD_END, in->count) : passed();
}

/* Faults of what is bad in a row. */
static struct dt_answer damaged_cause(const struct rows *in, struct dt_answer a)
{
    int of_row = is_of_row(in, &a);
    uint32_t kind = of_row ? in->row[a.place].kind : 0;
    switch (fault()) {
    case 73: /* ends in 32 bits */
        return of_row ? with_short_sums(in) : a;
    case 74: /* a token may end a byte past the input */
        return of_row && end_of(in, a.place + 1) == in->bytes_len + 1 && a.number == DT_REFUSAL_BAD_END ? passed() : a;
    case 75: /* none may end where the input does */
        return a.number == DT_ACCEPTED && in->count ? refused(DT_REFUSAL_BAD_END, in->count - 1) : a;
    case 76: /* a total may be short */
        return is_short_total(in, &a) ? passed() : a;
    case 77: /* 25 is a kind of rows */
        return a.number == DT_REFUSAL_BAD_KIND && kind == DT_TOKEN_UNRECOGNIZED ? passed() : a;
    case 78: /* 61 to 63 are */
        return a.number == DT_REFUSAL_BAD_KIND && kind / 4 == DT_TOKEN_QUESTION_MARK / 4 ? passed() : a;
    case 79: /* there is a lexical error more */
        return a.number == DT_REFUSAL_BAD_KIND && kind == DT_TOKEN_LAST_LEX_ERROR + 1 ? passed() : a;
    }
    return a;
}

/* Faults of an odd count. */
static struct dt_answer damaged_odd(const struct rows *in, struct dt_answer a)
{
    struct dt_answer whole = of_front(in, in->count, in->bytes_len);
    int bad = is_of_row(in, &whole) || is_short_total(in, &whole);
    switch (fault()) {
    case 80: /* after the rows */
        return is_of_row(in, &whole) ? whole : a;
    case 81: /* after 11 to 13 and 4 */
        return bad || whole.number == DT_REFUSAL_BAD_TEXT ? whole : a;
    case 82: /* the place is the first bad row */
        if (bad)
            a.place = whole.place;
        break;
    case 83: /* the row that is cut short counts */
        a.place++;
        break;
    case 84: /* the number over is left out */
        return whole;
    }
    return a;
}

/* Faults of numbers and places. */
static struct dt_answer damaged_number(const struct rows *in, struct dt_answer a)
{
    switch (fault()) {
    case 85: /* the old number for a bad kind */
        a.number = a.number == DT_REFUSAL_BAD_KIND ? DT_REFUSAL_ODD_COUNT : a.number;
        break;
    case 86: /* for a length of 0 */
        a.number = a.number == DT_REFUSAL_ZERO_LENGTH ? DT_REFUSAL_ODD_COUNT : a.number;
        break;
    case 87: /* for an end past the input */
        a.number = is_of_row(in, &a) && a.number == DT_REFUSAL_BAD_END ? DT_REFUSAL_ODD_COUNT : a.number;
        break;
    case 88: /* for a short total */
        a.number = is_short_total(in, &a) ? DT_REFUSAL_ODD_COUNT : a.number;
        break;
    case 89: /* a short total's place is the last row */
        a.place -= is_short_total(in, &a) && a.place;
        break;
    case 90: /* an odd count before 2 */
        return a.number == DT_REFUSAL_TOO_LONG && in->odd ? refused(DT_REFUSAL_ODD_COUNT, in->count) : a;
    case 91: /* 131,071 numbers are too many */
        if (a.number == DT_REFUSAL_ODD_COUNT && in->count == DT_MAX_TOKEN_NUMBERS / DT_ROW_TOKEN - 1)
            return refused(DT_REFUSAL_TOO_LONG, 0);
        break;
    }
    return a;
}

static struct dt_answer damaged_checks(struct rows in, struct dt_answer a)
{
    if (fault() < 64)
        return a;
    if (a.number == DT_REFUSAL_ODD_COUNT)
        a = damaged_odd(&in, a);
    return damaged_number(&in, damaged_cause(&in, damaged_order(&in, a)));
}
