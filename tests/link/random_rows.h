/* Random numbers in place of what a call takes: a setting, the length of a buffer, bytes and token rows. */
#include "../random.h"
#include "dt_parser.h"

static uint32_t random_setting(void)
{
    return below(2) ? DT_SETTING_OLD : below(2) ? DT_SETTING_STRICT : below(4294967295u);
}

/* Room for most calls of so few rows as there are here, or often too little. */
static size_t random_length(void)
{
    return below(8) ? 700 + below(4000) : below(200);
}

/* A row of one byte: a kind whose text is that byte, or a kind of any text. */
static uint32_t random_kind(uint8_t *byte)
{
    static const char TEXTS[] = ",=;&:@{}<>()+-*/%|^~!?";
    static const uint8_t KINDS[] = {
        DT_TOKEN_COMMA, DT_TOKEN_EQUALS, DT_TOKEN_SEMICOLON, DT_TOKEN_AMPERSAND, DT_TOKEN_COLON, DT_TOKEN_AT_SIGN,
        DT_TOKEN_LCURLY, DT_TOKEN_RCURLY, DT_TOKEN_LANGLE, DT_TOKEN_RANGLE, DT_TOKEN_LPAREN, DT_TOKEN_RPAREN,
        DT_TOKEN_PLUS, DT_TOKEN_MINUS, DT_TOKEN_ASTERISK, DT_TOKEN_SLASH, DT_TOKEN_MODULO, DT_TOKEN_BITWISE_OR,
        DT_TOKEN_BITWISE_XOR, DT_TOKEN_BITWISE_NOT, DT_TOKEN_LOGICAL_NOT, DT_TOKEN_QUESTION_MARK,
    };
    /* names and numbers more often than the others */
    static const uint8_t FREE[] = {
        DT_TOKEN_WHITESPACE, DT_TOKEN_BLOCK_COMMENT, DT_TOKEN_LINE_COMMENT, DT_TOKEN_IF_DIRECTIVE,
        DT_TOKEN_IFDEF_DIRECTIVE, DT_TOKEN_ELIF_DIRECTIVE, DT_TOKEN_ELSE_DIRECTIVE, DT_TOKEN_ENDIF_DIRECTIVE,
        DT_TOKEN_DEFINE_DIRECTIVE, DT_TOKEN_IDENT, DT_TOKEN_IDENT, DT_TOKEN_IDENT, DT_TOKEN_STRING, DT_TOKEN_CHAR,
        DT_TOKEN_NUMBER, DT_TOKEN_NUMBER, DT_TOKEN_DT_BYTESTRING, DT_TOKEN_FIRST_LEX_ERROR, DT_TOKEN_LAST_LEX_ERROR,
    };
    if (below(3) == 0)
        return FREE[below(sizeof FREE)];
    uint32_t i = below(sizeof KINDS);
    *byte = (uint8_t)TEXTS[i];
    return KINDS[i];
}

/* A kind or a length that is often wrong. Added to others, some lengths wrap in 32 bits to one that would be right. */
static uint32_t random_number(void)
{
    static const uint32_t EDGES[] = {
        0, 1, 2, 24, 25, 26, 27, 60, 61, 63, 64, 74, 75, 2147483647, 2147483648u, 4294967294u, 4294967295u,
    };
    return below(3) == 0 ? EDGES[below(sizeof EDGES / sizeof *EDGES)] : below(2) ? below(80) : below(4294967295u);
}

enum { MOST_ROWS = 64 };

/* An input: n bytes and t token numbers. */
struct random_rows {
    uint8_t bytes[MOST_ROWS];
    struct dt_token_row rows[MOST_ROWS + 1];
    size_t n, t;
};

/* Rows that could be right, except in one input of three for up to three random numbers in them; sometimes with another
   count of bytes, a number left out or one left over. */
static struct random_rows random_rows(void)
{
    struct random_rows in;
    uint32_t *tokens = (uint32_t *)in.rows;
    in.n = below(MOST_ROWS + 1);
    in.t = DT_ROW_TOKEN * in.n;
    for (size_t i = 0; i < MOST_ROWS; i++)
        in.bytes[i] = (uint8_t)below(256);
    for (size_t i = 0; i < in.n; i++) {
        in.rows[i].kind = random_kind(&in.bytes[i]);
        in.rows[i].length = 1;
    }
    for (uint32_t i = below(3) ? 0 : 1 + below(3); i > 0 && in.t > 0; i--)
        tokens[below((uint32_t)in.t)] = random_number();
    if (below(20) == 0)
        in.n = below(MOST_ROWS + 1);
    tokens[in.t] = random_number();
    if (below(20) == 0)
        in.t = below(2) && in.t > 0 ? in.t - 1 : in.t + 1;
    return in;
}
