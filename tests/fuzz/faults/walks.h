/* Rows that a query with a fault lists: faults 119 to 121, 171 and 172. */

/* A query: an offset, or a range from the first number to the second; and its buffers as they are lent. */
struct query_call {
    int is_caret;
    uint32_t setting;
    uint64_t first, second;
    const uint8_t *bytes;
    size_t bytes_len;
    const uint32_t *tokens;
    size_t tokens_len;
    struct buffer {
        uint32_t *numbers;
        size_t len;
    } events, trees, errors, reports, pool, list;
};

/* A row of a tree, and its bytes. */
struct span {
    const struct dt_tree_row *tree;
    size_t count, row;
    uint64_t start, end;
    /* it begins where the part before it ends */
    int is_part;
};

/* Nodes of width 0 are in a chain too. */
static int with_empty_nodes(const struct query_call *c, const struct span *s)
{
    uint64_t last = c->bytes_len ? c->bytes_len - 1 : 0;
    uint64_t byte = c->first == c->bytes_len ? last : c->first;
    return s->start <= c->first && (byte < s->end || (s->start == s->end && s->start == c->first));
}

/* The chain to the last row. */
static int around_last_row(const struct query_call *c, const struct span *s)
{
    (void)c;
    return s->row + 1 == s->count || dt_after_subtree(s->tree, s->count, s->row) == s->count;
}

/* What shares a byte, at any level. */
static int at_any_level(const struct query_call *c, const struct span *s)
{
    return s->row && c->first < c->second && s->start < c->second && c->first < s->end && s->start < s->end;
}

/* What has the byte under the caret. */
static int at_caret(const struct query_call *c, const struct span *s)
{
    uint64_t byte = c->first - (c->first == c->bytes_len && c->bytes_len);
    return s->start <= byte && (byte < s->end || c->bytes_len == 0);
}

/* A part in the range. */
static int at_top_level(const struct query_call *c, const struct span *s)
{
    return s->is_part && at_any_level(c, s);
}

/* The rows that are wanted, of so many numbers each, in place of those that stand in the list. A list that they do not
 * fit stays. */
static size_t walked_by(size_t size, const struct query_call *c, size_t list_count, size_t tree_count,
                        int wanted(const struct query_call *, const struct span *))
{
    struct span s = {(const struct dt_tree_row *)c->trees.numbers, tree_count, 0, 0, 0, 0};
    uint64_t part_end = 0;
    uint32_t *found = malloc((tree_count + 1) * sizeof *found);
    size_t count = 0;
    for (; s.row < tree_count; s.row++) {
        const uint32_t *row = c->trees.numbers + size * s.row;
        s.end = s.start + row[DT_COL_TREE_WIDTH];
        s.is_part = s.row && s.start >= part_end;
        if (s.is_part)
            part_end = s.end;
        if (wanted(c, &s))
            found[count++] = (uint32_t)s.row;
        if (row[DT_COL_TREE_CLASS] == DT_CLASS_LEAF)
            s.start = s.end;
    }
    if (count <= c->list.len) {
        memset(c->list.numbers, 0, c->list.len * sizeof *found);
        memcpy(c->list.numbers, found, count * sizeof *found);
        list_count = count;
    }
    free(found);
    return list_count;
}

static size_t walked(const struct query_call *c, size_t list_count, size_t tree_count,
                     int wanted(const struct query_call *, const struct span *))
{
    return walked_by(DT_ROW_TREE, c, list_count, tree_count, wanted);
}
