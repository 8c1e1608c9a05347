/* Faults 153 to 169, of the parent in every tree row. */
#include <string.h>

enum { OLD_ROW = 4 };

/* The node that ends just before a row and is its sibling, or the row's parent if there is none. */
static uint32_t ended_before(const struct dt_tree_row *trees, size_t row)
{
    uint32_t parent = trees[row].parent, at = row ? (uint32_t)row - 1 : 0;
    while (at != parent && trees[at].parent != parent)
        at = trees[at].parent;
    return at != parent && trees[at].class_ == DT_CLASS_NODE ? at : parent;
}

/* Whether a blank is followed by a node at its level. */
static int is_before_node(const struct dt_tree_row *trees, size_t count, size_t row)
{
    return trees[row].class_ == DT_CLASS_LEAF && trees[row].kind == DT_TOKEN_WHITESPACE && row + 1 < count &&
           trees[row + 1].class_ == DT_CLASS_NODE && trees[row + 1].parent == trees[row].parent;
}

static int is_infix(const struct dt_tree_row *row)
{
    return row->class_ == DT_CLASS_NODE && row->kind == DT_NODE_INFIX_EXPR;
}

/* The parent that a row has by this fault. trees: the right rows. */
static uint32_t wrong_parent(const struct dt_tree_row *trees, size_t count, size_t row)
{
    uint32_t right = trees[row].parent, own = (uint32_t)row;
    switch (fault()) {
    case 153: /* the row before */
        return own ? own - 1 : 0;
    case 154: /* a distance */
        return own - right;
    case 155: /* where the parent's numbers start */
        return DT_ROW_TREE * right;
    case 156: /* the root names its first child */
        return own == 0 && count > 1 ? 1 : right;
    case 157: /* the root names no row */
        return own == 0 ? UINT32_MAX : right;
    case 158: /* the grandparent */
        return trees[right].parent;
    case 159: /* left 0 */
        return 0;
    case 160: /* rows are counted from 1 */
        return right + (own > 0);
    case 161: /* the node that was ended last, if it is a sibling */
        return ended_before(trees, row);
    case 162: /* a blank before a node is taken for a part of it */
        return is_before_node(trees, count, row) ? own + 1 : right;
    case 163: /* of a chain of expressions the inner ones name what is around it */
        return is_infix(trees + row) && is_infix(trees + right) && right + 1 == own ? trees[right].parent : right;
    case 164: /* in 8 bits */
        return right & 255;
    case 165: /* in 16 bits */
        return right & 65535;
    case 166: /* a leaf names itself */
        return trees[row].class_ == DT_CLASS_LEAF ? own : right;
    default:
        return right;
    }
}

static void damage_parents(struct dt_tree_row *trees, size_t count)
{
    uint32_t *wrong = malloc((count + 1) * sizeof *wrong);
    for (size_t i = 0; i < count; i++)
        wrong[i] = wrong_parent(trees, count, i);
    for (size_t i = 0; i < count; i++)
        trees[i].parent = wrong[i];
    free(wrong);
}

/* Rows of four numbers, as they were before there were parents. */
static void write_fours(uint32_t *trees, size_t count)
{
    for (size_t i = 0; i < count; i++)
        memmove(trees + OLD_ROW * i, trees + DT_ROW_TREE * i, OLD_ROW * sizeof *trees);
    memset(trees + OLD_ROW * count, 0, (DT_ROW_TREE - OLD_ROW) * count * sizeof *trees);
}

/* Faults of all tree rows of an accepted call. */
static void damage_trees(uint32_t *trees, size_t count)
{
    if (fault() >= 153 && fault() <= 166)
        damage_parents((struct dt_tree_row *)trees, count);
    if (fault() == 169) /* four numbers a row */
        write_fours(trees, count);
}
