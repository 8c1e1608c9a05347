/* Tree rows of an accepted call: what must hold of them, worked out here from classes, widths and counts. */
#include "lent.h"

/* A node that lacks children: its row, and how many. */
struct lacking {
    size_t row;
    uint32_t children;
};

/* The parents that classes and counts give: each row is a child of the last node before it that still lacks one. The
   root has no such node, and is its own parent. No column of parents is looked at. */
static void parents_by_counts(const char *name, const struct dt_tree_row *trees, size_t count, size_t *parents)
{
    struct lacking *open = malloc((count + 1) * sizeof *open);
    size_t depth = 0;
    for (size_t row = 0; row < count; row++) {
        while (depth > 0 && open[depth - 1].children == 0)
            depth--;
        if (row > 0 && depth == 0)
            fail(name, "a row after the tree");
        parents[row] = row > 0 ? open[depth - 1].row : 0;
        if (row > 0)
            open[depth - 1].children--;
        if (trees[row].class_ == DT_CLASS_NODE)
            open[depth++] = (struct lacking){row, trees[row].count};
    }
    for (; depth > 0; depth--)
        if (open[depth - 1].children)
            fail(name, "a node without all its children");
    free(open);
}

/* By the column alone: a parent is a node, before its children, of which it has as many as name it, side by side over
   all its bytes. */
static void check_named(const char *name, const struct dt_tree_row *trees, size_t count)
{
    struct named {
        uint32_t children, width;
    } *named = calloc(count, sizeof *named);
    for (size_t row = 1; row < count; row++) {
        uint32_t parent = trees[row].parent;
        if (parent >= row || trees[parent].class_ != DT_CLASS_NODE)
            fail(name, "a parent that is no node before its child");
        named[parent].children++;
        named[parent].width += trees[row].width;
    }
    for (size_t row = 0; row < count; row++)
        if (trees[row].class_ == DT_CLASS_NODE &&
            (named[row].children != trees[row].count || named[row].width != trees[row].width))
            fail(name, "a node whose children do not name it, or are not as wide as it is");
    free(named);
}

/* As a caller goes over them: the root's children are side by side, over all rows and bytes. */
static void check_parts(const char *name, const struct dt_tree_row *trees, size_t count, size_t n)
{
    size_t child = 1, width = 0;
    for (uint32_t i = 0; i < trees[0].count; i++) {
        width += trees[child].width;
        child = dt_after_subtree(trees, count, child);
    }
    if (child != count || width != n || dt_after_subtree(trees, count, 0) != count)
        fail(name, "the root's children are not side by side");
}

/* The rows are one tree over n bytes, and each names its parent; the root names itself. */
static void check_tree(const char *name, const uint32_t *numbers, size_t count, size_t n)
{
    const struct dt_tree_row *trees = (const struct dt_tree_row *)numbers;
    if (count == 0 || trees[0].class_ != DT_CLASS_NODE || trees[0].width != n || trees[0].parent != 0)
        fail(name, "the root is not a node as wide as the input that names itself");
    size_t *parents = malloc(count * sizeof *parents);
    parents_by_counts(name, trees, count, parents);
    for (size_t row = 0; row < count; row++)
        if (trees[row].parent != parents[row])
            fail(name, "another parent than the counts of children give");
    free(parents);
    check_named(name, trees, count);
    check_parts(name, trees, count, n);
}
