// A key-value store as a red-black tree. A red node has black children, and all ways from a node down to the leaves have as
// many black nodes as each other. So the longest way is at most twice as long as the shortest.
#include <stdlib.h>
#include "store.h"

enum side { LEFT, RIGHT };

struct node {
    struct node *parent, *child[2];
    uint64_t key;
    bool is_red;
    uint64_t value[VALUE_WORDS];
};

// All leaves are this black node. The root is its left child, so that each node has a parent.
static struct node leaf = {.parent = &leaf, .child = {&leaf, &leaf}};

static struct node *root(void) {
    return leaf.child[LEFT];
}

static enum side other(enum side side) {
    return side == LEFT ? RIGHT : LEFT;
}

// On which side of its parent a node is. The root is on the left.
static enum side side_of(const struct node *node) {
    return node == node->parent->child[LEFT] ? LEFT : RIGHT;
}

// Puts a node in the place of another one.
static void replace(struct node *old, struct node *new) {
    old->parent->child[side_of(old)] = new;
    new->parent = old->parent;
}

// A node goes down to a side, and its child on the other side into its place.
static void rotate(struct node *node, enum side down) {
    struct node *up = node->child[other(down)];
    node->child[other(down)] = up->child[down];
    if (up->child[down] != &leaf) {
        up->child[down]->parent = node;
    }
    replace(node, up);
    up->child[down] = node;
    node->parent = up;
}

// The node of a key, or the leaf where it belongs; `parent` is the last node on the way there.
static struct node *search(uint64_t key, struct node **parent) {
    struct node *node = root();
    *parent = &leaf;
    while (node != &leaf && node->key != key) {
        *parent = node;
        node = node->child[key < node->key ? LEFT : RIGHT];
    }
    return node;
}

uint64_t *find(uint64_t key) {
    struct node *parent, *node = search(key, &parent);
    return node == &leaf ? NULL : node->value;
}

// A new red node may have a red parent: colours go up, or a rotation ends it.
static void balance_inserted(struct node *node) {
    while (node->parent->is_red) {
        struct node *parent = node->parent, *above = parent->parent;
        enum side side = side_of(parent);
        struct node *uncle = above->child[other(side)];
        if (uncle->is_red) {
            parent->is_red = uncle->is_red = false;
            above->is_red = true;
            node = above;
            continue;
        }
        if (side_of(node) != side) {
            node = parent;
            rotate(node, side);
        }
        node->parent->is_red = false;
        above->is_red = true;
        rotate(above, other(side));
    }
    root()->is_red = false;
}

uint64_t *insert(uint64_t key) {
    struct node *parent, *node = search(key, &parent);
    if (node != &leaf) {
        return node->value;
    }
    node = malloc(sizeof *node);
    if (node == NULL) {
        abort();
    }
    node->parent = parent;
    node->child[LEFT] = node->child[RIGHT] = &leaf;
    node->key = key;
    node->is_red = true;
    parent->child[parent == &leaf || key < parent->key ? LEFT : RIGHT] = node;
    balance_inserted(node);
    return node->value;
}

// The ways through a node have one black node too few: it becomes black if it was red, or a sibling helps.
static void balance_removed(struct node *node) {
    while (node != root() && !node->is_red) {
        enum side side = side_of(node);
        struct node *parent = node->parent, *sibling = parent->child[other(side)];
        if (sibling->is_red) {
            sibling->is_red = false;
            parent->is_red = true;
            rotate(parent, side);
            sibling = parent->child[other(side)];
        }
        if (!sibling->child[LEFT]->is_red && !sibling->child[RIGHT]->is_red) {
            sibling->is_red = true;
            node = parent;
            continue;
        }
        if (!sibling->child[other(side)]->is_red) {
            sibling->child[side]->is_red = false;
            sibling->is_red = true;
            rotate(sibling, other(side));
            sibling = parent->child[other(side)];
        }
        sibling->is_red = parent->is_red;
        parent->is_red = false;
        sibling->child[other(side)]->is_red = false;
        rotate(parent, side);
        node = root();
    }
    node->is_red = false;
}

// Takes a node out of the tree that has at most one child. The child comes into its place.
static void unlink_node(struct node *node) {
    struct node *child = node->child[node->child[LEFT] == &leaf ? RIGHT : LEFT];
    replace(node, child);
    if (!node->is_red) {
        balance_removed(child);
    }
}

bool take_away(uint64_t key) {
    struct node *parent, *node = search(key, &parent);
    if (node == &leaf) {
        return false;
    }
    if (node->child[LEFT] != &leaf && node->child[RIGHT] != &leaf) {
        // The next node in order has no left child. It leaves its place for the one of this node.
        struct node *next = node->child[RIGHT];
        while (next->child[LEFT] != &leaf) {
            next = next->child[LEFT];
        }
        unlink_node(next);
        replace(node, next);
        next->is_red = node->is_red;
        for (enum side side = LEFT; side <= RIGHT; side++) {
            next->child[side] = node->child[side];
            next->child[side]->parent = next;
        }
    } else {
        unlink_node(node);
    }
    free(node);
    return true;
}
