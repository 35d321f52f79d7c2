/* The calls on lists: the program's own memory, and no word of the machine. Compiled as the program is, so that each
 * access is seen. */
#include <exec/exec.h>
#include <string.h>

void NewList(struct List *list) {
    list->lh_Head = (struct Node *)&list->lh_Tail;
    list->lh_Tail = 0;
    list->lh_TailPred = (struct Node *)list;
}
static void put(struct Node *node, struct Node *before, struct Node *after) {
    node->ln_Pred = before;
    node->ln_Succ = after;
    before->ln_Succ = node;
    after->ln_Pred = node;
}
void AddHead(struct List *list, struct Node *node) { put(node, (struct Node *)list, list->lh_Head); }
void AddTail(struct List *list, struct Node *node) { put(node, list->lh_TailPred, (struct Node *)&list->lh_Tail); }
void Insert(struct List *list, struct Node *node, struct Node *before) {
    if (!before) before = (struct Node *)list;
    if (before->ln_Succ) put(node, before, before->ln_Succ);
    else AddTail(list, node);
}
void Enqueue(struct List *list, struct Node *node) {
    struct Node *at = list->lh_Head;
    while (at->ln_Succ && at->ln_Pri >= node->ln_Pri) at = at->ln_Succ;
    put(node, at->ln_Pred, at);
}
void Remove(struct Node *node) {
    node->ln_Pred->ln_Succ = node->ln_Succ;
    node->ln_Succ->ln_Pred = node->ln_Pred;
}
struct Node *RemHead(struct List *list) {
    struct Node *node = list->lh_Head;
    if (!node->ln_Succ) return 0;
    Remove(node);
    return node;
}
struct Node *RemTail(struct List *list) {
    struct Node *node = list->lh_TailPred;
    if (!node->ln_Pred) return 0;
    Remove(node);
    return node;
}
struct Node *FindName(struct List *list, CONST_STRPTR name) {
    for (struct Node *node = list->lh_Head; node->ln_Succ; node = node->ln_Succ)
        if (node->ln_Name && !strcmp(node->ln_Name, name)) return node;
    return 0;
}
