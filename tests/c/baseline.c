/* An independent, straightforward implementation of document 01 with hashed shapes. Written for clarity, with no proof. */
#include "baseline.h"
#include <setjmp.h>
#include <stdlib.h>
#include <string.h>

typedef uint32_t u32;

enum { MOST_FORMS = 65536, SLOTS = 131072, MOST_NODES = 7168, MOST_NESTED = 512, MOST_LISTED = 4608 };

static const int arity[16] = {1, 2, 2, 1, 2, 1, 1, 2, 2, 3, 2, 1, 1, 0, 2, 0};

/* ---- refusals leave by longjmp */
static jmp_buf leave;
static struct baseline_answer refusal;
static void refuse(u32 number, u32 place) {
    refusal.number = number;
    refusal.values[0] = place;
    refusal.values[1] = refusal.values[2] = 0;
    longjmp(leave, 1);
}

/* ---- propositions, each shape once: kind, left, right; hashed */
struct form { u32 kind, left, right; };
static struct form forms[MOST_FORMS];
static u32 form_count, slots[SLOTS];

static u32 form(u32 kind, u32 left, u32 right) {
    u32 h = (kind * 2654435761u) ^ (left * 2246822519u) ^ (right * 3266489917u);
    for (h = (h ^ h >> 15) % SLOTS; slots[h]; h = (h + 1) % SLOTS) {
        struct form *f = &forms[slots[h] - 1];
        if (f->kind == kind && f->left == left && f->right == right) return slots[h] - 1;
    }
    forms[form_count] = (struct form){kind, left, right};
    slots[h] = ++form_count;
    return form_count - 1;
}

static void forget_forms(void) {
    u32 i;
    for (i = 0; i < form_count; i++) {
        struct form f = forms[i];
        u32 h = (f.kind * 2654435761u) ^ (f.left * 2246822519u) ^ (f.right * 3266489917u);
        for (h = (h ^ h >> 15) % SLOTS; slots[h]; h = (h + 1) % SLOTS) slots[h] = 0;
    }
    form_count = 0;
}

/* ---- bytes */
static const uint8_t *bytes;
static size_t length, at;
static u32 shift; /* 0 in a sheet, 32 in a certificate */

static void fail(u32 number, size_t place) { refuse(number + shift, (u32)place); }

static u32 number(void) {
    size_t place = at;
    u32 value = 0;
    int group;
    for (group = 0; group < 3; group++) {
        u32 b;
        if (at >= length) fail(3, place);
        b = bytes[at++];
        value += (b & 127) << (7 * group);
        if (b < 128) {
            if ((group && !b) || value > 65535) fail(4, place);
            return value;
        }
    }
    fail(4, place);
    return 0;
}

static u32 from_to(u32 low, u32 top) {
    size_t place = at;
    u32 v = number();
    if (v < low || v > top) fail(5, place);
    return v;
}

static u32 below(u32 n) {
    size_t place = at;
    u32 v = number();
    if (v >= n) fail(6, place);
    return v;
}

/* ---- a sheet */
struct pattern { u32 kind, left, right, binders, parts; };
struct phrase { u32 kind, one, two, count, operands[8], patterns[4]; };
static u32 props[512], prop_count, pattern_count, phrase_count, base_count, root;
static struct pattern patterns[128];
static struct phrase phrases[512];

static u32 proposition(const u32 *names, u32 n) {
    size_t place = at;
    u32 kind = number(), left, right;
    if (kind > 7) fail(5, place);
    if (kind == 0) return form(0, from_to(0, 255), 0);
    if (kind < 3) return form(kind, 0, 0);
    left = names[below(n)];
    if (kind == 3) return form(3, left, 0);
    right = names[below(n)];
    return form(kind, left, right);
}

static void read_pattern(u32 n) {
    size_t place = at;
    struct pattern *p = &patterns[n];
    p->kind = number();
    if (p->kind > 6) fail(5, place);
    p->left = p->right = 0;
    p->binders = p->kind == 0;
    p->parts = 1;
    if (p->kind == 1) p->left = props[below(prop_count)];
    if (p->kind >= 2) {
        p->left = below(n);
        p->binders += patterns[p->left].binders;
        p->parts += patterns[p->left].parts;
    }
    if (p->kind >= 3) {
        p->right = below(n);
        p->binders += patterns[p->right].binders;
        p->parts += patterns[p->right].parts;
    }
    if (p->binders > 4 || p->parts > 256) fail(5, place);
}

/* an earlier phrase: class 0 an expression, 1 a deduction, 2 either */
static u32 phrase_ref(u32 n, int class) {
    size_t place = at;
    u32 k = below(n);
    if (class < 2 && (phrases[k].kind >= 16) != class) fail(6, place);
    return k;
}

static void read_phrase(u32 n) {
    size_t place = at;
    struct phrase *p = &phrases[n];
    u32 i, kind = number();
    if (kind > 22 || (kind > 9 && kind < 16)) fail(5, place);
    memset(p, 0, sizeof *p);
    p->kind = kind;
    switch (kind) {
    case 0: p->one = props[below(prop_count)]; break;
    case 1: p->one = from_to(0, 255); break;
    case 2: p->one = from_to(0, 4); break;
    case 3: p->one = from_to(0, 15); break;
    case 4: case 5: p->one = from_to(0, 4); p->two = phrase_ref(n, kind == 5); break;
    case 6: case 16:
        p->one = phrase_ref(n, 0);
        p->count = from_to(0, 4);
        for (i = 0; i < p->count; i++) p->operands[i] = phrase_ref(n, kind == 6 ? 0 : 2);
        break;
    case 7: p->one = phrase_ref(n, 0); p->two = phrase_ref(n, 0); break;
    case 8:
        place = at;
        p->one = below(n);
        if (phrases[p->one].kind != 4 && phrases[p->one].kind != 5) fail(6, place);
        break;
    case 9: case 22:
        p->one = phrase_ref(n, kind == 9 ? 0 : 2);
        p->count = from_to(1, 4);
        for (i = 0; i < p->count; i++) {
            p->patterns[i] = below(pattern_count);
            p->operands[i] = phrase_ref(n, kind == 22);
        }
        break;
    case 19: p->one = phrase_ref(n, 2); p->two = phrase_ref(n, 1); break;
    case 21:
        p->count = from_to(1, 8);
        for (i = 0; i < p->count; i++) p->operands[i] = phrase_ref(n, 1);
        break;
    default: p->one = phrase_ref(n, 0); p->two = phrase_ref(n, 1); break;
    }
}

/* ---- the base: grounds of each proposition, counted, and the stack of them */
static u32 grounds[MOST_FORMS], stack[8192], top;

static void join(u32 p) { stack[top++] = p; grounds[p]++; }
static void cut(u32 to) { while (top > to) grounds[stack[--top]]--; }

static void read_sheet(const uint8_t *s, size_t n) {
    u32 i;
    bytes = s; length = n; at = 0; shift = 0;
    prop_count = from_to(0, 512);
    for (i = 0; i < prop_count; i++) props[i] = proposition(props, i);
    pattern_count = from_to(0, 128);
    for (i = 0; i < pattern_count; i++) read_pattern(i);
    phrase_count = from_to(1, 512);
    for (i = 0; i < phrase_count; i++) read_phrase(i);
    base_count = from_to(0, 64);
    for (i = 0; i < base_count; i++) join(props[below(prop_count)]);
    root = phrase_ref(phrase_count, 1);
    if (at != length) fail(7, at);
}

/* ---- the sixteen rules: 13 for shapes, then 14 for premises, at a place */
static u32 rule(u32 r, const u32 *x, u32 place) {
    struct form a = arity[r] > 0 ? forms[x[0]] : (struct form){1, 0, 0}, b = arity[r] > 1 ? forms[x[1]] : a, c;
    u32 premises = arity[r], from = 0, i, given = 0;
    int ok = 1;
    switch (r) {
    case 0: given = x[0]; break;
    case 1: ok = a.kind == 6 && a.left == x[1]; given = a.right; break;
    case 2: ok = a.kind == 6 && b.kind == 3 && b.left == a.right; if (ok) given = form(3, a.left, 0); break;
    case 3: ok = a.kind == 3 && forms[a.left].kind == 3; if (ok) given = forms[a.left].left; break;
    case 4: given = form(4, x[0], x[1]); break;
    case 5: ok = a.kind == 4; given = a.left; break;
    case 6: ok = a.kind == 4; given = a.right; break;
    case 7: given = form(5, x[0], x[1]); premises = 1; break;
    case 8: given = form(5, x[0], x[1]); from = 1; break;
    case 9:
        c = forms[x[2]];
        ok = a.kind == 5 && b.kind == 6 && b.left == a.left && c.kind == 6 && c.left == a.right && c.right == b.right;
        given = b.right;
        break;
    case 10: ok = a.kind == 6 && b.kind == 6 && b.left == a.right && b.right == a.left; if (ok) given = form(7, a.left, a.right); break;
    case 11: ok = a.kind == 7; if (ok) given = form(6, a.left, a.right); break;
    case 12: ok = a.kind == 7; if (ok) given = form(6, a.right, a.left); break;
    case 13: given = form(1, 0, 0); break;
    case 14: ok = b.kind == 3 && b.left == x[0]; given = form(2, 0, 0); break;
    default: given = form(3, form(2, 0, 0), 0); break;
    }
    if (!ok) refuse(13, place);
    for (i = from; i < premises; i++) if (!grounds[x[i]]) refuse(14, place);
    return given;
}

/* ---- plain proofs: kind 0 a rule, 1 a sequence, 2 an assumption */
struct node { u32 kind, rule, arguments[3], left, right, form, offset; };
static struct node nodes[16384];
static u32 node_count;

static u32 new_node(u32 kind) {
    memset(&nodes[node_count], 0, sizeof nodes[0]);
    nodes[node_count].kind = kind;
    return node_count++;
}

static u32 inferences(u32 n) {
    struct node *d = &nodes[n];
    return d->kind == 0 ? 1 : d->kind == 1 ? inferences(d->left) + inferences(d->right) : inferences(d->left);
}

/* ---- the check */
static u32 names[MOST_LISTED], listed;

static u32 read_node(u32 nested) {
    size_t place = at;
    u32 kind = number(), n, i;
    if (kind > 2) fail(5, place);
    if (nested > MOST_NESTED || node_count >= MOST_NODES) refuse(19, (u32)place);
    n = new_node(kind);
    nodes[n].offset = (u32)place;
    if (kind == 0) {
        nodes[n].rule = from_to(0, 15);
        for (i = 0; i < (u32)arity[nodes[n].rule]; i++) nodes[n].arguments[i] = names[below(listed)];
    } else if (kind == 1) {
        u32 left = read_node(nested + 1);
        nodes[n].left = left;
        nodes[n].right = read_node(nested + 1);
    } else {
        nodes[n].form = names[below(listed)];
        nodes[n].left = read_node(nested + 1);
    }
    return n;
}

static u32 conclude(u32 n) {
    struct node *d = &nodes[n];
    u32 mark = top, p;
    if (d->kind == 0) return rule(d->rule, d->arguments, d->offset);
    if (d->kind == 1) {
        join(conclude(d->left));
        p = conclude(d->right);
        cut(mark);
        return p;
    }
    join(d->form);
    p = conclude(d->left);
    cut(mark);
    return form(6, d->form, p);
}

static void clear(void) { cut(0); forget_forms(); node_count = 0; }

struct baseline_answer baseline_check(const uint8_t *sheet, size_t sheet_length, const uint8_t *certificate, size_t certificate_length) {
    struct baseline_answer a = {0, {0, 0, 0}};
    if (!setjmp(leave)) {
        u32 i, proof, stated;
        size_t place;
        read_sheet(sheet, sheet_length);
        bytes = certificate; length = certificate_length; at = 0; shift = 32;
        listed = from_to(0, MOST_LISTED);
        for (i = 0; i < listed; i++) names[i] = proposition(names, i);
        proof = read_node(1);
        place = at;
        stated = below(listed);
        if (at != length) fail(7, at);
        if (conclude(proof) != names[stated]) refuse(20, (u32)place);
        a.values[0] = stated;
        a.values[1] = inferences(proof);
    } else a = refusal;
    clear();
    return a;
}

/* ---- the run */
enum { FORM, CONSTRUCTOR, RULE, FUNCTION, METHOD };
struct value { u32 kind, number, env; int self; };
struct binding { struct value value; u32 next; };
static struct binding bindings[65536];
static u32 binding_count, work, budget_left;

static u32 bind(u32 env, struct value v) {
    bindings[binding_count] = (struct binding){v, env};
    return ++binding_count;
}

struct derived { u32 conclusion, proof; };
static struct value evaluate(u32 env, u32 k, u32 nested);
static struct derived deduce(u32 env, u32 k, u32 nested);

static void enter(u32 k, u32 nested) {
    if (!budget_left) refuse(8, k);
    if (nested > 64) refuse(9, k);
    budget_left--;
    work++;
}

static u32 proposition_of(struct value v, u32 k) {
    if (v.kind != FORM) refuse(11, k);
    return v.number;
}

static struct value form_value(u32 p) { return (struct value){FORM, p, 0, 0}; }

/* the bindings under a closure's parameters */
static u32 scope(struct value v) { return v.self ? bind(v.env, v) : v.env; }

static int fits(u32 q, u32 p, u32 *found, u32 *count) {
    struct pattern *x = &patterns[q];
    struct form f = forms[p];
    switch (x->kind) {
    case 0: found[(*count)++] = p; return 1;
    case 1: return x->left == p;
    case 2: return f.kind == 3 && fits(x->left, f.left, found, count);
    default: return f.kind == x->kind + 1 && fits(x->left, f.left, found, count) && fits(x->right, f.right, found, count);
    }
}

/* the first clause that fits: its body, and its bindings on env */
static u32 choose(struct phrase *x, u32 p, u32 *env, u32 k) {
    u32 i, j, found[4], count;
    for (i = 0; i < x->count; i++) {
        count = 0;
        if (fits(x->patterns[i], p, found, &count)) {
            for (j = 0; j < count; j++) *env = bind(*env, form_value(found[j]));
            return x->operands[i];
        }
    }
    refuse(17, k);
    return 0;
}

static struct value call(struct value f, struct value *v, u32 n, u32 k, u32 nested) {
    u32 i, env;
    if (f.kind == CONSTRUCTOR) {
        if (n != (f.number ? 2u : 1u)) refuse(12, k);
        for (i = 0; i < n; i++) proposition_of(v[i], k);
        return form_value(f.number ? form(f.number + 3, v[0].number, v[1].number) : form(3, v[0].number, 0));
    }
    if (f.kind != FUNCTION) refuse(11, k);
    if (n != phrases[f.number].one) refuse(12, k);
    env = scope(f);
    for (i = 0; i < n; i++) env = bind(env, v[i]);
    return evaluate(env, phrases[f.number].two, nested);
}

static struct value evaluate(u32 env, u32 k, u32 nested) {
    struct phrase *x = &phrases[k];
    struct value v, w[4];
    u32 i, body;
    enter(k, nested);
    switch (x->kind) {
    case 0: return form_value(x->one);
    case 1:
        for (i = x->one; env && i; i--) env = bindings[env - 1].next;
        if (!env) refuse(10, k);
        return bindings[env - 1].value;
    case 2: return (struct value){CONSTRUCTOR, x->one, 0, 0};
    case 3: return (struct value){RULE, x->one, 0, 0};
    case 4: return (struct value){FUNCTION, k, env, 0};
    case 5: return (struct value){METHOD, k, env, 0};
    case 6:
        v = evaluate(env, x->one, nested + 1);
        for (i = 0; i < x->count; i++) w[i] = evaluate(env, x->operands[i], nested + 1);
        return call(v, w, x->count, k, nested + 1);
    case 7:
        v = evaluate(env, x->one, nested + 1);
        return evaluate(bind(env, v), x->two, nested + 1);
    case 8: return (struct value){phrases[x->one].kind == 4 ? FUNCTION : METHOD, x->one, env, 1};
    default:
        v = evaluate(env, x->one, nested + 1);
        body = choose(x, proposition_of(v, k), &env, k);
        return evaluate(env, body, nested + 1);
    }
}

static u32 rule_node(u32 r, const u32 *x) {
    u32 n = new_node(0), i;
    nodes[n].rule = r;
    for (i = 0; i < (u32)arity[r]; i++) nodes[n].arguments[i] = x[i];
    return n;
}

static u32 sequence(u32 left, u32 right) {
    u32 n = new_node(1);
    nodes[n].left = left;
    nodes[n].right = right;
    return n;
}

static u32 under(u32 p, u32 d) {
    u32 n = new_node(2);
    nodes[n].form = p;
    nodes[n].left = d;
    return n;
}

static struct derived apply(u32 env, struct phrase *x, u32 k, u32 nested) {
    struct value f = evaluate(env, x->one, nested + 1), v[4];
    struct derived lemmas[4], d;
    u32 i, lemma_count = 0, mark = top, scope_env, arguments[4];
    for (i = 0; i < x->count; i++) {
        if (phrases[x->operands[i]].kind >= 16) {
            lemmas[lemma_count] = deduce(env, x->operands[i], nested + 1);
            v[i] = form_value(lemmas[lemma_count++].conclusion);
        } else v[i] = evaluate(env, x->operands[i], nested + 1);
    }
    for (i = 0; i < lemma_count; i++) join(lemmas[i].conclusion);
    if (f.kind == RULE) {
        if (x->count != (u32)arity[f.number]) refuse(12, k);
        for (i = 0; i < x->count; i++) arguments[i] = proposition_of(v[i], k);
        d.conclusion = rule(f.number, arguments, k);
        d.proof = rule_node(f.number, arguments);
    } else {
        if (f.kind != METHOD) refuse(11, k);
        if (x->count != phrases[f.number].one) refuse(12, k);
        scope_env = scope(f);
        for (i = 0; i < x->count; i++) scope_env = bind(scope_env, v[i]);
        d = deduce(scope_env, phrases[f.number].two, nested + 1);
    }
    cut(mark);
    while (lemma_count) d.proof = sequence(lemmas[--lemma_count].proof, d.proof);
    return d;
}

static struct derived steps(u32 env, struct phrase *x, u32 i, u32 nested) {
    struct derived d = deduce(env, x->operands[i], nested), rest;
    if (i + 1 == x->count) return d;
    join(d.conclusion);
    rest = steps(env, x, i + 1, nested);
    rest.proof = sequence(d.proof, rest.proof);
    return rest;
}

static struct derived deduce(u32 env, u32 k, u32 nested) {
    struct phrase *x = &phrases[k];
    struct derived d, lemma;
    struct value v;
    u32 p, mark, body, arguments[2];
    enter(k, nested);
    mark = top;
    switch (x->kind) {
    case 16: return apply(env, x, k, nested);
    case 17: case 18:
        p = proposition_of(evaluate(env, x->one, nested + 1), k);
        join(p);
        d = deduce(env, x->two, nested + 1);
        cut(mark);
        if (x->kind == 17) return (struct derived){form(6, p, d.conclusion), under(p, d.proof)};
        if (forms[d.conclusion].kind != 2) refuse(16, k);
        arguments[0] = form(6, p, d.conclusion);
        arguments[1] = form(3, d.conclusion, 0);
        body = rule_node(15, arguments);
        body = sequence(body, rule_node(2, arguments));
        return (struct derived){form(3, p, 0), sequence(under(p, d.proof), body)};
    case 19:
        if (phrases[x->one].kind < 16) {
            v = evaluate(env, x->one, nested + 1);
            return deduce(bind(env, v), x->two, nested + 1);
        }
        lemma = deduce(env, x->one, nested + 1);
        join(lemma.conclusion);
        d = deduce(bind(env, form_value(lemma.conclusion)), x->two, nested + 1);
        cut(mark);
        d.proof = sequence(lemma.proof, d.proof);
        return d;
    case 20:
        d = deduce(env, x->two, nested + 1);
        if (proposition_of(evaluate(env, x->one, nested + 1), k) != d.conclusion) refuse(15, k);
        return d;
    case 21:
        d = steps(env, x, 0, nested + 1);
        cut(mark);
        return d;
    default:
        if (phrases[x->one].kind < 16) p = proposition_of(evaluate(env, x->one, nested + 1), k);
        else p = deduce(env, x->one, nested + 1).conclusion;
        body = choose(x, p, &env, k);
        return deduce(env, body, nested + 1);
    }
}

/* ---- the certificate's bytes */
static u32 number_of[MOST_FORMS], listing[MOST_FORMS], listing_count;
static uint8_t text[262144];
static size_t text_length;

static void list(u32 p) {
    struct form f = forms[p];
    if (number_of[p]) return;
    if (f.kind >= 3) list(f.left);
    if (f.kind >= 4) list(f.right);
    listing[listing_count] = p;
    number_of[p] = ++listing_count;
}

static void list_proof(u32 n) {
    struct node *d = &nodes[n];
    u32 i;
    if (d->kind == 0) for (i = 0; i < (u32)arity[d->rule]; i++) list(d->arguments[i]);
    else if (d->kind == 1) { list_proof(d->left); list_proof(d->right); }
    else { list(d->form); list_proof(d->left); }
}

static void put(u32 v) {
    while (v >= 128) { text[text_length++] = (uint8_t)(128 + v % 128); v /= 128; }
    text[text_length++] = (uint8_t)v;
}

static void put_proof(u32 n) {
    struct node *d = &nodes[n];
    u32 i;
    put(d->kind);
    if (d->kind == 0) {
        put(d->rule);
        for (i = 0; i < (u32)arity[d->rule]; i++) put(number_of[d->arguments[i]] - 1);
    } else if (d->kind == 1) { put_proof(d->left); put_proof(d->right); }
    else { put(number_of[d->form] - 1); put_proof(d->left); }
}

static void write_certificate(struct derived d) {
    u32 i;
    text_length = 0;
    list_proof(d.proof);
    list(d.conclusion);
    put(listing_count);
    for (i = 0; i < listing_count; i++) {
        struct form f = forms[listing[i]];
        put(f.kind);
        if (f.kind == 0) put(f.left);
        if (f.kind >= 3) put(number_of[f.left] - 1);
        if (f.kind >= 4) put(number_of[f.right] - 1);
    }
    put_proof(d.proof);
    put(number_of[d.conclusion] - 1);
    for (i = 0; i < listing_count; i++) number_of[listing[i]] = 0;
    listing_count = 0;
}

struct baseline_answer baseline_evaluate(const uint8_t *sheet, size_t sheet_length, uint32_t budget, uint8_t *out, size_t room) {
    struct baseline_answer a = {0, {0, 0, 0}};
    if (!setjmp(leave)) {
        struct derived d;
        if (budget > 1024) refuse(1, 0);
        read_sheet(sheet, sheet_length);
        binding_count = work = 0;
        budget_left = budget;
        d = deduce(0, root, 1);
        write_certificate(d);
        if (text_length > room) refuse(18, 0);
        memcpy(out, text, text_length);
        a.values[0] = (u32)text_length;
        a.values[1] = work;
        a.values[2] = inferences(d.proof);
    } else a = refusal;
    clear();
    return a;
}
