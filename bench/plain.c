/* A plain checker of ground Horn steps, as a yardstick for `check`: nothing is proved of it, and it is no part of the program.

   plain PROBLEM PROOF reads a problem whose formulas are atoms, or `! [X,..] : (atoms => atoms)`, the last one a conjecture that
   is an atom without variables, and a proof text of version 1 whose steps add no elements and give facts, and which ends by
   `as 1 []`. It makes the checks that `check` makes of such texts: each token is what the grammar wants there, each name is that
   of a formula, each variable is bound, each element is known, each instance has as many elements as variables, each premise
   stands, the line that is shown is the one that the step gives, and the conjecture stands at the end. It prints the size of an
   accepted proof, as `check` does, and otherwise the offset of the byte that is refused, and ends with 1. */
#include <stdio.h>
#include <stdlib.h>
#include <string.h>

typedef unsigned int u32;
typedef struct { const char *text; u32 length; } word;
typedef struct { u32 symbol, first, arguments; } atom;
typedef struct { u32 variables, premises, first, atoms; } rule;
typedef struct { void *items; u32 length, room; } list;
/* Places of items by hash, one more than the number of the item, and 0 where there is none. */
typedef struct { u32 *places, room, count; } table;

static const char *start, *at, *end;
static list names, rules, atoms, slots, facts, bound;
static table name_table, fact_table;
static u32 *rule_of, *element_of, elements;

static void refuse(void) {
    printf("refused at %ld\n", (long)(at - start));
    exit(1);
}

static void *grow(void *items, size_t size) {
    items = realloc(items, size);
    if (!items) exit(71);
    return items;
}

/* The place for one more item of a list. */
#define PUSH(list, type) \
    (*((list).length < (list).room ? (type *)(list).items + (list).length++ : (type *)more(&(list), sizeof(type))))
#define AT(list, type, number) (((type *)(list).items)[number])

static void *more(list *l, size_t size) {
    l->room = l->room ? 2 * l->room : 16;
    l->items = grow(l->items, l->room * size);
    return (char *)l->items + size * l->length++;
}

static void read_file(const char *path) {
    FILE *file = fopen(path, "rb");
    if (!file) exit(66);
    size_t length = 0, room = 1 << 16, got;
    char *bytes = grow(0, room + 1);
    while ((got = fread(bytes + length, 1, room - length, file)) > 0) {
        length += got;
        if (length == room) bytes = grow(bytes, (room *= 2) + 1);
    }
    fclose(file);
    bytes[length] = 0;
    start = at = bytes;
    end = bytes + length;
}

static void skip(void) {
    for (;;) {
        while (*at == ' ' || *at == '\n' || *at == '\t' || *at == '\r') at++;
        if (*at != '%') return;
        while (at < end && *at != '\n') at++;
    }
}

static int is_word(char byte) {
    return (byte >= 'a' && byte <= 'z') || (byte >= 'A' && byte <= 'Z') || (byte >= '0' && byte <= '9') || byte == '_';
}

static int sees(char byte) {
    skip();
    return *at == byte;
}

static int takes(char byte) {
    return sees(byte) && ++at;
}

static void want(char byte) {
    if (!takes(byte)) refuse();
}

static word next_word(void) {
    skip();
    word found = {at, 0};
    while (is_word(at[found.length])) found.length++;
    if (!found.length) refuse();
    at += found.length;
    return found;
}

static void want_word(const char *text) {
    word found = next_word();
    if (found.length != strlen(text) || memcmp(found.text, text, found.length)) refuse();
}

static int is_upper(word w) {
    return w.text[0] >= 'A' && w.text[0] <= 'Z';
}

static u32 hash_bytes(const char *text, u32 length) {
    u32 hash = 2166136261u;
    for (u32 i = 0; i < length; i++) hash = (hash ^ (unsigned char)text[i]) * 16777619u;
    return hash ^ hash >> 15;
}

/* Makes room for one more item in a table whose items have these hashes. */
static void widen(table *t, u32 (*hash_of)(u32)) {
    if (2 * t->count++ < t->room) return;
    t->room = t->room ? 4 * t->room : 64;
    free(t->places);
    t->places = calloc(t->room, sizeof(u32));
    if (!t->places) exit(71);
    for (u32 item = 0; item + 1 < t->count; item++) {
        u32 place = hash_of(item) & (t->room - 1);
        while (t->places[place]) place = (place + 1) & (t->room - 1);
        t->places[place] = item + 1;
    }
}

static u32 name_hash(u32 name) {
    return hash_bytes(AT(names, word, name).text, AT(names, word, name).length);
}

/* The number of a name, which is a new one where the word is new. */
static u32 number_of(word w) {
    widen(&name_table, name_hash);
    u32 place = hash_bytes(w.text, w.length) & (name_table.room - 1);
    for (u32 item; (item = name_table.places[place]); place = (place + 1) & (name_table.room - 1)) {
        word known = AT(names, word, item - 1);
        if (known.length == w.length && !memcmp(known.text, w.text, w.length)) { name_table.count--; return item - 1; }
    }
    PUSH(names, word) = w;
    rule_of = names.length & (names.length - 1) ? rule_of : grow(rule_of, 2 * names.length * sizeof(u32));
    element_of = names.length & (names.length - 1) ? element_of : grow(element_of, 2 * names.length * sizeof(u32));
    rule_of[names.length - 1] = element_of[names.length - 1] = 0;
    name_table.places[place] = names.length;
    return names.length - 1;
}

static u32 atom_hash(const atom *a) {
    u32 hash = (a->symbol + 1) * 2654435761u;
    for (u32 i = 0; i < a->arguments; i++) hash = (hash ^ AT(slots, u32, a->first + i)) * 16777619u;
    return hash ^ hash >> 15;
}

static u32 fact_hash(u32 fact) {
    return atom_hash(&AT(facts, atom, fact));
}

static int same(const atom *a, const atom *b) {
    return a->symbol == b->symbol && a->arguments == b->arguments
        && !memcmp(&AT(slots, u32, a->first), &AT(slots, u32, b->first), a->arguments * sizeof(u32));
}

static u32 *place_of(const atom *a) {
    u32 place = atom_hash(a) & (fact_table.room - 1);
    while (fact_table.places[place] && !same(&AT(facts, atom, fact_table.places[place] - 1), a))
        place = (place + 1) & (fact_table.room - 1);
    return &fact_table.places[place];
}

/* A slot is twice the number of a variable, or twice that of an element and one more. */
static u32 read_slot(int is_proof) {
    const char *before = at;
    word w = next_word();
    if (is_upper(w)) {
        for (u32 i = bound.length; i-- > 0;) {
            word other = AT(bound, word, i);
            if (other.length == w.length && !memcmp(other.text, w.text, w.length)) return 2 * i;
        }
        at = before;
        refuse();
    }
    u32 name = number_of(w);
    if (!element_of[name]) {
        if (is_proof) { at = before; refuse(); }
        element_of[name] = ++elements;
    }
    return 2 * element_of[name] - 1;
}

static atom read_atom(int is_proof) {
    word w = next_word();
    atom a = {number_of(w), slots.length, 0};
    if (is_upper(w)) refuse();
    if (takes('(')) {
        do {
            u32 slot = read_slot(is_proof);
            PUSH(slots, u32) = slot;
            a.arguments++;
        } while (takes(','));
        want(')');
    }
    return a;
}

static u32 read_atoms(void) {
    u32 count = 0;
    do {
        atom a = read_atom(0);
        PUSH(atoms, atom) = a;
        count++;
    } while (takes('&'));
    return count;
}

/* Reads a formula: the last one is the conjecture, and its role is told. */
static int read_formula(void) {
    want_word("fof");
    want('(');
    u32 name = number_of(next_word());
    want(',');
    word role = next_word();
    want(',');
    rule r = {0, 0, atoms.length, 0};
    bound.length = 0;
    if (takes('!')) {
        want('[');
        do {
            word w = next_word();
            if (!is_upper(w)) refuse();
            PUSH(bound, word) = w;
        } while (takes(','));
        want(']');
        want(':');
        r.variables = bound.length;
    }
    int open = takes('(');
    r.atoms = read_atoms();
    if (takes('=')) {
        want('>');
        r.premises = r.atoms;
        r.atoms = read_atoms();
    }
    if (open) want(')');
    want(')');
    want('.');
    PUSH(rules, rule) = r;
    if (!rule_of[name]) rule_of[name] = rules.length;
    return role.length == 10 && !memcmp(role.text, "conjecture", 10);
}

/* The instance of an atom, behind all slots. */
static atom instance(const atom *a, u32 first_argument) {
    atom made = {a->symbol, slots.length, a->arguments};
    for (u32 i = 0; i < a->arguments; i++) {
        u32 slot = AT(slots, u32, a->first + i);
        u32 value = slot & 1 ? slot : AT(slots, u32, first_argument + slot / 2);
        PUSH(slots, u32) = value;
    }
    return made;
}

static void read_step(void) {
    word cited = next_word();
    const u32 number = rule_of[number_of(cited)];
    if (!number) { at = cited.text; refuse(); }
    rule r = AT(rules, rule, number - 1);
    u32 arguments = slots.length, count = 0;
    want('[');
    while (!sees(']')) {
        if (count) want(',');
        u32 slot = read_slot(1);
        PUSH(slots, u32) = slot;
        count++;
    }
    want(']');
    if (count != r.variables) refuse();
    for (u32 i = 0; i < r.premises; i++) {
        u32 before = slots.length;
        atom premise = instance(&AT(atoms, atom, r.first + i), arguments);
        if (!*place_of(&premise)) refuse();
        slots.length = before;
    }
    want_word("new");
    want('[');
    want(']');
    want_word("gives");
    for (u32 i = 0; i < r.atoms; i++) {
        if (i) want('&');
        atom shown = read_atom(1), given = instance(&AT(atoms, atom, r.first + r.premises + i), arguments);
        if (!same(&shown, &given)) refuse();
        slots.length = given.first;
        widen(&fact_table, fact_hash);
        u32 *place = place_of(&shown);
        if (*place) { fact_table.count--; continue; }
        PUSH(facts, atom) = shown;
        *place = facts.length;
    }
    want('.');
}

int main(int words, char **word_of) {
    if (words != 3) return 64;
    read_file(word_of[1]);
    int is_goal = 0;
    while (skip(), at < end) {
        if (is_goal) refuse();
        is_goal = read_formula();
    }
    if (!is_goal) refuse();
    rule goal = AT(rules, rule, rules.length - 1);
    rules.length--;
    if (goal.variables || goal.premises || goal.atoms != 1) return 1;
    read_file(word_of[2]);
    want_word("vernacular");
    want_word("1");
    want('.');
    want_word("take");
    want('[');
    want(']');
    want('.');
    u32 size = 1;
    for (;; size++) {
        word w = next_word();
        if (w.length == 2 && !memcmp(w.text, "as", 2)) break;
        if (w.length != 2 || memcmp(w.text, "mp", 2)) { at = w.text; refuse(); }
        read_step();
    }
    want_word("1");
    want('[');
    want(']');
    want('.');
    if (skip(), at < end) refuse();
    widen(&fact_table, fact_hash);
    if (!*place_of(&AT(atoms, atom, goal.first))) refuse();
    printf("accepted %u\n", size);
    return 0;
}
