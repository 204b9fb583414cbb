// Compares two netlists with BuDDy. Reads what comparer_wide reads and prints what it prints, but for the first row: that
// has the pairs, the word BUDDY and nothing else. What the run took goes to standard error, in one line of name=number.
//
//     buddy NODES CACHE < netlists         a table of NODES nodes, and caches of CACHE entries
//     buddy --test                         checks the five-valued formulas against their tables
//
// Two values: a diagram for each line, XOR for each pair. Five values: three diagrams for each line, of the functions
//   h  the value is 1 or X
//   l  the value is 0 or X
//   s  the value is S
// so that 0, 1, X, Z, S are h l s = 010, 100, 110, 000, 001.
#include <bdd.h>
#include <sys/resource.h>
#include <cstdio>
#include <cstdlib>
#include <cstring>
#include <string>
#include <vector>

enum Kind { INPUT, CONST, NOT, AND, OR, IFAND, IFOR, WIRE, OUT, GRADE };

static const char *const WORDS[] = {"INPUT ", "CONST ", "NOT   ", "AND   ", "OR    ", "IFAND ", "IFOR  ", "WIRE  ", "OUT   "};

struct Line {
    int kind, first, second;
};

struct Netlist {
    int inputs, values;
    std::vector<Line> lines;
};

[[noreturn]] static void fail(const char *why) {
    fprintf(stderr, "buddy: %s\n", why);
    exit(1);
}

static int number(const char *row, int from, int to) {
    int n = 0;
    for (int i = from; i < to; i++)
        if (row[i] >= '0' && row[i] <= '9') n = 10 * n + (row[i] - '0');
    return n;
}

// The netlist whose HEAD row stands at `at`, which is moved past it.
static Netlist read_netlist(const std::string &text, size_t &at) {
    if (at + 25 > text.size() || memcmp(&text[at + 6], "HEAD  ", 6) != 0) fail("no HEAD row");
    const char *row = &text[at];
    Netlist net{number(row, 12, 18), number(row, 18, 24), {}};
    int count = number(row, 0, 5);
    at += 25;
    if (at + 25 * (size_t)count > text.size()) fail("a row is missing");
    for (int i = 0; i < count; i++, at += 25) {
        row = &text[at];
        int kind = 0;
        while (kind <= OUT && memcmp(row + 6, WORDS[kind], 6) != 0) kind++;
        if (kind > OUT) fail("no such word");
        net.lines.push_back(Line{kind, number(row, 12, 18), number(row, 18, 24)});
    }
    return net;
}

struct Finding {
    int grade;  // 0 for a clean pair
    int left, right;
    std::string pattern;
};

// The first pattern on which a function is true, if there is one: a bit that does not matter is down.
static std::string first_true(bdd f, int inputs) {
    std::string bits(inputs, '0');
    while (f != bddtrue) {
        bdd low = bdd_low(f);
        if (low == bddfalse) {
            bits[bdd_var(f)] = '1';
            f = bdd_high(f);
        } else {
            f = low;
        }
    }
    return bits;
}

static bool is_true(bdd f, const std::string &pattern) {
    while (f != bddtrue && f != bddfalse) f = pattern[bdd_var(f)] == '1' ? bdd_high(f) : bdd_low(f);
    return f == bddtrue;
}

struct Two {
    typedef bdd Signal;
    static Signal constant(int code) { return code ? bddtrue : bddfalse; }
    static Signal input(int number) { return bdd_ithvar(number); }
    static Signal turn(const Signal &x) { return !x; }
    static Signal join(int op, const Signal &x, const Signal &y) {
        switch (op) {
            case AND:
            case IFAND: return x & y;
            case OR:
            case IFOR: return x | y;
            case GRADE: return x ^ y;
        }
        fail("two values have no such operator");
    }
    static int value(const Signal &x, const std::string &pattern) { return is_true(x, pattern); }
    // The functions of the grades, the gravest first.
    static std::vector<std::pair<int, bdd>> grades(const Signal &g) { return {{1, g}}; }
};

struct Five {
    struct Signal {
        bdd h, l, s;
    };
    static Signal constant(int code) {
        bdd t = bddtrue, f = bddfalse;
        switch (code) {
            case 0: return {f, t, f};
            case 1: return {t, f, f};
            case 2: return {t, t, f};
            case 3: return {f, f, f};
            case 4: return {f, f, t};
        }
        fail("no such code");
    }
    static Signal input(int number) { return {bdd_ithvar(number), bdd_nithvar(number), bddfalse}; }
    static bdd without(const bdd &x, const bdd &y) { return bdd_apply(x, y, bddop_diff); }
    static bdd neither(const bdd &x, const bdd &y) { return bdd_apply(x, y, bddop_nor); }
    static bdd is_0(const Signal &x) { return without(x.l, x.h); }
    static bdd is_1(const Signal &x) { return without(x.h, x.l); }
    // The value 1, X or Z, and the value 0, X or Z: AND and OR read Z as X.
    static bdd may_be_1(const Signal &x) { return without(x.h | !x.l, x.s); }
    static bdd may_be_0(const Signal &x) { return without(x.l | !x.h, x.s); }
    // NOT: 1 0 X X S.
    static Signal turn(const Signal &x) { return {neither(x.s, is_1(x)), neither(x.s, is_0(x)), x.s}; }
    static Signal join(int op, const Signal &x, const Signal &y) {
        switch (op) {
            case AND: {
                bdd s = x.s | y.s;
                return {may_be_1(x) & may_be_1(y), without(may_be_0(x) | may_be_0(y), s), s};
            }
            case OR: {
                bdd s = x.s | y.s;
                return {without(may_be_1(x) | may_be_1(y), s), may_be_0(x) & may_be_0(y), s};
            }
            case WIRE: {
                bdd s = x.s | y.s | ((x.h | x.l) & (y.h | y.l));
                return {without(x.h | y.h, s), without(x.l | y.l, s), s};
            }
            case IFAND: {
                bdd off = is_0(x), on = is_1(x);
                bdd open = neither(x.h ^ x.l, x.s | y.s);  // X or Z on the left, and no S
                return {(on & y.h) | open, off | (on & y.l) | open, x.s | without(y.s, off)};
            }
            case IFOR: {
                bdd s = x.s | y.s;
                bdd l = (x.h & x.l) | (y.h & y.l) | (x.l & y.l);  // an X, or both 0
                return {without(x.h | y.h, s), without(l, is_1(x) | is_1(y) | s), s};
            }
            case GRADE: {
                bdd some_x = (x.h & x.l) | (y.h & y.l);
                bdd s = without(x.s | y.s, some_x);
                bdd differ = (x.h ^ y.h) | (x.l ^ y.l);
                return {some_x | without(differ, s), some_x | neither(differ, s), s};
            }
        }
        fail("no such operator");
    }
    static int value(const Signal &x, const std::string &pattern) {
        if (is_true(x.s, pattern)) return 4;
        bool h = is_true(x.h, pattern), l = is_true(x.l, pattern);
        return h ? (l ? 2 : 1) : (l ? 0 : 3);
    }
    static std::vector<std::pair<int, bdd>> grades(const Signal &g) {
        return {{1, is_1(g)}, {4, g.s}, {2, g.h & g.l}};
    }
};

template <class A> static std::vector<typename A::Signal> lay(const Netlist &net) {
    std::vector<typename A::Signal> signals;
    signals.reserve(net.lines.size());
    for (const Line &line : net.lines) {
        switch (line.kind) {
            case INPUT: signals.push_back(A::input(line.first)); break;
            case CONST: signals.push_back(A::constant(line.first)); break;
            case NOT: signals.push_back(A::turn(signals.at(line.first))); break;
            case OUT: signals.push_back(signals.at(line.first)); break;
            default: signals.push_back(A::join(line.kind, signals.at(line.first), signals.at(line.second)));
        }
    }
    return signals;
}

template <class A> static Finding check(const typename A::Signal &x, const typename A::Signal &y, int inputs) {
    typename A::Signal g = A::join(GRADE, x, y);
    for (const auto &[grade, f] : A::grades(g))
        if (f != bddfalse) {
            std::string pattern = first_true(f, inputs);
            return {grade, A::value(x, pattern), A::value(y, pattern), pattern};
        }
    return {0, 0, 0, ""};
}

static double seconds() {
    rusage u;
    getrusage(RUSAGE_SELF, &u);
    return u.ru_utime.tv_sec + u.ru_utime.tv_usec * 1e-6;
}

static int collections = 0, growths = 0;

template <class A> static void compare(const Netlist &first, const Netlist &second) {
    double from = seconds();
    auto one = lay<A>(first), two = lay<A>(second);
    std::vector<size_t> outs;
    for (size_t i = 0; i < second.lines.size(); i++)
        if (second.lines[i].kind == OUT) outs.push_back(i);
    std::vector<Finding> found;
    for (size_t i = 0; i < first.lines.size(); i++)
        if (first.lines[i].kind == OUT) {
            if (found.size() == outs.size()) fail("the counts of OUT lines differ");
            found.push_back(check<A>(one[i], two[outs[found.size()]], first.inputs));
        }
    if (found.size() != outs.size()) fail("the counts of OUT lines differ");
    double work = seconds() - from;
    printf("%5zu BUDDY\n", found.size());
    for (size_t i = 0; i < found.size(); i++) {
        const Finding &f = found[i];
        printf("%5zu %c", i, "01XZS"[f.grade]);
        if (f.grade) printf(" %c %c %s", "01XZS"[f.left], "01XZS"[f.right], f.pattern.c_str());
        printf("\n");
    }
    fflush(stdout);
    bddStat stat;
    bdd_stats(&stat);
    fprintf(stderr, "produced=%ld collections=%d growths=%d work=%.6f\n", stat.produced, collections, growths, work);
}

static void start(int nodes, int cache, int inputs) {
    if (bdd_init(nodes, cache) < 0) fail("no memory");
    bdd_gbc_hook([](int before, bddGbcStat *) { collections += before; });
    bdd_resize_hook([](int, int) { growths++; });
    bdd_setmaxincrease(nodes);
    bdd_setvarnum(inputs);
    bdd_disable_reorder();
}

static const char *const TABLES[][6] = {
    {"", "", "", "", "", ""},
    {"", "", "", "", "", ""},
    {"", "", "", "", "", ""},
    {"AND", "0000S", "01XXS", "0XXXS", "0XXXS", "SSSSS"},
    {"OR", "01XXS", "1111S", "X1XXS", "X1XXS", "SSSSS"},
    {"IFAND", "00000", "01XZS", "XXXXS", "XXXXS", "SSSSS"},
    {"IFOR", "01XZS", "1111S", "X1XXS", "Z1XZS", "SSSSS"},
    {"WIRE", "SSS0S", "SSS1S", "SSSXS", "01XZS", "SSSSS"},
    {"", "", "", "", "", ""},
    {"GRADE", "01X1S", "10X1S", "XXXXX", "11X0S", "SSXSS"},
};

// Every formula on every value: the codes, NOT and the six operators.
static void test() {
    start(1000, 1000, 1);
    auto same = [](const Five::Signal &x, int code) {
        Five::Signal c = Five::constant(code);
        return x.h == c.h && x.l == c.l && x.s == c.s;
    };
    auto code = [](char letter) { return (int)(strchr("01XZS", letter) - "01XZS"); };
    for (int x = 0; x < 5; x++) {
        if (Five::value(Five::constant(x), "0") != x) fail("test: code");
        if (!same(Five::turn(Five::constant(x)), code("10XXS"[x]))) fail("test: NOT");
        for (int op : {AND, OR, IFAND, IFOR, WIRE, GRADE})
            for (int y = 0; y < 5; y++)
                if (!same(Five::join(op, Five::constant(x), Five::constant(y)), code(TABLES[op][x + 1][y]))) fail(TABLES[op][0]);
    }
    bdd v = bdd_ithvar(0);
    if (first_true(v, 2) != "10" || first_true(!v, 2) != "00") fail("test: pattern");
    printf("formulas agree with their tables\n");
}

int main(int count, char **args) {
    if (count == 2 && strcmp(args[1], "--test") == 0) {
        test();
        return 0;
    }
    if (count != 3) fail("NODES CACHE < netlists, or --test");
    std::string text;
    char block[65536];
    for (size_t n; (n = fread(block, 1, sizeof block, stdin)) > 0;) text.append(block, n);
    size_t at = 0;
    Netlist first = read_netlist(text, at), second = read_netlist(text, at);
    if (at != text.size()) fail("bytes after the second netlist");
    if (first.inputs != second.inputs || first.values != second.values) fail("the HEAD rows differ");
    start(atoi(args[1]), atoi(args[2]), first.inputs);
    if (first.values == 2)
        compare<Two>(first, second);
    else
        compare<Five>(first, second);
    fflush(stdout);
    fflush(stderr);
    _Exit(0);
}
