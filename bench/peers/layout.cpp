// Lays out a text by libraries in place of the crates: levels, break opportunities, lines at a width, and
// rows in visual order. bench/layout builds it twice: with -DICU over ICU, else over FriBidi and libunibreak.
// Usage: layout WIDTH FILE >ROWS, where FILE is UTF-8 with no code point above U+FFFF. At width 0 the file is read, and nothing
// is laid out.
#include <clocale>
#include <cstdint>
#include <cstdio>
#include <cstdlib>
#include <string>
#include <vector>
#include <wchar.h>
#ifdef ICU
#include <unicode/ubidi.h>
#include <unicode/ubrk.h>
#include <unicode/uchar.h>
#else
#include <fribidi.h>
extern "C" {
#include <linebreak.h>
}
#endif

enum Break { No, May, Must };

struct Cluster {
    int start, end, columns;
    bool space;
};

#ifdef ICU
typedef UChar Unit;

// What ICU says of the paragraph that it was given last.
struct Library {
    UErrorCode status = U_ZERO_ERROR;
    UBiDi *paragraph = ubidi_open(), *line = ubidi_open();
    UBreakIterator *lines = ubrk_open(UBRK_LINE, "en", nullptr, 0, &status);
    UBreakIterator *characters = ubrk_open(UBRK_CHARACTER, "en", nullptr, 0, &status);
    std::vector<UBiDiLevel> levels;

    static bool is_separator(Unit c) { return u_charDirection(c) == U_BLOCK_SEPARATOR; }
    static Unit mirror(Unit c) { return u_charMirror(c); }

    bool is_odd() { return ubidi_getParaLevel(paragraph) & 1; }

    static bool is_invisible(Unit c) {
        UCharDirection d = u_charDirection(c);
        return (d >= U_LEFT_TO_RIGHT_EMBEDDING && d <= U_LEFT_TO_RIGHT_OVERRIDE) ||
               (d >= U_RIGHT_TO_LEFT_EMBEDDING && d <= U_POP_DIRECTIONAL_FORMAT) || d == U_BOUNDARY_NEUTRAL ||
               (d >= U_FIRST_STRONG_ISOLATE && d <= U_POP_DIRECTIONAL_ISOLATE);
    }

    static Cluster measured(const Unit *text, int start, int end) {
        bool shown = false, wide = false, space = true;
        for (int at = start; at < end; at++) {
            int width = u_getIntPropertyValue(text[at], UCHAR_EAST_ASIAN_WIDTH);
            wide |= width == U_EA_WIDE || width == U_EA_FULLWIDTH;
            shown |= !is_invisible(text[at]);
            space &= u_getIntPropertyValue(text[at], UCHAR_LINE_BREAK) == U_LB_SPACE;
        }
        return {start, end, is_separator(text[start]) || !shown ? 0 : wide ? 2 : 1, space};
    }

    void read(const Unit *text, int length, std::vector<char> &breaks, std::vector<Cluster> &clusters) {
        ubidi_setPara(paragraph, text, length, UBIDI_DEFAULT_LTR, nullptr, &status);
        ubrk_setText(lines, text, length, &status);
        for (int at; (at = ubrk_next(lines)) != UBRK_DONE;)
            breaks[at - 1] = ubrk_getRuleStatus(lines) >= UBRK_LINE_HARD ? Must : May;
        ubrk_setText(characters, text, length, &status);
        for (int start = 0, end; (end = ubrk_next(characters)) != UBRK_DONE; start = end)
            clusters.push_back(measured(text, start, end));
    }

    // The numbers of a line's clusters from left to right, and whether the level of each is odd.
    void order(const Cluster *of, int count, std::vector<int> &visual, std::vector<bool> &odd) {
        ubidi_setLine(paragraph, of[0].start, of[count - 1].end, line, &status);
        const UBiDiLevel *all = ubidi_getLevels(line, &status);
        levels.resize(count);
        for (int k = 0; k < count; k++)
            odd[k] = (levels[k] = all[of[k].start - of[0].start]) & 1;
        ubidi_reorderVisual(levels.data(), count, visual.data());
    }
};
#else
typedef FriBidiChar Unit;

// What FriBidi and libunibreak say of the paragraph that they were given last.
struct Library {
    std::vector<FriBidiCharType> types;
    std::vector<FriBidiBracketType> brackets;
    std::vector<FriBidiLevel> levels;
    std::vector<FriBidiStrIndex> map, number;
    std::vector<FriBidiChar> shown;
    FriBidiParType base;

    Library() { init_linebreak(); }

    static bool is_separator(Unit c) { return fribidi_get_bidi_type(c) == FRIBIDI_TYPE_BS; }

    static Unit mirror(Unit c) {
        FriBidiChar other = c;
        fribidi_get_mirror_char(c, &other);
        return other;
    }

    bool is_odd() { return FRIBIDI_IS_RTL(base); }

    void read(const Unit *text, int length, std::vector<char> &breaks, std::vector<Cluster> &clusters) {
        types.resize(length), brackets.resize(length), levels.resize(length), map.resize(length), number.resize(length);
        base = FRIBIDI_PAR_ON;
        fribidi_get_bidi_types(text, length, types.data());
        fribidi_get_bracket_types(text, length, types.data(), brackets.data());
        fribidi_get_par_embedding_levels_ex(types.data(), brackets.data(), length, &base, levels.data());
        set_linebreaks_utf32((const utf32_t *)text, length, "en", breaks.data());
        for (int at = 0; at < length; at++) {
            breaks[at] = breaks[at] == LINEBREAK_MUSTBREAK ? Must : breaks[at] == LINEBREAK_ALLOWBREAK ? May : No;
            bool hidden = types[at] == FRIBIDI_TYPE_BS || FRIBIDI_IS_EXPLICIT_OR_BN_OR_NSM(types[at]) || FRIBIDI_IS_ISOLATE(types[at]);
            if (at > 0 && types[at] == FRIBIDI_TYPE_NSM)
                clusters.back().end++;
            else
                clusters.push_back({at, at + 1, hidden ? 0 : wcwidth(text[at]), text[at] == ' '});
        }
        shown.assign(text, text + length);
    }

    void order(const Cluster *of, int count, std::vector<int> &visual, std::vector<bool> &odd) {
        int start = of[0].start, length = of[count - 1].end - start, next = 0;
        for (int k = start; k < start + length; k++)
            map[k] = k, number[k] = -1;
        for (int k = 0; k < count; k++)
            number[of[k].start] = k;
        fribidi_reorder_line(FRIBIDI_FLAGS_DEFAULT, types.data(), length, start, base, levels.data(), shown.data(), map.data());
        for (int k = start; k < start + length; k++)
            if (number[map[k]] >= 0)
                visual[next++] = number[map[k]];
        for (int k = 0; k < count; k++)
            odd[k] = levels[of[k].start] & 1;
    }
};
#endif

static void put(std::string &out, uint32_t c) {
    if (c < 0x80)
        out += (char)c;
    else if (c < 0x800)
        out += (char)(0xC0 | c >> 6), out += (char)(0x80 | (c & 63));
    else
        out += (char)(0xE0 | c >> 12), out += (char)(0x80 | (c >> 6 & 63)), out += (char)(0x80 | (c & 63));
}

struct Layout {
    int width;
    Library library;
    std::vector<char> breaks;
    std::vector<Cluster> clusters;
    std::vector<int> visual;
    std::vector<bool> odd;

    // The greatest opportunity up to which the line fits, spaces at its end not counted, else the greatest boundary.
    int line_end(int from) {
        int columns = 0, solid = 0, opportunity = -1, count = (int)clusters.size();
        for (int at = from; at < count; at++) {
            columns += clusters[at].columns;
            if (!clusters[at].space && clusters[at].columns > 0)
                solid = columns;
            if (solid > width)
                return opportunity >= 0 ? opportunity : at;
            char status = breaks[clusters[at].end - 1];
            if (status == Must)
                return at + 1;
            if (status == May)
                opportunity = at + 1;
        }
        return count;
    }

    void row(const Unit *text, int from, int to, std::string &out) {
        int count = to - from, columns = 0;
        visual.resize(count), odd.resize(count);
        if (count > 0)
            library.order(&clusters[from], count, visual, odd);
        for (int at = from; at < to; at++) {
            if (columns + clusters[at].columns > width)
                clusters[at].columns = 0, columns = width;
            columns += clusters[at].columns;
        }
        int blanks = 0;
        for (int at = from; at < to; at++)
            blanks += clusters[at].columns;
        blanks = width - blanks;
        if (library.is_odd())
            out.append(blanks, ' ');
        for (int k = 0; k < count; k++) {
            const Cluster &cluster = clusters[from + visual[k]];
            for (int at = cluster.start; at < cluster.end && cluster.columns > 0; at++)
                put(out, odd[visual[k]] ? Library::mirror(text[at]) : text[at]);
        }
        if (!library.is_odd())
            out.append(blanks, ' ');
        out += '\n';
    }

    void paragraph(const Unit *text, int length, std::string &out) {
        breaks.assign(length, No);
        clusters.clear();
        library.read(text, length, breaks, clusters);
        int from = 0;
        do {
            int to = line_end(from);
            row(text, from, to, out);
            from = to;
        } while (from < (int)clusters.size());
    }
};

int main(int argc, char **argv) {
    std::setlocale(LC_CTYPE, "C.UTF-8");
    FILE *file = argc == 3 ? std::fopen(argv[2], "rb") : nullptr;
    if (!file)
        return 2;
    std::vector<Unit> text;
    for (int c; (c = std::getc(file)) != EOF;) {
        int more = c < 0x80 ? 0 : c < 0xE0 ? 1 : 2;
        uint32_t point = more == 0 ? c : more == 1 ? c & 31 : c & 15;
        for (; more > 0; more--)
            point = point << 6 | (std::getc(file) & 63);
        text.push_back((Unit)point);
    }
    Layout layout{std::atoi(argv[1])};
    if (layout.width == 0)
        return 0;
    std::string out;
    size_t from = 0;
    for (size_t at = 0; at < text.size(); at++)
        if (Library::is_separator(text[at])) {
            layout.paragraph(&text[from], (int)(at + 1 - from), out);
            from = at + 1;
        }
    layout.paragraph(text.data() + from, (int)(text.size() - from), out);
    std::fwrite(out.data(), 1, out.size(), stdout);
}
