// A program in C++17 over the installed library: two grids of one text, and handles that free themselves.
#include <bidigrid.h>
#include <iostream>
#include <stdexcept>
#include <string>
#include <string_view>

static void must(std::uint32_t answer)
{
    if (answer != BIDIGRID_OK)
        throw std::runtime_error(bidigrid_fault_name(answer));
}

struct tables : bidigrid_tables {
    tables() : bidigrid_tables BIDIGRID_NONE { must(bidigrid_tables_unicode(this, false)); }
    ~tables() { bidigrid_tables_free(this); }
    tables(const tables &) = delete;
    tables &operator=(const tables &) = delete;
};

struct picture : bidigrid_picture {
    picture(tables &by, std::uint32_t width, std::string_view text) : bidigrid_picture BIDIGRID_NONE
    {
        must(bidigrid_picture_new(this, &by, width, BIDIGRID_BASE_AUTO, text.data(), text.size()));
    }
    ~picture() { bidigrid_picture_free(this); }
    picture(const picture &) = delete;
    picture &operator=(const picture &) = delete;

    std::string print() const
    {
        std::size_t size = 0;
        bidigrid_picture_print(this, nullptr, 0, &size);
        std::string all(size, ' ');
        must(bidigrid_picture_print(this, all.data(), all.size(), &size));
        return all;
    }
};

int main()
{
    tables by;
    for (std::uint32_t width : {8, 4})
        std::cout << picture(by, width, "ab \u05D0\u05D1\u05D2").print();
}
