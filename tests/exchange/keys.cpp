// Indexes of libxbase64: makes one, or lists the records of one in its order.
#include "xbase_numbers.h"
#include <cstdio>
#include <cstdlib>
#include <cstring>
#include <string>

// make LENGTH: a table OTHER.DBF and an index OTHER.NDX on its field K, of the keys on standard input
static int make(int length) {
    xbSchema fields[] = {{"K", 'C', static_cast<unsigned char>(length), 0}, {"", 0, 0, 0}};
    xbXBase base;
    xbDbf table(&base);
    xbNdx index(&table);
    if (table.CreateDatabase("OTHER.DBF", fields, 1) != 0) return 1;
    if (index.CreateIndex("OTHER.NDX", "K", 0, 1) != 0) return 2;
    char line[256];
    while (std::fgets(line, sizeof line, stdin) != nullptr) {
        line[std::strcspn(line, "\n")] = 0;
        table.BlankRecord();
        table.PutField(static_cast<xbShort>(0), line);
        if (table.AppendRecord() != 0) return 3;
    }
    index.CloseIndex();
    table.CloseDatabase();
    return 0;
}

// list TABLE INDEX: the numbers of the records in the order of the index
static int list(const char *table_name, const char *index_name) {
    xbXBase base;
    xbDbf table(&base);
    if (table.OpenDatabase(table_name) != 0) return 1;
    xbNdx index(&table);
    if (index.OpenIndex(index_name) != 0) return 2;
    if (table.NoOfRecords() == 0) return 0;
    xbShort answer = index.GetFirstKey();
    while (answer == 0) {
        std::printf("%lu\n", static_cast<unsigned long>(table.GetCurRecNo()));
        answer = index.GetNextKey();
    }
    table.CloseDatabase();
    return 0;
}

int main(int count, char **words) {
    if (count == 3 && std::strcmp(words[1], "make") == 0) return make(std::atoi(words[2]));
    if (count == 4 && std::strcmp(words[1], "list") == 0) return list(words[2], words[3]);
    return 9;
}
