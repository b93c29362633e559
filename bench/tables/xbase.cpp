// The works of bench/tables in libxbase64, in a folder that has its tables and indexes: xbase WORK, or xbase make,
// which makes the indexes.
#include "../../tests/exchange/xbase_numbers.h"
#include <cstdio>
#include <cstdlib>
#include <cstring>
#include <memory>
#include <string>
#include <vector>

static xbXBase base;

static void check(xbShort answer) {
    if (answer != 0) {
        std::fprintf(stderr, "xbase: %d\n", answer);
        std::exit(1);
    }
}

static std::unique_ptr<xbDbf> opened(const char *name) {
    auto table = std::make_unique<xbDbf>(&base);
    check(table->OpenDatabase(name));
    return table;
}

static std::unique_ptr<xbNdx> index_of(xbDbf &table, const char *name) {
    auto index = std::make_unique<xbNdx>(&table);
    check(index->OpenIndex(name));
    return index;
}

static void make(const char *table_name, const char *name, const char *key) {
    auto table = opened(table_name);
    xbNdx index(table.get());
    check(index.CreateIndex(name, key, 0, 1));
    check(index.ReIndex());
}

static const char *const KEYS[] = {"CODE",      "PART",      "CODE+PART",     "PART+CODE",
                                   "CODE+CODE", "PART+PART", "CODE+PART+CODE"};

static void make_all() {
    make("STOCK.DBF", "SI.NDX", "PART");
    make("ORD.DBF", "OC.NDX", "CODE+PART");
    make("NEW1.DBF", "N0.NDX", KEYS[0]);
    for (int i = 0; i < 7; i++) make("NEW7.DBF", ("N" + std::to_string(i + 1) + ".NDX").c_str(), KEYS[i]);
}

static void scan() {
    auto table = opened("ORD.DBF");
    xbShort qty = table->GetFieldNo("QTY");
    long sum = 0;
    for (xbShort a = table->GetFirstRecord(); a == 0; a = table->GetNextRecord()) sum += table->GetLongField(qty);
    std::printf("%ld\n", sum);
}

static long count_shown(xbDbf &table) {
    xbShort qty = table.GetFieldNo("QTY"), code = table.GetFieldNo("CODE");
    char text[8];
    long count = 0;
    for (xbShort a = table.GetFirstRecord(); a == 0; a = table.GetNextRecord()) {
        if (table.GetLongField(qty) <= 50) continue;
        table.GetField(code, text);
        if (std::strncmp(text, "C3", 2) < 0) count++;
    }
    return count;
}

static void skipped(int turns) {
    auto table = opened("ORD.DBF");
    long count = 0;
    for (int turn = 0; turn < turns; turn++) count = count_shown(*table);
    std::printf("%ld\n", count);
}

static void posted() {
    auto orders = opened("ORD.DBF"), stock = opened("STOCK.DBF");
    auto index = index_of(*stock, "SI.NDX");
    xbShort part = orders->GetFieldNo("PART"), qty = orders->GetFieldNo("QTY"), onhand = stock->GetFieldNo("ONHAND");
    char text[8];
    for (xbShort a = orders->GetFirstRecord(); a == 0; a = orders->GetNextRecord()) {
        orders->GetField(part, text);
        if (index->FindKey(text) != XB_FOUND) std::exit(2);
        check(stock->PutLongField(onhand, stock->GetLongField(onhand) - orders->GetLongField(qty)));
        check(stock->PutRecord());
    }
    long sum = 0;
    for (xbShort a = stock->GetFirstRecord(); a == 0; a = stock->GetNextRecord()) sum += stock->GetLongField(onhand);
    std::printf("%ld\n", sum);
}

static void appended(const char *name, int first, int count) {
    auto table = opened(name);
    std::vector<std::unique_ptr<xbNdx>> indexes;
    for (int i = first; i < first + count; i++) {
        auto file = "N" + std::to_string(i) + ".NDX";
        indexes.push_back(index_of(*table, file.c_str()));
    }
    char code[8], part[8];
    for (int i = 1; i <= 50000; i++) {
        std::snprintf(code, sizeof code, "%4d", i * 7919 % 1000);
        std::snprintf(part, sizeof part, "%6d", static_cast<int>(static_cast<long>(i) * 7919 % 100003));
        check(table->BlankRecord());
        table->PutLongField(static_cast<xbShort>(0), i);
        table->PutField(1, code);
        table->PutField(2, part);
        table->PutLongField(3, i % 90);
        table->PutField(4, "19850115");
        table->PutField(5, "T");
        check(table->AppendRecord());
    }
}

static void reported() {
    auto table = opened("ORD.DBF");
    auto index = index_of(*table, "OC.NDX");
    xbShort code = table->GetFieldNo("CODE"), qty = table->GetFieldNo("QTY");
    char text[8], last[8] = "";
    long sum = 0;
    for (xbShort a = index->GetFirstKey(); a == 0; a = index->GetNextKey()) {
        table->GetField(code, text);
        if (std::strcmp(text, last) != 0) {
            std::printf("%s %ld\n", last, sum);
            std::strcpy(last, text);
            sum = 0;
        }
        sum += table->GetLongField(qty);
    }
    std::printf("%s %ld\n", last, sum);
}

static void replaced() {
    auto table = opened("ORD.DBF");
    xbShort qty = table->GetFieldNo("QTY");
    for (xbShort a = table->GetFirstRecord(); a == 0; a = table->GetNextRecord()) {
        check(table->PutLongField(qty, table->GetLongField(qty) + 1));
        check(table->PutRecord());
    }
}

static void rekeyed() {
    auto table = opened("ORD.DBF");
    auto index = index_of(*table, "OC.NDX");
    xbShort code = table->GetFieldNo("CODE"), part = table->GetFieldNo("PART");
    char text[8];
    for (xbULong number = 1; number <= 100000; number++) {
        check(table->GetRecord(number));
        table->GetField(part, text);
        check(table->PutField(code, text + 2));
        check(table->PutRecord());
    }
}

int main(int count, char **words) {
    std::string work = count == 2 ? words[1] : "";
    if (work == "make") make_all();
    else if (work == "scan") scan();
    else if (work == "shown") skipped(1);
    else if (work == "skipped") skipped(10);
    else if (work == "posted") posted();
    else if (work == "appended0") appended("NEW0.DBF", 0, 0);
    else if (work == "appended1") appended("NEW1.DBF", 0, 1);
    else if (work == "appended7") appended("NEW7.DBF", 1, 7);
    else if (work == "reported") reported();
    else if (work == "replaced") replaced();
    else if (work == "rekeyed") rekeyed();
    else if (work == "packed") check(opened("MARKED.DBF")->PackDatabase(0));
    else if (work == "indexed") make("ORD.DBF", "MADE.NDX", "CODE+PART");
    else return 9;
    return 0;
}
