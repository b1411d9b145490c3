// Compares ours with the peers, and prints how long each takes: a table for surveys and one for plays of whole tapes.
#include "tables.h"

#include <cstdio>

int main() {
    print_surveys();
    std::puts("");
    print_plays();
}
