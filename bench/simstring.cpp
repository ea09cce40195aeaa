// SimString (Debian's simstring-dev) for bench/measure.c: a database of some names, with one more name for every size,
// so that no search is charged for a file that is not there.
#include <cstddef>
#include <fstream>
#include <iterator>
#include <string>
#include <vector>

#include <simstring/simstring.h>

namespace {

typedef simstring::ngram_generator generator;
typedef simstring::writer_base<std::string, generator> writer;

struct database {
    simstring::reader reader;
    std::vector<std::string> found;
};

// No name of a register holds this byte, so names of it share no feature with a query.
const char filler = '\2';

bool copy(const std::string &from, const std::string &to)
{
    std::ifstream in(from.c_str(), std::ios::binary);
    std::ofstream out(to.c_str(), std::ios::binary);
    out << in.rdbuf();
    return in.good() && out.good();
}

// No name has 1 or 2 features, and SimString looks for such names by Dice: a table that holds nothing a query has.
bool fill_below(const std::string &path)
{
    const std::string other = path + ".filler";
    generator grams(3, true);
    writer into(grams, other);
    into.insert(std::string(1, filler));
    return into.close() && copy(other + ".3.cdb", path + ".1.cdb") && copy(other + ".3.cdb", path + ".2.cdb");
}

}  // namespace

extern "C" void *simstring_make(const char *path, const char *const *names, size_t count)
{
    generator grams(3, true);
    writer into(grams, path);
    if (into.fail())
        return NULL;
    for (size_t at = 0; at < count; at++)
        into.insert(names[at]);
    for (size_t length = 1; length <= 200; length++)
        into.insert(std::string(length, filler));
    if (!into.close() || !fill_below(path))
        return NULL;
    database *made = new database();
    if (!made->reader.open(path))
        return NULL;
    return made;
}

// How many names a search lists. Measures by the rule's numbers: 1 Dice, 2 Jaccard, 3 cosine, 4 overlap.
extern "C" size_t simstring_search(void *of, const char *query, int measure, double threshold)
{
    static const int measures[] = { simstring::exact, simstring::dice, simstring::jaccard, simstring::cosine, simstring::overlap };
    database *in = static_cast<database *>(of);
    in->found.clear();
    in->reader.retrieve(std::string(query), measures[measure], threshold, std::back_inserter(in->found));
    return in->found.size();
}

extern "C" const char *simstring_found(void *of, size_t at)
{
    return static_cast<database *>(of)->found[at].c_str();
}

extern "C" void simstring_drop(void *of)
{
    delete static_cast<database *>(of);
}
