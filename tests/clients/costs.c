/* What a filter costs, and what it reads: nodes, lambda operators in one another, and paths of properties. */
#include "checks.h"

#define NESTED                                                                                                         \
    "{\"$Version\":\"4.01\",\"Mini\":{\"Item\":{\"$Kind\":\"EntityType\",\"ID\":{\"$Type\":\"Edm.Int32\"},"            \
    "\"Name\":{},\"Home\":{\"$Type\":\"Mini.Home\"},\"Parts\":{\"$Collection\":true,\"$Type\":\"Mini.Part\"}},"       \
    "\"Home\":{\"$Kind\":\"ComplexType\",\"City\":{}},"                                                                \
    "\"Part\":{\"$Kind\":\"ComplexType\",\"Qty\":{\"$Type\":\"Edm.Int32\"},"                                           \
    "\"Sub\":{\"$Collection\":true,\"$Type\":\"Mini.Part\"}}}}"

struct asked {
    const char *filter;
    uint64_t nodes, depth;
    const char *paths; /* each followed by a line feed */
    uint64_t count;
};

static const struct asked cases[] = {
    {"true", 1, 0, "", 0},
    {"ID eq 1", 3, 0, "ID\n", 1},
    {"ID eq 1 or Name eq 'a' or ID eq 2", 11, 0, "ID\nName\n", 2},
    {"Home/City eq Name", 4, 0, "Home/City\nHome\nName\n", 3},
    {"Parts/any()", 2, 0, "Parts\n", 1},
    {"Parts/any(p:p/Qty gt 1) and Name eq 'a'", 10, 1, "Parts\nParts/Qty\nName\n", 3},
    {"Parts/all(p:p/Sub/any(s:s/Qty eq p/Qty)) or Parts/any(p:p/Qty eq 1)", 17, 2,
     "Parts\nParts/Sub\nParts/Sub/Qty\nParts/Qty\n", 4},
};

static void paths_at(const odfilter_handle *filter, const struct asked *asked, size_t length)
{
    odfilter_buffer paths = {block(length), length};
    odfilter_answer answer = unwritten(), wanted = {0};
    int is_whole = strlen(asked->paths) <= length;
    wanted.length = strlen(asked->paths);
    wanted.number = is_whole ? asked->count : 0;
    check(asked->filter,
          odfilter_property_paths(filter, paths, &answer) == (is_whole ? ODFILTER_OK : ODFILTER_TOO_SMALL));
    check(asked->filter, is_answer(answer, wanted));
    check(asked->filter, !is_whole || !memcmp(paths.at, asked->paths, wanted.length));
    check(asked->filter, is_whole || length == 0 || paths.at[0] == 0x5a);
    free(paths.at);
}

int main(void)
{
    odfilter_handle *schema = schema_of(NESTED), *type = type_of(schema, "Mini.Item");
    size_t number, length;
    for (number = 0; number < sizeof cases / sizeof *cases; number++) {
        const struct asked *asked = &cases[number];
        odfilter_handle *filter = filter_of(type, asked->filter);
        odfilter_answer answer = unwritten(), wanted = {0};
        wanted.number = asked->nodes;
        check(asked->filter, odfilter_node_count(filter, &answer) == ODFILTER_OK && is_answer(answer, wanted));
        answer = unwritten();
        wanted.number = asked->depth;
        check(asked->filter, odfilter_lambda_depth(filter, &answer) == ODFILTER_OK && is_answer(answer, wanted));
        for (length = 0; length <= strlen(asked->paths) + 1; length++)
            paths_at(filter, asked, length);
        odfilter_free(&filter);
    }
    odfilter_free(&type);
    odfilter_free(&schema);
    return end();
}
