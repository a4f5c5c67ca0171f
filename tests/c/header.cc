// header.cc - the header alone, from C++: it compiles, links and has the layout of the exports.
#include "mvstore.h"

static_assert(sizeof(mvstore_chunk) == 24 && offsetof(mvstore_chunk, version) == 16, "chunk");
static_assert(sizeof(mvstore_value) == 24 && offsetof(mvstore_value, at) == 8, "value");
static_assert(sizeof(mvstore_entry) == 48 && offsetof(mvstore_entry, number) == 8, "entry");
static_assert(sizeof(mvstore_count_of) == 16 && offsetof(mvstore_count_of, count) == 8, "count");
static_assert(sizeof(mvstore_id) == 16 && offsetof(mvstore_id, id) == 8, "id");
static_assert(sizeof(mvstore_view) == 8 && offsetof(mvstore_view, edition) == 0, "view");
static_assert(MVSTORE_VERSION_MAJOR == 0 && MVSTORE_VERSION_MINOR >= 2, "version");

int main()
{
    const mvstore_view second = mvstore_view_of(MVSTORE_EDITION_2), forgotten = {};
    const mvstore_id id = mvstore_map(nullptr, 0, second, nullptr, 0);
    if (mvstore_newest(nullptr, 0, second).refusal != MVSTORE_BAD_IMAGE_SIZE)
        return 1;
    if (mvstore_newest(nullptr, 0, forgotten).refusal != MVSTORE_BAD_ARGUMENT)
        return 1;
    return id.refusal == MVSTORE_BAD_ARGUMENT && *mvstore_refusal_text(id.refusal) != '\0' ? 0 : 1;
}
