/* refusals texts | names: the refusals of include/ishkrela.h, a line for each number that has a text or a
 * name. tools/try_c holds the texts against docs/REFUSALS.md and the names against the numbers of the
 * rules. Tries the text of every number, at every step, and of what is no refusal. */
#include <assert.h>
#include <stdio.h>
#include <string.h>
#include "ishkrela.h"

#define TEXT(number, name, text) [number] = text,
#define NAME(number, name, text) [ISHKRELA_REFUSED_##name] = #name,
static const char *const texts[256] = {ISHKRELA_REFUSALS(TEXT)};
static const char *const names[256] = {ISHKRELA_REFUSALS(NAME)};

int main(int argc, char **argv)
{
    if (argc != 2)
        return 2;
    for (uint32_t refusal = 0; refusal < 65536 * 256u; refusal++) {
        const char *text = texts[ISHKRELA_NUMBER(refusal)];
        text = refusal == 0 ? "no refusal" : text ? text : "unknown refusal";
        assert(strcmp(ishkrela_refusal_text(refusal), text) == 0);
    }
    const char *const *list = strcmp(argv[1], "names") == 0 ? names : texts;
    for (int number = 0; number < 256; number++)
        if (list[number])
            printf("%d %s\n", number, list[number]);
    return 0;
}
