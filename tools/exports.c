/* External definitions of the functions that the headers have inline, for callers that read no header of C, and the
   version. The bodies and types are those of the headers, taken in under other names. */
#define tilde_words inline_tilde_words
#define tilde_window inline_tilde_window
#define tilde_table_begin inline_tilde_table_begin
#define tilde_table_boolean inline_tilde_table_boolean
#define tilde_table_integer inline_tilde_table_integer
#define tilde_table_character inline_tilde_table_character
#define tilde_table_string inline_tilde_table_string
#define tilde_table_list_begin inline_tilde_table_list_begin
#define tilde_table_list_end inline_tilde_table_list_end
#define tilde_table_end inline_tilde_table_end
#include <tilde_table.h>
#undef tilde_words
#undef tilde_window
#undef tilde_table_begin
#undef tilde_table_boolean
#undef tilde_table_integer
#undef tilde_table_character
#undef tilde_table_string
#undef tilde_table_list_begin
#undef tilde_table_list_end
#undef tilde_table_end

#define EXPORT(name) extern __typeof__(inline_##name) name __attribute__((alias("inline_" #name)))

EXPORT(tilde_words);
EXPORT(tilde_window);
EXPORT(tilde_table_begin);
EXPORT(tilde_table_boolean);
EXPORT(tilde_table_integer);
EXPORT(tilde_table_character);
EXPORT(tilde_table_string);
EXPORT(tilde_table_list_begin);
EXPORT(tilde_table_list_end);
EXPORT(tilde_table_end);

const char *tilde_version(void)
{
    return TILDE_VERSION;
}
