/* The settings of a database under libFuzzer (clients/c/fuzz): the parameters of a URI, as K=V&K=V, and
 * behind a newline a file of credentials. No file is opened.
 *
 * What names a CA or a certificate is never ignored: either it is refused, or what is asked for goes by TLS.
 */
#include "fuzz_text.h"

#include <stdlib.h>
#include <sys/stat.h>

static FILE *open_memory(const char *path, const char *how);
static char *next_line(char *line, int room, FILE *file);
static struct pagelog_tls *make(const void *files, char *why, size_t room);

#define fopen                   open_memory
#define fgets                   next_line
#define fclose(file)            ((void)(file))
#define fileno(file)            ((void)(file), 0)
#define fstat(descriptor, told) ((void)(descriptor), (told)->st_mode = S_IFREG | 0600, 0)
#include "../pagelog_vfs_settings.c"
#undef fopen
#undef fgets
#undef fclose
#undef fileno
#undef fstat
#define pagelog_tls_new make
#undef FILES
#define FILES TLS_FILES
#include "../pagelog_vfs_tls.c"

enum { PARAMETERS = 24 };

static void must(const char *what, bool holds) {
    if (holds) return;
    fprintf(stderr, "fuzz_settings: %s\n", what);
    abort();
}

static char credentials[2048];
static const char *unread;

/* The file is what is unread. */
static FILE *open_memory(const char *path, const char *how) {
    (void)path, (void)how;
    unread = credentials;
    return *credentials ? (FILE *)(void *)&unread : NULL;
}

static char *next_line(char *line, int room, FILE *file) {
    size_t length = 0;
    must("it is open", file == (FILE *)(void *)&unread && room > 1);
    while (*unread && length + 1 < (size_t)room && (length == 0 || line[length - 1] != '\n'))
        line[length++] = *unread++;
    line[length] = 0;
    return length > 0 ? line : NULL;
}

/* Whoever is believed by these files: no file is read. */
static struct pagelog_tls *make(const void *given, char *why, size_t room) {
    static char somebody;
    const struct pagelog_tls_files *files = given;
    bool is_good = files->sslrootcert && !files->sslcert == !files->sslkey;
    if (!is_good) snprintf(why, room, "sslrootcert: it is missing");
    return is_good ? (struct pagelog_tls *)&somebody : NULL;
}

/* Splits the text into parameters; how many there are. */
static int split(char *text, const char *parameters[2 * PARAMETERS]) {
    int count = 0;
    char *rest = NULL;
    for (char *each = strtok_r(text, "&", &rest); each && count < PARAMETERS;
         each = strtok_r(NULL, "&", &rest)) {
        char *value = strchr(each, '=');
        if (value == each) continue;
        if (value) *value++ = 0;
        parameters[2 * count] = each;
        parameters[2 * count++ + 1] = value ? value : "";
    }
    return count;
}

static void forget(void) {
    for (struct made *made = all_made, *next; made; made = next) {
        next = made->next;
        free(made);
    }
    all_made = NULL;
}

int LLVMFuzzerTestOneInput(const uint8_t *bytes, size_t size) {
    static struct pagelog_file_options options;
    static struct settings settings;
    char text[2048];
    const char *parameters[2 * PARAMETERS];
    if (size >= sizeof text) return 0;
    memcpy(text, bytes, size);
    text[size] = 0;
    char *file = strchr(text, '\n');
    if (file) *file++ = 0;
    strcpy(credentials, file ? file : "");
    int count = split(text, parameters);
    sqlite3_filename uri = sqlite3_create_filename("shop", "", "", count, parameters);
    must("memory", uri != NULL);
    memset(&options, 0, sizeof options);
    memset(&settings, 0, sizeof settings);
    const char *wrong = pagelog_read_settings(uri, &options, &settings);
    const char *mode = sqlite3_uri_parameter(uri, "sslmode");
    bool is_named = sqlite3_uri_parameter(uri, "sslrootcert") || sqlite3_uri_parameter(uri, "sslcert") ||
                    sqlite3_uri_parameter(uri, "sslkey");
    bool wants = is_named || (mode && strcmp(mode, "disable") != 0);
    must("it is refused, or goes by TLS", wrong || !wants || options.service.tls);
    must("why ends", strnlen(settings.why, sizeof settings.why) < sizeof settings.why);
    must("the address ends", strnlen(settings.address, sizeof settings.address) < sizeof settings.address);
    sqlite3_free_filename((char *)uri);
    forget();
    return 0;
}
